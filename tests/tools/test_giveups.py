"""dev/giveups: which code answers out of memory by itself."""
import importlib.machinery
import importlib.util
import sys
import types
import unittest

from trial import TOP


def loaded() -> types.ModuleType:
    """The program as a module."""
    loader = importlib.machinery.SourceFileLoader("giveups", str(TOP / "dev/giveups"))
    spec = importlib.util.spec_from_loader("giveups", loader)
    assert spec
    module = importlib.util.module_from_spec(spec)
    sys.modules["giveups"] = module  # a dataclass looks its module up
    loader.exec_module(module)
    return module


# What gives up by itself, each in one place.
GIVES_UP = [
    "Err(AllocError)",
    "return Err(AllocError);",
    "return Err(Fault::Memory);",
    "Ok(Ended::Memory)",
    "x.ok_or(AllocError)?",
    "x.ok_or(PutFault::Memory)?",
    "x.ok_or_else(|| AllocError)",
    "x.map_err(|_| Stop::Memory)",
    "x.map_err(|error: Other| Stop::Memory)",
    "x.unwrap_or(Err(std::alloc::AllocError))",
    "match x { Ok(y) => Ok(y), Err(_) => Err(AllocError) }",
    "match x { Ok(y) => Ok(y), Err(Fault::Memory) | Err(Fault::Other) => Err(Stop::Memory) }",
    "match x { Ok(y) => Ok(y), Err(Fault::Memory | Fault::Other) => { Err(Stop::Memory) } }",
    "match x { Err(Fault::Memory) => {} _ => return Err(Stop::Memory) }",
    "match x { Err(Memory::Other) => Err(AllocError), y => y }",
    "match x { _ if y == Fault::Memory => Err(AllocError), y => y }",
    "match x { Err(y) if y.kind() == Fault::Memory || z => Err(AllocError), y => y }",
    "match x { Err(y) if y.kind() != Fault::Memory => Err(AllocError), y => y }",
    "let Ok(y) = x else { return Err(AllocError); };",
    "let Some(y) = x else { return Err(AllocError) };",
    "if rows > LIMIT { return Err(AllocError); }",
    "if x == Fault::Memory || rows > 5 { return Err(AllocError); }",
    "if x != Fault::Memory { return Err(AllocError); }",
    "if x == Fault::Other && y != Fault::Memory { return Err(AllocError); }",
    "if x == Fault::Memory { 0 } else { return Err(AllocError); }",
    "if let Err(_) = x { return Err(AllocError); }",
    "while a < b { return Err(AllocError); }",
    "for x in y { if a | b { return Err(AllocError); } }",
    "let f = |_code: u32, _texts: &Items<Text>| Err(AllocError);",
    "let f = |x: u32| -> Result<u32, AllocError> { Err(AllocError) };",
    "Stopped { why: Stop::Memory, at }",
    "let x: Result<u32, AllocError> = Err(AllocError);",
    "AllocError.into()",
    "vec![in alloc; Stop::Memory]?",
    "no_number_left(5000000000)",
    "no_number_left(u64::MAX)",
    "no_number_left(LIMIT as u64 + 1)",
    "no_number_left(LIMIT.saturating_add(1))",
    "no_number_left(if true { 5000000000 } else { LIMIT })",
    "let many = 5000000000; Err(no_number_left(many))",
    "let many: u64 = u64::from(u32::MAX) + 1; if full { return Err(no_number_left(many + 2)); }",
    "let few = 4; let many = few << 40; Err(no_number_left(many))",
    "let (many, _) = (LIMIT, 1); Err(no_number_left(many))",
    "if let Some(many) = Some(5000000000) { return Err(no_number_left(many)); }",
    "let Some(many) = LIMIT.checked_add(1) else { return 0; }; Err(no_number_left(many))",
    "let mut many = 5000000000; Err(no_number_left(many))",
    "if rows > 5 { let many = Sizes { rows: 5000000000 }; return Err(no_number_left(many.rows)); }",
    "ExitCode::from(9)",
    "ExitCode::from(9u8)",
    "ExitCode::from(NINE)",
    "ExitCode::from(4 + 5)",
    "let status = 9; ExitCode::from(status)",
    "Vec::with_capacity(alloc, usize::MAX)?",
    "Vec::with_capacity(alloc, ROWS)?",
    "Vec::with_capacity(alloc, count as usize * 1048576)?",
    "Vec::with_capacity(alloc, (count as usize * width).saturating_mul(1 << 20))?",
    "Index::with_capacity(alloc, count * count)?",
    "Index::with_capacity(alloc, count.saturating_mul(count))?",
    "self.cells.reserve(rows.len() << 20)?",
    "self.cells.reserve(rows.len().pow(2))?",
    "let room = 4294967296; list.reserve(room)?",
]

# What passes an answer on, or gives none.
GOES_ON = [
    "x?",
    "match x { Ok(y) => Ok(y), Err(AllocError) => Err(Stop::Memory) }",
    "match x { Err(Fault::Memory) => return Err(AllocError), Err(Fault::Other) => {} Ok(y) => y }",
    "match x { Err(A::Memory) | Err(B::Memory) => { if y { return Err(AllocError); } } z => z }",
    "match x { Err(ErrorKind::OutOfMemory) => AllocError, _ => unreachable!() }",
    "match x { Err(error) if error.kind() == ErrorKind::OutOfMemory => return Err(error), y => y }",
    "match x { Err(error) if error.kind() == ErrorKind::OutOfMemory => return Err(AllocError), y => y }",
    "match ending { Ending::Memory => 9, _ => 0 }",
    "x.map_err(|_: AllocError| Stop::Memory)",
    "x.map_err(|AllocError| Stop::Memory)",
    "if error.kind() == ErrorKind::OutOfMemory { return PutFault::Memory; }",
    "if let Err(Fault::Memory) = x { return Err(AllocError); }",
    "let is = x == Fault::Memory;",
    "matches!(x, Err(Fault::Memory))",
    "let Err(Fault::Memory) = x else { return Ok(()) };",
    "let x: Result<u32, AllocError> = y();",
    "let f = |x: u32| -> Result<u32, AllocError> { Ok(x) };",
    "Vec::<AllocError>::new(alloc)",
    "f::<Result<u32, AllocError>>(a < b)",
    "// return Err(AllocError)",
    "/* Err(AllocError) */",
    'println!("Err(AllocError)")',
    "if c == '\"' { x } // '",
    "let l = 'AllocError' == b'{';",
    "Err(no_number_left(rows.len() as u64))",
    "Err(no_number_left(count))",
    "let count = rows.len() as u64; Err(no_number_left(count))",
    "let count = LIMIT + before; Err(no_number_left(count))",
    "let mut count = 0; for row in rows { count += row.len(); } Err(no_number_left(count))",
    "let mut count = 0; for row in rows { count = 1 + count; } Err(no_number_left(count))",
    "let mut count = 0; add(&mut count); Err(no_number_left(count))",
    "let count = 5; let count = rows; Err(no_number_left(count))",
    "let Some(count) = before.checked_add(1) else { return 0; }; Err(no_number_left(count))",
    "if let Some(count) = rows.get(0) { return Err(no_number_left(count)); }",
    "ExitCode::from(status)",
    "ExitCode::from(8)",
    "ExitCode::from(0)",
    "match x { Err(AllocError) => ExitCode::from(9), Ok(y) => ExitCode::from(y) }",
    "x.map_or_else(|_: AllocError| ExitCode::from(9), |y| y)",
    "Vec::with_capacity(alloc, 0)?",
    "Vec::with_capacity(alloc, rows.len())?",
    "Vec::with_capacity(alloc, count as usize * width)?",
    "Vec::with_capacity(alloc, first.len().saturating_add(second.len()),)?",
    "self.before.reserve(1)?",
    "text.repeat(alloc, most + 1)?",
]

# Items, and how many places each has.
ITEMS = [
    ("impl From<AllocError> for Stop { fn from(_: AllocError) -> Self { Stop::Memory } }", 0),
    ("impl<T: Drop> From<AllocFailed<T>> for Stop { fn from(_: AllocFailed<T>) -> Self { Stop::Memory } }", 0),
    ("impl From<Other> for Stop { fn from(_: Other) -> Self { Stop::Memory } }", 1),
    ("impl X { ghost from_gives = { λ _ e. e ≡ Memory }; ghost use A.{Memory}; fn f() {} }", 0),
    ("fn f<F: Fn(AllocError) -> u32>(x: u32) -> Result<u32, AllocError> { Err(AllocError) }", 1),
    ("fn f() -> Result<u32, AllocError>\n    ensures { IfErr result (λ e. e ≡ Memory) }\n{ g() }", 0),
    ("fn f() requires full { 4 ≤ x' } ensures { ⊤ } { Err(AllocError) }", 1),
    ("struct S { ghost long: { e ≡ Memory }, error: AllocError }", 0),
    ("enum E { Other, Memory }", 0),
    ("const FULL: AllocError = AllocError;", 1),
    ("use std::alloc::{AllocError, Global};", 0),
    ("use std::alloc::{AllocError as Full, Global};", 1),
    ("type Full = AllocError;", 1),
    ("type Made<T> = Result<T, AllocError>;", 0),
    ("#[test]\nfn f() { Err(AllocError) }", 0),
    ("#[cfg(test)]\nmod tests { fn f() { Err(AllocError) } }\nfn g() {}", 0),
    ("#[inline]\nfn f() { Err(AllocError) }", 1),
    ("fn f() { fn g() { AllocError } AllocError }", 2),
    ("fn f(_: AllocError) { fn g() { AllocError } AllocError }", 1),
    ("fn f(_: AllocError) -> ExitCode { ExitCode::from(9) }", 0),
    ("fn f() -> ExitCode { ExitCode::from(9) }", 1),
    ("fn f(many: u64) { no_number_left(many) } fn g() { let many = 5000000000; no_number_left(many) }", 1),
]


class GiveUps(unittest.TestCase):
    def setUp(self) -> None:
        self.program = loaded()

    def count(self, text: str) -> int:
        return len(self.program.read_text("x.rt", text).places)

    def test_gives_up(self) -> None:
        for code in GIVES_UP:
            with self.subTest(code):
                self.assertEqual(self.count("fn f() { " + code + "\n}"), 1)

    def test_goes_on(self) -> None:
        for code in GOES_ON:
            with self.subTest(code):
                self.assertEqual(self.count("fn f() { " + code + "\n}"), 0)

    def test_items(self) -> None:
        for code, places in ITEMS:
            with self.subTest(code):
                self.assertEqual(self.count(code), places)

    def test_place(self) -> None:
        places = self.program.read_text("a.rt", "fn f() {}\n\nfn g() {\n    Err(AllocError)\n}\n").places
        self.assertEqual([(place.file, place.function, place.line) for place in places], [("a.rt", "g", 4)])

    def test_not_closed(self) -> None:
        for code in "fn f() {", "fn f() }", "match x { A => B C => D }":
            with self.subTest(code), self.assertRaises(ValueError):
                self.program.read_text("a.rt", code)

    def test_reasons(self) -> None:
        """A place without a reason and a reason without a place are wrong; one reason serves one place."""
        vars(self.program)["REASONS"] = {"a.rt f": "so", "b.rt g": "so"}
        place = self.program.Place
        first, again = place("a.rt", "f", 1), place("a.rt", "f", 2)
        second, other = place("b.rt", "g", 1), place("a.rt", "h", 1)
        for places, wrong in [([first, second], 0), ([first], 1), ([first, again, second], 1), ([other, second], 2)]:
            with self.subTest(places):
                self.assertEqual(len(list(self.program.faults(places))), wrong)
