"""The parser of mapping texts: the first fault is at clio's byte; behind it reading goes on; parts know their bytes."""
import pathlib
import random
import unittest
from typing import Optional

from grammar import Reader
from refusals import Limit, Refusal
from trial import TIMES, TOP

from clio_tools.mapping.names import faults_of_names
from clio_tools.mapping.parser import Parsed, parse
from clio_tools.mapping.places import Fault, Text
from clio_tools.mapping.printing import printed_line, printed_rule, printed_set
from clio_tools.mapping.schema import schema_of

PIECES = [b";", b"{", b"}", b"set ", b"line ", b'"', b"\\", b"\xc3", b"\xff", b"-", b"/", b"//", b" rule ", b"only ",
          b"by x", b"optional", b"=", b".",
          b"->", b"rows a from b;", b"1", b"(", b")", b",", b"\n", b"\x01", b"dep (x) -> (y);", b"from x", b"lookup"]
WHOLE = b"""mapping 3;
source {
  set a { x, y; key (x); dep (x) -> (y); ref (x) -> b (z) optional; set i { q; } }  // a set
  set b { z; }
}
target { set t { u; } }
line a.x -> t.u;
line "li\\"t" -> t.u;
line pair(a.x, a.y) -> t.u;
only a.x filled;
rule a(i, x, y), b(z) where m = trim(x) -> t(m), t("q\xc3\xa4");
"""
DRAWING = b"""mapping 2;
source { set ord { no, buyer, shop, sku; ref (buyer) -> man (id) optional; }
  set man { id, name, boss; ref (boss) -> man (id); } }
target { set sale { no, who; key (no); } set tree { t; set leaf { l; } } }
rows sale from ord with buyer, buyer.boss where no filled, (shop, sku).kind = "F";
rows leaf from ord by buyer.boss;
line man.name -> sale.who by buyer from ord where buyer = "";
line pair(man.name by buyer, man.name by buyer.boss) -> sale.who;
line man -> sale.who by (shop, sku).boss;
lookup man, ord;
rule ord(no = n, buyer = b) -> sale(no = n, who = "x");
"""


class Parsing(unittest.TestCase):
    def test_the_first_fault_is_at_clios_byte(self) -> None:
        r = random.Random("mapping texts")
        texts = [WHOLE] + [path.read_bytes() for path in sorted(TOP.glob("examples/**/mapping.clio"))]
        for number in range(600 * TIMES):
            text = mutated(r, r.choice(texts))
            self.assertEqual(place_of(parse(text)), place_of_clio(text), (number, text))

    def test_all_texts_of_the_examples_are_read(self) -> None:
        for path in pathlib.Path(TOP, "examples").glob("*/mapping.clio"):
            if path.parent.name != "refused":
                parsed = parse(path.read_bytes())
                sides = [schema_of(parsed.tree.source, "source"), schema_of(parsed.tree.target, "target")]
                found = [*parsed.faults, *sides[0].faults, *sides[1].faults]
                self.assertEqual(found + faults_of_names(parsed.tree, sides[0].schema, sides[1].schema), [], path)

    def test_what_is_printed_is_read_as_the_same(self) -> None:
        for text, drawing in (WHOLE, False), (DRAWING, True):
            tree = parse(text, drawing).tree
            parts = [printed_set(one) for one in tree.target.sets] + [printed_line(line) + "\n" for line in tree.lines]
            parts += [printed_rule(rule) + "\n" for rule in tree.rules]
            again = parse(("mapping 3; source { } target { " + "".join(parts[:len(tree.target.sets)]) + "}\n" +
                           "".join(parts[len(tree.target.sets):])).encode(), drawing)
            self.assertEqual(again.faults, ())
            self.assertEqual([printed_line(line) for line in again.tree.lines],
                             [printed_line(line) for line in tree.lines])
            self.assertEqual([printed_rule(rule) for rule in again.tree.rules],
                             [printed_rule(rule) for rule in tree.rules])
            self.assertEqual([printed_set(one) for one in again.tree.target.sets],
                             [printed_set(one) for one in tree.target.sets])

    def test_parts_know_their_bytes(self) -> None:
        tree = parse(DRAWING, True).tree
        self.assertEqual([text_of(DRAWING, item) for item in tree.items], DRAWING.decode().split("\n")[4:-1])
        line = tree.lines[0]
        self.assertEqual(text_of(DRAWING, line.arguments[0].by[0]), "buyer")
        self.assertEqual(text_of(DRAWING, line.tests[0]), 'buyer = ""')
        self.assertEqual([text_of(DRAWING, ref) for one in tree.source.sets for ref in one.refs],
                         ["ref (buyer) -> man (id) optional;", "ref (boss) -> man (id);"])
        self.assertEqual([comment.text for comment in parse(WHOLE).tree.comments], ["// a set"])

    def test_notes_are_faults_of_a_mapping(self) -> None:
        faults = parse(DRAWING).faults
        self.assertEqual({fault.kind for fault in faults}, {"note"})
        words = [text_of(DRAWING, fault) for fault in faults]
        self.assertEqual(words, ["rows", "rows", "by", "by", "from", "where", "by", "by", "->", "by", "lookup",
                                 "=", "=", "=", "="])

    def test_all_faults_come_at_once(self) -> None:
        text = (b"mapping 1;\nsource {\n  set a { x, y; ref (x) -> b (z) key (y); }\n  set b { z; ref (q) -> c (z); "
                b"}\n}\ntarget { set t { u v; } }\n"
                b"line a.x => t.u;\nline a.x -> t.u\nrule a(x) -> t(u);\nline 'x' -> t.w;\nonly a.x filled;\n")
        found = [(Text(text).place(fault.start)[1:], fault.kind) for fault in parse(text).faults]
        self.assertEqual(found, [((3, 34), "unexpected token"), ((6, 20), "unexpected token"),
                                 ((7, 10), "unexpected token"),
                                 ((9, 1), "unexpected token"), ((10, 6), "bad character"), ((11, 1), "version")])

    def test_names_are_looked_up(self) -> None:
        text = (b"mapping 2;\nsource { set a { x, x; ref (y) -> b (z); ref (x) -> c (z); set a { q; } } set b { z; ref "
                b"(z) -> b (z); } }\n"
                b"target { set fold { u; key (u, u); } }\nline A.x -> fold.u;\nline trim(a.x, a.x) -> fold.u;\nonly "
                b"b.z full;\n"
                b"rule b(x, y) where x = trim(w) -> fold(x);\n")
        tree = parse(text).tree
        source, target = schema_of(tree.source, "source"), schema_of(tree.target, "target")
        self.assertEqual([said(text, fault) for fault in source.faults + target.faults],
                         ["a: double name", "x: double name", "y: unknown name", "c: unknown name",
                          "ref (z) -> b (z);: cyclic links",
                          "fold: reserved name", "u: double name"])
        self.assertEqual([said(text, fault) for fault in faults_of_names(tree, source.schema, target.schema)],
                         ["A: unknown name", "trim: wrong number of cells", "full: unknown name",
                          "b: wrong number of cells", "x: unsafe variable",
                          "w: unsafe variable"])

    def test_a_fault_is_shown_at_its_word(self) -> None:
        text = "mapping 1;\r\nsource { set ä { x; } }".encode()
        fault = parse(text).faults[0]
        self.assertEqual(Text(text).shown("m", fault), "m:2:14: no name, text or mark begins with ä\n"
                         "  source { set ä { x; } }\n               ^")


def said(text: bytes, fault: Fault) -> str:
    """The word and the kind of a fault."""
    return f"{text_of(text, fault)}: {fault.kind}"


def text_of(text: bytes, part: "Fault | object") -> str:
    """The text of a part."""
    return text[getattr(part, "start"):getattr(part, "end")].decode()


def mutated(r: random.Random, text: bytes) -> bytes:
    """A text with some bytes taken out, put in, or changed."""
    made = bytearray(text)
    for _ in range(r.randrange(0, 4)):
        at, kind = r.randrange(len(made) + 1), r.randrange(4)
        if kind == 0:
            del made[at:at + r.randrange(1, 8)]
        elif kind == 1:
            made[at:at] = r.choice(PIECES)
        elif kind == 2:
            del made[at:]
        else:
            made[at:at + 1] = bytes([r.randrange(256)])
    return bytes(made)


def place_of(parsed: Parsed) -> Optional[tuple[str, Optional[int]]]:
    """The first fault as clio has it."""
    if not parsed.faults:
        return None
    fault = parsed.faults[0]
    kind = "unexpected token" if fault.kind in ("version", "note") else fault.kind
    return ("limit", None) if kind == "depth" else (kind, fault.start)


def place_of_clio(text: bytes) -> Optional[tuple[str, Optional[int]]]:
    """The fault of the second reading."""
    try:
        Reader(text).mapping()
    except Limit:
        return ("limit", None)
    except Refusal as refusal:
        kind, _, place = refusal.message.removeprefix("mapping: ").rpartition(" at byte ")
        return (kind, int(place))
    return None


if __name__ == "__main__":
    unittest.main()
