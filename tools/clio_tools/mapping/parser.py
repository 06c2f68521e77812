"""Reads a mapping text or a drawing. Behind a fault it goes on with the next statement or clause, so that all faults
come at once.

The first fault of a mapping is at the byte that clio names. Versions 1 to 3 are read; a word of a later version is a
fault, and is read."""
import functools
from typing import Callable, NamedTuple, Optional, TypeVar, Union

from .meanings import TESTS
from .places import Fault
from .tokens import Token, lexed
from .tree import (Argument, Atom, Cell, Dependency, Derived, Item, Key, Line, Lookup, Only, Place, Ref, Rows, Rule,
                   SetText, Side, Step, Test,
                   Tree)

KEPT = 4  # so many trees
DEPTH = 16  # how deep a set can be
DEEPEST = 128  # how deep sets are read, so that any text can be; what is deeper is left out
WORD, STRING = "a name", 'a text in "'
NOTES = {"rows": "`rows`", "lookup": "`lookup`", "by": "`by`", "from": "`from` on a line", "where": "`where` on a line",
         "->": "a line from a whole set", "=": "a cell with the name of its column"}
DEFAULT = ("no default for a missing link can be said: rules never take back what they said when a row comes that "
           "matches, so an unmatched link leaves a null. For an empty field it can: "
           'line "text" -> SET.COLUMN where FIELD = "";')
BOTH = ("tests follow each other with commas, and all must hold; there is no `or` and no `not`: write a second line, "
        "or "
        "a second `rows`")
HINTS = {"else": DEFAULT, "default": DEFAULT, "or": BOTH, "not": BOTH, "and": BOTH}
Found = TypeVar("Found")


class Parsed(NamedTuple):
    """What could be read, and all faults in the order of the text; without one the tree is the whole text."""

    tree: Tree
    faults: tuple[Fault, ...]


@functools.lru_cache(maxsize=KEPT)
def parse(content: bytes, drawing: bool = False) -> Parsed:
    """The tree of a mapping text, or of a drawing. Those of the last texts are kept, since no part ever changes."""
    parser = _Parser(content, drawing)
    tree = parser.whole()
    first: dict[tuple[str, int], Fault] = {}
    for fault in parser.faults:
        first.setdefault((fault.kind, fault.start), fault)
    return Parsed(tree, tuple(sorted(first.values(), key=lambda one: one.start)))


class _Stop(Exception):
    """The statement or clause can't be read on."""


class _Parser:
    """Reads from left to right; each step names all that can be next."""

    def __init__(self, content: bytes, drawing: bool) -> None:
        self.content, self.drawing = content, drawing
        self.tokens, self.comments = lexed(content)
        self.at = 0
        self.version = 1
        self.faults: list[Fault] = []

    # --- tokens ------------------------------------------------------------------------------------------------------

    @property
    def here(self) -> Token:
        return self.tokens[self.at]

    @property
    def before(self) -> int:
        """The byte behind the token that was taken last."""
        return self.tokens[self.at - 1].end if self.at else 0

    def take(self, *allowed: str) -> Token:
        """The next token, which must be one of these marks or words, or a name or text if that is allowed."""
        token = self.here
        if token.kind == "bad" and token.fault:
            self.stop(token.fault)
        if not _fits(token, allowed):
            self.stop(_unexpected(token, allowed))
        if token.fault:
            self.stop(token.fault)
        self.at += 1
        return token

    def is_next(self, *allowed: str) -> bool:
        """Whether the next token is one of these."""
        return _fits(self.here, allowed)

    def stop(self, fault: Fault) -> None:
        self.faults.append(fault)
        raise _Stop()

    def refuse(self, *allowed: str) -> None:
        """Goes past a token that can't be here."""
        token = self.here
        self.at += 1
        self.stop(token.fault if token.kind == "bad" and token.fault else _unexpected(token, allowed))

    def note(self, token: Token) -> None:
        """A fault if the text is no drawing, and this a note."""
        if not self.drawing:
            said = f"{NOTES[token.text]} can be in a drawing alone: name the file drawing.clio and run clio-rules"
            self.faults.append(Fault("note", token.start, token.end, said))

    def needs(self, version: int, token: Token) -> None:
        """A fault if the text is of an earlier version than a word takes."""
        if self.version < version:
            self.faults.append(Fault("version", token.start, token.end,
                                     f"`{token.text}` takes version {version}: begin with mapping {version};"))

    def try_to(self, read: Callable[[], Found], again: Callable[[], None]) -> Optional[Found]:
        """What is read, or None behind a fault, with the text read up to where it can go on."""
        try:
            return read()
        except _Stop:
            again()
            return None

    def skip_clause(self) -> None:
        """Goes on behind the next semicolon, or in front of a brace that closes the set, or behind one that was opened
        on the way."""
        while self.here.kind not in ("end", "}"):
            kind = self.here.kind
            self.at += 1
            if kind == ";":
                return
            if kind == "{":
                self.skip_braces()
                return

    def skip_braces(self) -> None:
        """Goes on behind the brace that closes what was opened last."""
        depth = 1
        while depth and self.here.kind != "end":
            depth += {"{": 1, "}": -1}.get(self.here.kind, 0)
            self.at += 1

    def skip_statement(self) -> None:
        """Goes on behind the next semicolon, or in front of a word that begins a statement and its line."""
        while self.here.kind != "end" and not self.begins():
            self.at += 1
            if self.tokens[self.at - 1].kind == ";":
                return

    def begins(self) -> bool:
        """Whether a statement begins at this word, as far as its line shows."""
        return self.is_next("line", "rule", "only", "rows",
                            "lookup") and b"\n" in self.content[self.before:self.here.start]

    # --- sets --------------------------------------------------------------------------------------------------------

    def whole(self) -> Tree:
        """The whole text."""
        version_at = self.try_to(self.head, self.skip_clause) or self.tokens[0]
        source, target = self.side("source"), self.side("target")
        items: list[Item] = []
        while self.here.kind != "end":
            item = self.try_to(self.item, self.skip_statement)
            if item:
                items.append(item)
        return Tree(self.content, self.version, version_at, source, target, tuple(items), self.comments, self.tokens)

    def head(self) -> Token:
        self.take("mapping")
        version = self.take("1", "2", "3")
        self.version = int(version.text)
        self.take(";")
        return version

    def side(self, name: str) -> Side:
        """The source or the target."""
        start = self.here.start
        if self.try_to(lambda: (self.take(name), self.take("{")),
                       lambda: self.skip_to(name)) is None and self.is_next("{"):
            self.at += 1
        sets = []
        while not self.is_next("}") and self.here.kind != "end" and not self.ends_side(name):
            one = self.try_to(self.root, self.skip_clause)
            if one:
                sets.append(one)
        self.try_to(lambda: self.take("set", "}"), lambda: None)
        return Side(start, self.before, tuple(sets))

    def skip_to(self, name: str) -> None:
        """Goes on at the brace that opens a side, if the next words may be its beginning."""
        while self.here.kind not in ("{", "}", "end") and not self.begins() and not (name == "source"
                                                                                     and self.is_next("target")):
            self.at += 1
            if self.tokens[self.at - 1].text == name:
                return

    def ends_side(self, name: str) -> bool:
        """Whether the brace of a side seems to be forgotten."""
        return (name == "source" and self.is_next("target")) or self.begins()

    def root(self) -> SetText:
        if not self.is_next("set"):
            self.refuse("set", "}")
        return self.set(1)

    def set(self, depth: int) -> SetText:
        """A set from its first word."""
        start = self.take("set").start
        name = self.take(WORD)
        self.take("{")
        columns = self.try_to(lambda: self.listed(lambda: self.take(WORD), ";"), self.skip_clause) or ()
        clauses = []
        while not self.is_next("}") and self.here.kind != "end" and not self.begins():
            clause = self.try_to(lambda: self.clause(depth), self.skip_clause)
            if clause:
                clauses.append(clause)
        self.try_to(lambda: self.take("key", "ref", "set", "}", *["dep"] * (self.version > 2)), lambda: None)
        return SetText(start, self.before, name, columns, tuple(clauses))

    def clause(self, depth: int) -> Union[Key, Dependency, Ref, SetText]:
        """A key, a dependency, a ref or an inner set."""
        if self.is_next("set"):
            if depth == DEPTH:
                self.faults.append(Fault("depth", self.here.start, self.here.end,
                                         f"a set is inside others up to depth {DEPTH}"))
            if depth == DEEPEST:
                raise _Stop
            return self.set(depth + 1)
        if self.is_next("dep"):
            self.needs(3, self.here)
        word = self.take("key", "ref", "set", "}", *["dep"] * (self.version > 2 or self.is_next("dep")))
        columns = self.words()
        if word.text == "key":
            self.take(";")
            return Key(word.start, self.before, columns)
        self.take("->")
        if word.text == "dep":
            decided = self.words()
            self.take(";")
            return Dependency(word.start, self.before, columns, decided)
        return self.ref(word, columns)

    def ref(self, word: Token, columns: tuple[Token, ...]) -> Ref:
        other, referred, optional = self.take(WORD), self.words(), None
        if self.is_next("optional"):
            self.needs(2, self.here)
            optional = self.take("optional")
        self.take(";", *["optional"] * (optional is None and self.version > 1))
        return Ref(word.start, self.before, columns, other, referred, optional)

    # --- lists -------------------------------------------------------------------------------------------------------

    def listed(self, read: Callable[[], Found], *ends: str) -> tuple[Found, ...]:
        """One or more parts with commas between them, up to behind one of these ends."""
        parts = [read()]
        while self.take(",", *ends).kind == ",":
            parts.append(read())
        return tuple(parts)

    def while_comma(self, read: Callable[[], Found]) -> tuple[Found, ...]:
        """One or more parts with commas between them, up to what is no comma."""
        parts = [read()]
        while self.is_next(","):
            self.at += 1
            parts.append(read())
        return tuple(parts)

    def words(self) -> tuple[Token, ...]:
        """Names in parentheses."""
        self.take("(")
        return self.listed(lambda: self.take(WORD), ")")

    # --- statements --------------------------------------------------------------------------------------------------

    def item(self) -> Item:
        """A statement."""
        kinds: dict[str, Callable[[Token], Item]] = {"line": self.line, "rule": self.rule, "only": self.only,
                                                     "rows": self.rows,
                                                     "lookup": self.lookup}
        in_drawing = ("rows", "lookup") if self.drawing else ()
        if not self.is_next(*kinds):
            self.refuse("line", "rule", *["only"] * (self.version > 1), *in_drawing)
        word = self.take(*kinds)
        if word.text in ("rows", "lookup"):
            self.note(word)
        if word.text == "only":
            self.needs(2, word)
        return kinds[word.text](word)

    def line(self, word: Token) -> Line:
        """A line behind its first word."""
        literal, conversion, arguments = self.line_from()
        target = self.column()
        first = arguments[0] if arguments and conversion is None and not arguments[0].by else None
        if first and self.is_next("by"):
            by = self.by()
            arguments = (Argument(first.start, first.end, first.set, first.column, by),)
        source: Optional[Token] = None
        tests: tuple[Test, ...] = ()
        if self.is_next("from"):
            self.note(self.here)
            self.at += 1
            source = self.take(WORD)
        if self.is_next("where"):
            self.note(self.here)
            tests = self.tests()
        self.take(";", *(self.notes_left(first, arguments, source, tests) if self.drawing else []))
        return Line(word.start, self.before, literal, conversion, arguments, target, source, tests)

    def notes_left(self, first: Optional[Argument], arguments: tuple[Argument, ...], source: Optional[Token],
                   tests: tuple[Test, ...]) -> list[str]:
        """The words and marks that can follow the notes of a line."""
        if tests:
            return [","]
        if source:
            return ["where"]
        by = arguments[0].by if first else ()
        return (["."] if by else ["by"] if first else []) + ["from", "where"]

    def line_from(self) -> tuple[Optional[Token], Optional[Token], tuple[Argument, ...]]:
        """What a line begins with, up to behind its arrow."""
        first = self.take(WORD, STRING)
        if first.kind == "string":
            self.take("->")
            return first, None, ()
        if self.is_next("->"):
            self.note(self.here)
            self.at += 1
            return None, None, (Argument(first.start, first.end, first, None),)
        if self.take(".", "(", *["->"] * self.drawing).kind == "(":
            arguments = self.listed(lambda: self.argument(self.take(WORD)), ")")
            self.take("->")
            return None, first, arguments
        argument = self.argument(first, True)
        self.take("->", *["by"] * (self.drawing and not argument.by))
        return None, None, (argument,)

    def argument(self, name: Token, behind_point: bool = False) -> Argument:
        """A source column, perhaps with the steps that lead there."""
        if not behind_point:
            self.take(".")
        column = self.take(WORD)
        by = self.by() if self.is_next("by") else ()
        return Argument(name.start, self.before, name, column, by)

    def by(self) -> tuple[Step, ...]:
        self.note(self.here)
        self.take("by")
        return self.steps()

    def steps(self) -> tuple[Step, ...]:
        """Steps with points between them."""
        found = [self.step()]
        while self.is_next("."):
            self.at += 1
            found.append(self.step())
        return tuple(found)

    def step(self) -> Step:
        start = self.here.start
        words = self.words() if self.is_next("(") else (self.take(WORD, "("),)
        return Step(start, self.before, words)

    def tests(self) -> tuple[Test, ...]:
        self.take("where")
        return self.while_comma(self.test)

    def test(self) -> Test:
        """Steps, then a column and what it has to be."""
        start = self.here.start
        *steps, last = self.steps()
        if len(last.words) > 1:
            self.take(".")
        text = name = None
        if self.take("=", *TESTS, *["."] * (len(last.words) == 1)).kind == "=":
            text = self.take(STRING)
        else:
            name = self.tokens[self.at - 1]
        return Test(start, self.before, tuple(steps), last.words[0], text, name)

    def rows(self, word: Token) -> Rows:
        """A `rows` statement behind its first word."""
        target = self.take(WORD)
        self.take("from")
        source = self.take(WORD)
        by = self.by() if self.is_next("by") else ()
        musts: tuple[tuple[Step, ...], ...] = ()
        if self.is_next("with"):
            self.at += 1
            musts = self.while_comma(self.steps)
        tests = self.tests() if self.is_next("where") else ()
        ends = [","] if tests else [".", ",", "where"] if musts else [".", "with", "where"] if by else ["by", "with",
                                                                                                        "where"]
        self.take(";", *ends)
        return Rows(word.start, self.before, target, source, by, musts, tests)

    def lookup(self, word: Token) -> Lookup:
        sets = self.listed(lambda: self.take(WORD), ";")
        return Lookup(word.start, self.before, sets)

    def column(self) -> Place:
        name = self.take(WORD)
        self.take(".")
        column = self.take(WORD)
        return Place(name.start, column.end, name, column)

    def only(self, word: Token) -> Only:
        place = self.column()
        test = self.take(WORD)
        self.take(";")
        return Only(word.start, self.before, place, test)

    # --- rules -------------------------------------------------------------------------------------------------------

    def rule(self, word: Token) -> Rule:
        """A rule behind its first word."""
        premise = self.while_comma(lambda: self.atom(WORD))
        derived: tuple[Derived, ...] = ()
        if self.take(",", "where", "->").text == "where":
            derived = self.listed(self.derived, "->")
        conclusion = self.listed(lambda: self.atom(WORD, STRING), ";")
        return Rule(word.start, self.before, premise, derived, conclusion)

    def atom(self, *values: str) -> Atom:
        """A set with its cells, which all have the names of their columns, or none."""
        name = self.take(WORD)
        self.take("(")
        first = self.cell(values, None)
        cells = [first]
        while self.take(",", ")").kind == ",":
            cells.append(self.cell(values, first.column is not None))
        return Atom(name.start, self.before, name, tuple(cells))

    def cell(self, values: tuple[str, ...], named: Optional[bool]) -> Cell:
        """A cell; `named` says whether it has to have a name, if that is known."""
        value = self.take(*((WORD,) if named else values))
        if value.kind == "word" and named is not False and (named or self.is_next("=")):
            self.note(self.here)
            self.take("=")
            return Cell(value.start, self.here.end, value, self.take(*values))
        return Cell(value.start, value.end, None, value)

    def derived(self) -> Derived:
        name = self.take(WORD)
        self.take("=")
        conversion = self.take(WORD)
        self.take("(")
        cells = self.listed(lambda: self.take(WORD), ")")
        call = Atom(conversion.start, self.before, conversion,
                    tuple(Cell(one.start, one.end, None, one) for one in cells))
        return Derived(name.start, self.before, name, call)


def _fits(token: Token, allowed: tuple[str, ...]) -> bool:
    """Whether a token is one of these."""
    if token.kind == "string":
        return STRING in allowed
    if token.kind == "word":
        return WORD in allowed or token.text in allowed
    return (token.text if token.kind == "number" else token.kind) in allowed


def _unexpected(token: Token, allowed: tuple[str, ...]) -> Fault:
    """The fault of a token that can't be where it is."""
    can = " or ".join(one if one in (WORD, STRING) else f"`{one}`" for one in allowed)
    if token.kind == "end":
        return Fault("text ended", token.start, token.end, f"the text ends here; here can be {can}", allowed)
    if token.kind == "word" and token.text in HINTS and WORD not in allowed:
        return Fault("unexpected token", token.start, token.end, HINTS[token.text], allowed)
    if token.kind == "number" and allowed == (WORD,):
        return Fault("unexpected token", token.start, token.end, "a name begins with a letter or _", allowed)
    return Fault("unexpected token", token.start, token.end, f"unexpected {_shown(token)}; here can be {can}", allowed)


def _shown(token: Token) -> str:
    """A token in a message."""
    return "text" if token.kind == "string" else f"`{token.text}`"
