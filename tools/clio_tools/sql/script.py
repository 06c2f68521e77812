"""The rules and the script that `clio show` prints, taken apart."""
import re
import subprocess
import sys
from dataclasses import dataclass, field
from typing import NamedTuple

from clio_tools.program import Refused, program

PIECE = re.compile(r"'(?:[^']|'')*'|\"[^\"]+\"|.", re.DOTALL)
TABLE = re.compile(r"CREATE TABLE target\.\"([^\"]+)\" \((.*)\);")
MATCH = re.compile(r"CREATE TABLE m([0-9]+) AS SELECT DISTINCT (.*?) FROM (source\..*);")
KEEP = re.compile(r"CREATE TABLE k([0-9]+) AS (SELECT \* FROM m[0-9]+ AS m WHERE .*);", re.DOTALL)
INSERT = re.compile(r"INSERT INTO target\.\"([^\"]+)\" SELECT (.*) FROM ([mk][0-9]+) AS m;", re.DOTALL)
SKOLEM = re.compile(r"SKOLEM\(([0-9]+), ([0-9]+), m\.place\)")
COVER = re.compile(r"NOT EXISTS \(SELECT \* FROM m([0-9]+) AS n(?: WHERE ((?:'(?:[^']|'')*'|[^')])*))?\)")
TEST = re.compile(r"n\.c([0-9]+) = m\.c([0-9]+)|m\.c([0-9]+) = '((?:[^']|'')*)'")
ARROW = re.compile(r"(?:[^\">-]|\"(?:[^\"\\]|\\.)*\"|-(?!>))* -> ")
ATOM = re.compile(r"([A-Za-z_][A-Za-z0-9_]*)\(((?:[xy][0-9]+|\"(?:[^\"\\]|\\.)*\"|, )*)\)")
CELL = re.compile(r"([xy])([0-9]+)|\"((?:[^\"\\]|\\.)*)\"")


class Cell(NamedTuple):
    """A cell of a conclusion: a variable (`x`), an existential one (`y`), each with its number, or a literal (no
    kind) with its text."""
    kind: str
    number: int
    text: str = ""


class Atom(NamedTuple):
    """A table of the target, and what a rule says of its columns."""
    table: str
    cells: tuple[Cell, ...]


class Rule:
    """The conclusion of a rule as it is printed, and the numbers of the variables in it."""

    def __init__(self, text: str) -> None:
        arrow = ARROW.match(text)
        if not arrow:
            raise ValueError(f"this is no rule that clio shows: {text}")
        self.conclusion = [Atom(name, tuple(map(cell_of, CELL.finditer(cells))))
                           for name, cells in ATOM.findall(text[arrow.end():])]
        cells = [cell for atom in self.conclusion for cell in atom.cells]
        self.exported = sorted({cell.number for cell in cells if cell.kind == "x"})
        self.existential = sorted({cell.number for cell in cells if cell.kind == "y"})


def cell_of(found: re.Match[str]) -> Cell:
    """A cell of a conclusion."""
    if found[1]:
        return Cell(found[1], int(found[2]))
    return Cell("", 0, re.sub(r"\\(.)", r"\1", found[3]))


class Null(NamedTuple):
    """The null of a rule and an existential variable, at each place."""
    rule: int
    variable: int


class Match(NamedTuple):
    """What gives the matches of a rule: the expressions that are exported, and what follows FROM."""
    exported: list[str]
    source: str


class Cover(NamedTuple):
    """What covers a match: another rule, and for each exported column the column there or the literal that it has to
    equal."""
    rule: int
    columns: dict[int, int]
    literals: dict[int, str]


class Insert(NamedTuple):
    """Rows of a target table, made of the rows of a table of matches: each cell is a text of SQL or a null."""
    table: str
    cells: list[str | Null]
    matches: str

    @property
    def has_null(self) -> bool:
        """Whether each row has a null."""
        return any(isinstance(cell, Null) for cell in self.cells)

    @property
    def rule(self) -> int:
        """The number of the rule whose matches these are."""
        return int(self.matches[1:])


@dataclass
class Script:
    """The tables of the target, and for each rule its matches, what covers them, and what is inserted."""
    rules: list[Rule] = field(default_factory=list)
    matches: dict[int, Match] = field(default_factory=dict)
    covers: dict[int, list[Cover]] = field(default_factory=dict)
    inserts: list[Insert] = field(default_factory=list)

    def add(self, step: str) -> None:
        """Puts one line of what clio prints to the script."""
        if step.startswith("rule "):
            self.rules.append(Rule(step))
        elif found := MATCH.fullmatch(step):
            columns = [column.rsplit(" AS ", 1)[0] for column in split(found[2])]
            self.matches[int(found[1])] = Match([] if columns == ["1"] else columns, found[3])
        elif found := KEEP.fullmatch(step):
            self.covers[int(found[1])] = [cover_of(one) for one in COVER.finditer(found[2])]
        elif found := INSERT.fullmatch(step):
            self.inserts.append(Insert(found[1], [out_of(cell) for cell in split(found[2])], found[3]))
        elif not TABLE.fullmatch(step):
            raise ValueError(f"this is no step of a script that clio writes: {step}")


def out_of(text: str) -> str | Null:
    """A cell of an insert."""
    found = SKOLEM.fullmatch(text)
    return Null(int(found[1]), int(found[2])) if found else text


def cover_of(found: re.Match[str]) -> Cover:
    """What a step that keeps matches says of one that covers."""
    tests = list(TEST.finditer(found[2] or ""))
    return Cover(int(found[1]), {int(test[2]): int(test[1]) for test in tests if test[1]},
                 {int(test[3]): test[4].replace("''", "'") for test in tests if test[3]})


def split(text: str) -> list[str]:
    """The parts of a list at the commas that are in no parentheses and no quotes."""
    parts, depth = [""], 0
    for piece in PIECE.findall(text):
        depth += (piece == "(") - (piece == ")")
        if piece == "," and depth == 0:
            parts.append("")
        else:
            parts[-1] += piece
    return [part.strip() for part in parts]


def shown(core: bool) -> Script:
    """The rules and the script of the mapping in this folder, from `clio show`; what it refuses ends the tool as it
    ends clio."""
    words = [program(), "show", *["--core"] * core]
    show = subprocess.run(words, stdin=subprocess.DEVNULL, capture_output=True, check=False)
    if show.returncode:
        sys.stderr.buffer.write(show.stderr)
        sys.exit(show.returncode)
    script = Script()
    for line in show.stdout.decode().split("\n"):
        if line:
            script.add(line)
    if not script.matches.keys() <= set(range(len(script.rules))):
        raise Refused("clio shows a script of other rules")
    return script
