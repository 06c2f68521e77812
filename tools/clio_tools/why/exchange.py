"""What an exchange made of a mapping and its source: which matches ask for a row, and what became of its nulls.

The rules are those that clio prints, the replaced nulls those of `out/fold.csv`. A match asks for a row if what the
fold makes of an atom of its rule is that row: nothing is chased again."""
from __future__ import annotations

import pathlib
from collections.abc import Iterable, Iterator
from functools import cached_property
from itertools import islice
from typing import NamedTuple, TypeVar

from clio_tools.csv import read_table
from clio_tools.explain.key_chase import cell_value
from clio_tools.explain.program import mapping_of
from clio_tools.mapping.rules import EXISTENTIAL, LITERAL, VARIABLE, Cell
from clio_tools.program import Refused
from clio_tools.safe_files import check_file
from clio_tools.why.data import Match
from clio_tools.why.lookup import Row
from clio_tools.why.matches import RuleMatches
from clio_tools.why.source import Source

AGAIN = "run clio exchange again"
MOST_SOURCES = 3  # matches with the same texts that are told
Null = tuple[int, int, int]
Value = str | Null
Raw = tuple[Value, ...]
Item = TypeVar("Item")


class Origin(NamedTuple):
    """What asks for a row: a rule, an atom of its right side, and the place of a match."""

    rule: int
    atom: int
    place: int


class Exchange:
    """A mapping with its source and what `clio exchange` wrote of it."""

    def __init__(self, folder: pathlib.Path, out: pathlib.Path | None = None) -> None:
        self.folder, self.out = folder, folder / "out" if out is None else out
        self.content = read_bytes(folder / "mapping.clio")
        mapping, self.printed = mapping_of(self.content, folder)
        if mapping is None:
            raise Refused("clio refuses mapping.clio: clio-explain show says why")
        if rules_in(read_bytes(self.out / "rules.txt")) != self.printed:
            raise Refused(f"{self.out.name}/rules.txt has other rules than mapping.clio: {AGAIN}")
        self.mapping = mapping
        self.source = Source(mapping, folder)
        self.matches = [RuleMatches(rule, self.source) for rule in mapping.rules]

    @staticmethod
    def rules_of(folder: pathlib.Path) -> list[str]:
        """The rules that clio prints for the mapping of a folder."""
        mapping, printed = mapping_of(read_bytes(folder / "mapping.clio"), folder)
        if mapping is None:
            raise Refused("clio refuses mapping.clio: clio-explain show says why")
        return printed

    def stale(self) -> str:
        """What is said if what was written is not what the mapping makes of the files."""
        return f"{self.out.name} is not of these files, {AGAIN}"

    @cached_property
    def fold(self) -> dict[str, str]:
        """What came in the place of each null that was replaced."""
        return {null: value for null, value in read_table(self.out / "fold.csv", ["null", "value"])}

    @cached_property
    def atoms(self) -> list[list[tuple[int, int]]]:
        """For each table of the target the atoms of it, by rule and place."""
        found: list[list[tuple[int, int]]] = [[] for _ in self.mapping.target]
        for number, rule in enumerate(self.mapping.rules):
            for place, atom in enumerate(rule.conclusion):
                found[atom.table].append((number, place))
        return found

    def last(self, value: Value) -> str:
        """What is in the target in the place of a value."""
        text = value_text(value)
        return self.fold.get(text, text) if isinstance(value, tuple) else text

    def last_row(self, row: Raw) -> Row:
        """What is in the target in the place of a row that is asked for."""
        return tuple(map(self.last, row))

    def raw(self, origin: Origin) -> Raw:
        """The row that an origin asks for, before anything was replaced."""
        matches = self.matches[origin.rule]
        values = dict(zip(matches.exported, matches.lookup.rows[origin.place]))
        atom = self.mapping.rules[origin.rule].conclusion[origin.atom]
        return tuple([cell_value(cell, values, origin.rule, origin.place) for cell in atom.cells])

    def asking(self, table: int, wanted: dict[int, str]) -> Iterator[Origin]:
        """What asks for rows of a table that have these values in these columns at the end."""
        for rule, place in self.atoms[table]:
            yield from self.of_atom(rule, place, wanted)

    def of_atom(self, rule: int, place: int, wanted: dict[int, str]) -> Iterator[Origin]:
        """The same of one atom: the texts must be those of its variables, its nulls must have become the rest."""
        matches, atom = self.matches[rule], self.mapping.rules[rule].conclusion[place]
        bound: dict[int, str] = {}
        nulls: list[tuple[str, str]] = []
        for column, value in wanted.items():
            cell = atom.cells[column]
            if cell.kind == EXISTENTIAL:
                nulls.append((f"?{rule}.{cell.content}.", value))
            elif is_null(value) or not fits(cell, text_of(value), matches.at, bound):
                return
        fold = self.fold if nulls else {}
        for number in matches.lookup.find(tuple(bound), tuple(bound.values())):
            for name, value in nulls:
                null = f"{name}{number}"
                if fold.get(null, null) != value:
                    break
            else:
                yield Origin(rule, place, number)

    def match(self, origin: Origin) -> Match:
        """An origin as data, with the source rows of its first matches."""
        matches = self.matches[origin.rule]
        premise = self.mapping.rules[origin.rule].premise
        found, count = first_ones(matches.matches_of(matches.lookup.rows[origin.place]), MOST_SOURCES)
        sources = tuple(tuple(self.source.shown(atom.table, row) for atom, row in zip(premise, chosen))
                        for chosen in found)
        return Match(origin.rule, origin.place, origin.atom, tuple(map(value_text, self.raw(origin))), sources, count)

    def occurrences(self, null: Null) -> Iterator[tuple[Origin, list[int]]]:
        """What asks for the rows in which a null is, each with its columns there."""
        rule, variable, place = null
        if place >= len(self.matches[rule].lookup.rows):
            raise Refused(f"the source has no match for the null {value_text(null)}: {self.stale()}")
        for number, atom in enumerate(self.mapping.rules[rule].conclusion):
            columns = [column for column, cell in enumerate(atom.cells) if cell == (EXISTENTIAL, variable)]
            if columns:
                yield Origin(rule, number, place), columns

    def table(self, name: str) -> int:
        """The number of a table of the target."""
        for number, table in enumerate(self.mapping.target):
            if table.name == name:
                return number
        names = ", ".join(table.name for table in self.mapping.target)
        raise Refused(f"the target has no set {name}; it has {names}")


def fits(cell: Cell, text: str, at: dict[int, int], bound: dict[int, str]) -> bool:
    """Whether a cell of a rule can have a text; if a variable has it, that is taken down."""
    if cell.kind == LITERAL:
        return cell.content == text
    assert cell.kind == VARIABLE and isinstance(cell.content, int)
    return bound.setdefault(at[cell.content], text) == text


def first_ones(items: Iterable[Item], most: int) -> tuple[list[Item], int]:
    """The first of some items, and how many there are."""
    rest = iter(items)
    found = list(islice(rest, most))
    return found, len(found) + sum(1 for _ in rest)


def value_text(value: Value) -> str:
    """A value as clio writes it."""
    if isinstance(value, tuple):
        return "?%d.%d.%d" % value
    return "?" + value if value[:1] == "?" else value


def is_null(value: str) -> bool:
    """Whether a value is a null."""
    return value[:1] == "?" and value[1:2] != "?"


def text_of(value: str) -> str:
    """The text that a value is."""
    return value[1:] if value[:1] == "?" else value


def null_of(value: str) -> Null:
    """The null that a value is."""
    rule, variable, place = value[1:].split(".")
    return int(rule), int(variable), int(place)


def rules_in(content: bytes) -> list[str]:
    """The rules of a file."""
    return [line.decode("utf-8", "replace").strip() for line in content.split(b"\n") if line]


def read_bytes(path: pathlib.Path) -> bytes:
    """The bytes of a file; a missing one is refused."""
    check_file(path)
    try:
        return path.read_bytes()
    except FileNotFoundError:
        raise Refused(f"{path.parent.name}/{path.name} is missing: run clio exchange" if path.parent.name == "out"
                      else f"{path.name} is missing") from None
    except OSError as error:
        raise Refused(f"{path.name}: {error.strerror}") from None
