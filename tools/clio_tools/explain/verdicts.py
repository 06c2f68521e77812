"""What a verdict on a given target leaves out: the match whose rows aren't there and the row that comes nearest, or
the rows that break a key or a link.
"""
import pathlib
import re
import subprocess
from collections.abc import Iterable, Iterator

from clio_tools.csv import records
from clio_tools.explain.given_faults import FOLDER
from clio_tools.explain.joins import Matches, TooMany
from clio_tools.explain.judged import Judged
from clio_tools.explain.pieces import Piece, RowLine
from clio_tools.explain.program import mapping_of
from clio_tools.explain.said import amount, listed, shown, visible
from clio_tools.explain.source import Source
from clio_tools.mapping.meaning import Mapping
from clio_tools.mapping.rules import EXISTENTIAL, Rule
from clio_tools.mapping.tables import Table
from clio_tools.program import program

FORM = re.compile(r"verdict not a solution: (?:rule (\d+) place (\d+)|(key|link) (\d+) of table (\w+))\n", re.ASCII)
SAYS_MORE = b"verdict solution\n"
ROWS = 3  # rows that are told of a link that doesn't hold


class Given:
    """The rows of each table of a given target, as values are written, and the line of each."""

    def __init__(self, tables: list[Table]) -> None:
        self.tables = tables
        self.rows: list[list[list[str]]] = []
        self.lines: list[list[int]] = []
        for table in tables:
            entries = list(records(pathlib.Path(FOLDER, f"{table.name}.csv").read_bytes()))[1:]
            self.rows.append([fields for _, fields in entries])
            self.lines.append([line for line, _ in entries])

    def shown_row(self, table: int, row: int) -> str:
        """A row with its file and its place there."""
        cells = [f"{visible(name)} = {shown_value(value)}"
                 for name, value in zip(self.tables[table].columns, self.rows[table][row])]
        place = f"{FOLDER}{self.tables[table].name}.csv, line {self.lines[table][row]} (record {row + 1})"
        return f"{place}: " + ", ".join(cells[:8]) + (", .." if len(cells) > 8 else "")

    def broken_key(self, number: int, place: int) -> Iterator[str]:
        """Two rows of a table that agree on a key, or on the left of a dependency, and differ."""
        table = self.tables[number]
        first: dict[tuple[str, ...], int] = {}
        left, right = table.determinations()[place]
        for row, values in enumerate(self.rows[number]):
            other = first.setdefault(tuple([values[column] for column in left]), row)
            differing = [table.columns[column] for column in right
                         if values[column] != self.rows[number][other][column]]
            if differing:
                yield (f"two rows of {table.name} agree on ({listed(table.columns[column] for column in left)})"
                       f" and differ in {listed(differing)}:")
                yield f"   {self.shown_row(number, other)}"
                yield f"   {self.shown_row(number, row)}"
                return

    def broken_link(self, number: int, place: int) -> Iterator[str]:
        """The rows of a table that lead nowhere."""
        table, link = self.tables[number], self.tables[number].links[place]
        there = {tuple([values[column] for column in link.referred]) for values in self.rows[link.table]}
        lost = [row for row, values in enumerate(self.rows[number])
                if tuple([values[column] for column in link.own]) not in there]
        if not lost:
            return
        other = self.tables[link.table]
        own = listed(table.columns[column] for column in link.own)
        referred = listed(other.columns[column] for column in link.referred)
        yield (f"{amount(len(lost), 'row')} of {table.name} {'leads' if len(lost) == 1 else 'lead'} nowhere"
               f" by ({own}) -> {other.name} ({referred}):")
        for row in lost[:ROWS]:
            yield f"   {self.shown_row(number, row)}"

    def all_broken(self, found: re.Match[str] | None) -> Iterator[str]:
        """The keys and links that don't hold, but for the one that the verdict names."""
        told = (found[3], int(found[4]), found[5]) if found and found[3] else None
        for number, table in enumerate(self.tables):
            for place in range(len(table.determinations())):
                if told != ("key", place, table.name):
                    yield from self.broken_key(number, place)
            for place in range(len(table.links)):
                if told != ("link", place, table.name):
                    yield from self.broken_link(number, place)

    def missing(self, number: int, wanted: dict[int, str]) -> Iterator[str]:
        """If no row has the wanted values, which, by columns, and the row that comes nearest; if they have a key, one
        that agrees on it.
        """
        table, rows = self.tables[number], self.rows[number]
        agreeing = [[column for column, value in wanted.items() if values[column] == value] for values in rows]
        if any(len(columns) == len(wanted) for columns in agreeing):
            return
        asked = ", ".join(f"{visible(table.columns[column])} = {shown_value(value)}"
                          for column, value in wanted.items())
        yield f"no row of {FOLDER}{table.name}.csv has {asked}" if wanted else f"{FOLDER}{table.name}.csv has no row"
        keys = [set(key) for key in table.keys if set(key) <= set(wanted)]
        close = [row for row, columns in enumerate(agreeing)
                 if (any(key <= set(columns) for key in keys) if keys else columns)]
        if close:
            nearest = max(close, key=lambda row: len(agreeing[row]))
            yield f"   nearest: {self.shown_row(number, nearest)}"
            for column, value in wanted.items():
                if value == "" and is_null(rows[nearest][column]):
                    yield f"   {visible(table.columns[column])} must be the empty text, which is not a null"


def is_null(value: str) -> bool:
    """Whether a value is a null."""
    return value[:1] == "?" and value[1:2] != "?"


def shown_value(value: str) -> str:
    """A value as it is written: a null as it is, a text in quotes."""
    return visible(value) if is_null(value) else shown(value.removeprefix("?"), 40)


def broken_rule(mapping: Mapping, number: int, place: int, given: Given) -> Iterator[Piece]:
    """A match of a rule, and which rows that it asks for aren't there."""
    rule, source = mapping.rules[number], Source(mapping)
    matches = Matches(rule, source)
    texts = matches.places()[place]
    chosen = dict.fromkeys((atom.table, row) for atom, row in zip(rule.premise, matches.found[texts][0]))
    for line, (table, row) in enumerate(chosen):
        yield RowLine("    and " if line else "   from ", source.row(table, row))
    values = dict(zip(matches.exported, texts))
    lacking: list[str] = []
    for atom in rule.conclusion:
        known = {column: cell.content if isinstance(cell.content, str) else values[cell.content]
                 for column, cell in enumerate(atom.cells) if cell.kind != EXISTENTIAL}
        lacking += given.missing(atom.table, {column: "?" + text if text.startswith("?") else text
                                              for column, text in known.items()})
    yield from lacking or [("each row that it asks for is there, but not joined as it asks:"
                            f" by {listed(shared(rule, mapping.target))}")]


def shared(rule: Rule, target: list[Table]) -> Iterable[str]:
    """The columns in which a rule has an open variable that it has elsewhere too."""
    cells = [cell for cell in rule.conclusion_cells() if cell.kind == EXISTENTIAL]
    return dict.fromkeys(f"{target[atom.table].name}.{target[atom.table].columns[column]}" for atom in rule.conclusion
                         for column, cell in enumerate(atom.cells) if cells.count(cell) > 1)


def explain(content: bytes, is_all: bool = False) -> Iterator[Piece]:
    """The lines that explain the verdict that clio judge prints: its reason, then all differences, of each table the
    first ones unless all are asked for.
    """
    ended = subprocess.run([program(), "judge"], stdin=subprocess.DEVNULL, capture_output=True, check=False)
    found = FORM.fullmatch(ended.stdout.decode())
    mapping, printed = mapping_of(content) if found or ended.stdout == SAYS_MORE else (None, [])
    if mapping is None:
        return
    given = Given(mapping.target)
    if found:
        yield from reason(found, mapping, printed, given)
    yield from given.all_broken(found)
    rows = [[tuple(fields) for fields in rows] for rows in given.rows]
    yield from Judged(mapping, rows, given.lines, is_all).words()


def reason(found: re.Match[str], mapping: Mapping, printed: list[str], given: Given) -> Iterator[Piece]:
    """The reason that the verdict has."""
    if found[1]:
        yield f"rule {found[1]}: {visible(printed[int(found[1])])[:300]}"
        try:
            yield from broken_rule(mapping, int(found[1]), int(found[2]), given)
        except TooMany:
            yield "the rule has too many matches to look for this one here"
        return
    number = next(number for number, table in enumerate(mapping.target) if table.name == found[5])
    place = int(found[4])
    yield from given.broken_key(number, place) if found[3] == "key" else given.broken_link(number, place)
