"""The source of a mapping: the different rows of each table that pass its conditions, read when they are asked for."""
from __future__ import annotations

import json
import pathlib
from array import array
from collections.abc import Iterable, Iterator
from typing import NamedTuple

from clio_tools.csv import MARK, records, text
from clio_tools.explain.source import Walk, file_of
from clio_tools.mapping.meaning import Mapping
from clio_tools.mapping.meanings import TESTS
from clio_tools.mapping.tables import Table
from clio_tools.program import Refused
from clio_tools.safe_files import check_file
from clio_tools.why.data import SourceRow
from clio_tools.why.lookup import Lookup, Row


class Place(NamedTuple):
    """Where a row is in its file: the line and the number of its record, or the path of its object."""

    line: int
    record: int
    path: str


class Fact(NamedTuple):
    """A row of a table as it is in the file, whether it passes or not."""

    table: int
    row: Row
    place: Place


class Rows(Lookup):
    """The different rows of a table that pass, in the order of the file, and where each is first."""

    def __init__(self) -> None:
        super().__init__([])
        self.numbers: dict[Row, int] = {}
        self.lines, self.records = array("q"), array("q")
        self.paths: list[str] = []

    def add(self, row: Row, place: Place) -> None:
        """A row that passes."""
        if self.numbers.setdefault(row, len(self.rows)) == len(self.rows):
            self.rows.append(row)
            self.lines.append(place.line)
            self.records.append(place.record)
            self.paths.append(place.path)

    def add_records(self, facts: Iterator[tuple[int, Row]]) -> None:
        """The records of a CSV file, each with its line, none of which has to pass a test."""
        rows, numbers, lines, numbered = self.rows, self.numbers, self.lines, self.records
        for record, (line, row) in enumerate(facts, 1):
            if numbers.setdefault(row, len(rows)) == len(rows):
                rows.append(row)
                lines.append(line)
                numbered.append(record)

    def place(self, number: int) -> Place:
        """Where a row is."""
        return Place(self.lines[number], self.records[number], self.paths[number] if self.paths else "")


class Source:
    """The tables of a mapping's source, read from the files of a folder, each file when it is first asked for."""

    def __init__(self, mapping: Mapping, folder: pathlib.Path) -> None:
        self.mapping, self.tables, self.folder = mapping, mapping.source, folder
        self.read: dict[int, Rows] = {}

    def root(self, number: int) -> int:
        """The root of a table."""
        parent = self.tables[number].parent
        return number if parent is None else self.root(parent)

    def rows(self, number: int) -> Rows:
        """The rows of a table."""
        if number not in self.read:
            root = self.root(number)
            for one in range(len(self.tables)):
                if self.root(one) == root:
                    self.read[one] = Rows()
            if self.tables[root].inner or self.has_conditions(root):
                for fact in self.facts(root):
                    if self.passes(fact.table, fact.row):
                        self.read[fact.table].add(fact.row, fact.place)
            else:
                self.read[root].add_records(self.numbered(root))
        return self.read[number]

    def of(self, mapping: Mapping) -> Source:
        """The same files under another mapping with the same sets; what was read under the same conditions stays
        read."""
        other = Source(mapping, self.folder)
        changed = {one.column.table for one in set(mapping.conditions) ^ set(self.mapping.conditions)}
        roots = {self.root(number) for number in changed}
        other.read = {number: rows for number, rows in self.read.items() if self.root(number) not in roots}
        return other

    def has_conditions(self, number: int) -> bool:
        """Whether rows of a table have to pass tests."""
        return any(one.column.table == number for one in self.mapping.conditions)

    def passes(self, number: int, row: Row) -> bool:
        """Whether a row passes all conditions of its table."""
        return not self.failed(number, row)

    def failed(self, number: int, row: Row) -> list[int]:
        """The conditions that a row of a table fails."""
        return [place for place, one in enumerate(self.mapping.conditions)
                if one.column.table == number and not TESTS[one.test].holds(row[one.column.column])]

    def content(self, root: int) -> bytes:
        """The bytes of a root's file."""
        path = self.folder / file_of(self.tables[root])
        check_file(path)
        try:
            return path.read_bytes()
        except OSError as error:
            raise Refused(f"{path.name} can't be read: {error.strerror}") from None

    def numbered(self, root: int) -> Iterator[tuple[int, Row]]:
        """The records of a CSV file behind its header, each with its line."""
        content = self.content(root)
        entries = records(content)
        next(entries, None)
        if is_utf8(content):
            return ((line, tuple(fields)) for line, fields in entries)
        return ((line, tuple([text(field) for field in fields])) for line, fields in entries)

    def facts(self, root: int) -> Iterator[Fact]:
        """All rows of a root and of the sets inside it, as they are in its file."""
        if not self.tables[root].inner:
            for record, (line, row) in enumerate(self.numbered(root), 1):
                yield Fact(root, row, Place(line, record, ""))
            return
        walk = Walk(self.tables)
        try:
            walk.objects(root, json.loads(self.content(root).removeprefix(MARK)), "", "#", None)
        except (ValueError, AttributeError, TypeError, RecursionError):
            raise Refused(f"{file_of(self.tables[root])} can't be read: run clio exchange again") from None
        for table, row, path in walk.facts:
            yield Fact(table, row, Place(0, 0, path))

    def having(self, number: int, wanted: list[tuple[int, str]]) -> Iterator[Fact]:
        """The rows of a table in its file, whether they pass or not, that have these texts in these columns."""
        root = self.root(number)
        if self.tables[root].inner or not wanted:
            for fact in self.facts(root):
                if fact.table == number and all(fact.row[column] == text for column, text in wanted):
                    yield fact
            return
        (first, only), *rest = wanted
        for record, (line, row) in enumerate(self.numbered(root), 1):
            if row[first] == only and all(row[column] == text for column, text in rest):
                yield Fact(number, row, Place(line, record, ""))

    def shown(self, number: int, row: int) -> SourceRow:
        """A row that passes, by its number."""
        rows = self.rows(number)
        return self.told(number, rows.rows[row], rows.place(row), row)

    def told(self, number: int, row: Row, place: Place, at: int = -1) -> SourceRow:
        """A row with its place; the columns are those that are written in the mapping."""
        table = self.tables[number]
        kept = declared(table)
        return SourceRow(table.name, at, file_of(self.tables[self.root(number)]), place.line, place.record, place.path,
                         named(table, kept), tuple(row[column] for column in kept))


def named(table: Table, columns: Iterable[int]) -> tuple[str, ...]:
    """The names of columns."""
    return tuple(table.columns[column] for column in columns)


def declared(table: Table) -> list[int]:
    """The columns of a table that are written in the mapping."""
    return [column for column, name in enumerate(table.columns) if not name.startswith("#")]


def is_utf8(content: bytes) -> bool:
    """Whether all bytes are UTF-8; if not, fields still may be texts, with a quote between the bytes of a character."""
    try:
        content.decode("utf-8")
    except UnicodeDecodeError:
        return False
    return True
