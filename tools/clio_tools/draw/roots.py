"""The rows of a large source file, of which some are written for a live run."""
import json
import pathlib
from typing import Any, Protocol

from ..csv import MARK, NotText, records, text, write_table
from ..explain.source import Walk
from ..mapping.tables import Table

Fact = tuple[int, tuple[str, ...]]  # a table, and a row of it


class Unreadable(Exception):
    """A file that can't be sampled."""


class Root(Protocol):
    """The records or objects of a file, each a unit that is taken whole or not at all."""

    count: int

    def facts(self, unit: int) -> list[Fact]:
        """The rows of a unit."""

    def write(self, path: pathlib.Path, chosen: list[int]) -> None:
        """Writes a file of some units."""

    def places(self, chosen: list[int]) -> list[str]:
        """For each unit that is written, where it is in the whole file."""


class CsvRoot:
    """The records of a table's file."""

    def __init__(self, number: int, table: Table, path: pathlib.Path) -> None:
        self.number, self.columns = number, list(table.columns)
        self.units: list[tuple[str, ...]] = []
        self.lines: list[int] = []
        entries = records(path.read_bytes())
        if next(entries, (1, []))[1] != self.columns:
            raise Unreadable
        try:
            for line, fields in entries:
                if len(fields) != len(self.columns):
                    raise Unreadable
                self.units.append(tuple(map(text, fields)))
                self.lines.append(line)
        except NotText:
            raise Unreadable from None
        self.count = len(self.units)

    def facts(self, unit: int) -> list[Fact]:
        """The one row of a record."""
        return [(self.number, self.units[unit])]

    def write(self, path: pathlib.Path, chosen: list[int]) -> None:
        """Writes some records."""
        write_table(path, self.columns, [list(self.units[unit]) for unit in chosen])

    def places(self, chosen: list[int]) -> list[str]:
        """The line and number of each record."""
        return [f"line {self.lines[unit]} (record {unit + 1})" for unit in chosen]


class DocumentRoot:
    """The objects of a document."""

    def __init__(self, number: int, path: pathlib.Path, tables: list[Table]) -> None:
        walk = Walk(tables)
        try:
            self.units: list[Any] = json.loads(path.read_bytes().removeprefix(MARK))
            walk.objects(number, self.units, "", "#", None)
        except (ValueError, RecursionError, AttributeError, TypeError):
            raise Unreadable from None
        self.found: list[list[Fact]] = []
        for table, row, _ in walk.facts:
            if table == number:
                self.found.append([])
            self.found[-1].append((table, row))
        self.count = len(self.units)

    def facts(self, unit: int) -> list[Fact]:
        """The rows of an object and of those inside it."""
        return self.found[unit]

    def write(self, path: pathlib.Path, chosen: list[int]) -> None:
        """Writes some objects."""
        path.write_text(json.dumps([self.units[unit] for unit in chosen], ensure_ascii=False), encoding="utf-8")

    def places(self, chosen: list[int]) -> list[str]:
        """The path of each object."""
        return [f"/{unit}" for unit in chosen]
