"""The source files as rows that know where they are from."""
from __future__ import annotations

import json
import pathlib
from array import array
from typing import Any

from clio_tools.csv import MARK, records, text
from clio_tools.mapping.meaning import Mapping
from clio_tools.mapping.tables import Table
from clio_tools.why.data import SourceRow

Row = tuple[str, ...]
Place = str | tuple[int, int]  # the path of an object, or the number and the line of a record


class Walk:
    """Walks a document that clio takes, and takes down its facts, each with the path of its object."""

    def __init__(self, tables: list[Table]) -> None:
        self.tables = tables
        self.facts: list[tuple[int, tuple[str, ...], str]] = []

    def objects(self, number: int, values: list[Any], path: str, identity: str, up: str | None) -> None:
        """The objects of a set."""
        for position, value in enumerate(values):
            own = f"#{position}" if up is None else f"{identity}.{position}"
            self.object(number, value, f"{path}/{position}", own, up)

    def object(self, number: int, value: dict[str, Any], path: str, identity: str, up: str | None) -> None:
        """One object, then those inside it."""
        table = self.tables[number]
        before = ([identity] if table.inner else []) + ([up] if up is not None else [])
        texts = [member_text(value.get(column)) for column in table.tree.columns]
        self.facts.append((number, tuple(before + texts), path))
        for inner, tree in zip(table.inner, table.tree.inner):
            if value.get(tree.name) is not None:
                self.objects(inner, value[tree.name], f"{path}/{tree.name}", identity, identity)


def member_text(value: object) -> str:
    """The text of a member that is a column."""
    if value is None:
        return ""
    if isinstance(value, bool):
        return "true" if value else "false"
    return str(value)


class Rows:
    """The different rows of a table in the order of the file, the place of each, and how many records repeat one."""

    def __init__(self, is_document: bool) -> None:
        self.rows: list[Row] = []
        self.seen: set[Row] = set()
        self.repeats = self.records = 0
        self.is_document = is_document
        self.paths: list[str] = []
        self.entries, self.lines = array("l"), array("l")

    def add(self, row: Row, place: Place) -> None:
        self.records += 1
        if row in self.seen:
            self.repeats += 1
            return
        self.seen.add(row)
        self.rows.append(row)
        if isinstance(place, str):
            self.paths.append(place)
        else:
            self.entries.append(place[0])
            self.lines.append(place[1])

    def place(self, row: int) -> Place:
        """The path of the object that a row is, or the number and the line of its record."""
        return self.paths[row] if self.is_document else (self.entries[row], self.lines[row])


class Source:
    """The rows of each table of a mapping's source that pass its conditions, from the files of the current folder."""

    def __init__(self, mapping: Mapping) -> None:
        self.tables, self.mapping = mapping.source, mapping
        self.rows = [Rows(table.parent is not None or bool(table.inner)) for table in self.tables]
        self.failing = [0] * len(self.tables)  # how many records of each table don't pass
        for number, table in enumerate(self.tables):
            if table.parent is None:
                self.read(number, table)
        for rows in self.rows:
            rows.seen.clear()

    def read(self, number: int, table: Table) -> None:
        """Reads the file of a root."""
        content = pathlib.Path(file_of(table)).read_bytes()
        if table.inner:
            walk = Walk(self.tables)
            walk.objects(number, json.loads(content.removeprefix(MARK)), "", "#", None)
            for inner, row, path in walk.facts:
                self.add(inner, row, path)
            return
        entries = records(content)
        next(entries)
        for place, (line, fields) in enumerate(entries, 1):
            self.add(number, tuple([text(field) for field in fields]), (place, line))

    def add(self, number: int, row: Row, place: Place) -> None:
        """A row of a table, if it passes."""
        if self.mapping.passes(number, row):
            self.rows[number].add(row, place)
        else:
            self.failing[number] += 1

    def root(self, number: int) -> Table:
        """The root of a table."""
        table = self.tables[number]
        while table.parent is not None:
            table = self.tables[table.parent]
        return table

    def row(self, number: int, row: int) -> SourceRow:
        """A row with its file and its place there."""
        table, place = self.tables[number], self.rows[number].place(row)
        path, record, line = (place, 0, 0) if isinstance(place, str) else ("", *place)
        cells = [(name, text) for name, text in zip(table.columns, self.rows[number].rows[row])
                 if not name.startswith("#")]
        return SourceRow(table.name, row, file_of(self.root(number)), line, record, path,
                         tuple(name for name, _ in cells), tuple(text for _, text in cells))


def file_of(table: Table) -> str:
    """The file of a root."""
    return table.name + (".json" if table.inner else ".csv")


def files_of(tables: list[Table]) -> list[pathlib.Path | int]:
    """What each table is read from, the same for those of one file: its path, or for a part of a document a number. A
    drawing has a second name of a file for its tests."""
    return [number if table.parent is not None or table.inner else pathlib.Path(file_of(table)).resolve()
            for number, table in enumerate(tables)]
