"""Rows by their texts: read through when some columns are asked for a few times, by an index from then on."""
from __future__ import annotations

from collections.abc import Sequence

Row = tuple[str, ...]
Columns = tuple[int, ...]
READ_THROUGH = 12  # times that cost less than an index


class Lookup:
    """Which of some rows have given texts in given columns."""

    def __init__(self, rows: list[Row]) -> None:
        self.rows = rows
        self.asked: dict[Columns, int] = {}
        self.indexes: dict[Columns, dict[Row, list[int]]] = {}

    def find(self, columns: Columns, texts: Row) -> Sequence[int]:
        """The numbers of the rows that have these texts in these columns, ascending."""
        if not columns:
            return range(len(self.rows))
        self.asked[columns] = self.asked.get(columns, 0) + 1
        if self.asked[columns] <= READ_THROUGH:
            return self.read_through(columns, texts)
        if columns not in self.indexes:
            index = self.indexes[columns] = {}
            for number, row in enumerate(self.rows):
                index.setdefault(tuple([row[column] for column in columns]), []).append(number)
        return self.indexes[columns].get(texts, ())

    def read_through(self, columns: Columns, texts: Row) -> list[int]:
        """The same without an index."""
        first, text = columns[0], texts[0]
        found = [number for number, row in enumerate(self.rows) if row[first] == text]
        if len(columns) == 1:
            return found
        rest = list(zip(columns[1:], texts[1:]))
        return [number for number in found if all(self.rows[number][column] == one for column, one in rest)]
