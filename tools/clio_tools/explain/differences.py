"""All that is different between a given target and what the rules ask for, table by table."""
from dataclasses import dataclass, field
from typing import NamedTuple

from clio_tools.explain.alignment import Alignment, Columns, Row, is_consistent, is_null
from clio_tools.mapping.tables import Table


class At(NamedTuple):
    """A cell of the given target: a table, a row and a column, by number."""

    table: int
    row: int
    column: int


@dataclass
class Differences:
    """What is different in one table: rows that are asked for and not given; given rows with the values that they must
    have; given rows that nothing asks for; by columns the given rows with a text that nobody gave; and values that are
    one in several cells, the first of this table, which need not be."""

    table: Table
    missing: list[Row] = field(default_factory=list)
    changed: list[tuple[Row, int, dict[int, str]]] = field(default_factory=list)
    extra: list[int] = field(default_factory=list)
    invented: dict[int, list[int]] = field(default_factory=dict)
    shared: list[tuple[str, list[At]]] = field(default_factory=list)

    def is_any(self) -> bool:
        """Whether anything is different."""
        return bool(self.missing or self.changed or self.extra or self.invented or self.shared)


def differences(alignment: Alignment) -> list[Differences]:
    """All differences of an alignment, of each table."""
    found = [Differences(table) for table in alignment.tables]
    for number, one in enumerate(found):
        for place, row in enumerate(alignment.asked[number]):
            at = alignment.at[number].get(place)
            if at is None:
                one.missing.append(row)
                continue
            wanted = {column: known for column, value in enumerate(row)
                      if (known := alignment.known(value)) not in (None, alignment.given[number][at][column])}
            if wanted:
                one.changed.append((row, at, {column: known for column, known in wanted.items() if known is not None}))
        says = Sayings(alignment.asked[number])
        one.extra = [at for at, row in enumerate(alignment.given[number])
                     if at not in alignment.used[number] and not says.all_of(row)]
    cells = values_at(alignment)
    add_invented(alignment, cells, found)
    add_shared(alignment, cells, found)
    return found


class Sayings:
    """Whether a row that is asked for says all that a given one does."""

    def __init__(self, rows: list[Row]) -> None:
        self.rows = rows
        self.indexes: dict[Columns, dict[Row, list[Row]]] = {}

    def all_of(self, given: Row) -> bool:
        """Whether some row has all texts of a given row, and a null of it that is there twice has one value."""
        columns = tuple(column for column, value in enumerate(given) if not is_null(value))
        if columns not in self.indexes:
            index = self.indexes[columns] = {}
            for row in self.rows:
                index.setdefault(tuple([row[column] for column in columns]), []).append(row)
        rows = self.indexes[columns].get(tuple([given[column] for column in columns]), [])
        return any(is_consistent(given, row) for row in rows)


def values_at(alignment: Alignment) -> dict[At, set[str]]:
    """For each given cell the values that rows ask for there."""
    found: dict[At, set[str]] = {}
    for table, rows in enumerate(alignment.at):
        for place, row in rows.items():
            for column, value in enumerate(alignment.asked[table][place]):
                found.setdefault(At(table, row, column), set()).add(value)
    return found


def add_invented(alignment: Alignment, cells: dict[At, set[str]], found: list[Differences]) -> None:
    """Adds the texts that are where rows ask for nulls alone."""
    for at, values in sorted(cells.items()):
        given = alignment.given[at.table][at.row][at.column]
        if not is_null(given) and all(is_null(value) and alignment.values.get(value) == given for value in values):
            found[at.table].invented.setdefault(at.column, []).append(at.row)


def add_shared(alignment: Alignment, cells: dict[At, set[str]], found: list[Differences]) -> None:
    """Adds the nulls that are one in several cells, where no null that is asked for is in all of these."""
    places: dict[str, list[At]] = {}
    for at in sorted(cells):
        given = alignment.given[at.table][at.row][at.column]
        if is_null(given) and all(alignment.known(value) == given for value in cells[at]):
            places.setdefault(given, []).append(at)
    for given, listed in places.items():
        if not set.intersection(*(cells[at] for at in listed)):
            found[listed[0].table].shared.append((given, listed))
