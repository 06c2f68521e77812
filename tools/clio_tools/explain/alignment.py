"""Which row of a given target is which row that the rules ask for.

A null of a row that is asked for may be any value. It is that of the row with the same key: first of the rows in which
the null is itself a key, or is referred to, then of any row. Rows without such a key are those that have all that is
known of them. So each row that is asked for has a row that is given, with some cells that differ, or none."""
from collections.abc import Iterator

from clio_tools.mapping.tables import Table

Row = tuple[str, ...]
Columns = tuple[int, ...]


def is_null(value: str) -> bool:
    """Whether a value is a null."""
    return value[:1] == "?" and value[1:2] != "?"


class Alignment:
    """For each table the given row of each row that is asked for, and the value of each null."""

    def __init__(self, tables: list[Table], asked: list[list[Row]], given: list[list[Row]]) -> None:
        self.tables, self.asked, self.given = tables, asked, given
        self.values: dict[str, str] = {}
        self.at: list[dict[int, int]] = [{} for _ in tables]
        self.used: list[set[int]] = [set() for _ in tables]
        self.indexes: dict[tuple[int, Columns], dict[Row, list[int]]] = {}
        self.homes = [home_columns(number, tables) for number in range(len(tables))]
        while self.by_keys() or self.take_values() or self.by_cells():
            pass

    def known(self, value: str) -> str | None:
        """What a value is in the given target, as far as it is known."""
        return self.values.get(value) if is_null(value) else value

    def index(self, table: int, columns: Columns) -> dict[Row, list[int]]:
        """The given rows of a table by their values in some columns."""
        if (table, columns) not in self.indexes:
            made = self.indexes[table, columns] = {}
            for number, row in enumerate(self.given[table]):
                made.setdefault(tuple([row[column] for column in columns]), []).append(number)
        return self.indexes[table, columns]

    def open_rows(self, table: int) -> Iterator[tuple[int, Row]]:
        """The rows that have no given row yet."""
        at = self.at[table]
        yield from ((number, row) for number, row in enumerate(self.asked[table]) if number not in at)

    def by_keys(self) -> bool:
        """Finds rows by keys that are known; whether any was found."""
        found = False
        for number, table in enumerate(self.tables):
            for row, cells in list(self.open_rows(number)) if table.keys else ():
                given = self.of_keys(number, cells)
                if given is not None:
                    self.take(number, row, given)
                    self.take_cells(cells, self.given[number][given], self.homes[number])
                    found = True
        return found

    def of_keys(self, table: int, cells: Row) -> int | None:
        """The given row with a key of a row."""
        for key in self.tables[table].keys:
            values = [self.known(cells[column]) for column in key]
            rows = self.index(table, key).get(tuple([value for value in values if value is not None]))
            if rows and None not in values:
                return rows[0]
        return None

    def take(self, table: int, row: int, given: int) -> None:
        """Takes a given row as that of a row."""
        self.at[table][row] = given
        self.used[table].add(given)

    def take_cells(self, cells: Row, given: Row, columns: Columns) -> bool:
        """Takes the given values of nulls that have none; whether there was one."""
        before = len(self.values)
        for column in columns:
            if is_null(cells[column]):
                self.values.setdefault(cells[column], given[column])
        return len(self.values) > before

    def take_values(self) -> bool:
        """Takes the values of all nulls of rows that are found; whether there was one."""
        found = False
        for cells, given, columns in ((self.asked[table][row], self.given[table][at], self.every(table))
                                      for table, rows in enumerate(self.at) for row, at in rows.items()):
            found |= self.take_cells(cells, given, columns)
        return found

    def every(self, table: int) -> Columns:
        """All columns of a table."""
        return tuple(range(len(self.tables[table].columns)))

    def by_cells(self) -> bool:
        """Finds rows by all that is known of them, those first of which most is known; whether any was found."""
        found = False
        for number in range(len(self.tables)):
            rows = [(self.known_columns(cells), row, cells) for row, cells in self.open_rows(number)]
            for _, row, cells in sorted(rows, key=lambda one: (-len(one[0]), one[1])):
                given = self.of_cells(number, cells)
                if given is not None:
                    self.take(number, row, given)
                    self.take_cells(cells, self.given[number][given], self.every(number))
                    found = True
        return found

    def known_columns(self, cells: Row) -> Columns:
        """The columns of a row in which something is known."""
        return tuple(column for column, value in enumerate(cells) if self.known(value) is not None)

    def of_cells(self, table: int, cells: Row) -> int | None:
        """A given row that has all that is known of a row; one that is no other row's, if there is one."""
        columns = self.known_columns(cells)
        values = [self.known(cells[column]) for column in columns]
        rows = self.index(table, columns).get(tuple([value for value in values if value is not None]), [])
        rows = [row for row in rows if is_consistent(cells, self.given[table][row])]
        return next((row for row in rows if row not in self.used[table]), rows[0] if rows else None)


def is_consistent(cells: Row, given: Row) -> bool:
    """Whether a null that is twice in a row has one value in another."""
    values: dict[str, str] = {}
    return all(not is_null(cell) or values.setdefault(cell, value) == value for cell, value in zip(cells, given))


def home_columns(number: int, tables: list[Table]) -> Columns:
    """The columns of a table that say which thing a row is: those of keys, and those to which a link leads, without
    those that lead elsewhere."""
    table = tables[number]
    found = {column for key in table.keys for column in key}
    found |= {column for other in tables for link in other.every_link() if link.table == number
              for column in link.referred}
    return tuple(sorted(found - {column for link in table.every_link() for column in link.own}))
