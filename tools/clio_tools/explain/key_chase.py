"""The key chase: what keys and dependencies make equal, and all that they can't make equal.

A constant is a text, a null is a tuple of rule, variable and place. Two texts are never made one, so the chase goes on
after a clash.
"""
from collections import deque
from collections.abc import Iterator
from typing import NamedTuple

from clio_tools.explain.joins import Matches
from clio_tools.explain.source import Row
from clio_tools.mapping.rules import EXISTENTIAL, Cell, Rule
from clio_tools.mapping.tables import Table

Null = tuple[int, int, int]
Value = str | Null
Cells = tuple[Value, ...]
Pair = tuple[int, int]


class Origin(NamedTuple):
    """Where a row is from: a rule, one of its tuples, and an atom of its conclusion."""
    rule: int
    tuple: Row
    atom: int


class KeyStep(NamedTuple):
    """A null was replaced by a value, since two rows of a table agree on a key, or on the left of a dependency."""
    value: Value
    table: int
    key: int
    rows: Pair


class Clash(NamedTuple):
    """Rows of a table that agree on a key, or on the left of a dependency, and have different texts in a column: for
    each text the numbers of its rows.
    """
    table: int
    key: int
    agreed: Cells
    column: int
    texts: dict[str, list[int]]


class Canonical:
    """The rows that the rules ask for, before keys: each table's different rows, and the first origins of each."""

    def __init__(self, rules: list[Rule], matches: list[Matches], tables: list[Table], kept: int = 3) -> None:
        self.rows: list[list[Cells]] = [[] for _ in tables]
        self.origins: list[list[list[Origin]]] = [[] for _ in tables]
        numbers: list[dict[Cells, int]] = [{} for _ in tables]
        for number, rule in enumerate(rules):
            for place, texts in enumerate(matches[number].places()):
                values = dict(zip(matches[number].exported, texts))
                for position, atom in enumerate(rule.conclusion):
                    row = tuple([cell_value(cell, values, number, place) for cell in atom.cells])
                    here = numbers[atom.table].setdefault(row, len(numbers[atom.table]))
                    if here == len(self.rows[atom.table]):
                        self.rows[atom.table].append(row)
                        self.origins[atom.table].append([])
                    if len(self.origins[atom.table][here]) < kept:
                        self.origins[atom.table][here].append(Origin(number, texts, position))


def cell_value(cell: Cell, values: dict[int, str], rule: int, place: int) -> Value:
    """The value of a cell of a conclusion at a place of its rule."""
    if isinstance(cell.content, str):
        return cell.content
    return (rule, cell.content, place) if cell.kind == EXISTENTIAL else values[cell.content]


class KeyChase:
    """Makes rows that agree on a key equal, and those that agree on the left of a dependency equal on its right, until
    nothing changes.

    A table's keys come first, then its dependencies, and have their numbers in this order.
    """

    def __init__(self, rows: list[list[Cells]], tables: list[Table]) -> None:
        self.rows = rows
        self.determinations = [table.determinations() for table in tables]
        self.replaced: dict[Value, Value] = {}
        self.steps: dict[Value, KeyStep] = {}
        self.met: dict[tuple[int, int], list[Pair]] = {}
        self.holders: dict[Value, int | list[int]] = {}
        self.indexes: dict[tuple[int, int], dict[Value | Cells, int]] = {}
        self.work: deque[tuple[int, int]] = deque()
        for table, determinations in enumerate(self.determinations):
            for column in sorted({column for left, _ in determinations for column in left}):
                self.hold_column(table, column)
        for table, determinations in enumerate(self.determinations):
            for row in range(len(rows[table]) if determinations else 0):
                self.look(table, row)
        while self.work:
            self.look(*self.work.popleft())
        self.holders.clear()
        self.indexes.clear()

    def hold_column(self, table: int, column: int) -> None:
        """Takes down where the nulls of a column are: only a row with one can come to agree with another."""
        for row, cells in enumerate(self.rows[table]):
            if isinstance(cells[column], tuple):
                self.hold(cells[column], [row * len(self.rows) + table])

    def hold(self, value: Value, rows: list[int]) -> None:
        """Adds rows to those of a null; a row alone is held without a list."""
        held = self.holders.get(value)
        if isinstance(held, list):
            held.extend(rows)
        elif held is not None:
            self.holders[value] = [held, *rows]
        elif rows:
            self.holders[value] = rows if len(rows) > 1 else rows[0]

    def value(self, value: Value) -> Value:
        """The value that stands now in the place of a value."""
        last = value
        while last in self.replaced:
            last = self.replaced[last]
        while value != last:
            self.replaced[value], value = last, self.replaced[value]
        return last

    def agreed(self, table: int, key: int, row: int) -> Cells:
        """The values of a row in the columns of a key, as they are now."""
        return tuple([self.value(self.rows[table][row][column]) for column in self.determinations[table][key][0]])

    def look(self, table: int, row: int) -> None:
        """Compares a row with the first row that agrees with it on a key."""
        for key, (_, right) in enumerate(self.determinations[table]):
            index, agreed = self.indexes.setdefault((table, key), {}), self.agreed(table, key, row)
            other = index.setdefault(agreed[0] if len(agreed) == 1 else agreed, row)
            if other != row:
                for column in right:
                    self.make_equal(table, key, (other, row), column)

    def make_equal(self, table: int, key: int, pair: Pair, column: int) -> None:
        """Makes the values of two rows in a column equal, if one of them is a null."""
        one, two = [self.value(self.rows[table][row][column]) for row in pair]
        if one == two:
            return
        least, greatest = (one, two) if order(one) < order(two) else (two, one)
        if not isinstance(greatest, tuple):
            self.met.setdefault((table, key), []).append(pair)
            return
        self.replaced[greatest] = least
        self.note(greatest, KeyStep(least, table, key, pair))
        held = self.holders.pop(greatest, [])
        moved = held if isinstance(held, list) else [held]
        self.work.extend((row % len(self.rows), row // len(self.rows)) for row in moved)
        if isinstance(least, tuple):
            self.hold(least, moved)

    def note(self, value: Value, step: KeyStep) -> None:
        """Takes down why a null was replaced."""
        self.steps[value] = step

    def clashes(self) -> list[Clash]:
        """All clashes that are left at the end, ordered by table, key, the values of the key and the column."""
        found: list[Clash] = []
        for (table, key), pairs in sorted(self.met.items()):
            groups: dict[Cells, list[int]] = {self.agreed(table, key, pair[1]): [] for pair in pairs}
            for row in range(len(self.rows[table])):
                agreed = self.agreed(table, key, row)
                if agreed in groups:
                    groups[agreed].append(row)
            for agreed, rows in sorted(groups.items(), key=lambda one: [order(value) for value in one[0]]):
                found += self.of_group(table, key, agreed, rows)
        return found

    def of_group(self, table: int, key: int, agreed: Cells, rows: list[int]) -> Iterator[Clash]:
        """The clashes among rows that agree on a key."""
        for column in self.determinations[table][key][1]:
            texts: dict[str, list[int]] = {}
            for row in rows:
                value = self.value(self.rows[table][row][column])
                if not isinstance(value, tuple):
                    texts.setdefault(value, []).append(row)
            if len(texts) > 1:
                yield Clash(table, key, agreed, column, dict(sorted(texts.items())))


def order(value: Value) -> tuple[int, Value]:
    """Texts come before nulls."""
    return int(isinstance(value, tuple)), value
