"""Which rows of large files a live run takes: the first ones, and those that links lead to from any that is taken."""
from dataclasses import dataclass, field
from typing import NamedTuple

from ..mapping.meaning import Mapping
from ..mapping.tables import Columns, Table
from .roots import Root

OF_ONE_VALUE = 3  # rows that are taken of those that one row's link leads to
MOST_TIMES = 20  # so many times as many rows are taken as were asked for, at most

Index = dict[tuple[str, ...], list[int]]


@dataclass
class Kept:
    """A root that was read, with the indexes that were made of it."""

    root: Root
    indexes: dict[tuple[int, Columns], Index] = field(default_factory=dict)

    def index(self, table: int, columns: Columns) -> Index:
        """The first units that have each tuple of texts in these columns of a table."""
        if (table, columns) not in self.indexes:
            made: Index = {}
            for unit in range(self.root.count):
                for number, row in self.root.facts(unit):
                    if number == table:
                        units = made.setdefault(tuple([row[column] for column in columns]), [])
                        if len(units) < OF_ONE_VALUE:
                            units.append(unit)
            self.indexes[table, columns] = made
        return self.indexes[table, columns]


class Join(NamedTuple):
    """From columns of a table rows lead to rows with the same texts in columns of another."""

    table: int
    own: Columns
    other: int
    there: Columns


def root_of(number: int, tables: list[Table]) -> int:
    """The root of a table."""
    parent = tables[number].parent
    return number if parent is None else root_of(parent, tables)


def joins(mapping: Mapping, same: dict[int, int]) -> list[Join]:
    """The refs to other files, and what the rules join; `same` names for a set under a second name the set itself."""
    found = []
    for number, table in enumerate(mapping.source):
        found += [Join(number, link.own, link.table, link.referred) for link in table.every_link()
                  if root_of(link.table, mapping.source) != root_of(number, mapping.source)]
    for rule in mapping.rules:
        for place, atom in enumerate(rule.premise):
            for other in rule.premise[place + 1:]:
                shared = [(atom.cells.index(cell), column) for column, cell in enumerate(other.cells)
                          if cell in atom.cells]
                if shared:
                    found.append(Join(same.get(atom.table, atom.table), tuple(own for own, _ in shared),
                                      same.get(other.table, other.table), tuple(there for _, there in shared)))
    return list(dict.fromkeys(found))


def choose(large: dict[int, Kept], mapping: Mapping, most: int, same: dict[int, int]) -> dict[int, list[int]]:
    """For each root the units that are taken, ascending."""
    links = [one for one in joins(mapping, same) if root_of(one.other, mapping.source) in large]
    chosen: dict[int, set[int]] = {number: set() for number in large}
    left: list[tuple[int, int]] = []

    def take(number: int, unit: int) -> None:
        if unit not in chosen[number] and len(chosen[number]) < MOST_TIMES * most:
            chosen[number].add(unit)
            left.append((number, unit))

    for number, kept in large.items():
        for unit in range(min(most, kept.root.count)):
            take(number, unit)
    while left:
        number, unit = left.pop()
        for table, row in large[number].root.facts(unit):
            for link in links:
                if link.table == table:
                    root = root_of(link.other, mapping.source)
                    found = large[root].index(link.other, link.there)
                    for one in found.get(tuple([row[column] for column in link.own]), []):
                        take(root, one)
    return {number: sorted(units) for number, units in chosen.items()}
