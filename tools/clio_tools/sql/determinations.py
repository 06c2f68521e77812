"""Keys and dependencies: which rows of a table have to be equal, and in which columns."""
from collections.abc import Sequence
from typing import Any

from clio_tools.sql.tables import Table
from clio_tools.sql.work import Work


class Clash(Exception):
    """A key or dependency asks two different constants to be equal."""


class Determination:
    """Rows of a table that agree on the left columns have to agree on the right ones."""

    def __init__(self, table: Table, left: Sequence[str], right: Sequence[str]) -> None:
        self.table = table
        self.left = [table.columns.index(name) for name in left]
        self.right = [table.columns.index(name) for name in right if name not in left]

    def feeds(self, other: "Determination") -> bool:
        """Whether what it makes equal may be in the left columns of another one."""
        return bool(self.table.all_heads(self.right) & other.table.all_heads(other.left))

    def meets(self, other: "Determination") -> bool:
        """Whether what one makes equal may be in the table of the other one."""
        return any(one.table.all_heads(one.right) & there.table.all_heads(range(len(there.table.columns)))
                   for one, there in ((self, other), (other, self))) or self.table is other.table

    @property
    def is_key(self) -> bool:
        """Whether it leaves one row in a group."""
        return len(self.left) + len(self.right) == len(self.table.columns)

    @property
    def together(self) -> set[int]:
        """The rules that make rows of the table, if they all have the first column of their matches in one left column:
        then rows that agree on the left columns are where the matches are that have one text there."""
        for place in self.left:
            if all(insert.cells[place] == "m.c0" for insert in self.table.inserts):
                return {insert.rule for insert in self.table.inserts}
        return set()

    def is_simple(self) -> bool:
        """Whether each null of the right columns stands once in the table: then groups share none."""
        seen = self.table.all_heads(self.left)
        for place in self.right:
            cell = self.table.cells[place]
            if cell.heads and (not cell.once or cell.heads & seen):
                return False
            seen = seen | cell.heads
        return True

    def check_clash(self, work: Work, groups: str) -> None:
        """Stops if a group, a row of a table with least and greatest constants, has two in a column."""
        places = [place for place in self.right if self.table.cells[place].texts]
        if places:
            test = " OR ".join(f"c{place} <> z{place}" for place in places)
            shown = ", ".join(f"c{place}, z{place}" for place in places)
            found = work.engine.each(f"SELECT {shown} FROM {groups} WHERE {test} LIMIT 1", [])
            if found:
                self.raise_clash(places, found[0])

    def raise_clash(self, places: Sequence[int], found: Sequence[Any]) -> None:
        """Tells the first column of a group that has two constants."""
        names = self.table.columns
        for number, place in enumerate(places):
            one, other = found[2 * number:2 * number + 2]
            if one != other and one is not None:
                texts = ['"%s"' % text.replace("\\", "\\\\").replace('"', '\\"') for text in (one, other)]
                key = ", ".join(names[one] for one in self.left)
                raise Clash(f"clash: table {self.table.name}, key ({key}): {texts[0]} and {texts[1]}"
                            f" in column {names[place]}")

    def least_and_greatest(self) -> list[str]:
        """The least of each right column in a group, and the greatest constant and null."""
        parts = []
        for place in self.right:
            if self.table.cells[place].texts:
                parts += [f"min(c{place}) AS c{place}", f"max(c{place}) AS z{place}"]
            if self.table.cells[place].heads:
                parts += [f"min(n{place}) AS n{place}", f"max(n{place}) AS x{place}"]
        return parts

    def has_more(self) -> list[str]:
        """What is true of a group that isn't equal in the right columns yet."""
        tests = []
        for place in self.right:
            cell = self.table.cells[place]
            tests += [f"min(c{place}) <> max(c{place})"] * cell.texts
            tests += [f"min(n{place}) <> max(n{place})"] * bool(cell.heads)
            tests += [f"(min(n{place}) IS NOT NULL AND min(c{place}) IS NOT NULL)"] * bool(cell.heads and cell.texts)
        return tests


def bring_together(work: Work, one: Determination) -> None:
    """Has the rows that agree on the left columns of a determination on one server."""
    table = one.table
    if table.work or not one.together:
        moved = work.moved(table.query(distinct=False), table.listed(one.left))
        if moved:
            table.put(moved, is_loose=True)
