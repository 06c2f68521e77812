"""The tables of the target as they are worked on.

A cell that may be a null is two columns: c has its constant, or NULL, and n a number, or NULL: that of the head (rule
and variable) of the null, shifted by 40 bits, and the place. So nulls are compared and joined as numbers, which are
in the order of their names; the names are made once, where tables are written. A column that never has nulls has no
n, and one that has nothing else no c.
"""
import copy
from collections.abc import Callable, Sequence
from dataclasses import dataclass
from typing import NamedTuple

from clio_tools.sql.script import Insert, Null
from clio_tools.sql.words import Words

BITS = 40
SHIFT = 1 << BITS
NO_NULL = "CAST(NULL AS bigint)"


def code(head: int, place: str) -> str:
    """The number of a null."""
    return f"({head * SHIFT} + {place})"


def head_of(words: Words, number: str) -> str:
    """The head of the null of a number."""
    return words.divided.format(number, SHIFT)


@dataclass
class Column:
    """Whether a column may have constants, which heads its nulls may have, and whether each null stands in it once."""
    texts: bool
    heads: set[int]
    once: bool


class Heads:
    """The heads of all nulls that a script makes, in the order of rule and variable."""

    def __init__(self, inserts: Sequence[Insert]) -> None:
        self.nulls = sorted({cell for insert in inserts for cell in insert.cells if isinstance(cell, Null)})
        self.number = {null: number for number, null in enumerate(self.nulls)}

    def code(self, null: Null, place: str) -> str:
        """The number of the null of a head at a place."""
        return code(self.number[null], place)


class Inserts(NamedTuple):
    """All inserts of a script, the heads of their nulls, and how many columns the matches of each rule have."""
    all: Sequence[Insert]
    heads: Heads
    words: Words
    widths: dict[int, int]


class Table:
    """A target table: at first what its inserts say, later a work table or a view."""

    def __init__(self, name: str, columns: list[str], given: Inserts) -> None:
        self.name, self.columns = name, columns
        self.inserts = [insert for insert in given.all if insert.table == name]
        self.heads, self.words, self.widths = given.heads, given.words, given.widths
        self.work: str | None = None
        self.is_loose = False  # whether the work table may have a row twice
        self.cells = [self.cell(place) for place in range(len(columns))]

    def cell(self, place: int) -> Column:
        """What may stand in a column, as the inserts say."""
        found = [insert.cells[place] for insert in self.inserts]
        nulls = [self.heads.number[cell] for cell in found if isinstance(cell, Null)]
        once = len(nulls) == len(set(nulls)) and all(insert.cells.count(cell) == 1 for insert in self.inserts
                                                     for cell in [insert.cells[place]] if isinstance(cell, Null))
        return Column(not found or len(nulls) < len(found), set(nulls), once)

    def listed(self, places: Sequence[int]) -> list[str]:
        """The work columns of some columns."""
        return [f"{kind}{place}" for place in places
                for kind, there in (("c", self.cells[place].texts), ("n", bool(self.cells[place].heads))) if there]

    def all_heads(self, places: Sequence[int]) -> set[int]:
        """The heads of the nulls of some columns."""
        return set().union(*(self.cells[place].heads for place in places))

    def same(self, one: str, other: str, places: Sequence[int]) -> str:
        """That two rows agree in some columns."""
        tests = []
        for place in places:
            cell = self.cells[place]
            for kind in [found[0] for found in self.listed([place])]:
                here, there = f"{one}.{kind}{place}", f"{other}.{kind}{place}"
                tests.append(self.words.agree(here, there, kind) if cell.texts and cell.heads else f"{here} = {there}")
        return " AND ".join(tests) or "1 = 1"

    def insert_query(self, insert: Insert, places: Sequence[int] | None = None, where: str = "") -> str:
        """The rows of an insert, or some of their columns."""
        parts = []
        for place in range(len(self.columns)) if places is None else places:
            out, cell = insert.cells[place], self.cells[place]
            if cell.texts:
                parts.append(f"{self.text_of(out)} AS c{place}")
            if cell.heads:
                parts.append(f"{self.heads.code(out, 'm.place') if isinstance(out, Null) else NO_NULL} AS n{place}")
        return f"SELECT {', '.join(parts)} FROM {insert.matches} AS m{where}"

    def text_of(self, out: str | Null) -> str:
        """The constant of a cell of an insert."""
        if isinstance(out, Null):
            return self.words.no_text
        return self.words.text(out) if out.startswith("'") else out

    def is_apart(self, insert: Insert) -> bool:
        """Whether each match makes a row here that nothing else makes: it has a null, and its rule no other insert
        here."""
        return insert.has_null and [other.rule for other in self.inserts].count(insert.rule) == 1

    def is_whole(self) -> bool:
        """Whether the insert that isn't apart has all columns of its matches, which makes its rows distinct."""
        insert = next(insert for insert in self.inserts if not self.is_apart(insert))
        return all(f"m.c{column}" in insert.cells for column in range(self.widths[insert.rule]))

    def query(self, distinct: bool, moved: Callable[[str], str] | None = None) -> str:
        """What stands in the table, each row once if that is asked; `moved` has equal rows of a query on one server, if
        rows are on several."""
        if self.work:
            is_twice = distinct and self.is_loose
            name = moved(f"SELECT * FROM {self.work}") if is_twice and moved else self.work
            return f"SELECT {'DISTINCT ' * is_twice}* FROM {name}"
        if not self.inserts:
            cells = ", ".join(f"{self.words.no_text} AS c{place}" for place in range(len(self.columns)))
            return f"SELECT {cells} WHERE 1 = 0"
        if not distinct:
            return " UNION ALL ".join(map(self.insert_query, self.inserts))
        apart = [self.insert_query(insert) for insert in self.inserts if self.is_apart(insert)]
        others = [self.insert_query(insert) for insert in self.inserts if not self.is_apart(insert)]
        if len(others) == 1 and self.is_whole():
            apart.append(others[0])
        elif others and moved:
            apart.append(f"SELECT DISTINCT * FROM {moved(' UNION ALL '.join(others))}")
        elif len(others) == 1:
            apart.append("SELECT DISTINCT" + others[0][6:])
        elif others:
            apart.append(f"SELECT * FROM ({' UNION '.join(others)}) AS u")
        return " UNION ALL ".join(apart)

    def put(self, work: str, is_loose: bool = False) -> None:
        """Lets a work table stand for what the inserts say."""
        self.work, self.is_loose = work, is_loose

    def copied_cells(self) -> list[Column]:
        """The columns as they are now."""
        return copy.deepcopy(self.cells)
