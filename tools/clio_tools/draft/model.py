"""Tables as they are found, and the sets that they become: what a mapping text can say of them, and why not more."""
from __future__ import annotations

import dataclasses
from collections.abc import Callable, Iterable, Iterator

from clio_tools.draft.names import RESERVED, Words, shown
from clio_tools.program import Refused

Remark = Callable[[str], None]  # takes what a reader should know

MOST_COLUMNS = 64
MOST_TABLES = 64
MOST_OCCURRENCES = 64
MOST_DEPTH = 16


@dataclasses.dataclass
class Column:
    """A column as it is found; `why_not` says why it is left out."""

    name: str
    may_be_null: bool = False
    why_not: str = ""
    word: str = ""
    type: str = ""  # as the database names it
    is_numbered: bool = False  # the database gives it numbers
    has_default: bool = False  # the database gives it another value


@dataclasses.dataclass
class Ref:
    """A link by columns to columns of another table; if that is none of those that were found, it has a name alone, and
    `why_not` says why.
    """

    columns: list[str]
    other: Table
    referred: list[str]
    why_not: str = ""

    def words(self, table: Table) -> tuple[list[str], list[str]]:
        """The words of the columns, and of those that they refer to."""
        return ([table.column(name).word for name in self.columns],
                [self.other.column(name).word for name in self.referred])


@dataclasses.dataclass(eq=False)
class Table:
    """A table as it is found, with the tables inside it."""

    name: str
    columns: list[Column]
    keys: list[list[str]] = dataclasses.field(default_factory=list)
    refs: list[Ref] = dataclasses.field(default_factory=list)
    inner: list[Table] = dataclasses.field(default_factory=list)
    parent: Table | None = None
    notes: list[str] = dataclasses.field(default_factory=list)
    why_not: str = ""
    word: str = ""
    is_of_catalog: bool = False  # whether it is known which columns may be NULL

    def column(self, name: str) -> Column:
        return next(column for column in self.columns if column.name == name)

    def words(self, names: Iterable[str]) -> str:
        """The words of columns, in a comment."""
        known = {column.name: column.word for column in self.columns}
        return ", ".join(known.get(name) or shown(name) for name in names)

    @property
    def said(self) -> list[Column]:
        """The columns that stand in the text."""
        return [column for column in self.columns if not column.why_not]

    def within(self) -> Iterator[Table]:
        """This table and those inside it."""
        yield self
        for one in self.inner:
            yield from one.within()

    def depth(self) -> int:
        return 1 if self.parent is None else 1 + self.parent.depth()


@dataclasses.dataclass
class Made:
    """An object of a document as clio reads it: the texts of its columns, and the objects of its inner sets."""

    cells: dict[str, str | None]
    inner: dict[str, list[Made]]

    def size(self) -> int:
        """How many cells it has, with those of the objects inside it, and one more for each object."""
        return 1 + len(self.cells) + sum(one.size() for array in self.inner.values() for one in array)


class Side:
    """One side of a mapping text, or of a drawing, which can have refs in a circle, and as many as there are."""

    def __init__(self, name: str, roots: list[Table], drawing: bool = False) -> None:
        self.name = name
        self.drawing = drawing
        self.roots = roots
        self.tables = [table for root in roots for table in root.within()]
        self._name_all()
        self._judge_tables()
        found = [(table, table.refs) for table in self.tables]
        for table in self.tables:
            self._judge_keys(table)
            table.refs = []
        for table, refs in found:
            self._judge_refs(table, refs)

    @property
    def said(self) -> list[Table]:
        """The root tables that stand in the text."""
        return [table for table in self.roots if not table.why_not]

    def _name_all(self) -> None:
        words = Words(RESERVED if self.name == "target" else ())
        for table in self.tables:
            table.word = words.give(table.name)
        for table in self.tables:
            own = Words(inner.word for inner in table.inner)
            for column in table.columns:
                column.word = own.give(column.name)

    def _judge_tables(self) -> None:
        count = 0
        for table in self.tables:
            width = len(table.said) + bool(table.inner) + (table.parent is not None)
            if table.why_not or (table.parent is not None and table.parent.why_not):
                table.why_not = table.why_not or "the set around it is left out"
            elif not table.said:
                table.why_not = "it has no column, and a set has one at least"
            elif width > MOST_COLUMNS:
                table.why_not = f"it has {width} columns, and a set has at most {MOST_COLUMNS}: split it by views"
            elif table.depth() > MOST_DEPTH:
                table.why_not = f"sets can be nested {MOST_DEPTH} deep"
            elif count == MOST_TABLES:
                table.why_not = f"a side has at most {MOST_TABLES} sets: take out others, and put it in their place"
            else:
                count += 1

    def _judge_keys(self, table: Table) -> None:
        kept: list[list[str]] = []
        for key in table.keys:
            if any(table.column(name).why_not for name in key):
                table.notes.append(f"key ({table.words(key)}): one of its columns is left out")
            elif len(set(key)) == len(key) and key not in kept:
                kept.append(key)
        table.keys = kept

    def _judge_refs(self, table: Table, refs: list[Ref]) -> None:
        for ref in refs:
            ref.why_not = ref.why_not or self._why_no_ref(table, ref)
            if not ref.why_not:
                table.refs.append(ref)
                if not self.drawing and max(self._occurrences().values()) > MOST_OCCURRENCES:
                    table.refs.remove(ref)
                    ref.why_not = f"with it more than {MOST_OCCURRENCES} tables would follow from one along refs"
            if ref.why_not:
                referred = ref.other.words(ref.referred)
                other = (ref.other.word or shown(ref.other.name)) + (f" ({referred})" if referred else "")
                table.notes.append(f"ref ({table.words(ref.columns)}) -> {other}: {ref.why_not}")

    def _why_no_ref(self, table: Table, ref: Ref) -> str:
        if ref.other is table and not self.drawing:
            return "a set can't refer to itself; a rule can make such a link"
        if ref.other.why_not:
            return "that set is left out"
        columns = [*map(table.column, ref.columns), *map(ref.other.column, ref.referred)]
        if any(column.why_not for column in columns):
            return "one of its columns is left out"
        if not len(ref.columns) == len(ref.referred) == len(set(ref.columns)) == len(set(ref.referred)):
            return "its columns don't go to so many different ones"
        if not self.drawing and self._leads(ref.other, table):
            return "it would close a circle of refs; a rule can make such a link"
        return ""

    def _leads(self, start: Table, goal: Table) -> bool:
        return start is goal or any(self._leads(ref.other, goal) for ref in start.refs if ref.other is not start)

    def _occurrences(self) -> dict[Table, int]:
        """How many tables follow from each along refs and to the set around it, with itself."""
        counts: dict[Table, int] = {}

        def count(table: Table) -> int:
            if table not in counts:
                around = [table.parent] if table.parent is not None else []
                counts[table] = 1 + sum(count(other) for other in [ref.other for ref in table.refs] + around)
            return counts[table]

        for table in self.tables:
            count(table)
        return counts


def find_set(side: Side, name: str, hint: str = "") -> Table:
    """The root table that became a set of this name; a hint ends what is said if there is none."""
    for table in side.said:
        if table.word == name:
            return table
    there = ", ".join(table.word for table in side.said)[:300] or "there is no table"
    raise Refused(f"the mapping has a set {name}, and nothing here becomes it: {there}{hint}")
