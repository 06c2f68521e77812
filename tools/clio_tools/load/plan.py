"""What is to be loaded: for each set of the target a table, its columns, the key by which rows are matched, and the
order.

A plan is made of the mapping and the catalog alone. What doesn't fit already there is listed, and not refused at once,
so that all that doesn't fit is said together.
"""
from __future__ import annotations

from dataclasses import dataclass, field

from clio_tools.draft.names import shown
from clio_tools.load.catalog import Catalog, Column, ForeignKey, Table
from clio_tools.mapping.text import Set
from clio_tools.program import Refused


@dataclass
class TablePlan:
    """A set and its table. `columns` has the loaded columns, each with its place among those of the set.

    Work tables have the loaded columns as c0, c1 and so on, in this order; those with all columns of a row of the
    database have them as t0, t1 and so on."""

    number: int
    set: Set
    table: Table
    columns: list[tuple[int, Column]]
    keys: list[list[int]]  # those by which rows can be matched, by places in `columns`, the best first
    key: list[int] | None = None  # the one by which they are; None is the whole row
    is_empty: bool = False  # whether the table has no rows
    mark: Column | None = None  # what is set in rows that the target no longer has
    is_direct: bool = False  # whether the file goes into the table itself, which has no rows
    is_translated: bool = False  # whether numbers of the crosswalk are replaced by the database's
    numbered: list[int] = field(default_factory=list)  # the places of columns with numbers of the crosswalk

    @property
    def loaded(self) -> list[Column]:
        """The loaded columns."""
        return [column for _, column in self.columns]

    def place_of(self, name: str) -> int | None:
        """The place of a column of the table among those that are loaded."""
        return next((place for place, column in enumerate(self.loaded) if column.name == name), None)

    def has_key_within(self, places: list[int]) -> bool:
        """Whether the mapping declares a key of some of these columns, so that clio writes no two rows with equal
        texts there."""
        names = {self.set.columns[self.columns[place][0]] for place in places}
        return any(names.issuperset(key) for key in self.set.keys)

    def key_names(self) -> list[str]:
        """The columns by which rows are matched."""
        return [self.loaded[place].name for place in (range(len(self.columns)) if self.key is None else self.key)]

    def work(self, kind: str) -> str:
        """The name of a work table."""
        return f"clio_{kind}{self.number}"


@dataclass
class Plan:
    """The plans of tables, those first to which others refer; the foreign keys; and what doesn't fit."""

    tables: list[TablePlan]
    foreign_keys: list[ForeignKey]
    misfits: list[str] = field(default_factory=list)

    def by_sql(self, sql: str) -> TablePlan | None:
        """The plan of a table by its name in SQL."""
        return next((one for one in self.tables if one.table.sql == sql), None)


@dataclass
class Wanted:
    """What is asked for: keys that were given by hand, by the names of tables; the column of marks; the columns of
    sets that the database fills by itself, and those that have numbers of a crosswalk."""

    keys: dict[str, list[str]]
    mark: str | None
    unfilled: set[tuple[str, str]]
    numbered: set[tuple[str, str]]


def plan_of(sets: list[Set], catalog: Catalog, wanted: Wanted) -> Plan:
    """The plan for the sets of a target."""
    plan = Plan([], catalog.foreign_keys)
    for one in sets:
        table = next((table for table in catalog.tables if table.word == one.name), None)
        if table is None:
            plan.misfits.append(f"the mapping has a set {one.name}, and the database no table of this name")
            continue
        plan.tables.append(table_plan(len(plan.tables), one, table, wanted, plan.misfits))
    if wanted.keys:
        raise Refused(f"--key {next(iter(wanted.keys))}: the target has no such table")
    if wanted.mark is not None and plan.tables and not any(one.mark for one in plan.tables):
        raise Refused(f"--mark {wanted.mark}: no table has a column of this name to mark rows by")
    plan.tables = in_order(plan)
    return plan


def table_plan(number: int, one: Set, table: Table, wanted: Wanted, misfits: list[str]) -> TablePlan:
    """The plan of a table, and what doesn't fit in it."""
    columns = []
    for place, name in enumerate(one.columns):
        if (one.name, name) in wanted.unfilled:
            continue
        column = next((column for column in table.columns if column.word == name), None)
        if column is None:
            misfits.append(f"table {shown(table.name)} has no column for {one.name}.{name}; it has "
                           f"{', '.join(column.word for column in table.columns)}")
        elif column.is_computed:
            misfits.append(f"table {shown(table.name)} computes its column {shown(name)} itself: leave it out of the "
                           f"mapping")
        else:
            columns.append((place, column))
    plan = TablePlan(number, one, table, columns, [])
    plan.numbered = [number for number, (place, _) in enumerate(columns)
                     if (one.name, one.columns[place]) in wanted.numbered]
    known = {column.name for column in plan.loaded}
    misfits += [f"table {shown(table.name)}: column {shown(column.name)} must have a value in each row, and no rule "
                f"fills it"
                for column in table.columns if not (column.may_be_null or column.is_filled or column.name in known
                                                    or column.is_computed)]
    plan.keys = keys_of(plan, wanted.keys.pop(one.name, None) or wanted.keys.pop(table.name, None))
    if wanted.mark is not None:
        plan.mark = mark_of(table, wanted.mark, known, misfits)
    return plan


def keys_of(plan: TablePlan, chosen: list[str] | None) -> list[list[int]]:
    """The keys by which rows can be matched: the one that was given by hand, or that of the catalog, then those of the
    mapping, then the other ones of the catalog, as far as their columns are loaded."""
    table, words = plan.table, {column.word: column.name for column in plan.table.columns}
    if chosen is not None:
        names = [words.get(name, name) for name in chosen]
        missing = [name for name in names if plan.place_of(name) is None]
        if missing:
            raise Refused(f"--key {plan.set.name}={','.join(chosen)}: the mapping gives no column {missing[0]} of that "
                          f"table")
        listed = [names]
    else:
        declared = [[words[name] for name in key if name in words] for key in plan.set.keys
                    if all(name in words for name in key)]
        listed = table.keys[:1] + declared + table.keys[1:]
    found: list[list[int]] = []
    for key in listed:
        places = [place for name in key if (place := plan.place_of(name)) is not None]
        if places and len(places) == len(key) and places not in found:
            found.append(places)
    return found


def mark_of(table: Table, name: str, known: set[str], misfits: list[str]) -> Column | None:
    """The column that marks rows which the target no longer has, if the table has it."""
    column = table.column(name)
    if column is not None and name in known:
        misfits.append(f"table {shown(table.name)}: the mapping fills {shown(name)}, so it can't mark rows")
    return column


def in_order(plan: Plan) -> list[TablePlan]:
    """The tables, each behind those that it refers to, as far as that is possible."""
    ordered: list[TablePlan] = []
    begun: set[int] = set()

    def place(one: TablePlan) -> None:
        if one.number in begun:
            return
        begun.add(one.number)
        for key in plan.foreign_keys:
            other = plan.by_sql(key.parent)
            if key.child == one.table.sql and other is not None:
                place(other)
        ordered.append(one)

    for one in plan.tables:
        place(one)
    return ordered
