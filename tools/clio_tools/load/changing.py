"""What a load changes, by SQL over whole tables.

Tables come in the order of their foreign keys: in each first the changed rows, then the new ones; at the end, in the
other order, the rows that go. A row that has a value of a unique key which another row is to get lets go of it first,
and gets one that no row has.
"""
from __future__ import annotations

from collections.abc import Callable

from clio_tools.draft.names import shown
from clio_tools.load.catalog import Column
from clio_tools.load.comparing import DELETE, MARK, Comparison
from clio_tools.load.database import identifier
from clio_tools.load.plan import TablePlan
from clio_tools.program import Refused, counted

Tell = Callable[[str], None]


class Change:
    """Writes what a comparison found."""

    def __init__(self, comparison: Comparison, tell: Tell, direct: Callable[[TablePlan], int],
                 adopts: bool) -> None:
        self.comparison, self.database, self.record = comparison, comparison.database, comparison.record
        self.plan, self.tell, self.direct, self.adopts = comparison.plan, tell, direct, adopts

    def write(self) -> None:
        """Writes all changes, and records whose rows they are."""
        for plan in self.plan.tables:
            counts = self.comparison.counts[plan.number]
            if counts.inserted or counts.changed or plan.is_direct:
                self.tell(f"writes {plan.table.name}")
            if not plan.is_empty and (counts.inserted or counts.changed):
                self.part(plan)
            if counts.changed:
                self.check_written(plan, self.database.run(self.update(plan)), counts.changed)
            if plan.is_direct:
                self.fill_directly(plan)
            elif counts.inserted:
                self.check_written(plan, self.database.run(self.insert(plan)), counts.inserted)
        for plan in reversed(self.plan.tables):
            counts = self.comparison.counts[plan.number]
            if counts.deleted:
                self.delete_alone(plan)
            if counts.marked:
                self.check_written(plan, self.database.run(self.mark(plan)), counts.marked)
        for plan in self.plan.tables:
            self.keep_record(plan)
        if self.record.sql is not None and any(counts.is_written for counts in self.comparison.counts.values()):
            self.database.look_at(self.record.sql)

    def fill_directly(self, plan: TablePlan) -> None:
        """Puts a file into an empty table; only then it is known how many rows there are."""
        counts = self.comparison.counts[plan.number]
        counts.rows = counts.inserted = self.direct(plan)
        self.comparison.choose_key(plan)

    def check_written(self, plan: TablePlan, rows: int, wanted: int) -> None:
        """Refuses a load of which the database left something undone."""
        if rows != wanted:
            raise Refused(f"table {shown(plan.table.name)}: {counted(wanted, 'row')} had to be written or deleted, and "
                          f"the database did so with {rows}: a trigger, a rule or a policy is in the way; nothing is "
                          f"changed")

    def delete_alone(self, plan: TablePlan) -> None:
        """Takes away the rows that go, and refuses to take away, or alter, others by it."""
        count = f"SELECT count(*) FROM {plan.table.sql}"
        others = {key: " AND ".join(f"r.{identifier(name)} IS NOT NULL" for name in key.columns)
                  for key in self.plan.foreign_keys if key.acts and key.parent == plan.table.sql != key.child}
        queries = [count] + [f"SELECT count(*) FROM {key.child} AS r WHERE {test}" for key, test in others.items()]
        before = [self.database.count(query) for query in queries]
        self.database.run(self.delete(plan))
        after = [self.database.count(query) for query in queries]
        self.check_written(plan, before[0] - after[0], self.comparison.counts[plan.number].deleted)
        for key, was, now in zip(others, before[1:], after[1:]):
            if was != now:
                raise Refused(f"rows of {key.child} refer to rows of {plan.table.name} that are to be deleted, and "
                              f"would be deleted or altered with them: nothing is changed")

    def update(self, plan: TablePlan) -> str:
        """Writes the changed rows."""
        key, changed = set(plan.key or []), self.comparison.counts[plan.number].columns
        sets = [f"{identifier(column.name)} = n.c{place}" for place, column in enumerate(plan.loaded)
                if place not in key or column.name in changed]  # a key may differ in capitals alone
        if plan.mark is not None:
            sets.append(f"{identifier(plan.mark.name)} = {self.database.unmarked(plan.mark)}")
        return (f"UPDATE{self.database.or_abort} {plan.table.sql} AS t SET {', '.join(sets)}"
                f" FROM {plan.work('diff')} AS n WHERE n.is_new = 0 AND {self.comparison.match(plan, 't', 'n')}")

    def insert(self, plan: TablePlan) -> str:
        """Writes the new rows."""
        names = ", ".join(identifier(column.name) for column in plan.loaded)
        cells = ", ".join(f"n.c{place}" for place in range(len(plan.columns)))
        source = f"{plan.work('new')} AS n" if plan.is_empty else f"{plan.work('diff')} AS n WHERE n.is_new = 1"
        return (f"INSERT{self.database.or_abort} INTO {plan.table.sql} ({names}){self.database.overriding}"
                f" SELECT {cells} FROM {source}")

    def delete(self, plan: TablePlan) -> str:
        """Takes away the rows that go."""
        if plan.key is None:
            return (f"DELETE FROM {plan.table.sql} AS t WHERE t.{self.database.place} IN"
                    f" (SELECT e.place FROM {plan.work('extra')} AS e WHERE e.is_gone = 1)")
        return f"DELETE FROM {plan.table.sql} AS t WHERE {self.gone(plan)}"

    def mark(self, plan: TablePlan) -> str:
        """Marks the rows that go."""
        assert plan.mark is not None
        test = (f"t.{self.database.place} IN (SELECT e.place FROM {plan.work('extra')} AS e WHERE e.is_gone = 1)"
                if plan.key is None else self.gone(plan))
        name, value = identifier(plan.mark.name), self.database.marked(plan.mark)
        return f"UPDATE{self.database.or_abort} {plan.table.sql} AS t SET {name} = {value} WHERE {test}"

    def gone(self, plan: TablePlan) -> str:
        """The condition that a row of a table with a key goes."""
        names = plan.key_names()
        row = ", ".join(f"t.{identifier(name)}" for name in names)
        cells = ", ".join(f"e.t{plan.table.place(name)}" for name in names)
        return f"({row}) IN (SELECT {cells} FROM {plan.work('extra')} AS e WHERE e.is_gone = 1)"

    def part(self, plan: TablePlan) -> None:
        """Has the rows that change or go let go of the values of unique keys which other rows are to get."""
        for names in plan.table.keys:
            places = [plan.place_of(name) for name in names]
            if plan.key is None or names == plan.key_names() or None in places:
                continue
            equal = " AND ".join(f"t.{identifier(name)} = n.c{place}" for name, place in zip(names, places))
            other = " OR ".join(f"t.{identifier(plan.loaded[place].name)} <> n.c{place}" for place in plan.key)
            held = f"SELECT 1 FROM {plan.work('diff')} AS n WHERE {equal} AND ({other})"
            if not self.database.first(f"SELECT 1 FROM {plan.table.sql} AS t JOIN {plan.work('diff')} AS n ON {equal} "
                                       f"WHERE {other}"):
                continue
            column, value = self.free_value(plan, names)
            goes = self.changes(plan)
            if self.comparison.gone == DELETE:
                goes = f"({goes} OR {self.gone(plan)})"
            self.database.run(f"UPDATE{self.database.or_abort} {plan.table.sql} AS t SET "
                              f"{identifier(column.name)} = {value} WHERE EXISTS "
                              f"({held}) AND {goes}")

    def changes(self, plan: TablePlan) -> str:
        """The condition that a row of a table with a key is changed."""
        row = ", ".join(f"t.{identifier(name)}" for name in plan.key_names())
        cells = ", ".join(f"d.c{place}" for place in plan.key or [])
        return f"({row}) IN (SELECT {cells} FROM {plan.work('diff')} AS d WHERE d.is_new = 0)"

    def free_value(self, plan: TablePlan, names: list[str]) -> tuple[Column, str]:
        """A column of a unique key that isn't one by which rows are matched, and a value for it that no row has."""
        columns = [column for name in names if (column := plan.table.column(name)) and name not in plan.key_names()]
        for column in sorted(columns, key=lambda one: not one.may_be_null):
            value = "NULL" if column.may_be_null else self.database.placeholder(column, plan.table.sql)
            if value is not None:
                return column, value
        raise Refused(f"rows of {plan.table.name} exchange their values of the key ({', '.join(names)}), and no other "
                      f"value is"
                      " known for it meanwhile: nothing is changed; change one of them by hand")

    def keep_record(self, plan: TablePlan) -> None:
        """Records the rows that were written, and takes out those that are there no more."""
        comparison, counts = self.comparison, self.comparison.counts[plan.number]
        key = comparison.key_text_of_new(plan, "n")
        if plan.is_empty:
            if counts.inserted:
                self.record.forget_missing(plan, "SELECT '' AS m WHERE 1 = 0")
                self.record.add(plan, f"SELECT {key} AS m FROM {comparison.new(plan)} AS n")
            return
        extra = plan.work("extra")
        if counts.is_written or self.record.count(plan) > counts.rows + counts.kept:
            self.record.forget_missing(plan, f"SELECT {key} AS m FROM {comparison.new(plan)} AS n UNION ALL SELECT e.m "
                                             f"FROM {extra} AS e"
                                             f" WHERE e.is_own = 1 AND (e.is_gone = 0 OR "
                                             f"{int(comparison.gone == MARK)} = 1)")
        if self.adopts:
            self.record.add(plan, f"SELECT {key} AS m FROM {comparison.new(plan)} AS n")
        elif counts.inserted or counts.changed:
            self.record.add(plan, f"SELECT {key} AS m FROM {plan.work('diff')} AS n")
