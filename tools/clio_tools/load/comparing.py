"""What a load would change: the rows that the target has, compared with those of the database, by SQL over whole
tables.

Of a staged table `new` come

    diff    its rows that the database lacks (is_new), or has with other values
    extra   the rows of the database that it lacks: all their columns, their key as a text m, whether a former load
            wrote them (is_own), and whether they go (is_gone)

Rows are matched by a key that has a value in each row of `new`; without one by all columns and, as rows may be equal
then, by their number among equal ones.
"""
from __future__ import annotations

from dataclasses import dataclass, field

from clio_tools.draft.names import shown
from clio_tools.load.catalog import INTEGER, NUMBER, ForeignKey
from clio_tools.load.database import Database, identifier
from clio_tools.load.plan import Plan, TablePlan
from clio_tools.load.record import Record
from clio_tools.program import Refused

KEEP, MARK, DELETE = "keep", "mark", "delete"


@dataclass
class Counts:
    """What a load would do in a table, in rows; of the changed ones, how many have another value in each column."""

    rows: int = 0  # of the target
    inserted: int = 0
    changed: int = 0
    columns: dict[str, int] = field(default_factory=dict)
    deleted: int = 0
    marked: int = 0
    kept: int = 0  # rows that a load wrote and the target no longer has
    referred: int = 0  # those of them that would go if no other row referred to them
    others: int = 0  # rows that no load wrote and the target doesn't have

    @property
    def equal(self) -> int:
        """The rows that are in the database as the target has them."""
        return self.rows - self.inserted - self.changed

    @property
    def is_written(self) -> bool:
        """Whether anything is written."""
        return bool(self.inserted or self.changed or self.deleted or self.marked)


class Comparison:
    """Compares the staged tables of a plan with those of the database."""

    def __init__(self, database: Database, plan: Plan, record: Record, gone: str) -> None:
        self.database, self.plan, self.record, self.gone = database, plan, record, gone
        self.counts = {one.number: Counts() for one in plan.tables}

    def compare(self, plan: TablePlan, rows: int) -> None:
        """Compares one table."""
        counts = self.counts[plan.number]
        counts.rows = rows
        self.choose_key(plan)
        if plan.is_empty:
            counts.inserted = rows
            return
        self.record.rekey(plan)
        run = self.database.run
        if plan.key is None:
            run(self.numbered_rows(plan))
        else:
            self.check_pairs(plan, plan.key)
        run(self.diff(plan))
        self.database.look_at(plan.work("diff"))
        counts.inserted = self.database.count(f"SELECT count(*) FROM {plan.work('diff')} WHERE is_new = 1")
        counts.changed = self.database.count(f"SELECT count(*) FROM {plan.work('diff')} WHERE is_new = 0")
        if counts.changed:
            self.check_different(plan, plan.key or [], f"{plan.work('diff')} WHERE is_new = 0")
            counts.columns = self.changed_columns(plan)
        if self.has_extra(plan):
            run(self.extra(plan))
            self.database.look_at(plan.work("extra"))
        else:
            run(f"{self.extra(plan)} LIMIT 0")
        self.check_own(plan)

    def count_altered(self, plan: TablePlan) -> int:
        """Compares a table once more, when all is written; answers how many rows are not as they were written."""
        counts, run = self.counts[plan.number], self.database.run
        if not counts.inserted and not counts.changed:
            return 0
        for kind in "diff", "here":
            run(f"DROP TABLE IF EXISTS {plan.work(kind)}")
        plan.is_empty = False
        if plan.key is None:
            run(self.numbered_rows(plan))
        run(self.diff(plan))
        return self.database.count(f"SELECT count(*) FROM {plan.work('diff')}")

    def check_pairs(self, plan: TablePlan, key: list[int]) -> None:
        """Refuses rows of the target that are one row of the table, as those with 1 and 01 in a column of numbers, and
        rows of the table that are one of the target."""
        exact = {place for place in key if place in plan.numbered
                 or self.database.is_exact(plan, plan.loaded[place])}
        values = {place for place in key if plan.loaded[place].kind in (INTEGER, NUMBER)}
        is_unique = plan.key_names() in plan.table.keys and not plan.table.is_shared
        if is_unique and exact == set(key) and plan.has_key_within(key):
            return
        cells, source = ", ".join(f"n.c{place}" for place in key), f"{plan.work('new')} AS n"
        if not is_unique or exact | values != set(key):  # rows may be one for the table that aren't for themselves
            cells = ", ".join(f"t.{identifier(plan.loaded[place].name)}" for place in key)
            source += f" JOIN {plan.table.sql} AS t ON {self.match(plan, 't', 'n')}"
        found = self.database.first(f"SELECT {cells} FROM {source} GROUP BY {cells} HAVING count(*) > 1")
        if found:
            which = f"the key ({', '.join(plan.key_names())}) {', '.join(shown(str(cell)) for cell in found[0])}"
            raise Refused(f"{which} belongs to several rows of out/{plan.set.name}.csv or of table"
                          f" {shown(plan.table.name)} in the database: name another key by --key, or change the"
                          f" rows; nothing is changed")

    def check_own(self, plan: TablePlan) -> None:
        """Refuses to delete or mark one of several rows that have the key of a row which a load wrote: it isn't known
        which of them that is."""
        if plan.key is None or self.gone == KEEP or plan.key_names() in plan.table.keys and not plan.table.is_shared:
            return
        found = self.database.first(f"SELECT m FROM {plan.work('extra')} WHERE is_own = 1 GROUP BY m"
                                    " HAVING count(*) > 1")
        if found:
            raise Refused(f"table {shown(plan.table.name)} has several rows with the key"
                          f" ({', '.join(plan.key_names())}) {shown(str(found[0][0]))}, and a load wrote one of them:"
                          " name another key by --key, or change the rows; nothing is changed")

    def has_extra(self, plan: TablePlan) -> bool:
        """Whether the table has rows that the target lacks."""
        counts = self.counts[plan.number]
        return self.database.count(f"SELECT count(*) FROM {plan.table.sql}") > counts.rows - counts.inserted

    def choose_key(self, plan: TablePlan) -> None:
        """Chooses the first key that has a value in each row, and that no two rows share."""
        plan.key = None
        for key in plan.keys:
            nulls = [place for place in key if plan.loaded[place].may_be_null]
            test = " OR ".join(f"c{place} IS NULL" for place in nulls)
            if not test or self.database.value(f"SELECT 1 FROM {plan.work('new')} WHERE {test} LIMIT 1") is None:
                plan.key = key
                break
        if plan.key is not None:
            self.check_key(plan, plan.key)
        elif not plan.table.has_places:
            raise Refused(f"table {shown(plan.table.name)} has no key with a value in each row, and its rows can't be "
                          f"told apart: name"
                          f" one by --key {plan.set.name}=..")

    def check_key(self, plan: TablePlan, key: list[int]) -> None:
        """Refuses rows of the target that are one by the key, as 1 and 01 are in a column of numbers."""
        if [plan.loaded[place].name for place in key] in plan.table.keys:
            return  # the table's own key tells, but of rows that are changed
        self.check_different(plan, key, plan.work("new"))

    def check_different(self, plan: TablePlan, key: list[int], source: str) -> None:
        """Refuses rows of a work table that are one by the key."""
        cells = ", ".join(f"c{place}" for place in key)
        found = self.database.first(f"SELECT {cells} FROM {source} GROUP BY {cells} HAVING count(*) > 1")
        if found:
            names = ", ".join(plan.key_names())
            raise Refused(f"two rows of out/{plan.set.name}.csv have the same key ({names}) in the database: "
                          f"{', '.join(shown(str(cell)) for cell in found[0])}: name another key by --key, or change "
                          f"the type of a column")

    def match(self, plan: TablePlan, row: str, new: str) -> str:
        """The condition that a row of the table is one of the target."""
        if plan.key is None:
            return f"{row}.m = {new}.m AND {row}.occ = {new}.occ"
        return " AND ".join(f"{row}.{identifier(plan.loaded[place].name)} = {new}.c{place}" for place in plan.key)

    def here(self, plan: TablePlan) -> str:
        """The rows of the table, to be matched."""
        return plan.table.sql if plan.key is not None else plan.work("here")

    def numbered_rows(self, plan: TablePlan) -> str:
        """The rows of a table that is matched by whole rows: the place of each, all its values, and its number among
        equal ones."""
        cells = self.database.key_text([f"t.{identifier(column.name)}" for column in plan.loaded])
        place = f"t.{self.database.place}" if plan.table.has_places else "NULL"
        return (f"CREATE TEMP TABLE {plan.work('here')} AS SELECT s.*, row_number() OVER (PARTITION BY m ORDER BY "
                f"place) AS occ"
                f" FROM (SELECT {place} AS place, {cells} AS m FROM {plan.table.sql} AS t) AS s")

    def new(self, plan: TablePlan) -> str:
        """The rows of the target, to be matched."""
        if plan.key is not None:
            return plan.work("new")
        cells = self.database.key_text([f"s.c{place}" for place in range(len(plan.columns))])
        return (f"(SELECT s.*, {cells} AS m, row_number() OVER (PARTITION BY {cells}) AS occ"
                f" FROM {plan.work('new')} AS s)")

    def differences(self, plan: TablePlan, row: str, new: str) -> dict[str, str]:
        """For each column a condition that its value differs; a row that is there again is no longer marked."""
        compared, differs = self.database.compared, self.database.differs
        found = {column.name: f"{compared(f'{row}.{identifier(column.name)}', column)} {differs} "
                              f"{compared(f'{new}.c{place}', column)}"
                 for place, column in enumerate(plan.loaded)}
        if plan.mark is not None:
            found[plan.mark.name] = self.database.is_marked(f"{row}.{identifier(plan.mark.name)}", plan.mark)
        return found

    def diff(self, plan: TablePlan) -> str:
        """The rows of the target that the database lacks, or has with other values."""
        if plan.key is None:
            lacks, differs = "t.m IS NULL", "1 = 0"
        else:
            lacks = f"t.{identifier(plan.loaded[plan.key[0]].name)} IS NULL"
            differs = " OR ".join(self.differences(plan, "t", "n").values())
        return (f"CREATE TEMP TABLE {plan.work('diff')} AS SELECT n.*, CASE WHEN {lacks} THEN 1 ELSE 0 END AS is_new"
                f" FROM {self.new(plan)} AS n LEFT JOIN {self.here(plan)} AS t ON {self.match(plan, 't', 'n')}"
                f" WHERE {lacks} OR {differs}")

    def changed_columns(self, plan: TablePlan) -> dict[str, int]:
        """How many of the changed rows differ in each column."""
        differences = self.differences(plan, "t", "n")
        sums = ", ".join(f"sum(CASE WHEN {test} THEN 1 ELSE 0 END)" for test in differences.values())
        row = next(iter(self.database.rows(f"SELECT {sums} FROM {plan.work('diff')} AS n JOIN {plan.table.sql} AS t"
                                      f" ON {self.match(plan, 't', 'n')} WHERE n.is_new = 0")))
        return {name: int(count) for name, count in zip(differences, row) if count and int(count)}

    def extra(self, plan: TablePlan) -> str:
        """The rows of the table that the target lacks."""
        columns = ", ".join(f"t.{identifier(column.name)} AS t{place}" for place,
                            column in enumerate(plan.table.columns))
        text = self.key_text_of_row(plan)
        row, place, joined = "t", "NULL", f"{plan.table.sql} AS t"
        if plan.key is None:
            row, place = "h", "h.place"
            joined += f" JOIN {plan.work('here')} AS h ON h.place = t.{self.database.place}"
        gone = "w.row_key IS NOT NULL AND v.row_key IS NULL"
        if self.gone == KEEP or (self.gone == MARK and plan.mark is None):
            gone = "1 = 0"
        elif self.gone == MARK and plan.mark is not None:
            gone += f" AND NOT ({self.database.is_marked(f't.{identifier(plan.mark.name)}', plan.mark)})"
        lacks = f"n.c{plan.key[0]}" if plan.key is not None else "n.m"
        return (f"CREATE TEMP TABLE {plan.work('extra')} AS SELECT {columns}, {place} AS place, {text} AS m,"
                f" CASE WHEN w.row_key IS NOT NULL AND v.row_key IS NULL THEN 1 ELSE 0 END AS is_own, CASE WHEN {gone} "
                f"THEN 1 ELSE 0 END AS is_gone,"
                f" 0 AS is_referred FROM {joined} LEFT JOIN {self.new(plan)} AS n ON {self.match(plan, row, 'n')}"
                f" LEFT JOIN ({self.record.rows_of(plan, '=')}) AS w ON w.row_key = {text}"
                f" LEFT JOIN ({self.record.rows_of(plan, '<>')}) AS v ON v.row_key = {text} WHERE {lacks} IS NULL")

    def key_text_of_row(self, plan: TablePlan) -> str:
        """The text under which the record has a row `t` of the table."""
        if plan.key is None:
            return "h.m || ' ' || h.occ"
        return self.database.key_text([f"t.{identifier(plan.loaded[place].name)}" for place in plan.key])

    def key_text_of_new(self, plan: TablePlan, row: str) -> str:
        """The text under which the record has a row of the target."""
        if plan.key is None:
            return f"{row}.m || ' ' || {row}.occ"
        return self.database.key_text([f"{row}.c{place}" for place in plan.key])

    def changed_of_others(self, plan: TablePlan, test: str = "1 = 1") -> str:
        """A query for the keys of the changed rows that no load wrote, and that satisfy a test."""
        return (f"SELECT d.m FROM (SELECT {self.key_text_of_new(plan, 'n')} AS m FROM {plan.work('diff')} AS n WHERE "
                f"n.is_new = 0 AND {test}) AS d"
                f" LEFT JOIN ({self.record.rows_of(plan, '=')}) AS w ON w.row_key = d.m WHERE w.row_key IS NULL")

    def find_referred(self) -> None:
        """Marks the rows that can't go, since rows that stay refer to them; and so on, as these then stay too."""
        if self.gone != DELETE:
            return
        while sum(self.stay(key) for key in self.plan.foreign_keys):
            pass

    def stay(self, key: ForeignKey) -> int:
        """Keeps the rows to which rows that stay refer by a foreign key; answers how many these are."""
        plan = self.plan.by_sql(key.parent)
        if plan is None or plan.is_empty:
            return 0
        referred = [f"x.t{plan.table.place(name)}" for name in key.referred]
        values = f"({', '.join(referred)})" if len(referred) > 1 else referred[0]
        return sum(self.database.run(f"UPDATE {plan.work('extra')} AS x SET is_gone = 0, is_referred = 1"
                                     f" WHERE x.is_gone = 1 AND {values} IN ({query})")
                   for query in self.referring(key))

    def referring(self, key: ForeignKey) -> list[str]:
        """Queries for the values that rows which are there at the end have in a foreign key."""
        child = self.plan.by_sql(key.child)
        cells = ", ".join(f"r.{identifier(name)}" for name in key.columns)
        if child is None:
            return [f"SELECT {cells} FROM {key.child} AS r"]
        places = [child.place_of(name) for name in key.columns]
        found = []
        if None not in places:
            found.append(f"SELECT {', '.join(f'r.c{place}' for place in places)} FROM {child.work('new')} AS r")
        elif not child.is_empty:  # rows that are matched keep what they have there
            found.append(f"SELECT {cells} FROM {key.child} AS r LEFT JOIN {child.work('extra')} AS e"
                         f" ON {self.is_extra(child, 'r', 'e')} WHERE e.is_gone IS NULL")
        if not child.is_empty:
            listed = ", ".join(f"r.t{child.table.place(name)}" for name in key.columns)
            found.append(f"SELECT {listed} FROM {child.work('extra')} AS r WHERE r.is_gone = 0")
        return found

    def is_extra(self, plan: TablePlan, row: str, extra: str) -> str:
        """The condition that a row of the table is one of those that the target lacks."""
        if plan.key is None:
            return f"{row}.{self.database.place} = {extra}.place"
        return " AND ".join(f"{row}.{identifier(name)} = {extra}.t{plan.table.place(name)}"
                            for name in plan.key_names())

    def count_extra(self, plan: TablePlan) -> None:
        """Counts the rows that the target lacks, when it is known which go."""
        counts = self.counts[plan.number]
        if plan.is_empty:
            return
        count = self.database.count
        gone = count(f"SELECT count(*) FROM {plan.work('extra')} WHERE is_gone = 1")
        counts.deleted, counts.marked = (gone, 0) if self.gone == DELETE else (0, gone)
        counts.referred = count(f"SELECT count(*) FROM {plan.work('extra')} WHERE is_referred = 1")
        counts.kept = count(f"SELECT count(*) FROM {plan.work('extra')} WHERE is_own = 1 AND is_gone = 0")
        counts.others = count(f"SELECT count(*) FROM {plan.work('extra')} WHERE is_own = 0")
