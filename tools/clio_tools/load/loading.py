"""One load: staged, compared, written, and told."""
from __future__ import annotations

import argparse
import datetime
import json
from collections.abc import Iterator

from clio_tools.databases.postgres import DatabaseError
from clio_tools.draft.names import shown
from clio_tools.ids.crosswalk import Crosswalk
from clio_tools.load.changing import Change, Tell
from clio_tools.load.comparing import DELETE, Comparison
from clio_tools.load.database import Database, DoesNotFit, Misfit, NotDirect, Options, literal
from clio_tools.load.identity import Identity
from clio_tools.load.plan import Plan, TablePlan
from clio_tools.load.record import Record
from clio_tools.load.telling import SAMPLES, Differences, said_of, shown_name
from clio_tools.load.workspace import Workspace, sources_of
from clio_tools.program import Refused, counted, harmless, remark
from clio_tools.safe_files import digest_of_file

LOG = ", ".join(f"{name} TEXT NOT NULL" for name in ("loaded_at", "load", "mapping", "sources", "options", "counts"))
DOES_NOT_FIT = "22", "23"  # classes of SQLSTATE: a value that is none of a type; a constraint
UNREACHED = "", "08", "57"  # and those of a server that is gone, so that it isn't known whether all was kept


class Load:
    """A load of a plan's tables from the files of a workspace."""

    def __init__(self, database: Database, plan: Plan, space: Workspace, crosswalk: Crosswalk | None, options: Options,
                 gone: str,
                 given: argparse.Namespace, tell: Tell) -> None:
        self.database, self.plan, self.space, self.crosswalk = database, plan, space, crosswalk
        self.options, self.gone, self.given, self.tell = options, gone, given, tell
        self.is_dry: bool = given.dry_run
        self.altered: list[str] = []  # of a trial: what the database stores otherwise than it is written
        self.may_be_direct = not (self.is_dry or given.diff or given.identity)
        self.identity = Identity(database, plan, space.mapping.target,
                                 crosswalk) if given.identity and crosswalk else None

    def run(self) -> int:
        """Does it all; answers the status."""
        try:
            comparison = self.done()
        except DoesNotFit as why:
            raise self.explained(str(why)) from None
        except DatabaseError as error:
            kind = (error.sqlstate or "")[:2]
            if kind in DOES_NOT_FIT:
                raise self.explained(error.cause) from None
            if kind in UNREACHED:
                raise
            raise Refused(f"{error.cause}; nothing is changed") from None
        for plan in self.plan.tables:
            print(harmless(said_of(plan, comparison.counts[plan.number], self.is_dry)))
            if self.is_dry:
                print("".join(harmless(line) + "\n" for line in self.samples[plan.number]), end="")
        for line in self.altered:
            print(harmless(line))
        return int(self.is_dry and self.differs(comparison))

    def done(self) -> Comparison:
        """Compares and writes; what was found."""
        try:
            with (self.database.trial(self.plan) if self.given.trial else
                  self.database.transaction(self.plan, self.is_dry)):
                comparison = self.compared()
                self.write(comparison)
        except NotDirect:
            self.may_be_direct = False
            return self.done()
        return comparison

    def explained(self, cause: str) -> Refused:
        """What is said if the database refuses a value: all that doesn't fit, or else what it said itself."""
        with self.database.transaction(self.plan, True):
            for plan in self.plan.tables:
                self.fill(plan)
            self.refuse_misfits(list(self.misfits()))
        is_taken = "unique" in cause.lower() and self.crosswalk is not None and self.identity is None
        hint = "; if a row that has this is the same thing with another number, take --identity" if is_taken else ""
        return Refused(f"{cause}; nothing is changed{hint}")

    def fill(self, plan: TablePlan) -> int:
        """Reads a file into a work table; answers how many rows it has."""
        return self.checked(plan, self.database.fill(plan, self.space.path(plan.set), self.options))

    def fill_directly(self, plan: TablePlan) -> int:
        """Reads a file into its table, which has no rows."""
        rows = self.database.fill_directly(plan, self.space.path(plan.set), self.options)
        if rows != self.space.counts.get(f"{plan.set.name}.csv", rows):
            raise NotDirect  # the file was cut, or a trigger left rows out: it is said which
        return self.checked(plan, rows)

    def checked(self, plan: TablePlan, rows: int) -> int:
        """A number of rows, as it must be by the summary."""
        self.space.check_count(plan.set, rows)
        self.tell(f"read {plan.table.name}: {rows:,} rows")
        return rows

    def find_direct(self) -> None:
        """Finds the tables into which files can go at once: all are empty, and nothing has to be compared."""
        for plan in self.plan.tables:
            plan.is_direct = False
            plan.is_empty = self.database.value(f"SELECT 1 FROM {plan.table.sql} LIMIT 1") is None
        if self.may_be_direct and not self.plan.misfits and all(plan.is_empty for plan in self.plan.tables):
            for plan in self.plan.tables:
                plan.is_direct = self.database.can_fill_directly(plan, self.space.path(plan.set), self.options)

    def compared(self) -> Comparison:
        """Stages all tables, refuses what doesn't fit, and compares them."""
        self.find_direct()
        staged = [plan for plan in self.plan.tables if not plan.is_direct]
        rows = {plan.number: self.fill(plan) for plan in staged}
        if self.plan.misfits or any(self.database.may_misfit(plan, self.options) for plan in staged):
            raise DoesNotFit("a value doesn't fit")
        comparison = Comparison(self.database, self.plan, Record(self.database, self.given.name), self.gone)
        for plan in staged:
            self.database.convert(plan, self.options, self.is_dry)
        if self.identity is not None:
            self.identity.translate(self.is_dry)
        for plan in staged:
            comparison.compare(plan, rows[plan.number])
            self.tell(f"compared {plan.table.name}")
        self.check_crosswalk(comparison.record)
        comparison.find_referred()
        for plan in staged:
            comparison.count_extra(plan)
        return comparison

    def check_crosswalk(self, record: Record) -> None:
        """Refuses a new crosswalk if rows are there that a load wrote by the numbers of another one."""
        if self.crosswalk is None or not self.crosswalk.is_new or self.identity is not None or record.sql is None:
            return
        for plan in self.plan.tables:
            if set(plan.key or []) & set(plan.numbered) and not plan.is_empty and record.count(plan):
                name = shown_name(plan.table.name)
                raise Refused(f"{self.crosswalk.path} is a new crosswalk, and rows of {name} have the numbers of "
                              "another one: give that one, or take --identity, with which rows keep the numbers "
                              "that they have; nothing is changed")

    def misfits(self) -> Iterator[str]:
        """All that doesn't fit, as lines."""
        yield from self.plan.misfits
        for plan in self.plan.tables:
            for one in self.database.misfits(plan, self.options):
                yield misfit_text(plan, one)

    def refuse_misfits(self, lines: list[str]) -> None:
        """Lists what doesn't fit, and refuses it."""
        for line in lines[:-1]:
            remark("clio-load", line)
        if lines:
            raise Refused(f"{lines[-1]}\nclio-load: {counted(len(lines), 'misfit')}; nothing is changed")

    def write(self, comparison: Comparison) -> None:
        """Writes what differs, unless it is a dry run without a trial."""
        differences = Differences(comparison)
        if self.is_dry:
            self.samples = {plan.number: list(differences.samples(plan)) for plan in self.plan.tables}
        if self.given.diff:
            differences.write(self.given.diff)
        if self.is_dry and not self.given.trial:
            return
        self.check_referred(comparison)
        self.check_numbers(comparison)
        comparison.record.make()
        Change(comparison, self.tell, self.fill_directly, self.given.adopt).write()
        if self.given.log:
            self.log(comparison)
        if self.is_dry:
            self.altered = list(differences.altered())
            return
        for plan in self.plan.tables:
            self.database.set_sequences(plan)
        if self.crosswalk is not None:
            if self.identity is not None:
                self.identity.keep()
            self.crosswalk.commit(self.space.digests or self.crosswalk.written())

    def check_referred(self, comparison: Comparison) -> None:
        """Refuses to leave rows that refer to nothing."""
        found = [plan for plan in self.plan.tables if comparison.counts[plan.number].referred]
        if not found or self.given.keep_referred or self.gone != DELETE:
            return
        for plan in found:
            for row in self.database.rows(f"SELECT m FROM {plan.work('extra')} WHERE is_referred = 1 LIMIT {SAMPLES}"):
                remark("clio-load", f"{shown_name(plan.table.name)} {shown(str(row[0]))} is to be deleted, and a row "
                                    f"that stays refers to it")
        count = sum(comparison.counts[plan.number].referred for plan in found)
        raise Refused(f"{counted(count, 'row')} can't be deleted, since rows that stay refer to them: keep them by "
                      f"--keep-referred;"
                      " nothing is changed")

    def check_numbers(self, comparison: Comparison) -> None:
        """Refuses to change rows that no load wrote, and that are matched by a number of the crosswalk alone."""
        found = 0
        for plan in self.plan.tables:
            test = "1 = 1" if set(plan.key or []) & set(plan.numbered) else \
                self.identity.doubtful(plan) if self.identity else None
            if self.given.adopt or not comparison.counts[plan.number].changed or test is None:
                continue
            keys = comparison.changed_of_others(plan, test)
            found += self.database.count(f"SELECT count(*) FROM ({keys}) AS k")
            for row in self.database.first(keys, SAMPLES):
                remark("clio-load", f"{shown_name(plan.table.name)} {shown(str(row[0]))} would be changed, and no load "
                                    f"wrote that row")
        if found:
            raise Refused(f"{counted(found, 'row')} with the number of a thing in the crosswalk may be another thing: "
                          f"change its number,"
                          " or take --adopt if it is the same; nothing is changed")

    def differs(self, comparison: Comparison) -> bool:
        """Whether the database differs from the target."""
        return any(counts.is_written or counts.kept or (counts.others and not self.given.others)
                   for counts in comparison.counts.values())

    def log(self, comparison: Comparison) -> None:
        """Adds this load to the log."""
        sources = {str(path): digest_of_file(path).hex() for path in sources_of(self.space.mapping)}
        counts = {plan.table.name: vars(comparison.counts[plan.number]) for plan in self.plan.tables}
        options = {name: value for name, value in vars(self.given).items() if value and name not in ("place", "kind")}
        table = self.database.make_log(self.given.log, LOG)
        values = [datetime.datetime.now(datetime.timezone.utc).isoformat(timespec="seconds"), self.given.name,
                  sources.pop("mapping.clio"),
                  json.dumps(sources), json.dumps(options), json.dumps(counts)]
        self.database.run(f"INSERT INTO {table} VALUES ({', '.join(literal(value) for value in values)})")


def misfit_text(plan: TablePlan, one: Misfit) -> str:
    """A misfit in words."""
    place = f"out/{plan.set.name}.csv: record {one.record}: column {one.column.word}"
    if one.why == "NOT NULL":
        return (f"{place} has no value, and must have one in table {shown_name(plan.table.name)}: fill it, or give it"
                " numbers by --ids")
    text = shown((one.text or "")[:80])
    return f"{place} is {text}, which {shown_name(plan.table.name)} can't hold unchanged as {one.why}"
