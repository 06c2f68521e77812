"""What a load asks of a database; `postgres` and `sqlite` answer it. Statements are over whole tables."""
from __future__ import annotations

import abc
import contextlib
import pathlib
from collections.abc import Iterable, Iterator
from typing import NamedTuple

from clio_tools.load.catalog import BOOLEAN, INTEGER, NUMBER, Catalog, Column
from clio_tools.load.plan import Plan, TablePlan
from clio_tools.program import Refused

Cells = tuple[str | None, ...]


class Options(NamedTuple):
    """How the cells of files become values."""

    null_text: str | None  # the text that is NULL


class DoesNotFit(Refused):
    """The database refuses a value, or it would be altered."""


class TakenBack(Exception):
    """What was tried is undone."""


class NotDirect(Exception):
    """A file can't go into its table itself after all."""


class Misfit(NamedTuple):
    """A cell that its column can't hold: the number of its record, the column, the text, and why."""

    record: int
    column: Column
    text: str | None
    why: str


class Database(abc.ABC):
    """A database in which tables are loaded. Work tables are temporary, and all is done in one transaction."""

    differs: str  # between two values that may be NULL
    place: str  # by which a row is named
    now: str
    overriding = ""  # so that a column that the database numbers takes a given number
    or_abort = ""  # so that a row that isn't unique is refused, whatever its table's clause for that says

    @abc.abstractmethod
    def catalog(self) -> Catalog:
        """The tables that can be loaded."""

    @abc.abstractmethod
    def run(self, sql: str) -> int:
        """Runs a statement; answers how many rows it changed."""

    @abc.abstractmethod
    def rows(self, sql: str) -> list[Cells]:
        """The rows of a query, as texts."""

    @abc.abstractmethod
    def stream(self, sql: str) -> Iterator[Cells]:
        """The same, one after the other; they have to be read before the next statement."""

    @abc.abstractmethod
    def transaction(self, plan: Plan, is_dry: bool) -> contextlib.AbstractContextManager[None]:
        """What is done within is done whole, or not at all; nobody else changes these tables meanwhile. A dry one
        changes nothing."""

    @abc.abstractmethod
    def trial(self, plan: Plan) -> contextlib.AbstractContextManager[None]:
        """What is done within is done as in a transaction, with what the database checks at its end, and undone."""

    @abc.abstractmethod
    def fill(self, plan: TablePlan, path: pathlib.Path, options: Options) -> int:
        """Reads a file of the target into a work table; answers how many rows it has."""

    @abc.abstractmethod
    def can_fill_directly(self, plan: TablePlan, path: pathlib.Path, options: Options) -> bool:
        """Whether a file can go into its table itself, as long as that has no rows."""

    @abc.abstractmethod
    def fill_directly(self, plan: TablePlan, path: pathlib.Path, options: Options) -> int:
        """Puts a file into its table; answers how many rows it has. What doesn't fit there is a DoesNotFit."""

    @abc.abstractmethod
    def may_misfit(self, plan: TablePlan, options: Options) -> bool:
        """Whether a cell of the file that was read would be altered silently, or whether its table can't hold one."""

    @abc.abstractmethod
    def insert(self, table: str, rows: Iterable[Cells]) -> None:
        """Puts rows of texts into a work table."""

    @abc.abstractmethod
    def next_value(self, plan: TablePlan, column: Column, taken: str, is_dry: bool) -> str:
        """The next value of a column that the database numbers, in a query whose rows have a place from 1; it is behind
        the values of a table of taken ones. In a dry run it is the one that would come."""

    @abc.abstractmethod
    def misfits(self, plan: TablePlan, options: Options) -> list[Misfit]:
        """The cells of the file that was read which its table can't hold."""

    @abc.abstractmethod
    def convert(self, plan: TablePlan, options: Options, is_dry: bool) -> None:
        """Makes the work table `new` of the file that was read: values of the table's types."""

    @abc.abstractmethod
    def look_at(self, table: str) -> None:
        """Has the database see how many rows a table of the tool's own has, for its plans."""

    @abc.abstractmethod
    def key_text(self, cells: list[str]) -> str:
        """A text of SQL for values, NULL too; different values have different ones."""

    @abc.abstractmethod
    def compared(self, cell: str, column: Column) -> str:
        """A cell of a column such that values which differ are told apart."""

    @abc.abstractmethod
    def is_exact(self, plan: TablePlan, column: Column) -> bool:
        """Whether texts that differ are different values of a column, so that no two rows of a file are one there."""

    @abc.abstractmethod
    def placeholder(self, column: Column, table: str) -> str | None:
        """A value that no row of a table has in a column, another one in each row `t`."""

    @abc.abstractmethod
    def make_record(self, name: str, columns: str) -> str:
        """Makes a table of the tool's own if it isn't there; answers its name in SQL."""

    @abc.abstractmethod
    def make_log(self, name: str, columns: str) -> str:
        """Makes the log of loads among the user's tables if it isn't there; answers its name in SQL."""

    @abc.abstractmethod
    def has_record(self, name: str) -> str | None:
        """The name in SQL of a table of the tool's own, if it is there."""

    @abc.abstractmethod
    def set_sequences(self, plan: TablePlan) -> None:
        """Sets what numbers a table's columns behind the last number in them."""

    @abc.abstractmethod
    def close(self) -> None:
        """Ends the session; what is not committed is undone."""

    def new_of_table(self, plan: TablePlan) -> None:
        """Makes `new` of a table into which its file went."""
        cells = ", ".join(f"t.{identifier(column.name)} AS c{place}" for place, column in enumerate(plan.loaded))
        self.run(f"CREATE TEMP VIEW {plan.work('new')} AS SELECT {cells} FROM {plan.table.sql} AS t")

    def value(self, sql: str) -> str | None:
        """The first cell of the first row of a query."""
        return next(iter(self.rows(sql)), (None,))[0]

    def first(self, sql: str, most: int = 1) -> list[Cells]:
        """The first rows of a query. It is planned as for all of them: PostgreSQL takes a join that is right for some
        rows at the beginning as one that tries all pairs, and there may be none."""
        return self.rows(f"WITH found AS MATERIALIZED ({sql}) SELECT * FROM found LIMIT {most}")

    def count(self, sql: str) -> int:
        """The number that a query gives."""
        return int(self.value(sql) or 0)

    def marked(self, column: Column) -> str:
        """What a mark is set to."""
        return "true" if column.kind == BOOLEAN else "1" if column.kind in (INTEGER, NUMBER) else self.now

    def unmarked(self, column: Column) -> str:
        """What a column has in rows that are not marked."""
        return "false" if column.kind == BOOLEAN else "0" if column.kind in (INTEGER, NUMBER) else "NULL"

    def is_marked(self, cell: str, column: Column) -> str:
        """A condition: a row is marked."""
        if self.unmarked(column) == "NULL":
            return f"{cell} IS NOT NULL"
        return f"coalesce({cell}, {self.unmarked(column)}) <> {self.unmarked(column)}"


def identifier(name: str) -> str:
    """A name, as a word of SQL."""
    return '"' + name.replace('"', '""') + '"'


def literal(text: str) -> str:
    """A text, as a word of SQL; a backslash is itself."""
    return "'" + text.replace("'", "''") + "'"
