"""SQLite, by Python's own module, in one transaction."""
from __future__ import annotations

import collections
import contextlib
import os
import pathlib
import sqlite3
import urllib.parse
from collections.abc import Iterable, Iterator

from clio_tools.draft import model, sqlite
from clio_tools.load.catalog import DATE, INTEGER, NUMBER, OTHER, TEXT, TIME, Catalog, Column, ForeignKey, Table
from clio_tools.load.database import (Cells, Database, DoesNotFit, Misfit, Options, TakenBack, identifier,
                                      literal)
from clio_tools.load.plan import Plan, TablePlan
from clio_tools.load.sqlite_values import FITS, ROUNDED, affinity, checked, kind_of, maker, text_of
from clio_tools.program import Refused, stop_by_exception

CACHE = 65536  # KiB of the file, and of work tables, that are held in memory
OWN = "clio_load_"  # how the tool's own tables begin
RECORD_COLUMNS = ["load", "table_name", "key_columns", "row_key"]


class Sqlite(Database):
    """An SQLite file."""

    differs = "IS NOT"
    place = "_rowid_"
    now = "CURRENT_TIMESTAMP"
    or_abort = " OR ABORT"

    def __init__(self, path: str, wait: int) -> None:
        """Opens a file; `wait` are the seconds in which somebody else's lock may end."""
        self.path = path
        if not pathlib.Path(path).is_file():
            raise Refused(f"{path} is no file: clio-load fills tables that are there")
        stop_by_exception()
        address = f"file:{urllib.parse.quote(os.fsencode(pathlib.Path(path).resolve()))}?mode=rw"
        with self.told():
            self.base = sqlite3.connect(address, uri=True, isolation_level=None, timeout=wait)
            self.base.text_factory = lambda content: content.decode("utf-8", "surrogateescape")
            for schema in "main", "temp":
                self.base.execute(f"PRAGMA {schema}.cache_size = -{CACHE}")
            self.base.execute("PRAGMA foreign_keys = ON")

    @contextlib.contextmanager
    def told(self) -> Iterator[None]:
        """What SQLite refuses is told as a refusal."""
        try:
            yield
        except sqlite3.IntegrityError as error:
            raise DoesNotFit(f"{self.path}: SQLite: {error}") from None
        except sqlite3.Error as error:
            busy = ": somebody else has it locked; try again" if "locked" in str(error) else ""
            raise Refused(f"{self.path}: SQLite: {error}{busy}; nothing is changed") from None

    def catalog(self) -> Catalog:
        read = sqlite.Base(self.path)
        side = model.Side("target", read.tables())
        read.base.close()
        tables = [self.table(one) for one in side.tables if one.columns]
        named = {table.name.lower(): table for table in tables}
        keys = [key for table in tables for key in self.foreign_keys(table, named)]
        return Catalog(tables, keys)

    def table(self, found: model.Table) -> Table:
        """A table with the types of its columns."""
        words = {column.name: column.word for column in found.columns}
        columns = []
        query = f"PRAGMA main.table_xinfo({identifier(found.name)})"
        for _, name, kind, filled, default, place, hidden in self.base.execute(query):
            if hidden != 1:
                is_identity = kind.upper() == "INTEGER" and bool(place) and found.keys[0] == [name]
                columns.append(Column(name, words[name], kind or "BLOB", kind_of(kind), not filled and not place,
                                      default is not None or is_identity, is_identity, hidden in (2, 3)))
        ranked = [one for one in self.base.execute(f"PRAGMA main.table_list({identifier(found.name)})")
                  if one[0] == "main"]
        return Table(found.name, found.word, f"main.{identifier(found.name)}", columns,
                     [list(key) for key in found.keys],
                     not any(one[4] for one in ranked) and self.place not in [one.name.lower() for one in columns])

    def foreign_keys(self, table: Table, named: dict[str, Table]) -> list[ForeignKey]:
        """The foreign keys of a table."""
        links: dict[int, list[tuple[str, str, str | None]]] = {}
        acting = set()
        query = f"PRAGMA main.foreign_key_list({identifier(table.name)})"
        for number, _, other, column, referred, _, action, _ in self.base.execute(query):
            links.setdefault(number, []).append((other, column, referred))
            if action not in ("NO ACTION", "RESTRICT"):
                acting.add(number)
        found = []
        for number, parts in links.items():
            parent = named.get(parts[0][0].lower())
            if parent is None:
                continue
            referred = [name for _, _, name in parts]
            names = parent.keys[0] if None in referred and parent.keys else [own(parent, str(name))
                                                                             for name in referred]
            found.append(ForeignKey(table.sql, tuple(own(table, column) for _, column, _ in parts), parent.sql,
                                    tuple(names), number in acting))
        return found

    def run(self, sql: str) -> int:
        with self.told():
            return self.base.execute(sql).rowcount

    def rows(self, sql: str) -> list[Cells]:
        return list(self.stream(sql))

    def stream(self, sql: str) -> Iterator[Cells]:
        with self.told():
            for row in self.base.execute(sql):
                yield tuple(text_of(cell) for cell in row)

    @contextlib.contextmanager
    def transaction(self, plan: Plan, is_dry: bool) -> Iterator[None]:
        self.run("BEGIN" if is_dry else "BEGIN IMMEDIATE")
        try:
            if not is_dry:
                self.run("PRAGMA defer_foreign_keys = ON")
            yield
            if not is_dry:
                self.commit(plan)
        finally:
            if self.base.in_transaction:
                self.base.execute("ROLLBACK")

    def commit(self, plan: Plan) -> None:
        """Ends the transaction; rows that refer to nothing are named."""
        try:
            self.base.execute("COMMIT")
        except sqlite3.IntegrityError:
            for one in plan.tables:
                for table, row, parent, _ in self.base.execute(f"PRAGMA "
                                                               f"main.foreign_key_check({identifier(one.table.name)})"):
                    raise Refused(f"{self.path}: row {row} of {table} would refer to no row of {parent}; nothing is "
                                  f"changed") from None
            raise Refused(f"{self.path}: a row would refer to no row; nothing is changed") from None
        except sqlite3.Error as error:
            raise Refused(f"{self.path}: SQLite: {error}; nothing is changed") from None

    @contextlib.contextmanager
    def trial(self, plan: Plan) -> Iterator[None]:
        with contextlib.suppress(TakenBack), self.transaction(plan, False):
            before = self.dangling(plan)
            yield
            for table, row, parent, _ in self.dangling(plan) - before:
                raise Refused(f"{self.path}: row {row} of {table} would refer to no row of {parent}; nothing is"
                              " changed")
            raise TakenBack

    def dangling(self, plan: Plan) -> collections.Counter[tuple[object, ...]]:
        """The rows that refer to nothing, in the loaded tables and in those that refer to them."""
        tables = {one.table.sql for one in plan.tables}
        tables |= {key.child for key in plan.foreign_keys if key.parent in tables}
        with self.told():
            return collections.Counter(row for table in sorted(tables) for row in self.base.execute(
                f"PRAGMA main.foreign_key_check({table.removeprefix('main.')})"))

    def fill(self, plan: TablePlan, path: pathlib.Path, options: Options) -> int:
        cells = ", ".join(f"c{place} {affinity(column)}" for place, column in enumerate(plan.loaded))
        self.run(f"CREATE TEMP TABLE {plan.work('new')} ({cells})")
        return self.read(plan.work("new"), plan, path, options)

    def read(self, into: str, plan: TablePlan, path: pathlib.Path, options: Options) -> int:
        """Reads a file into a table."""
        makers = [(place, maker(column, options)) for place, column in plan.columns]
        rows = ([make(row[place]) for place, make in makers] for row in checked(path, plan))
        with self.told():
            marks = ", ".join("?" * len(makers))
            return max(self.base.executemany(f"INSERT{self.or_abort} INTO {into} VALUES ({marks})", rows).rowcount, 0)

    def can_fill_directly(self, plan: TablePlan, path: pathlib.Path, options: Options) -> bool:
        return True

    def fill_directly(self, plan: TablePlan, path: pathlib.Path, options: Options) -> int:
        names = ", ".join(identifier(column.name) for column in plan.loaded)
        count = self.read(f"{plan.table.sql} ({names})", plan, path, options)
        self.new_of_table(plan)
        if self.may_misfit(plan, options):
            raise DoesNotFit(f"{self.path}: a value doesn't fit")
        return count

    def insert(self, table: str, rows: Iterable[Cells]) -> None:
        listed = list(rows)
        with self.told():
            if listed:
                self.base.executemany(f"INSERT INTO {table} VALUES ({', '.join('?' * len(listed[0]))})", listed)

    def next_value(self, plan: TablePlan, column: Column, taken: str, is_dry: bool) -> str:
        parts = [f"coalesce((SELECT max(value) FROM {taken}), 0)",
                 f"coalesce((SELECT max({identifier(column.name)}) FROM {plan.table.sql}), 0)"]
        if self.value("SELECT 1 FROM main.sqlite_master WHERE name = 'sqlite_sequence'"):
            parts.append(f"coalesce((SELECT max(seq) FROM main.sqlite_sequence WHERE name = "
                         f"{literal(plan.table.name)}), 0)")
        return f"max({', '.join(parts)}) + place"

    def tests(self, plan: TablePlan) -> Iterator[tuple[int, Column, str, str]]:
        """For each column that can't hold all texts the condition that a cell doesn't fit, and why it doesn't then."""
        for place, column in enumerate(plan.loaded):
            if not column.may_be_null:
                yield place, column, f"c{place} IS NULL", "NOT NULL"
            if column.kind in FITS:
                test = FITS[column.kind].format(f"c{place}")
                yield place, column, f"c{place} IS NOT NULL AND NOT ({test})", column.type

    def may_misfit(self, plan: TablePlan, options: Options) -> bool:
        tests = " OR ".join(f"({test})" for _, _, test, _ in self.tests(plan))
        return bool(tests) and self.value(f"SELECT 1 FROM {plan.work('new')} WHERE {tests} LIMIT 1") is not None

    def misfits(self, plan: TablePlan, options: Options) -> list[Misfit]:
        found = [Misfit(int(str(record)), column, text and text.removesuffix(ROUNDED), why)
                 for place, column, test, why in self.tests(plan)
                 for record, text in self.stream(f"SELECT _rowid_, c{place} FROM {plan.work('new')} WHERE {test}")]
        return sorted(found, key=lambda one: one.record)

    def convert(self, plan: TablePlan, options: Options, is_dry: bool) -> None:
        """The work table has values already."""

    def look_at(self, table: str) -> None:
        """SQLite makes an index where a join needs one."""

    def key_text(self, cells: list[str]) -> str:
        return " || ',' || ".join(f"quote({cell})" for cell in cells)

    def compared(self, cell: str, column: Column) -> str:
        return f"{cell} COLLATE BINARY" if column.kind in (TEXT, OTHER) else cell

    def is_exact(self, plan: TablePlan, column: Column) -> bool:
        made = self.value(f"SELECT sql FROM main.sqlite_master WHERE name = {literal(plan.table.name)}") or ""
        return column.kind == TEXT and "collate" not in made.lower()

    def placeholder(self, column: Column, table: str) -> str | None:
        if column.kind in (INTEGER, NUMBER):
            name = identifier(column.name)
            least = f"(SELECT min(coalesce(min(m.{name}), 0), 0) FROM {table} AS m)"
            return f"{least} - 1 - abs(random() % 1000000000000000)"
        return "hex(randomblob(16))" if column.kind in (TEXT, OTHER, DATE, TIME) else None

    def make_record(self, name: str, columns: str) -> str:
        return self.make_log(OWN + name, columns)

    def make_log(self, name: str, columns: str) -> str:
        self.run(f"CREATE TABLE IF NOT EXISTS main.{identifier(name)} ({columns})")
        return f"main.{identifier(name)}"

    def has_record(self, name: str) -> str | None:
        with self.told():
            columns = [one[1] for one in self.base.execute(f"PRAGMA main.table_info({identifier(OWN + name)})")]
            is_other = self.base.execute("SELECT 1 FROM main.sqlite_master WHERE type IN ('view', 'trigger')"
                                         " AND tbl_name = ? COLLATE NOCASE", (OWN + name,)).fetchone()
        if columns and (is_other or columns != RECORD_COLUMNS):
            raise Refused(f"{self.path}: {OWN}{name} is not the record of clio-load, which is kept under that name: "
                          f"rename it")
        return f"main.{identifier(OWN + name)}" if columns else None

    def set_sequences(self, plan: TablePlan) -> None:
        """SQLite does it by itself."""

    def close(self) -> None:
        self.base.close()


def own(table: Table, name: str) -> str:
    """A column's name as its table has it; SQLite doesn't tell capitals."""
    return next((column.name for column in table.columns if column.name.lower() == name.lower()), name)
