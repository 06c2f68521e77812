"""SQLite, by Python's own module: the source is one file, which is only read, and the target another."""
import os
import pathlib
import sqlite3
import time
from collections.abc import Sequence


from clio_tools.mapping.meanings import CONVERSIONS, own
from clio_tools.program import Refused
from clio_tools.sql.session import Log, unlogged
from clio_tools.sql.words import SQLITE, quoted
from clio_tools.sql.work import Made, Row, Whole

MADE = "/* made by clio-sql */"
LOOKED_UP = ("u", "place")  # columns of numbers by which single rows are looked up


class Sqlite(Whole):
    """One transaction: what is asked of the source is of one state of it, and the target changes at its end, or not
    at all."""
    words = SQLITE
    is_plan, is_one_snapshot = False, True

    def __init__(self, source: str, target: str, log: Log = unlogged) -> None:
        self.log = log
        if not pathlib.Path(source).is_file():
            raise Refused(f"{source} is not there")
        if os.path.exists(target) and os.path.samefile(source, target):
            raise Refused(f"{source} and {target} are one file; the target must be another than the source")
        self.target, self.was_there = pathlib.Path(target), os.path.lexists(target)
        self.columns: dict[str, list[str]] = {}
        self.counts: dict[str, int] = {}
        try:
            self.base = sqlite3.connect("", isolation_level=None, uri=True)
            self.base.execute("ATTACH ? AS source", (f"{pathlib.Path(source).resolve().as_uri()}?mode=ro",))
            self.base.execute("ATTACH ? AS target", (self.target.resolve().as_uri(),))
            for name, conversion in CONVERSIONS.items():
                self.base.create_function(own(name), conversion.arity, conversion.apply, deterministic=True)
            for schema in "main", "target":
                self.base.execute(f"PRAGMA {schema}.cache_size = -200000")
            self.base.execute("BEGIN IMMEDIATE")
        except sqlite3.Error as error:
            raise Refused(f"{target}: {error}") from None

    def asked(self, sql: str) -> sqlite3.Cursor:
        """Runs a statement."""
        began = time.monotonic()
        try:
            cursor = self.base.execute(sql)
        except sqlite3.Error as error:
            raise Refused(f"{error}; the target is as it was") from None
        self.log(sql, time.monotonic() - began, cursor.rowcount)
        return cursor

    def prepare(self, tables: dict[str, list[str]]) -> None:
        self.columns = tables
        for name, columns in tables.items():
            found = self.asked(f"SELECT type, sql FROM target.sqlite_schema WHERE name = {quoted(name)}").fetchone()
            if found and found[0] != "table":
                raise Refused(f"{self.target} has a {found[0]} {name}, where a table is to be made")
            if found and MADE not in found[1] and self.columns_of(name) != columns:
                raise Refused(f"{self.target} has a table {name} with other columns, which clio-sql didn't make:"
                              " rename it, or drop it")

    def columns_of(self, name: str) -> list[str]:
        """The columns of a table of the target."""
        return [row[1] for row in self.asked(f'PRAGMA target.table_info("{name}")')]

    def run(self, sql: str) -> int:
        return self.asked(sql).rowcount

    def rows(self, sql: str, assumed: Sequence[Row]) -> Sequence[Row]:
        try:
            return self.asked(sql).fetchall()
        except sqlite3.Error as error:
            raise Refused(str(error)) from None

    def make(self, table: Made) -> int:
        self.run(f"CREATE TABLE {table.name} AS {table.query}")
        if table.by and (table.by[0] in LOOKED_UP or table.name[:1] == "m" and table.name[1:].isdigit()):
            self.run(f"CREATE INDEX {table.name}_by ON {table.name} ({', '.join(table.by)})")
        return -1

    def make_all(self, tables: Sequence[Made]) -> list[int]:
        for table in tables:
            self.make(table)
        return [int(self.asked(f"SELECT count(*) FROM {table.name}").fetchone()[0]) for table in tables]

    def load(self, name: str, columns: Sequence[str], rows: Sequence[Row]) -> None:
        self.run(f"CREATE TABLE {name} ({', '.join(columns)})")
        self.base.executemany(f"INSERT INTO {name} VALUES ({', '.join('?' * len(columns))})", rows)
        self.run(f"CREATE INDEX {name}_by ON {name} ({columns[0].split()[0]})")

    def write(self, name: str, columns: Sequence[str], parts: Sequence[str]) -> None:
        there = self.columns_of(name)
        if there == list(columns):
            self.run(f'DELETE FROM target."{name}"')
        else:
            self.run(f'DROP TABLE IF EXISTS target."{name}"')
            listed = ", ".join(f'"{column}" TEXT' for column in columns)
            self.run(f'CREATE TABLE target."{name}" ({MADE} {listed})')
        self.counts[name] = sum(self.run(f'INSERT INTO target."{name}" {part}') for part in parts)

    def publish(self) -> dict[str, int]:
        self.run("COMMIT")
        self.was_there = True
        return self.counts

    def close(self) -> None:
        self.base.close()
        if not self.was_there and self.target.is_file() and not self.target.stat().st_size:
            self.target.unlink()
