"""Which rows loads have written, and the log of loads: tables of the tool's own, changed in the transaction of a load.

So the record is of the same state as the rows, whatever becomes of a load, and when the database is put back from a
copy. It has the key of each row that a load inserted or changed, by the name of the load and the table.
"""
from __future__ import annotations

import json

from clio_tools.load.database import Database, identifier, literal
from clio_tools.load.plan import TablePlan

WRITTEN = "written"
COLUMNS = "load TEXT NOT NULL, table_name TEXT NOT NULL, key_columns TEXT NOT NULL, row_key TEXT NOT NULL"


class Record:
    """The rows that loads of a name have written."""

    def __init__(self, database: Database, name: str) -> None:
        self.database, self.name = database, name
        self.sql = database.has_record(WRITTEN)

    def make(self) -> None:
        """Makes the record if there is none."""
        if self.sql is None:
            self.sql = self.database.make_record(WRITTEN, COLUMNS)

    def by(self, plan: TablePlan) -> str:
        """The columns that make a key, as the record has them."""
        return literal(json.dumps(plan.key_names(), ensure_ascii=False) + ("" if plan.key is not None else " whole"))

    def rows_of(self, plan: TablePlan, test: str) -> str:
        """A query for the keys of a table's rows by loads whose names satisfy a test, each once."""
        if self.sql is None:
            return "SELECT '' AS row_key WHERE 1 = 0"
        return f"SELECT DISTINCT w.row_key FROM {self.sql} AS w WHERE {self.of_table(plan, 'w', test)}"

    def of_table(self, plan: TablePlan, row: str, test: str = "=") -> str:
        """The condition that an entry is of a table, by loads whose names satisfy a test."""
        return (f"{row}.load {test} {literal(self.name)} AND {row}.table_name = {literal(plan.table.sql)}"
                f" AND {row}.key_columns = {self.by(plan)}")

    def count(self, plan: TablePlan) -> int:
        """How many rows of a table are in the record."""
        return self.database.count(f"SELECT count(*) FROM {self.sql} AS w WHERE {self.of_table(plan, 'w')}")

    def rekey(self, plan: TablePlan) -> None:
        """Has the entries of a table that have another key, as that of an earlier mapping, take the one of now."""
        if self.sql is None or plan.key is None:
            return
        table = (f"load = {literal(self.name)} AND table_name = {literal(plan.table.sql)}"
                 f" AND key_columns <> {self.by(plan)}")
        if self.database.value(f"SELECT 1 FROM {self.sql} WHERE {table} LIMIT 1") is None:
            return
        for text, in self.database.rows(f"SELECT DISTINCT key_columns FROM {self.sql} WHERE {table}"):
            names = names_of(str(text))
            if names and all(plan.table.column(name) for name in names):
                now, before = (self.database.key_text([f"t.{identifier(name)}" for name in listed])
                               for listed in (plan.key_names(), names))
                self.database.run(f"INSERT INTO {self.sql} (load, table_name, key_columns, row_key) SELECT r.load,"
                                  f" r.table_name, {self.by(plan)}, {now} FROM {self.sql} AS r JOIN {plan.table.sql} "
                                  f"AS t"
                                  f" ON r.row_key = {before} WHERE r.load = {literal(self.name)} AND r.table_name ="
                                  f" {literal(plan.table.sql)} AND r.key_columns = {literal(str(text))}")
        self.database.run(f"DELETE FROM {self.sql} WHERE {table}")

    def add(self, plan: TablePlan, keys: str) -> None:
        """Adds the keys that a query has as m."""
        query = f"SELECT k.m FROM ({keys}) AS k"
        if not plan.is_empty:
            query += f" LEFT JOIN ({self.rows_of(plan, '=')}) AS w ON w.row_key = k.m WHERE w.row_key IS NULL"
        self.database.run(f"INSERT INTO {self.sql} (load, table_name, key_columns, row_key) SELECT "
                          f"{literal(self.name)},"
                          f" {literal(plan.table.sql)}, {self.by(plan)}, a.m FROM ({query}) AS a")

    def forget(self, plan: TablePlan, keys: str) -> None:
        """Takes out the keys that a query has."""
        self.database.run(f"DELETE FROM {self.sql} AS r WHERE {self.of_table(plan, 'r')} AND r.row_key IN ({keys})")

    def forget_missing(self, plan: TablePlan, keys: str) -> None:
        """Takes out the keys that a query lacks, which has them as m: their rows are there no more."""
        self.forget(plan, f"SELECT w.row_key FROM ({self.rows_of(plan, '=')}) AS w LEFT JOIN ({keys}) AS k ON k.m = "
                          f"w.row_key"
                          " WHERE k.m IS NULL")


def names_of(text: str) -> list[str]:
    """The columns of a key in the record; none if rows were matched as a whole, or if this isn't what a load wrote."""
    try:
        names = json.loads(text)
    except ValueError:
        return []
    return names if isinstance(names, list) and all(isinstance(name, str) for name in names) else []
