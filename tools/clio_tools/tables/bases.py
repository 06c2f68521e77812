"""SQLite and PostgreSQL, as clio-tables speaks to them: names, types, how rows are loaded, and what they can't hold."""
import pathlib
from collections.abc import Container, Iterable, Iterator

from clio_tools import sql_types
from clio_tools.csv import read_table
from clio_tools.mapping.text import Set
from clio_tools.program import Refused
from clio_tools.sql_types import Column, Types

Nullable = Container[Column]  # the columns that may be NULL

ESCAPES = str.maketrans({"\\": "\\\\", "\t": "\\t", "\n": "\\n", "\r": "\\r"})
SYSTEM_COLUMNS = {"tableoid", "xmin", "cmin", "xmax", "cmax", "ctid"}  # each table of PostgreSQL has them


def quoted(name: str) -> str:
    return f'"{name}"'


def listed(names: Iterable[str]) -> str:
    return ", ".join(quoted(name) for name in names)


def opened(cell: str) -> str:
    """A condition of SQL: the cell is a null, the empty text, or the text of NULL."""
    return " OR ".join([f"({cell} = ''", *(f"{cell} = {literal(text)}" for text in sorted(sql_types.null_texts)),
                        f"({cell} LIKE '?%' AND {cell} NOT LIKE '??%'))"])


def literal(text: str) -> str:
    """A text of SQL, the same in both databases: a backslash is itself there."""
    return "'" + text.replace("'", "''") + "'"


def _kept(cell: str) -> str:
    """How SQLite prints a number: whole if it is an integer of 64 bits, or else 15 digits of a double."""
    return cell if sql_types.HOLDS["bigint"](cell) else f"{float(cell):.15g}"


class Sqlite:
    """What the program sqlite3 reads."""
    before = [".bail on", "PRAGMA foreign_keys = ON;"]
    names = {"integer": "INTEGER", "bigint": "INTEGER", "numeric": "NUMERIC", "real": "REAL"}

    def name(self, table: str) -> str:
        return quoted(table)

    def type(self, name: str) -> str:
        return self.names.get(name, "TEXT")

    def load(self, table: Set, path: pathlib.Path, nullable: Nullable) -> Iterator[str]:
        yield f".import --csv --skip 1 '{path}' {table.name}"
        for column in table.columns:
            if (table.name, column) in nullable:
                yield f"UPDATE {quoted(table.name)} SET {quoted(column)} = NULL WHERE {opened(quoted(column))};"

    def check(self, tables: list[Set]) -> None:
        for names in [[table.name for table in tables]] + [table.columns for table in tables]:
            lower = [name.lower() for name in names]
            for place, name in enumerate(names):
                if lower.index(name.lower()) < place:
                    raise Refused(f"SQLite takes {names[lower.index(name.lower())]} and {name} as one name")
        for table in tables:
            if table.name.lower().startswith("sqlite_"):
                raise Refused(f"SQLite keeps the name {table.name} for itself")

    def cannot_hold(self, cell: str, type_name: str) -> str | None:
        if type_name != "numeric" or sql_types.is_open(cell) or _kept(cell) == cell:
            return None
        return f"is {cell[:80]}, and SQLite would keep it as {_kept(cell)}: give it the type text or real"


class Postgres:
    """What psql reads: the tables are in a schema."""
    names = {"real": "double precision"}

    def __init__(self, schema: str) -> None:
        self.schema = schema
        self.before = ["\\set ON_ERROR_STOP on", "SET client_encoding = 'UTF8';",
                       f"CREATE SCHEMA IF NOT EXISTS {schema};"]

    def name(self, table: str) -> str:
        return f"{self.schema}.{quoted(table)}"

    def type(self, name: str) -> str:
        return self.names.get(name, name.upper())

    def copy(self, table: Set, rows: Iterable[list[str]], nullable: Nullable = frozenset()) -> Iterator[str]:
        """The rows in the database's own copy format."""
        yield f"COPY {self.name(table.name)} FROM stdin;"
        typed = [place for place, column in enumerate(table.columns) if (table.name, column) in nullable]
        for row in rows:
            opens = [place for place in typed if sql_types.is_open(row[place])]
            line = "\t".join(row)
            if "\\" in line or "\n" in line or "\r" in line or line.count("\t") >= len(row):
                row = [cell.translate(ESCAPES) for cell in row]
                line = "\t".join(row)
            if opens:
                line = "\t".join("\\N" if place in opens else cell for place, cell in enumerate(row))
            yield line
        yield "\\."

    def load(self, table: Set, path: pathlib.Path, nullable: Nullable) -> Iterator[str]:
        return self.copy(table, read_table(path, table.columns), nullable)

    def check(self, tables: list[Set]) -> None:
        for table in tables:
            for name in [table.name + "_plain"] + table.columns:
                if len(name) > 63:
                    raise Refused(f"PostgreSQL cuts the name {name[:80]} after 63 letters")
            for name in table.columns:
                if name in SYSTEM_COLUMNS:
                    raise Refused(f"PostgreSQL has a column {name} of its own in each table, so {table.name}.{name}"
                                  " can't be made there")

    def cannot_hold(self, cell: str, type_name: str) -> str | None:
        return None


Base = Sqlite | Postgres


def create(base: Base, table: Set, tables: list[Set], types: Types) -> list[str]:
    named = {other.name: other for other in tables}
    nullable = sql_types.nullable(types, tables)
    lines = []
    for column in table.columns:
        filled = "" if (table.name, column) in nullable else " NOT NULL"
        lines.append(f"{quoted(column)} {base.type(types[table.name, column])}{filled}")
    left_out = []
    for number, key in enumerate(table.keys):
        lines.append(f"{'UNIQUE' if number else 'PRIMARY KEY'} ({listed(key)})")
    for columns, other, referred in table.links:
        if any(sorted(key) == sorted(referred) for key in named[other].keys):
            lines.append(f"FOREIGN KEY ({listed(columns)}) REFERENCES {base.name(other)} ({listed(referred)})")
        else:
            left_out.append(f"-- no foreign key from {table.name} to {other}: ({listed(referred)}) is no key there")
    for left, right in table.dependencies:
        left_out.append(f"-- no constraint says that in {table.name} ({listed(left)}) decides ({listed(right)});"
                        " this lists the pairs of rows that break it:")
        left_out += [f"-- check: {breaks(base, table, left, column)}" for column in right if column not in left]
    return left_out + [f"CREATE TABLE {base.name(table.name)} (", ",\n".join("  " + line for line in lines), ");"]


def breaks(base: Base, table: Set, left: list[str], right: str) -> str:
    """The query for what breaks a dependency in a column: values of the left columns with two different ones of the
    right column, each pair once.
    """
    columns = [f"a.{quoted(column)}" for column in left]
    agree = " AND ".join(f"{column} = b{column[1:]}" for column in columns)
    one, other, name = f"a.{quoted(right)}", f"b.{quoted(right)}", base.name(table.name)
    return (f"SELECT DISTINCT {', '.join([*columns, one, other])} FROM {name} AS a, {name} AS b"
            f" WHERE {agree} AND {one} < {other};")


def plain(base: Base, table: Set, types: Types) -> list[str]:
    """The view in which nulls are NULL."""
    kept = ({column for key in table.keys for column in key}
            | {column for columns, _, _ in table.links for column in columns})
    items = []
    for column in table.columns:
        cell = quoted(column)
        if column not in kept and types[table.name, column] == "text":
            of_null = "".join(f"WHEN {cell} = {literal(text)} THEN NULL " for text in sorted(sql_types.null_texts))
            cell = (f"CASE {of_null}WHEN {cell} LIKE '??%' THEN substr({cell}, 2) WHEN {cell} LIKE '?%' THEN NULL"
                    f" ELSE {cell} END AS {cell}")
        items.append("  " + cell)
    return [f"CREATE VIEW {base.name(table.name + '_plain')} AS SELECT", ",\n".join(items),
            f"FROM {base.name(table.name)};"]
