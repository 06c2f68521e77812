"""Prints the SQL that puts the tables of a mapping into a database.

    clio exchange | clio-tables sqlite --summary -   | sqlite3 target.db
    clio exchange | clio-tables postgres --summary - | psql ..
    clio-tables types > types.txt
    clio-tables source | psql ..

The first two make the tables of the target, with its keys and its foreign keys, and load what `clio exchange` wrote
into the folder out: run them in the folder of the mapping. Each file is read first: if one is missing, has other
columns than the mapping, a record of another width, or other rows than the summary says (`--summary FILE`, or `-` for
standard input), the tool says so and prints nothing. `source` makes the tables of the source in PostgreSQL, in the
schema `source`, for a script that clio-script-to-postgres turned, and loads the source files, read as clio reads them;
rows that fail the mapping's conditions are left out. The last word is the mapping text; mapping.clio if it is
left out.

The texts stay as clio wrote them: a null is ?rule.variable.place, and a text that begins with ? has one ? more. So the
keys and foreign keys hold. For each table there is a view <table>_plain in which the ? are taken off again and a null
is NULL, but for the columns of keys and refs, which stay as they are.

`--null TEXT` makes NULL of this text, which `clio-draft --null TEXT` wrote in its place: in the views, and in columns
with a type other than text. The empty text is then a text of its own in columns of type text.

`types` prints a type for each column of the target, the narrowest that holds its texts unchanged; `--types FILE` makes
the tables with the types of such a file (text, integer, bigint, numeric, real, boolean, date, timestamp). A column with
a type other than text has NULL for a null and for the empty text; in a column of a key or ref both are refused. What is
no value of its type is refused too.

A ref is a foreign key if the columns that it refers to are a key of their table, as databases ask; otherwise a comment
says that it was left out. So it is with each dependency, which no database has: for each column on its right a line
that begins with `-- check: ` has a query that lists what breaks it, as the values on the left with two different ones
on the right. A NULL, which a column of another type than text has for a null, breaks nothing. This tool is not proved;
its tests and dev/check try it.
"""
import argparse
import pathlib
import sys
from collections.abc import Container, Iterable, Iterator

from clio_tools import sql_types
from clio_tools.csv import read_table
from clio_tools.json import Found
from clio_tools.json import rows as document_rows
from clio_tools.mapping.text import Mapping, Set, in_order_of_links
from clio_tools.program import Refused, counted, run
from clio_tools.safe_files import MOST_DATA, content_of
from clio_tools.sql_types import Column, Types
from clio_tools.tables.bases import Base, Postgres, Sqlite, create, plain, quoted


def written(table: Set) -> pathlib.Path:
    """The file that `clio exchange` wrote of a table."""
    path = pathlib.Path("out", table.name + ".csv")
    if not path.exists():
        raise Refused(f"{path} is missing: run clio exchange first")
    return path


def without_zero(path: pathlib.Path, table: Set, rows: Iterable[list[str]]) -> Iterator[list[str]]:
    """The rows, if no text of them has a byte 0, which no database takes."""
    for number, row in enumerate(rows, 1):
        if "\0" in "".join(row):
            column = next(column for column, cell in zip(table.columns, row) if "\0" in cell)
            raise Refused(f"{path}: record {number}: a text in column {column} has a byte 0, and a database would cut"
                          " or refuse it")
        yield row


def check_rows(base: Base, table: Set, types: Types, keys: Container[Column]) -> int:
    """Reads a table that was written, refuses what the database would not hold, and gives the number of its rows."""
    path = written(table)
    count = 0
    typed = [(place, column, types[table.name, column]) for place, column in enumerate(table.columns)
             if types[table.name, column] != "text"]
    for count, row in enumerate(without_zero(path, table, read_table(path, table.columns)), 1):
        for place, column, type_name in typed:
            why = (sql_types.check_cell(row[place], type_name, (table.name, column) in keys)
                   or base.cannot_hold(row[place], type_name))
            if why:
                raise Refused(f"{path}: record {count}: column {column} {why}")
    return count


def read_summary(name: str) -> dict[str, int]:
    """What `clio exchange` printed: the number of rows by the name of each file."""
    try:
        text = sys.stdin.read() if name == "-" else pathlib.Path(name).read_text(encoding="utf-8")
    except UnicodeDecodeError:
        raise Refused("the summary is not what clio exchange prints") from None
    counts = {}
    for line in text.split("\n"):
        file, _, count = line.partition(" ")
        if line and not (count.isascii() and count.isdigit()):
            raise Refused(f"the summary has a line that clio exchange does not print: {line[:80]}")
        if line:
            counts[file] = int(count)
    if not counts:
        raise Refused("the summary is empty: clio exchange has written nothing")
    return counts


def compare(table: Set, count: int, summary: dict[str, int]) -> None:
    """Refuses a file with other rows than the summary says."""
    path = written(table)
    if path.name not in summary:
        raise Refused(f"the summary has no {path.name}: it is of another mapping")
    if summary[path.name] != count:
        raise Refused(f"{path} has {counted(count, 'row')}, and the summary says {summary[path.name]}: it was cut or"
                      " changed, so run clio exchange again")


def target(base: Base, tables: list[Set], types: Types, summary: dict[str, int] | None) -> Iterator[str]:
    base.check(tables)
    ordered = in_order_of_links(tables)
    keys = sql_types.key_columns(tables)
    for table in ordered:
        count = check_rows(base, table, types, keys)
        if summary is not None:
            compare(table, count, summary)
    yield from base.before
    yield "BEGIN;"
    for table in ordered:
        yield from create(base, table, tables, types)
    nullable = sql_types.nullable(types, tables)
    for table in ordered:
        yield from base.load(table, written(table), nullable)
    taken = {table.name.lower() for table in tables}
    for table in ordered:
        if table.name.lower() + "_plain" not in taken:
            yield from plain(base, table, types)
    yield "COMMIT;"


def source_rows(table: Set, documents: Found) -> Iterable[list[str]]:
    """The rows of a source table, from its file or from the document of its root."""
    if table.name in documents:
        return documents[table.name]
    path = pathlib.Path(table.name + ".csv")
    return without_zero(path, table, read_table(path, table.columns))


def read_documents(tables: list[Set]) -> Found:
    """The rows of the documents, by the names of their tables."""
    documents: Found = {}
    for table in tables:
        if table.inner and not table.parent:
            path = pathlib.Path(table.name + ".json")
            found = document_rows(content_of(path, MOST_DATA), table, path)
            documents |= {one.name: list(without_zero(path, one, found.get(one.name, []))) for one in within(table)}
    return documents


def within(table: Set) -> Iterator[Set]:
    """A set and those inside it."""
    yield table
    for inner in table.inner:
        yield from within(inner)


def source(base: Postgres, mapping: Mapping) -> Iterator[str]:
    """The tables of the source, with the rows that pass the mapping's conditions."""
    tables = mapping.source
    base.check(tables)
    documents = read_documents(tables)
    for table in tables:
        for _ in source_rows(table, documents):
            pass
    yield from base.before
    yield "BEGIN;"
    for table in tables:
        cells = ", ".join(f"{quoted(column)} TEXT NOT NULL" for column in table.columns)
        yield f"CREATE TABLE {base.name(table.name)} ({cells});"
    for table in tables:
        yield from base.copy(table, mapping.passing(table, source_rows(table, documents)))
    yield "COMMIT;"
    yield from (f"ANALYZE {base.name(table.name)};" for table in tables)


def words_of(words: list[str]) -> argparse.Namespace:
    parser = argparse.ArgumentParser(prog="clio-tables",
                                     description="Prints the SQL that puts the tables of a mapping into a database.",
                                     epilog="The manual is man clio-tables.")
    parser.add_argument("what", choices=["sqlite", "postgres", "types", "source"])
    parser.add_argument("mapping", nargs="?", default="mapping.clio", help="the mapping text (mapping.clio)")
    parser.add_argument("--summary", metavar="FILE", help="what clio exchange printed; - is standard input")
    parser.add_argument("--null", metavar="TEXT", help="this text is NULL, as clio-draft --null has written it")
    parser.add_argument("--types", metavar="FILE", 
                        help="the types of the target's columns, as `clio-tables types` prints them")
    given = parser.parse_args(words)
    if given.null:
        sql_types.read_as_null(given.null)
    if given.what == "source" and (given.summary or given.types):
        parser.error("source takes neither --summary nor --types")
    if given.what == "types" and given.types:
        parser.error("types prints the types: --types is for sqlite and postgres")
    return given


def lines_of(given: argparse.Namespace) -> Iterator[str]:
    """What is printed, line by line."""
    try:
        mapping = Mapping(content_of(pathlib.Path(given.mapping)).decode("utf-8", "replace"))
    except ValueError as error:
        raise Refused(f"{given.mapping}: {error}") from None
    if given.what == "source":
        return source(Postgres("source"), mapping)
    tables = mapping.target
    summary = read_summary(given.summary) if given.summary else None
    if given.what == "types":
        counts = {table.name: check_rows(Postgres("target"), table, dict.fromkeys(all_columns(tables), "text"), {})
                  for table in tables}
        if summary is not None:
            for table in tables:
                compare(table, counts[table.name], summary)
        types = sql_types.infer(tables, lambda table: read_table(written(table), table.columns))
        return iter([sql_types.printed(types).rstrip("\n")])
    types = sql_types.read_types(given.types, tables) if given.types else dict.fromkeys(all_columns(tables), "text")
    return target(Sqlite() if given.what == "sqlite" else Postgres("target"), tables, types, summary)


def all_columns(tables: list[Set]) -> list[Column]:
    return [(table.name, column) for table in tables for column in table.columns]


def work(words: list[str]) -> None:
    sys.stdout.writelines(line + "\n" for line in lines_of(words_of(words)))


def main() -> None:
    run("clio-tables", work)
