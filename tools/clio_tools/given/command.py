"""Writes the target's tables out of a database, as `clio judge` reads them.

    clio-given sqlite FILE [OPTION ..]
    clio-given postgres CONNINFO [SCHEMA] [OPTION ..]

For each set of the target of mapping.clio it reads the table, or the view, of this name, and writes its columns, in the
mapping's order, into `given/<set>.csv`. Other tables and columns are left out. A name that is no word of a mapping text
is taken as clio-draft would write it.

Each NULL becomes a null of its own, `?0.0.0`, `?0.0.1` and so on: what is not known there, and nothing is said of it.
All other values are texts, as clio-draft writes them (numbers as their digits), with one `?` more in front if one
begins with `?`.

OPTIONS
`--surrogate SET.COLUMN` says that the values of this column are made up, as numbers from a sequence are: each becomes a
null, the same one wherever it is in the column, and in the columns that a ref of the mapping, or a foreign key of the
database, also one to the same table, links to it. `--surrogate SET.COLUMN=SET.COLUMN` says that the first column has
the values of the second, as a view has no foreign keys. It can be given several times.

`--identity` says it of each column to which the database gives numbers (an identity, a sequence; in SQLite an INTEGER
PRIMARY KEY) and that no line and no rule fills.

`--null-is empty` takes NULL for the empty text, `--null-is SET.COLUMN=empty` in one column; `--null-is SET.COLUMN=null`
keeps it a null there. Made-up values stay nulls. `--null TEXT` takes NULL for a text, as clio-draft --null writes it.

`--types FILE` names columns that are no texts in the database, as clio-tables reads them: `sale.price numeric`;
`--types catalog` takes the types of the database's columns. A number, a boolean, a date or a timestamp is then written
with the text that `out`, where `clio exchange` wrote, has for the same value in this column, as `10.9` for 10.90, `1`
for true, or `2026-03-01T10:00:00Z`; one that `out` doesn't have is written as the database prints it.

`--mapping FILE` is another mapping text than mapping.clio, and `--into FOLDER` another folder than given.

This tool is not proved; its tests try it. PostgreSQL is read by psycopg 3 (Debian: python3-psycopg): CONNINFO is
what `psql -d` takes, and SCHEMA is public if it is left out.
"""
import argparse
import pathlib
from collections.abc import Iterable, Iterator

from clio_tools.csv import write_table
from clio_tools.draft import postgres, sqlite
from clio_tools.draft.data import Rows
from clio_tools.draft.model import Side, Table
from clio_tools.draft.names import shown
from clio_tools.given.columns import Domains, NullIs, linked, numbered
from clio_tools.given.values import Nulls, Texts, kind_of
from clio_tools.mapping.meaning import read_mapping
from clio_tools.mapping.text import Set, read_sets
from clio_tools.program import Refused, run
from clio_tools.safe_files import check_folder, content_of
from clio_tools.sql_types import read_types

CATALOG = "catalog"


def words_of(words: list[str]) -> argparse.Namespace:
    """The words of the command."""
    parser = argparse.ArgumentParser(prog="clio-given", description="Writes the target's tables out of a database, as"
                                                                    " clio judge reads them.",
                                     epilog="The manual is man clio-given.")
    parser.add_argument("kind", choices=["sqlite", "postgres"])
    parser.add_argument("place", metavar="FILE|CONNINFO")
    parser.add_argument("schema", nargs="?", default="public", metavar="SCHEMA")
    parser.add_argument("--surrogate", action="append", default=[], metavar="SET.COLUMN",
                        help="a column whose values become nulls")
    parser.add_argument("--identity", action="store_true", help="so do those of columns that the database numbers")
    parser.add_argument("--null-is", action="append", default=[], metavar="[SET.COLUMN=]empty|null")
    parser.add_argument("--null", metavar="TEXT", help="the text that NULL is")
    parser.add_argument("--types", metavar=f"FILE|{CATALOG}", help="columns that are no texts in the database")
    parser.add_argument("--mapping", default="mapping.clio", metavar="FILE")
    parser.add_argument("--into", metavar="FOLDER")
    given = parser.parse_args(words)
    if given.kind == "sqlite" and given.schema != "public":
        parser.error("an SQLite file has no schema")
    return given


def target_of(path: str) -> list[Set]:
    """The sets of the target of a mapping."""
    try:
        return read_sets(content_of(pathlib.Path(path)).decode("utf-8", "replace"))["target"]
    except ValueError as error:
        raise Refused(f"{path}: {error}") from None


def places_of(table: Table, one: Set) -> list[int]:
    """Where the set's columns stand among those of the table."""
    names = [column.word if column.name not in ("#id", "#up") else column.name for column in table.said]
    missing = [column for column in one.columns if column not in names]
    if missing:
        raise Refused(f"{shown(table.name)} has no column for {', '.join(missing)} of the set {one.name}:"
                      f" it has {', '.join(names)}")
    return [names.index(column) for column in one.columns]


def tables_of(base: sqlite.Base | postgres.Base, sets: list[Set]) -> list[Table]:
    """The table of each set."""
    found = base.tables()
    Side("target", found, drawing=True)
    named = {table.word: table for table in reversed(found)}
    for one in sets:
        if one.name not in named or not named[one.name].columns:
            there = ", ".join(table.word for table in found)[:300] or "there is no table"
            raise Refused(f"the mapping has a set {one.name}, and nothing here becomes it: {there}")
    return [named[one.name] for one in sets]


def kinds_of(given: argparse.Namespace, sets: list[Set], tables: list[Table]) -> list[dict[str, str]]:
    """For each set the kinds of its columns, as far as they are asked for."""
    if given.types is None:
        return [{} for _ in sets]
    if given.types == CATALOG:
        return [{column.word: kind_of(column.type) for column in table.said if column.word in one.columns}
                for one, table in zip(sets, tables)]
    types = read_types(given.types, sets)
    return [{column: kind_of(types[one.name, column]) for column in one.columns} for one in sets]


def work(words: list[str]) -> None:
    """Writes the tables."""
    given = words_of(words)
    sets = target_of(given.mapping)
    base: sqlite.Base | postgres.Base
    base = (sqlite.Base(given.place, True) if given.kind == "sqlite"
            else postgres.Base(given.place, given.schema, True))
    tables = tables_of(base, sets)
    pairs = linked(sets, tables)
    if given.identity:
        given.surrogate += numbered(sets, tables, read_mapping(content_of(pathlib.Path(given.mapping))), pairs)
    domains, null_is = Domains(sets, given.surrogate, pairs), NullIs(sets, given.null_is, given.null)
    places = [places_of(table, one) for table, one in zip(tables, sets)]
    texts = [Texts(pathlib.Path("out"), one, kinds) for one, kinds in zip(sets, kinds_of(given, sets, tables))]
    folder = pathlib.Path(given.into or "given")
    if not given.into:
        check_folder(folder)
    folder.mkdir(parents=True, exist_ok=True)
    read: Iterable[tuple[Table, Rows]]
    if isinstance(base, postgres.Base):
        read = base.all_rows(tables)
    else:
        read = ((table, base.rows(table)) for table in tables)
    writing = Writing(domains, null_is)
    for one, listed, own, (_, rows) in zip(sets, places, texts, read):
        write_table(folder / f"{one.name}.csv", one.columns, writing.rows(one, listed, own, rows))


class Writing:
    """The values of a database as they are written."""

    def __init__(self, domains: Domains, null_is: NullIs) -> None:
        self.domains, self.null_is, self.nulls = domains, null_is, Nulls()

    def rows(self, one: Set, places: list[int], texts: Texts, rows: Rows) -> Iterator[list[str]]:
        """The rows of a set."""
        domains = [self.domains.of.get((one.name, column)) for column in one.columns]
        null_is = [self.null_is.text((one.name, column), domain is not None)
                   for column, domain in zip(one.columns, domains)]
        columns = list(zip(one.columns, places, domains, null_is))
        for row in rows:
            yield [self.value(texts, column, row[place], domain, null) for column, place, domain, null in columns]

    def value(self, texts: Texts, column: str, cell: str | None, domain: str | None, null: str | None) -> str:
        """The value text of a cell."""
        if cell is None:
            if null is None:
                return self.nulls.fresh()
            cell = null
        elif domain is not None:
            return self.nulls.of(domain, cell)
        else:
            cell = texts.text(column, cell)
        return "?" + cell if cell.startswith("?") else cell


def main() -> None:
    """Runs the tool on the words of its command line."""
    run("clio-given", work)
