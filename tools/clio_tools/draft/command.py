"""Prints one side of a mapping text from a database, from files or from a document, and writes the files that it reads.

    clio-draft sqlite FILE [OPTION ..]
    clio-draft postgres CONNINFO [SCHEMA] [OPTION ..]
    clio-draft csv FOLDER [--delimiter SIGN] [OPTION ..]
    clio-draft json FILE [OPTION ..]

The text has the tables with their columns, keys and refs, as the catalog of the database has them, or the headers of
the files, or the members of the objects. A name that is no word of a mapping text becomes one; a comment says which.
What can't be said is a comment with the reason: a ref of a table to itself, or one that closes a circle; a table
with more than 64 columns; a column of bytes. Two sides and some lines make a mapping:

    (echo 'mapping 1;'; clio-draft sqlite old.db --data .; clio-draft sqlite new.db --side target; cat lines) \\
      > mapping.clio

OPTIONS
`--side target` prints the target, of which no data is read; `--side source` is the default.

`--drawing` prints the side for a drawing (man clio-rules): refs in a circle are kept, and those of the target that may
be NULL are optional, which takes `mapping 2;` on top. With `--side target --lines-from FILE`, where FILE has the source
that clio-draft printed, `rows` and `line`s are proposed as comments: for sets and columns of the same names, and by
each way that there is. With `--data FOLDER` too, which then has the source's files and is only read, also for columns
with the same texts as the rows that the target has: nine of ten texts, and three at least.

`--data FOLDER` writes the source's files into the folder, as clio reads them: NULL as the empty text, numbers as their
digits. Remarks on standard error say what a reader should know: NULL beside empty texts in a column, rows that a ref
doesn't match, a limit that is exceeded.

`--mapping FILE` writes the data for the sets that a mapping text declares, with the columns in their order, and prints
nothing. So a file with its columns in another order, or a database with more tables, is read by a mapping that is
there; of one that clio-rules printed, the files that tests take are left to clio-rules. Of a document, remarks name
members and arrays that the mapping doesn't have, which are left out; a declared member that no object has is empty.

`--null TEXT` writes NULL, and null in a document, as this text in place of the empty one, so that they stay apart. It
is refused if something else is this text. `clio-tables --null TEXT` makes NULL of it again.

`--delimiter SIGN` is the sign between the fields of the files: a single one, or tab, comma, semicolon or pipe. It is a
comma if it is left out.

PLACES
SQLite is read by Python's own module, in one transaction. PostgreSQL is read by psycopg 3
(`pip install 'psycopg[binary]'`, Debian: python3-psycopg): CONNINFO is what `psql -d` takes (a name of a database, a
URI, `host=.. dbname=..`), and SCHEMA is public if it is left out. Views, and parts of partitioned tables, are no tables
here.

A folder has a table in each file .csv or .tsv. A quote that is never closed, text after a closing quote, and a record
of another width than the header are refused.

A document is an array of objects, or an object of such arrays, or has an object in each line. Flat objects become CSV.
An array in an object is an inner set, also one of single values (with the column `value`); the members of an object in
an object are columns `member_column`. A fraction becomes its text.

This tool is not proved; its tests try it, and dev/check does so on PostgreSQL.
"""
import argparse
import pathlib
from collections.abc import Iterable

from clio_tools.draft import delimited, document, postgres, sqlite
from clio_tools.draft.data import Rows, Written
from clio_tools.draft.model import Side, Table, find_set
from clio_tools.draft.names import shown
from clio_tools.draft.proposals import proposals
from clio_tools.draft.text import side_text
from clio_tools.draft.texts import Texts
from clio_tools.mapping.text import Set, read_sets
from clio_tools.program import Refused, remark, run
from clio_tools.rules.printed import sets_for_tests
from clio_tools.safe_files import content_of

TableBase = sqlite.Base | postgres.Base | delimited.Base
Base = TableBase | document.Base
# a table, the order of its columns, the set of the mapping if there is one
Wanted = tuple[Table, list[str], Set | None]


def words_of(words: list[str]) -> argparse.Namespace:
    parser = argparse.ArgumentParser(prog="clio-draft",
                                     description="Prints one side of a mapping text from what is there.",
                                     epilog="`clio-draft sqlite --help` has the options; the manual is man clio-draft.")
    kinds = parser.add_subparsers(dest="kind", required=True, metavar="sqlite|postgres|csv|json")
    for kind, places in ("sqlite", ["FILE"]), ("postgres", ["CONNINFO"]), ("csv", ["FOLDER"]), ("json", ["FILE"]):
        one = kinds.add_parser(kind)
        one.add_argument("place", metavar=places[0])
        if kind == "postgres":
            one.add_argument("schema", nargs="?", default="public", metavar="SCHEMA")
        if kind == "csv":
            one.add_argument("--delimiter", default=",", metavar="SIGN")
        one.add_argument("--side", choices=["source", "target"], default="source")
        one.add_argument("--drawing", action="store_true", help="print the side for a drawing, with refs in a circle")
        one.add_argument("--lines-from", metavar="FILE", help="print lines from the source in this file, as comments")
        one.add_argument("--data", metavar="FOLDER", help="write the files that the source reads into this folder")
        one.add_argument("--mapping", metavar="FILE",
                         help="write them for the sets of this mapping text, and print nothing")
        if kind != "csv":
            one.add_argument("--null", metavar="TEXT",
                             help="write NULL as this text, which nothing else may be, and not as the empty one")
    given = parser.parse_args(words)
    if given.side == "target" and given.data and not (given.lines_from and given.kind != "json"):
        parser.error("--data is for the source: of the target no data is read, but with --lines-from the rows of"
                     " tables")
    if given.lines_from and (given.side != "target" or not given.drawing):
        parser.error("--lines-from is for the target of a drawing: --side target --drawing")
    if given.lines_from and given.mapping:
        parser.error("--lines-from goes without --mapping")
    for option in "mapping", "null":
        if getattr(given, option, None) is not None and not given.data:
            parser.error(f"--{option} needs --data")
    return given


def opened(given: argparse.Namespace) -> tuple[Base, list[str | pathlib.Path]]:
    """What is read, and the files that must not be written over."""
    if given.kind == "sqlite":
        return sqlite.Base(given.place), [given.place]
    if given.kind == "postgres":
        return postgres.Base(given.place, given.schema), []
    if given.kind == "csv":
        folder = pathlib.Path(given.place)
        base = delimited.Base(folder, delimited.delimiter_of(given.delimiter))
        return base, list(folder.iterdir())
    return document.Base(given.place), [given.place]


def wanted_sets(base: Base, side: Side, mapping: str | None) -> list[Wanted]:
    """The tables whose data is written."""
    if mapping is None:
        return [(table, [column.word for column in table.said], None) for table in side.said]
    try:
        text = content_of(pathlib.Path(mapping)).decode("utf-8", "replace")
        sets = read_sets(text)["source"]
    except ValueError as error:
        if pathlib.Path(mapping).name == "drawing.clio":
            error = ValueError("this is a drawing: name the mapping.clio that clio-rules --write makes of it")
        raise Refused(f"{mapping}: {error}") from None
    hint = "; a set has the name of its file" if isinstance(base, (delimited.Base, document.Base)) else ""
    of_drawing = sets_for_tests(text) - {table.word for table in side.said}  # clio-rules writes their files
    wanted: list[Wanted] = []
    for one in sets:
        if one.parent is None and one.name not in of_drawing:
            table = find_set(side, one.name, hint)
            there = [column.word for column in table.said]
            missing = [column for column in one.declared if column not in there]
            if missing and not isinstance(base, document.Base):
                raise Refused(f"{shown(table.name)} has no column for {', '.join(missing)} of {mapping}:"
                              f" it has {', '.join(there)}")
            wanted.append((table, one.declared, one))
    return wanted


def write_data(base: Base, wanted: list[Wanted], written: Written) -> None:
    """Writes the files of these tables."""
    if isinstance(base, document.Base):
        for table, order, one in wanted:
            objects = base.documents(table) if one is None else base.mapped(one, table, written.remark)
            if table.inner if one is None else one.inner:
                written.document(table, objects)
            else:
                written.table(table, ([made.cells[word] for word in order] for made in objects), order, order)
        return
    for (_, order, _), (table, rows) in zip(wanted, rows_of(base, [table for table, _, _ in wanted])):
        written.table(table, rows, [column.word for column in table.said], order)


def rows_of(base: TableBase, tables: list[Table]) -> Iterable[tuple[Table, Rows]]:
    """The rows of each table, all of one moment; each has to be read before the next."""
    if isinstance(base, postgres.Base):
        return base.all_rows(tables)
    return ((table, base.rows(table)) for table in tables)


def texts_of(base: Base, side: Side, folder: pathlib.Path) -> Texts:
    """The texts of the source's files in a folder, and those of the target's rows."""
    texts = Texts(folder)
    if not isinstance(base, document.Base):
        for table, rows in rows_of(base, side.said):
            texts.add(table.word, [column.word for column in table.said], rows)
    return texts


def work(words: list[str]) -> None:
    given = words_of(words)
    base, sources = opened(given)
    side = Side(given.side, base.tables(), given.drawing)
    if given.lines_from:
        texts = texts_of(base, side, pathlib.Path(given.data)) if given.data else None
        proposed = proposals(content_of(pathlib.Path(given.lines_from)), side, texts)
        print(side_text(side) + proposed, end="")
        return
    if given.data:
        written = Written(given.data, sources, lambda text: remark("clio-draft", text), getattr(given, "null", None))
        wanted = wanted_sets(base, side, given.mapping)
        write_data(base, wanted, written)
        written.check_limits()
        if not given.mapping:
            for table, _, _ in wanted:
                written.check_refs(table, given.drawing)
    if not given.mapping:
        print(side_text(side), end="")


def main() -> None:
    run("clio-draft", work)
