"""Brings existing tables to what the mapping demands.

    clio-load sqlite FILE [OPTION ..]
    clio-load postgres CONNECTION [SCHEMA] [OPTION ..]

Run it in the folder of mapping.clio. It runs `clio exchange` in a temporary folder, compares the target with the tables
of the database, and writes what differs, in one transaction: rows that are missing are inserted, those with other
values changed; what is equal is not written. A table is that of a set's name, a column likewise; names that are no
words are taken as clio-draft notes them. Columns that the mapping doesn't know, or that no rule fills, keep their
values, or get their defaults. If a text can't become a value of its column's type, or would be altered there, as by
rounding, or would be another one each time, as today, if a column must have a value and gets none, or is missing, all
such cells are listed, and nothing is changed. Nor is anything if a trigger, a rule or a policy leaves out a row, or if
a key leads to several rows.

Rows are matched by a key that has a value in each row of the target: the table's primary key if the mapping fills it,
else a key of the mapping, else another unique key. A table without one is matched by whole rows, and equal ones are
counted. Tables are written in the order of their foreign keys; those in a circle have to be deferrable in PostgreSQL.

A null is NULL; with `--ids` a surrogate key is its number in the crosswalk of clio-ids (man clio-ids), which is changed
with the database. New numbers are none that a row in the database has. In columns that are no texts the empty text is
NULL too.

OPTIONS
`--ids CROSSWALK` gives surrogate keys their numbers.

`--identity` has surrogate keys be the tables' own numbers: a new thing gets that of the row to which another key of its
own leads, or else the next one, as an identity column has it, and the crosswalk keeps it.

`--delete`, `--mark COLUMN` or `--keep` says what becomes of rows that a former load wrote and the target no longer has:
they are deleted, or COLUMN is set in them (to true, 1 or the time) in the tables that have it, or they are kept, which
is the default. Rows that no load has written are never touched if the target doesn't have them.

`--keep-referred` keeps rows that are to be deleted and to which rows refer that stay; without it such rows are listed,
and nothing is changed. Nothing is deleted by a cascade.

`--adopt` takes the rows that the target has as written by a load, whoever wrote them. Without it rows that no load
wrote, and that have the number of a thing in the crosswalk, are listed if they would be changed, and nothing is
changed, as the number may be another thing's.

`--key TABLE=COLUMN,..` is the key by which the rows of a table are matched; it may be repeated.

`--core` takes the core, as `clio exchange --core`. `--null TEXT` makes NULL of this text, as clio-draft --null has it.

`--out FOLDER --summary FILE` takes the files of an exchange that was run before, with what it printed. Files that are
older than the sources, were cut, or are of other rules are refused.

`--dry-run` changes nothing, and prints what a load would do: for each table how many rows, in which columns, and five
of each. The status is 1 if the database differs from the target, and else 0. Rows that the target doesn't have are a
difference too, unless `--others` says that rows which no load wrote are right. `--diff FILE` writes all differences as
CSV, with or without `--dry-run`: NULL is ? there, and a text that begins with ? has one more.

`--try` is a dry run that finds what the database itself refuses, as by a CHECK, a unique index or a trigger: it does
the whole load, to its end, and takes it back. So it needs the rights of a load and holds its locks, as a dry run
doesn't. The status is 2 if something is refused. Triggers run and are taken back too, but not what they do outside the
database, nor the numbers that they, or defaults, take from sequences of other owners. It also prints the rows that the
database stores otherwise than they are written.

`--log TABLE` adds a row on the load to this table, which is made if it isn't there: when, which mapping and sources
(SHA-256), options, and how many rows of each table.

`--wait SECONDS` waits so long for a lock of somebody else, ten seconds if it is left out.

`--name NAME` keeps the loads of several mappings into the same tables apart: the rows that a load of another name wrote
are not its own. The name is clio if it is left out.

PLACES
The record of the rows that loads have written is the table clio_load.written in PostgreSQL, clio_load_written in an
SQLite file. Sequences are set behind the greatest number; nothing else of the schema is changed. In PostgreSQL,
timestamps without a zone are of UTC in columns that have one. CONNECTION is what `psql -d` takes; SCHEMA is public if
it is left out.

EXIT STATUS
0 if all was done, or a dry run found no difference; 1 if it found one; 2 if something was refused. What clio refuses
ends with clio's own status.
"""
from __future__ import annotations

import argparse
import contextlib
import pathlib
import sys
from collections.abc import Iterator

from clio_tools.ids.crosswalk import Crosswalk
from clio_tools.load.comparing import DELETE, KEEP, MARK
from clio_tools.load.database import Database, Options
from clio_tools.load.loading import Load
from clio_tools.load.plan import Plan, Wanted, plan_of
from clio_tools.load.surrogates import taken_numbers, unfilled
from clio_tools.load.workspace import Workspace, mapping_here
from clio_tools.program import Refused, remark, run, stop_by_exception

NAME = "clio-load"
WAIT = 10  # seconds for a lock of somebody else


def asked(words: list[str]) -> argparse.Namespace:
    """What the words ask for."""
    parser = argparse.ArgumentParser(prog=NAME, description="Brings existing tables to what the mapping demands.",
                                     epilog="`clio-load sqlite --help` has the options; the manual is man clio-load.")
    kinds = parser.add_subparsers(dest="kind", required=True, metavar="sqlite|postgres")
    sqlite, postgres = kinds.add_parser("sqlite"), kinds.add_parser("postgres")
    sqlite.add_argument("place", metavar="FILE", help="the database")
    postgres.add_argument("place", metavar="CONNECTION", help="what `psql -d` takes")
    postgres.add_argument("schema", nargs="?", default="public", metavar="SCHEMA", help="public if it is left out")
    for one in sqlite, postgres:
        add_options(one)
    given = parser.parse_args(words)
    if (given.out is None) != (given.summary is None):
        parser.error("--out and --summary go together")
    if not 1 <= given.wait <= 86400:
        parser.error("--wait takes a number of seconds from 1 to 86400")
    given.dry_run |= given.trial
    if given.identity and given.ids is None:
        parser.error("--identity needs --ids: the crosswalk keeps the numbers that the database gives")
    return given


def add_options(parser: argparse.ArgumentParser) -> None:
    """The options of both databases."""
    add = parser.add_argument
    add("--ids", metavar="CROSSWALK", help="give surrogate keys the numbers of this crosswalk")
    add("--identity", action="store_true", help="have them be the tables' own numbers")
    gone = parser.add_mutually_exclusive_group()
    gone.add_argument("--keep", dest="gone", action="store_const", const=KEEP, default=KEEP,
                      help="keep rows that the target no longer has: the default")
    gone.add_argument("--delete", dest="gone", action="store_const", const=DELETE,
                      help="delete those that a load wrote")
    gone.add_argument("--mark", metavar="COLUMN", help="set COLUMN in those that a load wrote")
    add("--keep-referred", action="store_true",
        help="keep rows that are to be deleted and to which rows refer that stay")
    add("--key", action="append", default=[], metavar="TABLE=COLUMN,..",
        help="match the rows of a table by these columns")
    add("--core", action="store_true", help="take the core")
    add("--null", metavar="TEXT", help="make NULL of this text")
    add("--out", metavar="FOLDER", help="take the files of an exchange that was run before")
    add("--summary", metavar="FILE", help="what that exchange printed")
    add("--dry-run", action="store_true", help="change nothing, and print what a load would do")
    add("--try", dest="trial", action="store_true", help="a dry run that does the whole load, and takes it back")
    add("--others", action="store_true", help="in a dry run rows that no load wrote are right")
    add("--diff", metavar="FILE", help="write all differences as CSV")
    add("--adopt", action="store_true", help="take the rows that the target has as written by a load")
    add("--wait", type=int, default=WAIT, metavar="SECONDS", help=f"wait so long for a lock of somebody else ({WAIT})")
    add("--log", metavar="TABLE", help="add a row on the load to this table")
    add("--name", default="clio", metavar="NAME", help="keep the loads of this name apart from others (clio)")


def keys_of(texts: list[str]) -> dict[str, list[str]]:
    """The keys that were given by hand, by the names of tables."""
    keys = {}
    for text in texts:
        table, _, columns = text.rpartition("=")
        if not table or not all(columns.split(",")):
            raise Refused(f"--key {text}: a table and its columns must be there, as in customer=name,town")
        keys[table] = columns.split(",")
    return keys


def database_of(given: argparse.Namespace) -> Database:
    """The database that is loaded."""
    if given.kind == "sqlite":
        from clio_tools.load.sqlite import Sqlite
        return Sqlite(given.place, given.wait)
    from clio_tools.load.postgres import Postgres
    return Postgres(given.place, given.schema, given.wait)


@contextlib.contextmanager
def crosswalk_of(path: str | None) -> Iterator[Crosswalk | None]:
    """The crosswalk; one that was made for nothing goes away again."""
    if path is None:
        yield None
        return
    is_new = not pathlib.Path(path).exists()
    crosswalk = Crosswalk(path)
    try:
        yield crosswalk
    finally:
        if is_new and crosswalk.base.in_transaction:  # still locked: nobody writes into a file that goes away
            pathlib.Path(path).unlink(missing_ok=True)
        crosswalk.close()


def tell(text: str) -> None:
    """Tells the progress, on a terminal alone."""
    if sys.stderr.isatty():
        remark(NAME, text)


def planned(given: argparse.Namespace, database: Database, space: Workspace, crosswalk: Crosswalk | None) -> Plan:
    """What is to be loaded; with a crosswalk the files have their numbers then."""
    catalog, sets = database.catalog(), space.mapping.target
    keys = keys_of(given.key)
    numbered = set()
    if crosswalk is not None:
        tell("gives numbers")
        space.number(crosswalk, taken_numbers(database, catalog, sets, crosswalk.next))
        numbered = {(one.name, name) for one in sets for name in one.columns if crosswalk.is_numbered(one.name, name)}
    return plan_of(sets, catalog, Wanted(keys, given.mark, unfilled(sets, space.out / "rules.txt") - numbered,
                                         numbered))


def work(words: list[str]) -> None:
    """Runs the tool on its words."""
    given = asked(words)
    stop_by_exception()
    with contextlib.ExitStack() as at_the_end:
        space = Workspace(mapping_here())
        at_the_end.callback(space.close)
        database = database_of(given)
        at_the_end.callback(database.close)
        if given.out is None:
            tell("runs clio exchange")
            space.exchange(given.core)
        else:
            space.take(pathlib.Path(given.out), given.summary)
        crosswalk = at_the_end.enter_context(crosswalk_of(given.ids))
        plan = planned(given, database, space, crosswalk)
        load = Load(database, plan, space, crosswalk, Options(given.null), MARK if given.mark else given.gone, given,
                    tell)
        status = load.run()
    sys.stdout.flush()
    if status:
        sys.exit(status)


def main() -> None:
    """Runs the tool."""
    run(NAME, work)
