"""Makes the target of a mapping inside a database: the joins, then what keys and dependencies make equal.

    clio-sql postgres [--core] [--sessions N] [--verbose | --explain [--dialect NAME]] [CONNECTION]
    clio-sql sqlite [--core] [--verbose | --explain] SOURCE.db TARGET.db
    clio-sql postgres --servers FILE --source [CONNECTION]
    clio-sql postgres --servers FILE [--core] [--verbose] [CONNECTION]

Run it in the folder of mapping.clio. The tables of the source are in the schema `source` (in SQLite: in the file
SOURCE.db, which is only read), under the names and with the columns of the mapping; their cells are texts and never
NULL. The target is made in the schema `target` (the file TARGET.db): its tables, with values as clio writes them, and
`nulls` and `fold` with what nulls.csv and fold.csv have. Tables that an earlier run made there, or that have just
these columns, are replaced; others are refused. CONNECTION is what `psql -d` takes. Clio holds 4,000,000 cells, and a
database holds more.

In plain mode the target is the one that `clio exchange` writes. With --core, rows that other rules cover are left
out, and what is left to reduce is fetched, reduced by `clio exchange --core`, and put back: the target is a core, or
it is said what was not reduced, and why. If two constants contradict each other, a message of clio's status 3 is
printed, and the status is 3. This tool isn't proved.

All that is read of the source is of one state of it, and the target changes at the end in one transaction, or not at
all; views, indexes and rights on its tables stay. A second run in the same database is refused. Work tables are in a
schema of the run's own, which is dropped; they take a multiple of the source. --sessions N makes by N sessions at once
what doesn't meet: matches, groups of rows under a key, tables. --verbose prints each statement with its seconds and
rows. --explain prints all SQL, and runs none; with --dialect duckdb it is that for DuckDB, which was never run. On a
terminal the steps are shown as they are done, and about how long the others take.

With --servers the rows are on several PostgreSQL servers: each line of FILE says how one is reached, as `host=db1
dbname=parts user=clio`. Each makes its part of each table, and rows that have to meet are copied from one to the other
through this tool, many of them by psql if it is there. In the database of CONNECTION each table is a partitioned one
whose parts are tables of the servers (by the extension postgres_fdw, which the tool sets up); what it asks of all
rows, as most of core mode, goes through there. With --source the tables of the source are made so, empty, and are then
loaded through that database. In the databases of the servers the rows are in schemas that begin with clio_. The source
may also be in the database of CONNECTION itself.
"""
import argparse
import pathlib
import sys
import threading

from clio_tools.mapping.text import Mapping
from clio_tools.program import Refused, harmless, remark, run
from clio_tools.safe_files import content_of
from clio_tools.sql.determinations import Clash
from clio_tools.sql.exchange import Exchange
from clio_tools.sql.plan import Plan
from clio_tools.sql.postgres import Postgres
from clio_tools.sql.script import shown
from clio_tools.sql.servers import Servers
from clio_tools.sql.sqlite import Sqlite
from clio_tools.sql.words import DIALECTS, SQLITE
from clio_tools.sql.work import Engine, Report, Work, silent

NAME = "clio-sql"


def asked(words: list[str]) -> argparse.Namespace:
    """What the words ask for."""
    parser = argparse.ArgumentParser(prog=NAME, description="Makes the target of a mapping inside a database.",
                                     epilog="`clio-sql postgres --help` has the options; the manual is man clio-sql.")
    engines = parser.add_subparsers(dest="engine", required=True, metavar="postgres|sqlite")
    postgres, sqlite = engines.add_parser("postgres"), engines.add_parser("sqlite")
    for engine in postgres, sqlite:
        engine.add_argument("--core", action="store_true", help="make a core")
        told = engine.add_mutually_exclusive_group()
        told.add_argument("--verbose", action="store_true", help="print each statement with its seconds and rows")
        told.add_argument("--explain", action="store_true", help="print all SQL, and run none")
    postgres.add_argument("--dialect", choices=sorted(DIALECTS), help="with --explain: the SQL for this engine")
    postgres.add_argument("--servers", metavar="FILE", help="spread the rows over the servers that FILE names")
    postgres.add_argument("--source", action="store_true", help="with --servers: make the source, empty")
    postgres.add_argument("--sessions", metavar="N", type=int, default=1,
                          help="make matches, keys and tables by N sessions at once")
    postgres.add_argument("connection", metavar="CONNECTION", nargs="?", help="what `psql -d` takes")
    sqlite.add_argument("source_file", metavar="SOURCE.db")
    sqlite.add_argument("target_file", metavar="TARGET.db")
    found = parser.parse_args(words)
    if found.engine == "postgres":
        check_words(parser, found)
    return found


def check_words(parser: argparse.ArgumentParser, words: argparse.Namespace) -> None:
    """Refuses options that don't go together."""
    if words.source and (words.core or not words.servers):
        parser.error("--source asks for --servers, and not for --core")
    if words.dialect and not words.explain:
        parser.error("--dialect goes with --explain alone: clio-sql runs in PostgreSQL and SQLite")
    if words.servers and (words.explain or words.sessions > 1):
        parser.error("--servers goes with neither --explain nor --sessions")
    if not 1 <= words.sessions <= 64:
        parser.error("--sessions takes a number from 1 to 64")


class Teller:
    """Tells on a terminal what is done, and with --verbose each statement."""

    def __init__(self, verbose: bool) -> None:
        self.verbose, self.steps, self.telling = verbose, 0, threading.Lock()
        self.is_shown = not verbose and sys.stderr.isatty()

    def tell(self, text: str) -> None:
        """Tells it in one piece, though several sessions have something to tell."""
        with self.telling:
            print(harmless(text), file=sys.stderr, flush=True)

    def statement(self, sql: str, seconds: float, rows: int) -> None:
        """A statement that was run."""
        if self.verbose:
            counted = f", {rows} rows" if rows >= 0 else ""
            self.tell(f"-- {seconds:.2f} s{counted}\n{sql};")

    def step(self, what: str, seconds: float, rows: int, left: float | None) -> None:
        """A step that was done."""
        self.steps += 1
        if self.is_shown:
            counted = f": {rows:,} rows" if rows >= 0 else ""
            more = "" if left is None else f"; about {rounded(left)} left"
            self.tell(f"{NAME}: step {self.steps}, {what}{counted}, {seconds:.1f} s{more}")


def rounded(seconds: float) -> str:
    """Seconds as far as they are known."""
    size, unit = next((one for one in ((3600, "h"), (60, "min")) if seconds >= 100 * one[0] / 60), (1, "s"))
    return f"{seconds / size:.0f} {unit}"


def engine_of(words: argparse.Namespace, teller: Teller) -> Engine:
    """The engine that the words ask for."""
    if words.explain:
        return Plan(SQLITE if words.engine == "sqlite" else DIALECTS[words.dialect or "postgres"])
    if words.engine == "sqlite":
        return Sqlite(words.source_file, words.target_file, teller.statement)
    if words.servers:
        lines = pathlib.Path(words.servers).read_text(encoding="utf-8").splitlines()
        return Servers(words.connection, lines, teller.statement)
    return Postgres(words.connection, words.sessions, teller.statement)


def exchange(engine: Engine, core: bool, sessions: int = 1, report: Report = silent) -> None:
    """The whole exchange; prints how many rows each table has, and in core mode whether the target is a core."""
    script = shown(core)  # what clio refuses ends here as it ends clio
    ended = Exchange(Work(engine, report), script, mapping_here(), core, sessions).run()
    print("".join(f"{name} {number}\n" for name, number in ended.rows.items()), end="")
    if ended.rest and not engine.is_plan:
        remark(NAME, ended.rest.told())


def mapping_here() -> Mapping:
    """The mapping of this folder."""
    return Mapping(content_of(pathlib.Path("mapping.clio")).decode("utf-8", "replace"))


def work(given: list[str]) -> None:
    """Runs the tool on its words."""
    words = asked(given)
    teller = Teller(words.verbose)
    try:
        engine = engine_of(words, teller)
        try:
            if isinstance(engine, Servers) and words.source:
                engine.make_source(mapping_here().source)
            else:
                exchange(engine, words.core, getattr(words, "sessions", 1), teller.step)
        finally:
            engine.close()
    except Clash as clash:
        print(harmless(str(clash)), file=sys.stderr)
        sys.exit(3)
    except ValueError as error:
        raise Refused(str(error)) from None


def main() -> None:
    """Runs the tool."""
    run(NAME, work)


