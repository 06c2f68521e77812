"""Compares what clio-sql makes with what clio writes, on random mappings with keys: dev/check-sql [COUNT [SEED [one |
sessions | sqlite | several]]]

COUNT mappings (200 if it is left out), of six kinds of second_reading in turn, are exchanged in both modes by clio
and by clio-sql, in a PostgreSQL server of its own in a temporary folder. A clash has to be a clash of both, and has
to name two texts that a key makes equal. All tables, the nulls and the fold have to be the same. If clio-sql had clio
reduce some rows, other nulls may have stayed: then each target has to map into the other one, with as many rows, and
the fold has to send what the rules make onto the target. If it says that it left out rows, clio's core has to be in
what it made, and no more rows than it says may be missing there. At a difference the folder of the mapping is kept. A
refusal of clio doesn't count. Then a tenth as many are exchanged by three sessions, as many in SQLite, and the
examples and a fortieth as many on three servers, over which clio-sql spreads all tables. The third word asks for one
of these alone.
"""
import collections
import contextlib
import io
import os
import pathlib
import random
import re
import shutil
import signal
import sqlite3
import subprocess
import sys
import tempfile
from collections.abc import Callable, Iterator
from typing import Any, Protocol

from homomorphisms import homomorphism
from clio_tools.databases.postgres import Session, literal
from clio_tools.mapping.text import Mapping
from clio_tools.sql import moving
from clio_tools.sql.determinations import Clash
from clio_tools.sql.command import exchange
from clio_tools.sql.postgres import Postgres as Engine
from clio_tools.sql.servers import Servers
from clio_tools.sql.sqlite import Sqlite
from clio_tools.program import Refused
from matches import canonical, places_of
from random_cases import random_case
from refusals import Limit, TooLong
from servers import Differs, LeftOut, Postgres, Written, rows_of, source_of
from values import Fact, Null, ascending, image, nulls_of, read_value

TOP = pathlib.Path(__file__).resolve().parent.parent.parent
KINDS = ["keyed", "dependent", "keyed", "rules", "lines", "mixed", "optional"]
EXCEPT = re.compile(r"core except for ([0-9]+) rows in ([0-9]+) blocks")
Rows = list[tuple[str, ...]]


class Place(Protocol):
    """Where clio-sql works: the source is loaded there, and the target read."""

    def takes(self, names: list[str]) -> bool:
        """Whether tables of a side can have these names."""

    def load(self, folder: pathlib.Path) -> None:
        """Loads the source files of a folder."""

    def exchange(self, core: bool) -> None:
        """Runs clio-sql."""

    def rows(self, name: str, columns: list[str]) -> Rows:
        """The rows of a table of the target."""


class OneServer:
    """A PostgreSQL database."""

    def __init__(self, connection: str, sessions: int = 1) -> None:
        self.connection, self.sessions, self.session = connection, sessions, Session(connection)

    def takes(self, names: list[str]) -> bool:
        return True

    def load(self, folder: pathlib.Path) -> None:
        tables, rows = source_of(folder)
        self.session.run("SET client_min_messages = error; DROP SCHEMA IF EXISTS source, target CASCADE;"
                         "CREATE SCHEMA source")
        self.make_source(tables)
        for table in tables:
            if rows.get(table.name):
                lists = ", ".join("(" + ", ".join(map(literal, row)) + ")" for row in rows[table.name])
                self.session.run(f'INSERT INTO source."{table.name}" VALUES {lists}')

    def make_source(self, tables: list[Any]) -> None:
        """Empty tables of the source."""
        for table in tables:
            listed = ", ".join(f'"{column}" text' for column in table.columns)
            self.session.run(f'CREATE TABLE source."{table.name}" ({listed})')

    def exchange(self, core: bool) -> None:
        engine = Engine(self.connection, self.sessions)
        try:
            exchange(engine, core, self.sessions)
        finally:
            engine.close()

    def rows(self, name: str, columns: list[str]) -> Rows:
        cells = ", ".join(f'"{column}"' for column in columns)
        return self.session.rows(f'SELECT {cells} FROM target."{name}"')


class SeveralServers(OneServer):
    """A PostgreSQL database that spreads its tables over others; each seventh time all rows that move count as many."""

    def __init__(self, connection: str, lines: list[str]) -> None:
        super().__init__(connection)
        self.lines, self.times, self.many = lines, 0, moving.MANY

    def make_source(self, tables: list[Any]) -> None:
        engine = Servers(self.connection, self.lines)
        engine.make_source(tables)
        engine.close()

    def exchange(self, core: bool) -> None:
        self.times += 1
        moving.MANY = self.many if self.times % 7 else 0
        engine = Servers(self.connection, self.lines)
        try:
            exchange(engine, core)
        finally:
            engine.close()


class Files:
    """Two files of SQLite, which tells no capitals."""

    def takes(self, names: list[str]) -> bool:
        return len({name.lower() for name in names}) == len(names)

    def load(self, folder: pathlib.Path) -> None:
        for name in "source.db", "target.db":
            pathlib.Path(name).unlink(missing_ok=True)
        tables, rows = source_of(folder)
        with contextlib.closing(sqlite3.connect("source.db")) as base, base:
            for table in tables:
                listed = ", ".join(f'"{column}" TEXT' for column in table.columns)
                marks = ", ".join("?" * len(table.columns))
                base.execute(f'CREATE TABLE "{table.name}" ({listed})')
                base.executemany(f'INSERT INTO "{table.name}" VALUES ({marks})', rows.get(table.name, ()))

    def exchange(self, core: bool) -> None:
        engine = Sqlite("source.db", "target.db")
        try:
            exchange(engine, core)
        finally:
            engine.close()

    def rows(self, name: str, columns: list[str]) -> Rows:
        with contextlib.closing(sqlite3.connect("target.db")) as base:
            return base.execute(f'SELECT * FROM "{name}"').fetchall()


class Compared:
    """One exchange by both."""

    def __init__(self, place: Place, folder: pathlib.Path, core: bool, case: Any) -> None:
        self.place, self.folder, self.core, self.case = place, folder, core, case

    def by_clio(self) -> int:
        """The status of clio."""
        shutil.rmtree(self.folder / "out", ignore_errors=True)
        words = ["clio", "exchange", *["--core"] * self.core]
        return subprocess.run(words, cwd=self.folder, capture_output=True, check=False, timeout=60).returncode

    def made(self) -> tuple[dict[str, Rows] | None, str]:
        """How clio-sql ends: its tables, or None at a clash, and what it says."""
        self.place.load(self.folder)
        said = io.StringIO()
        try:
            with contextlib.redirect_stdout(io.StringIO()), contextlib.redirect_stderr(said):
                self.place.exchange(self.core)
        except Clash as clash:
            return None, str(clash)
        return {table.name: self.place.rows(table.name, table.columns) for table in self.tables}, said.getvalue()

    def kind(self) -> str:
        """Compares; says what kind of exchange it was, or nothing if clio refused it."""
        status = self.by_clio()
        if status not in (0, 3):
            return ""
        self.mapping = Mapping((self.folder / "mapping.clio").read_text(encoding="utf-8"))
        sides = [[table.name for table in side] for side in (self.mapping.source, self.mapping.target)]
        if not all(map(self.place.takes, sides)):
            return ""
        written_too = [Written("nulls", "null", "variable", "value"), Written("fold", "null", "value")]
        self.tables = [*self.mapping.target, *written_too]
        tables, said = self.made()
        if (status == 3) != (tables is None):
            how = "with a clash" if tables is None else "without one"
            raise Differs(f"clio ends with {status}, and clio-sql {how}")
        if tables is None:
            return "exchanges that end with a clash"
        written = {name: rows_of(self.folder / "out" / f"{name}.csv") for name in tables}
        if EXCEPT.search(said):
            self.compare_rest(tables, written, int(EXCEPT.findall(said)[0][0]))
            return "targets not called cores"
        other = [name for name, rows in tables.items() if sorted(rows) != sorted(written[name])]
        if not other:
            return "targets called cores" if self.core else "targets in plain mode"
        if "reduced by clio" not in said:
            raise Differs(f"{other[0]} is another than clio's{' in core mode' * self.core}")
        self.compare_cores(tables, written)
        return "targets called cores, in which other nulls stay"

    def compare_rest(self, tables: dict[str, Rows], written: dict[str, Rows], rest: int) -> None:
        """What was left out explains the difference."""
        missing = 0
        for name in tables.keys() - {"nulls", "fold"}:
            missing += len(tables[name]) - len(written[name])
        if missing > rest:
            raise Differs(f"clio's core has {missing} rows less, and clio-sql says {rest}")

    def compare_cores(self, tables: dict[str, Rows], written: dict[str, Rows]) -> None:
        """Both are cores of one another, with the same nulls, which stay or were folded."""
        one, other = self.facts(tables), self.facts(written)
        for name in tables.keys() - {"nulls", "fold"}:
            if len(tables[name]) != len(written[name]) or len(set(tables[name])) != len(tables[name]):
                raise Differs(f"{name} has {len(tables[name])} rows, and clio's core {len(written[name])}")
        onto, back = homomorphism(ascending(one), other), homomorphism(ascending(other), one)
        if onto is None or back is None:
            raise Differs("the target and clio's core don't map into each other")
        standing = {read_value(row[0]) for row in tables["nulls"]}
        fold = {read_value(null): read_value(value) for null, value in tables["fold"]}
        with_values = {null for null in nulls_of(one) if self.exports(null)} if self.case else standing
        if standing != with_values or standing & fold.keys():
            raise Differs("nulls has others than the target")
        if self.case and image(self.canonical(), lambda value: fold.get(value, value)) != one:
            raise Differs("the fold doesn't send what the rules make onto the target")

    def facts(self, tables: dict[str, Rows]) -> set[Fact]:
        """The rows of tables as facts."""
        return {Fact(number, tuple(map(read_value, row))) for number, table in enumerate(self.mapping.target)
                for row in tables[table.name]}

    def canonical(self) -> set[Fact]:
        """What the rules make."""
        rules, _ = self.case.mapping.rule_list()
        return canonical(places_of(rules, self.case.instance))

    def exports(self, null: Null) -> bool:
        """Whether the rule of a null exports a variable."""
        return bool(self.case.mapping.rule_list()[0][null.rule].exported())


class Trial:
    """Exchanges compared in one place."""

    def __init__(self, name: str, top: pathlib.Path, place: Callable[[], Place]) -> None:
        self.name, self.top, self.start = name, top, place
        self.place, self.counts, self.differences = place(), collections.Counter[str](), 0

    def say(self, text: str) -> None:
        print(f"check-sql: {self.name}: {text}", flush=True)

    def run(self, folder: pathlib.Path, what: str, case: Any = None) -> bool:
        """Both modes of the mapping in a folder; tells whether clio took it in one of them."""
        os.chdir(folder)
        try:
            kinds = [Compared(self.place, folder, core, case).kind() for core in (False, True)]
            self.counts.update(filter(None, kinds))
            return any(kinds)
        except (Differs, Refused) as why:
            self.differences += 1
            kept = tempfile.mkdtemp(prefix="check-sql-")
            shutil.copytree(folder, kept, dirs_exist_ok=True)
            self.say(f"{what}: {why}; see {kept}")
            return True
        finally:
            os.chdir(self.top)

    def run_random(self, count: int, seed: str) -> None:
        """So many random mappings that clio doesn't refuse."""
        tried, number = 0, 0
        while tried < count:
            kind = KINDS[number % len(KINDS)]
            found = case_folder(self.top, kind, seed, number)
            if found and self.run(found[0], f"{kind}, seed {seed}, number {number}", found[1]):
                tried += 1
                self.counts[f"mappings of the kind {kind}"] += 1
                if tried % 50 == 0:
                    self.say(f"{tried} mappings, {self.differences} differences")
            number += 1

    def run_examples(self) -> None:
        for example in sorted((TOP / "examples").glob("*/mapping.clio")):
            folder = self.top / "case"
            shutil.rmtree(folder, ignore_errors=True)
            shutil.copytree(example.parent, folder)
            self.counts["examples"] += self.run(folder, f"examples/{example.parent.name}")

    def end(self) -> int:
        counted = ", ".join(f"{amount} {what}" for what, amount in sorted(self.counts.items()))
        self.say(f"{counted}; {self.differences} differences")
        return self.differences


def case_folder(top: pathlib.Path, kind: str, seed: str, number: int) -> tuple[pathlib.Path, Any] | None:
    """A random mapping in a folder, or None if there is none; of two without keys and dependencies one is left out."""
    try:
        case = random_case(random.Random(f"check-sql {kind} {seed} {number}"), kind)
        case.mapping.rule_list()
    except (TooLong, Limit, RecursionError):
        return None
    if number % 2 and not any(table.determinations() for table in case.mapping.target):
        return None
    folder = top / "case"
    shutil.rmtree(folder, ignore_errors=True)
    folder.mkdir()
    for name, content in case.files.items():
        (folder / name).write_bytes(content.encode() if isinstance(content, str) else content)
    return folder, case


def try_one(top: pathlib.Path, count: int, seed: str, sessions: int = 1) -> int:
    """The examples and random mappings on one server; answers the number of differences."""
    with started(top, ["postgres"]) as servers:
        trial = Trial(f"one server, {sessions} sessions", top, lambda: OneServer(servers[0].place[0], sessions))
        trial.run_examples()
        trial.run_random(count, seed)
    return trial.end()


def try_sessions(top: pathlib.Path, count: int, seed: str) -> int:
    """The same by three sessions, on a tenth as many mappings."""
    return try_one(top, count // 10, seed, 3)


def try_sqlite(top: pathlib.Path, count: int, seed: str) -> int:
    """The examples and random mappings in SQLite."""
    trial = Trial("SQLite", top, Files)
    trial.run_examples()
    trial.run_random(count, seed)
    return trial.end()


def try_several(top: pathlib.Path, count: int, seed: str) -> int:
    """The examples and random mappings on three servers, which a fourth one asks; answers the number of differences."""
    with started(top, ["asked", "one", "two", "three"]) as servers:
        asked, *others = [server.place[0] for server in servers]
        trial = Trial("three servers", top, lambda: SeveralServers(asked, others))
        trial.run_examples()
        trial.run_random(count // 40, seed)
    return trial.end()


@contextlib.contextmanager
def started(top: pathlib.Path, names: list[str]) -> Iterator[list[Postgres]]:
    """Servers with these names."""
    servers: list[Postgres] = []
    try:
        servers += (Postgres(top, name) for name in names)
        yield servers
    finally:
        for server in servers:
            server.stop()


def main(words: list[str]) -> int:
    count, seed = int(words[0]) if words else 200, words[1] if len(words) > 1 else "1"
    trials = {"one": try_one, "sessions": try_sessions, "sqlite": try_sqlite, "several": try_several}
    program = subprocess.run([TOP / "dev/program"], stdout=subprocess.PIPE, text=True, check=True).stdout.strip()
    signal.signal(signal.SIGTERM, lambda *_: sys.exit(143))  # so that the servers are stopped in any case
    with tempfile.TemporaryDirectory() as name:
        top = pathlib.Path(name)
        top.chmod(0o755)
        (top / "bin").mkdir()
        os.symlink(program, top / "bin" / "clio")
        os.environ["PATH"] = f"{top / 'bin'}:{os.environ['PATH']}"
        try:
            return 1 if sum([trials[one](top, count, seed) for one in words[2:] or trials]) else 0
        except LeftOut as why:
            print(f"check-sql: nothing is compared, since {why}")
            return 0


if __name__ == "__main__":
    sys.exit(main(sys.argv[1:]))
