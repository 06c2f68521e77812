"""clio-load --try: what the database would refuse, or store otherwise, is known beforehand, and nothing is changed."""
from __future__ import annotations

import contextlib
import pathlib
import sqlite3
import unittest

import server
from forked import ended
from trial import Trial

from clio_tools.databases.postgres import Session

STARTED = contextlib.ExitStack()
PLACE: list[str] = []
MAPPING = """mapping 1; source { set s { id, x, p; } } target { set t { id, x, p; key (id); } set u { p, x; } }
rule s(i, x, p) -> t(i, x, p), u(p, x);"""
TABLES = """
CREATE TABLE t (id INTEGER PRIMARY KEY, x TEXT CHECK (x <> 'no'), p INTEGER);
CREATE UNIQUE INDEX one ON t (lower(x));
CREATE TABLE u (p INTEGER REFERENCES t DEFERRABLE INITIALLY DEFERRED, x TEXT, own INTEGER NOT NULL DEFAULT 3);
INSERT INTO t VALUES (100, 'mine', 1);
"""
REFUSED = [  # rows; what SQLite and PostgreSQL say
    ("1,no,1\n", "CHECK", "check constraint"), ("1,MINE,1\n", "one", "one"),
    ("1,a,9\n", "would refer to no row of t", "is not present")]


def setUpModule() -> None:
    """Starts a server if there is one."""
    with contextlib.suppress(unittest.SkipTest):
        PLACE.append(STARTED.enter_context(server.started()).place[0])


def tearDownModule() -> None:
    """Stops the server."""
    STARTED.close()


class Tries(Trial):
    """Tables t and u, which are loaded from one file."""

    words: list[str]

    def tool(self, name: str, *words: str | bytes, text: str = "") -> tuple[int, str, str]:
        """How a tool ends, in a process that has the modules of this one already."""
        return ended(name, [str(word) for word in words], self.folder, text)

    def source(self, rows: str) -> None:
        """The mapping and its file."""
        self.file("mapping.clio", MAPPING)
        self.file("s.csv", f"id,x,p\n{rows}")

    def state(self) -> object:
        """All that is in the database."""
        raise NotImplementedError

    def check_refused(self, place: int) -> None:
        """What the load would be refused for, the trial is, and a dry run alone isn't."""
        before = self.state()
        for row in REFUSED:
            self.source(row[0])
            said = [self.tool("clio-load", *self.words, *option) for option in (("--try",), ())]
            self.assertEqual(said[0], said[1])
            self.assertEqual(said[0][:2], (2, ""))
            self.assertIn(row[place], said[0][2])
            self.assertEqual(self.state(), before)
        self.assertEqual(self.tool("clio-load", *self.words, "--dry-run")[0], 1)

    def check_taken(self, changed: list[str]) -> None:
        """A load that would be done is as a dry run says; rows that would be stored otherwise are named."""
        self.source("1,a,1\n2,b,1\n")
        before = self.state()
        _, printed, _ = self.tool("clio-load", *self.words, "--dry-run")
        status, out, said = self.tool("clio-load", *self.words, "--try", "--log", "log")
        self.assertEqual((status, out.splitlines()), (1, [*printed.splitlines(), *changed]), said)
        self.assertEqual(self.state(), before)


@unittest.skipIf(sqlite3.sqlite_version_info < (3, 39), "SQLite is older than 3.39")
class OnSqlite(Tries):
    """SQLite."""

    def setUp(self) -> None:
        super().setUp()
        self.words = ["sqlite", "d.db"]
        self.run_sql(TABLES)

    def run_sql(self, text: str) -> None:
        """Changes the file."""
        with contextlib.closing(sqlite3.connect(self.folder / "d.db")) as base:
            base.executescript(text)

    def state(self) -> object:
        return pathlib.Path(self.folder / "d.db").read_bytes()

    def test_refused(self) -> None:
        """Constraints, unique indexes and foreign keys."""
        self.check_refused(1)

    def test_rows_that_refer_to_nothing(self) -> None:
        """One that was there before is no reason to refuse a load."""
        self.run_sql("INSERT INTO u VALUES (77, 'old', 3)")
        self.check_taken([])

    def test_altered(self) -> None:
        """What a trigger alters is named."""
        self.run_sql("CREATE TRIGGER a AFTER INSERT ON t WHEN new.x = 'b' BEGIN UPDATE t SET x = 'B', p = 100"
                     " WHERE id = new.id; END")
        self.check_taken(['t ["2"]: x "b" would be stored as "B", p "1" would be stored as "100"'])


class OnPostgres(Tries):
    """PostgreSQL."""

    def setUp(self) -> None:
        super().setUp()
        if not PLACE:
            self.skipTest("there is no server")
        self.session = Session(PLACE[0], client_min_messages="warning")
        self.addCleanup(self.session.close)
        self.session.run("DROP SCHEMA IF EXISTS clio_load, public CASCADE; CREATE SCHEMA public;" + TABLES)
        self.words = ["postgres", PLACE[0]]

    def state(self) -> object:
        return [self.session.rows(f"SELECT * FROM {name}") for name in (
            "t", "u", "pg_tables WHERE schemaname NOT LIKE 'pg%'", "pg_namespace", "pg_sequences")]

    def test_refused(self) -> None:
        """Constraints, unique indexes and foreign keys."""
        self.check_refused(2)

    def test_exclusion(self) -> None:
        """A row that another one excludes, with what the database says of it."""
        self.session.run("ALTER TABLE t ADD EXCLUDE USING gist (int4range(id, id + 5) WITH &&)")
        self.source("1,a,1\n4,b,1\n")
        self.refused("clio-load", *self.words, "--try", why="conflicts with existing key")

    def test_altered(self) -> None:
        """What a trigger alters is named; sequences go on where they were."""
        self.session.run("CREATE FUNCTION f() RETURNS trigger LANGUAGE plpgsql AS $$ BEGIN new.x = upper(new.x);"
                         " RETURN new; END $$; CREATE TRIGGER g BEFORE INSERT ON t FOR EACH ROW WHEN (new.x = 'b')"
                         " EXECUTE FUNCTION f(); CREATE SEQUENCE other; ALTER TABLE t ADD mine SERIAL, ADD yours"
                         " integer DEFAULT nextval('other'); ALTER TABLE u ADD n bigint GENERATED ALWAYS AS IDENTITY")
        self.check_taken(['t ["2"]: x "b" would be stored as "B"'])
        self.printed("clio-load", *self.words)
        self.assertEqual(self.session.rows("SELECT id, x, mine, yours FROM t ORDER BY id"),
                         [("1", "a", "2", "2"), ("2", "B", "3", "3"), ("100", "mine", "1", "1")])


del Tries  # it is run by its subclasses alone


if __name__ == "__main__":
    unittest.main()
