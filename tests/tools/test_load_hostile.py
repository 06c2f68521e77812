"""clio-load on databases that would lose rows of others, or leave something undone without a word: it refuses that, and
changes nothing.
"""
from __future__ import annotations

import contextlib
import pathlib
import sqlite3
import unittest
import unittest.mock

import server
from forked import ended
from trial import Trial

from clio_tools.databases.postgres import Session
from clio_tools.load.command import crosswalk_of

STARTED = contextlib.ExitStack()
PLACE: list[str] = []
Rows = list[tuple[object, ...]]


def setUpModule() -> None:
    """Starts a server if there is one."""
    with contextlib.suppress(unittest.SkipTest):
        PLACE.append(STARTED.enter_context(server.started()).place[0])


def tearDownModule() -> None:
    """Stops the server."""
    STARTED.close()


class Hostile(Trial):
    """A table t that is loaded from a file of the same columns."""

    def tool(self, name: str, *words: str | bytes, text: str = "") -> tuple[int, str, str]:
        """How a tool ends, in a process that has the modules of this one already."""
        return ended(name, [str(word) for word in words], self.folder, text)

    def source(self, columns: str, rows: str, key: str = "") -> None:
        """The mapping and its file."""
        listed = columns.replace(",", ", ")
        self.file("mapping.clio", f"mapping 1; source {{ set s {{ {listed}; }} }} target {{ set t {{ {listed}; {key} }}"
                                  f" }} rule s({listed}) -> t({listed});")
        self.file("s.csv", f"{columns}\n{rows}")


@unittest.skipIf(sqlite3.sqlite_version_info < (3, 39), "SQLite is older than 3.39")
class OnSqlite(Hostile):
    """SQLite."""

    words = "sqlite", "d.db"

    def run_sql(self, text: str) -> None:
        """Changes the file."""
        with contextlib.closing(sqlite3.connect(self.folder / "d.db")) as base:
            base.executescript(text)

    def rows(self, query: str = "SELECT * FROM t") -> Rows:
        """The rows of a query."""
        with contextlib.closing(sqlite3.connect(self.folder / "d.db")) as base:
            return sorted(base.execute(query).fetchall())

    def test_conflict_clauses(self) -> None:
        """A table that replaces or ignores rows of its own accord does neither with what is loaded."""
        for clause in "REPLACE", "IGNORE":
            self.run_sql(f"DROP TABLE IF EXISTS t; CREATE TABLE t (id INTEGER PRIMARY KEY, name TEXT UNIQUE ON CONFLICT"
                         f" {clause}, own TEXT)")
            self.source("id,name", "1,ann\n2,ann\n")
            self.refused("clio-load", *self.words, why="UNIQUE")
            self.run_sql("INSERT INTO t VALUES (7, 'ann', 'mine')")
            self.source("id,name", "1,ann\n")
            self.refused("clio-load", *self.words, why="UNIQUE")
            self.assertEqual(self.rows(), [(7, "ann", "mine")])

    def test_triggers(self) -> None:
        """What a trigger leaves out isn't counted as written."""
        self.run_sql("CREATE TABLE t (id INTEGER PRIMARY KEY, x TEXT);"
                     "CREATE TRIGGER a BEFORE INSERT ON t WHEN new.x = 'no' BEGIN SELECT RAISE(IGNORE); END;"
                     "CREATE TRIGGER b BEFORE UPDATE ON t WHEN new.x = 'no' BEGIN SELECT RAISE(IGNORE); END;"
                     "CREATE TRIGGER c BEFORE DELETE ON t WHEN old.x = 'a' BEGIN SELECT RAISE(IGNORE); END")
        self.source("id,x", "1,a\n2,no\n")
        self.refused("clio-load", *self.words, why="a trigger")
        self.assertEqual(self.rows(), [])
        self.source("id,x", "1,a\n2,b\n")
        self.printed("clio-load", *self.words)
        for rows in "1,a\n2,b\n3,no\n", "1,a\n2,no\n", "2,b\n":
            self.source("id,x", rows)
            self.refused("clio-load", *self.words, "--delete", why="a trigger")
            self.assertEqual(self.rows(), [(1, "a"), (2, "b")])

    def test_capitals(self) -> None:
        """A key that takes capitals for small letters: its value is changed, and two rows that it makes one are
        refused."""
        self.run_sql("CREATE TABLE t (name TEXT COLLATE NOCASE PRIMARY KEY); INSERT INTO t VALUES ('Ann'), ('other')")
        self.source("name", "ann\n")
        self.printed("clio-load", *self.words)
        self.assertEqual(self.rows(), [("ann",), ("other",)])
        self.source("name", "Ann\nann\n")
        self.refused("clio-load", *self.words, why='the key (name) "ann" belongs to several rows')

    def test_numbers(self) -> None:
        """Two texts that are one number are no two rows."""
        self.run_sql("CREATE TABLE t (id INTEGER PRIMARY KEY, x TEXT); INSERT INTO t VALUES (1, 'a'), (5, 'other')")
        self.source("id,x", "1,a\n01,a\n")
        self.refused("clio-load", *self.words, "--dry-run", why="belongs to several rows")

    def test_rounded(self) -> None:
        """A number that its column would round is listed; one that is kept is loaded, and is equal then."""
        self.run_sql("CREATE TABLE t (id INTEGER PRIMARY KEY, x REAL, p DECIMAL(30,2))")
        self.source("id,x,p", "1,9007199254740993,1\n2,1e400,1\n3,1,12345678901234567890.12\n")
        status, _, said = self.tool("clio-load", *self.words)
        self.assertEqual(status, 2)
        for part in ('record 1: column x is "9007199254740993", which t can\'t hold unchanged as REAL',
                     'record 2: column x is "1e400",', 'record 3: column p is "12345678901234567890.12",',
                     "3 misfits"):
            self.assertIn(part, said)
        self.source("id,x,p", "1,9007199254740992,9007199254740993\n2,0.30000000000000004,0.5\n")
        for count in "2 inserted, 0 changed, 0 deleted, 0 equal", "0 inserted, 0 changed, 0 deleted, 2 equal":
            self.assertIn(count, self.printed("clio-load", *self.words))

    def test_a_key_that_the_mapping_lacks(self) -> None:
        """Two rows that are one by the table's key are refused, also if that row is there already."""
        self.run_sql("CREATE TABLE t (a TEXT PRIMARY KEY, x TEXT)")
        for rows in "k,1\n", "k,1\nl,1\n":
            self.source("a,x", rows)
            self.printed("clio-load", *self.words)
        for rows in "k,1\nk,2\nl,1\n", "k,2\nk,3\nl,1\n", "k,1\nl,1\nm,1\nm,2\n":
            self.source("a,x", rows)
            self.refused("clio-load", *self.words, "--dry-run", why="belongs to several rows")

    def test_a_key_that_is_not_unique(self) -> None:
        """A row of somebody else with the key of a row that a load wrote stays."""
        self.run_sql("CREATE TABLE t (no INTEGER, x TEXT)")
        self.source("no,x", "1,a\n2,b\n", "key (no);")
        self.printed("clio-load", *self.words)
        self.run_sql("INSERT INTO t VALUES (1, 'mine')")
        self.refused("clio-load", *self.words, why="belongs to several rows")
        self.source("no,x", "2,b\n", "key (no);")
        self.refused("clio-load", *self.words, "--delete", why="has several rows with the key")
        self.assertEqual(self.rows(), [(1, "a"), (1, "mine"), (2, "b")])

    def test_a_column_rowid(self) -> None:
        """A column with the name of a row's place names no row."""
        self.run_sql("CREATE TABLE t (_rowid_ TEXT, a TEXT); INSERT INTO t VALUES ('x', 'mine')")
        self.source("a", "y\n")
        self.refused("clio-load", *self.words, why="can't be told apart")

    def test_cascade(self) -> None:
        """A row that refers in other capitals is not deleted with its parent."""
        self.run_sql("CREATE TABLE t (code TEXT COLLATE NOCASE PRIMARY KEY, x TEXT);"
                     "CREATE TABLE child (code TEXT REFERENCES t ON DELETE CASCADE)")
        self.source("code,x", "A,1\nB,2\n")
        self.printed("clio-load", *self.words)
        self.run_sql("INSERT INTO child VALUES ('a')")
        self.source("code,x", "B,2\n")
        self.refused("clio-load", *self.words, "--delete", why="would be deleted or altered with them")
        self.assertEqual(self.rows("SELECT code FROM child"), [("a",)])

    def test_a_crosswalk_that_goes_away(self) -> None:
        """A crosswalk that was made for nothing is locked until it is gone, so nobody's numbers go with it."""
        path, others = self.folder / "ids.db", []
        unlink = pathlib.Path.unlink

        def tried(one: pathlib.Path, missing_ok: bool = False) -> None:
            with contextlib.closing(sqlite3.connect(path, timeout=0, isolation_level=None)) as other:
                with self.assertRaisesRegex(sqlite3.OperationalError, "locked"):
                    other.execute("BEGIN IMMEDIATE")
            others.append(one)
            unlink(one, missing_ok)

        with unittest.mock.patch.object(pathlib.Path, "unlink", tried), crosswalk_of(str(path)):
            pass
        self.assertEqual((others, path.exists()), ([path], False))

    def test_a_number_that_was_not_used(self) -> None:
        """A load that fails at its end has numbers of the database's own that a row of somebody else may get then."""
        self.run_sql("CREATE TABLE t (id INTEGER PRIMARY KEY, label TEXT UNIQUE, boss TEXT REFERENCES other"
                     " DEFERRABLE INITIALLY DEFERRED); CREATE TABLE other (x TEXT PRIMARY KEY)")
        self.file("mapping.clio", "mapping 1; source { set s { label, boss; } } target { set t { id, label, boss; key "
                                  "(id); key (label); } } rule s(x, y) -> t(z, x, y);")
        self.file("s.csv", "label,boss\ntoys,nobody\n")
        words = (*self.words, "--ids", "ids.db", "--identity")
        self.refused("clio-load", *words, why="would refer to no row")
        self.run_sql("INSERT INTO other VALUES ('nobody'); INSERT INTO t VALUES (1, 'mine', NULL)")
        self.refused("clio-load", *words, why="may be another thing")
        self.assertEqual(self.rows(), [(1, "mine", None)])
        self.run_sql("UPDATE t SET label = 'toys'")  # the same thing by another key
        self.printed("clio-load", *words)
        self.assertEqual(self.rows(), [(1, "toys", "nobody")])

    def test_the_name_of_the_record(self) -> None:
        """A table or view of the user's under the name of the record is not written to."""
        for made in "TABLE clio_load_written (a)", "VIEW clio_load_written AS SELECT 1 AS a":
            self.run_sql(f"DROP TABLE IF EXISTS t; DROP TABLE IF EXISTS clio_load_written;"
                         f"CREATE TABLE t (id INTEGER PRIMARY KEY, x TEXT); CREATE {made}")
            self.source("id,x", "1,a\n")
            self.refused("clio-load", *self.words, why="clio_load_written is not the record of clio-load")


class OnPostgres(Hostile):
    """PostgreSQL."""

    def setUp(self) -> None:
        super().setUp()
        if not PLACE:
            self.skipTest("there is no server")
        self.session = Session(PLACE[0], client_min_messages="warning")
        self.addCleanup(self.session.close)
        self.session.run("DROP SCHEMA IF EXISTS clio_load, public CASCADE; CREATE SCHEMA public")
        self.words = "postgres", PLACE[0]

    def rows(self, query: str = "SELECT * FROM t") -> Rows:
        """The rows of a query."""
        return sorted(tuple(row) for row in self.session.rows(query))

    def test_nulls_of_a_single_column(self) -> None:
        """Rows of one column without a key, with NULL, and a text as NULL is written in a list."""
        self.session.run("CREATE TABLE t (a text)")
        self.source("a", "none\n{NULL}\n")
        for count in "2 inserted, 0 changed, 0 deleted, 0 equal", "0 inserted, 0 changed, 0 deleted, 2 equal":
            self.assertIn(count, self.printed("clio-load", *self.words, "--null", "none"))
        self.source("a", "{NULL}\n")
        self.printed("clio-load", *self.words, "--null", "none", "--delete")
        self.assertEqual(self.rows(), [("{NULL}",)])

    def test_triggers_and_rules(self) -> None:
        """What a trigger or a rule leaves out isn't counted as written."""
        self.session.run("CREATE FUNCTION f() RETURNS trigger LANGUAGE plpgsql AS $$ BEGIN RETURN NULL; END $$")
        for made in ("TRIGGER g BEFORE INSERT ON t FOR EACH ROW WHEN (new.x = 'no') EXECUTE FUNCTION f()",
                     "RULE g AS ON INSERT TO t WHERE new.x = 'no' DO INSTEAD NOTHING"):
            for before in [("1", "a")], []:
                with self.subTest(made=made, before=before):
                    self.session.run(f"DROP TABLE IF EXISTS t; CREATE TABLE t (id int PRIMARY KEY, x text);"
                                     f"{'INSERT INTO t VALUES (1, $$a$$);' if before else ''} CREATE {made}")
                    self.source("id,x", "1,a\n2,no\n")
                    if "RULE" in made and not before:  # COPY knows no rules
                        self.assertIn("2 inserted", self.printed("clio-load", *self.words))
                    else:
                        self.refused("clio-load", *self.words, why="a trigger")
                        self.assertEqual(self.rows(), before)

    def test_silent(self) -> None:
        """What a type would alter without a word is refused: at the first load, and at the next one, which goes another
        way."""
        self.session.run("CREATE DOMAIN price AS numeric(5,2); CREATE DOMAIN code AS varchar(3);"
                         "CREATE DOMAIN cheap AS price; CREATE TYPE pair AS (a price)")
        for kind, right, wrong in [
                ("price", "1.20", "1.239"), ("code", "abc", "abc "), ("bit(3)", "101", "10101"),
                ("bit varying(3)", "101", "10101"), ("real", "1.5", "16777217"),
                ("double precision", "0.30000000000000004", "9007199254740993"), ("money", "1.5", "1.505"),
                ("timestamp(0)", "2020-01-01 10:00:00", "2020-01-01 10:00:00.7"),
                ("time(0)", "10:00:00", "10:00:00.7"), ("date", "2020-01-01", "today"), ("interval(0)", "1 s", "1.7 s"),
                ("timestamptz", "2020-01-01 10:00:00+00", "now"), ("time", "10:00:00", "NOW"),
                ("cheap", "1.20", "1.239"), ("cheap[]", "{1.20}", "{1.239}"),
                ("varchar(3)[]", "{abc}", "{abcd}"), ("real[]", "{1.5}", "{16777217}"), ("name", "a", "a" * 64),
                ('"char"', "a", "ab"), ("interval year", "2 years", "1 year 3 mons"), ("tsrange", "empty", "[now]"),
                ("daterange", "empty", "[2020-01-01 10:00]"), ("date[]", "{2020-01-01}", "{2020-01-01 10:00}"),
                ("pair", "(1.24)", "(1.239)")]:
            with self.subTest(kind=kind):
                self.session.run(f"DROP TABLE IF EXISTS t; CREATE TABLE t (id int PRIMARY KEY, x {kind})")
                before: Rows = []
                for rows in "", f"1,{right}\n":
                    self.source("id,x", f"{rows}2,{wrong}\n")
                    self.refused("clio-load", *self.words, why=f'column x is "{wrong}", which t can\'t hold unchanged')
                    self.assertEqual(self.rows(), before)
                    self.source("id,x", f"1,{right}\n")
                    self.printed("clio-load", *self.words)
                    before = self.rows()
                    self.assertEqual(len(before), 1)

    def test_many_rows(self) -> None:
        """A load takes no step for each pair of rows, though the server knows nothing of the table yet."""
        self.session.run("CREATE TABLE t (id int PRIMARY KEY, x text) WITH (autovacuum_enabled = false)")
        words = ["postgres", f"{PLACE[0]} options='-c statement_timeout=10s'"]
        for text, count in ("a", "30000 inserted"), ("a", "30000 equal"), ("b", "30000 changed"), ("", "30000 deleted"):
            self.source("id,x", "".join(f"{number},{text}\n" for number in range(30000)) if text else "")
            self.assertIn(count, self.printed("clio-load", *words, "--delete"))

    def test_full(self) -> None:
        """What the server says of a full disk is passed on, and nothing is changed."""
        self.session.run("CREATE FUNCTION f() RETURNS trigger LANGUAGE plpgsql AS $$ BEGIN RAISE disk_full USING"
                         " MESSAGE = 'could not extend file'; END $$; CREATE TABLE t (id int PRIMARY KEY, x text);"
                         "CREATE TRIGGER g BEFORE INSERT ON t FOR EACH ROW WHEN (new.x = 'last') EXECUTE FUNCTION f()")
        self.source("id,x", "1,a\n2,last\n")
        for count in range(2):
            self.refused("clio-load", *self.words, why="PostgreSQL: could not extend file; nothing is changed")
            self.assertEqual(self.rows("SELECT id FROM t"), [("7",)] * count)
            self.session.run("INSERT INTO t VALUES (7, 'mine') ON CONFLICT DO NOTHING")

    def test_a_key_that_the_mapping_lacks(self) -> None:
        """Two rows that are one by the table's key are refused, also if that row is there already."""
        self.session.run("CREATE TABLE t (a text PRIMARY KEY, x text)")
        for rows in "k,1\n", "k,1\nl,1\n":
            self.source("a,x", rows)
            self.printed("clio-load", *self.words)
        for rows in "k,1\nk,2\nl,1\n", "k,2\nk,3\nl,1\n", "k,1\nl,1\nm,1\nm,2\n":
            self.source("a,x", rows)
            self.refused("clio-load", *self.words, "--dry-run", why="belongs to several rows")

    def test_inheritance(self) -> None:
        """A row of a table that inherits is not deleted for one that a load wrote."""
        self.session.run("CREATE TABLE t (id int PRIMARY KEY, x text); CREATE TABLE kid () INHERITS (t)")
        self.source("id,x", "1,a\n2,b\n")
        self.printed("clio-load", *self.words)
        self.session.run("INSERT INTO kid VALUES (1, 'mine')")
        self.refused("clio-load", *self.words, "--dry-run", why="belongs to several rows")
        self.source("id,x", "2,b\n")
        self.refused("clio-load", *self.words, "--delete", why="has several rows with the key")
        self.assertEqual(self.rows("SELECT * FROM kid"), [("1", "mine")])

    def test_capitals(self) -> None:
        """In a column that takes capitals for small letters a text is changed all the same."""
        self.session.run("CREATE COLLATION ci (provider = icu, locale = 'und-u-ks-level2', deterministic = false);"
                         "CREATE TABLE t (id int PRIMARY KEY, x text COLLATE ci)")
        for text in "Ann", "ann":
            self.source("id,x", f"1,{text}\n")
            self.printed("clio-load", *self.words)
            self.assertEqual(self.rows(), [("1", text)])

    def test_names(self) -> None:
        """A foreign key to a column whose name is anything."""
        self.session.run('CREATE TABLE t (id int PRIMARY KEY, x text, "a\x01, ""b" int UNIQUE);'
                         'CREATE TABLE child (c int REFERENCES t ("a\x01, ""b"))')
        for rows in "1,a\n2,b\n", "2,b\n":
            self.source("id,x", rows)
            self.printed("clio-load", *self.words, "--delete")
        self.assertEqual(self.rows("SELECT id FROM t"), [("2",)])

    def test_the_name_of_the_record(self) -> None:
        """What somebody else made under the name of the record is not written to."""
        record = "load TEXT, table_name TEXT, key_columns TEXT, row_key TEXT"
        for made in ("TABLE clio_load.written (a int)", "VIEW clio_load.written AS SELECT 1 AS a",
                     f"TABLE clio_load.written ({record}); CREATE RULE r AS ON INSERT TO clio_load.written DO ALSO"
                     " DELETE FROM public.t"):
            self.session.run(f"DROP SCHEMA IF EXISTS clio_load CASCADE; DROP TABLE IF EXISTS t;"
                             f"CREATE SCHEMA clio_load; CREATE TABLE t (id int PRIMARY KEY, x text); CREATE {made}")
            self.source("id,x", "1,a\n")
            self.refused("clio-load", *self.words, why="clio_load.written is not the record of clio-load")

    def test_a_record_that_runs_something(self) -> None:
        """Nothing that somebody else put into the record is run; an entry that no load wrote is taken out."""
        record = "load TEXT, table_name TEXT, key_columns TEXT, row_key TEXT"
        for made in (f"TABLE clio_load.written ({record}, CHECK (clio_load.f(load)))",
                     f"TABLE clio_load.written ({record}); CREATE INDEX ON clio_load.written (clio_load.f(load))",
                     f"TABLE clio_load.written ({record}); ALTER TABLE clio_load.written ENABLE ROW LEVEL SECURITY",
                     "DOMAIN clio_load.t AS text CHECK (clio_load.f(VALUE)); CREATE TABLE clio_load.written"
                     f" ({record.replace('load TEXT', 'load clio_load.t')})"):
            self.session.run(f"DROP SCHEMA IF EXISTS clio_load CASCADE; DROP TABLE IF EXISTS t;"
                             "CREATE SCHEMA clio_load; CREATE FUNCTION clio_load.f(text) RETURNS boolean IMMUTABLE"
                             " LANGUAGE plpgsql AS $$ BEGIN RAISE 'it ran'; END $$;"
                             f"CREATE TABLE t (id int PRIMARY KEY, x text); CREATE {made}")
            self.source("id,x", "1,a\n")
            self.refused("clio-load", *self.words, why="clio_load.written is not the record of clio-load")
        self.session.run("DROP SCHEMA clio_load CASCADE")
        self.printed("clio-load", *self.words)
        self.session.run("UPDATE clio_load.written SET key_columns = 'none'")
        self.assertIn("1 equal", self.printed("clio-load", *self.words))


del Hostile  # it is run by its subclasses alone


if __name__ == "__main__":
    unittest.main()
