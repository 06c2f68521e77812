"""clio-sql: what it makes in SQLite, against another reading of the rules, keys and dependencies. dev/check has
PostgreSQL.
"""
import contextlib
import copy
import os
import pty
import random
import sqlite3
import subprocess
import sys
import unittest
from typing import Any

from trial import MODES, PROGRAM, TOOLS, Trial

from chase import Chase
from clio_tools.csv import read_table, write_table
from clio_tools.program import Refused
from clio_tools.sql.command import rounded
from clio_tools.sql.forecast import Forecast
from clio_tools.sql.joining import FEW, Join
from clio_tools.sql.script import Script
from clio_tools.sql.server import reached, sign
from covers import Covers, CoveredPlaces
from files import moved, nulls_text
from homomorphisms import core_of, homomorphism, is_core
from matches import Place, canonical, facts_of, places_of
from random_cases import Case, random_case
from refusals import Limit, TooLong
from schema import preorder
from spelling import mapping_tokens
from rules import Rule
from values import Fact, Null, Value, ascending, image, nulls_of, read_value

RANDOM = {"rules": 2, "lines": 2, "mixed": 2, "keyed": 4, "dependent": 6}
STAND_IN = """#!/bin/sh
# Shows the mapping without its dependencies, which change neither rules nor script
cd "%s/plain" && exec "%s" "$@"
"""


class Random(Trial):
    def setUp(self) -> None:
        super().setUp()
        (self.folder / "bin").mkdir()
        path = os.environ["PATH"]
        self.addCleanup(os.environ.__setitem__, "PATH", path)
        os.environ["PATH"] = f"{self.folder / 'bin'}:{path}"

    def test_random_mappings(self) -> None:
        for kind, count in RANDOM.items():
            for number in range(count):
                with self.subTest(kind=kind, number=number):
                    self.try_case(random_case(random.Random(f"sql {kind} {number}"), kind))

    def try_case(self, case: Case) -> None:
        """Both modes of one case."""
        try:
            rules, _ = case.mapping.rule_list()
        except (Limit, TooLong):
            return
        self.file("mapping.clio", case.files["mapping.clio"])
        self.put_program(case)
        self.load(case)
        places = places_of(rules, case.instance)
        covered = CoveredPlaces(Covers(rules), places)
        nulls = nulls_of(canonical(places))
        self.compare(case, (rules, places), canonical(places), {null: null for null in nulls}, [])
        folded = {null: covered.fold(null) for null in nulls}
        self.compare(case, (rules, places), facts_of(covered.uncovered()), folded, ["--core"])

    def put_program(self, case: Case) -> None:
        """Puts the program on the path, or a stand-in if it doesn't read the case's version of the text."""
        path = self.folder / "bin" / "clio"
        path.unlink(missing_ok=True)
        if case.mapping.version < 3 or self.clio("show")[0] == 0:
            os.symlink(PROGRAM, path)
            return
        plain = copy.deepcopy(case.mapping)
        plain.version = 2
        for tree in preorder(plain.source_trees + plain.target_trees):
            tree.dependencies = []
        self.file("plain/mapping.clio", " ".join(mapping_tokens(plain, random.Random(0))))
        self.file("bin/clio", STAND_IN % (self.folder, PROGRAM))
        path.chmod(0o755)

    def load(self, case: Case) -> None:
        """The source as a database."""
        (self.folder / "source.db").unlink(missing_ok=True)
        with sqlite3.connect(self.folder / "source.db") as base:
            for number, table in enumerate(case.mapping.source):
                listed = ", ".join(f'"{column}" TEXT' for column in table.columns)
                base.execute(f'CREATE TABLE "{table.name}" ({listed})')
                marks = ", ".join("?" * len(table.columns))
                base.executemany(f'INSERT INTO "{table.name}" VALUES ({marks})', case.instance.get(number, ()))
        base.close()

    def compare(self, case: Case, made: tuple[list[Rule], list[list[Place]]], facts: set[Fact],
                covered: dict[Null, Value], words: list[str]) -> None:
        """The target and its nulls, as the chase makes them of the facts, and the fold: first by covers, then by the
        chase."""
        chase = Chase(facts, case.mapping.target)
        status, out, said = self.tool("clio-sql", "sqlite", *words, "source.db", "target.db")
        if chase.clash:
            self.assertEqual((status, out), (3, ""), said)
            return
        self.assertEqual(status, 0, said)
        target = chase.instance()
        fold = moved((null, chase.value(value)) for null, value in covered.items())
        with contextlib.closing(sqlite3.connect(self.folder / "target.db")) as base:
            found = {Fact(number, tuple(map(read_value, row))) for number, table in enumerate(case.mapping.target)
                     for row in base.execute(f'SELECT * FROM "{table.name}"')}
            folded = {read_value(null): read_value(value) for null, value in base.execute("SELECT * FROM fold")}
            counted = base.execute("SELECT count(*) FROM nulls").fetchone()[0]
            rows = sum(base.execute(f'SELECT count(*) FROM "{table.name}"').fetchone()[0]
                       for table in case.mapping.target)
        self.assertEqual((rows, counted), (len(found), nulls_text(found, *made)[1]))
        if "reduced by clio" in said:
            self.compare_core(target, found, fold, folded)
        else:
            self.assertEqual((found, folded), (target, fold))
        if words:
            self.assertIn("a core", said)
            self.assertTrue(is_core(found))

    def compare_core(self, target: set[Fact], found: set[Fact], fold: dict[Value, Value],
                     folded: dict[Value, Value]) -> None:
        """What was reduced is a core of the target, and the fold sends what the rules make onto it."""
        self.assertEqual(len(found), len(core_of(target)))
        self.assertLessEqual(found, target)
        self.assertIsNotNone(homomorphism(ascending(target), found))
        def onto(value: Value) -> Value:
            return folded.get(fold.get(value, value), fold.get(value, value))
        self.assertEqual(image(target, onto), found)
        self.assertEqual(folded | {null: onto(null) for null in fold}, folded)


class Wide(Trial):
    """Rules whose atoms can go to each other in more ways than are tried."""

    def wide(self, *names: str) -> None:
        """A mapping with a rule for each of some sets, and a source with a row in each."""
        columns = "abcdefg"
        sets = "".join(f"set {name} {{ i, {', '.join(columns)}; }} " for name in names)
        phones = ", ".join(f"phone(i, {column})" for column in columns)
        listed = ", ".join(columns)
        rules = "".join(f"rule {name}(i, {listed}) -> {phones}, card(i, {listed}, more);\n" for name in names)
        target = f"set phone {{ id, number; }} set card {{ id, {', '.join(columns)}, more; }}"
        self.file("mapping.clio", f"mapping 1;\nsource {{ {sets}}}\ntarget {{ {target} }}\n{rules}")
        with contextlib.closing(sqlite3.connect(self.folder / "source.db")) as base, base:
            for name in names:
                base.execute(f"CREATE TABLE {name} (i TEXT, {', '.join(column + ' TEXT' for column in columns)})")
                base.execute(f"INSERT INTO {name} VALUES ('1', '2', '3', '4', '5', '6', '7', '8')")
        os.symlink(PROGRAM, self.folder / "clio")
        path = os.environ["PATH"]
        self.addCleanup(os.environ.__setitem__, "PATH", path)
        os.environ["PATH"] = f"{self.folder}:{path}"

    def test_one_rule(self) -> None:
        self.wide("p")
        printed = self.printed("clio-sql", "sqlite", "--core", "source.db", "target.db")
        self.assertEqual(printed, "phone 7\ncard 1\nnulls 8\nfold 0\n")

    def test_two_rules(self) -> None:
        self.wide("p", "q")
        printed = self.printed("clio-sql", "sqlite", "--core", "source.db", "target.db")
        self.assertEqual(printed, "phone 7\ncard 1\nnulls 8\nfold 1\n")


MARKED = ["", "?", "??", "?0.0.0", "c", "cx", "n", "n00000.00000.0000000000", "'", '"', "a,b", "\n", "é"]
TWO = """mapping 1;
source { set a { k, x; } set b { k, y; } }
target { set t { k, x, y; key (k); } set u { x, z; } set w { l, r; } }
rule a(k, x) -> t(k, x, p), u(x, q), w(k, s), w(s, x);
rule b(k, y) -> t(k, o, y);
"""


class Texts(Trial):
    """Columns with and without nulls, with texts that look like the marks of the work tables: the same as by clio."""

    def setUp(self) -> None:
        super().setUp()
        os.symlink(PROGRAM, self.folder / "clio")
        path = os.environ["PATH"]
        self.addCleanup(os.environ.__setitem__, "PATH", path)
        os.environ["PATH"] = f"{self.folder}:{path}"
        self.file("mapping.clio", TWO)

    def load(self, **tables: list[list[str]]) -> None:
        """The source as files and as a database."""
        (self.folder / "source.db").unlink(missing_ok=True)
        with contextlib.closing(sqlite3.connect(self.folder / "source.db")) as base, base:
            for name, rows in tables.items():
                write_table(self.folder / f"{name}.csv", ["k", "x" if name == "a" else "y"], rows)
                base.execute(f"CREATE TABLE {name} (k TEXT, {'x' if name == 'a' else 'y'} TEXT)")
                base.executemany(f"INSERT INTO {name} VALUES (?, ?)", rows)

    def test_equal_to_clio(self) -> None:
        self.load(a=[[text, text] for text in MARKED],
                  b=[[text, MARKED[-place]] for place, text in enumerate(MARKED[3:])])
        self.assertEqual(self.clio("exchange")[0], 0)
        self.printed("clio-sql", "sqlite", "source.db", "target.db")
        with contextlib.closing(sqlite3.connect(self.folder / "target.db")) as base:
            written = {"t": "kxy", "u": "xz", "w": "lr", "nulls": ["null", "variable", "value"],
                       "fold": ["null", "value"]}
            for name, columns in written.items():
                wanted = sorted(tuple(row) for row in read_table(self.folder / "out" / f"{name}.csv", list(columns)))
                self.assertEqual(sorted(base.execute(f"SELECT * FROM {name}")), wanted)

    def test_clash(self) -> None:
        self.file("mapping.clio", TWO.replace("t(k, o, y)", "t(k, y, y)"))
        for one, other in ("?", "c"), ("n", "a,\"b"), ("", "?0"):
            self.load(a=[["k", one]], b=[["k", other]])
            status, _, said = self.tool("clio-sql", "sqlite", "source.db", "target.db")
            by_clio = subprocess.run([PROGRAM, "exchange"], cwd=self.folder, capture_output=True, check=False)
            self.assertEqual((status, said), (3, by_clio.stderr.decode()))


class Words(Trial):
    def test_what_is_no_call_is_refused(self) -> None:
        self.refused("clio-sql", why="required: postgres|sqlite")
        self.refused("clio-sql", "sqlite", "source.db", why="required: TARGET.db")
        self.refused("clio-sql", "sqlite", "source.db", "target.db", why="source.db is not there")
        self.refused("clio-sql", "postgres", "--source", why="--source asks for --servers")
        self.refused("clio-sql", "postgres", "--servers", "servers.txt", why="servers.txt")

    def test_no_server_is_told_by_a_password(self) -> None:
        for line in ("host", "host='a", "host=a b", "HOST=a", "host=a passwd=TOPSECRET", "password=TOP SECRET host=a",
                     "postgresql://clio:TOPSECRET@a/b?passwd=x"):
            self.file("servers.txt", f"host=a\n\n{line}\n")
            self.file("mapping.clio", TWO)
            status, out, said = self.tool("clio-sql", "postgres", "--servers", "servers.txt")
            self.assertEqual((status, out), (2, ""))
            if "missing" not in said:  # psycopg
                self.assertIn("line 3 of the servers", said)
            self.assertNotIn("SECRET", said)

    def test_a_server_is_told_by_how_it_is_reached(self) -> None:
        try:
            one, other, again = reached(["host=a dbname=x user=u", "host=b dbname=x user=u",
                                         " dbname = y  host='a' user=v password='it\\'s \\\\ old' "])
            same, = reached(["postgresql://w@a/x"])
        except Refused as why:
            self.assertIn("psycopg", str(why))
            return
        self.assertEqual((sign(one) == sign(same), sign(one) == sign(other)), (True, False))
        self.assertEqual((again.secrets, "old" in again.shown()), ({"password": "it's \\ old"}, False))
        self.assertRaises(Refused, reached, ["host=a", "host=a user=b"])
        self.assertRaises(Refused, reached, [" "])

    def test_no_step_is_skipped(self) -> None:
        self.assertRaises(ValueError, Script().add, "DROP TABLE m0;")


class SameFile(Trial):
    """The source is never written to."""

    def setUp(self) -> None:
        super().setUp()
        os.symlink(PROGRAM, self.folder / "clio")
        path = os.environ["PATH"]
        self.addCleanup(os.environ.__setitem__, "PATH", path)
        os.environ["PATH"] = f"{self.folder}:{path}"
        self.file("mapping.clio", "mapping 1; source { set t { x, y; } } target { set t { p, n; } } line t.x -> t.p;")
        self.base("s.db", "CREATE TABLE t (x TEXT, y TEXT)", "INSERT INTO t VALUES ('1', 'kept')")

    def base(self, name: str, *statements: str) -> list[Any]:
        """Runs statements on a file; answers the rows of the last."""
        with contextlib.closing(sqlite3.connect(self.folder / name)) as base, base:
            return [base.execute(statement).fetchall() for statement in statements][-1]

    def test_source_and_target_are_two_files(self) -> None:
        os.link(self.folder / "s.db", self.folder / "hard.db")
        os.symlink("s.db", self.folder / "soft.db")
        for target in "s.db", "./s.db", "hard.db", "soft.db":
            self.refused("clio-sql", "sqlite", "s.db", target, why="are one file")
        self.assertEqual(self.base("s.db", "SELECT * FROM t"), [("1", "kept")])

    def test_a_table_of_others_is_refused(self) -> None:
        self.base("t.db", "CREATE TABLE t (mine TEXT)", "INSERT INTO t VALUES ('kept')")
        why = "has a table t with other columns, which clio-sql didn't make"
        self.refused("clio-sql", "sqlite", "s.db", "t.db", why=why)
        self.assertEqual(self.base("t.db", "SELECT * FROM t"), [("kept",)])

    def test_a_view_goes_on(self) -> None:
        self.printed("clio-sql", "sqlite", "s.db", "t.db")
        self.base("t.db", "CREATE VIEW v AS SELECT p FROM t", "CREATE INDEX i ON t (p)")
        self.base("s.db", "UPDATE t SET x = 'new'")
        self.printed("clio-sql", "sqlite", "s.db", "t.db")
        self.assertEqual(self.base("t.db", "SELECT * FROM v"), [("new",)])
        self.assertEqual(self.base("t.db", "SELECT name FROM sqlite_schema WHERE type = 'index'"), [("i",)])

    def test_a_clash_leaves_the_target(self) -> None:
        self.printed("clio-sql", "sqlite", "s.db", "t.db")
        self.file("mapping.clio", "mapping 1; source { set t { x, y; } } target { set t { p, q; key (p); } }"
                                  "line t.x -> t.p; line t.y -> t.q;")
        self.base("s.db", "INSERT INTO t VALUES ('1', 'other')")
        self.assertEqual(self.tool("clio-sql", "sqlite", "s.db", "t.db")[0], 3)
        self.assertEqual(self.base("t.db", "SELECT * FROM t"), [("1", "?0.0.0")])
        self.assertEqual(self.tool("clio-sql", "sqlite", "s.db", "none.db")[0], 3)
        self.assertFalse((self.folder / "none.db").exists())

    def test_a_target_in_use_is_left(self) -> None:
        self.printed("clio-sql", "sqlite", "s.db", "t.db")
        with contextlib.closing(sqlite3.connect(self.folder / "t.db")) as base:
            base.execute("BEGIN IMMEDIATE")
            self.refused("clio-sql", "sqlite", "s.db", "t.db", why="database is locked")

    def test_sql_is_printed_and_not_run(self) -> None:
        for core in MODES:
            printed = self.printed("clio-sql", "sqlite", *core, "--explain", "s.db", "none.db")
            self.assertIn('CREATE TABLE target."t" AS SELECT', printed)
        self.assertFalse((self.folder / "none.db").exists())
        printed = self.printed("clio-sql", "postgres", "--explain", "--core", "host=nowhere.invalid")
        self.assertIn("CREATE UNLOGGED TABLE", printed)

    def test_another_dialect_has_other_words_alone(self) -> None:
        self.file("mapping.clio", "mapping 2; source { set a { k, x; } } target { set t { k, x, y; key (k); } }\n"
                                  "only a.k numeric; line trim(a.k) -> t.k; line a.x -> t.x;")
        words = ["clio-sql", "postgres", "--core", "--explain"]
        mine, other = self.printed(*words), self.printed(*words, "--dialect", "duckdb")
        self.assertIn("-- It was never run: ", other)
        self.assertNotRegex(other, "COLLATE|UNLOGGED|ANALYZE|btrim| ~ |[^/]/ [0-9]")
        for one, another in (" COLLATE \"C\"", ""), (" COLLATE \"default\"", ""), ("UNLOGGED ", ""), ("btrim", "trim"):
            mine = mine.replace(one, another)
        kept = [line for line in mine.splitlines() if not line.startswith(("ANALYZE", "--"))]
        changed = [line.replace(" // ", " / ").replace(" (column1, column2)", "").replace(" (column1)", "")
                   for line in other.splitlines() if not line.startswith("--")]
        self.assertEqual([line for line in kept if " ~ " not in line],
                         [line for line in changed if "regexp_full_match" not in line])
        self.refused("clio-sql", "postgres", "--dialect", "duckdb", why="--dialect goes with --explain alone")


class Joins(unittest.TestCase):
    """Premises of many tables, in the order in which they are joined."""

    def text(self, count: int, equal: list[tuple[int, int]], chance: random.Random) -> str:
        """A premise as a script has it; each pair of tables is compared in some columns."""
        tables = ", ".join(f'source."t{chance.randrange(4)}" AS a{number}' for number in range(count))
        tests = " AND ".join(f'a{one}."c{chance.randrange(3)}" = a{other}."c{chance.randrange(3)}"'
                             for one, other in equal)
        return tables + " WHERE " * bool(tests) + tests

    def test_the_order_changes_nothing(self) -> None:
        chance = random.Random("joins")
        with contextlib.closing(sqlite3.connect(":memory:")) as base:
            base.execute("ATTACH ':memory:' AS source")
            for number in range(4):
                base.execute(f"CREATE TABLE source.t{number} (c0 TEXT, c1 TEXT, c2 TEXT)")
                base.executemany(f"INSERT INTO source.t{number} VALUES (?, ?, ?)",
                                 [[str(chance.randrange(3)) for _ in range(3)] for _ in range(2)])
            found = 0
            for _ in range(60):
                count = chance.randrange(1, FEW + 5)
                equal = [(chance.randrange(count), chance.randrange(count)) for _ in range(chance.randrange(count + 2))]
                text = self.text(count, equal, chance)
                join = Join(text)
                listed = ", ".join(f'a{number}."c{place}"' for number in range(count) for place in range(3))
                ordered = join.text({alias: f'source."{name}"' for alias, name in join.tables.items()})
                self.assertEqual(" JOIN " in ordered, count > FEW)
                self.assertEqual(sorted(part for ordered in join.parts() for part in ordered), sorted(join.tables))
                one, other = (sorted(base.execute(f"SELECT {listed} FROM {source}")) for source in (text, ordered))
                self.assertEqual(one, other, text)
                found += bool(one)
            self.assertGreater(found, 20)

    def test_each_after_one_that_it_is_compared_with(self) -> None:
        chain = [(number, number + 1) for number in range(8)]
        text = self.text(12, [*chain[4:], *chain[:4], (9, 11)], random.Random("chain"))
        self.assertEqual([*Join(text).parts()], [[f"a{number}" for number in range(9)], ["a9", "a11"], ["a10"]])
        join = Join(text)
        self.assertEqual(join.text(join.tables).count(" CROSS JOIN "), 2)


class Told(Trial):
    """What a person who waits sees on a terminal."""

    def test_steps_and_time_left(self) -> None:
        os.symlink(PROGRAM, self.folder / "clio")
        self.file("mapping.clio", "mapping 1; source { set a { k, x; } set b { k, y; } }\n"
                                  "target { set t { k, x, y; key (k); } }\n"
                                  "line a.k -> t.k; line a.x -> t.x; line b.k -> t.k; line b.y -> t.y;")
        with contextlib.closing(sqlite3.connect(self.folder / "s.db")) as base, base:
            for name in "ab":
                base.execute(f"CREATE TABLE {name} (k TEXT, v TEXT)")
                base.executemany(f"INSERT INTO {name} VALUES (?, ?)", [(str(row), "v") for row in range(500)])
            base.execute("ALTER TABLE a RENAME v TO x")
            base.execute("ALTER TABLE b RENAME v TO y")
        shown, terminal = pty.openpty()
        run = subprocess.Popen([sys.executable, "-B", TOOLS / "clio-sql", "sqlite", "s.db", "t.db"], cwd=self.folder,
                               stdout=subprocess.DEVNULL, stderr=terminal,
                               env={**os.environ, "PATH": f"{self.folder}:{os.environ['PATH']}"})
        self.assertEqual(run.wait(120), 0)
        os.close(terminal)
        said = os.read(shown, 65536).decode().replace("\r\n", "\n").splitlines()
        os.close(shown)
        first, *others, last = said
        self.assertRegex(first, r"^clio-sql: step 1, matches: 1,000 rows, [0-9.]+ s; about [0-9]+ s left$")
        self.assertTrue(all(" left" in line for line in others[:-1]), said)
        self.assertNotIn("left", last)

    def test_time_left_is_in_proportion(self) -> None:
        forecast = Forecast()
        self.assertIsNone(forecast.left("anything", 1))
        forecast = Forecast()
        forecast.expect({"matches": 10, "key of t": 20, "key of u": 5, "writing t": 30, "writing nulls": 10})
        for step, seconds, wanted in (("matches", 2, 13), ("key of t", 7, 9 / 30 * 45),
                                      ("writing t", 3, 12 / 60 * 10)):  # the key of u wasn't asked
            left = forecast.left(step, seconds)
            assert left is not None
            self.assertAlmostEqual(left, wanted)
        self.assertIsNone(forecast.left("writing nulls", 1))

    def test_rounded(self) -> None:
        self.assertEqual([rounded(seconds) for seconds in (.2, 99, 101, 5999, 6001)],
                         ["0 s", "99 s", "2 min", "100 min", "2 h"])


if __name__ == "__main__":
    unittest.main()
