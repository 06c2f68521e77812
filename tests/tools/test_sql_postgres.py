"""clio-sql in PostgreSQL: what it leaves alone, what it leaves behind, and how it ends if something goes wrong."""
import contextlib
import functools
import io
import os
import pathlib
import shutil
import signal
import subprocess
import sys
import threading
import time
import unittest
import unittest.mock
from typing import IO

from server import started
from servers import Postgres
from trial import MODES, PROGRAM, TOOLS, Trial

from clio_tools.csv import read_table
from clio_tools.databases.postgres import Session
from clio_tools.program import Refused
from clio_tools.sql import fetching, moving
from clio_tools.sql.command import exchange
from clio_tools.sql.postgres import Postgres as Engine
from clio_tools.sql.servers import Servers
from clio_tools.sql.session import Session as Logged

TWO = """mapping 1;
source { set a { k, x; } set b { k, y; } }
target { set t { k, x, y; key (k); } set u { x, z; } }
rule a(k, x) -> t(k, x, p), u(x, q);
rule b(k, y) -> t(k, o, y);
"""
SEVERAL = """mapping 1;
source { set emp { eid, name, dname; } set dept { dname, city; } set phone { eid, num; } }
target {
  set unit { uname, place; key (uname); set staff { sid, sname, phone; key (sid); } }
  set number { num, who; }
  set town { name, mayor, river; key (mayor); key (name); }
  set twin { a, b, c; key (a); }
}
rule dept(d, c) -> unit(u, d, c), town(c, d, r);
rule emp(e, n, d), dept(d, c) -> unit(u, d, c), staff(u, e, n, p), number(q, n);
rule phone(e, m), emp(e, n, d) -> staff(u, e, n, f), unit(u, d, c), number(m, n), twin(e, y, y);
rule emp(e, n, d) -> town(x, d, r), twin(e, n, z);
"""
SOURCE = {"emp": {"eid": "e{0}", "name": "n{2}", "dname": "d{1}"}, "dept": {"dname": "d{1}", "city": "c{1}"},
          "phone": {"eid": "e{2}", "num": "?{2}"}}
LISTED = {"unit": ["#id", "uname", "place"], "staff": ["#up", "sid", "sname", "phone"], "number": ["num", "who"],
          "town": ["name", "mayor", "river"], "twin": ["a", "b", "c"], "nulls": ["null", "variable", "value"],
          "fold": ["null", "value"]}
KEPT = contextlib.ExitStack()
SERVERS: list[Postgres] = []  # the one that is started
SESSIONS: list[list[str]] = [[], ["--sessions", "2"]]


def setUpModule() -> None:
    SERVERS.append(KEPT.enter_context(started()))


def tearDownModule() -> None:
    KEPT.close()


def said_by(run: subprocess.Popen[str]) -> IO[str]:
    """The standard error of a run."""
    assert run.stderr is not None
    return run.stderr


class Server(Trial):
    """A database with two source tables."""

    def setUp(self) -> None:
        super().setUp()
        os.symlink(PROGRAM, self.folder / "clio")
        path = os.environ["PATH"]
        self.addCleanup(os.environ.__setitem__, "PATH", path)
        os.environ["PATH"] = f"{self.folder}:{path}"
        self.place = SERVERS[0].place[0]
        self.session = Session(self.place, client_min_messages="error")
        self.addCleanup(self.session.close)
        self.session.run("DROP SCHEMA IF EXISTS source, target, clio CASCADE; DROP VIEW IF EXISTS v;"
                         "CREATE SCHEMA source;"
                         "CREATE TABLE source.a AS SELECT * FROM (VALUES ('1', 'one'), ('2', '?two')) AS v(k, x);"
                         "CREATE TABLE source.b AS SELECT * FROM (VALUES ('1', 'uno'), ('3', '')) AS v(k, y)")
        self.file("mapping.clio", TWO)

    def made(self, *words: str) -> tuple[str, str]:
        """What clio-sql prints, and says, if it ends with 0."""
        status, out, said = self.tool("clio-sql", "postgres", *words, self.place)
        self.assertEqual(status, 0, said)
        return out, said

    def target(self) -> list[list[tuple[str | None, ...]]]:
        """The rows of all tables."""
        return [sorted(self.session.rows(f"SELECT * FROM target.{name}")) for name in ("t", "u", "nulls", "fold")]

    def schemas(self) -> list[str | None]:
        """The schemas that runs leave behind."""
        return self.session.column("SELECT nspname FROM pg_namespace WHERE nspname LIKE 'clio%'")

    def begun(self, *words: str) -> subprocess.Popen[str]:
        """A run that was begun in the background."""
        command = [sys.executable, "-B", str(TOOLS / "clio-sql"), "postgres", *words, self.place]
        run = subprocess.Popen(command, cwd=self.folder, stdout=subprocess.DEVNULL, stderr=subprocess.PIPE, text=True,
                               preexec_fn=lambda: signal.signal(signal.SIGINT, signal.SIG_DFL))  # as on a terminal
        self.addCleanup(said_by(run).close)
        self.addCleanup(run.kill)
        return run

    def wait_until(self, query: str) -> None:
        """Waits until a query answers true."""
        end = time.monotonic() + 120
        while self.session.value(query) != "t":
            self.assertLess(time.monotonic(), end, query)
            time.sleep(0.1)


class Whole(Server):
    """The target changes whole, or not at all."""

    def test_equal_to_clio(self) -> None:
        for words in (mode + sessions for mode in MODES for sessions in SESSIONS):
            for name, columns in ("a", "kx"), ("b", "ky"):
                rows = "".join(f"{k},{x}\n" for k, x in self.session.rows(f"SELECT * FROM source.{name}"))
                self.file(f"{name}.csv", f"{','.join(columns)}\n{rows}")
            self.made(*words)
            self.assertEqual(self.clio("exchange", *(word for word in words if word == "--core"))[0], 0)
            listed = {"t": ["k", "x", "y"], "u": ["x", "z"], "nulls": ["null", "variable", "value"],
                      "fold": ["null", "value"]}
            written = [sorted(tuple(row) for row in read_table(self.folder / "out" / f"{name}.csv", named))
                       for name, named in listed.items()]
            self.assertEqual(self.target(), written)
            self.assertEqual(self.schemas(), [])

    def test_a_schema_of_others_stays(self) -> None:
        self.session.run("CREATE SCHEMA clio; CREATE TABLE clio.mine AS SELECT 1 AS one;"
                         "CREATE VIEW public.v AS SELECT * FROM clio.mine")
        self.made()
        self.made("--sessions", "2")
        self.assertEqual(self.session.value("SELECT one FROM public.v"), "1")
        self.session.run("DROP SCHEMA clio CASCADE")

    def test_what_hangs_on_the_target_goes_on(self) -> None:
        self.made()
        self.session.run("CREATE VIEW v AS SELECT x FROM target.u; CREATE INDEX i ON target.u (x);"
                         "CREATE TABLE target.mine AS SELECT 1 AS one;"
                         "UPDATE source.a SET x = 'new' WHERE k = '1'")
        for words in SESSIONS:
            self.made(*words)
            self.assertEqual(sorted(self.session.column("SELECT * FROM v")), ["??two", "new"])
            self.assertEqual(self.session.value("SELECT count(*) FROM pg_indexes WHERE schemaname = 'target'"), "1")
            self.assertEqual(self.session.value("SELECT one FROM target.mine"), "1")
        before = self.target()
        self.file("mapping.clio", TWO.replace("u { x, z; }", "u { x, w; }"))
        why = "something depends on target.u, which is to have other columns now"
        self.refused("clio-sql", "postgres", self.place, why=why)
        self.assertEqual(self.target(), before)

    def test_a_table_of_others_is_refused(self) -> None:
        self.session.run("CREATE SCHEMA target; CREATE TABLE target.u AS SELECT 'mine' AS mine")
        self.refused("clio-sql", "postgres", self.place, why="target.u is there")
        self.assertEqual(self.session.rows("SELECT * FROM target.u"), [("mine",)])
        self.assertEqual(self.session.column("SELECT tablename FROM pg_tables WHERE schemaname = 'target'"), ["u"])

    def test_functions_of_others_are_not_run(self) -> None:
        self.session.run("CREATE FUNCTION pg_try_advisory_lock(integer) RETURNS boolean LANGUAGE plpgsql AS"
                         " $$ BEGIN RAISE 'it ran'; END $$")
        self.addCleanup(self.session.run, "DROP FUNCTION public.pg_try_advisory_lock(integer)")
        self.made()

    def test_a_clash_leaves_the_target(self) -> None:
        self.made()
        before = self.target()
        for one, other in ("a\n-- clio-sql: done --\nb", "c"), ("\x1b[31m", "d"), ("a", 'b"\\'):
            self.session.run("DELETE FROM source.a WHERE k = '1'")
            self.session.run("INSERT INTO source.a VALUES ('1', %s), ('1', %s)", one, other)
            for words in SESSIONS:
                status, out, said = self.tool("clio-sql", "postgres", *words, self.place)
                self.assertEqual((status, out), (3, ""), said)
                self.assertIn("clash: table t, key (k): ", said)
                self.assertNotIn("\x1b", said)
                self.assertEqual((self.target(), self.schemas()), (before, []))


class Interrupted(Server):
    """Runs that end before their end."""

    def setUp(self) -> None:
        super().setUp()
        self.made()
        self.before = self.target()
        self.session.run("INSERT INTO source.a SELECT 'many' || i, 'x' || i FROM generate_series(1, 3000) AS i")
        self.reader = Session(self.place)
        self.addCleanup(self.reader.close)
        self.reader.run("BEGIN; LOCK TABLE target.nulls IN ACCESS SHARE MODE")  # the run waits for it at its end

    def waits(self) -> None:
        """Waits until the run waits for the reader."""
        self.wait_until("SELECT EXISTS (SELECT 1 FROM pg_locks WHERE NOT granted)")

    def left(self) -> None:
        """Nothing of the run is left."""
        self.reader.run("ROLLBACK")
        self.wait_until("SELECT NOT EXISTS (SELECT 1 FROM pg_locks WHERE locktype = 'advisory')")
        self.assertEqual(self.target(), self.before)

    def test_interrupted(self) -> None:
        ways = (0, signal.SIGINT, 130), (1, signal.SIGINT, 130), (0, signal.SIGTERM, 143)
        for sessions, number, status in ways:
            run = self.begun(*SESSIONS[sessions])
            self.waits()
            run.send_signal(number)
            self.assertEqual(run.wait(60), status, said_by(run).read())
            self.left()
            self.assertEqual(self.schemas(), [])
            self.reader.run("BEGIN; LOCK TABLE target.nulls IN ACCESS SHARE MODE")

    def test_killed(self) -> None:
        for words in SESSIONS:
            run = self.begun(*words)
            self.waits()
            run.kill()
            run.wait(60)
            self.left()
            self.reader.run("BEGIN; LOCK TABLE target.nulls IN ACCESS SHARE MODE")
        self.reader.run("ROLLBACK")
        self.made()  # which drops what the killed run had to leave
        self.assertEqual(self.schemas(), [])
        self.assertEqual(len(self.target()[1]), 3002)

    def test_a_second_run_is_refused(self) -> None:
        run = self.begun()
        self.waits()
        self.refused("clio-sql", "postgres", self.place, why="another run of clio-sql is under way in this database")
        self.reader.run("ROLLBACK")
        self.assertEqual(run.wait(60), 0)
        self.assertEqual(len(self.target()[1]), 3002)

    def test_a_lost_connection(self) -> None:
        run = self.begun()
        self.waits()
        self.session.run("SELECT pg_terminate_backend(pid) FROM pg_locks WHERE NOT granted")
        self.assertEqual(run.wait(60), 2)
        said = said_by(run).read()
        self.assertIn("; the target is as it was", said)
        self.assertTrue("the server was stopped" in said or "the connection is lost" in said, said)
        self.left()

    def test_one_state_of_the_source(self) -> None:
        self.reader.run("ROLLBACK")
        for words in SESSIONS:
            self.session.run("DELETE FROM source.a WHERE k LIKE 'more%'")
            self.reader.run("BEGIN; LOCK TABLE source.b IN ACCESS EXCLUSIVE MODE;"
                            "INSERT INTO source.b SELECT 'more' || i, 'y' FROM generate_series(1, 50) AS i")
            run = self.begun(*words)  # which reads a, and waits for b
            self.waits()
            self.reader.run("INSERT INTO source.a SELECT 'more' || i, 'z' FROM generate_series(1, 50) AS i; COMMIT")
            self.assertEqual(run.wait(60), 0, said_by(run).read())
            self.assertEqual(self.session.value("SELECT count(*) FROM target.t WHERE k LIKE 'more%'"), "0")
            self.session.run("DELETE FROM source.b WHERE k LIKE 'more%'")


class Sessions(Server):
    """Several sessions at once."""

    def setUp(self) -> None:
        super().setUp()
        self.engine = Engine(self.place, 2)
        self.addCleanup(self.engine.close)

    def test_what_does_not_meet_is_done_side_by_side(self) -> None:
        both = threading.Barrier(2)

        def work() -> int:
            both.wait(60)  # which nobody passes alone
            self.assertEqual(self.engine.side_by_side([lambda: 1, lambda: 2]), [1, 2])
            return int(self.engine.rows("SELECT pg_backend_pid()", [])[0][0])

        self.assertEqual(len(set(self.engine.side_by_side([work, work]))), 2)

    def test_the_first_that_fails_is_told(self) -> None:
        begun: list[int] = []
        both = threading.Barrier(2)

        def work(number: int) -> None:
            begun.append(number)
            if number < 2:
                both.wait(60)
                time.sleep(1 - number)  # the second one fails first
                raise Refused(f"work {number}")

        works = [functools.partial(work, number) for number in range(9)]
        self.assertRaisesRegex(Refused, "work 0", self.engine.side_by_side, works)
        self.assertEqual(sorted(begun), [0, 1])

    def test_clashes_side_by_side(self) -> None:
        self.engine.close()
        self.file("mapping.clio", TWO.replace("u { x, z; }", "u { x, z; key (x); }").replace("u(x, q)", "u(x, k)"))
        self.made("--sessions", "2")
        self.session.run("INSERT INTO source.a VALUES ('3', 'one')")
        status, out, said = self.tool("clio-sql", "postgres", "--sessions", "2", self.place)
        self.assertEqual((status, out), (3, ""))
        self.assertRegex(said, r'^clash: table u, key \(x\): "1" and "3" in column z\n$')


class Joined(Server):
    """A rule of many tables."""

    def test_many_tables(self) -> None:
        numbers = range(40)
        sets = "".join(f"set t{one} {{ k{one}, v{one}, n{one}; }}\n" for one in numbers)
        atoms = ", ".join(f"t{one}(k{one}, v{one}, k{one + 1})" for one in numbers)
        listed = ", ".join(f"v{one}" for one in numbers)
        self.file("mapping.clio", f"mapping 1;\nsource {{ {sets} }}\ntarget {{ set u {{ {listed}, w; }} }}\n"
                                  f"rule {atoms} -> u({listed}, more);\n")
        for one in numbers:
            self.session.run(f"CREATE TABLE source.t{one} AS SELECT i::text AS k{one}, 'v' || i AS v{one},"
                             f" ((i + 1) % 20)::text AS n{one} FROM generate_series(0, {19 + one % 3}) AS i")
        began = time.monotonic()
        self.assertEqual(self.made()[0], f"u 20\nnulls {20 * len(numbers)}\nfold 0\n")
        self.assertLess(time.monotonic() - began, 60)
        rows = self.session.rows("SELECT * FROM target.u ORDER BY w COLLATE \"C\"")
        wanted = sorted([f"v{(start + one) % 20}" for one in numbers] for start in range(20))
        self.assertEqual(sorted(list(row[:-1]) for row in rows), wanted)

    def test_the_order_is_taken_for_many_alone(self) -> None:
        session = Logged(self.place)
        self.addCleanup(session.close)
        joins = " JOIN ".join(f"source.a AS a{one} ON true" if one else "source.a AS a0" for one in range(8))
        limit = "SELECT setting FROM pg_settings WHERE name = 'join_collapse_limit'"
        for count, wanted in (7, "8"), (8, "1"):
            joins = " JOIN ".join(["source.a AS a0", *(f"source.a AS a{one} ON true" for one in range(1, count))])
            query = f"{limit} AND EXISTS (SELECT 1 FROM {joins})"
            self.assertEqual(session.values(query), [(wanted,)])
            self.assertEqual(session.values(limit), [("8",)])


SLEEPING = """import sys
from clio_tools.sql import command, fetching, moving
sys.argv[0], moving.MANY = 'clio-sql', 0
fetching.Fetched.statement = property(
    lambda self: f'COPY (SELECT q.* FROM ({self.query}) AS q, pg_sleep(300)) TO STDOUT (FORMAT binary)')
command.main()
"""
STAND_IN = """#!/bin/sh
# psql, but that it {what}
{before}exec "{psql}" "$@"{after}
"""


class Several(Server):
    """Three databases, as if each were a server of its own, and one that is asked."""
    NAMES = "asked", "part0", "part1", "part2"

    def setUp(self) -> None:
        super().setUp()
        for name in self.NAMES:
            self.session.run(f"DROP DATABASE IF EXISTS {name} WITH (FORCE)")
            self.session.run(f"CREATE DATABASE {name}")
        places = [self.place.replace("dbname=postgres", f"dbname={name}") for name in self.NAMES]
        self.place = places[0]
        self.file("servers.txt", "\n".join(places[1:]))
        self.parts = [Session(place) for place in places]
        for session in self.parts:
            self.addCleanup(session.close)
        self.session.close()
        self.session = self.parts[0]
        self.file("mapping.clio", SEVERAL)
        self.made("--servers", "servers.txt", "--source")
        for name, columns in SOURCE.items():
            rows = [[text.format(number, number % 3, number % 7) for text in columns.values()] for number in range(40)]
            self.file(f"{name}.csv", "".join(",".join(row) + "\n" for row in [list(columns), *rows]))
            self.session.copy_rows_in(f"source.{name}", rows)

    def schemas(self) -> list[str | None]:
        """The work schemas that are left anywhere."""
        return [name for session in self.parts
                for name in session.column("SELECT nspname FROM pg_namespace WHERE nspname LIKE 'clio\\_run%'")]

    def target(self) -> list[list[tuple[str | None, ...]]]:
        return [sorted(self.session.rows(f"SELECT * FROM target.{name}")) for name in LISTED]

    def written(self, *words: str) -> list[list[tuple[str, ...]]]:
        """What clio makes of the same."""
        self.assertEqual(self.clio("exchange", *words)[0], 0)
        return [sorted(tuple(row) for row in read_table(self.folder / "out" / f"{name}.csv", columns))
                for name, columns in LISTED.items()]

    def test_equal_to_clio(self) -> None:
        for words in MODES:
            self.made("--servers", "servers.txt", *words)
            self.assertEqual(self.target(), self.written(*words))
            self.assertEqual(self.schemas(), [])

    def test_a_source_where_the_servers_are_asked(self) -> None:
        self.session.run("CREATE TABLE public.emp AS SELECT * FROM source.emp; DROP TABLE source.emp;"
                         "CREATE VIEW source.emp AS SELECT * FROM public.emp")
        self.made("--servers", "servers.txt")
        self.assertEqual(self.target(), self.written())

    def test_a_clash_and_a_lost_server_leave_the_target(self) -> None:
        self.made("--servers", "servers.txt")
        before = self.target()
        self.session.run("INSERT INTO source.dept VALUES ('d1', 'elsewhere')")
        status, out, said = self.tool("clio-sql", "postgres", "--servers", "servers.txt", self.place)
        self.assertEqual((status, out), (3, ""), said)
        self.session.run("DELETE FROM source.dept WHERE city = 'elsewhere'")
        for ends, status in (self.interrupt, 130), (self.end_a_server, 2):
            other = self.parts[2]
            part = other.value("SELECT oid::regclass FROM pg_class WHERE relname = 'emp' AND relkind = 'r'")
            other.run(f"BEGIN; LOCK TABLE {part} IN ACCESS EXCLUSIVE MODE")
            run = self.begun("--servers", "servers.txt")
            self.wait_until("SELECT EXISTS (SELECT 1 FROM pg_locks WHERE NOT granted)")
            ends(run)
            self.assertEqual(run.wait(60), status)
            other.run("ROLLBACK")
            self.assertEqual(self.target(), before)
            if status == 130:
                self.assertEqual(self.schemas(), [])
        self.made("--servers", "servers.txt")  # which drops what the lost server kept
        self.assertEqual((self.target(), self.schemas()), (before, []))

    def counted_parts(self) -> list[str | None]:
        """How many tables with parts of a target each server has."""
        return [session.value("SELECT count(*) FROM pg_tables WHERE schemaname LIKE 'clio\\_%\\_target'")
                for session in self.parts[1:]]

    def test_a_killed_run_leaves_no_parts(self) -> None:
        self.made("--servers", "servers.txt")
        before = self.target()
        self.session.run("BEGIN; LOCK TABLE target.nulls IN ACCESS SHARE MODE")
        run = self.begun("--servers", "servers.txt")
        self.wait_until("SELECT EXISTS (SELECT 1 FROM pg_locks WHERE NOT granted)")
        run.kill()
        run.wait(60)
        self.session.run("ROLLBACK")
        self.wait_until("SELECT NOT EXISTS (SELECT 1 FROM pg_locks WHERE locktype = 'advisory')")
        self.assertEqual(self.counted_parts(), ["14"] * 3)
        self.assertEqual(self.target(), before)
        self.made("--servers", "servers.txt")
        self.assertEqual((self.counted_parts(), self.schemas()), (["7"] * 3, []))

    def test_a_commit_whose_answer_is_lost(self) -> None:
        """The target may have changed then, so its new parts stay."""
        commit = Logged.commit

        def lost(session: Logged) -> None:
            commit(session)
            raise Refused("the connection is lost")

        with unittest.mock.patch.object(Logged, "commit", lost), self.assertRaises(Refused):
            self.exchanged()
        self.assertEqual(self.target(), self.written())
        self.made("--servers", "servers.txt")
        self.assertEqual((self.counted_parts(), self.schemas()), (["7"] * 3, []))

    def test_a_foreign_server_that_leads_elsewhere(self) -> None:
        name = self.session.value("SELECT srvname FROM pg_foreign_server"
                                  " WHERE EXISTS (SELECT 1 FROM unnest(srvoptions) AS o WHERE o = 'dbname=part1')")
        for change in "SET dbname 'part2'", "ADD hostaddr '192.0.2.1'":
            self.session.run(f"ALTER SERVER {name} OPTIONS ({change})")
            self.refused("clio-sql", "postgres", "--servers", "servers.txt", self.place,
                         why=f"the foreign server {name} in the database that is asked leads elsewhere")
            self.session.run(f"ALTER SERVER {name} OPTIONS (SET dbname 'part1')")

    def test_work_of_another_run_stays(self) -> None:
        """A database that is asked may be a server of another run at the same time."""
        for session in self.parts[:2]:
            for name in "clio_run_abc_new", "clio_run_abc_0":
                session.run(f"CREATE SCHEMA {name}; COMMENT ON SCHEMA {name} IS"
                            " 'work tables of a run of clio-sql; they can be dropped when it has ended'")
        self.made("--servers", "servers.txt")
        self.assertEqual(self.schemas(), ["clio_run_abc_0", "clio_run_abc_new"])

    def test_a_server_that_refuses_leaves_the_target(self) -> None:
        self.made("--servers", "servers.txt")
        self.session.run("CREATE ROLE weak LOGIN")
        self.addCleanup(self.session.run, "DROP ROLE weak")
        places = (self.folder / "servers.txt").read_text()
        self.file("other.txt", places.replace("user=clio dbname=part1", "user=weak dbname=part1"))
        self.refused("clio-sql", "postgres", "--servers", "other.txt", self.place,
                     why="server 2 of the list: PostgreSQL: permission denied for database part1; the target is as it")
        self.assertEqual((self.target(), self.schemas()), (self.written(), []))
        self.file("other.txt", f"{places}\n{places.splitlines()[0]} port=5432")
        self.refused("clio-sql", "postgres", "--servers", "other.txt", self.place, why="or it is there twice")

    def exchanged(self, core: bool = False, many: int = 0) -> str:
        """Runs clio-sql here, with so many rows as many; what it prints with --verbose."""
        said: list[str] = []
        before = os.getcwd()
        os.chdir(self.folder)
        try:
            lines = (self.folder / "servers.txt").read_text().splitlines()
            with unittest.mock.patch.object(moving, "MANY", many), contextlib.redirect_stdout(io.StringIO()), \
                    contextlib.redirect_stderr(io.StringIO()):
                engine = Servers(self.place, lines, lambda sql, seconds, rows: said.append(sql))
                try:
                    exchange(engine, core)
                finally:
                    engine.close()
        finally:
            os.chdir(before)
        return "\n".join(said)

    def put_psql(self, what: str, before: str = "", after: str = "") -> None:
        """Puts a stand-in for psql on the path."""
        psql = shutil.which("psql", path=os.environ["PATH"].split(":", 1)[1])
        path = self.file("psql", STAND_IN.format(what=what, before=before, psql=psql, after=after))
        path.chmod(0o755)

    def test_rows_fetched_by_psql(self) -> None:
        for core in False, True:
            with unittest.mock.patch.object(fetching.Fetched, "logged", autospec=True,
                                            side_effect=fetching.Fetched.logged) as logged:
                said = self.exchanged(core)
            self.assertGreater(logged.call_count, 20)
            self.assertEqual(self.target(), self.written(*["--core"] * core))
            self.assertEqual(self.schemas(), [])
            self.assertIn("TO STDOUT (FORMAT binary)", said)
            self.assertRegex(said, "COPY came[0-9]+ FROM STDIN \\(FORMAT binary\\)")

    def test_texts_that_say_where_ranges_end(self) -> None:
        for text in "'; \\q\n\\.\n{0}", ":x :'x' $$ \\' {0}", "\\\\{0}\r\t\"é\u2028", "--{0}/*":
            rows = [[text.format(number), text.format(number % 7), "d1"] for number in range(30)]
            self.session.copy_rows_in("source.emp", rows)
        self.exchanged()
        fetched = self.target()
        self.assertEqual(len(fetched[list(LISTED).index("staff")]), 160)
        self.exchanged(many=1000)
        self.assertEqual(self.target(), fetched)

    def test_rows_without_psql(self) -> None:
        with unittest.mock.patch.object(fetching, "can_fetch", lambda session: False):
            self.exchanged()
        self.assertEqual(self.target(), self.written())
        self.put_psql("reaches no server", before='echo "psql: error: no server" >&2; exit 2\n')
        self.exchanged()
        self.assertEqual(self.target(), self.written())

    def test_psql_that_fails_leaves_the_target(self) -> None:
        self.made("--servers", "servers.txt")
        before = self.target()
        what = 'echo "psql:<stdin>:4: ERROR:  53100: could not extend file" >&2; exit 3'
        self.put_psql("fails amid the rows", after=f" | head -c 30\n{what}")
        why = "the disk of the server is full: PostgreSQL: could not extend file; the target is as it was"
        self.assertRaisesRegex(Refused, why, self.exchanged)
        self.put_psql("ends amid the rows", after=" | head -c 30")
        self.assertRaisesRegex(Refused, "; the target is as it was", self.exchanged)
        self.assertEqual((self.target(), self.schemas()), (before, []))

    def test_interrupted_while_psql_fetches(self) -> None:
        self.made("--servers", "servers.txt")
        before = self.target()
        self.file("many.py", SLEEPING)
        command = [sys.executable, "-B", "many.py", "postgres", "--servers", "servers.txt", self.place]
        asleep = ("SELECT {}EXISTS (SELECT 1 FROM pg_stat_activity WHERE application_name = 'psql' AND state = 'active'"
                  " AND query LIKE '%pg_sleep%')")
        for number, status in (signal.SIGINT, 130), (signal.SIGTERM, 143):
            run = subprocess.Popen(command, cwd=self.folder, stdout=subprocess.DEVNULL, stderr=subprocess.PIPE,
                                   text=True, env={**os.environ, "PYTHONPATH": str(TOOLS)},
                                   preexec_fn=lambda: signal.signal(signal.SIGINT, signal.SIG_DFL))
            self.addCleanup(said_by(run).close)
            self.addCleanup(run.kill)
            self.wait_until(asleep.format(""))
            run.send_signal(number)
            self.assertEqual(run.wait(60), status, said_by(run).read())
            self.wait_until(asleep.format("NOT "))
            self.assertEqual((self.target(), self.schemas()), (before, []))

    def test_psql_has_no_secret_in_its_words(self) -> None:
        session = Logged(f"{self.place} password=TOPSECRET")
        self.addCleanup(session.close)
        self.assertNotIn("SECRET", fetching.reached_again(session))
        self.assertEqual(fetching.environment(session)["PGPASSWORD"], "TOPSECRET")
        again = Session(fetching.reached_again(session))
        self.addCleanup(again.close)
        name = "SELECT current_database() || current_user"
        self.assertEqual(again.value(name), session.value(name))
        with contextlib.closing(fetching.Fetched(session, "", "SELECT pg_sleep(300)")) as fetched:
            words = pathlib.Path(f"/proc/{fetched.process.pid}/cmdline").read_text()
        self.assertNotIn("SECRET", words)
        self.assertNotIn("pg_sleep", words)
        self.assertNotEqual(fetched.process.returncode, None)

    def interrupt(self, run: subprocess.Popen[str]) -> None:
        """As Ctrl-C does."""
        run.send_signal(signal.SIGINT)

    def end_a_server(self, run: subprocess.Popen[str]) -> None:
        """Ends all sessions of a run on one server."""
        self.session.run("SELECT pg_terminate_backend(pid) FROM pg_stat_activity"
                         " WHERE datname = 'part1' AND application_name = 'clio' AND pid <> %s",
                         str(self.parts[2].connection.info.backend_pid))


class Secrets(Server):
    def test_no_password_is_told(self) -> None:
        words = f"{self.place} password=TOPSECRET dbname=none", "host=x passwd=TOPSECRET", "password=TOP SECRET"
        for connection in words:
            status, out, said = self.tool("clio-sql", "postgres", connection)
            self.assertEqual((status, out), (2, ""))
            self.assertNotIn("SECRET", said)

    def test_no_password_is_logged(self) -> None:
        for statement in "ALTER SYSTEM SET log_statement = 'all'", "SELECT pg_reload_conf()":
            self.session.run(statement)
        for statement in "SELECT pg_reload_conf()", "ALTER SYSTEM RESET log_statement":  # the last is done first
            self.addCleanup(self.session.run, statement)
        self.session.run("DROP DATABASE IF EXISTS part")
        self.session.run("CREATE DATABASE part")
        self.file("servers.txt", f"{self.place.replace('dbname=postgres', 'dbname=part')} password=TOPSECRET\n")
        self.session.run("DROP SCHEMA source CASCADE")
        self.made("--servers", "servers.txt", "--source")
        self.session.run("INSERT INTO source.a VALUES ('1', 'one')")
        out, _ = self.made("--servers", "servers.txt")
        self.assertEqual(out, "t 1\nu 1\nnulls 4\nfold 0\n")
        said = (SERVERS[0].base / "log").read_text(encoding="utf-8")
        self.assertIn("CREATE FOREIGN TABLE", said)
        self.assertNotIn("TOPSECRET", said)
        self.session.run("DROP SCHEMA source, target CASCADE; DROP EXTENSION postgres_fdw CASCADE;"
                         "DROP SCHEMA clio_servers CASCADE")
        for name in self.schemas():
            self.session.run(f"DROP SCHEMA {name} CASCADE")


class Disk(Server):
    def test_a_fault_of_the_server_leaves_the_target(self) -> None:
        self.made()
        before = self.target()
        self.session.run("ALTER DATABASE postgres SET temp_file_limit = 0")  # as a full disk, for what is sorted
        self.addCleanup(self.session.run, "ALTER DATABASE postgres RESET ALL")
        self.session.run("ALTER DATABASE postgres SET work_mem = '64kB';"
                         "INSERT INTO source.a SELECT 'many' || i, 'x' || i FROM generate_series(1, 20000) AS i")
        self.refused("clio-sql", "postgres", self.place, why="the target is as it was")
        self.assertEqual((self.target(), self.schemas()), (before, []))


if __name__ == "__main__":
    unittest.main()


