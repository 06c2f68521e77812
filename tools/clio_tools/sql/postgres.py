"""PostgreSQL: one transaction on one snapshot, or several sessions on one snapshot, and a target that changes in one
transaction or not at all."""
import functools
import secrets
import threading
from collections.abc import Callable, Sequence
from typing import TypeVar

from clio_tools.databases.postgres import literal
from clio_tools.program import Refused
from clio_tools.sql.moving import by_hash
from clio_tools.sql.session import Log, Session, at_once, unlogged
from clio_tools.sql.words import POSTGRES
from clio_tools.sql.work import Made, Row, Whole

Answer = TypeVar("Answer")
LOCK = 0x636C696F  # the number of the lock that a run holds in its database
UNLOCK = "SELECT pg_advisory_unlock_all()"  # as a server ends a session only after its client has gone on
WORK = "work tables of a run of clio-sql; they can be dropped when it has ended"
MADE = "made by clio-sql"
# no nested loops: with LIMIT 1, or before there are statistics, they are planned for millions of rows
SETTINGS = ("SET client_min_messages = warning; SET client_encoding = 'UTF8'; SET standard_conforming_strings = on;"
            " SET default_statistics_target = 10; SET enable_nestloop = off; SET jit = off;"
            " SET max_parallel_workers_per_gather = 0")
# of a table of the target: whether it is one, whether clio-sql made it, whether it is in one piece, its columns, and
# whether anything depends on it: rights, views, indexes, a comment
THERE = """SELECT c.relkind IN ('r', 'p'), coalesce(obj_description(c.oid, 'pg_class') = {made}, false),
 c.relkind = 'r', ARRAY(SELECT attname::text FROM pg_attribute WHERE attrelid = c.oid AND attnum > 0
  AND NOT attisdropped ORDER BY attnum),
 c.relacl IS NOT NULL
  OR EXISTS (SELECT 1 FROM pg_depend WHERE refclassid = 'pg_class'::regclass AND refobjid = c.oid
   AND deptype IN ('n', 'a'))
  OR EXISTS (SELECT 1 FROM pg_description WHERE classoid = 'pg_class'::regclass AND objoid = c.oid
   AND description <> {made})
FROM pg_class AS c JOIN pg_namespace AS n ON n.oid = c.relnamespace WHERE n.nspname = 'target' AND c.relname = {name}"""
# schemas of runs: those of runs that ask this database, or else those in which it has parts of tables, as they are held
# by locks of their own
LEFT = """SELECT nspname::text FROM pg_namespace
 WHERE nspname ~ '^clio_run_[0-9a-f]+{kind}$' AND obj_description(oid, 'pg_namespace') = {work}
 AND pg_has_role(nspowner, 'USAGE') AND NOT starts_with(nspname, {but})"""
OF_ASKING, OF_PARTS = "(_new|_[0-9]+_link)?", "_[0-9]+"


class Postgres(Whole):
    """One PostgreSQL database. With one session the whole run is one transaction, of which nothing is left if it
    fails."""
    words = POSTGRES
    is_plan = False

    def __init__(self, connection: str | None, sessions: int = 1, log: Log = unlogged) -> None:
        self.schema = f"clio_run_{secrets.token_hex(6)}"
        self.is_one_snapshot = sessions == 1
        self.prepared: list[tuple[str, Sequence[str], Sequence[str]]] = []
        self.counts: dict[str, int] = {}
        self.refilled: dict[str, bool] = {}  # whether a table that is there keeps its place, as something depends on it
        self.sessions: list[Session] = []
        self.here = threading.local()  # has the session of a thread, if it isn't the first one
        try:
            self.sessions = [Session(connection, log) for _ in range(sessions)]
            self.lock()
            self.drop_left()
            self.begin()
        except BaseException:
            self.close()
            raise

    def lock(self) -> None:
        """Keeps a second run out of the database."""
        if not self.one.values(f"SELECT pg_try_advisory_lock({LOCK})")[0][0]:
            raise Refused("another run of clio-sql is under way in this database")

    def drop_left(self) -> None:
        """Drops what a run that was killed left."""
        for name in self.left():
            self.one.made(f'DROP SCHEMA "{name}" CASCADE')

    def left(self) -> list[str]:
        """The schemas of other runs that asked this database; none of them is under way."""
        query = LEFT.format(kind=OF_ASKING, work=literal(WORK), but=literal(self.schema))
        return [name for name, in self.one.values(query)]

    def begin(self) -> None:
        """Makes the schemas of the run."""
        for session in self.sessions:
            session.made(SETTINGS)
        if self.is_one_snapshot:
            self.one.made("BEGIN ISOLATION LEVEL REPEATABLE READ")
        for name in self.schema, self.made_in:
            self.one.made(f"CREATE SCHEMA {name}; COMMENT ON SCHEMA {name} IS {literal(WORK)}")
        for session in self.sessions:
            session.made(f"SET search_path = {self.schema}")

    @property
    def one(self) -> Session:
        """The session of this thread."""
        session: Session = getattr(self.here, "session", self.sessions[0])
        return session

    @property
    def made_in(self) -> str:
        """The schema in which the tables of the target are made."""
        return f"{self.schema}_new"

    def prepare(self, tables: dict[str, list[str]]) -> None:
        for name, columns in tables.items():
            found = self.one.values(THERE.format(made=literal(MADE), name=literal(name)))
            if found:
                is_table, is_made, is_plain, there, is_hung = found[0]
                if not is_table or (not is_made and there != columns):
                    raise Refused(f"target.{name} is there, and is no table of these columns that clio-sql could"
                                  " replace: rename it, or drop it")
                if is_hung and is_plain and there != columns:
                    raise Refused(f"something depends on target.{name}, which is to have other columns now:"
                                  " drop that first, as a view or an index")
                self.refilled[name] = is_hung and is_plain

    def run(self, sql: str) -> int:
        return self.one.made(sql)

    def rows(self, sql: str, assumed: Sequence[Row]) -> Sequence[Row]:
        return self.one.values(sql)

    def make(self, table: Made) -> int:
        create, analyze = made(table)
        rows = self.one.made(create)
        self.one.made(analyze)
        return rows

    def make_all(self, tables: Sequence[Made]) -> list[int]:
        if self.is_one_snapshot:
            return [self.make(table) for table in tables]
        self.one.made("BEGIN ISOLATION LEVEL REPEATABLE READ")
        snapshot = self.one.values("SELECT pg_export_snapshot()")[0][0]
        for session in self.sessions[1:]:
            session.made(f"BEGIN ISOLATION LEVEL REPEATABLE READ; SET TRANSACTION SNAPSHOT '{snapshot}'")
        rows = self.together(["; ".join(made(table)) for table in tables])  # of the first statement of each
        for session in reversed(self.sessions):
            session.made("COMMIT")
        return rows

    def together(self, statements: Sequence[str]) -> list[int]:
        """Runs statements that don't depend on each other, on all sessions at once; answers the rows of each."""
        return self.side_by_side([functools.partial(self.run, sql) for sql in statements])

    def side_by_side(self, works: Sequence[Callable[[], Answer]]) -> list[Answer]:
        """What works answer, done by all sessions at once. An interrupt, or one that fails, ends them all; of several
        that fail the first one is told."""
        if len(self.sessions) < 2 or len(works) < 2 or hasattr(self.here, "session"):
            return [work() for work in works]
        waiting, answers = list(enumerate(works))[::-1], dict[int, Answer]()
        failed: dict[int, Exception] = {}
        lock = threading.Lock()

        def work(session: Session) -> None:
            self.here.session = session
            while True:
                with lock:
                    if not waiting or failed:
                        return
                    number, one = waiting.pop()
                try:
                    answers[number] = one()
                except Exception as error:
                    failed[number] = error

        at_once([functools.partial(work, session) for session in self.sessions], self.sessions)
        if failed:
            raise failed[min(failed)]
        return [answers[number] for number in range(len(works))]

    def split(self, by: Sequence[str]) -> Sequence[str]:
        count = len(self.sessions)
        return by_hash([(column, column.startswith("c")) for column in by], count) if by and count > 1 else []

    def load(self, name: str, columns: Sequence[str], rows: Sequence[Row]) -> None:
        self.one.made(f"CREATE {self.words.table} {name} ({', '.join(columns)})")
        self.one.copy_rows_in(name, ([None if cell is None else str(cell) for cell in row] for row in rows))
        self.one.made(f"ANALYZE {name}")

    def write(self, name: str, columns: Sequence[str], parts: Sequence[str]) -> None:
        self.prepared.append((name, columns, parts))
        if self.is_one_snapshot:
            kind = "VIEW" if self.refilled.get(name) else "TABLE"
            self.counts[name] = self.one.made(f'CREATE {kind} {self.made_in}."{name}" AS {" UNION ALL ".join(parts)}')

    def publish(self) -> dict[str, int]:
        if not self.is_one_snapshot:
            self.write_together()
            self.one.made("BEGIN")
        self.one.made("SET LOCAL lock_timeout = '60s'")
        if not self.one.values("SELECT 1 FROM pg_namespace WHERE nspname = 'target'"):
            self.one.made("CREATE SCHEMA target")
        for name, columns, _ in self.prepared:
            self.put(name, columns)
        self.one.made(f"DROP SCHEMA {self.schema} CASCADE; DROP SCHEMA {self.made_in} CASCADE")
        self.one.commit()
        return self.counts

    def write_together(self) -> None:
        """Fills the tables of the target by all sessions."""
        self.together([f'CREATE TABLE {self.made_in}."{name}" AS {parts[0]} WITH NO DATA'
                       for name, _, parts in self.prepared])
        rows = self.together([f'INSERT INTO {self.made_in}."{name}" {part}'
                              for name, _, parts in self.prepared for part in parts])
        for name, _, parts in self.prepared:
            self.counts[name] = sum(rows[:len(parts)])
            rows = rows[len(parts):]

    def put(self, name: str, columns: Sequence[str]) -> None:
        """Puts what was made in the place of what is there: its rows alone, if something depends on the table."""
        if self.refilled.get(name):
            listed = ", ".join(f'"{column}"' for column in columns)
            self.one.made(f'TRUNCATE target."{name}"')
            self.counts[name] = self.one.made(f'INSERT INTO target."{name}" ({listed})'
                                              f' SELECT * FROM {self.made_in}."{name}"')
            return
        self.one.made(f'DROP TABLE IF EXISTS target."{name}"; ALTER TABLE {self.made_in}."{name}" SET SCHEMA target;'
                     f' COMMENT ON TABLE target."{name}" IS {literal(MADE)}')

    def close(self) -> None:
        for session in self.sessions:
            session.attempt("ROLLBACK")
        if self.sessions and not self.is_one_snapshot:
            self.sessions[0].attempt(f"DROP SCHEMA IF EXISTS {self.schema}, {self.made_in} CASCADE")
        for session in self.sessions:
            session.attempt(UNLOCK)
            session.close()


def made(table: Made) -> tuple[str, str]:
    """The statements that make a work table."""
    return f"CREATE {POSTGRES.table} {table.name} AS {table.query}", f"ANALYZE {table.name}"
