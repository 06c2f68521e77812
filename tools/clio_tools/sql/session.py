"""A session of a PostgreSQL server: it logs its statements, and says of what goes wrong what became of the target."""
import contextlib
import signal
import subprocess
import threading
import time
from collections.abc import Callable, Iterable, Iterator, Sequence
from typing import TYPE_CHECKING, Any, TypeVar, cast

from clio_tools.databases import postgres
from clio_tools.sql.joining import FEW
from clio_tools.sql.work import Row

if TYPE_CHECKING:
    import psycopg

CAUSES = {
    "53100": "the disk of the server is full",
    "53200": "the server is out of memory",
    "55P03": "a table that is to be replaced was in use for more than a minute",
    "40P01": "another session and this one waited for each other",
    "57014": "the statement was cancelled",
    "57P01": "the server was stopped",
    "57P02": "the server has crashed",
}
ORDERED = "SET join_collapse_limit = 1"
Log = Callable[[str, float, int], None]  # a statement, its seconds and its rows
Answer = TypeVar("Answer")


def unlogged(sql: str, seconds: float, rows: int) -> None:
    """Logs nothing."""


def joins_many(sql: str) -> bool:
    """Whether a statement joins many tables, in an order that is good."""
    return sql.count(" JOIN ") >= FEW


class Session(postgres.Session):
    """A session in which each statement is a transaction of its own, unless one is begun. A statement whose client is
    gone ends."""

    def __init__(self, connection: str | postgres.Place | None, log: Log = unlogged, which: str = "") -> None:
        """Begins a session; what goes wrong is reported with `which` before it, which says of several servers which
        one this is."""
        self.log, self.which, self.fate = log, which, ""
        self.helpers: set[subprocess.Popen[bytes]] = set()  # programs that ask the same server for this session
        self.giving = threading.Lock()  # held while its rows are read
        self.settings = ""
        super().__init__(connection, search_path="")  # so that no function of somebody else is taken for the server's
        if self.connection.info.server_version >= 140000:
            self.attempt("SET client_connection_check_interval = '5s'")
        self.fate = "; the target is as it was"

    def _error(self, error: "psycopg.Error") -> postgres.DatabaseError:
        """What the server says, before it the cause in plain words, and after it what became of the target."""
        found = super()._error(error)
        return self.failed(found.cause, found.sqlstate)

    def failed(self, said: str, sqlstate: str | None) -> postgres.DatabaseError:
        """What a server said, before it the cause in plain words, and after it what became of the target."""
        cause = CAUSES.get(sqlstate or "")
        if not cause and sqlstate is None and self.fate:
            cause = "the connection is lost"
        return postgres.DatabaseError(self.which + (f"{cause}: {said}" if cause else said) + self.fate, sqlstate)

    def begin_with(self, settings: str) -> None:
        """Runs statements that its helpers run too."""
        self.settings = settings
        self.made(settings)

    def asked(self, sql: str) -> "psycopg.Cursor[Any]":
        """Runs statements; of one that joins many tables the order is as it is written."""
        began, has_order = time.monotonic(), joins_many(sql)
        if has_order:
            self.run(ORDERED)
        with self._told():
            cursor = self.connection.execute(cast(Any, sql))
        if has_order:
            self.run("RESET join_collapse_limit")
        self.log(sql, time.monotonic() - began, cursor.rowcount)
        return cursor

    def made(self, sql: str) -> int:
        """Runs a statement; answers how many rows it made, or -1."""
        return self.asked(sql).rowcount

    def values(self, query: str) -> Sequence[Row]:
        """The rows of a query, with numbers as numbers."""
        cursor = self.asked(query)
        with self._told():
            return cursor.fetchall()

    def copy_rows_in(self, target: str, rows: Iterable[Iterable[str | None]]) -> int:
        """Puts rows of texts, with None for NULL, into a table; answers their number."""
        began = time.monotonic()
        count = super().copy_rows_in(target, rows)
        self.log(f"COPY {target} FROM STDIN", time.monotonic() - began, count)
        return count

    def take(self, table: str, pieces: Iterator[bytes]) -> int:
        """Puts rows into a table, which come in the binary form of COPY; answers their number."""
        began = time.monotonic()
        rows = self.copy_in(table, pieces, "FORMAT binary")
        self.log(f"COPY {table} FROM STDIN (FORMAT binary)", time.monotonic() - began, rows)
        return rows

    def give(self, query: str, other: "Session", table: str) -> int:
        """Copies the rows of a query into a table of another session; answers their number. The bytes are handed on as
        they come."""
        statement, began = f"COPY ({query}) TO STDOUT (FORMAT binary)", time.monotonic()
        with self.giving, contextlib.closing(self.sent(statement)) as pieces:
            rows = other.take(table, pieces)
        self.log(statement, time.monotonic() - began, rows)
        return rows

    def cancel(self) -> None:
        """Has the server stop what it runs for this session, and for its helpers."""
        for helper in list(self.helpers):
            helper.send_signal(signal.SIGINT)
        super().cancel()

    def commit(self) -> None:
        """Ends what was begun, with all that was done."""
        self.fate = "; whether the target has changed is not known, so run it again"
        self.made("COMMIT")
        self.fate = "; the target has changed"

    def attempt(self, sql: str) -> bool:
        """Runs a statement that may fail; answers whether it was run."""
        try:
            self.run(sql)
        except postgres.DatabaseError:
            return False
        return True


def at_once(works: Sequence[Callable[[], Answer]], sessions: Sequence[Session]) -> list[Answer]:
    """What works answer that are done at once; an interrupt cancels what the sessions run."""
    answers: dict[int, Answer] = {}
    failed: list[BaseException] = []

    def done(number: int) -> None:
        try:
            answers[number] = works[number]()
        except BaseException as error:
            failed.append(error)

    threads = [threading.Thread(target=done, args=(number,)) for number in range(len(works))]
    for thread in threads:
        thread.start()
    try:
        for thread in threads:
            thread.join()
    except BaseException as error:
        failed.insert(0, error)
        while any(thread.is_alive() for thread in threads):  # one may have been between two statements
            for session in sessions:
                session.cancel()
            for thread in threads:
                thread.join(0.2)
    if failed:
        raise failed[0]
    return [answers[number] for number in range(len(works))]
