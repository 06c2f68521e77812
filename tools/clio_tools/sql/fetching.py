"""Rows that the program psql fetches from a server, in binary form: psycopg takes a call of Python for each row, and
psql none.

The statements go to psql by its standard input, and the password by its environment, so that no list of processes has
texts of the source or secrets.
"""
from __future__ import annotations

import contextlib
import os
import re
import shutil
import signal
import subprocess
import time
from collections.abc import Iterator
from typing import IO

from clio_tools.databases.postgres import Place
from clio_tools.sql.session import ORDERED, Session, joins_many

HELD = 1 << 20  # so many bytes wait between psql and the tool
PIECE = 1 << 18
PATIENCE = 10  # seconds in which psql ends when it is told to
SAID = re.compile(r": +(?=[A-Z]*[0-9])([0-9A-Z]{5}): +(.*)$", re.MULTILINE)  # what the server says, with its code


class Fetched:
    """The rows of a query, as the binary form of COPY has them."""

    def __init__(self, session: Session, begin: str, query: str) -> None:
        """Has psql run a query in a session like a given one; `begin` begins a transaction that sees what it is to
        see."""
        self.session, self.query, self.began = session, query, time.monotonic()
        self.process = subprocess.Popen(
            ["psql", "-X", "-q", "-w", "-v", "ON_ERROR_STOP=1", "-v", "VERBOSITY=verbose", "-v", "SHOW_CONTEXT=never",
             "-d", reached_again(session)],
            stdin=subprocess.PIPE, stdout=subprocess.PIPE, stderr=subprocess.PIPE, env=environment(session))
        session.helpers.add(self.process)
        hold_more(stream(self.process.stdout))
        statements = [session.settings, ORDERED * joins_many(query), begin, self.statement]
        with contextlib.suppress(BrokenPipeError), stream(self.process.stdin) as script:
            script.write("".join(f"{one};\n" for one in statements if one).encode("utf-8"))

    @property
    def statement(self) -> str:
        """What the server is asked."""
        return f"COPY ({self.query}) TO STDOUT (FORMAT binary)"

    def first(self) -> bytes:
        """The first piece; none if nothing was fetched, so that psql can be left out."""
        return os.read(stream(self.process.stdout).fileno(), PIECE)

    def pieces(self, first: bytes) -> Iterator[bytes]:
        """All of it, piece by piece."""
        piece = first
        while piece:
            yield piece
            piece = os.read(stream(self.process.stdout).fileno(), PIECE)
        said = stream(self.process.stderr).read().decode("utf-8", "replace")
        if self.process.wait():
            raise self.session.failed(*cause(said))

    def logged(self, rows: int) -> None:
        """Logs what was fetched."""
        self.session.log(self.statement, time.monotonic() - self.began, rows)

    def close(self) -> None:
        """Ends psql, and what the server does for it."""
        if self.process.poll() is None:
            self.process.send_signal(signal.SIGINT)  # upon which it has the server stop
        for pipe in self.process.stdout, self.process.stderr:
            stream(pipe).close()
        try:
            self.process.wait(PATIENCE)
        except subprocess.TimeoutExpired:
            self.process.kill()
            self.process.wait()
        self.session.helpers.discard(self.process)


def stream(pipe: IO[bytes] | None) -> IO[bytes]:
    """A pipe that is there."""
    assert pipe is not None
    return pipe


def hold_more(pipe: IO[bytes]) -> None:
    """Lets a pipe hold more than it does by itself, where that can be."""
    try:
        import fcntl
        fcntl.fcntl(pipe, fcntl.F_SETPIPE_SZ, HELD)
    except (ImportError, AttributeError, OSError):
        pass


def reached_again(session: Session) -> str:
    """How psql reaches the server that a session has reached, which may be one of several."""
    info = session.connection.info
    words = {**session.place.words, "host": info.host, "port": str(info.port), "dbname": info.dbname, "user": info.user}
    if "hostaddr" in words:
        words["hostaddr"] = info.hostaddr
    return Place(words, {}).shown()


def environment(session: Session) -> dict[str, str]:
    """What psql has in its environment."""
    password = session.place.secrets.get("password")
    return {**os.environ, **({"PGPASSWORD": password} if password is not None else {})}


def can_fetch(session: Session) -> bool:
    """Whether psql is there, and can have all that a session is begun with."""
    return shutil.which("psql") is not None and session.place.secrets.keys() <= {"password"}


def cause(said: str) -> tuple[str, str | None]:
    """What the server says in what psql says, and its code for that."""
    found = SAID.findall(said)
    return (f"PostgreSQL: {found[-1][1]}", found[-1][0]) if found else (" ".join(said.split()) or "psql ended", None)


def hand_over(giving: tuple[Session, str], query: str, taking: Session, table: str, is_many: bool) -> int:
    """Copies the rows of a query into a table of another session; answers their number. Many are fetched by psql if it
    can; the giving session is given with what begins a transaction that sees what it sees."""
    session, begin = giving
    if is_many and can_fetch(session):
        with contextlib.closing(Fetched(session, begin, query)) as fetched:
            first = fetched.first()
            if first:
                rows = taking.take(table, fetched.pieces(first))
                fetched.logged(rows)
                return rows
    return session.give(query, taking, table)
