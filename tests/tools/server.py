"""A PostgreSQL server for the tests of a module: its own, in a temporary folder. What is missing for that is said, and
the tests are left out.
"""
import contextlib
import pathlib
import tempfile
import unittest
from collections.abc import Iterator
from typing import NoReturn

from clio_tools.databases import postgres
from servers import LeftOut, Postgres


@contextlib.contextmanager
def started() -> Iterator[Postgres]:
    """A server, and how it is reached."""
    if postgres.is_missing():
        left_out("psycopg is missing")
    with tempfile.TemporaryDirectory() as name:
        top = pathlib.Path(name)
        top.chmod(0o755)
        try:
            server = Postgres(top)
        except LeftOut as why:
            left_out(why)
        try:
            yield server
        finally:
            server.stop()


def left_out(why: object) -> NoReturn:
    print(f"tools: tests on PostgreSQL are left out, since {why}", flush=True)
    raise unittest.SkipTest(str(why))
