"""The databases on which the checks beside this file try the tools: a PostgreSQL server of its own in a temporary
folder, and SQLite.
"""
import contextlib
import csv
import glob
import io
import os
import pathlib
import pwd
import shutil
import sqlite3
import subprocess
from collections.abc import Sequence

from clio_tools import csv as clio_csv
from clio_tools import json as clio_json
from forked import ended
from clio_tools.mapping.text import Set, read_sets

MARK = "==== the next table ===="
Row = tuple[str, ...]


class Differs(Exception):
    pass


class LeftOut(Exception):
    pass


def output(command: Sequence[str | os.PathLike[str]], folder: pathlib.Path, text: str = "") -> str:
    run = subprocess.run(command, cwd=folder, input=text.encode(), capture_output=True, check=False)
    if run.returncode:
        raise Differs(f"{pathlib.Path(command[0]).name} ended with {run.returncode}: {run.stderr.decode()[:300]}")
    return run.stdout.decode()


def tool(name: str, *words: str, folder: pathlib.Path, text: str = "") -> str:
    """What a tool prints."""
    status, printed, said = ended(name, words, folder, text)
    if status:
        raise Differs(f"{name} ended with {status}: {said[:300]}")
    return printed


def rows_of(path: pathlib.Path) -> list[Row]:
    return [tuple(row) for row in clio_csv.read_records(path)][1:]


def parsed(text: str) -> list[Row]:
    """The records that a database printed as CSV; an empty line is a NULL."""
    return [tuple(row) or ("",) for row in csv.reader(io.StringIO(text, newline=""))]


def source_of(folder: pathlib.Path) -> tuple[list[Set], dict[str, list[list[str]]]]:
    """The tables of the source, and the rows of each by its name, whether they pass the conditions or not."""
    tables = read_sets((folder / "mapping.clio").read_text(encoding="utf-8"))["source"]
    rows: dict[str, list[list[str]]] = {}
    for table in tables:
        if table.inner and table.parent is None:
            path = folder / f"{table.name}.json"
            rows.update(clio_json.rows(path.read_bytes(), table, path))
        elif table.parent is None:
            rows[table.name] = [list(row) for row in rows_of(folder / f"{table.name}.csv")]
    return tables, rows


class Written:
    """A table of its own in the target: its name and its columns."""

    def __init__(self, name: str, *columns: str) -> None:
        self.name, self.columns = name, list(columns)


class Postgres:
    """A server on a socket in a temporary folder, as a user without rights."""

    def __init__(self, top: pathlib.Path, name: str = "postgres", settings: str = "") -> None:
        # Debian keeps the server's programs off the path
        found = shutil.which("initdb") or next(iter(sorted(glob.glob("/usr/lib/postgresql/*/bin/initdb"))), None)
        if not found or not shutil.which("psql"):
            raise LeftOut("initdb or psql is missing")
        self.programs = pathlib.Path(found).parent
        self.base = top / name
        self.place = [f"host={self.base} user=clio dbname=postgres"]
        self.base.mkdir()
        self.before: list[str] = []
        if os.getuid() == 0:
            names = {user.pw_name for user in pwd.getpwall()}
            user = "postgres" if "postgres" in names else "nobody"
            os.chown(self.base, pwd.getpwnam(user).pw_uid, -1)
            self.before = ["runuser", "-u", user, "--"]
        data = ["-D", str(self.base / "data")]
        output([*self.before, self.programs / "initdb", *data, "-U", "clio", "-A", "trust", "-E", "UTF8",
                "--locale=C.UTF-8"], self.base)
        options = f"-c listen_addresses='' -c unix_socket_directories={self.base} -c fsync=off {settings}"
        subprocess.run([*self.before, self.programs / "pg_ctl", *data, "-w", "-l", str(self.base / "log"), "-o",
                        options, "start"],
                       cwd=self.base, stdout=subprocess.DEVNULL, check=True)
        self.data = data

    def run(self, folder: pathlib.Path, text: str, stops: int = 1) -> str:
        words = ["psql", "-X", "-q", "-A", "-t", "-h", str(self.base), "-U", "clio", "-d", "postgres", "-v",
                 f"ON_ERROR_STOP={stops}"]
        return output(words, folder, text)

    def attempt(self, folder: pathlib.Path, text: str) -> str:
        """What is printed, with each statement tried though others fail."""
        return self.run(folder, text, stops=0)

    def load_source(self, folder: pathlib.Path) -> None:
        """The source files as tables."""
        self.load(folder, tool("clio-tables", "source", folder=folder))

    def name(self, table: str) -> str:
        return f'target."{table}"'

    def rows(self, folder: pathlib.Path, tables: Sequence[Set | Written]) -> list[list[Row]]:
        """The rows of each table."""
        script = ""
        for table in tables:
            cells = ", ".join(f'"{column}"::text' for column in table.columns)
            script += (f"COPY (SELECT {cells} FROM {self.name(table.name)})"
                       " TO STDOUT WITH (FORMAT csv, FORCE_QUOTE *);\n"
                       f"\\echo {MARK}\n")
        return [parsed(part) for part in self.run(folder, script).split(MARK + "\n")[:-1]]

    def clear(self, folder: pathlib.Path) -> None:
        self.run(folder, "SET client_min_messages = 'error'; DROP SCHEMA IF EXISTS source, target, clio CASCADE;")

    def load(self, folder: pathlib.Path, text: str) -> None:
        self.clear(folder)
        self.run(folder, text)

    def stop(self) -> None:
        subprocess.run([*self.before, self.programs / "pg_ctl", *self.data, "-m", "fast", "stop"], cwd=self.base,
                       stdout=subprocess.DEVNULL, check=False)


class Sqlite:
    place = ["source.db", "target.db"]

    def __init__(self) -> None:
        if not shutil.which("sqlite3"):
            raise LeftOut("sqlite3 is missing")

    def run(self, folder: pathlib.Path, text: str) -> str:
        return output(["sqlite3", "-batch", "target.db"], folder, text)

    def attempt(self, folder: pathlib.Path, text: str) -> str:
        """What is printed, with each statement tried though others fail."""
        text = "PRAGMA foreign_keys = ON;\n" + text
        return subprocess.run(["sqlite3", "-batch", "target.db"], cwd=folder, input=text.encode(), capture_output=True,
                              check=False).stdout.decode()

    def load_source(self, folder: pathlib.Path) -> None:
        """The source files as tables."""
        for name in self.place:
            (folder / name).unlink(missing_ok=True)
        tables, rows = source_of(folder)
        with contextlib.closing(sqlite3.connect(folder / "source.db")) as base, base:
            for table in tables:
                cells = ", ".join(f'"{column}" TEXT' for column in table.columns)
                base.execute(f"CREATE TABLE {self.name(table.name)} ({cells})")
                base.executemany(f"INSERT INTO {self.name(table.name)} VALUES ({', '.join('?' * len(table.columns))})",
                                 rows.get(table.name, ()))

    def name(self, table: str) -> str:
        return f'"{table}"'

    def load(self, folder: pathlib.Path, text: str) -> None:
        (folder / "target.db").unlink(missing_ok=True)
        self.run(folder, text)
        if self.run(folder, "PRAGMA foreign_key_check;"):
            raise Differs("SQLite's foreign keys do not hold")

    def rows(self, folder: pathlib.Path, tables: Sequence[Set | Written]) -> list[list[Row]]:
        """The rows of each table."""
        script = ".mode csv\n" + "".join(f"SELECT * FROM {self.name(table.name)};\n.print {MARK}\n" for table in tables)
        return [parsed(part) for part in self.run(folder, script).split(MARK + "\n")[:-1]]
