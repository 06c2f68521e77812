"""PostgreSQL, reached by psycopg 3: the one module that speaks to it.

A session is begun by what libpq takes: the name of a database, a URI, or words such as `host=db1 dbname=shop`; what
they leave out comes from the environment, the service and password files. Values are texts, as PostgreSQL writes them,
and None is NULL. No message has a password in it.
"""
from __future__ import annotations

import contextlib
import re
import select
import sys
from collections.abc import Generator, Iterable, Iterator
from typing import IO, TYPE_CHECKING, Any, NamedTuple, cast

from clio_tools.program import Refused, stop_by_exception

if TYPE_CHECKING:
    import psycopg

MISSING = (f"PostgreSQL is reached by psycopg 3, which {sys.executable} doesn't have: pip install 'psycopg[binary]'"
           " (Debian: python3-psycopg, for /usr/bin/python3)")
UNREADABLE = ("the connection is neither a database's name, nor a URI postgresql://.., nor words such as host=db1"
              " dbname=shop")
SECRETS = "password", "sslpassword"
ESCAPES = {"b": "\b", "f": "\f", "n": "\n", "r": "\r", "t": "\t", "v": "\v"}
ESCAPE = re.compile(r"\\(.)", re.DOTALL)
COPIED = {"\\": "\\\\", "\n": "\\n", "\r": "\\r", "\t": "\\t"}
TO_COPY = re.compile(r"[\\\n\r\t]")
PIECE = 1 << 16  # so many bytes are sent at once

Row = tuple[str | None, ...]


class DatabaseError(Refused):
    """What a database refuses, or why it isn't reached; `sqlstate` is its code for that, if it has one."""

    def __init__(self, cause: str, sqlstate: str | None = None) -> None:
        super().__init__(cause)
        self.cause = cause
        self.sqlstate = sqlstate


class Unmade(Exception):
    """What should be copied into a table was not made."""


class Place(NamedTuple):
    """How a database is reached: what libpq's words say, without the secrets, and the secrets."""

    words: dict[str, str]
    secrets: dict[str, str]

    def shown(self) -> str:
        """The words as libpq reads them, without secrets."""
        return " ".join(f"{word}={quoted_word(value)}" for word, value in self.words.items())


def quoted_word(value: str) -> str:
    """A value of a connection's words, in quotes if it needs them."""
    if value and not re.search(r"[\s'\\]", value):
        return value
    return "'" + value.replace("\\", "\\\\").replace("'", "\\'") + "'"


def library() -> Any:
    """The module psycopg, which only those need who reach PostgreSQL."""
    try:
        import psycopg
    except ImportError:
        raise Refused(MISSING) from None
    return psycopg


def is_missing() -> bool:
    """Whether psycopg is missing."""
    try:
        library()
    except Refused:
        return True
    return False


def place_of(connection: str | None) -> Place:
    """How a database is reached, by what libpq takes. What is none of that is refused without its text, as it may hold
    a password.
    """
    text = connection or ""
    if "=" not in text and not text.startswith(("postgresql://", "postgres://")):
        return Place({"dbname": text} if text else {}, {})
    library()
    from psycopg.conninfo import conninfo_to_dict
    try:
        words = {word: str(value) for word, value in conninfo_to_dict(text).items()}
    except (library().Error, UnicodeError):
        raise Refused(UNREADABLE) from None
    secrets = {word: words.pop(word) for word in SECRETS if word in words}
    return Place(words, secrets)


def identifier(name: str) -> str:
    """A name, as a word of SQL."""
    return '"' + name.replace('"', '""') + '"'


def literal(text: str) -> str:
    """A text, as a word of SQL."""
    return (" E" if "\\" in text else "") + "'" + text.replace("\\", "\\\\").replace("'", "''") + "'"


def copied(cell: str | None) -> str:
    """A cell of the copy format."""
    return "\\N" if cell is None else TO_COPY.sub(lambda found: COPIED[found[0]], cell)


def uncopied(cell: str) -> str | None:
    """The text of a cell of the copy format, or None for NULL."""
    if "\\" not in cell:
        return cell
    return None if cell == "\\N" else ESCAPE.sub(lambda found: ESCAPES.get(found[1], found[1]), cell)


class Session:
    """A session of PostgreSQL. Each statement is its own transaction, but for those within `transaction`."""

    def __init__(self, connection: str | Place | None = None, **settings: str) -> None:
        """Begins a session, with these settings of the server; `connection` is what libpq takes."""
        connect = library().connect
        stop_by_exception()
        self.place = connection if isinstance(connection, Place) else place_of(connection)
        words: dict[str, Any] = {**self.place.words, **self.place.secrets, "client_encoding": "UTF8"}
        words.setdefault("fallback_application_name", "clio")
        with self._told():
            self.connection: psycopg.Connection[Any] = connect(**words, autocommit=True)
            self.connection.prepare_threshold = None
        for name, value in settings.items():
            self.run(f"SET {name} = {literal(value)}")

    @contextlib.contextmanager
    def _told(self) -> Iterator[None]:
        """What goes wrong with the database is told as a DatabaseError."""
        try:
            yield
        except library().Error as error:
            raise self._error(error) from None
        except UnicodeDecodeError:
            raise DatabaseError("the database has a text that is not UTF-8", "22021") from None
        except UnicodeEncodeError:
            raise DatabaseError("a text is not UTF-8, and PostgreSQL takes no other", "22021") from None

    def _error(self, error: psycopg.Error) -> DatabaseError:
        """What the server says, in one line, with the detail and the hint that it gives."""
        diagnosis = error.diag
        parts = [diagnosis.message_primary or str(error), diagnosis.message_detail, diagnosis.message_hint]
        cause = "; ".join(" ".join(part.split()) for part in parts if part)
        for secret in self.place.secrets.values():
            cause = cause.replace(secret, "..") if secret else cause
        return DatabaseError(f"PostgreSQL: {cause}", error.sqlstate)

    def run(self, sql: str, *values: str | None) -> int:
        """Runs a statement, or several if there are no values for `%s`; answers how many rows the last one changed or
        gave.
        """
        with self._told():
            cursor = self.connection.execute(cast(Any, sql), values or None)
            while cursor.nextset():
                pass
            return cursor.rowcount

    def rows(self, sql: str, *values: str | None) -> list[Row]:
        """The rows of a query, as texts; they are all held, so great ones are read by `copied_rows`."""
        with self._told():
            result = self.connection.execute(cast(Any, sql), values or None).pgresult
            if result is None:
                return []
            columns = range(result.nfields)
            return [tuple(text_of(result.get_value(row, column)) for column in columns)
                    for row in range(result.ntuples)]

    def column(self, sql: str, *values: str | None) -> list[str | None]:
        """The first column of the rows of a query."""
        return [row[0] for row in self.rows(sql, *values)]

    def value(self, sql: str, *values: str | None) -> str | None:
        """The first cell of the rows of a query, or None if there is no row."""
        return next(iter(self.column(sql, *values)), None)

    @contextlib.contextmanager
    def transaction(self, begin: str = "BEGIN") -> Iterator[None]:
        """What is done within is done whole, or not at all if an exception leaves it."""
        self.run(begin)
        try:
            yield
        except BaseException:
            with contextlib.suppress(DatabaseError):
                self.run("ROLLBACK")
            raise
        with self._told():
            ended = self.connection.execute("COMMIT").statusmessage
        if ended != "COMMIT":
            raise DatabaseError("PostgreSQL: the transaction was not committed, since a statement in it had failed",
                                "25P02")

    def copied_rows(self, query: str) -> Iterator[Row]:
        """The rows of a query as texts, one after the other; each query's have to be read before the next statement."""
        for line in self._copied(f"COPY ({query}) TO STDOUT"):
            with self._told():
                text = line.decode("utf-8")[:-1]
            yield tuple(map(uncopied, text.split("\t"))) if "\\" in text else tuple(text.split("\t"))

    def copy_out(self, query: str, file: IO[bytes], form: str = "FORMAT csv, HEADER") -> int:
        """Writes the rows of a query into a file, in a form of COPY; answers the number of lines or rows."""
        count = 0
        for count, line in enumerate(self._copied(f"COPY ({query}) TO STDOUT WITH ({form})"), 1):
            file.write(line)
        return count

    def _copied(self, statement: str) -> Iterator[bytes]:
        """What a COPY gives, row by row."""
        try:
            with self._told(), self.connection.cursor().copy(cast(Any, statement)) as copy:
                while data := copy.read():
                    yield bytes(data)
        except KeyboardInterrupt:  # it may have come amid a row
            self.close()
            raise

    def copy_in(self, target: str, pieces: Iterable[bytes], form: str = "FORMAT csv, HEADER") -> int:
        """Puts the text of a file into a table; `target` is the table with its columns. Answers the number of rows.

        If what makes the pieces raises an exception, no row is put there."""
        cursor = self.connection.cursor()
        why: BaseException | None = None
        try:
            with self._told(), cursor.copy(cast(Any, f"COPY {target} FROM STDIN WITH ({form})")) as copy:
                try:
                    for piece in pieces:
                        copy.write(piece)
                        self._send()
                except BaseException as error:
                    why = error
                    raise Unmade from None  # so that the server hears, and logs, no more than this name
        except (Unmade, DatabaseError):
            if why is None:
                raise
            with self._told():
                raise why from None
        return cursor.rowcount

    def sent(self, statement: str) -> Generator[bytes, None, None]:
        """What a COPY gives, in pieces: without psycopg's own reading, which takes twice as long."""
        link, errors, failed = self.connection.pgconn, library().errors, library().Error
        with self._told():
            ended = [link.exec_(statement.encode("utf-8"))]
            if not ended[0].error_message:
                try:
                    yield from self._pieces()
                finally:  # what wasn't read is done with too
                    with contextlib.suppress(failed):
                        while link.get_copy_data(0)[0] >= 0:
                            pass
                    while result := link.get_result():
                        ended.append(result)
            for result in ended:
                if result.error_message:
                    raise errors.error_from_result(result)

    def _pieces(self) -> Iterator[bytes]:
        """What is copied, in pieces; if they are no more wanted, the server is to stop."""
        pieces: list[Any] = []
        size = 0
        try:
            while (got := self.connection.pgconn.get_copy_data(0))[0] >= 0:
                pieces.append(got[1])
                size += got[0]
                if size >= PIECE:
                    yield b"".join(pieces)
                    pieces, size = [], 0
            yield b"".join(pieces)
        except GeneratorExit:
            self.cancel()
            raise

    def _send(self) -> None:
        """Waits until what was written is sent: libpq would hold all of it if the server is slower."""
        link = self.connection.pgconn
        while link.flush():
            if select.select([link.socket], [link.socket], [])[0]:
                link.consume_input()

    def copy_rows_in(self, target: str, rows: Iterable[Iterable[str | None]]) -> int:
        """Puts rows of texts, with None for NULL, into a table; answers their number."""
        return self.copy_in(target, pieces_of(rows), "FORMAT text")

    def cancel(self) -> None:
        """Has the server stop what it runs for this session; for a signal's handler, or another thread."""
        self.connection.cancel()

    def close(self) -> None:
        """Ends the session; what is not committed is undone."""
        self.connection.close()

    def __enter__(self) -> Session:
        return self

    def __exit__(self, *_: object) -> None:
        self.close()


def text_of(cell: bytes | None) -> str | None:
    """A cell as a text."""
    return None if cell is None else cell.decode("utf-8")


def pieces_of_file(file: IO[bytes]) -> Iterator[bytes]:
    """A file, piece by piece."""
    while piece := file.read(PIECE):
        yield piece


def pieces_of(rows: Iterable[Iterable[str | None]]) -> Iterator[bytes]:
    """The copy format of rows, in pieces."""
    lines: list[str] = []
    size = 0
    for row in rows:
        lines.append("\t".join(map(copied, row)) + "\n")
        size += len(lines[-1])
        if size >= PIECE:
            yield "".join(lines).encode("utf-8")
            lines, size = [], 0
    if lines:
        yield "".join(lines).encode("utf-8")
