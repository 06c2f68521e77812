"""Work tables and questions: the steps of an exchange, one after the other, on an engine."""
import contextlib
import functools
import itertools
import threading
import time
from collections.abc import Callable, Iterator, Sequence
from typing import Any, NamedTuple, Protocol, TypeVar

from clio_tools.sql.forecast import Forecast
from clio_tools.sql.script import Match, Null
from clio_tools.sql.words import Words

Row = tuple[Any, ...]
Answer = TypeVar("Answer")
# what was done, in how many seconds, how many rows it made (or -1), and how many seconds may be left, if that is known
Report = Callable[[str, float, int, float | None], None]


class Made(NamedTuple):
    """A work table that a query makes, and the columns by which its rows are looked up or told apart."""
    name: str
    query: str
    by: Sequence[str] = ()
    is_local: bool = False  # whether several servers each make their part of it, of their rows alone


class Matched(NamedTuple):
    """The matches of a rule that are to be made, each once and with its place."""
    made: Made
    rule: int
    match: Match
    is_numbered: bool
    together: int  # rules of one such number have equal texts of their first column on one server


class Source(NamedTuple):
    """The columns of the source tables, and what rows have to pass."""
    columns: dict[str, list[str]]
    tests: dict[str, str]


class Home(NamedTuple):
    """Where the matches are that made the nulls of a column, or, of a rule, those of a place."""
    column: str
    rule: int | None = None


By = Sequence[str] | Home  # by what rows are brought together on a server: columns in which they agree, or their home


class Parts(NamedTuple):
    """A work table, and the tables that together have its rows."""
    name: str
    names: Sequence[str]


class Engine(Protocol):
    """What runs SQL. The work tables have plain names; `source` is a schema."""
    words: Words
    is_plan: bool  # whether the SQL is only printed
    is_one_snapshot: bool  # whether all that is asked of the source is of one state of it
    is_spread: bool  # whether rows are on several servers

    def prepare(self, tables: dict[str, list[str]]) -> None:
        """Refuses tables of the target, given with their columns, that can't be put in the place of those that are
        there."""

    def run(self, sql: str) -> int:
        """Runs a statement; answers how many rows it made, or -1."""

    def rows(self, sql: str, assumed: Sequence[Row]) -> Sequence[Row]:
        """The rows of a query; an engine that only prints answers what is assumed."""

    def each(self, sql: str, assumed: Sequence[Row]) -> Sequence[Row]:
        """The rows of a query on each server, about what that server has."""

    def view(self, name: str, query: str) -> None:
        """Makes a view of a query, which each server answers of its rows alone."""

    def move(self, name: str, query: str, by: By) -> None:
        """Makes a work table of the rows of a query, brought together on servers."""

    def make(self, table: Made) -> int:
        """Makes a work table; answers its rows."""

    def make_matches(self, matches: Sequence[Matched], source: Source, heads: Sequence[Null]) -> list[int]:
        """Makes the matches of rules; answers how many each has. Nulls are of these heads."""

    def make_all(self, tables: Sequence[Made]) -> list[int]:
        """Makes work tables that don't depend on each other, of one state of the source; answers the rows of each."""

    def load(self, name: str, columns: Sequence[str], rows: Sequence[Row]) -> None:
        """Makes a work table of rows that the tool has; each column is given with its type."""

    def side_by_side(self, works: Sequence[Callable[[], Answer]]) -> list[Answer]:
        """What works answer that don't meet: each asks the engine for its own. Several sessions do them at once."""

    def split(self, by: Sequence[str]) -> Sequence[str]:
        """Conditions that part rows for sessions that work side by side, so that rows that agree in some columns are in
        one part; none if there are no such sessions."""

    def write(self, name: str, columns: Sequence[str], parts: Sequence[str]) -> None:
        """Prepares a table of the target, of the rows of some queries."""

    def publish(self) -> dict[str, int]:
        """Puts all prepared tables in the place of those that are there, all or none; answers the rows of each."""

    def close(self) -> None:
        """Leaves nothing behind but what was published."""


class Whole:
    """An engine that has all rows in one place."""
    is_spread = False

    def each(self: Engine, sql: str, assumed: Sequence[Row]) -> Sequence[Row]:
        """The rows of a query."""
        return self.rows(sql, assumed)

    def view(self: Engine, name: str, query: str) -> None:
        """Makes a view of a query."""
        self.run(f"CREATE {self.words.view} {name} AS {query}")

    def move(self, name: str, query: str, by: By) -> None:
        """Nothing has to be moved."""
        raise ValueError(name)

    def side_by_side(self, works: Sequence[Callable[[], Answer]]) -> list[Answer]:
        """What works answer, one after the other."""
        return [work() for work in works]

    def split(self, by: Sequence[str]) -> Sequence[str]:
        """There is nothing to part."""
        return []

    def make_matches(self: Engine, matches: Sequence[Matched], source: Source, heads: Sequence[Null]) -> list[int]:
        """Makes the matches by their queries."""
        return self.make_all([one.made for one in matches])


def silent(what: str, seconds: float, rows: int, left: float | None) -> None:
    """Reports nothing."""


class Work:
    """Makes work tables under names of their own, and tells what is done; some of it may be done side by side."""

    def __init__(self, engine: Engine, report: Report = silent) -> None:
        self.engine, self.words, self.report = engine, engine.words, report
        self.counter, self.forecast, self.telling = itertools.count(1), Forecast(), threading.Lock()
        self.told = time.monotonic()  # when the last step was told

    def name(self, kind: str) -> str:
        """A name that no other work table has."""
        return f"{kind}{next(self.counter)}"

    @contextlib.contextmanager
    def step(self, what: str) -> Iterator[list[int]]:
        """Something that is done and told; who does it puts the number of rows to the list."""
        began, rows = time.monotonic(), [-1]
        yield rows
        with self.telling:
            now = time.monotonic()
            self.report(what, now - began, rows[-1], self.forecast.left(what, now - max(began, self.told)))
            self.told = now

    def made(self, kind: str, query: str, by: Sequence[str] = (), what: str = "", is_local: bool = False) -> str:
        """The name of a work table that is made of a query."""
        name = self.name(kind)
        with self.step(what or "nulls that are equal") as rows:
            rows.append(self.engine.make(Made(name, query, by, is_local)))
        return name

    def made_in_parts(self, kind: str, queries: Sequence[str], by: Sequence[str], what: str) -> Parts:
        """Makes a work table of each query, side by side."""
        names = self.engine.side_by_side([functools.partial(self.made, kind, query, by, what, is_local=True)
                                          for query in queries])
        if len(names) == 1:
            return Parts(names[0], names)
        return Parts(self.view(kind, " UNION ALL ".join(f"SELECT * FROM {name}" for name in names)), names)

    def moved(self, query: str, by: By) -> str:
        """The name of a work table of the rows of a query, brought together on servers; no name if all rows are in one
        place."""
        if not self.engine.is_spread:
            return ""
        name = self.name("moved")
        with self.step("moving rows between servers"):
            self.engine.move(name, query, by)
        return name

    def view(self, kind: str, query: str) -> str:
        """The name of a view of a query."""
        name = self.name(kind)
        self.engine.view(name, query)
        return name

    def row(self, sql: str, assumed: Row) -> Row:
        """The only row of a query."""
        return self.engine.rows(sql, [assumed])[0]

    def number(self, sql: str, assumed: int = 1) -> int:
        """The number that a query answers."""
        return int(self.row(sql, (assumed,))[0] or 0)

    def any(self, query: str, assumed: bool = False) -> bool:
        """Whether a query, given from its first table on, has a row."""
        return self.number(f"SELECT count(*) FROM (SELECT 1 AS one FROM {query} LIMIT 1) AS q", int(assumed)) > 0
