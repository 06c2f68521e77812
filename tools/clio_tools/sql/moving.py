"""Rows on their way between servers: each server sends to each other one what that has to have, by COPY in binary form,
and the tool hands the bytes on as they come."""
import contextlib
import functools
from collections.abc import Sequence
from typing import NamedTuple

from clio_tools.sql.fetching import hand_over
from clio_tools.sql.session import Session, at_once
from clio_tools.sql.words import POSTGRES

GREATEST = (1 << 63) - 1
MANY = 5_000  # of so many rows a program of its own is worth its start
Goes = Sequence[str]  # for each server what is true of the rows that go there; of those that stay all are NULL


class Member(NamedTuple):
    """A server as rows are moved: the session that makes its tables and takes rows, the one that sends, and how a
    transaction begins that sees the state of the source that the other one sees."""
    taking: Session
    sending: Session
    begin: str = ""

    def seeing(self) -> contextlib.AbstractContextManager[None]:
        """A transaction that sees that state of the source."""
        return self.taking.transaction(self.begin or "BEGIN")

    def make(self, sql: str) -> int:
        """Makes a table, of that state of the source."""
        with self.seeing():
            return self.taking.made(sql)


def by_hash(cells: Sequence[tuple[str, bool]], count: int) -> Goes:
    """Rows that agree in some expressions go to one server; each is given with whether it is a text."""
    number = "0"
    for cell, is_text in cells:
        number = (f"hashtextextended(coalesce({cell}, ''), {number})" if is_text
                  else f"hashint8extended(coalesce({cell}, -1), {number})")
    return by_number(f"({number} & {GREATEST}) % {count}", count)


def by_number(number: str, count: int) -> Goes:
    """Rows go to the server of a number."""
    return [f"{number} = {one}" for one in range(count)]


class Moving:
    """The rows of some queries, on their way to the servers. The queries are those of the servers, then those of others
    that only send, by their own sessions."""

    def __init__(self, members: Sequence[Member], queries: Sequence[str], goes: Goes,
                 others: Sequence[Member] = ()) -> None:
        self.members, self.others, self.queries, self.goes = members, others, queries, goes
        self.senders = [*members, *others]
        self.sessions = [session for member in self.senders for session in (member.taking, member.sending)]
        self.rows = at_once([functools.partial(expected, member.sending, query)
                             for member, query in zip(self.senders, queries)], self.sessions)

    def own(self, number: int) -> str:
        """The query for what stays on a server."""
        return f"SELECT * FROM ({self.queries[number]}) AS q WHERE coalesce({self.goes[number]}, true)"

    def bring(self, number: int, table: str) -> None:
        """Brings to a server what the others have for it, one after the other, each server another one first."""
        count = len(self.members)
        for source in [*((number - step) % count for step in range(1, count)), *range(count, len(self.senders))]:
            query = f"SELECT * FROM ({self.queries[source]}) AS q WHERE {self.goes[number]}"
            sender, is_many = self.senders[source], source < count and self.rows[source] >= MANY * count
            hand_over((sender.sending, sender.begin), query, self.members[number].taking, table, is_many)

    def run(self, name: str) -> None:
        """Makes a table on each server of what it has then."""
        def make(number: int) -> None:
            member = self.members[number]
            member.make(f"CREATE {POSTGRES.table} {name} AS {self.own(number)}")
            self.bring(number, name)
            member.taking.made(f"ANALYZE {name}")

        at_once([functools.partial(make, number) for number in range(len(self.members))], self.sessions)


def expected(session: Session, query: str) -> int:
    """About how many rows a query has, by the server's own guess."""
    found = session.values(f"EXPLAIN (FORMAT JSON) SELECT * FROM ({query}) AS q")
    return int(found[0][0][0]["Plan"]["Plan Rows"])
