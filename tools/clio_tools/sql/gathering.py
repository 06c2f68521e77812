"""The matches of all rules on several servers: source rows that join are brought together, each server joins its own,
and the matches of each go to the server that has their range of the first column, where they are told apart and
numbered. What a server has before the first one of its matches, all others say together."""
import bisect
import functools
import itertools
import re
from collections.abc import Callable, Sequence

from clio_tools.databases.postgres import literal
from clio_tools.sql.joining import Join
from clio_tools.sql.moving import Goes, Member, Moving, by_hash, expected
from clio_tools.sql.session import Session, at_once
from clio_tools.sql.words import POSTGRES
from clio_tools.sql.work import Matched, Source

COLUMN = re.compile(r'(a[0-9]+)\."([^"]+)"')
SAMPLE = 20_000  # about so many texts for each server say where ranges end
STEPS = "ARRAY(SELECT (i + 0.5) / 200 FROM generate_series(0, 199) AS i)"
BY_BYTES = POSTGRES.by_bytes


class Premise:
    """What the matches of a rule are of: the source tables by their aliases, and how they join."""

    def __init__(self, one: Matched) -> None:
        self.one, self.rule, self.join = one, one.rule, Join(one.match.source)
        self.tables = self.join.tables
        self.columns = self.join.columns() | {
            (self.tables[alias], column) for alias, column in COLUMN.findall(" ".join(one.match.exported))}

    @property
    def exported(self) -> str:
        """The columns of the matches."""
        cells = [POSTGRES.exported(text) for text in self.one.match.exported] or [POSTGRES.text("'0'")]
        return ", ".join(f"{cell}{BY_BYTES} AS c{place}" for place, cell in enumerate(cells))

    @property
    def listed(self) -> str:
        """The names of these columns."""
        return ", ".join(f"c{place}" for place in range(max(len(self.one.match.exported), 1)))

    def query(self, relations: dict[str, str]) -> str:
        """The matches, of relations under the aliases."""
        return f"SELECT {self.exported} FROM {self.join.text(relations)}"

    def joined_by(self) -> dict[str, str]:
        """The columns that are equal in most tables: one of each of their aliases."""
        classes: list[set[tuple[str, str]]] = []
        for equal in self.join.equal:
            found = [some for some in classes if not some.isdisjoint(equal)]
            classes = [some for some in classes if some not in found]
            classes.append(set(equal).union(*found))
        return max((dict(sorted(some, reverse=True)) for some in classes), key=len, default={})


class Gathering:
    """Makes the matches. The members see one state of the source; `parts` says how a source table's parts are named on
    the servers, if it isn't in the database that is asked."""

    def __init__(self, members: Sequence[Member], asked: Member, parts: Callable[[str], Sequence[str]],
                 source: Source) -> None:
        self.members, self.asked, self.parts, self.given = members, asked, parts, source
        self.later = [member._replace(begin="") for member in members]
        self.sessions = [session for member in [*members, asked] for session in (member.taking, member.sending)]
        self.copies: dict[tuple[str, str], str] = {}  # by a source table and what it was brought together by

    def run(self, matches: Sequence[Matched]) -> list[list[int]]:
        """The matches of all rules; answers how many of each there are on each server."""
        premises = [Premise(one) for one in matches]
        joined = [premise for premise in premises if len(premise.tables) > 1]
        self.copy(joined)
        less = [premise for premise in premises if premise not in joined and self.is_less(premise)]
        for premise in less:
            self.make(premise, self.members, self.direct(premise))
        whole = [premise for premise in premises if premise not in [*joined, *less]]
        goes = self.ranges(premises, whole)
        counts = {premise.rule: self.numbered(premise, Moving(
            self.members, self.direct(premise), goes[premise.one.together], [self.asked])) for premise in whole}
        for member in [*self.members, self.asked]:
            member.sending.made("COMMIT")
        for premise in [*joined, *less]:
            rows = [f"SELECT * FROM joined{premise.rule}"] * len(self.members)
            counts[premise.rule] = self.numbered(premise, Moving(self.later, rows, goes[premise.one.together]))
            self.each(f"DROP TABLE joined{premise.rule}")
        return [counts[premise.rule] for premise in premises]

    def each(self, sql: str) -> list[int]:
        """Runs SQL on all servers at once."""
        return at_once([functools.partial(member.taking.made, sql) for member in self.members], self.sessions)

    def make(self, premise: Premise, members: Sequence[Member], queries: Sequence[str]) -> None:
        """Makes the matches of each server's rows, each once."""
        at_once([functools.partial(member.make, f"CREATE {POSTGRES.table} joined{premise.rule} AS"
                                                f" SELECT DISTINCT * FROM ({query}) AS q")
                 for member, query in zip(members, queries)], self.sessions)

    def copy(self, premises: Sequence[Premise]) -> None:
        """Joins source tables, each brought together by what joins most of those of a rule, or else copied to all."""
        columns = {one for premise in premises for one in premise.columns}
        for premise in premises:
            by, relations = premise.joined_by(), {}
            for place, (alias, table) in enumerate(premise.tables.items()):
                used = sorted(column for name, column in columns if name == table) or self.given.columns[table][:1]
                column = by.get(alias, "") if by else used[0] if place == 0 else ""
                if (table, column) not in self.copies:
                    self.copies[table, column] = f"copied{len(self.copies)}"
                    count = len(self.members)
                    goes = by_hash([(f'"{column}"', True)], count) if column else ["1 = 1"] * count
                    Moving(self.members, self.read(table, used), goes, [self.asked]).run(self.copies[table, column])
                relations[alias] = self.copies[table, column]
            self.make(premise, self.later, [premise.query(relations)] * len(self.members))
        for name in self.copies.values():
            self.each(f"DROP TABLE {name}")

    def is_less(self, premise: Premise) -> bool:
        """Whether the matches have not all columns of their table, so that most of its rows may say the same."""
        table, = premise.tables.values()
        return len(premise.columns) < len(self.given.columns[table]) and bool(self.parts(table))

    def is_apart(self, premise: Premise) -> bool:
        """Whether few of the matches that come may be equal, so that the order in which they are numbered tells them
        apart best: each server has made its own distinct, or they have all columns of their table."""
        columns = [len(self.given.columns[table]) for table in premise.tables.values()]
        return len(columns) > 1 or self.is_less(premise) or len(premise.columns) == columns[0]

    def read(self, table: str, columns: Sequence[str]) -> list[str]:
        """The queries for some columns of a source table: those of the servers, and that of the database that is
        asked."""
        cells = ", ".join(f'CAST("{column}" AS text){BY_BYTES} AS "{column}"' for column in columns)
        nothing = ", ".join(f'{POSTGRES.no_text} AS "{column}"' for column in columns)
        parts, tests = self.parts(table), self.given.tests.get(table, "")
        found = [f"SELECT {cells} FROM {part}{' WHERE ' * bool(tests)}{tests}"
                 for part in parts or [f'source."{table}"']]
        nowhere = [f"SELECT {nothing} WHERE 1 = 0"]
        return found + nowhere if parts else nowhere * len(self.members) + found

    def direct(self, premise: Premise) -> list[str]:
        """The queries for the matches of a rule that reads one table."""
        (alias, table), = premise.tables.items()
        used = sorted(column for _, column in premise.columns) or self.given.columns[table][:1]
        return [premise.query({alias: f"({query})"}) for query in self.read(table, used)]

    def ranges(self, premises: Sequence[Premise], whole: Sequence[Premise]) -> dict[int, Goes]:
        """Where matches go, for rules that are together."""
        goes: dict[int, Goes] = {}
        for number in {premise.one.together for premise in premises}:
            asks: list[tuple[Session, str]] = []
            for premise in premises:
                if premise.one.together == number and premise in whole:
                    asks += zip([member.sending for member in [*self.members, self.asked]], self.direct(premise))
                elif premise.one.together == number:
                    asks += [(member.taking, f"SELECT * FROM joined{premise.rule}") for member in self.members]
            goes[number] = ranges_of(self.sample(asks), len(self.members))
        return goes

    def sample(self, asks: Sequence[tuple[Session, str]]) -> list[tuple[str, float]]:
        """Some texts of the first column of queries, each with its weight: of each query those that part some of its
        rows evenly."""
        rows = sum(at_once([functools.partial(expected, *one) for one in asks], self.sessions))
        rate = SAMPLE * len(self.members) / max(rows, 1)
        some = f"SELECT count(*), percentile_disc({STEPS}) WITHIN GROUP (ORDER BY c0) FROM"
        found = at_once([functools.partial(session.values, f"{some} ({query}) AS q WHERE random() < {rate}")
                         for session, query in asks], self.sessions)
        return [(text, count / len(texts)) for (count, texts), in found if count for text in texts]

    def numbered(self, premise: Premise, moving: Moving) -> list[int]:
        """Makes the matches of where they go, each once, and numbers them; answers how many each server has."""
        rule = premise.rule
        name = f"local{rule}" if premise.one.is_numbered else f"m{rule}"
        counts = at_once([functools.partial(self.number, premise, moving, name, number)
                          for number in range(len(self.members))], moving.sessions)
        if premise.one.is_numbered:
            for member, before in zip(self.members, itertools.accumulate(counts, initial=0)):
                query = f"SELECT {premise.listed}, place + {before} AS place FROM {name}"
                member.taking.made(f"CREATE VIEW m{rule} AS {query}")
        return counts

    def number(self, premise: Premise, moving: Moving, name: str, number: int) -> int:
        """Does that on one server; what stays there is read where it is."""
        rule, member = premise.rule, moving.members[number]
        query = f"SELECT DISTINCT * FROM ({moving.own(number)} UNION ALL SELECT * FROM came{rule}) AS q"
        if premise.one.is_numbered:
            query = f"SELECT d.*, row_number() OVER (ORDER BY {premise.listed}) - 1 AS place FROM ({query}) AS d"
        with member.seeing():
            member.taking.made(f"CREATE {POSTGRES.table} came{rule} AS {moving.own(number)} WITH NO DATA")
            moving.bring(number, f"came{rule}")
            if premise.one.is_numbered and self.is_apart(premise):
                member.taking.made("SET LOCAL enable_hashagg = off")
            count = member.taking.made(f"CREATE {POSTGRES.table} {name} AS {query}")
            member.taking.made(f"DROP TABLE came{rule}")
        member.taking.made(f"ANALYZE {name}")
        return count


def ranges_of(texts: Sequence[tuple[str, float]], count: int) -> Goes:
    """Which texts of a first column are in the range of each server, by some of the texts with their weights."""
    ordered = sorted(texts, key=lambda one: one[0].encode("utf-8"))
    if not ordered:
        return ["1 = 1", *["1 = 0"] * (count - 1)]
    before = list(itertools.accumulate(weight for _, weight in ordered))
    ends = [bisect.bisect_left(before, before[-1] * place / count) for place in range(1, count)]
    bounds = [POSTGRES.text(literal(ordered[end][0])) for end in ends]
    least = ["", *(f"c0 >= {bound}" for bound in bounds)]
    greatest = [*(f"c0 < {bound}" for bound in bounds), ""]
    return [" AND ".join(filter(None, pair)) or "1 = 1" for pair in zip(least, greatest)]
