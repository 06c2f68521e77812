"""The whole exchange on an engine: matches, what keys and dependencies make equal, in core mode what covers and what
reduces, and the tables."""
from collections.abc import Callable, Sequence
from typing import NamedTuple

from clio_tools.mapping.text import Mapping, Set
from clio_tools.sql.chase import Chase
from clio_tools.sql.determinations import Determination
from clio_tools.sql.covering import Covering
from clio_tools.sql.forecast import MATCHES, PUBLISHING, expected
from clio_tools.sql.joining import Join
from clio_tools.sql.reducing import Reducer, Rest
from clio_tools.sql.rigid import Rigid
from clio_tools.sql.script import Script
from clio_tools.sql.stars import Part
from clio_tools.sql.tables import Heads, Inserts, Table
from clio_tools.sql.words import quoted
from clio_tools.sql.work import Home, Made, Matched, Source, Work
from clio_tools.sql.writing import Writer


class Ended(NamedTuple):
    """The rows of each table, and in core mode what a reduction didn't look at."""
    rows: dict[str, int]
    rest: Rest | None


class Exchange:
    """An exchange of a mapping, by its script."""

    def __init__(self, work: Work, script: Script, mapping: Mapping, core: bool, sessions: int = 1) -> None:
        self.work, self.script, self.mapping, self.core, self.sessions = work, script, mapping, core, sessions
        self.heads = Heads(script.inserts)
        widths = {rule: len(match.exported) for rule, match in script.matches.items()}
        inserts = Inserts(script.inserts, self.heads, work.words, widths)
        self.tables = [Table(given.name, given.columns, inserts) for given in mapping.target]

    def run(self) -> Ended:
        """All of it."""
        self.work.engine.prepare({table.name: table.columns for table in self.tables}
                                 | {"nulls": ["null", "variable", "value"], "fold": ["null", "value"]})
        asked = [one for table, given in zip(self.tables, self.mapping.target) for one in determinations(table, given)]
        keys = [one.table for one in asked if one.right]
        Matches(self.work, self.script, self.mapping, self.heads).make(
            lambda rows: expected(self.script, self.tables, keys, rows, self.sessions > 1), together(asked))
        chase = Chase(self.work, self.tables, asked)
        chase.run()
        rest = self.reduce(chase, asked) if self.core else None
        Writer(self.work, self.script, self.heads, chase.parts, self.sessions).write(self.tables)
        with self.work.step(PUBLISHING):
            rows = self.work.engine.publish()
        return Ended(rows, rest)

    def reduce(self, chase: Chase, asked: list[Determination]) -> Rest:
        """The cover fold, and the reduction of what is left."""
        part = Covering(self.work, self.script, self.heads).part()
        if part:
            self.follow(chase.parts, part)
        rigid = Rigid(self.work, self.tables, asked)
        rigid.run()
        return Reducer(rigid, chase, self.heads).run()

    def follow(self, parts: list[Part], part: Part) -> None:
        """Puts the part of covered matches to the others."""
        part.is_cover = True
        for other in parts:
            if part.after & other.before:
                part.follow(self.work, other)
        parts.append(part)


def determinations(table: Table, given: Set) -> list[Determination]:
    """For each key of a table its columns and all columns, then the dependencies."""
    keys = [Determination(table, key, table.columns) for key in given.keys]
    return keys + [Determination(table, left, right) for left, right in given.dependencies]


def together(asked: Sequence[Determination]) -> dict[int, int]:
    """For each rule a number; rules have one number if a key or dependency compares the first columns of their
    matches."""
    number: dict[int, int] = {}
    for one in asked:
        rules = one.together if one.right else set()
        joined = {number.get(rule, rule) for rule in rules}
        number |= {rule: min(joined) for rule in rules}
        number |= {rule: min(joined) for rule, other in number.items() if other in joined}
    return number


class Matches:
    """Makes the tables of matches, each with the places that name nulls."""

    def __init__(self, work: Work, script: Script, mapping: Mapping, heads: Heads) -> None:
        self.work, self.script, self.words, self.mapping, self.heads = work, script, work.words, mapping, heads

    def make(self, foresee: Callable[[dict[int, int]], dict[str, float]], together_as: dict[int, int]) -> None:
        """Those of all rules, and of these those that are kept; `foresee` says of their rows what steps are to come,
        and rules of one number have equal texts of their first columns together."""
        engine, tests = self.work.engine, self.tests()
        names = {} if engine.is_spread else self.passing(tests)
        numbered = {insert.rule for insert in self.script.inserts if insert.has_null}
        tables: dict[int, Matched] = {}
        for rule, match in self.script.matches.items():
            has_place = rule in numbered or bool(self.script.covers)
            query = self.query(rule, names, has_place)
            if has_place or not engine.is_one_snapshot or self.inserts(rule) > 1:
                made = Made(f"m{rule}", query, self.joined_by(rule))
                tables[rule] = Matched(made, rule, match, has_place, together_as.get(rule, rule))
            else:
                engine.view(f"m{rule}", query)
        with self.work.step(MATCHES) as rows:
            source = Source({table.name: table.columns for table in self.mapping.source}, tests)
            counts = engine.make_matches(list(tables.values()), source, self.heads.nulls)
            rows.append(sum(counts))
            self.work.forecast.expect(foresee(dict(zip(tables, counts))))
        if self.script.covers:
            with self.work.step("matches that nothing covers"):
                self.keep()

    def keep(self) -> None:
        """The matches that nothing covers."""
        name = "k{}_asked" if self.work.engine.is_spread else "k{}"
        self.work.engine.make_all([Made(name.format(rule), self.kept(rule)) for rule in self.script.covers])
        if self.work.engine.is_spread:
            for rule in self.script.covers:
                self.work.engine.move(f"k{rule}", f"SELECT * FROM {name.format(rule)}", Home("place", rule))

    def inserts(self, rule: int) -> int:
        """How many tables a rule makes rows of, each table counted as often as it does."""
        return [insert.rule for insert in self.script.inserts].count(rule)

    def tests(self) -> dict[str, str]:
        """What rows have to pass, for each source table with conditions."""
        tests: dict[str, list[str]] = {}
        for one in self.mapping.conditions:
            tests.setdefault(one.set, []).append(self.words.passes(f'"{one.column}"', one.test))
        return {name: " AND ".join(found) for name, found in tests.items()}

    def passing(self, tests: dict[str, str]) -> dict[str, str]:
        """A view of the rows that pass for each source table with conditions; answers the names that stand for
        tables."""
        return {name: self.work.view("passing", f'SELECT * FROM source."{name}" WHERE {found}')
                for name, found in tests.items()}

    def query(self, rule: int, names: dict[str, str], numbered: bool) -> str:
        """The matches of a rule, each once."""
        match = self.script.matches[rule]
        columns = [f"{self.words.exported(one)}{self.words.by_bytes} AS c{place}"
                   for place, one in enumerate(match.exported)]
        join = Join(match.source)
        relations = {alias: names.get(name, f'source."{name}"') for alias, name in join.tables.items()}
        query = f"SELECT DISTINCT {', '.join(columns) or '0 AS c0'} FROM {join.text(relations)}"
        if not numbered:
            return query
        order = ", ".join(f"c{place}" for place in range(len(columns))) or "c0"
        return f"SELECT d.*, row_number() OVER (ORDER BY {order}) - 1 AS place FROM ({query}) AS d"

    def joined_by(self, rule: int) -> list[str]:
        """The columns by which the matches of a rule are looked up: all that a cover asks for."""
        found = [column for covers in self.script.covers.values() for cover in covers if cover.rule == rule
                 for column in cover.columns.values()]
        return [f"c{column}" for column in sorted(set(found))]

    def kept(self, rule: int) -> str:
        """The matches of a rule that nothing covers."""
        tests = []
        for cover in self.script.covers[rule]:
            same = [f"n.c{column} = m.c{own}" for own, column in cover.columns.items()]
            same += [f"m.c{own} = {self.words.text(quoted(text))}" for own, text in cover.literals.items()]
            tests.append(f"NOT EXISTS (SELECT 1 FROM m{cover.rule} AS n{' WHERE ' * bool(same)}{' AND '.join(same)})")
        return f"SELECT * FROM m{rule} AS m WHERE {' AND '.join(tests)}"
