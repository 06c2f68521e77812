"""Why another value is in the place of a null.

`fold.csv` says which value it is. The way there is looked for among the rows around the null alone: those that match
it, those that became the same rows, and, ring by ring, those around the nulls of their keys, until the keys of the
mapping make the same of them that the fold says. What they never make is what core mode left out."""
from __future__ import annotations

from collections import deque
from collections.abc import Iterator
from itertools import islice
from typing import Literal

from clio_tools.explain.key_chase import KeyChase, KeyStep
from clio_tools.why.data import Replacement
from clio_tools.why.exchange import Exchange, Null, Origin, Raw, Value, is_null, null_of, text_of, value_text
from clio_tools.why.parts import Parts
from clio_tools.why.source import named

COMPANIONS = (2, 32, 512)  # rows of one shape that are looked at beside a row
MOST_ROWS = 20_000
MOST_STEPS = 16  # that are told of a row


class Around:
    """The rows around some nulls, and what keys and dependencies make of them."""

    def __init__(self, exchange: Exchange, companions: int) -> None:
        self.exchange, self.companions = exchange, companions
        self.rows: list[list[Raw]] = [[] for _ in exchange.mapping.target]
        self.origins: list[list[Origin]] = [[] for _ in exchange.mapping.target]
        self.seen: set[Origin] = set()
        self.nulls: set[Null] = set()
        self.is_cut = False
        self.chase = KeyChase(self.rows, exchange.mapping.target)

    def add(self, origin: Origin) -> None:
        """A row that is asked for."""
        if origin not in self.seen:
            self.seen.add(origin)
            table = self.exchange.mapping.rules[origin.rule].conclusion[origin.atom].table
            self.rows[table].append(self.exchange.raw(origin))
            self.origins[table].append(origin)

    def add_null(self, null: Null) -> None:
        """The rows in which a null is, and those that became the same, or agree on the left of a dependency."""
        self.nulls.add(null)
        for origin, columns in self.exchange.occurrences(null):
            self.add(origin)
            for other in companions(self.exchange, origin, columns, self.companions + 1):
                self.is_cut |= other is None
                if other is not None:
                    self.add(other)

    def ring(self, wanted: set[str]) -> list[Null]:
        """The nulls of these rows around which nobody has looked: those in keys, and those that became wanted
        values."""
        found: dict[Null, None] = {}
        for rows, determinations in zip(self.rows, self.chase.determinations):
            keys = {column for left, _ in determinations for column in left}
            for row in rows:
                found.update((value, None) for column, value in enumerate(row)
                             if isinstance(value, tuple) and (column in keys or self.exchange.last(value) in wanted))
        return [null for null in found if null not in self.nulls]

    def makes(self, null: Null) -> bool:
        """Whether the keys make one of a null and what came in its place."""
        return bool(self.chase.value(null) == self.chase.value(self.value(null)))

    def value(self, null: Null) -> Value:
        """What came in the place of a null."""
        last = self.exchange.last(null)
        return null_of(last) if is_null(last) else text_of(last)


def companions(exchange: Exchange, origin: Origin, columns: list[int], most: int) -> Iterator[Origin | None]:
    """What asks for the same row as an origin at the end, or for one that agrees with it on the left of a dependency
    which decides one of these columns; of each atom the first few, and None if there are more.
    """
    number = exchange.mapping.rules[origin.rule].conclusion[origin.atom].table
    table = exchange.mapping.target[number]
    last = exchange.last_row(exchange.raw(origin))
    wanted = [dict(enumerate(last))]
    wanted += [{column: last[column] for column in left} for left, right in table.determinations()[len(table.keys):]
               if set(right) & set(columns)]
    for one in wanted:
        for rule, place in exchange.atoms[number]:
            found = list(islice(exchange.of_atom(rule, place, one), most))
            yield from found[:most - 1]
            if len(found) == most:
                yield None


class Merging:
    """Finds why values are in the place of nulls."""

    def __init__(self, exchange: Exchange, parts: Parts) -> None:
        self.exchange, self.parts = exchange, parts

    def around(self, nulls: list[Null]) -> Around:
        """The rows around some nulls, as many as show why they were replaced, if keys did it."""
        wanted = set(map(self.exchange.last, nulls))
        for most in COMPANIONS:
            found = Around(self.exchange, most)
            ring = [value for value in map(found.value, nulls) if isinstance(value, tuple)] + nulls
            while ring and sum(map(len, found.rows)) < MOST_ROWS:
                for null in dict.fromkeys(ring):
                    found.add_null(null)
                found.chase = KeyChase(found.rows, self.exchange.mapping.target)
                if all(map(found.makes, nulls)):
                    return found
                ring = found.ring(wanted)
            if not found.is_cut and not ring:
                return found
        found.is_cut = True
        return found

    def replacements(self, nulls: list[Null]) -> tuple[Replacement, ...]:
        """Why each of some nulls was replaced, with the steps that made rows agree before."""
        replaced = [null for null in dict.fromkeys(nulls) if self.exchange.last(null) != value_text(null)]
        if not replaced:
            return ()
        around = self.around(replaced)
        told: dict[Null, None] = {}
        found: list[Replacement] = []
        for null in replaced:
            if not around.makes(null):
                found += self.without_keys(null, around)
            else:
                self.follow(null, around, told)
        steps = [self.by_key(null, around) for null in islice(told, MOST_STEPS)]
        return (*steps, *found[:MOST_STEPS])

    def follow(self, null: Null, around: Around, told: dict[Null, None]) -> None:
        """Takes down the steps that made a null and its value one, and those that made rows agree before them."""
        pending: list[Value] = [around.value(null), null]
        while pending:
            one = pending.pop()
            if not isinstance(one, tuple) or one in told or one not in around.chase.steps:
                continue
            told[one] = None
            step: KeyStep = around.chase.steps[one]
            left, _ = around.chase.determinations[step.table][step.key]
            pending += [around.rows[step.table][row][column] for row in step.rows for column in left]
            pending.append(step.value)

    def by_key(self, null: Null, around: Around) -> Replacement:
        """The step in which a key or a dependency made one of a null and a value; the one that stayed is its value."""
        step: KeyStep = around.chase.steps[null]
        values = [value_text(null), value_text(step.value)]
        replaced, value = values if values[0] in self.exchange.fold else values[::-1]
        table = self.exchange.mapping.target[step.table]
        left, _ = around.chase.determinations[step.table][step.key]
        row = around.rows[step.table][step.rows[0]]
        agreed = tuple(self.exchange.last(row[column]) for column in left)
        matches = tuple(self.exchange.match(around.origins[step.table][row]) for row in step.rows)
        by: Literal["key", "dep"] = "key" if step.key < len(table.keys) else "dep"
        return Replacement(replaced, value, by, table.name, named(table, left), agreed, matches,
                           self.parts.determination(step.table, step.key))

    def without_keys(self, null: Null, around: Around) -> Iterator[Replacement]:
        """For each row with a null that no key replaced the row that is there in its place."""
        value = self.exchange.last(null)
        for origin, columns in self.exchange.occurrences(null):
            table = self.exchange.mapping.rules[origin.rule].conclusion[origin.atom].table
            found = companions(self.exchange, origin, [], COMPANIONS[0] + 1)
            others = [other for other in found if other is not None and self.exchange.raw(other)[columns[0]] != null]
            others.sort(key=lambda other: sum(isinstance(one, tuple) for one in self.exchange.raw(other)))
            matches = tuple(map(self.exchange.match, [origin, *others[:1]]))
            yield Replacement(value_text(null), value, "unknown" if around.is_cut else "core",
                              self.exchange.mapping.target[table].name, (), (), matches, None)

    def giver(self, null: Null) -> tuple[Origin, int] | None:
        """What gave the text that is in the place of a null: a match with an atom, and its column there."""
        last = self.exchange.last(null)
        for most in COMPANIONS:
            seen, pending = {null}, deque([null])
            while pending and len(seen) < MOST_ROWS:
                for other, column in self.beside(pending.popleft(), most):
                    value = self.exchange.raw(other)[column]
                    if self.exchange.last(value) != last or value in seen:
                        continue
                    if not isinstance(value, tuple):
                        return other, column
                    seen.add(value)
                    pending.append(value)
        return None

    def beside(self, null: Null, most: int) -> Iterator[tuple[Origin, int]]:
        """What asks for rows that became those of a null, or agree with them, with the columns of the null there."""
        for origin, columns in self.exchange.occurrences(null):
            for other in companions(self.exchange, origin, columns, most + 1):
                if other is not None:
                    yield from ((other, column) for column in columns)
