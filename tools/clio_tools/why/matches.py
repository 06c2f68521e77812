"""The matches of a rule: the tuples of texts that it exports, each with its place, and the source rows behind a tuple.

A tuple's place among the matches of its rule, in ascending order, is in the names of its nulls."""
from __future__ import annotations

from bisect import bisect_left
from collections.abc import Iterable, Iterator, Sequence
from functools import cached_property
from operator import itemgetter
from typing import NamedTuple

from clio_tools.mapping.meanings import CONVERSIONS
from clio_tools.mapping.rules import Premise, Rule
from clio_tools.why.lookup import Columns, Lookup, Row
from clio_tools.why.source import Source

Chosen = tuple[int, ...]  # for each atom of a premise the number of a row
Values = dict[int, str]  # the texts of variables


class Step(NamedTuple):
    """One atom of a premise: which columns are known when it is looked at, by which variables, which variables it
    gives, and which of its columns have to be equal."""

    place: int
    table: int
    bound: Columns
    variables: Columns
    new: tuple[tuple[int, int], ...]
    equal: tuple[tuple[int, int], ...]


def steps_of(premise: Sequence[Premise], known: Iterable[int]) -> list[Step]:
    """The atoms of a premise in an order in which each, if it can, shares a variable with what is known before."""
    left, seen, steps = list(enumerate(premise)), set(known), []
    while left:
        chosen = max(left, key=lambda one: (len(seen.intersection(one[1].cells)), -one[0]))
        left.remove(chosen)
        place, atom = chosen
        bound = tuple(column for column, variable in enumerate(atom.cells) if variable in seen)
        new: dict[int, int] = {}
        equal = []
        for column, variable in enumerate(atom.cells):
            if variable not in seen and new.setdefault(variable, column) != column:
                equal.append((new[variable], column))
        variables = tuple(atom.cells[column] for column in bound)
        steps.append(Step(place, atom.table, bound, variables, tuple(new.items()), tuple(equal)))
        seen.update(atom.cells)
    return steps


class RuleMatches:
    """The matches of one rule in a source."""

    def __init__(self, rule: Rule, source: Source) -> None:
        self.rule, self.source = rule, source
        self.exported = rule.exported()
        self.at = {variable: place for place, variable in enumerate(self.exported)}
        self.first = rule.premise_variables()

    @cached_property
    def lookup(self) -> Lookup:
        """The different tuples of exported texts, ascending: a tuple's place is its position."""
        stream, at, width = self.joined()
        for number, derived in enumerate(self.rule.derived):
            stream = converted(stream, derived.conversion, [at[one] for one in derived.arguments])
            at[self.first + number] = width + number
        return Lookup(sorted(dict.fromkeys(picked(stream, [at[variable] for variable in self.exported]))))

    def joined(self) -> tuple[Iterator[Row], dict[int, int], int]:
        """The texts of all matches, those of one atom behind those of another; for each variable where its text is; and
        how many texts a match has."""
        at: dict[int, int] = {}
        stream: Iterator[Row] = iter([()])
        width = 0
        for step in steps_of(self.rule.premise, ()):
            rows = self.source.rows(step.table).rows
            if step.equal:
                rows = [row for row in rows if all(row[one] == row[other] for one, other in step.equal)]
            if not width:
                stream = iter(rows)
            elif step.bound:
                stream = matched(stream, [at[variable] for variable in step.variables], indexed(rows, step.bound))
            else:
                stream = crossed(stream, rows)
            at.update((variable, width + column) for variable, column in step.new)
            width += len(self.source.tables[step.table].columns)
        return stream, at, width

    def place(self, texts: Row) -> int | None:
        """The place of a tuple, if it is one of the rule."""
        place = bisect_left(self.lookup.rows, texts)
        return place if place < len(self.lookup.rows) and self.lookup.rows[place] == texts else None

    def matches_of(self, texts: Row) -> Iterator[Chosen]:
        """The matches that give a tuple, each as a row for each atom of the premise."""
        values = {variable: text for variable, text in zip(self.exported, texts) if variable < self.first}
        wanted = {variable: text for variable, text in zip(self.exported, texts) if variable >= self.first}
        for chosen, found in self.extended(values):
            if all(self.converted(number, found) == text for number, text in wanted.items()):
                yield chosen

    def converted(self, number: int, values: Values) -> str:
        """The text of a derived variable."""
        derived = self.rule.derived[number - self.first]
        return CONVERSIONS[derived.conversion].apply(*[values[one] for one in derived.arguments])

    def texts_of(self, values: Values) -> Row:
        """The tuple that a match exports, by the texts of its variables."""
        return tuple([values[one] if one < self.first else self.converted(one, values) for one in self.exported])

    def extended(self, values: Values, fixed: dict[int, int] | None = None) -> Iterator[tuple[Chosen, Values]]:
        """All matches in which some variables have given texts, and some atoms given rows; with the texts of all."""
        rows = dict(fixed or {})
        known = dict(values)
        for place, row in rows.items():
            atom = self.rule.premise[place]
            for variable, text in zip(atom.cells, self.source.rows(atom.table).rows[row]):
                if known.setdefault(variable, text) != text:
                    return
        left = [(place, atom) for place, atom in enumerate(self.rule.premise) if place not in rows]
        steps = steps_of([atom for _, atom in left], known)
        yield from self.chosen(steps, [place for place, _ in left], 0, rows, known)

    def chosen(self, steps: list[Step], places: list[int], depth: int, rows: dict[int, int],
               values: Values) -> Iterator[tuple[Chosen, Values]]:
        """Chooses rows for the atoms from one on."""
        if depth == len(steps):
            yield tuple([rows[place] for place in range(len(self.rule.premise))]), values
            return
        step = steps[depth]
        table = self.source.rows(step.table)
        for number in table.find(step.bound, tuple([values[variable] for variable in step.variables])):
            row = table.rows[number]
            if all(row[one] == row[other] for one, other in step.equal):
                found = values | {variable: row[column] for variable, column in step.new}
                yield from self.chosen(steps, places, depth + 1, rows | {places[step.place]: number}, found)


def indexed(rows: list[Row], columns: Columns) -> dict[Row | str, list[Row]]:
    """Rows by their texts in some columns."""
    index: dict[Row | str, list[Row]] = {}
    key = itemgetter(*columns)
    for row in rows:
        index.setdefault(key(row), []).append(row)
    return index


def matched(stream: Iterator[Row], places: list[int], index: dict[Row | str, list[Row]]) -> Iterator[Row]:
    """Each row of a stream with each row of an index that has its texts."""
    key = itemgetter(*places)
    nothing: list[Row] = []
    for left in stream:
        for right in index.get(key(left), nothing):
            yield left + right


def crossed(stream: Iterator[Row], rows: list[Row]) -> Iterator[Row]:
    """Each row of a stream with each of some rows."""
    for left in stream:
        for right in rows:
            yield left + right


def converted(stream: Iterator[Row], name: str, places: list[int]) -> Iterator[Row]:
    """Each row of a stream with the text that a conversion makes of it."""
    apply = CONVERSIONS[name].apply
    for row in stream:
        yield (*row, apply(*[row[place] for place in places]))


def picked(stream: Iterator[Row], places: list[int]) -> Iterator[Row]:
    """Of each row of a stream the texts at some places."""
    if len(places) > 1:
        return map(itemgetter(*places), stream)
    return (tuple([row[place] for place in places]) for row in stream)
