"""The matches of a rule in the source, with the rows that each match is made of."""
from collections.abc import Sequence

from clio_tools.explain.source import Row, Source
from clio_tools.mapping.meanings import CONVERSIONS
from clio_tools.mapping.rules import Premise, Rule

MOST_STEPS = 20_000_000


class TooMany(Exception):
    """A search takes too many steps."""


class Step:
    """One atom of a premise: which columns are known when it is looked at, and which variables it gives."""

    def __init__(self, place: int, atom: Premise, known: set[int], rows: list[Row]) -> None:
        self.place, self.rows = place, rows
        self.bound = [(column, variable) for column, variable in enumerate(atom.cells) if variable in known]
        self.new: dict[int, int] = {}
        self.equal: list[tuple[int, int]] = []
        for column, variable in enumerate(atom.cells):
            if variable in known:
                continue
            if variable in self.new:
                self.equal.append((self.new[variable], column))
            else:
                self.new[variable] = column
        self.index: dict[Row, list[int]] | None = None

    def candidates(self, values: list[str]) -> Sequence[int]:
        """The numbers of the rows that have the known values in the known columns."""
        if self.index is None:
            self.index = {}
            for number, row in enumerate(self.rows):
                if all(row[one] == row[other] for one, other in self.equal):
                    self.index.setdefault(tuple([row[column] for column, _ in self.bound]), []).append(number)
        return self.index.get(tuple([values[variable] for _, variable in self.bound]), ())


def steps_of(rule: Rule, source: Source) -> list[Step]:
    """The atoms of a premise in an order in which each, if it can, shares a variable with those before it."""
    left, steps = list(enumerate(rule.premise)), []
    known: set[int] = set()
    while left:
        chosen = max(left, key=lambda one: (len(known.intersection(one[1].cells)), -one[0]))
        left.remove(chosen)
        steps.append(Step(chosen[0], chosen[1], known, source.rows[chosen[1].table].rows))
        known = known.union(chosen[1].cells)
    return steps


class Matches:
    """For each tuple of exported texts of a rule: how many matches give it, and the source rows of the first ones."""
    kept = 3  # matches that are kept of one tuple

    def __init__(self, rule: Rule, source: Source, most: int = MOST_STEPS, most_tuples: int | None = None) -> None:
        self.rule, self.steps, self.left, self.most_tuples = rule, steps_of(rule, source), most, most_tuples
        self.exported, self.first = rule.exported(), rule.premise_variables()
        self.values = [""] * (self.first + len(rule.derived))
        self.chosen = [0] * len(rule.premise)
        self.found: dict[Row, list[tuple[int, ...]]] = {}
        self.number = 0
        self.extend(0)
        self.steps = []

    def extend(self, depth: int) -> None:
        """Chooses rows for the atoms from this one on."""
        if depth == len(self.steps):
            self.keep()
            return
        step = self.steps[depth]
        for number in step.candidates(self.values):
            self.left -= 1
            if self.left < 0:
                raise TooMany()
            row = step.rows[number]
            for variable, column in step.new.items():
                self.values[variable] = row[column]
            self.chosen[step.place] = number
            self.extend(depth + 1)

    def keep(self) -> None:
        """Takes down a whole match."""
        for number, derived in enumerate(self.rule.derived, self.first):
            arguments = [self.values[one] for one in derived.arguments]
            self.values[number] = CONVERSIONS[derived.conversion].apply(*arguments)
        self.number += 1
        self.take(tuple([self.values[variable] for variable in self.exported]))
        if self.most_tuples is not None and len(self.found) > self.most_tuples:
            raise TooMany()

    def take(self, texts: Row) -> None:
        """Takes down the texts of a match, and its rows if they are kept."""
        found = self.found.setdefault(texts, [])
        if len(found) < self.kept:
            found.append(tuple(self.chosen))

    def places(self) -> list[Row]:
        """The tuples in ascending order: a tuple's place is its position."""
        return sorted(self.found)
