"""The tables of a rule's premise, and how they are joined. Of many tables the order is that in which they are written
here, each after one that it is compared with: an engine that tries all orders takes longer to choose than to join."""
import re
from collections.abc import Iterator, Mapping, Sequence
from typing import NamedTuple

FEW = 7  # of so many tables an engine chooses the order, which for eight can take 40 ms
ATOM = re.compile(r'source\."([^"]+)" AS (a[0-9]+)')
EQUAL = re.compile(r'(a[0-9]+)\."([^"]+)" = (a[0-9]+)\."([^"]+)"')


class Equal(NamedTuple):
    """Two columns that have to be equal, each with the alias of its table."""
    one: tuple[str, str]
    other: tuple[str, str]

    @property
    def aliases(self) -> set[str]:
        """The aliases of both."""
        return {self.one[0], self.other[0]}

    def __str__(self) -> str:
        return " = ".join(f'{alias}."{column}"' for alias, column in self)


class Join:
    """What follows FROM in a script: source tables by their aliases, and what is equal in them."""

    def __init__(self, source: str) -> None:
        tables, _, where = source.partition(" WHERE ")
        self.tables = {alias: name for name, alias in ATOM.findall(tables)}
        self.equal = [Equal((one, here), (other, there)) for one, here, other, there in EQUAL.findall(where)]

    def columns(self) -> set[tuple[str, str]]:
        """The columns that are compared, each with its table."""
        return {(self.tables[alias], column) for equal in self.equal for alias, column in equal}

    def text(self, relations: Mapping[str, str]) -> str:
        """The same for an engine, of what stands for each table by its alias."""
        named = {alias: f"{relations[alias]} AS {alias}" for alias in self.tables}
        if len(named) <= FEW:
            return ", ".join(named.values()) + where_of(self.equal)
        chains: list[str] = []
        alone: list[Equal] = []
        for ordered in self.parts():
            steps = [named[ordered[0]]]
            for place in range(1, len(ordered)):
                before = set(ordered[:place])
                tests = [one for one in self.equal if ordered[place] in one.aliases
                         and one.aliases <= {ordered[place], *before}]
                steps.append(f"JOIN {named[ordered[place]]} ON {' AND '.join(map(str, tests))}")
            alone += [one for one in self.equal if one.aliases == {ordered[0]}]
            chains.append(" ".join(steps) if not chains or len(steps) == 1 else f"({' '.join(steps)})")
        return " CROSS JOIN ".join(chains) + where_of(alone)

    def parts(self) -> Iterator[list[str]]:
        """The aliases that are compared with each other, directly or not, each after one that it is compared with: the
        one first that is compared most with those before."""
        waiting = list(self.tables)
        while waiting:
            ordered = [waiting.pop(0)]
            while best := max(waiting, key=lambda one: self.tests(one, ordered), default=""):
                if not self.tests(best, ordered):
                    break
                waiting.remove(best)
                ordered.append(best)
            yield ordered

    def tests(self, alias: str, ordered: Sequence[str]) -> int:
        """By how many columns a table is compared with others."""
        return sum(len(one.aliases) == 2 and alias in one.aliases and not one.aliases.isdisjoint(ordered)
                   for one in self.equal)


def where_of(tests: Sequence[Equal]) -> str:
    """A condition that all of these hold."""
    return f" WHERE {' AND '.join(map(str, tests))}" if tests else ""
