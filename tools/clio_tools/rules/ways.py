"""Ways from a row of the source to others, along refs and from an inner row to its outer one."""
from dataclasses import dataclass
from typing import Sequence

from ..mapping import tree
from ..mapping.cures import By as ByWay
from ..mapping.cures import Cure
from ..mapping.printing import printed_way
from ..mapping.schema import Schema
from ..mapping.places import Fault
from ..mapping.tokens import Token

MOST = 50  # ways that are looked for


class Wrong(Exception):
    """A statement can't be meant; the fault says why."""

    def __init__(self, fault: Fault) -> None:
        super().__init__(fault.said)
        self.fault = fault


def wrong(at: Token | tree.Part, said: str, *cures: Cure) -> Wrong:
    """A refusal that shows a word or a part of the drawing, and the edits that answer it."""
    return Wrong(Fault("meaning", at.start, at.end, said, cures=cures))


@dataclass(frozen=True)
class Step:
    """A link of a source table; the words say it in a drawing: the columns of a ref, or `up`."""

    own: tuple[int, ...]
    table: int
    referred: tuple[int, ...]
    words: tuple[str, ...]

    @property
    def is_up(self) -> bool:
        """Whether it leads to the outer row."""
        return self.words == ("up",)


Way = tuple[Step, ...]
By = Sequence[tree.Step]


class Ways:
    """The ways of a source, circles too: the row at the end of one is any that agrees on the columns of each step."""

    def __init__(self, schema: Schema) -> None:
        self.schema = schema
        self.steps: list[list[Step]] = []
        for table in schema.tables:
            steps = [Step(link.own, link.table, link.referred, ("up",) if link.is_up else tuple(table.named(link.own)))
                     for link in table.links]
            self.steps.append(list(dict.fromkeys(steps)))

    def name(self, table: int) -> str:
        """The name of a table."""
        return self.schema.tables[table].name

    def end(self, start: int, way: Way) -> int:
        """The table to which a way leads."""
        return way[-1].table if way else start

    def walks(self, start: int, goal: int) -> list[Way]:
        """The ways from a table to another that come to no table twice."""
        found: list[Way] = []
        near = self._leading_to(goal)

        def go(table: int, way: Way, seen: frozenset[int]) -> None:
            if table == goal:
                found.append(way)
                return
            for step in self.steps[table]:
                if step.table not in seen and step.table in near and len(found) <= MOST:
                    go(step.table, way + (step,), seen | {step.table})

        go(start, (), frozenset([start]))
        return found

    def _leading_to(self, goal: int) -> set[int]:
        """The tables from which a way leads to one."""
        found = {goal}
        while True:
            more = {number for number, steps in enumerate(self.steps) if any(step.table in found for step in steps)}
            if more <= found:
                return found
            found |= more

    def along(self, start: int, by: By) -> list[Way]:
        """The ways that go by these steps."""
        ways: list[Way] = [()]
        for words in by:
            names = [word.text for word in words.words]
            ways = [way + (step,) for way in ways for step in self.steps[self.end(start, way)]
                    if sorted(step.words) == sorted(names)]
        return ways

    def exactly(self, start: int, by: By) -> Way:
        """The one way that goes by these steps, to wherever it leads."""
        ways = self.along(start, by)
        if len(ways) == 1:
            return ways[0]
        if ways:
            raise wrong(by[-1], "several refs go by these columns, to " +
                        " and ".join(sorted({self.name(self.end(start, way)) for way in ways})))
        raise self._stopped(start, by)

    def _stopped(self, start: int, by: By) -> Wrong:
        """The refusal of steps that no refs go by."""
        count = next(count for count in range(1, len(by) + 1) if not self.along(start, by[:count]))
        sets = sorted({self.end(start, way) for way in self.along(start, by[:count - 1])})
        of = " or ".join(self.name(one) for one in sets)
        known = "; ".join(self.refs_of(one) for one in sets)
        return wrong(by[count - 1], f"no ref of {of} goes by {printed_way(tuple(by[count - 1:count]))}: {known}")

    def refs_of(self, table: int) -> str:
        """The steps from a table, in words."""
        said = [f"{word_of(step.words)} leads to {self.name(step.table)}" for step in self.steps[table]]
        return ", ".join(said) or f"{self.name(table)} has no ref"

    def to(self, start: int, goal: int, by: By, at: Token, what: str) -> Way:
        """The one way from a table to another, by the given steps and then the only way on; `at` is the word to
        blame."""
        begun = self.along(start, by)
        if not begun:
            raise self._stopped(start, by)
        ways = [way + rest for way in begun for rest in self.walks(self.end(start, way), goal)]
        if len(ways) == 1:
            return ways[0]
        if ways:
            listed = ", ".join("by " + spelled(way) for way in ways[:6])
            more = f" and {len(ways) - 6} more" if len(ways) > 6 else ""
            raise wrong(at, f"several ways lead from {self.name(start)} to {self.name(goal)} for {what}: say which, "
                            f"{listed}{more}", *[ByWay(spelled(way)) for way in ways[:6]])
        if by:
            ends = " or ".join(sorted({self.name(self.end(start, way)) for way in begun}))
            raise wrong(by[-1], f"by {printed_way(tuple(by))} leads from {self.name(start)} to {ends}, and from there "
                        f"no "
                                f"ref leads to {self.name(goal)}, which {what} needs")
        raise wrong(at, f"no ref leads from {self.name(start)} to {self.name(goal)}, which {what} needs: declare one "
                    f"in "
                        f"set {self.name(start)}, like ref (COLUMN) -> {self.name(goal)} (COLUMN);")


def word_of(words: tuple[str, ...]) -> str:
    """A step as it is written."""
    return words[0] if len(words) == 1 else "(" + ", ".join(words) + ")"


def spelled(way: Way) -> str:
    """A way as it is written after `by`."""
    return ".".join(word_of(step.words) for step in way)
