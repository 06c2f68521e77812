"""How many cells the rules make of the files that are there, before the program is run.

A match of a rule counts once for each way in which the rows of its left side go together. Equal matches aren't looked
for, so the number is the most that there can be. Rules over documents aren't counted."""
import pathlib
from typing import Optional

from ..csv import read_table
from ..mapping.meanings import TESTS
from ..program import Refused
from .limits import links_of
from .model import Drawing, Made
from .terms import Test
from .ways import Step, Way

TARGET_CELLS = 4_000_000
Records = list[list[str]]


class Sizes:
    """Counts the cells that each rule makes; files are read once, and only if there are enough rows to pass the
    limit."""

    def __init__(self, drawing: Drawing, folder: pathlib.Path) -> None:
        self.drawing, self.folder = drawing, folder
        self.kept: dict[int, Optional[Records]] = {}

    def too_many(self) -> Optional[str]:
        """What to say if the rules make more cells than the program takes."""
        if sum(self._most(made) for made in self.drawing.made) <= TARGET_CELLS:
            return None
        cells = [self._matches(made) * _width(made) for made in self.drawing.made]
        if sum(cells) <= TARGET_CELLS:
            return None
        by_set: dict[str, int] = {}
        for made, count in zip(self.drawing.made, cells):
            for name in links_of(self.drawing, made):
                by_set[name] = by_set.get(name, 0) + count
        names = sorted(by_set, key=lambda name: -by_set[name])
        hint = f"write `lookup {', '.join(names)};`, or" if names else "split the source, or"
        return (f"the rules make {sum(cells):,} cells of the files here, and clio takes {TARGET_CELLS:,} (target "
                f"cells): "
                f"{hint} take clio-sql for this mapping, which `clio-rules --write --large` writes")

    def _most(self, made: Made) -> int:
        """At most so many cells come of a rule whose ways lead to one row each."""
        path = self.folder / f"{self.drawing.source_of(made.rows).name}.csv"
        if not path.is_file():
            return 0
        with open(path, "rb") as file:
            return sum(1 for _ in file) * _width(made)

    # --- exactly -----------------------------------------------------------------------------------------------------

    def _records(self, table: int) -> Optional[Records]:
        """The rows of a source set that pass its conditions, or None if they can't be read here."""
        if table not in self.kept:
            self.kept[table] = self._read(table)
        return self.kept[table]

    def _read(self, table: int) -> Optional[Records]:
        one = self.drawing.source.tables[table]
        tests = [(one.columns.index(each.place.column.text), TESTS[each.test.text].holds)
                 for each in self.drawing.tree.conditions if each.place.set.text == one.name]
        try:
            rows = read_table(self.folder / f"{one.name}.csv", list(one.columns))
            return [row for row in rows if all(test(row[place]) for place, test in tests)]
        except (OSError, Refused):
            return None

    def _matches(self, made: Made) -> int:
        """How often the left side of a rule matches."""
        return sum(self._counts(made.rows.source, (), made.need.ways, made.need.tests))

    def _counts(self, source: int, way: Way, ways: frozenset[Way], tests: frozenset[Test]) -> list[int]:
        """For each row at the end of a way, how often what is behind it matches."""
        records = self._records(self.drawing.ways.end(source, way)) or []
        mine = [test for test in tests if test.way == way]
        counts = [int(_passes(row, mine)) for row in records]
        for longer in ways:
            if len(longer) == len(way) + 1 and longer[:len(way)] == way:
                behind = self._summed(longer[-1], self._counts(source, longer, ways, tests))
                own = longer[-1].own
                counts = [count and count * behind.get(tuple([row[place] for place in own]), 0)
                          for count, row in zip(counts, records)]
        return counts

    def _summed(self, step: Step, counts: list[int]) -> dict[tuple[str, ...], int]:
        """The counts of the rows to which a step leads, by their referred columns."""
        found: dict[tuple[str, ...], int] = {}
        for row, count in zip(self._records(step.table) or [], counts):
            key = tuple([row[place] for place in step.referred])
            found[key] = found.get(key, 0) + count
        return found


def _width(made: Made) -> int:
    """The cells of a rule's right side."""
    return sum(len(row.cells) for row in made.conclusion)


def _passes(row: list[str], tests: list[Test]) -> bool:
    """Whether a row satisfies tests."""
    return all(row[test.column] == test.text if test.name is None else TESTS[test.name].holds(row[test.column])
               for test in tests)
