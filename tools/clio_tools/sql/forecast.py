"""How long the steps that are left may take: each in proportion to the cells that it reads, at the pace so far."""
from collections.abc import Sequence

from clio_tools.sql.script import Null, Script
from clio_tools.sql.tables import Table

MATCHES = "matches"
PUBLISHING = "putting the target in its place"
ORDERED = 2  # what a cell costs that is ordered or grouped, where one that is written costs 1
NULL_CELLS = 3  # of a row of nulls
FOLD_CELLS = 2  # of a row of fold


class Forecast:
    """The steps that are expected, with their weights."""

    def __init__(self) -> None:
        self.waiting: dict[str, float] = {}
        self.spent, self.done = 0.0, 0.0

    def expect(self, steps: dict[str, float]) -> None:
        """These steps are expected, the one under way among them."""
        self.waiting = dict(steps)

    def left(self, what: str, seconds: float) -> float | None:
        """After a step the seconds that the others may take; None if nothing is known of them."""
        self.spent += seconds
        self.done += self.waiting.pop(what, 0)
        if what.startswith("writing"):
            self.waiting = {name: weight for name, weight in self.waiting.items()
                            if name.startswith("writing") or name == PUBLISHING}
        return self.spent / self.done * sum(self.waiting.values()) if self.done and self.waiting else None


def expected(script: Script, tables: Sequence[Table], keys: Sequence[Table], rows: dict[int, int],
             at_end: bool) -> dict[str, float]:
    """The weights of all steps, by the rows of matches that were made; `keys` has a table for each of its keys and
    dependencies, and `at_end` says that all is written where the target is put in its place."""
    cells = {table.name: len(table.columns) * sum(rows.get(insert.rule, 0) for insert in table.inserts)
             for table in tables}
    steps: dict[str, float] = {MATCHES: ORDERED * sum(count * len(script.rules[rule].exported)
                                                      for rule, count in rows.items())}
    for table in keys:
        name = f"key of {table.name}"
        steps[name] = steps.get(name, 0) + ORDERED * cells[table.name]
    nulls = {cell: rows.get(insert.rule, 0) for insert in script.inserts for cell in insert.cells
             if isinstance(cell, Null)}
    merged = {cell for table in keys for insert in table.inserts for cell in insert.cells if isinstance(cell, Null)}
    written = {f"writing {table.name}": float(cells[table.name]) for table in tables}
    written["writing nulls"] = NULL_CELLS * sum(count * len(script.rules[null.rule].exported)
                                                for null, count in nulls.items() if null not in merged)
    written["writing fold"] = FOLD_CELLS * sum(nulls[null] for null in merged)
    return {**steps, PUBLISHING: sum(written.values())} if at_end else {**steps, **written}
