"""What keys make equal and what core mode folds: tables before and after, with an arrow from each null to the value
that takes its place."""
from __future__ import annotations

from typing import NamedTuple

from clio_tools.picture.svg import LETTER, ROW, Element, document, group, path, rectangle, text_at
from drawn.pages import Tables, example, exchanged, first_example, without_keys

Rows = list[list[str]]
TOP, GAP, ARC, BETWEEN = 58, 26, 34, 96


class Merge(NamedTuple):
    """Two targets: as the rules make it, and as it is with the nulls of `fold` replaced; and what replaced them."""

    title: str
    before: dict[str, Rows]
    after: dict[str, Rows]
    fold: dict[str, str]
    cause: str


def widths_of(rows: Rows) -> list[float]:
    """The width of each column."""
    return [max(len(cell) for cell in column) * LETTER + 16 for column in zip(*rows)]


class Side:
    """The tables of one target, one below the other; cells of nulls that are replaced stand out."""

    def __init__(self, tables: dict[str, Rows], x: float, fold: dict[str, str]) -> None:
        self.tables, self.x, self.fold = tables, x, fold
        self.wide = max(sum(widths_of(rows)) for rows in tables.values())
        self.at: dict[str, float] = {}
        y = float(TOP)
        for name, rows in tables.items():
            self.at[name] = y
            y += (len(rows) + 1) * ROW + 4 + GAP
        self.low = y - GAP

    def drawn(self) -> list[Element]:
        """All tables."""
        return [group("ref", name, self.table(name, rows)) for name, rows in self.tables.items()]

    def table(self, name: str, rows: Rows) -> list[Element]:
        """One table."""
        y, widths = self.at[name], widths_of(rows)
        parts = [rectangle(self.x, y, sum(widths), (len(rows) + 1) * ROW + 4, "box"),
                 rectangle(self.x, y, sum(widths), ROW, "head"), text_at(self.x + 8, y + ROW / 2, name, "title")]
        for number, row in enumerate(rows):
            left = self.x + 8
            for cell, width in zip(row, widths):
                kind = "soft" if number == 0 else "key" if cell in self.fold else ""
                parts.append(text_at(left, y + (number + 1.5) * ROW, cell, kind))
                left += width
        return parts

    def arcs(self) -> list[Element]:
        """An arrow from each replaced null to its value, where both are in one column of a table."""
        made: list[Element] = []
        for name, rows in self.tables.items():
            for column in range(len(rows[0])):
                cells = [row[column] for row in rows]
                for number, cell in enumerate(cells):
                    value = self.fold.get(cell)
                    if number and value in cells[1:]:
                        goal = cells.index(value, 1)
                        made.append(self.arc(name, column, number, goal, len(made)))
        return made

    def arc(self, name: str, column: int, start: int, goal: int, number: int) -> Element:
        """An arrow round the left side of the first column, or else round the right side of the table."""
        rows = self.tables[name]
        side = -1 if column == 0 else 1
        x = self.x if column == 0 else self.x + sum(widths_of(rows))
        begin, end = (self.at[name] + (row + 1.5) * ROW for row in (start, goal))
        bend = x + side * (ARC - 6 + 5 * (number % 3))
        tip = f"M{x:.0f} {end:.1f}l{side * 7} -4v8z"
        way = f"M{x:.0f} {begin:.1f}C{bend:.0f} {begin:.1f} {bend:.0f} {end:.1f} {x + side * 5:.0f} {end:.1f}"
        return group("line key", f"{rows[start][column]} becomes {rows[goal][column]}",
                     [path(way), path(tip).also(style="fill: currentColor")])


def drawn(merge: Merge) -> str:
    """The figure: both sides, and between them what makes the one of the other."""
    left = Side(merge.before, 12 + ARC, merge.fold)
    right = Side(merge.after, left.x + left.wide + BETWEEN + len(merge.cause) * LETTER, {})
    middle, y = left.x + left.wide + ARC, (left.low + TOP) / 2
    parts = [text_at(12, 18, merge.title, "title"), text_at(left.x, 42, "as the rules make it", "soft"),
             text_at(right.x, 42, "what is left", "soft"), *left.drawn(), *left.arcs(), *right.drawn()]
    goal = right.x - 14
    parts.append(group("ref", merge.cause, [path(f"M{middle + 8:.0f} {y:.0f}H{goal - 6:.0f}"),
                                            path(f"M{goal:.0f} {y:.0f}l-7 -4v8z", "tip"),
                                            text_at((middle + goal) / 2, y - 12, merge.cause, "", "middle")]))
    return document(max(right.x + right.wide + 12, len(merge.title) * LETTER * 1.1 + 24), max(left.low, right.low) + 12,
                    merge.title, parts)


def merged(title: str, cause: str, before: Tables, after: Tables) -> str:
    """The figure of two exchanges."""
    return drawn(Merge(title, before.tables, after.tables, after.fold, cause))


def figures() -> dict[str, str]:
    """Each figure by its name."""
    teams, keyed, core = example("teams"), first_example("manual/keys.md"), first_example("manual/core.md")
    loose = without_keys(teams)
    return {"chase-teams": merged("the chase: key (label) of team", "key (label)", exchanged(loose), exchanged(teams)),
            "fold-teams": merged("the fold: rule 1 says nothing of toys that rule 0 doesn't say", "--core",
                                 exchanged(loose), exchanged(loose, "--core")),
            "chase-keys": merged("key (id) of person", "key (id)", exchanged(without_keys(keyed)), exchanged(keyed)),
            "fold-core": merged("core mode", "--core", exchanged(core), exchanged(core, "--core"))}
