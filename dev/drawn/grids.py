"""Tables as a figure shows them, with paths between their cells."""
from __future__ import annotations

from typing import NamedTuple

from clio_tools.picture.svg import LETTER, ROW, Element, curve, document, group, path, rectangle, text_at

Cell = tuple[str, int, str]  # a table, a row from 0, a column
HALO = "paint-order: stroke; stroke: var(--box); stroke-width: 4px; stroke-linejoin: round"  # paths go behind texts


class Grid(NamedTuple):
    """A table with its columns and rows, and the column of tables in which it is: 0 and 1 for the source, 2 and 3 for
    the target."""

    name: str
    place: int
    columns: str
    rows: list[str]


class Figure(NamedTuple):
    """Tables, the steps from cells to rows, and from which cell each value comes; rows that make none are struck
    out."""

    title: str
    grids: list[Grid]
    steps: list[tuple[Cell, Cell]]
    values: list[tuple[Cell, Cell]]
    struck: list[tuple[str, int]] = []


class Layout:
    """Where the tables of a figure are."""

    def __init__(self, figure: Figure) -> None:
        self.figure = figure
        self.widths = {grid.name: [max(len(word) for word in [name,
                                                              *[row.split(" ")[place] for row in grid.rows]]) * LETTER
                                                              + 16
                                   for place, name in enumerate(grid.columns.split(" "))] for grid in figure.grids}
        self.at: dict[str, tuple[float, float]] = {}
        x, self.low = 12.0, 0.0
        for place in (0, 1, 2, 3):
            y, wide = 40.0, 0.0
            for grid in figure.grids:
                if grid.place == place:
                    self.at[grid.name] = (x, y)
                    wide = max(wide, sum(self.widths[grid.name]))
                    y += (len(grid.rows) + 2) * ROW + 26
            x += wide + 90 * bool(wide)
            self.low = max(self.low, y)
        self.right = x - 90

    def cell(self, one: Cell, end: bool) -> tuple[float, float]:
        """The middle of the left or of the right side of a cell."""
        grid = next(grid for grid in self.figure.grids if grid.name == one[0])
        place = grid.columns.split(" ").index(one[2])
        x, y = self.at[one[0]]
        return x + sum(self.widths[one[0]][:place + end]) - (6 if end else -3), y + (one[1] + 2) * ROW + ROW / 2

    def box(self, grid: Grid) -> list[Element]:
        """A table without its texts."""
        x, y = self.at[grid.name]
        wide = sum(self.widths[grid.name])
        return [rectangle(x, y, wide, (len(grid.rows) + 2) * ROW + 4, "box"), rectangle(x, y, wide, ROW, "head"),
                text_at(x + 8, y + ROW / 2, grid.name, "title")]

    def texts(self, grid: Grid) -> list[Element]:
        """The names of the columns, and the cells."""
        x, y = self.at[grid.name]
        parts = []
        for place, name in enumerate(grid.columns.split(" ")):
            left = x + sum(self.widths[grid.name][:place]) + 8
            parts.append(text_at(left, y + 1.5 * ROW, name, "soft"))
            for number, row in enumerate(grid.rows):
                faint = (grid.name, number) in self.figure.struck
                parts.append(text_at(left, y + (number + 2.5) * ROW, row.split(" ")[place].replace("·", " "), "soft"
                                     if faint else ""))
        return parts

    def struck(self, grid: Grid) -> list[Element]:
        """What strikes rows out."""
        x, y = self.at[grid.name]
        wide = sum(self.widths[grid.name]) - 10
        return [path(f"M{x + 5:.0f} {y + (row + 2.5) * ROW:.0f}h{wide:.0f}", "way") for name, row in self.figure.struck
                if name == grid.name]

    def step(self, start: Cell, goal: Cell) -> str:
        """The path of a step; one inside a table goes round its right side."""
        x, y = self.cell(start, True)
        if start[0] != goal[0]:
            return curve(x, y, *self.cell(goal, False))
        _, to_y = self.cell(goal, True)
        return f"M{x:.0f} {y:.1f}C{x + 34:.0f} {y:.1f} {x + 34:.0f} {to_y:.1f} {x:.0f} {to_y:.1f}"

    def drawn(self) -> str:
        """The whole figure."""
        parts = [text_at(12, 18, self.figure.title, "title")]
        for grid in self.figure.grids:
            parts.append(group("ref", grid.name, self.box(grid)))
        for start, goal in self.figure.steps:
            parts.append(group("ref optional", "a step", [path(self.step(start, goal), "way")]))
        for number, (start, goal) in enumerate(self.figure.values):
            parts.append(group(f"line c{number}", "a value",
                               [path(curve(*self.cell(start, True), *self.cell(goal, False)))]))
        for grid in self.figure.grids:
            parts.append(group("", grid.name, self.texts(grid)).also(style=HALO))
            parts.append(group("ref", grid.name, self.struck(grid)))
        return document(max(self.right + 12, len(self.figure.title) * LETTER * 1.1 + 24), self.low - 14,
                        self.figure.title, parts)
