"""The lines of a mapping, and the refs of a side: first where they are, then in SVG."""
from collections.abc import Iterable, Iterator
from typing import NamedTuple

from clio_tools.mapping.meaning import Column, Line, Mapping
from clio_tools.mapping.printing import quoted
from clio_tools.mapping.tables import Table
from clio_tools.picture.boxes import Places, Port
from clio_tools.picture.svg import LETTER, PALETTE, ROW, Element, curve, cut, group, path, pill

LANE = 9
LABEL = 24  # letters of a text on a line


class Joined(NamedTuple):
    """A line: the columns that it joins, what stands on it, its words, and its number in the text, if it has one there.

    The left end of a line from a whole set is the head of its box."""

    columns: tuple[Port, ...]
    target: Port
    label: str | None
    title: str
    number: int | None = None


def joined(mapping: Mapping) -> list[Joined]:
    """The lines of a mapping text."""
    return [Joined(line.columns, line.target, label_of(line), spelled(line, mapping)) for line in mapping.lines]


def label_of(line: Line) -> str | None:
    """What stands on a line: its text, or its conversion."""
    if line.literal is not None:
        return cut(quoted(line.literal), LABEL)
    return line.conversion


def heights_of(lines: Iterable[Joined]) -> dict[Port, int]:
    """For each column of the target how many lines with a label lead to it."""
    heights: dict[Port, int] = {}
    for line in lines:
        if line.label:
            heights[line.target] = heights.get(line.target, 0) + 1
    return heights


def edges_of(lines: Iterable[Joined]) -> list[tuple[Port, Port]]:
    """The pairs of columns that lines join; the head of a set counts as its first column."""
    return [((table, max(column, 0)), line.target) for line in lines for table, column in line.columns]


def name_of(tables: list[Table], column: Column) -> str:
    """A column with its set."""
    return f"{tables[column.table].name}.{tables[column.table].columns[column.column]}"


def spelled(line: Line, mapping: Mapping) -> str:
    """A line as it is written in the mapping."""
    origin = ", ".join(name_of(mapping.source, column) for column in line.columns)
    if line.literal is not None:
        origin = quoted(line.literal)
    elif line.conversion:
        origin = f"{line.conversion}({origin})"
    return f"line {origin} -> {name_of(mapping.target, line.target)}"


class LineShape(NamedTuple):
    """Where a line is: its curves, and its label with its right end; and its color by number, if it has one."""

    line: Joined
    curves: list[str]
    label: tuple[float, float, str] | None
    color: int | None

    def drawn(self) -> Element:
        """The line in SVG."""
        parts: list[Element] = []
        if self.label:
            right, height, text = self.label
            parts = [path(f"M{right:.0f} {height:.1f}H{right + 18:.0f}"), *pill(right, height, text)[0]]
        for place in self.curves:
            parts = [path(place, "wide"), path(place), *parts]
        return group("line soft" if self.color is None else f"line c{self.color}", self.line.title, parts,
                     self.line.number)


class Lines:
    """The lines between two sides whose columns have their places."""

    def __init__(self, lines: list[Joined], source: list[Table], left: Places, right: Places,
                 between: tuple[float, float]) -> None:
        self.lines, self.source, self.left, self.right = lines, source, left, right
        self.begin, self.end = between
        self.heights = self.label_heights()
        labels = [len(line.label) * LETTER + 42 for line in lines if line.label]
        self.level = self.end - max(labels, default=0)  # from here on lines are level, so that none crosses a label

    def label_heights(self) -> dict[int, float]:
        """Where the label of each line is: below each other, in the order of what they are from."""
        labelled: dict[Port, list[int]] = {}
        for number, line in enumerate(self.lines):
            if line.label:
                labelled.setdefault(line.target, []).append(number)
        heights: dict[int, float] = {}
        for target, numbers in labelled.items():
            numbers.sort(key=lambda number: [self.left[column] for column in self.lines[number].columns])
            top = self.right[target] - ROW * (len(numbers) - 1) / 2
            heights.update({number: top + ROW * place for place, number in enumerate(numbers)})
        return heights

    def color(self, line: Joined) -> int | None:
        """A color for each root of the source."""
        if not line.columns:
            return None
        table = line.columns[0][0]
        while (parent := self.source[table].parent) is not None:
            table = parent
        roots = [number for number, one in enumerate(self.source) if one.parent is None]
        return roots.index(table) % PALETTE

    def shapes(self) -> Iterator[LineShape]:
        """Where each line is."""
        for number, line in enumerate(self.lines):
            end, height, label = self.end, self.right[line.target], None
            if line.label:
                height = self.heights[number]
                label = (self.end - 18, height, line.label)
                end = pill(*label)[1]
            curves = [curve(self.begin, self.left[column], self.level, height) + f"H{end:.0f}"
                      for column in line.columns]
            yield LineShape(line, curves, label, self.color(line))


class Drawn(NamedTuple):
    """A ref: the heights of its columns and of those that they lead to, its words, and whether it is optional."""

    own: list[float]
    there: list[float]
    title: str
    is_optional: bool


class RefShape(NamedTuple):
    """Where a ref is: its way, and its tips."""

    ref: Drawn
    way: str
    tips: str

    def drawn(self) -> Element:
        """The ref in SVG, an optional one with dashes."""
        parts = [path(self.way, "wide"), path(self.way, "way"), path(self.tips, "tip")]
        return group("ref optional" if self.ref.is_optional else "ref", self.ref.title, parts)


class Refs:
    """The refs of a side, each in a lane beside the boxes, so that no two overlap."""

    def __init__(self, tables: list[Table], places: Places, order: Iterable[int]) -> None:
        self.refs: list[Drawn] = []
        for number in order:
            table = tables[number]
            for link in table.every_link()[table.parent is not None:]:
                own = [places[number, column] for column in link.own]
                there = [places[link.table, column] for column in link.referred]
                is_optional = any(link is one for one in table.optional_links)
                columns = ", ".join(table.columns[column] for column in link.own)
                referred = ", ".join(tables[link.table].columns[column] for column in link.referred)
                title = (f"ref ({columns}) -> {tables[link.table].name} ({referred}) of {table.name}"
                         + ", optional" * is_optional)
                self.refs.append(Drawn(own, there, title, is_optional))
        self.lanes = self.in_lanes()

    def in_lanes(self) -> dict[int, int]:
        """For each ref its lane: the shortest are nearest to the boxes."""
        taken: list[list[tuple[float, float]]] = []
        lanes: dict[int, int] = {}
        spans = sorted((max(own + there) - min(own + there), place) for place, (own, there, *_) in enumerate(self.refs))
        for _, place in spans:
            own, there, *_ = self.refs[place]
            low, high = min(own + there), max(own + there)
            lane = next((one for one, used in enumerate(taken)
                         if all(high < begin or end < low for begin, end in used)), len(taken))
            if lane == len(taken):
                taken.append([])
            taken[lane].append((low, high))
            lanes[place] = lane
        return lanes

    def width(self) -> float:
        """How much room the lanes take."""
        return LANE * (max(self.lanes.values(), default=-1) + 1) + 16

    def shapes(self, x: float, direction: int) -> Iterator[RefShape]:
        """Where each ref is; `x` is the rim of the boxes, and lanes go from there to the left (-1) or to the right (1).
        """
        for place, ref in enumerate(self.refs):
            lane = x + direction * (12 + LANE * self.lanes[place])
            way = "".join(f"M{x:.0f} {one:.1f}H{lane:.0f}V{ref.there[0] + 3:.1f}" for one in ref.own)
            way += "".join(f"M{lane:.0f} {one + 3:.1f}H{x + direction * 6:.0f}" for one in ref.there)
            tips = "".join(f"M{x:.0f} {one + 3:.1f}l{direction * 7} -4v8z" for one in ref.there)
            yield RefShape(ref, way, tips)
