"""A whole mapping: where its boxes, refs, lines and rules are, and the picture of them in SVG. clio-picture writes it,
and the page of clio-draw shows it."""
import math
from collections.abc import Iterator
from typing import NamedTuple

from clio_tools.mapping.meaning import Mapping
from clio_tools.mapping.rules import numbers_of
from clio_tools.mapping.tables import Table
from clio_tools.picture.boxes import Box, Tests, stacked
from clio_tools.picture.figures import Figure, flowed
from clio_tools.picture.lines import Joined, LineShape, Lines, RefShape, Refs, edges_of, heights_of, joined
from clio_tools.picture.ordering import Boxes, ordered
from clio_tools.picture.svg import LETTER, Element, document, root, text_at

TOP = 52


class Layout(NamedTuple):
    """Where all of a mapping is: the left rims of both sides, their boxes, refs and lines, the rules that are written
    by hand with the left upper corner of each, and the size of the whole."""

    sides: tuple[float, float]
    boxes: list[Box]
    refs: list[RefShape]
    lines: list[LineShape]
    rules: list[tuple[Figure, float, float]]
    width: float
    height: float


class Picture:
    """Both sides with the lines between them, and below them the rules that are written by hand; `shown` has all rules
    as clio prints them. The lines are those of the mapping, or those that are given.
    """

    def __init__(self, mapping: Mapping, name: str, shown: list[str] | None = None,
                 lines: list[Joined] | None = None) -> None:
        self.mapping, self.name, self.shown = mapping, name, shown
        self.lines = joined(mapping) if lines is None else lines
        heights = heights_of(self.lines)
        tests: Tests = {}
        for condition in mapping.conditions:
            tests.setdefault(condition.column, []).append(condition.test)
        left = [Box(mapping.source, number, {}, tests) for number in roots(mapping.source)]
        right = [Box(mapping.target, number, heights) for number in roots(mapping.target)]
        one, other = ordered([(box.number, box.ports()) for box in left],
                             [(box.number, box.ports()) for box in right], edges_of(self.lines))
        self.left = in_order(left, one)
        self.right = in_order(right, other)

    def between(self) -> float:
        """How much room the lines take: more if there are many, and the labels besides."""
        labels = [len(line.label) * LETTER + 40 for line in self.lines if line.label]
        return min(700, 150 + 26 * math.sqrt(len(self.lines))) + max(labels, default=0)

    def layout(self) -> Layout:
        """Where everything is."""
        places, _, _ = stacked(self.left, 0, TOP)
        refs = Refs(self.mapping.source, places, numbers(self.left))
        x = refs.width()
        left, wide, low = stacked(self.left, x, TOP)
        begin = x + wide
        end = begin + self.between()
        right, wide_right, low_right = stacked(self.right, end, TOP)
        other_refs = Refs(self.mapping.target, right, numbers(self.right))
        lines = Lines(self.lines, self.mapping.source, left, right, (begin, end))
        width, height = end + wide_right + other_refs.width(), max(low, low_right)
        rules, more, height = self.rules(height, width)
        return Layout((x, end), self.left + self.right,
                      [*refs.shapes(x, -1), *other_refs.shapes(end + wide_right, 1)], list(lines.shapes()), rules,
                      max(width, more) + 8, height + 16)

    def drawn(self) -> str:
        """The picture as a text."""
        layout = self.layout()
        return document(layout.width, layout.height, f"the mapping {self.name}", self.parts(layout))

    def as_data(self) -> list[object]:
        """The picture as JSON can hold it, without styles."""
        layout = self.layout()
        return root(layout.width, layout.height)._replace(inside=tuple(self.parts(layout))).as_data()

    def parts(self, layout: Layout) -> Iterator[Element]:
        """The parts of the picture in SVG."""
        yield text_at(layout.sides[0], 18, self.name, "title")
        yield text_at(layout.sides[0], 40, "source", "soft")
        yield text_at(layout.sides[1], 40, "target", "soft")
        yield from (ref.drawn() for ref in layout.refs)
        yield from (line.drawn() for line in layout.lines)
        for box in layout.boxes:
            yield from box.drawn()
        for figure, x, y in layout.rules:
            yield from figure.drawn(x, y)

    def titles(self) -> list[str]:
        """What is above the figure of each rule: its number among those that clio prints, if they are known."""
        mapping = self.mapping
        if self.shown is None:
            return ["a hand-written rule" for _ in mapping.rules]
        return ["left out, since other rules imply it" if number is None else f"rule {number}"
                for number in numbers_of(mapping.rules, mapping.source, mapping.target, self.shown)]

    def rules(self, y: float, width: float) -> tuple[list[tuple[Figure, float, float]], float, float]:
        """The figures of the rules with their places; and the width and the height up to their ends."""
        figures = [Figure(title, rule, text, self.mapping)
                   for title, rule, text in zip(self.titles(), self.mapping.rules, self.mapping.texts)]
        return flowed(figures, 8, y + 20, max(width, 900)) if figures else ([], 0, y)


def in_order(boxes: list[Box], order: Boxes[int]) -> list[Box]:
    """Boxes in the order of their numbers there."""
    named = {box.number: box for box in boxes}
    return [named[number] for number, _ in order]


def numbers(boxes: list[Box]) -> list[int]:
    """The tables of boxes and of those inside them."""
    return [number for box in boxes for number in [box.number, *numbers(box.inner)]]


def roots(tables: list[Table]) -> list[int]:
    """The numbers of the root sets."""
    return [number for number, table in enumerate(tables) if table.parent is None]
