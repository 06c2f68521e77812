"""Hand-written rules, each as a small figure: what it asks for on the left, what it makes on the right, joined by the
variables that they share.
"""
from collections.abc import Generator, Iterable, Iterator

from clio_tools.mapping import tree
from clio_tools.mapping.meaning import Mapping
from clio_tools.mapping.printing import quoted
from clio_tools.mapping.rules import EXISTENTIAL, Cell, Rule
from clio_tools.mapping.tables import Table
from clio_tools.picture.svg import LETTER, PALETTE, ROW, Element, cut, curve, group, path, pill, rectangle, text_at

HEAD = 22
GAP = 10
BETWEEN = 110


def value_text(cell: tree.Cell) -> str:
    """A cell as it is written."""
    return quoted(cell.value.text) if cell.value.kind == "string" else cell.value.text


class AtomBox:
    """An atom: its set, and its columns with what stands in them."""

    def __init__(self, table: Table, cells: list[str]) -> None:
        self.name = table.name
        self.rows = [(cut(name, 24), cut(text, 22)) for name, text in zip(table.columns, cells)]

    def width(self) -> float:
        """As wide as its texts need."""
        rows = [(len(name) + len(text) + 3) * LETTER + 16 for name, text in self.rows]
        return max([len(self.name) * LETTER + 24, *rows])

    def height(self) -> float:
        """As high as its rows need."""
        return HEAD + len(self.rows) * ROW + 4

    def drawn(self, x: float, y: float, width: float) -> Iterator[Element]:
        """The box in SVG."""
        yield rectangle(x, y, width, self.height(), "box")
        yield rectangle(x + .5, y + .5, width - 1, HEAD - 2, "head")
        yield text_at(x + 8, y + HEAD / 2, cut(self.name, 40), "title")
        for place, (name, text) in enumerate(self.rows):
            middle = y + HEAD + ROW * (place + .5)
            yield text_at(x + 8, middle, name, "soft")
            yield text_at(x + width - 8, middle, text, "", "end")


class Figure:
    """The figure of a rule."""

    def __init__(self, title: str, rule: Rule, text: tree.Rule, mapping: Mapping) -> None:
        self.title = title
        self.rule, self.text, self.first = rule, text, rule.premise_variables()
        self.left = [AtomBox(mapping.source[atom.table], [cell.value.text for cell in written.cells])
                     for atom, written in zip(rule.premise, text.premise)]
        self.right = [AtomBox(mapping.target[atom.table], [value_text(cell) for cell in written.cells])
                      for atom, written in zip(rule.conclusion, text.conclusion)]
        self.names = {variable: cell.value.text for atom, written in zip(rule.premise, text.premise)
                      for variable, cell in zip(atom.cells, written.cells)}
        labels = [len(self.call(place)) * LETTER + 90 for place in range(len(rule.derived))]
        self.middle = max([BETWEEN, *labels])

    def call(self, place: int) -> str:
        """The conversion of a derived variable as it is written."""
        call = self.text.derived[place].call
        return cut(f"{call.name.text}({', '.join(cell.value.text for cell in call.cells)})", 40)

    def sides(self) -> tuple[float, float]:
        """The widths of both sides."""
        return max(box.width() for box in self.left), max(box.width() for box in self.right)

    def width(self) -> float:
        """As wide as its title, its sides and its labels need."""
        return max(sum(self.sides()) + self.middle, len(self.title) * LETTER) + 60

    def height(self) -> float:
        """As high as its higher side."""
        return 26 + max(sum(box.height() + GAP for box in boxes) for boxes in (self.left, self.right))

    def drawn(self, x: float, y: float) -> Iterator[Element]:
        """The figure in SVG, its upper left corner here."""
        left, right = self.sides()
        begin, end = x + 30 + left, x + 30 + left + self.middle
        yield text_at(x + 30, y + 8, self.title, "title")
        asked = yield from self.column(self.left, x + 30, y + 24, left)
        made = yield from self.column(self.right, end, y + 24, right)
        from_there = [(variable, height) for atom, heights in zip(self.rule.premise, asked)
                      for variable, height in zip(atom.cells, heights)]
        to_there = [(cell, height) for atom, heights in zip(self.rule.conclusion, made)
                    for cell, height in zip(atom.cells, heights)]
        yield from self.across(from_there, to_there, (begin, end))
        yield from self.beside(from_there, x + 30, -1)
        yield from self.beside([(int(cell.content), height) for cell, height in to_there if cell.kind == EXISTENTIAL],
                               end + right, 1)

    def column(self, boxes: list[AtomBox], x: float, y: float,
               width: float) -> Generator[Element, None, list[list[float]]]:
        """Draws atoms below each other; answers the heights of their cells."""
        heights = []
        for box in boxes:
            yield from box.drawn(x, y, width)
            heights.append([y + HEAD + ROW * (place + .5) for place in range(len(box.rows))])
            y += box.height() + GAP
        return heights

    def across(self, asked: list[tuple[int, float]], made: list[tuple[Cell, float]],
               between: tuple[float, float]) -> Iterator[Element]:
        """Joins each variable of the left with its places on the right; a conversion is a label between them."""
        begin, end = between
        first = dict(reversed(asked))
        for cell, height in made:
            if cell.kind == EXISTENTIAL or isinstance(cell.content, str):
                continue
            parts: list[Element] = []
            origins: tuple[int, ...] = (cell.content,)
            stop, title = end, self.names.get(cell.content, "")
            if cell.content >= self.first:
                place = cell.content - self.first
                origins = self.rule.derived[place].arguments
                title = f"{self.text.derived[place].name.text} = {self.call(place)}"
                drawn, stop = pill(end - 16, height, self.call(place))
                parts = [path(f"M{end - 16:.0f} {height:.1f}H{end:.0f}"), *drawn]
            for origin in origins:
                bend = curve(begin, first[origin], stop, height)
                parts = [path(bend, "wide"), path(bend), *parts]
            yield group(f"line c{cell.content % PALETTE}", title, parts)

    def beside(self, cells: Iterable[tuple[int, float]], x: float, direction: int) -> Iterator[Element]:
        """Joins cells of one side that have the same variable, by a bow beside the boxes."""
        places: dict[int, list[float]] = {}
        for variable, height in cells:
            places.setdefault(variable, []).append(height)
        for number, (variable, heights) in enumerate(sorted(places.items())):
            for one, other in zip(heights, heights[1:]):
                bow = x + direction * (18 + 5 * (number % 3))
                bend = f"M{x:.0f} {one:.1f}C{bow:.0f} {one:.1f} {bow:.0f} {other:.1f} {x:.0f} {other:.1f}"
                yield group(f"line c{variable % PALETTE}", "the same value", [path(bend, "wide"), path(bend)])


def flowed(figures: Iterable[Figure], x: float, y: float,
           width: float) -> tuple[list[tuple[Figure, float, float]], float, float]:
    """Figures with places beside and below each other, as they fit; and the width and the height that they take."""
    left, high, widest = x, 0.0, 0.0
    placed: list[tuple[Figure, float, float]] = []
    for figure in figures:
        if left > x and left + figure.width() > x + width:
            left, y, high = x, y + high + 24, 0.0
        placed.append((figure, left, y))
        left += figure.width() + 30
        high, widest = max(high, figure.height()), max(widest, left)
    return placed, widest, y + high
