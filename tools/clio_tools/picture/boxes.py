"""The boxes of a side: a box for each root set, with the boxes of its inner sets inside, and where each column is."""
from collections.abc import Iterator

from clio_tools.mapping.tables import Table
from clio_tools.picture.svg import LETTER, ROW, Element, cut, group, rectangle, text_at

WHOLE = -1
Port = tuple[int, int]  # the numbers of a table and of a column; WHOLE is the head of the table's box
Places = dict[Port, float]  # the middle heights of columns
Tests = dict[Port, list[str]]  # what conditions ask of columns

HEAD = 22
INSET = 14
GAP = 16
LONGEST = 40


class Box:
    """A set as a box; `heights` has, for columns to which several labels lead, how many rows they take."""

    def __init__(self, tables: list[Table], number: int, heights: dict[Port, int], tests: Tests | None = None) -> None:
        self.table, self.number, self.tests = tables[number], number, tests or {}
        self.columns = [(column, name) for column, name in enumerate(self.table.columns) if not name.startswith("#")]
        self.heights = {column: ROW * max(1, heights.get((number, column), 1)) for column, _ in self.columns}
        self.inner = [Box(tables, inner, heights, tests) for inner in self.table.inner]
        self.marks = {column: self.marks_of(column) for column, _ in self.columns}
        self.notes = [f"dep ({', '.join(one.left)}) -> ({', '.join(one.right)})"
                      for one in self.table.tree.dependencies]
        self.places: Places = {}
        self.x = self.y = self.wide = self.low = 0.0

    def mark(self, column: int) -> str:
        """Which of the declared keys a column is in."""
        declared = [key for key in self.table.keys if self.table.columns[key[0]] != "#id"]
        found = [str(place + 1) for place, key in enumerate(declared) if column in key]
        return ("key" if len(declared) == 1 else "key " + ",".join(found)) if found else ""

    def marks_of(self, column: int) -> list[tuple[str, str]]:
        """What is beside a column, from the right: the keys it is in, and what conditions ask of it, each with its
        kind.
        """
        tests = ", ".join(f"only {test}" for test in self.tests.get((self.number, column), ()))
        return [one for one in ((self.mark(column), "key"), (tests, "only")) if one[0]]

    def width(self) -> float:
        """As wide as its names and its inner boxes need."""
        own = max(len(cut(name, LONGEST)) + 3 + sum(len(text) + 1 for text, _ in self.marks[column])
                  for column, name in self.columns)
        lines = [own, len(cut(self.table.name, LONGEST)) + 4] + [len(cut(note, LONGEST)) + 2 for note in self.notes]
        return max([max(lines) * LETTER + 20] + [inner.width() + 2 * INSET for inner in self.inner])

    def height(self) -> float:
        """As high as its columns, its notes and its inner boxes need."""
        own = HEAD + sum(self.heights.values()) + ROW * len(self.notes) + 6
        return own + sum(inner.height() + 8 for inner in self.inner)

    def ports(self) -> list[Port]:
        """The columns of the box and of those inside it, from the top."""
        inside = [port for inner in self.inner for port in inner.ports()]
        return [(self.number, column) for column, _ in self.columns] + inside

    def place(self, x: float, y: float, width: float) -> None:
        """Puts the box at a place; `places` gets for its head and each column its middle height."""
        self.x, self.y, self.wide = x, y, width
        self.places[self.number, WHOLE] = y + HEAD / 2
        y += HEAD
        for column, _ in self.columns:
            self.places[self.number, column] = y + self.heights[column] / 2
            y += self.heights[column]
        self.low = y
        y += ROW * len(self.notes) + 4
        for inner in self.inner:
            inner.place(x + INSET, y, width - 2 * INSET)
            self.places.update(inner.places)
            y += inner.height() + 8

    def drawn(self) -> Iterator[Element]:
        """The box in SVG."""
        yield rectangle(self.x, self.y, self.wide, self.height(), "box")
        yield rectangle(self.x + .5, self.y + .5, self.wide - 1, HEAD - 2, "head")
        yield text_at(self.x + 8, self.y + HEAD / 2, cut(self.table.name, LONGEST), "title")
        for column, name in self.columns:
            middle = self.places[self.number, column]
            yield text_at(self.x + 10, middle, cut(name, LONGEST))
            right = self.x + self.wide - 8
            for text, kind in self.marks[column]:
                yield text_at(right, middle, text, kind, "end")
                right -= (len(text) + 1) * LETTER
        for place, note in enumerate(self.notes):
            yield group("dep", note, [text_at(self.x + 10, self.low + ROW * (place + .5), cut(note, LONGEST), "soft")])
        for inner in self.inner:
            yield from inner.drawn()


def stacked(boxes: list[Box], x: float, y: float) -> tuple[Places, float, float]:
    """Puts boxes below each other, all as wide as the widest; answers the places of all heads and columns, the width
    and the end.
    """
    width = max((box.width() for box in boxes), default=120.0)
    places: Places = {}
    for box in boxes:
        box.place(x, y, width)
        places.update(box.places)
        y += box.height() + GAP
    return places, width, y
