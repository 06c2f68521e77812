"""What rules are made of: needs (what has to be there besides the row itself), and the cells of their right sides."""
from dataclasses import dataclass
from typing import Optional, Union

from .ways import Step, Way


@dataclass(frozen=True)
class Test:
    """A test of a column of the row at the end of a way: that it is a text, or `filled` or `numeric`."""

    way: Way
    column: int
    text: Optional[str]
    name: Optional[str]


@dataclass(frozen=True)
class Need:
    """What must be there besides the row itself: the rows at the ends of ways, and tests."""

    ways: frozenset[Way] = frozenset()
    tests: frozenset[Test] = frozenset()

    def __or__(self, other: "Need") -> "Need":
        return Need(self.ways | other.ways, self.tests | other.tests)

    def __le__(self, other: "Need") -> bool:
        return self.ways <= other.ways and self.tests <= other.tests

    def __sub__(self, other: "Need") -> "Need":
        return Need(self.ways - other.ways, self.tests - other.tests)

    def after(self, way: Way) -> "Need":
        """What must be there for a row if the row at the end of a way has this need."""
        ways = frozenset(way + one for one in self.ways)
        tests = frozenset(Test(way + one.way, one.column, one.text, one.name) for one in self.tests)
        return Need(ways, tests) | of_way(way)

    def longest(self) -> list[Way]:
        """The ways that are no beginnings of others."""
        return [way for way in self.ways if not any(len(one) > len(way) and one[:len(way)] == way for one in self.ways)]


NOTHING = Need()


def of_way(way: Way) -> Need:
    """The need of all rows on a way."""
    return Need(frozenset(way[:count] for count in range(1, len(way) + 1)))


@dataclass(frozen=True)
class Var:
    """The text in a column of the row at the end of a way."""

    way: Way
    column: int


@dataclass(frozen=True)
class Call:
    """What a conversion makes of texts."""

    conversion: str
    arguments: tuple[Var, ...]


@dataclass(frozen=True)
class Literal:
    """A text."""

    text: str


@dataclass(frozen=True)
class Open:
    """A value that the rule leaves open: of a column of a target set, for the row at the end of a way."""

    rows: int
    way: Way
    column: int


Cell = Union[Var, Call, Literal, Open]


def after(cell: Cell, way: Way) -> Cell:
    """The cell as the row sees it from which a way leads to the cell's own."""
    if isinstance(cell, Var):
        return Var(way + cell.way, cell.column)
    if isinstance(cell, Call):
        return Call(cell.conversion, tuple(Var(way + one.way, one.column) for one in cell.arguments))
    return Open(cell.rows, way + cell.way, cell.column) if isinstance(cell, Open) else cell


def vars_of(cell: Cell) -> list[Var]:
    """The columns that a cell takes."""
    return [cell] if isinstance(cell, Var) else list(cell.arguments) if isinstance(cell, Call) else []


def need_of(cell: Cell) -> Need:
    """What must be there for a cell."""
    need = NOTHING
    for one in vars_of(cell):
        need |= of_way(one.way)
    return need


def behind_first(cell: Cell) -> Cell:
    """A cell without the first step of its ways."""
    if isinstance(cell, Call):
        return Call(cell.conversion, tuple(Var(one.way[1:], one.column) for one in cell.arguments))
    return Var(cell.way[1:], cell.column) if isinstance(cell, Var) else cell


def first_step(cell: Cell) -> Optional[Step]:
    """The step with which all ways of a cell begin, if it is one."""
    ways = [one.way for one in vars_of(cell)]
    steps = {way[0] for way in ways if way}
    return steps.pop() if len(steps) == 1 and all(ways) else None


@dataclass(frozen=True)
class Row:
    """A row of the target on the right side of a rule."""

    table: int
    cells: tuple[Cell, ...]

    def after(self, way: Way) -> "Row":
        """The row as it is seen from the beginning of a way."""
        return Row(self.table, tuple(after(cell, way) for cell in self.cells))
