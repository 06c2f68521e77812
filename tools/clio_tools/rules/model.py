"""A drawing as far as it is worked out: what its notes say of each target set."""
from dataclasses import dataclass, field
from typing import NamedTuple, Optional

from ..mapping import tree
from ..mapping.cures import Cure
from ..mapping.schema import Link, Schema, Table
from ..mapping.places import Fault
from .terms import NOTHING, Cell, Need, Row
from .ways import Step, Way, Ways


@dataclass(frozen=True)
class Value:
    """What a line gives to a column, and what must be there for it; the key of a set that is looked up has no line."""

    cell: Cell
    need: Need
    line: Optional[tree.Line]

    @property
    def is_tested(self) -> bool:
        """Whether the line has tests."""
        return self.line is not None and bool(self.line.tests)


@dataclass(frozen=True)
class Use:
    """A target link that goes to the row made of the source row at the end of a way."""

    link: Link
    way: Way
    rows: "Rows"
    need: Need
    line: Optional[tree.Line]


@dataclass(frozen=True)
class Wish:
    """What a line from a whole set says: by which way its link goes to which rows."""

    link: Link
    way: Way
    rows: "Rows"
    need: Need
    line: tree.Line


@dataclass(eq=False)
class Rows:
    """One `rows` statement, or without a note the rows of a set that is looked up in."""

    number: int
    note: Optional[tree.Rows]
    target: int
    source: int
    base: Need = NOTHING
    values: dict[int, list[Value]] = field(default_factory=dict)
    wishes: list[Wish] = field(default_factory=list)
    uses: list[Use] = field(default_factory=list)
    looked: dict[Step, list[tuple[int, int]]] = field(default_factory=dict)
    held: dict[Cell, int] = field(default_factory=dict)
    outer: Optional[Use] = None
    key: Optional[tuple[int, ...]] = None
    lines: list[tree.Line] = field(default_factory=list)


@dataclass(frozen=True)
class Made:
    """A rule: whose rows it makes, what must be there beyond their base, its right side, and the lines it comes
    from."""

    rows: Rows
    extra: Need
    conclusion: tuple[Row, ...]
    columns: tuple[int, ...]
    lines: tuple[tree.Line, ...]

    @property
    def need(self) -> Need:
        """All that must be there."""
        return self.rows.base | self.extra


class Remark(NamedTuple):
    """What a drawing may not be meant to say, of the `rows` at a byte, and the edits that the words name."""

    said: str
    at: int
    cures: tuple[Cure, ...]


@dataclass
class Drawing:
    """A drawing with its schemas and what is worked out of it so far."""

    tree: tree.Tree
    source: Schema
    targets: list[Table]
    ways: Ways
    rows: list[Rows] = field(default_factory=list)
    noted: dict[int, list[Rows]] = field(default_factory=dict)
    looked_up: dict[tuple[int, tuple[int, ...]], Rows] = field(default_factory=dict)
    made: list[Made] = field(default_factory=list)
    faults: list[Fault] = field(default_factory=list)
    remarks: list[Remark] = field(default_factory=list)
    waiting: frozenset[str] = frozenset()  # sets that make no rows as long as theirs have no line

    def remark(self, rows: Rows, said: str, *cures: Cure) -> None:
        """Remarks something of rows."""
        self.remarks.append(Remark(said, rows.note.target.start if rows.note else -1, cures))

    def target_of(self, rows: Rows) -> Table:
        """The target set of rows."""
        return self.targets[rows.target]

    def source_of(self, rows: Rows) -> Table:
        """The source set of rows."""
        return self.source.tables[rows.source]

    def target_number(self, name: str) -> int:
        """The number of a target set; names were looked at before."""
        return next(table.number for table in self.targets if table.name == name)

    def column(self, rows: Rows, place: int) -> str:
        """A target column as `set.column`."""
        table = self.target_of(rows)
        return f"{table.name}.{table.columns[place]}"

    def has_condition(self, table: int) -> bool:
        """Whether an `only` can take rows of a source set away."""
        return any(one.place.set.text == self.source.tables[table].name for one in self.tree.conditions)
