"""The ways that a line could go, each with a row of the source that shows what it means."""
from collections.abc import Iterator

from ..mapping.meaning import Mapping
from ..program import Refused
from ..rules.model import Drawing
from ..rules.proposing import Proposing
from ..rules.ways import Step, Way, spelled
from ..rules.whole import Faulty, read
from .change import CannotEdit
from .edits import edited
from .meant import bare
from .outline import Data
from .roots import Unreadable
from .sample import Sampler

LOOKED_AT = 200  # rows of which the one is shown on which the ways differ
SHOWN = 6  # cells of a row that are shown

Row = tuple[str, ...]


def choices(text: str, source: list[str | None], target: list[str], sampler: Sampler) -> Data:
    """What can be meant by a line from a column, or a whole set, to a target column: from which set the rows come and
    by which refs the value. Nothing if there is one way."""
    try:
        made = edited(text, {"do": "add_line", "source": {"columns": [source]}, "target": target})[0]
    except CannotEdit:  # the line is there, or the text has faults
        made = text
    try:
        drawing, mapping = read(made.encode()), bare(text.encode())
    except (Faulty, Refused):
        return {"choices": []}
    noted = list(dict.fromkeys(one.source.text for one in drawing.tree.rows if one.target.text == target[0]))
    is_whole = source[1] is None
    found = [(start, way) for start in noted or _starts(drawing, target[0])
             for way in _ways(drawing, start, str(source[0]), is_whole)]
    if len(found) < 2 or all(start == source[0] for start, _ in found) and not is_whole:
        return {"choices": []}
    shown = Shown(drawing, mapping, sampler)
    return {"choices": [shown.choice(start, way, source) for start, way in found], "noted": bool(noted)}


def _starts(drawing: Drawing, name: str) -> list[str]:
    """The sets of which the rows of a target set could come, that reach what the lines take."""
    return Proposing(drawing).starts.get(drawing.target_number(name), [])


def _ways(drawing: Drawing, start: str, goal: str, is_whole: bool) -> list[Way]:
    """The ways from a set to another; for a line from a whole set also those to another row of the same set."""
    one, other = drawing.source.numbers[start], drawing.source.numbers[goal]
    circles: list[Way] = [(step,) for step in drawing.ways.steps[one] if is_whole and one == step.table == other]
    return drawing.ways.walks(one, other) + circles


def _step(step: Step) -> str:
    """A step in words."""
    return "the inner row" if step.is_up else " and ".join(step.words)


class Shown:
    """Chooses a row for each set on which the ways differ."""

    def __init__(self, drawing: Drawing, mapping: Mapping, sampler: Sampler) -> None:
        self.drawing, self.mapping, self.sampler = drawing, mapping, sampler

    def choice(self, start: str, way: Way, source: list[str | None]) -> Data:
        """One choice: what is written, what it says, and what it gives for a row."""
        said = self._said(way, source)
        row = self._row(start, str(source[0]), source[1] is None)
        sample: Data | None = None
        if row is not None:
            number = self.drawing.source.numbers[start]
            there = next(self._ends(number, row, way), None)
            sample = {"row": self._cells(number, row),
                      "value": self._value(self.drawing.ways.end(number, way), there, source[1])}
        return {"from": start, "by": spelled(way), "says": said, "sample": sample}

    def _said(self, way: Way, source: list[str | None]) -> str:
        """A way in words."""
        what = f"{source[1]} of the {source[0]}" if source[1] else f"the {source[0]}"
        if not way:
            return f"{what} that the row comes from"
        said = [f"the {self.drawing.ways.name(step.table)} that {_step(step)} leads to" for step in way[:-1]]
        return f"{what} that {_step(way[-1])} leads to" + "".join(f", from {one}" for one in reversed(said))

    def _row(self, start: str, goal: str, is_whole: bool) -> Row | None:
        """A row of a set on which the ways to another differ most."""
        number = self.drawing.source.numbers[start]
        ways = _ways(self.drawing, start, goal, is_whole)
        best: tuple[int, Row] | None = None
        for row in self._rows(number):
            ends = [next(self._ends(number, row, way), None) for way in ways]
            count = len({end for end in ends if end is not None})
            if best is None or count > best[0]:
                best = (count, row)
            if count == len(ways):
                break
        return best[1] if best else None

    def _rows(self, number: int) -> Iterator[Row]:
        """The first rows of a table."""
        try:
            kept = self.sampler.rows_of(number, self.mapping)
        except (Unreadable, OSError, MemoryError):
            return
        for unit in range(min(LOOKED_AT, kept.root.count)):
            yield from (row for table, row in kept.root.facts(unit) if table == number)

    def _ends(self, number: int, row: Row, way: Way) -> Iterator[Row]:
        """The rows to which a way leads from a row."""
        if not way:
            yield row
            return
        step, rest = way[0], way[1:]
        try:
            kept = self.sampler.rows_of(step.table, self.mapping)
        except (Unreadable, OSError, MemoryError):
            return
        texts = tuple([row[column] for column in step.own])
        for unit in kept.index(step.table, step.referred).get(texts, []):
            for table, other in kept.root.facts(unit):
                if table == step.table and tuple([other[column] for column in step.referred]) == texts:
                    yield from self._ends(step.table, other, rest)

    def _cells(self, number: int, row: Row) -> list[list[str]]:
        columns = self.mapping.source[number].columns
        return [[name, text] for name, text in zip(columns, row) if not name.startswith("#")][:SHOWN]

    def _value(self, number: int, row: Row | None, column: str | None) -> str | list[list[str]] | None:
        """The value at the end of a way; of a whole set its row."""
        if row is None:
            return None
        return self._cells(number, row) if column is None else row[self.mapping.source[number].columns.index(column)]
