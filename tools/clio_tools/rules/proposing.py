"""`--propose`: a whole drawing of a mapping by lines. What is open is a comment, with the choices."""
from typing import Iterator, Optional

from ..mapping import tree
from ..mapping.printing import printed_argument, printed_line, quoted
from ..mapping.schema import Table
from .model import Drawing
from .ways import Way, spelled


class Proposing:
    """For each target set without `rows` that lines fill: from which source sets its rows could come."""

    def __init__(self, drawing: Drawing) -> None:
        self.drawing = drawing
        noted = {note.target.text for note in drawing.tree.rows}
        self.open = [table for table in drawing.targets if table.name not in noted]
        self.starts = {table.number: self._starts(table) for table in drawing.targets}

    def lines(self, table: Table) -> list[tree.Line]:
        """The lines from columns to a set."""
        return [line for line in self.drawing.tree.lines if line.target.set.text == table.name and line.arguments]

    def walks(self, start: str, goal: str) -> list[Way]:
        """The ways from a set to another."""
        numbers = self.drawing.source.numbers
        return self.drawing.ways.walks(numbers[start], numbers[goal])

    def _starts(self, table: Table) -> list[str]:
        """The source sets of which each reaches what no other of them does, those that reach a key if some do."""
        lines = self.lines(table)
        names = list(dict.fromkeys(one.set.text for line in lines for one in line.arguments))
        if any(len({one.set.text for one in line.arguments}) > 1 for line in lines):
            names += [one.name for one in self.drawing.source.tables if one.name not in names]
        reached = {name: {other for other in names if self.walks(name, other)} for name in names}

        def is_below(name: str, other: str) -> bool:
            return name in reached[other] and (other not in reached[name] or names.index(other) < names.index(name))

        tops = [name for name in names if not any(is_below(name, other) for other in names if other != name)]
        keys = {word.text for key in table.text.keys for word in key.columns}
        ends = [name for name in tops if any(line.target.column.text in keys and one.set.text in reached[name]
                                             for line in lines for one in line.arguments)]
        return self._inside(table, ends or tops)

    def _inside(self, table: Table, starts: list[str]) -> list[str]:
        """The sets from which the rows of an inner set could come: those that know the outer row, too."""
        if table.parent is None:
            return starts
        outer = self._starts(self.drawing.targets[table.parent])
        if any(name in outer or any(self.walks(name, one) for one in outer) for name in starts):
            return starts
        knowing = [one.name for one in self.drawing.source.tables
                   if all(self.walks(one.name, name) for name in starts)
                   and any(self.walks(one.name, name) for name in outer)]
        return [name for name in knowing if not any(self.walks(name, one) for one in knowing if one != name)] or starts

    def rows(self, table: Table) -> Iterator[str]:
        """The proposed `rows` of a set."""
        for name in self.starts[table.number]:
            musts = self._musts(table, name)
            yield f"rows {table.name} from {name}{' with ' + ', '.join(musts) if musts else ''};"

    def _musts(self, table: Table, name: str) -> list[str]:
        """The ways that must be there, as lines go them: to all columns if the set has no key, else to those of the
        key."""
        filled = {line.target.column.text for line in self.lines(table)}
        keys = [{word.text for word in key.columns} for key in table.text.keys]
        wanted = next((key for key in keys if key <= filled), set()) if keys else set(table.declared)
        walks = [self.walks(name, one.set.text) for line in self.lines(table) if line.target.column.text in wanted
                 for one in line.arguments]
        ways = {found[0] for found in walks if len(found) == 1 and any(not step.is_up for step in found[0])}
        return sorted(spelled(way) for way in ways
                      if not any(len(one) > len(way) and one[:len(way)] == way for one in ways))

    def choices(self, line: tree.Line) -> Iterator[str]:
        """What is open in a line, as comments: the ways that a column could come by, the sets that a text could be
        for."""
        starts = self.starts[self.drawing.target_number(line.target.set.text)]
        if line.literal and line.source is None and len(starts) > 1:
            yield f"// choose for {quoted(line.literal.text)}: {' or '.join('from ' + name for name in starts)}"
        for one in line.arguments:
            for name in starts:
                ways = [] if one.by else self.walks(name, one.set.text)
                if len(ways) > 1:
                    yield f"// choose for {printed_argument(one)} of each {name}: {_either(ways)}"

    def chosen(self, line: tree.Line) -> Optional[str]:
        """A line with the first of its choices, and the others as a comment; None if nothing is open in it."""
        starts = self.starts[self.drawing.target_number(line.target.set.text)]
        plain = printed_line(line).removesuffix(";")
        if line.literal and line.source is None and len(starts) > 1:
            return f"{plain} from {starts[0]};  // or {' or '.join('from ' + name for name in starts[1:])}"
        if len(line.arguments) != 1 or line.arguments[0].by or line.conversion:
            return next(self.choices(line), None)
        for name in starts:
            ways = self.walks(name, line.arguments[0].set.text)
            if len(ways) > 1:
                return f"{plain} by {spelled(ways[0])};  // or {_either(ways[1:])}"
        return None


def _either(ways: list[Way]) -> str:
    """Ways to choose from."""
    return " or ".join("by " + spelled(way) for way in ways[:6]) + (" or another" if len(ways) > 6 else "")

