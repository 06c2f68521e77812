"""What the notes of a drawing say of each target set: from which rows it is made, and which values lines give it."""
from functools import partial
from typing import Callable, Optional

from ..mapping import tree
from ..mapping.cures import RowsFrom
from ..mapping.names import of_conversion, of_set
from ..mapping.tokens import Token
from .model import Drawing, Rows, Value, Wish
from .terms import NOTHING, Call, Literal, Need, Test, Var, of_way
from .ways import Way, Wrong, wrong


def read_rows(drawing: Drawing) -> None:
    """The `rows` statements, each with its base as far as `with` and `where` say it."""
    for note in drawing.tree.rows:
        _guarded(drawing, partial(_begin, drawing, note))
    for word in drawing.tree.lookups:
        fault = of_set(word, drawing.source)
        drawing.faults += [fault] if fault else []


def read_lines(drawing: Drawing) -> None:
    """The values and wishes of lines, for each `rows`; a line that serves none is refused."""
    used: set[int] = set()
    for rows in drawing.rows:
        for line in _lines_of(drawing, rows):
            _guarded(drawing, partial(_read_line, drawing, line, rows, used))
    for line in drawing.tree.lines:
        _guarded(drawing, partial(_check_use, drawing, line, used))


def _guarded(drawing: Drawing, work: Callable[[], None]) -> None:
    """Does a piece of work, and keeps its fault."""
    try:
        work()
    except Wrong as why:
        if why.fault not in drawing.faults:
            drawing.faults.append(why.fault)


def _begin(drawing: Drawing, note: tree.Rows) -> None:
    """One `rows` statement."""
    source = drawing.source.find(note.source.text)
    if source is None:
        fault = of_set(note.source, drawing.source)
        raise wrong(note.source, fault.said if fault else "")
    if note.target.text not in [table.name for table in drawing.targets]:
        names = ", ".join(table.name for table in drawing.targets)
        raise wrong(note.target, f"the target has no set {note.target.text}; it has {names}")
    rows = Rows(len(drawing.rows), note, drawing.target_number(note.target.text), source.number)
    for must in note.musts:
        rows.base |= of_way(drawing.ways.exactly(source.number, must))
    rows.base |= need_of_tests(drawing, note.tests, source.number)
    drawing.rows.append(rows)
    drawing.noted.setdefault(rows.target, []).append(rows)


def need_of_tests(drawing: Drawing, tests: tuple[tree.Test, ...], source: int) -> Need:
    """What must be there for tests on a row."""
    need = NOTHING
    for test in tests:
        way = drawing.ways.exactly(source, test.steps)
        table = drawing.source.tables[drawing.ways.end(source, way)]
        if test.column.text not in table.declared:
            raise wrong(test.column, f"{table.name} has no column {test.column.text}; it has "
                        f"{', '.join(table.declared)}")
        if test.name is not None and (table.inner or table.parent is not None):
            raise wrong(test.name, f"`where .. {test.name.text}` takes a copy of the set, and {table.name} is in a "
                        f"document: write `only {table.name}.{test.column.text} {test.name.text};`, which holds for "
                        f"all "
                        "rules")
        made = Test(way, table.columns.index(test.column.text), test.text.text if test.text else None,
                    test.name.text if test.name else None)
        need |= of_way(way) | Need(frozenset(), frozenset([made]))
    return need


# --- lines -----------------------------------------------------------------------------------------------------------

def _lines_of(drawing: Drawing, rows: Rows) -> list[tree.Line]:
    """The lines that may serve rows: those to the target set that are not for the rows of another source set."""
    name, source = drawing.target_of(rows).name, drawing.source_of(rows).name
    return [line for line in drawing.tree.lines
            if line.target.set.text == name and (line.source is None or line.source.text == source)]


def _read_line(drawing: Drawing, line: tree.Line, rows: Rows, used: set[int]) -> None:
    """Takes what a line gives to rows; a line that can't serve these may serve others of the same target set."""
    if line.source is None and len(drawing.noted[rows.target]) > 1:
        try:
            _take(drawing, line, rows)
        except Wrong as why:
            if isinstance(why, _Doubled):
                raise
            return
    else:
        used.add(line.start)
        _take(drawing, line, rows)
    used.add(line.start)
    rows.lines.append(line)


class _Doubled(Wrong):
    """Two lines give a value to one cell."""


def _take(drawing: Drawing, line: tree.Line, rows: Rows) -> None:
    """What a line gives to rows."""
    column = drawing.target_of(rows).columns.index(line.target.column.text)
    found = value_of(drawing, line, rows, column)
    if isinstance(found, Value):
        _put(drawing, rows, column, found)
    else:
        rows.wishes += found


def _put(drawing: Drawing, rows: Rows, column: int, value: Value) -> None:
    """Adds a value to a column, if the column has no other without tests."""
    others = rows.values.setdefault(column, [])
    if not value.is_tested and any(not other.is_tested for other in others) and value.line:
        of = drawing.column(rows, column)
        fault = wrong(value.line.target.column, f"two lines give {of} a value in rows from "
                      f"{drawing.source_of(rows).name}: "
                      "a cell holds one; say `from SET` or `where TEST` on one of them, or make it a column of its "
                      "own").fault
        raise _Doubled(fault)
    others.append(value)


def _check_use(drawing: Drawing, line: tree.Line, used: set[int]) -> None:
    """Refuses a line with notes whose target set has no `rows`, and one that serves no `rows`."""
    target = drawing.target_number(line.target.set.text)
    name = line.target.set.text
    if target not in drawing.noted:
        if not line.is_plain:
            start = line.arguments[0].set.text if line.arguments else "SET"
            raise wrong(line.target.set, f"this line has a note, so say from which set the rows of {name} come: "
                        f"rows {name} from {start};", RowsFrom(name, start if line.arguments else ""))
        return
    if line.start in used:
        return
    sources = " and ".join(dict.fromkeys(drawing.source_of(rows).name for rows in drawing.noted[target]))
    if line.source:
        fault = of_set(line.source, drawing.source)
        raise wrong(line.source, fault.said if fault else
                    f"the rows of {name} come from {sources}, not from {line.source.text}")
    why = _why_not(drawing, line, drawing.noted[target][0])
    at: Token | tree.Part = line.arguments[0].set if line.arguments else line.target.set
    raise why or wrong(at, f"this line reaches no row of {name}, whose rows come from {sources}")


def _why_not(drawing: Drawing, line: tree.Line, rows: Rows) -> Optional[Wrong]:
    """What keeps a line from rows."""
    try:
        value_of(drawing, line, rows, drawing.target_of(rows).columns.index(line.target.column.text))
    except Wrong as why:
        return why
    return None


def value_of(drawing: Drawing, line: tree.Line, rows: Rows, column: int) -> Value | list[Wish]:
    """What a line gives to a row: a value, or of a line from a whole set the wish that a link goes there."""
    need = need_of_tests(drawing, line.tests, rows.source)
    if line.literal is not None:
        return Value(Literal(line.literal.text), need, line)
    cells = []
    for argument in line.arguments:
        way = _way_of(drawing, rows, argument, column)
        if argument.column is None:
            return _wishes(drawing, line, rows, column, way, need)
        need |= of_way(way)
        table = drawing.source.tables[drawing.ways.end(rows.source, way)]
        cells.append(Var(way, table.columns.index(argument.column.text)))
    if line.conversion is None:
        return Value(cells[0], need, line)
    fault = of_conversion(line.conversion, len(cells))
    if fault:
        raise Wrong(fault)
    return Value(Call(line.conversion.text, tuple(cells)), need, line)


def _way_of(drawing: Drawing, rows: Rows, argument: tree.Argument, column: int) -> Way:
    """The way from the row to the row that an argument names."""
    goal = drawing.source.numbers[argument.set.text]
    if not argument.by:
        if goal == rows.source:
            return ()
        if any(other.source == goal for other in drawing.noted[rows.target]) and argument.column is not None:
            raise wrong(argument.set, f"{argument.set.text} makes rows of its own")
    return drawing.ways.to(rows.source, goal, argument.by, argument.set, drawing.column(rows, column))


def _wishes(drawing: Drawing, line: tree.Line, rows: Rows, column: int, way: Way, need: Need) -> list[Wish]:
    """A line from a whole set: a target ref leads to the rows made of that set."""
    table, argument = drawing.target_of(rows), line.arguments[0]
    links = [link for link in table.links if column in link.own and not link.is_up]
    if not links:
        raise wrong(line.target.column, f"{drawing.column(rows, column)} has no ref, so a line from the whole set "
                    f"{argument.set.text} can't fill it: name a column")
    goal = drawing.source.numbers[argument.set.text]
    others = [other for other in drawing.noted.get(links[0].table, []) if other.source == goal]
    if not others:
        name = drawing.targets[links[0].table].name
        raise wrong(argument.set, f"no row of {name} comes from {argument.set.text}: say rows {name} from "
                    f"{argument.set.text};", RowsFrom(name, argument.set.text))
    return [Wish(links[0], way, other, need, line) for other in others]
