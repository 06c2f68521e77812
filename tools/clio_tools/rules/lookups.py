"""`lookup D;`: links to D go through a set of their own in the target, so that all links are in one rule.

The set `lookup_D` has the link's columns as its key, and a column for each value that links take from D. A row of T
says that its value is that of the row with its key; another rule says what the row with a key has. A key makes both
one."""
from dataclasses import replace

from ..mapping.schema import Table
from ..mapping.tokens import Token
from ..mapping.tree import Line, SetText
from .model import Drawing, Rows, Value
from .terms import NOTHING, Call, Cell, Open, Row, Var, behind_first, first_step, need_of, of_way, vars_of
from .ways import Step


def look_up(drawing: Drawing) -> None:
    """Moves the values behind links to `lookup` sets into sets of their own."""
    wanted = {drawing.source.numbers[word.text] for word in drawing.tree.lookups}
    while any([_rows(drawing, rows, wanted) for rows in list(drawing.rows)]):
        pass  # the sets that are looked up in grew, and may look up what they got


def _rows(drawing: Drawing, rows: Rows, wanted: set[int]) -> bool:
    """Moves the values of rows that are looked up; tells whether there was one."""
    moved, left = False, list(rows.values)
    while left:  # which grows if a set is looked up in itself
        column = left.pop(0)
        for value in list(rows.values[column]):
            step = first_step(value.cell)
            if value.is_tested or value.line is None or step is None or step.table not in wanted:
                continue
            if not of_way((step,)) <= rows.base:
                made, place = _held(drawing, rows, column, value.cell, value.line, step)
                if made is rows and place not in left and place in rows.values:
                    left.append(place)
                rows.values[column].remove(value)
                moved = True
        if not rows.values[column]:
            del rows.values[column]
    return moved


def _held(drawing: Drawing, rows: Rows, column: int, cell: Cell, line: Line, step: Step) -> tuple[Rows, int]:
    """The rows of the looked-up set and the column there that holds a value; the value goes there."""
    made = _set_for(drawing, step)
    place = _place_in(drawing, made, behind_first(cell), line, len(step.referred))
    rows.looked.setdefault(step, []).append((column, place))
    return made, place


def _set_for(drawing: Drawing, step: Step) -> Rows:
    """The rows of the set in which a link looks up."""
    key = (step.table, step.referred)
    if key not in drawing.looked_up:
        table = drawing.source.tables[step.table]
        name, taken = "lookup_" + table.name, {one.name for one in drawing.targets}
        while name in taken:
            name += "_"
        names = tuple(table.columns[column].lstrip("#") for column in step.referred)
        text = SetText(0, 0, Token("word", name, 0, 0), (), ())
        number = len(drawing.targets)
        drawing.targets.append(Table(number, name, names, None, (), (tuple(range(len(names))),), (), (), text))
        made = Rows(len(drawing.rows), None, number, step.table)
        made.values = {place: [Value(Var((), column), NOTHING, None)] for place, column in enumerate(step.referred)}
        drawing.rows.append(made)
        drawing.noted[number] = [made]
        drawing.looked_up[key] = made
    return drawing.looked_up[key]


def _place_in(drawing: Drawing, made: Rows, cell: Cell, line: Line, width: int) -> int:
    """The column of a looked-up set that holds a value: none of its key, which is there without a row, too."""
    for place, values in made.values.items():
        if place >= width and values and values[0].cell == cell:
            return place
    if cell in made.held:
        return made.held[cell]
    table = drawing.targets[made.target]
    place = len(table.columns)
    wanted = _name_of(drawing, made, cell)
    while wanted in table.columns:
        wanted += "_"
    drawing.targets[made.target] = replace(table, columns=table.columns + (wanted,))
    made.values[place] = [Value(cell, need_of(cell), line)]
    made.held[cell] = place
    return place


def _name_of(drawing: Drawing, made: Rows, cell: Cell) -> str:
    """A name for the column that holds a value."""
    first = vars_of(cell)[0]
    column = drawing.source.tables[drawing.ways.end(made.source, first.way)].columns[first.column].lstrip("#")
    words = [word for step in first.way for word in step.words] + [column]
    return "_".join(words + ([cell.conversion] if isinstance(cell, Call) else []))


def looked(drawing: Drawing, rows: Rows) -> tuple[dict[int, Cell], list[Row]]:
    """The cells of rows that are looked up, and the rows of the sets in which they are."""
    cells: dict[int, Cell] = {}
    found: list[Row] = []
    for step, columns in rows.looked.items():
        made = drawing.looked_up[step.table, step.referred]
        width = len(drawing.target_of(made).columns)
        known: list[Cell] = [Var((), column) for column in step.own]
        known += [Open(made.number, (step,), place) for place in range(len(step.own), width)]
        found.append(Row(made.target, tuple(known)))
        cells.update({column: known[place] for column, place in columns})
    return cells, found
