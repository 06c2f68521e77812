"""What makes a row the same row: K(R), by which other rules know a row, and the cells that say so."""
from typing import Optional

from ..mapping.cures import NoLine
from .model import Drawing, Rows, Use
from .terms import Cell, Need, Open, Row, Var, after
from .ways import spelled

KEYS_SAID = 3  # so many keys of a set are named


def settled(drawing: Drawing, rows: Rows, column: int) -> Optional[Cell]:
    """The value that every row has in a column, if lines give each row one."""
    for value in rows.values.get(column, []):
        if value.need <= rows.base and not value.is_tested:
            return value.cell
    if rows.key == (column,) and drawing.target_of(rows).columns[column] == "#id":
        return Var((), 0)
    return None


def by_use(rows: Rows, column: int) -> Optional[Use]:
    """The link that fills a column of every row."""
    return next((use for use in rows.uses if column in use.link.own and use.need <= rows.base), None)


def key_of(drawing: Drawing, rows: Rows) -> Optional[tuple[int, ...]]:
    """The first key of the target set that every row fills; or the `#id` of the source's own row."""
    table = drawing.target_of(rows)
    up = table.places(["#up"]) if table.parent is not None else ()
    for key in table.keys:
        if table.named(key) != ["#id"] and all(column in up or settled(drawing, rows, column) is not None
                                               or by_use(rows, column) for column in key):
            return key
    one_source = len({other.source for other in drawing.noted[rows.target]}) == 1
    if table.inner and drawing.source_of(rows).inner and one_source:
        return table.places(["#id"])
    return None


def ways_for_key(drawing: Drawing, rows: Rows) -> list[str]:
    """The ways that would have to be there for the first key that lines and links fill."""
    table = drawing.target_of(rows)
    for key in table.keys:
        needs = [_need_of(rows, column) for column in key if table.columns[column] != "#up"]
        found = [need for need in needs if need is not None]
        if found and len(found) == len(needs):
            ways = {way for need in found for way in need.ways - rows.base.ways}
            return sorted(spelled(way) for way in ways if all(way == more or way != more[:len(way)] for more in ways))
    return []


def how_to_fill(drawing: Drawing, rows: Rows) -> str:
    """What to write so that every row has a key of its set: lines, or a key if there is none. Keys to which refs lead
    are often numbers that nobody gives, so they come last."""
    table = drawing.target_of(rows)
    led_to = [set(link.referred) for other in drawing.targets for link in other.links if link.table == rows.target]
    open_columns = [[table.columns[column] for column in key if table.columns[column] not in ("#id", "#up")
                     and settled(drawing, rows, column) is None and by_use(rows, column) is None]
                    for key in sorted(table.keys, key=lambda key: set(key) in led_to)]
    listed = [" and ".join(columns) for columns in open_columns if columns]
    if not listed:
        return f"give set {table.name} a key of columns that lines fill"
    return f"fill a key of {table.name} in every row, by lines to {', or to '.join(listed[:KEYS_SAID])}"


def without_line(drawing: Drawing, rows: Rows) -> list[NoLine]:
    """That rows have no line yet, if it is so."""
    if rows.note is None or rows.values or rows.wishes:
        return []
    return [NoLine(drawing.target_of(rows).name, drawing.source_of(rows).name)]


def _need_of(rows: Rows, column: int) -> Optional[Need]:
    """What a column of a row needs for its value, or for its link; None if nothing fills it."""
    values = rows.values.get(column)
    if values:
        return values[0].need
    return next((use.need for use in rows.uses if column in use.link.own), None)


def known(drawing: Drawing, rows: Rows) -> tuple[dict[int, Cell], list[Row]]:
    """The cells by which a row is known, and the rows of other sets that these cells take."""
    cells: dict[int, Cell] = {}
    more: list[Row] = []
    uses = [rows.outer] if rows.outer is not None else []
    for column in rows.key or ():
        value = settled(drawing, rows, column)
        use = by_use(rows, column)
        if value is not None:
            cells[column] = value
        elif use is not None and use not in uses:
            uses.append(use)
    for use in uses:
        given, found = linked(drawing, use)
        cells = {**given, **cells}
        more += found
    return cells, more


def linked(drawing: Drawing, use: Use) -> tuple[dict[int, Cell], list[Row]]:
    """The cells of a link's own columns, and the row that it leads to, with those that this one takes."""
    other = use.rows
    table = drawing.target_of(other)
    cells, more = known(drawing, other)
    for column in use.link.referred:
        if column not in cells:
            cells[column] = settled(drawing, other, column) or Open(other.number, (), column)
    own = {here: after(cells[there], use.way) for here, there in zip(use.link.own, use.link.referred)}
    if not any(isinstance(cells[column], Open) for column in use.link.referred):
        return own, []
    row = Row(other.target, tuple(cells.get(column, Open(other.number, (), column))
                                  for column in range(len(table.columns))))
    return own, [one.after(use.way) for one in [row, *more]]
