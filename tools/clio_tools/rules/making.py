"""The rules of each `rows`: one for each different need beyond its base, the empty one included."""
from ..mapping import cures, tree
from ..mapping.schema import Link
from .keys import by_use, how_to_fill, known, linked, settled, ways_for_key, without_line
from .lookups import looked
from .model import Drawing, Made, Rows, Use, Value
from .terms import NOTHING, Cell, Need, Open, Row
from .ways import Wrong, spelled, wrong


def make_rules(drawing: Drawing) -> None:
    """All rules, in the order of their `rows`."""
    for rows in drawing.rows:
        try:
            drawing.made += rules_of(drawing, rows)
        except Wrong as why:
            drawing.faults.append(why.fault)


class Group:
    """The values and links that take one need beyond the base."""

    def __init__(self) -> None:
        self.values: list[tuple[int, Value]] = []
        self.uses: list[Use] = []


def _groups(rows: Rows) -> dict[Need, Group]:
    """The different needs beyond the base, the empty one first, then shorter ones before longer ones."""
    groups = {NOTHING: Group()}
    for column, values in rows.values.items():
        for value in values:
            groups.setdefault(value.need - rows.base, Group()).values.append((column, value))
    for use in rows.uses:
        groups.setdefault(use.need - rows.base, Group()).uses.append(use)
    return dict(sorted(groups.items(), key=lambda one: (len(one[0].ways), len(one[0].tests))))


def rules_of(drawing: Drawing, rows: Rows) -> list[Made]:
    """The rules of one `rows`."""
    groups = _groups(rows)
    if len(groups) > 1 and rows.key is None:
        extra = next(one for one in groups if one != NOTHING)
        raise _keyless(drawing, rows, extra, groups[extra])
    if rows.note and not (rows.values or rows.uses or rows.looked or rows.outer):
        raise wrong(rows.note.target, f"no line gives {drawing.target_of(rows).name} a value from "
                    f"{rows.note.source.text}", *without_line(drawing, rows))
    cells, more = known(drawing, rows)
    for use in rows.uses:  # a ref that isn't optional asks for its row in each rule, so each rule says which
        open_columns = not all(column in cells for column in use.link.own)
        if use.need <= rows.base and not use.link.optional and open_columns:
            given, found = linked(drawing, use)
            cells = {**given, **cells}
            more += found
    _check_links(drawing, rows, cells)
    return [_rule(drawing, rows, extra, group, cells, more) for extra, group in groups.items()]


def _rule(drawing: Drawing, rows: Rows, extra: Need, group: Group, start: dict[int, Cell], more: list[Row]) -> Made:
    """The rule of one need."""
    table = drawing.target_of(rows)
    cells, found = dict(start), list(more)
    columns, lines = [], [use.line for use in group.uses]
    for column, values in rows.values.items():
        value = _fitting(drawing, rows, column, values, extra)
        if value and value.need - rows.base == extra:
            lines.append(value.line)
        if value and column not in start:
            cells[column] = value.cell
            columns += [column] * (value.need - rows.base == extra)
    for use in group.uses:
        if not all(column in cells for column in use.link.own):
            given, others = linked(drawing, use)
            cells = {**given, **cells}
            found += others
        columns += [column for column in use.link.own if column not in columns]
    if extra == NOTHING:
        given, others = looked(drawing, rows)
        cells.update(given)
        found += others
        lines += [line for line in rows.lines if line.target.column.text in
                  [table.columns[column] for pairs in rows.looked.values() for column, _ in pairs]]
    row = Row(rows.target, tuple(cells.get(place, Open(rows.number, (), place)) for place in range(len(table.columns))))
    written = {line.start: line for line in lines if line is not None}
    return Made(rows, extra, tuple(dict.fromkeys([row, *found])), tuple(columns), tuple(written.values()))


def _fitting(drawing: Drawing, rows: Rows, column: int, values: list[Value], extra: Need) -> Value | None:
    """The value that a column has under a need: one of just this need, or else one without tests, or else any."""
    fitting = [value for value in values if value.need - rows.base <= extra]
    same = [value for value in fitting if value.need - rows.base == extra]
    if len(same) > 1:
        line: tree.Line | None = same[1].line
        raise wrong(line.target.column if line else drawing.tree.version_at,
                    f"two lines give {drawing.column(rows, column)} a value under the same tests")
    fitting = same or [value for value in fitting if not value.is_tested] or fitting[:1]
    return fitting[0] if fitting else None


def _keyless(drawing: Drawing, rows: Rows, extra: Need, group: Group) -> Wrong:
    """The refusal of a need beyond the base if no key makes the rows of two rules one."""
    table, source = drawing.target_of(rows), drawing.source_of(rows).name
    line = group.values[0][1].line if group.values else group.uses[0].line
    link = group.uses[0].link if group.uses else None
    column = group.values[0][0] if group.values else link.own[0] if link else 0
    at = line.target.column if line else rows.note.target if rows.note else drawing.tree.version_at
    way = max(extra.ways, key=len, default=())
    known_by = ways_for_key(drawing, rows)
    found: list[cures.Cure] = [cures.With(table.name, tuple(known_by))] if known_by else \
        [cures.Key(table.name), *without_line(drawing, rows)]
    out = ""
    if way and spelled(way) not in known_by:
        out = f", or write `with {spelled(way)}` if rows without one are not meant"
        found.append(cures.With(table.name, (spelled(way),)))
    if way and group.values and not extra.tests:
        out += f", or `lookup {drawing.ways.name(way[0].table)};`"
        found.append(cures.Lookup(drawing.ways.name(way[0].table)))
    cure = f"write `with {', '.join(known_by)}`, which its key needs" if known_by else how_to_fill(drawing, rows)
    return wrong(at, f"{drawing.column(rows, column)} is not there for each {source}, and {table.name} has no key that "
                 f"lines give, by which the row with it and the row without it are one: {cure}{out}", *found)


def _check_links(drawing: Drawing, rows: Rows, cells: dict[int, Cell]) -> None:
    """A ref that isn't optional and that some rule leaves open asks there for a row: by a key it becomes the right
    one."""
    for link in drawing.target_of(rows).links:
        if not (link.is_up or link.optional or link.circular) and rows.note:
            _check_link(drawing, rows, cells, link)


def _check_link(drawing: Drawing, rows: Rows, cells: dict[int, Cell], link: Link) -> None:
    open_columns = [column for column in link.own if column not in cells and settled(drawing, rows, column) is None]
    filled = any(use.link is link for use in rows.uses) or any(column in rows.values for column in open_columns)
    if not open_columns or not filled or all(by_use(rows, column) for column in open_columns):
        return
    of, table, other = drawing.column(rows, open_columns[0]), drawing.target_of(rows), drawing.targets[link.table]
    columns = ", ".join(other.named(link.referred))
    if rows.note and not any(set(key) <= set(link.referred) for key in other.keys):
        raise wrong(rows.note.target, f"{of} leads to {other.name} ({columns}), which is no key, so if it isn't filled "
                    f"in "
                    f"the same rule a row of {other.name} would be there twice: give set {other.name} key "
                    f"({columns});, or "
                    "make the ref optional", cures.Key(other.name, tuple(other.named(link.referred))),
                    cures.Optional("target", table.name, tuple(table.named(link.own)), other.name))
    ways = [max(use.need.ways - rows.base.ways, key=len, default=()) for use in rows.uses if use.link is link]
    cure = "make it optional"
    found: list[cures.Cure] = [cures.Optional("target", table.name, tuple(table.named(link.own)), other.name)]
    if len(ways) == 1 and ways[0]:
        found.insert(0, cures.With(table.name, (spelled(ways[0]),)))
        cure = f"write `with {spelled(ways[0])}`, or make it optional,"
    drawing.remark(rows, f"the ref of {of} isn't optional, so a row of {table.name} without one asks for a row of "
                   f"{other.name} of nulls: {cure} if that is not meant", *found)
