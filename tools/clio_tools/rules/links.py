"""Links of the target: for each the way to the source row of which the row is made that the link leads to."""
from ..mapping.cures import By, Key, LineBy, Optional, RowsFrom, With
from ..mapping.schema import Link
from .keys import how_to_fill, key_of, settled, ways_for_key, without_line
from .model import Drawing, Rows, Use, Wish
from .terms import NOTHING, Need, of_way
from .ways import Way, Wrong, spelled, wrong


def work_out_links(drawing: Drawing) -> None:
    """Works out each `rows`, those first that others lead to: outer rows, links, base and key; then links in a
    circle."""
    for number in _in_order(drawing):
        for rows in drawing.noted.get(number, []):
            try:
                _work_out(drawing, rows)
            except Wrong as why:
                drawing.faults.append(why.fault)
    if drawing.faults:
        return
    for rows in drawing.rows:
        for wish in rows.wishes:
            if wish.link.circular:
                try:
                    rows.uses.append(_use(drawing, rows, wish))
                except Wrong as why:
                    drawing.faults.append(why.fault)


def _in_order(drawing: Drawing) -> list[int]:
    """The target sets, those that others lead to first; links in a circle don't count."""
    done: list[int] = []

    def visit(number: int) -> None:
        if number in done:
            return
        for link in drawing.targets[number].links:
            if not link.circular:
                visit(link.table)
        done.append(number)

    for number in range(len(drawing.targets)):
        visit(number)
    return done


def _work_out(drawing: Drawing, rows: Rows) -> None:
    """The outer row, the links that are in no circle, what is there in any case, and the key."""
    table = drawing.target_of(rows)
    if table.parent is not None:
        rows.outer = _outer_of(drawing, rows)
        rows.base |= rows.outer.need
    elif rows.note is not None and rows.note.by:
        raise wrong(rows.note.by[0], f"{table.name} is no inner set, so its rows are in nothing: write `by` on a line")
    for link in table.links:
        if not link.is_up:
            try:
                _link(drawing, rows, link)
            except Wrong as why:
                drawing.faults.append(why.fault)
    for need in [value.need for values in rows.values.values() for value in values] + [use.need for use in rows.uses]:
        rows.base |= Need(frozenset(way for way in need.ways if _is_sure(drawing, way)))
    rows.key = key_of(drawing, rows)


def _is_sure(drawing: Drawing, way: Way) -> bool:
    """Whether a row has in any case what a way leads to: outer rows, if no condition takes them away."""
    return all(step.is_up and not drawing.has_condition(step.table) for step in way)


def _link(drawing: Drawing, rows: Rows, link: Link) -> None:
    """One link: what lines from whole sets say, or the only way there is if no line fills its columns."""
    table = drawing.target_of(rows)
    wishes = [one for one in rows.wishes if one.link is link]
    valued = [column for column in link.own if column in rows.values]
    if wishes and valued:
        raise wrong(wishes[0].line, f"a line from a column and one from a set both give "
                    f"{table.name}.{table.columns[valued[0]]} a value")
    if link.circular:
        _remark_circle(drawing, rows, link)
    elif wishes:
        rows.uses += [_use(drawing, rows, wish) for wish in wishes]
    elif not valued and rows.note is not None:
        _guess(drawing, rows, link)


def _remark_circle(drawing: Drawing, rows: Rows, link: Link) -> None:
    """Remarks a ref in a circle that no line fills, in the rows of whatever source set."""
    sets = drawing.noted[rows.target]
    filled = any(wish.link is link for one in sets for wish in one.wishes) or \
        any(column in one.values for one in sets for column in link.own)
    if not filled and rows is sets[0] and rows.note:
        of = drawing.column(rows, link.own[0])
        drawing.remark(rows, f"no line fills {of}, so it stays open: a ref in a circle takes a line, like line "
                       f"{drawing.source_of(rows).name} -> {of} by COLUMN;")


def _use(drawing: Drawing, rows: Rows, wish: Wish) -> Use:
    """The link as a line wants it."""
    return _checked(drawing, rows, Use(wish.link, wish.way, wish.rows, wish.need, wish.line))


def _checked(drawing: Drawing, rows: Rows, use: Use) -> Use:
    """A use of a link whose other rows can be known; its need is completed."""
    other = use.rows
    if other.key is None and not all(settled(drawing, other, column) for column in use.link.referred):
        name, key = drawing.target_of(rows).name, drawing.target_of(other).name
        source = drawing.source_of(other).name
        at = other.note.target if other.note else use.line or drawing.tree.version_at
        ways = ways_for_key(drawing, other)
        if ways:
            raise wrong(at, f"{name} leads to {key}, and what makes two rows of {key} one is not there for each "
                        f"{source}: "
                            f"write rows {key} from {source} with {', '.join(ways)};", With(key, tuple(ways)))
        fill = how_to_fill(drawing, other)
        raise wrong(at, f"{name} leads to {key}, whose rows from {source} have no key that lines give: each row would "
                        f"make a {key} of its own. {fill[0].upper()}{fill[1:]}",
                    Key(key), *without_line(drawing, other))
    return Use(use.link, use.way, other, use.need | of_way(use.way) | other.base.after(use.way), use.line)


def _guess(drawing: Drawing, rows: Rows, link: Link) -> None:
    """A link that no line fills goes the only way there is to rows of the other set."""
    other, of = drawing.targets[link.table], drawing.column(rows, link.own[0])
    sets = drawing.noted.get(link.table, [])
    ways: list[tuple[Way, Rows]] = [((), one) for one in sets if one.source == rows.source]
    ways = ways or [(way, one) for one in sets for way in drawing.ways.walks(rows.source, one.source)]
    if len({way for way, _ in ways}) > 1 and rows.note:
        listed = " ".join(f"line {drawing.source_of(one).name} -> {of} by {spelled(way)};" for way, one in ways[:6])
        table = drawing.target_of(rows)
        found = [LineBy(drawing.source_of(one).name, table.name, table.columns[link.own[0]], spelled(way))
                 for way, one in ways[:6]]
        raise wrong(rows.note.source, f"{of} could lead to {other.name} in several ways: say which, {listed}", *found)
    rows.uses += [_checked(drawing, rows, Use(link, way, one, NOTHING, None)) for way, one in ways]
    if not ways and not link.optional and rows.note:
        if not sets and any(line.target.set.text == other.name for line in drawing.tree.lines):
            raise wrong(rows.note.target, f"{of} leads to {other.name}, and no `rows` says where its rows come from: "
                        f"say "
                        f"rows {other.name} from SET;", RowsFrom(other.name))
        table = drawing.target_of(rows)
        drawing.remark(rows, f"no line fills {of}, so each row of {table.name} asks for a row of {other.name} with a "
                       "null there; make the ref optional if that is not meant",
                       Optional("target", table.name, tuple(table.named(link.own)), other.name))


def _outer_of(drawing: Drawing, rows: Rows) -> Use:
    """The outer row of an inner one."""
    table = drawing.target_of(rows)
    assert table.parent is not None and rows.note is not None
    outer, note = drawing.targets[table.parent], rows.note
    sets = drawing.noted.get(table.parent, [])
    if not sets:
        raise wrong(note.target, f"{table.name} is in {outer.name}: say from which set the rows of {outer.name} come, "
                    f"rows {outer.name} from SET;", RowsFrom(outer.name))
    ways: list[tuple[Way, Rows]] = [((), one) for one in sets if one.source == rows.source and not note.by]
    ways = ways or [(way + rest, one) for way in drawing.ways.along(rows.source, note.by) for one in sets
                    for rest in drawing.ways.walks(drawing.ways.end(rows.source, way), one.source)]
    source = note.source.text
    if not ways:
        drawing.ways.exactly(rows.source, note.by)
        names = " or ".join(dict.fromkeys(drawing.source_of(one).name for one in sets))
        raise wrong(note.by[0] if note.by else note.source,
                    f"no way leads from {source} to {names}, of which the rows of {outer.name} are made")
    if len(ways) > 1:
        listed = ", ".join(f"by {spelled(way)}" for way, _ in ways[:6])
        raise wrong(note.source, f"the rows of {table.name} could be in {outer.name} in several ways: say which, "
                    f"{listed}", *[By(spelled(way)) for way, _ in ways[:6]])
    link = next(one for one in table.links if one.is_up)
    return _checked(drawing, rows, Use(link, ways[0][0], ways[0][1], NOTHING, None))
