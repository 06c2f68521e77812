"""Rules in words."""
from ..mapping.printing import quoted
from .model import Drawing, Made, Rows
from .terms import NOTHING, Need, Test
from .ways import spelled, word_of


def said(drawing: Drawing, made: Made) -> str:
    """A rule in words: which rows it makes, or which columns it fills, and for which rows of the source."""
    rows, table = made.rows, drawing.target_of(made.rows)
    source = drawing.source_of(rows).name
    if made.extra != NOTHING:
        given = ", ".join(table.named(made.columns))
        return f"{table.name}: {given} of each {source}{need_said(drawing, made.extra, rows)}"
    inside = ""
    if rows.outer and table.parent is not None:
        outer = drawing.targets[table.parent].name
        way = rows.outer.way
        of = f"the {drawing.source_of(rows.outer.rows).name} by {spelled(way)}" if way else "it"
        inside = f", in the {outer} of {of}"
    return f"{table.name}: a row for each {source}{need_said(drawing, rows.base, rows)}{inside}"


def need_said(drawing: Drawing, need: Need, rows: Rows) -> str:
    """What must be there, in words."""
    ways = sorted(need.longest(), key=lambda way: (len(way), spelled(way)))
    parts = [f"the {drawing.ways.name(way[-1].table)} by {spelled(way)}" for way in ways]
    words = " with " + " and ".join(parts) if parts else ""
    if need.tests:
        words += " where " + ", ".join(sorted(test_said(drawing, test, rows) for test in need.tests))
    return words


def test_said(drawing: Drawing, test: Test, rows: Rows) -> str:
    """A test as a drawing has it."""
    table = drawing.source.tables[drawing.ways.end(rows.source, test.way)]
    at = ".".join([word_of(step.words) for step in test.way] + [table.columns[test.column]])
    return f"{at} = {quoted(test.text)}" if test.text is not None else f"{at} {test.name}"
