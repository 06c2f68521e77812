"""What is said if a printed mapping exceeds a limit of clio: the count, where in the drawing it comes from, and what to
write."""
from typing import Callable, Optional

from ..mapping import tree
from ..mapping.places import Fault
from .model import Drawing, Made
from .printed import Printed

RULES, TABLES, COLUMNS, OCCURRENCES, BYTES = 256, 64, 64, 64, 1_048_576


def limit_said(drawing: Drawing, made: Printed, message: str) -> Optional[Fault]:
    """The fault for clio's message `limit: COUNT N` on a printed mapping, if it is one that a drawing can cause."""
    kinds: dict[str, Callable[[Drawing, Printed], Optional[Fault]]] = {
        "rules": _rules, "tables": _tables, "columns": _columns, "occurrences": _occurrences, "text bytes": _bytes}
    count = message.removeprefix("limit: ").rpartition(" ")[0]
    return kinds[count](drawing, made) if message.startswith("limit: ") and count in kinds else None


def _fault(at: Optional[tree.Rows], drawing: Drawing, said: str) -> Fault:
    """A fault at a `rows` statement, or at the beginning."""
    start, end = (at.start, at.end) if at else (drawing.tree.version_at.start, drawing.tree.version_at.end)
    return Fault("meaning", start, end, said)


def links_of(drawing: Drawing, made: Made) -> set[str]:
    """The sets of the links that a rule goes along, as far as they can be looked up."""
    looked_up = {word.text for word in drawing.tree.lookups}
    steps = {way[0] for way in made.extra.ways if not made.extra.tests}
    return {drawing.ways.name(step.table) for step in steps} - looked_up


def _rules(drawing: Drawing, made: Printed) -> Optional[Fault]:
    """Too many rules: those of links become one by `lookup`."""
    counts: dict[str, int] = {}
    for one in drawing.made:
        for name in links_of(drawing, one):
            counts[name] = counts.get(name, 0) + 1
    names = sorted(counts, key=lambda name: -counts[name])
    hint = f"write `lookup {', '.join(names)};`, by which the links of a row are in one rule, or " if names else ""
    most = max(drawing.made, key=lambda one: sum(other.rows is one.rows for other in drawing.made), default=None)
    return _fault(most.rows.note if most else None, drawing, f"the drawing means {len(made.origins())} rules, and clio "
                  f"takes {RULES}: {hint}make two drawings")


def _tables(drawing: Drawing, made: Printed) -> Optional[Fault]:
    """Too many sets, with those that tests and lookups take."""
    tests = len(made.sets.texts) + len(made.sets.copies)
    source = len(drawing.source.tables) + tests
    if source > TABLES:
        return _fault(None, drawing, f"the source has {source} sets with the {tests} that tests take, and clio takes "
                      f"{TABLES}: leave out sets, or tests")
    return _fault(None, drawing, f"the target has {len(drawing.targets)} sets with the {len(drawing.looked_up)} of "
                  f"`lookup`, and clio takes {TABLES}: look up fewer sets, or make two drawings")


def _columns(drawing: Drawing, made: Printed) -> Optional[Fault]:
    """A looked-up set with too many columns."""
    for rows in drawing.looked_up.values():
        table, name = drawing.target_of(rows), drawing.source_of(rows).name
        if len(table.columns) > COLUMNS:
            word = next(one for one in drawing.tree.lookups if one.text == name)
            return Fault("meaning", word.start, word.end, f"{table.name} has {len(table.columns)} columns, one for each"
                         f" value that links take from {name}, and clio takes {COLUMNS}: leave {name} out of `lookup`")
    return None


def _occurrences(drawing: Drawing, made: Printed) -> Optional[Fault]:
    """A rule that takes too many rows at once, or makes them."""
    for one in drawing.made:
        left, right = 1 + len(one.need.ways) + len(one.need.tests), len(one.conclusion)
        if max(left, right) > OCCURRENCES:
            what = f"goes along {left - 1} links and tests" if left > OCCURRENCES else f"makes {right} rows at once"
            return _fault(one.rows.note, drawing, f"a rule of these rows {what}, and clio takes {OCCURRENCES} sets on a"
                          f" side of a rule: leave some to another `rows` of {drawing.target_of(one.rows).name}")
    return None


def _bytes(drawing: Drawing, made: Printed) -> Optional[Fault]:
    """Too long a text."""
    return _fault(None, drawing, f"the printed mapping has {len(made.text.encode()):,} bytes, and clio takes {BYTES:,}:"
                  " make two drawings")
