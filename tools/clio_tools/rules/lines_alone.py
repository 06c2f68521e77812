"""What the lines alone say, without notes: the program's own rules."""
from typing import Optional

from ..mapping.cures import RowsFrom
from ..mapping.parser import parse
from ..mapping.places import Fault
from ..mapping.printing import printed_line, printed_set
from ..mapping.schema import Table
from ..mapping.tree import Line, Only, Ref, Rule, SetText
from .asking import rules_of
from .model import Drawing
from .ways import Wrong, wrong


def without(one: SetText, refs: list[Ref]) -> SetText:
    """A set without some of its refs."""
    clauses = [clause for clause in one.clauses if not any(clause is ref for ref in refs)]
    inner = [without(clause, refs) if isinstance(clause, SetText) else clause for clause in clauses]
    return SetText(one.start, one.end, one.name, one.columns, tuple(inner))


def bare_text(drawing: Drawing, lines: list[Line], targets: list[SetText], left_out: list[Ref]) -> str:
    """A mapping text with the source of a drawing, some target sets and some lines."""
    source = "".join(printed_set(without(one, left_out)) for one in drawing.tree.source.sets)
    target = "".join(printed_set(without(one, left_out)) for one in targets)
    listed = "".join(printed_line(line) + "\n" for line in lines)
    return f"mapping {drawing.tree.version};\nsource {{\n{source}}}\ntarget {{\n{target}}}\n{listed}"


def circular_refs(drawing: Drawing) -> list[Ref]:
    """The refs of both sides that are in a circle, which a mapping can't have."""
    tables: list[Table] = [*drawing.source.tables, *drawing.targets]
    return [link.ref for table in tables for link in table.links if link.circular and link.ref]


def rules_without_notes(drawing: Drawing, aside: Optional[list[Fault]] = None) -> list[Rule]:
    """The rules of plain lines for the target sets that have no `rows`, as the program has them.

    They are asked for one set after the other, with what it leads to alone: so no rule is left out since one follows
    from it that another set has, and which the notes leave out. The faults of the
    drawing get one for each set that the program refuses, and the first is raised; or they are put aside, and such
    sets have no rules."""
    found: list[Rule] = []
    refused: list[Wrong] = []
    for table in drawing.targets:
        if table.number not in drawing.noted and table.name not in drawing.waiting:
            try:
                found += _rules_of_set(drawing, table)
            except Wrong as why:
                refused.append(why)
    if aside is not None:
        aside += [why.fault for why in refused]
    elif refused:
        drawing.faults += [why.fault for why in refused]
        raise refused[0]
    return found


def _rules_of_set(drawing: Drawing, table: Table) -> list[Rule]:
    """The rules of lines that make rows of one target set."""
    reached = _reached(drawing, table.number)
    names = {drawing.targets[number].name for number in reached}
    lines = [line for line in drawing.tree.lines if line.is_plain and line.target.set.text in names]
    if not lines:
        return []
    roots = {_root(drawing, number) for number in reached}
    trees = [drawing.targets[number].text for number in sorted(roots)]
    aside = [ref for each in drawing.targets for ref in each.text.refs if each.number not in reached]
    rules, message = rules_of(bare_text(drawing, lines, trees, circular_refs(drawing) + aside))
    if message:
        raise _refused(drawing, table, message)
    tree = parse(("mapping 1; source { } target { }\n" + "\n".join(rules)).encode()).tree
    return [rule for rule in tree.rules if rule.conclusion[0].name.text == table.name]


def _refused(drawing: Drawing, table: Table, message: str) -> Wrong:
    """The refusal of lines to a set without `rows`, or to what its refs lead to."""
    whose = f"the lines to {table.name}, which has no `rows`, are refused"
    if all(line.target.set.text != table.name for line in drawing.tree.lines):
        whose = f"{table.name} has no `rows`, and would get rows by the lines to sets that its refs lead to: too many"
    return wrong(table.text.name, f"{whose} ({message}): say from which set its rows come, rows {table.name} from SET;",
                 RowsFrom(table.name))


def _root(drawing: Drawing, number: int) -> int:
    """The root set in which a target set is."""
    parent = drawing.targets[number].parent
    return number if parent is None else _root(drawing, parent)


def _reached(drawing: Drawing, start: int) -> set[int]:
    """A target set and those that it leads to; links in a circle don't count."""
    seen: set[int] = set()
    left = [start]
    while left:
        number = left.pop()
        if number not in seen:
            seen.add(number)
            left += [link.table for link in drawing.targets[number].links if not link.circular]
    return seen


def conditions_of(drawing: Drawing, name: str) -> list[Only]:
    """The conditions on a source set."""
    return [one for one in drawing.tree.conditions if one.place.set.text == name]
