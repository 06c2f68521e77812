"""`--what-lines-say`: the rules of the lines alone, and what became of each."""
from typing import Iterator

from ..mapping.parser import parse
from ..mapping.printing import quoted
from ..mapping.schema import Table, schema_of
from ..mapping.tree import Atom, Rule
from .asking import rules_of
from .following import Follower
from .lines_alone import bare_text, circular_refs
from .model import Drawing
from .printed import Printed
from .saying import said
from .ways import spelled, Way

MOST = 4  # rules of one kind that are said one by one
LEFT = "The lines alone say this too, and the notes leave it out:"
KEPT = "Of what the lines alone say this stays (under the keys of the target):"
NEW = "The notes add this, which the lines alone don't say:"


def what_lines_say(drawing: Drawing, made: Printed) -> str:
    """What the lines say without their notes, and what the notes make of it."""
    lines = [line for line in drawing.tree.lines if all(one.column for one in line.arguments)]
    plain = [type(line)(line.start, line.end, line.literal, line.conversion,
                        tuple(type(one)(one.start, one.end, one.set, one.column) for one in line.arguments),
                        line.target)
             for line in lines]
    roots = list(drawing.tree.target.sets)
    printed, message = rules_of(bare_text(drawing, plain, roots, circular_refs(drawing)))
    if message:
        return f"The lines alone are refused: {message}. The drawing has {_amount(len(drawing.made))}.\n"
    bare = _rules(printed)
    told = parse(made.text.encode()).tree
    source = list(schema_of(told.source, "source").schema.tables)
    target = list(schema_of(told.target, "target").schema.tables)
    ours = Follower(source, target, [], told.rules)
    kept = [rule for rule in bare if ours.follows(rule)]
    left = [rule for rule in bare if rule not in kept]
    theirs = Follower(source, target, [], bare)
    own = [one for one, text in zip(drawing.made, made.rules) if not theirs.follows(_rules([text])[0])]
    return "".join(line + "\n" for line in [*_listed(drawing, LEFT, left), *_listed(drawing, KEPT, kept),
                                            *([NEW] if own else []), *(f"  {said(drawing, one)}." for one in own)])


def _amount(count: int) -> str:
    return f"{count} rule" if count == 1 else f"{count} rules"


def _rules(texts: list[str]) -> list[Rule]:
    """The rules of texts."""
    return parse(("mapping 1; source { } target { }\n" + "\n".join(texts)).encode()).tree.rules


def _listed(drawing: Drawing, title: str, rules: list[Rule]) -> Iterator[str]:
    """Rules in words; of many from one set to another the first, and how many more."""
    if rules:
        yield title
    groups: dict[tuple[str, str], list[Rule]] = {}
    for rule in rules:
        groups.setdefault((rule.premise[0].name.text, rule.conclusion[0].name.text), []).append(rule)
    for (start, goal), found in groups.items():
        shown = found if len(found) <= MOST else found[:1]
        yield from ("  " + rule_said(drawing, rule) for rule in shown)
        if len(shown) < len(found):
            yield (f"    and {len(found) - 1} more from {start} to {goal}, which combine the values of its ways "
                   "otherwise")


def ways_in(drawing: Drawing, premise: tuple[Atom, ...]) -> list[Way | None]:
    """For each atom of a rule of lines the way that leads to it; the first is the row from which all lead."""
    found: list[Way | None] = []
    for place, atom in enumerate(premise):
        way: Way | None = () if place == 0 else None
        for before, start in zip(premise[:place], found):
            if start is None or way is not None:
                continue
            for step in drawing.ways.steps[drawing.source.numbers[before.name.text]]:
                same = [before.cells[c].value.text for c in step.own] == \
                       ([atom.cells[c].value.text for c in step.referred] if _is(drawing, atom, step.table) else None)
                if same and start + (step,) not in found:
                    way = start + (step,)
                    break
        found.append(way)
    return found


def _is(drawing: Drawing, atom: Atom, table: int) -> bool:
    return atom.name.text == drawing.source.tables[table].name


def rule_said(drawing: Drawing, rule: Rule) -> str:
    """A rule of lines in words."""
    ways = ways_in(drawing, rule.premise)
    named: dict[str, str] = {}
    for atom, way in zip(rule.premise, ways):
        table = drawing.source.tables[drawing.source.numbers[atom.name.text]]
        by = f" by {spelled(way)}" if way else ""
        for column, cell in zip(table.columns, atom.cells):
            named.setdefault(cell.value.text, f"{table.name}.{column}{by}")
    for one in rule.derived:
        arguments = ", ".join(named[cell.value.text] for cell in one.call.cells)
        named[one.name.text] = f"{one.call.name.text}({arguments})"
    reached = [f"the {atom.name.text} by {spelled(way)}" for atom, way in zip(rule.premise, ways) if way]
    if len(reached) > 3:
        reached = [f"all {len(reached)} rows that its refs lead to"]
    rows = ", ".join(_row_said(drawing, atom, named) for atom in rule.conclusion)
    words = f"each {rule.premise[0].name.text}{' with ' + ' and '.join(reached) if reached else ''}: {rows}"
    return words + _why(drawing, rule)


def _row_said(drawing: Drawing, atom: Atom, named: dict[str, str]) -> str:
    """A row of the right side, without what is open in it."""
    table: Table = drawing.targets[drawing.target_number(atom.name.text)]
    cells = []
    for column, cell in zip(table.columns, atom.cells):
        if cell.value.kind == "string":
            cells.append(f"{column} = {quoted(cell.value.text)}")
        elif cell.value.text in named:
            cells.append(f"{column} = {named[cell.value.text]}")
    return f"{table.name}({', '.join(cells)})"


def _why(drawing: Drawing, rule: Rule) -> str:
    """Why the notes leave a rule out, if its rows come from another set."""
    top = drawing.target_number(rule.conclusion[0].name.text)
    sets = [drawing.source_of(rows).name for rows in drawing.noted.get(top, [])]
    if sets and rule.premise[0].name.text not in sets:
        return f"  [the rows of {drawing.targets[top].name} come from {', '.join(dict.fromkeys(sets))}]"
    return ""
