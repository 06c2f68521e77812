"""Parts of a tree as text again, sets in the form in which clio prints them."""
from .tokens import Token
from .tree import Argument, Atom, Dependency, Key, Line, Ref, Rule, SetText, Step, Test


def quoted(text: str) -> str:
    """A text as a string of a mapping text."""
    return '"' + text.replace("\\", "\\\\").replace('"', '\\"') + '"'


def listed(words: tuple[Token, ...]) -> str:
    """Words with commas between them."""
    return ", ".join(word.text for word in words)


def printed_set(one: SetText, depth: int = 1) -> str:
    """A set with its keys, then its dependencies, refs and inner sets."""
    pad, inner = "  " * (depth - 1), "  " * depth
    lines = [f"{pad}set {one.name.text} {{", f"{inner}{listed(one.columns)};"]
    clauses: list[Key | Dependency | Ref] = [*one.keys, *one.dependencies, *one.refs]
    lines += [inner + printed_clause(clause) for clause in clauses]
    more = "".join(printed_set(each, depth + 1) for each in one.inner)
    return "\n".join(lines) + "\n" + more + f"{pad}}}\n"


def printed_clause(clause: Key | Dependency | Ref) -> str:
    """A key, a dependency or a ref."""
    if isinstance(clause, Key):
        return f"key ({listed(clause.columns)});"
    if isinstance(clause, Dependency):
        return f"dep ({listed(clause.columns)}) -> ({listed(clause.decided)});"
    optional = " optional" if clause.optional else ""
    return f"ref ({listed(clause.columns)}) -> {clause.set.text} ({listed(clause.referred)}){optional};"


def printed_step(step: Step) -> str:
    """A step of a way."""
    return step.words[0].text if len(step.words) == 1 else f"({listed(step.words)})"


def printed_way(steps: tuple[Step, ...]) -> str:
    """The steps of a way."""
    return ".".join(map(printed_step, steps))


def printed_argument(one: Argument) -> str:
    """What a line takes, with its `by`."""
    name = f"{one.set.text}.{one.column.text}" if one.column else one.set.text
    return name + (f" by {printed_way(one.by)}" if one.by else "")


def printed_test(test: Test) -> str:
    """A test of a `where`."""
    at = ".".join([*map(printed_step, test.steps), test.column.text])
    return f"{at} = {quoted(test.text.text)}" if test.text else f"{at} {test.name.text if test.name else ''}"


def printed_line(line: Line) -> str:
    """A line with its notes."""
    by = ""
    if line.literal:
        start = quoted(line.literal.text)
    elif line.conversion:
        start = f"{line.conversion.text}({', '.join(map(printed_argument, line.arguments))})"
    else:
        start, _, by = printed_argument(line.arguments[0]).partition(" by ")
    notes = (f" by {by}" if by else "") + (f" from {line.source.text}" if line.source else "")
    notes += " where " + ", ".join(map(printed_test, line.tests)) if line.tests else ""
    return f"line {start} -> {line.target.set.text}.{line.target.column.text}{notes};"


def printed_atom(atom: Atom) -> str:
    """An atom of a rule, or the call of a conversion."""
    cells = []
    for cell in atom.cells:
        value = quoted(cell.value.text) if cell.value.kind == "string" else cell.value.text
        cells.append(f"{cell.column.text} = {value}" if cell.column else value)
    return f"{atom.name.text}({', '.join(cells)})"


def printed_rule(rule: Rule) -> str:
    """A rule written by hand."""
    derived = ", ".join(f"{one.name.text} = {printed_atom(one.call)}" for one in rule.derived)
    where = f" where {derived}" if derived else ""
    left, right = (", ".join(map(printed_atom, atoms)) for atoms in (rule.premise, rule.conclusion))
    return f"rule {left}{where} -> {right};"
