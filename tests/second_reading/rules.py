"""Rules: premise, derived variables and conclusion, how a rule is closed and how it is printed."""
from dataclasses import dataclass, field
from typing import Any, NamedTuple

from refusals import OCCURRENCES, Limit

VARIABLE, EXISTENTIAL, LITERAL = "variable", "existential", "literal"


class Cell(NamedTuple):
    """A cell of a conclusion is a variable of the premise, an existential variable or a literal."""
    kind: str
    content: Any


class Atom(NamedTuple):
    """An atom is a table with its cells; in a premise the cells are the numbers of variables."""
    table: int
    cells: tuple


class Derived(NamedTuple):
    """A derived variable is a conversion of premise variables."""
    conversion: str
    arguments: tuple


@dataclass
class Rule:
    """A rule asks for its conclusion in the target for each match of its premise in the source."""
    premise: list
    conclusion: list
    derived: list = field(default_factory=list)

    def premise_variables(self):
        """The number of variables of the premise; the derived ones are numbered after them."""
        return 1 + max(variable for atom in self.premise for variable in atom.cells)

    def exported(self):
        """The premise and derived variables that stand in the conclusion, ascending."""
        return sorted({cell.content for cell in self.conclusion_cells() if cell.kind == VARIABLE})

    def conclusion_cells(self):
        return [cell for atom in self.conclusion for cell in atom.cells]


def numbered(conclusion):
    """The conclusion with its existential variables numbered by first appearance."""
    numbers = {}

    def renamed(cell):
        if cell.kind != EXISTENTIAL:
            return cell
        return Cell(EXISTENTIAL, numbers.setdefault(cell.content, len(numbers)))

    return [Atom(atom.table, tuple(renamed(cell) for cell in atom.cells)) for atom in conclusion]


def closed(rule, target):
    """The rule whose conclusion has, for each link of each atom, an atom that the link refers to."""
    conclusion = list(rule.conclusion)
    fresh = 1 + max((cell.content for cell in rule.conclusion_cells() if cell.kind == EXISTENTIAL), default=-1)
    place = 0
    while place < len(conclusion):
        atom = conclusion[place]
        for link in target[atom.table].links:
            wanted = [atom.cells[column] for column in link.own]
            if any(refers(link, wanted, other) for other in conclusion):
                continue
            given = dict(zip(link.referred, wanted))
            cells = []
            for column in range(len(target[link.table].columns)):
                cells.append(given.get(column, Cell(EXISTENTIAL, fresh)))
                fresh += 1
            conclusion.append(Atom(link.table, tuple(cells)))
        if len(conclusion) > OCCURRENCES:
            raise Limit("occurrences", OCCURRENCES)
        place += 1
    return Rule(rule.premise, numbered(conclusion), rule.derived)


def refers(link, wanted, atom):
    """Whether the atom is of the link's table and has the wanted cells in the referred columns."""
    return atom.table == link.table and [atom.cells[column] for column in link.referred] == wanted


def quoted(text):
    """A string of the mapping text."""
    return '"%s"' % text.replace("\\", "\\\\").replace('"', '\\"')


def cell_text(cell):
    """How a cell is printed: `x0`, `y0` or a string."""
    if cell.kind == LITERAL:
        return quoted(cell.content)
    return ("x%d" if cell.kind == VARIABLE else "y%d") % cell.content


def call_text(name, cells):
    return "%s(%s)" % (name, ", ".join(cells))


def printed(rule, source, target):
    """The line of the rules text that a rule has."""
    variables = lambda numbers: ["x%d" % number for number in numbers]
    premise = [call_text(source[atom.table].name, variables(atom.cells)) for atom in rule.premise]
    first = rule.premise_variables()
    derived = ["x%d = %s" % (first + place, call_text(one.conversion, variables(one.arguments)))
               for place, one in enumerate(rule.derived)]
    conclusion = [call_text(target[atom.table].name, map(cell_text, atom.cells)) for atom in rule.conclusion]
    where = " where " + ", ".join(derived) if derived else ""
    return "rule %s%s -> %s;\n" % (", ".join(premise), where, ", ".join(conclusion))
