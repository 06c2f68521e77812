"""Rules: those written by hand, and those that clio prints, with variables numbered as clio numbers them."""
from __future__ import annotations

from collections.abc import Iterable
from dataclasses import dataclass, field
from typing import NamedTuple

from clio_tools.mapping.printing import quoted
from clio_tools.mapping.tables import Link, Table

VARIABLE, EXISTENTIAL, LITERAL = "variable", "existential", "literal"
OCCURRENCES = 64  # so many atoms a side of a rule can have


class Cell(NamedTuple):
    """A cell of a conclusion: a variable of the premise, an existential variable, both by number, or a literal."""

    kind: str
    content: int | str


class Premise(NamedTuple):
    """An atom of a premise: a table of the source, and the numbers of variables."""

    table: int
    cells: tuple[int, ...]


class Conclusion(NamedTuple):
    """An atom of a conclusion: a table of the target, and its cells."""

    table: int
    cells: tuple[Cell, ...]


class Derived(NamedTuple):
    """A derived variable: a conversion of variables of the premise."""

    conversion: str
    arguments: tuple[int, ...]


class TooLarge(Exception):
    """What links add to a rule is more than it can have."""


@dataclass
class Rule:
    """A rule asks for its conclusion in the target for each match of its premise in the source."""

    premise: list[Premise]
    conclusion: list[Conclusion]
    derived: list[Derived] = field(default_factory=list)

    def premise_variables(self) -> int:
        """The number of variables of the premise; the derived ones are numbered after them."""
        return 1 + max(variable for atom in self.premise for variable in atom.cells)

    def exported(self) -> list[int]:
        """The variables, derived ones too, that are in the conclusion, ascending."""
        return sorted({int(cell.content) for cell in self.conclusion_cells() if cell.kind == VARIABLE})

    def conclusion_cells(self) -> list[Cell]:
        """The cells of all atoms of the conclusion."""
        return [cell for atom in self.conclusion for cell in atom.cells]


def numbered(conclusion: Iterable[Conclusion]) -> list[Conclusion]:
    """The conclusion with its existential variables numbered by first appearance."""
    numbers: dict[int | str, int] = {}

    def renamed(cell: Cell) -> Cell:
        if cell.kind != EXISTENTIAL:
            return cell
        return Cell(EXISTENTIAL, numbers.setdefault(cell.content, len(numbers)))

    return [Conclusion(atom.table, tuple(map(renamed, atom.cells))) for atom in conclusion]


def closed(rule: Rule, target: list[Table]) -> Rule:
    """The rule whose conclusion has, for each link of each atom, an atom that the link leads to."""
    conclusion = list(rule.conclusion)
    fresh = 1 + max((int(cell.content) for cell in rule.conclusion_cells() if cell.kind == EXISTENTIAL), default=-1)
    place = 0
    while place < len(conclusion):
        atom = conclusion[place]
        for link in target[atom.table].links:
            wanted = [atom.cells[column] for column in link.own]
            if not any(leads_to(link, wanted, other) for other in conclusion):
                given = dict(zip(link.referred, wanted))
                width = len(target[link.table].columns)
                conclusion.append(Conclusion(link.table, tuple(given.get(column, Cell(EXISTENTIAL, fresh + column))
                                                               for column in range(width))))
                fresh += width
        if len(conclusion) > OCCURRENCES:
            raise TooLarge
        place += 1
    return Rule(rule.premise, numbered(conclusion), rule.derived)


def leads_to(link: Link, wanted: list[Cell], atom: Conclusion) -> bool:
    """Whether the atom is of the link's table and has the wanted cells in the referred columns."""
    return atom.table == link.table and [atom.cells[column] for column in link.referred] == wanted


def printed(rule: Rule, source: list[Table], target: list[Table]) -> str:
    """The line of a rule as clio prints it."""
    first = rule.premise_variables()
    premise = [called(source[atom.table].name, map(variable, atom.cells)) for atom in rule.premise]
    derived = [f"{variable(first + place)} = {called(one.conversion, map(variable, one.arguments))}"
               for place, one in enumerate(rule.derived)]
    conclusion = [called(target[atom.table].name, map(cell_text, atom.cells)) for atom in rule.conclusion]
    where = f" where {', '.join(derived)}" if derived else ""
    return f"rule {', '.join(premise)}{where} -> {', '.join(conclusion)};"


def numbers_of(rules: Iterable[Rule], source: list[Table], target: list[Table], shown: list[str]) -> list[int | None]:
    """The numbers that rules have among those that clio prints; none of one that it leaves out, as others imply it."""

    def number_of(rule: Rule) -> int | None:
        try:
            text = printed(closed(rule, target), source, target)
        except TooLarge:
            return None
        return shown.index(text) if text in shown else None

    return [number_of(rule) for rule in rules]


def variable(number: int) -> str:
    """How a variable of the premise, or a derived one, is printed."""
    return f"x{number}"


def cell_text(cell: Cell) -> str:
    """How a cell is printed."""
    if isinstance(cell.content, str):
        return quoted(cell.content)
    return variable(cell.content) if cell.kind == VARIABLE else f"y{cell.content}"


def called(name: str, cells: Iterable[str]) -> str:
    """A name with cells in parentheses."""
    return f"{name}({', '.join(cells)})"
