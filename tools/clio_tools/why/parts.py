"""Which part of a mapping text says what: the line or the rule behind a cell, the clause of a key, a ref or a
condition."""
from __future__ import annotations

from functools import cached_property

from clio_tools.mapping import tree
from clio_tools.mapping.meaning import Line, Mapping, mapping_of_tree
from clio_tools.mapping.parser import parse
from clio_tools.mapping.places import Text
from clio_tools.mapping.rules import EXISTENTIAL, LITERAL, Rule, TooLarge, closed, printed
from clio_tools.why.data import Edit, Part

At = tuple[int, int]  # a table and a column, by number


class Parts:
    """The parts of a mapping text, and the rules that clio prints for it."""

    def __init__(self, content: bytes, mapping: Mapping, rules: list[str]) -> None:
        self.mapping, self.rules, self.text = mapping, rules, Text(content)
        self.tree = parse(content).tree
        self.sides = {"source": self.tree.source.every(), "target": self.tree.target.every()}

    def part(self, part: tree.Part) -> Part:
        """A part of the tree with its line and its text."""
        text = " ".join(self.text.between(part.start, part.end).split())
        return Part(self.text.place(part.start).line, part.start, part.end, text)

    @cached_property
    def written(self) -> Mapping:
        """The mapping as it is written: its lines, and the rules that are written by hand."""
        return mapping_of_tree(self.tree)

    @cached_property
    def by_hand(self) -> dict[str, tree.Rule]:
        """The rules that are written by hand, as clio prints them."""
        source, target = self.mapping.source, self.mapping.target
        found: dict[str, tree.Rule] = {}
        for rule, text in zip(self.written.rules, self.tree.rules):
            try:
                found.setdefault(printed(closed(rule, target), source, target), text)
            except TooLarge:
                pass
        return found

    def rule(self, number: int) -> Part | None:
        """The text of a rule that is written by hand."""
        text = self.by_hand.get(self.rules[number])
        return self.part(text) if text else None

    def cell(self, number: int, atom: int, column: int) -> tuple[Part | None, list[At]]:
        """What gives a cell of a rule: the line of the text, or the rule if it is written by hand; and the source
        columns."""
        rule = self.mapping.rules[number]
        cell = rule.conclusion[atom].cells[column]
        if cell.kind == EXISTENTIAL:
            return self.rule(number), []
        ways = columns_of(rule, cell.content) if isinstance(cell.content, int) else []
        part = self.rule(number)
        if part is None:
            for line, text in self.lines_to(rule, atom, column):
                if cell.kind == LITERAL and line.literal == cell.content:
                    return self.part(text), []
                columns = [(one.table, one.column) for one in line.columns]
                if isinstance(cell.content, int) and line.conversion == conversion_of(rule, cell.content) and columns \
                        and all(one in way for one, way in zip(columns, ways)):
                    return self.part(text), columns
        return part, [way[0] for way in ways]

    def lines_to(self, rule: Rule, atom: int, column: int) -> list[tuple[Line, tree.Line]]:
        """The lines to a column of a rule, then those to columns that have the same cell there, as along refs."""
        cell = rule.conclusion[atom].cells[column]
        columns = [(rule.conclusion[atom].table, column)]
        columns += [(other.table, place) for other in rule.conclusion
                    for place, one in enumerate(other.cells) if one == cell]
        lines = list(zip(self.written.lines, self.tree.lines))
        return [one for target in dict.fromkeys(columns) for one in lines if one[0].target == target]

    def determination(self, table: int, number: int) -> Part | None:
        """The clause of a key or a dependency of the target, by its number among them; that of `#id` has none."""
        one = self.sides["target"][table]
        clauses: list[tree.Part | None] = [None] * bool(one.inner) + [*one.keys, *one.dependencies]
        clause = clauses[number]
        return self.part(clause) if clause else None

    def ref(self, table: int, number: int) -> tree.Ref:
        """A ref of the source, by its number among those that aren't optional."""
        return [ref for ref in self.sides["source"][table].refs if not ref.optional][number]

    def second_version(self) -> list[Edit]:
        """The change by which a text of the first version may say what takes the second."""
        at = self.tree.version_at
        return [Edit(at.start, at.end, "2")] if self.tree.version == 1 else []

    def condition(self, number: int) -> Part:
        """A condition, by its number."""
        return self.part(self.tree.conditions[number])


def conversion_of(rule: Rule, variable: int) -> str | None:
    """The conversion that makes a variable, if one does."""
    number = variable - rule.premise_variables()
    return rule.derived[number].conversion if number >= 0 else None


def columns_of(rule: Rule, variable: int) -> list[list[At]]:
    """The source columns that have a variable; of one that a conversion makes, those of each argument."""
    number = variable - rule.premise_variables()
    arguments = rule.derived[number].arguments if number >= 0 else (variable,)
    return [[(atom.table, column) for atom in rule.premise for column, one in enumerate(atom.cells) if one == argument]
            for argument in arguments]
