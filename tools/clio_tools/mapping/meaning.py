"""What a mapping text says, with all names looked up: tables, lines, conditions, and hand-written rules."""
from __future__ import annotations

from dataclasses import dataclass
from typing import NamedTuple

from clio_tools.mapping import tree
from clio_tools.mapping.meanings import TESTS
from clio_tools.mapping.names import faults_of_names
from clio_tools.mapping.parser import parse
from clio_tools.mapping.places import Fault, Text
from clio_tools.mapping.rules import EXISTENTIAL, LITERAL, VARIABLE, Cell, Conclusion, Derived, Premise, Rule
from clio_tools.mapping.schema import schema_of
from clio_tools.mapping.tables import Table, tables_of, trees_of
from clio_tools.program import Refused

LINES = 512  # so many lines and conditions a mapping can have


class Unread(Refused):
    """A mapping text that clio refuses; the fault is the first one."""

    def __init__(self, content: bytes, fault: Fault) -> None:
        place = Text(content).place(fault.start)
        super().__init__(f"line {place.line}, column {place.column}: {fault.said}")
        self.fault = fault


class Column(NamedTuple):
    """A column of a table, both by number."""

    table: int
    column: int


class Line(NamedTuple):
    """A line leads to a target column from a literal, from a column, or from a conversion of columns."""

    target: Column
    columns: tuple[Column, ...] = ()
    conversion: str | None = None
    literal: str | None = None


class Condition(NamedTuple):
    """A source column, and the name of the test that its texts have to pass."""

    column: Column
    test: str


@dataclass
class Mapping:
    """Two sides, lines, conditions, and rules; `end_of_sets` is the byte behind both sides."""

    source: list[Table]
    target: list[Table]
    lines: list[Line]
    conditions: list[Condition]
    rules: list[Rule]
    texts: list[tree.Rule]
    end_of_sets: int

    def passes(self, number: int, row: tuple[str, ...]) -> bool:
        """Whether a row of a source table satisfies every condition on the table."""
        return all(TESTS[one.test].holds(row[one.column.column]) for one in self.conditions
                   if one.column.table == number)


def read_mapping(content: bytes) -> Mapping:
    """The mapping of a text; one that clio would refuse is Unread. Of limits only those of the sides are looked at."""
    parsed = parse(content)
    faults = list(parsed.faults)
    if not faults:
        source, target = schema_of(parsed.tree.source, "source"), schema_of(parsed.tree.target, "target")
        faults = source.faults + target.faults or faults_of_names(parsed.tree, source.schema, target.schema)
    if faults:
        raise Unread(content, faults[0])
    return mapping_of_tree(parsed.tree)


def mapping_of_tree(text: tree.Tree) -> Mapping:
    """The mapping of a text without faults."""
    source, target = tables_of(trees_of(text.source)), tables_of(trees_of(text.target))
    lines = [Line(column_of(line.target.set.text, line.target.column.text, target),
                  tuple(column_of(one.set.text, one.column.text if one.column else "", source)
                        for one in line.arguments),
                  line.conversion.text if line.conversion else None, line.literal.text if line.literal else None)
             for line in text.lines]
    conditions = [Condition(column_of(one.place.set.text, one.place.column.text, source), one.test.text)
                  for one in text.conditions]
    rules = [rule_of(rule, source, target) for rule in text.rules]
    return Mapping(source, target, lines, conditions, rules, text.rules,
                   text.target.end)


def number_of(name: str, tables: list[Table]) -> int:
    """The number of the table of this name."""
    return next(number for number, table in enumerate(tables) if table.name == name)


def column_of(set_name: str, column: str, tables: list[Table]) -> Column:
    """A column by its names."""
    number = number_of(set_name, tables)
    return Column(number, tables[number].columns.index(column))


def rule_of(text: tree.Rule, source: list[Table], target: list[Table]) -> Rule:
    """A rule: its variables are numbered as they come, then what conversions make; words besides are existential."""
    names: dict[str, int] = {}
    premise = [Premise(number_of(atom.name.text, source),
                       tuple([names.setdefault(cell.value.text, len(names)) for cell in atom.cells]))
               for atom in text.premise]
    derived = []
    for one in text.derived:
        derived.append(Derived(one.call.name.text, tuple(names[cell.value.text] for cell in one.call.cells)))
        names[one.name.text] = len(names)
    unknown: dict[str, int] = {}

    def cell_of(cell: tree.Cell) -> Cell:
        word = cell.value.text
        if cell.value.kind == "string":
            return Cell(LITERAL, word)
        if word in names:
            return Cell(VARIABLE, names[word])
        return Cell(EXISTENTIAL, unknown.setdefault(word, len(unknown)))

    conclusion = [Conclusion(number_of(atom.name.text, target), tuple([cell_of(cell) for cell in atom.cells]))
                  for atom in text.conclusion]
    return Rule(premise, conclusion, derived)
