"""A mapping: two schemas, lines and hand-written rules, and the rule list that it defines."""
from dataclasses import dataclass, field
from typing import NamedTuple

from homomorphisms import pruned
from refusals import OCCURRENCES, RULES, Limit, TooLong
from lines import Column, rules_of_lines
from matches import TESTS
from rules import closed
from schema import tables_of

READABLE_RULES = 30  # more rules than these take a search by plain trial too long


class Condition(NamedTuple):
    """A condition: a source column, and the name of the test that its texts have to pass."""
    column: Column
    test: str


@dataclass
class Mapping:
    """Two schemas as set trees, lines, conditions, and rules as they were written by hand."""
    source_trees: list
    target_trees: list
    lines: list = field(default_factory=list)
    rules: list = field(default_factory=list)
    conditions: list = field(default_factory=list)
    version: int = 1

    def __post_init__(self):
        self.make_tables()

    def make_tables(self):
        """The tables of both schemas, anew after a change of the trees."""
        self.source, self.target = tables_of(self.source_trees), tables_of(self.target_trees)

    def passes(self, number, row):
        """Whether a row of a source table passes every condition on the table."""
        return all(TESTS[condition.test](row[condition.column.column]) for condition in self.conditions
                   if condition.column.table == number)

    def passing(self, instance):
        """The rows of a source instance that pass."""
        return {number: {row for row in rows if self.passes(number, row)} for number, rows in instance.items()}

    def rule_list(self):
        """The rules of the lines, then the closed hand-written rules, pruned; and how many they were before."""
        rules = rules_of_lines(self.lines, self.source, self.target)
        for rule in self.rules:
            if len(rule.premise) > OCCURRENCES:
                raise Limit("occurrences", OCCURRENCES)
            rules.append(closed(rule, self.target))
        if len(rules) > RULES:
            raise Limit("rules", RULES)
        if len(rules) > READABLE_RULES:
            raise TooLong()
        return pruned(rules), len(rules)
