"""Whether one list of rules implies another, and if not, a source and a target that tell them apart."""
import itertools

from homomorphisms import frozen, refuting
from rules import LITERAL
from values import Constant, Fact


class Refutation:
    """The first rule of a list that doesn't follow from another list, and what shows it: facts of the source and of the target."""

    def __init__(self, rule, source, target):
        self.rule, self.source, self.target = rule, source, target


def least_prefix(rules):
    """The least number of letters v, at least one, with which no literal of the rules begins."""
    literals = [cell.content for rule in rules for cell in rule.conclusion_cells() if cell.kind == LITERAL]
    prefixes = ("v" * number for number in itertools.count(1))
    return next(prefix for prefix in prefixes if not any(literal.startswith(prefix) for literal in literals))


def refutation(first, second):
    """Whether the first list implies the second: None, or the refutation of the second's first rule that doesn't follow."""
    prefix = least_prefix(first + second)
    for number, rule in enumerate(second):
        target = refuting(rule, first, prefix)
        if target is not None:
            source = {Fact(table, tuple(map(Constant, row))) for table, rows in frozen(rule, prefix).items() for row in rows}
            return Refutation(number, source, target)
    return None
