"""What solutions, certain answers, universal targets and cores are, tried out over all assignments, all null maps and
all small targets.
"""
import itertools
from collections.abc import Iterable, Iterator, Mapping, Sequence, Set
from typing import TypeVar

from queries import Part
from rules import LITERAL, VARIABLE, Cell, Rule
from schema import Table
from values import Constant, Fact, Null, Value

T = TypeVar("T")


def values_of(facts: Iterable[Fact]) -> list[Value]:
    return sorted({value for fact in facts for value in fact.row}, key=str)


def assignments(variables: Sequence[T], values: Iterable[Value]) -> Iterator[dict[T, Value]]:
    """All ways to give each variable one of the values."""
    for chosen in itertools.product(values, repeat=len(variables)):
        yield dict(zip(variables, chosen))


def conclusion_facts(rule: Rule, known: Mapping[Cell, Value]) -> set[Fact]:
    def value(cell: Cell) -> Value:
        return Constant(cell.content) if cell.kind == LITERAL else known[cell]

    return {Fact(atom.table, tuple(map(value, atom.cells))) for atom in rule.conclusion}


def satisfied(rule: Rule, source: Set[Fact], target: Set[Fact]) -> bool:
    """Whether for each match of the rule some values for its existential variables give facts of the target alone."""
    variables = sorted({variable for atom in rule.premise for variable in atom.cells})
    cells = set(rule.conclusion_cells())
    unknown = sorted({cell for cell in cells if cell.kind not in (LITERAL, VARIABLE)})
    for known in assignments(variables, values_of(source)):
        if not all(Fact(atom.table, tuple(known[one] for one in atom.cells)) in source for atom in rule.premise):
            continue
        texts = {cell: known[cell.content] for cell in cells if cell.kind == VARIABLE}
        if not any(conclusion_facts(rule, {**texts, **other}) <= target
                   for other in assignments(unknown, values_of(target))):
            return False
    return True


def keys_hold(tables: list[Table], target: Set[Fact]) -> bool:
    for one, other in itertools.product(target, target):
        if one.table == other.table:
            for left, right in tables[one.table].determinations():
                if all(one.row[c] == other.row[c] for c in left) and any(one.row[c] != other.row[c] for c in right):
                    return False
    return True


def links_hold(tables: list[Table], target: Set[Fact]) -> bool:
    return all(any(other.table == link.table
                   and [other.row[c] for c in link.referred] == [fact.row[c] for c in link.own]
                   for other in target) for fact in target for link in tables[fact.table].links)


def is_solution(rules: list[Rule], tables: list[Table], source: Set[Fact], target: Set[Fact]) -> bool:
    return keys_hold(tables, target) and links_hold(tables, target) and all(satisfied(rule, source, target)
                                                                            for rule in rules)


def homomorphisms(facts: Set[Fact], into: Set[Fact]) -> Iterator[set[Fact]]:
    """The images of the facts under all null maps that send them into other facts."""
    nulls = [value for value in values_of(facts) if isinstance(value, Null)]
    for sent in assignments(nulls, values_of(into)):
        image = {Fact(fact.table, tuple(sent.get(value, value) for value in fact.row)) for fact in facts}
        if image <= into:
            yield image


def maps_into(facts: Set[Fact], into: Set[Fact]) -> bool:
    return next(homomorphisms(facts, into), None) is not None


def is_core(facts: Set[Fact]) -> bool:
    return all(image == facts for image in homomorphisms(facts, facts))


def answers(query: list[Part], target: Set[Fact]) -> set[tuple[Value, ...]]:
    """The rows of a query on a target."""
    rows = set()
    for part in query:
        variables = sorted({cell for atom in part.atoms for cell in atom.cells if cell.kind == VARIABLE})
        for known in assignments(variables, values_of(target)):
            value = lambda cell: Constant(cell.content) if cell.kind == LITERAL else known[cell]
            if all(Fact(atom.table, tuple(map(value, atom.cells))) in target for atom in part.atoms):
                rows.add(tuple(map(value, part.answer)))
    return rows


def small_targets(tables: list[Table], values: Sequence[Value]) -> Iterator[set[Fact]]:
    """All sets of facts with these values."""
    facts = [Fact(number, row) for number, table in enumerate(tables)
             for row in itertools.product(values, repeat=len(table.columns))]
    for number in range(len(facts) + 1):
        yield from (set(chosen) for chosen in itertools.combinations(facts, number))
