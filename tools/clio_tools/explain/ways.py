"""What lines mean before clio has printed a rule: the unfoldings of tables, the ways to give values along them, and the
rules that they become. clio refuses a mapping that has too many of these without a word on which lines and refs make
them; here they are counted."""
from __future__ import annotations

import itertools
from collections.abc import Iterable, Iterator
from typing import NamedTuple

from clio_tools.mapping.meaning import Line
from clio_tools.mapping.meanings import CONVERSIONS
from clio_tools.mapping.rules import EXISTENTIAL, LITERAL, VARIABLE, Cell, Conclusion, Derived, Premise, Rule, numbered
from clio_tools.mapping.tables import Table

CODES = {name: code for code, name in enumerate(CONVERSIONS)}
OCCURRENCES, VARIANTS = 64, 256  # what clio takes
PARTS = 3000
Choice = tuple["Choice | None", ...]


class TooMany(Exception):
    """There are more of them than can be gone through here."""


class Occurrence(NamedTuple):
    """An occurrence of a table in an unfolding: a variable for each column, and the occurrence that led here."""

    table: int
    variables: tuple[int, ...]
    parent: int | None
    is_optional: bool = False  # whether an optional link led here


class Term(NamedTuple):
    """A variable or, after all of these, a conversion (by its code) of variables; terms are ordered so."""

    is_call: bool
    number: int
    arguments: tuple[int, ...] = ()


Ways = dict[int, set[Term]]


def number_of_choices(tables: list[Table], table: int) -> int:
    """How many ways there are to follow the links of a table: each, and nothing or one way for each optional one."""
    number = 1
    for link in tables[table].links:
        number *= number_of_choices(tables, link.table)
    for link in tables[table].optional_links:
        number *= 1 + number_of_choices(tables, link.table)
    return number


def largest(tables: list[Table], table: int) -> int:
    """The number of occurrences if every link is followed."""
    return 1 + sum(largest(tables, link.table) for link in tables[table].every_link())


def choices_of(tables: list[Table], table: int) -> Iterator[Choice]:
    """For each way to follow the links of a table: for each link the way that is followed behind it, or None."""
    behind: list[list[Choice | None]] = [list(choices_of(tables, link.table)) for link in tables[table].links]
    behind += [[None, *choices_of(tables, link.table)] for link in tables[table].optional_links]
    return itertools.product(*behind)


def unfolding(tables: list[Table], table: int, choice: Choice) -> list[Occurrence]:
    """The occurrences that follow from a table along the chosen links, in preorder."""
    occurrences: list[Occurrence] = []
    fresh = itertools.count()

    def visit(number: int, chosen: Choice, given: dict[int, int], parent: int | None, is_optional: bool) -> None:
        place = len(occurrences)
        variables = tuple([given[column] if column in given else next(fresh)
                           for column in range(len(tables[number].columns))])
        occurrences.append(Occurrence(number, variables, parent, is_optional))
        for position, (link, behind) in enumerate(zip(tables[number].every_link(), chosen)):
            if behind is not None:
                shared = {there: variables[here] for here, there in zip(link.own, link.referred)}
                visit(link.table, behind, shared, place, position >= len(tables[number].links))

    visit(table, choice, {}, None, False)
    return occurrences


def variants_of(tables: list[Table]) -> list[list[list[Occurrence]]]:
    """For each table its unfoldings."""
    variants = []
    for table in range(len(tables)):
        if number_of_choices(tables, table) > VARIANTS or largest(tables, table) > OCCURRENCES:
            raise TooMany
        variants.append([unfolding(tables, table, choice) for choice in choices_of(tables, table)])
    return variants


def parts_at(occurrences: list[Occurrence], top: int) -> list[frozenset[int]]:
    """The sets of places that an occurrence and what follows from it give if some optional ones, with all behind them,
    are left out.
    """
    parts = [frozenset([top])]
    for place, occurrence in enumerate(occurrences):
        if occurrence.parent == top:
            below = parts_at(occurrences, place) + [frozenset[int]()] * occurrence.is_optional
            parts = [one | other for one in parts for other in below]
            if len(parts) > PARTS:
                raise TooMany
    return parts


def greatest_proper_parts(occurrences: list[Occurrence]) -> list[list[Occurrence]]:
    """The parts that aren't the whole and lie in no other such part; in a greater part each line has more ways."""
    parts = {part for top in range(len(occurrences)) for part in parts_at(occurrences, top)}
    proper = sorted((part for part in parts if len(part) < len(occurrences)), key=len, reverse=True)
    greatest: list[frozenset[int]] = []
    for part in proper:
        if not any(part < other for other in greatest):
            greatest.append(part)
    return [[occurrences[place] for place in sorted(part)] for part in greatest]


def terms_of(line: Line, source: list[Occurrence]) -> set[Term]:
    """The terms that a line gives over some occurrences, one of which is chosen for each table that it names."""
    named = sorted({column.table for column in line.columns})
    choices = [[occurrence for occurrence in source if occurrence.table == table] for table in named]
    terms = set()
    for choice in itertools.product(*choices):
        chosen = dict(zip(named, choice))
        variables = tuple(chosen[column.table].variables[column.column] for column in line.columns)
        terms.add(Term(True, CODES[line.conversion], variables) if line.conversion else Term(False, variables[0]))
    return terms


def reached(line: Line, target: list[Occurrence]) -> set[int]:
    """The variables that are at the line's target column in some occurrence."""
    return {occurrence.variables[line.target.column] for occurrence in target if occurrence.table == line.target.table}


def ways_of(lines: Iterable[Line], source: list[Occurrence], target: list[Occurrence]) -> Ways:
    """For each target variable that some line reaches from these source occurrences, the terms that it may take."""
    ways: Ways = {}
    for line in lines:
        if line.literal is None:
            terms = terms_of(line, source)
            for variable in reached(line, target):
                if terms:
                    ways.setdefault(variable, set()).update(terms)
    return ways


def candidates_of(ways: Ways) -> Iterator[dict[int, Term]]:
    """All combinations of one way for each variable, in order."""
    variables = sorted(ways)
    for terms in itertools.product(*(sorted(ways[variable]) for variable in variables)):
        yield dict(zip(variables, terms))


def number_of_candidates(ways: Ways) -> int:
    """How many candidates a pair has."""
    number = 1 if ways else 0
    for terms in ways.values():
        number *= len(terms)
    return number


def is_dropped(picks: dict[int, Term], smaller: list[Ways]) -> bool:
    """Whether each pick is also a way of one pair of smaller parts."""
    return any(all(term in ways.get(variable, ()) for variable, term in picks.items()) for ways in smaller)


def first_literals(lines: Iterable[Line], target: list[Occurrence]) -> dict[int, str]:
    """For each target variable the literal of the first literal line that reaches it."""
    literals: dict[int, str] = {}
    for line in lines:
        if line.literal is not None:
            for variable in reached(line, target):
                literals.setdefault(variable, line.literal)
    return literals


def rule_of(picks: dict[int, Term], literals: dict[int, str], source: list[Occurrence],
            target: list[Occurrence]) -> Rule:
    """The rule of a candidate: the source's unfolding as premise, the target's as conclusion."""
    derived: list[Derived] = []
    names = list(CONVERSIONS)
    premise = [Premise(occurrence.table, occurrence.variables) for occurrence in source]
    first = 1 + max(variable for occurrence in source for variable in occurrence.variables)

    def cell(variable: int) -> Cell:
        term = picks.get(variable)
        if term is None:
            return Cell(LITERAL, literals[variable]) if variable in literals else Cell(EXISTENTIAL, variable)
        if not term.is_call:
            return Cell(VARIABLE, term.number)
        call = Derived(names[term.number], term.arguments)
        if call not in derived:
            derived.append(call)
        return Cell(VARIABLE, first + derived.index(call))

    conclusion = [Conclusion(occurrence.table, tuple([cell(variable) for variable in occurrence.variables]))
                  for occurrence in target]
    return Rule(premise, numbered(conclusion), derived)


def rules_of_lines(lines: list[Line], source: list[Table], target: list[Table]) -> list[Rule]:
    """The rules of the kept candidates of all pairs of an unfolding of a source and one of a target table, in order."""
    rules = []
    for one, other in itertools.product(itertools.chain(*variants_of(source)),
                                        list(itertools.chain(*variants_of(target)))):
        ways = ways_of(lines, one, other)
        if ways:
            smaller = ([ways_of(lines, part, other) for part in greatest_proper_parts(one)]
                       + [ways_of(lines, one, part) for part in greatest_proper_parts(other)])
            literals = first_literals(lines, other)
            rules += [rule_of(picks, literals, one, other)
                      for picks in candidates_of(ways) if not is_dropped(picks, smaller)]
    return rules
