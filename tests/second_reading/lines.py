"""Rules from lines: the unfoldings of tables, ways, candidates, kept candidates and the rules that they become."""
import itertools
from dataclasses import dataclass
from typing import NamedTuple, Optional

from refusals import CANDIDATES, OCCURRENCES, VARIANTS, WAYS, Limit, TooLong
from matches import CONVERSIONS
from rules import EXISTENTIAL, LITERAL, VARIABLE, Atom, Cell, Derived, Rule, numbered

CODES = {conversion.name: code for code, conversion in enumerate(CONVERSIONS)}


class Column(NamedTuple):
    """A column of a table, both by number."""
    table: int
    column: int


@dataclass
class Line:
    """A line leads to a target column from a literal, from a column, or from a conversion of columns."""
    target: Column
    columns: tuple = ()
    conversion: Optional[str] = None
    literal: Optional[str] = None


class Occurrence(NamedTuple):
    """An occurrence of a table in an unfolding: a variable for each column, and the occurrence that led here."""
    table: int
    variables: tuple
    parent: Optional[int]
    is_optional: bool = False  # whether an optional link led here


class Term(NamedTuple):
    """A term is a variable or, after all of these, a conversion (by its code) of variables; terms are ordered so."""
    is_call: bool
    number: int
    arguments: tuple = ()


def number_of_choices(tables, table):
    """How many ways there are to follow the links of a table: each, and nothing or one way for each optional one."""
    number = 1
    for link in tables[table].links:
        number *= number_of_choices(tables, link.table)
    for link in tables[table].optional_links:
        number *= 1 + number_of_choices(tables, link.table)
    return number


def largest(tables, table):
    """The number of occurrences if every link is followed."""
    return 1 + sum(largest(tables, link.table) for link in tables[table].every_link())


def choices_of(tables, table):
    """For each way to follow the links of a table: for each link the way that is followed behind it, or None."""
    behind = [list(choices_of(tables, link.table)) for link in tables[table].links]
    behind += [[None] + list(choices_of(tables, link.table)) for link in tables[table].optional_links]
    return itertools.product(*behind)


def unfolding(tables, table, choice):
    """The occurrences that follow from a table along the chosen links, in preorder."""
    occurrences, fresh = [], itertools.count()

    def visit(number, chosen, given, parent, is_optional):
        place = len(occurrences)
        columns = range(len(tables[number].columns))
        variables = tuple(given[column] if column in given else next(fresh) for column in columns)
        occurrences.append(Occurrence(number, variables, parent, is_optional))
        for position, (link, behind) in enumerate(zip(tables[number].every_link(), chosen)):
            if behind is not None:
                shared = {there: variables[here] for here, there in zip(link.own, link.referred)}
                visit(link.table, behind, shared, place, position >= len(tables[number].links))

    visit(table, choice, {}, None, False)
    return occurrences


def variants_of(tables):
    """For each table its unfoldings. Their number is looked at before they are made, table by table."""
    variants, counted = [], 0
    for table in range(len(tables)):
        counted += number_of_choices(tables, table)
        if counted > VARIANTS:
            raise Limit("variants", VARIANTS)
        if largest(tables, table) > OCCURRENCES:
            raise Limit("occurrences", OCCURRENCES)
        variants.append([unfolding(tables, table, choice) for choice in choices_of(tables, table)])
    return variants


def parts_at(occurrences, top):
    """The sets of places that an occurrence and what follows from it give if some optional ones, with all behind them, are left out."""
    parts = [frozenset([top])]
    for place, occurrence in enumerate(occurrences):
        if occurrence.parent == top:
            below = parts_at(occurrences, place) + [frozenset()] * occurrence.is_optional
            parts = [one | other for one in parts for other in below]
            if len(parts) > 3000:
                raise TooLong()
    return parts


def greatest_proper_parts(occurrences):
    """The parts that aren't the whole and lie in no other such part; in a greater part each line has more ways."""
    parts = {part for top in range(len(occurrences)) for part in parts_at(occurrences, top)}
    proper = sorted((part for part in parts if len(part) < len(occurrences)), key=len, reverse=True)
    greatest = []
    for part in proper:
        if not any(part < other for other in greatest):
            greatest.append(part)
    return [[occurrences[place] for place in sorted(part)] for part in greatest]


def terms_of(line, source):
    """The terms that a line gives over some occurrences, one of which is chosen for each table that it names."""
    named = sorted({column.table for column in line.columns})
    choices = [[occurrence for occurrence in source if occurrence.table == table] for table in named]
    terms = set()
    for choice in itertools.product(*choices):
        chosen = dict(zip(named, choice))
        variables = tuple(chosen[column.table].variables[column.column] for column in line.columns)
        if line.conversion is None:
            terms.add(Term(False, variables[0]))
        else:
            terms.add(Term(True, CODES[line.conversion], variables))
    return terms


def reached(line, target):
    """The variables that stand at the line's target column in some occurrence."""
    return {occurrence.variables[line.target.column] for occurrence in target
            if occurrence.table == line.target.table}


def ways_of(lines, source, target):
    """For each target variable that some line reaches from these source occurrences, the terms that it may take."""
    ways = {}
    for line in lines:
        if line.literal is None:
            terms = terms_of(line, source)
            for variable in reached(line, target):
                if terms:
                    ways.setdefault(variable, set()).update(terms)
    return ways


def candidates_of(ways):
    """All combinations of one way for each variable, as pairs of variable and term, in order."""
    variables = sorted(ways)
    for terms in itertools.product(*(sorted(ways[variable]) for variable in variables)):
        yield dict(zip(variables, terms))


def number_of_candidates(ways):
    """How many candidates a pair has."""
    number = 1 if ways else 0
    for terms in ways.values():
        number *= len(terms)
    return number


def smaller_ways(lines, source, target):
    """The ways of each greatest pair of parts that leaves something out of one side."""
    return ([ways_of(lines, part, target) for part in greatest_proper_parts(source)]
            + [ways_of(lines, source, part) for part in greatest_proper_parts(target)])


def is_dropped(picks, smaller):
    """Whether each pick is also a way of one pair of smaller parts."""
    return any(all(term in ways.get(variable, ()) for variable, term in picks.items()) for ways in smaller)


def first_literals(lines, target):
    """For each target variable the literal of the first literal line that reaches it."""
    literals = {}
    for line in lines:
        if line.literal is not None:
            for variable in reached(line, target):
                literals.setdefault(variable, line.literal)
    return literals


def rule_of(picks, literals, source, target):
    """The rule of a candidate: the source's unfolding as premise, the target's as conclusion."""
    derived = []
    premise = [Atom(occurrence.table, occurrence.variables) for occurrence in source]
    first = 1 + max(variable for occurrence in source for variable in occurrence.variables)

    def cell(variable):
        term = picks.get(variable)
        if term is None:
            if variable in literals:
                return Cell(LITERAL, literals[variable])
            return Cell(EXISTENTIAL, variable)
        if not term.is_call:
            return Cell(VARIABLE, term.number)
        call = Derived(CONVERSIONS[term.number].name, term.arguments)
        if call not in derived:
            derived.append(call)
        return Cell(VARIABLE, first + derived.index(call))

    conclusion = [Atom(occurrence.table, tuple([cell(variable) for variable in occurrence.variables]))
                  for occurrence in target]
    return Rule(premise, numbered(conclusion), derived)


def rules_of_lines(lines, source, target):
    """The rules of the kept candidates of all pairs of an unfolding of a source and one of a target table, in order."""
    sources, targets = sum(variants_of(source), []), sum(variants_of(target), [])
    pairs = [(one, other, ways_of(lines, one, other)) for one in sources for other in targets]
    if any(sum(map(len, ways.values())) > WAYS for _, _, ways in pairs):
        raise Limit("ways", WAYS)
    if sum(number_of_candidates(ways) for _, _, ways in pairs) > CANDIDATES:
        raise Limit("candidates", CANDIDATES)
    rules = []
    for one, other, ways in pairs:
        if ways:
            smaller, literals = smaller_ways(lines, one, other), first_literals(lines, other)
            rules += [rule_of(picks, literals, one, other) for picks in candidates_of(ways)
                      if not is_dropped(picks, smaller)]
    return rules
