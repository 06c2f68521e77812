"""What makes lines mean too much: target columns with many ways, and the refs without which there were fewer."""
import dataclasses
from collections.abc import Callable, Iterator
from typing import NamedTuple

from clio_tools.explain.said import amount, listed
from clio_tools.explain.ways import (Choice, Occurrence, Term, TooMany, Ways, largest, number_of_choices, reached,
                                     terms_of, unfolding, ways_of)
from clio_tools.mapping.meaning import Line, Mapping
from clio_tools.mapping.tables import Link, Table

MOST = 5  # of each kind that are told
OCCURRENCES = 64  # what clio takes
Measure = Callable[[Ways], int]


class Pair(NamedTuple):
    """A source and a target table, with all that follows from them, and the values that lines give from one to the
    other.
    """
    one: int
    other: int
    ways: Ways


def full(tables: list[Table], table: int) -> list[Occurrence]:
    """All that follows from a table, each optional link followed; no way to follow fewer has more values."""
    if largest(tables, table) > OCCURRENCES:
        raise TooMany
    return unfolding(tables, table, all_links(tables, table))


def all_links(tables: list[Table], table: int) -> Choice:
    """The choice of each link."""
    return tuple(all_links(tables, link.table) for link in tables[table].every_link())


def worst(mapping: Mapping, measure: Measure) -> Pair:
    """The pair with most values."""
    sources = [full(mapping.source, place) for place in range(len(mapping.source))]
    targets = [full(mapping.target, place) for place in range(len(mapping.target))]
    pairs = (Pair(one, other, ways_of(mapping.lines, source, target))
             for one, source in enumerate(sources) for other, target in enumerate(targets))
    return max(pairs, key=lambda pair: measure(pair.ways))


def path(tables: list[Table], occurrences: list[Occurrence], place: int) -> str:
    """The refs along which an occurrence follows, as Orders (ShipID) > Addresses."""
    occurrence = occurrences[place]
    if occurrence.parent is None:
        return tables[occurrence.table].name
    above = occurrences[occurrence.parent]
    link = next(link for link in tables[above.table].every_link() if link.table == occurrence.table and all(
        above.variables[here] == occurrence.variables[there] for here, there in zip(link.own, link.referred)))
    own = listed(tables[above.table].columns[column] for column in link.own)
    return f"{path(tables, occurrences, occurrence.parent)} ({own}) > {tables[occurrence.table].name}"


def place_of(occurrences: list[Occurrence], variable: int) -> tuple[int, int]:
    """The first occurrence that has a variable, and its column there."""
    return next((place, occurrence.variables.index(variable)) for place, occurrence in enumerate(occurrences)
                if variable in occurrence.variables)


def of_columns(mapping: Mapping, pair: Pair) -> Iterator[str]:
    """The target columns that have most ways, with some of these."""
    source, target = full(mapping.source, pair.one), full(mapping.target, pair.other)
    for variable, terms in sorted(pair.ways.items(), key=lambda one: -len(one[1]))[:MOST]:
        if len(terms) > 1:
            place, column = place_of(target, variable)
            name = mapping.target[target[place].table].columns[column]
            shown = listed([shown_term(mapping.source, source, term) for term in sorted(terms)], 3)
            yield f"   {path(mapping.target, target, place)}.{name} can have {amount(len(terms), 'value')}, as {shown}"


def shown_term(tables: list[Table], occurrences: list[Occurrence], term: Term) -> str:
    """A value that a target column can have."""
    place, column = place_of(occurrences, term.arguments[0] if term.is_call else term.number)
    return f"{path(tables, occurrences, place)}.{tables[occurrences[place].table].columns[column]}"


def of_lines(mapping: Mapping, pair: Pair) -> Iterator[str]:
    """The lines that give most values."""
    source, target = full(mapping.source, pair.one), full(mapping.target, pair.other)
    counted = sorted(((len(terms_of(line, source)) * len(reached(line, target)), place)
                      for place, line in enumerate(mapping.lines) if line.literal is None), reverse=True)
    for count, place in counted[:MOST]:
        if count > 1:
            yield f"   {shown_line(mapping, mapping.lines[place])} gives {count:,} of them"


def shown_line(mapping: Mapping, line: Line) -> str:
    """A line by the names of its columns."""
    tables = [(mapping.source[one.table], one.column) for one in line.columns]
    names = listed(f"{table.name}.{table.columns[column]}" for table, column in tables)
    target = mapping.target[line.target.table]
    return f"line {names} -> {target.name}.{target.columns[line.target.column]}"


def without(tables: list[Table], number: int, link: Link) -> list[Table]:
    """The tables without a ref."""
    table = tables[number]
    less = dataclasses.replace(table, links=[one for one in table.links if one is not link],
                               optional_links=[one for one in table.optional_links if one is not link])
    return [*tables[:number], less, *tables[number + 1:]]


def of_refs(mapping: Mapping, pair: Pair, measure: Measure, number: int) -> Iterator[str]:
    """The refs without which there were fewer values, the best first."""
    found = []
    for side, tables in ("source", mapping.source), ("target", mapping.target):
        for place, table in enumerate(tables):
            for link in table.every_link()[table.parent is not None:]:
                fewer = without(tables, place, link)
                source, target = (fewer, mapping.target) if side == "source" else (mapping.source, fewer)
                count = measure(ways_of(mapping.lines, full(source, pair.one), full(target, pair.other)))
                found.append((count, shown_ref(tables, place, link), side))
    before = measure(pair.ways)
    for count, ref, side in sorted(found)[:MOST]:
        if count < before:
            yield f"   without {ref} of the {side}: {count:,}" + (", which is allowed" if count <= number else "")


def shown_ref(tables: list[Table], place: int, link: Link) -> str:
    """A ref with its set."""
    table, other = tables[place], tables[link.table]
    return (f"ref ({listed(table.columns[column] for column in link.own)}) -> {other.name} "
            f"({listed(other.columns[column] for column in link.referred)}) in {table.name}")


def of_values(mapping: Mapping, measure: Measure, number: int) -> Iterator[str]:
    """What makes the values of lines too many, in a few lines."""
    try:
        pair = worst(mapping, measure)
        names = mapping.source[pair.one].name, mapping.target[pair.other].name
        yield (f"most are from {names[0]}, with what its refs lead to, to {names[1]} with what its refs lead to: "
               f"{measure(pair.ways):,}; {number:,} are allowed" + (" in all" if number > 64 else ""))
        yield from of_columns(mapping, pair)
        yield from of_lines(mapping, pair)
        yield from of_refs(mapping, pair, measure, number)
    except TooMany:
        yield f"more than {OCCURRENCES} tables follow from one along its refs"


def of_variants(tables: list[Table], side: str, number: int) -> Iterator[str]:
    """The sets with most ways to follow their optional refs, and the refs without which there were fewer."""
    def total(some: list[Table]) -> int:
        return sum(number_of_choices(some, place) for place in range(len(some)))
    if total(tables) <= number:
        return
    yield (f"the optional refs of the {side} can be followed or not in {total(tables):,} ways in all; "
           f"{number:,} are allowed")
    ways = sorted(((number_of_choices(tables, place), table.name) for place, table in enumerate(tables)), reverse=True)
    for count, name in ways[:MOST]:
        if count > 1:
            yield f"   from {name}: {count:,}"
    found = [(total(without(tables, place, link)), shown_ref(tables, place, link))
             for place, table in enumerate(tables) for link in table.optional_links]
    for count, ref in sorted(found)[:MOST]:
        yield f"   without {ref}: {count:,}" + (", which is allowed" if count <= number else "")
