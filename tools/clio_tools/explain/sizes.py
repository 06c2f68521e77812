"""Which size exceeds a limit, how large it is, and what to do."""
import os
import pathlib
from collections.abc import Callable, Iterator, Sequence

from clio_tools.csv import records
from clio_tools.explain.causes import of_values, of_variants
from clio_tools.explain.joins import Matches, TooMany
from clio_tools.explain.pieces import Mark, Piece
from clio_tools.explain.placed import MappingText
from clio_tools.explain.program import mapping_of
from clio_tools.explain.query_faults import QueryText
from clio_tools.explain.said import amount, listed, visible
from clio_tools.explain.source import Source, file_of
from clio_tools.explain.ways import number_of_candidates, rules_of_lines
from clio_tools.mapping.meaning import Mapping, read_mapping
from clio_tools.mapping.rules import OCCURRENCES, TooLarge, closed
from clio_tools.mapping.tables import Table, tables_of

MOST_RULES = 10  # that are told

DATA = ("split the source where nothing joins across the cut, or run the script on a database of your own: "
        "clio show | grep -v '^rule ' | clio-script-to-postgres")
CURES = {
    "text bytes": "split the mapping",
    "data bytes": DATA, "source cells": DATA, "target cells": DATA,
    "tables": "split the mapping: one run takes 64 sets a side",
    "columns": "split the set in two that share a key, or leave columns out of the file",
    "depth": "flatten the document",
    "lines": "split the mapping, or write rules: a rule fills a whole row",
    "variants": "make refs optional only where rows without a match are wanted, or make a drawing of it, which has a"
                " rule for each ref and not for each set of refs (man clio-rules)",
    "occurrences": "leave out refs that no line needs, or write rules in the place of lines",
    "ways": "leave out one of these refs, if no line needs it, or draw fewer lines between the two sets, or write rules"
            " in their place",
    "candidates": "leave out one of these refs, if no line needs it, or write rules in the place of lines between"
                  " these sets",
    "rules": "split the mapping",
    "frozen cells": "leave out a rule that others make needless, or atoms of its left side: a set many times there"
                    " makes many matches",
    "query bytes": "ask in several queries, each in a run of its own",
    "query atoms": "leave out atoms that others make needless, or ask in several queries",
    "answer cells": "answer fewer variables, or put constants into the atoms",
    "given cells": "judge a part: leave out rows of the source, and what is made of them",
}


def explain(message: str, content: bytes | None, words: Sequence[str] = ()) -> Iterator[Piece]:
    """The lines that explain a message `limit: COUNT N`; either mapping of a comparison may exceed it."""
    count, _, number = message.removeprefix("limit: ").rpartition(" ")
    parts: dict[str, Callable[[MappingText, int], Iterator[Piece]]] = {
        "tables": tables, "columns": columns, "depth": depth, "lines": lines, "variants": variants,
        "occurrences": occurrences, "ways": ways, "candidates": candidates, "rules": rules, "data bytes": data_bytes,
        "source cells": source_cells, "target cells": target_cells, "frozen cells": frozen_cells,
        "query bytes": query_bytes, "query atoms": query_atoms, "answer cells": answer_cells,
        "given cells": given_cells}
    if count not in CURES:
        return
    if count == "text bytes":
        yield from text_bytes(int(number))
    elif words[:1] == ["compare"]:
        for name in "mapping.clio", "other.clio":
            yield f"in {name}:"
            yield from parts[count](MappingText(pathlib.Path(name).read_bytes()), int(number))
    else:
        yield from parts[count](MappingText(content or b""), int(number))
    yield "what to do: " + CURES[count]


def text_bytes(number: int) -> Iterator[str]:
    for name in "mapping.clio", "other.clio":
        if os.path.isfile(name) and (name == "mapping.clio" or os.path.getsize(name) > number):
            yield f"{name} has {os.path.getsize(name):,} bytes; {number:,} can be read"


def query_bytes(_: MappingText, number: int) -> Iterator[str]:
    yield f"query.clio has {os.path.getsize('query.clio'):,} bytes; {number:,} can be read"


def query_atoms(_: MappingText, number: int) -> Iterator[Piece]:
    """The part that has too many atoms."""
    text = QueryText(pathlib.Path("query.clio").read_bytes())
    for place, part in enumerate(text.parts, 1):
        if len(part.atoms) > number:
            yield f"part {place} has {len(part.atoms)} atoms; {number} are allowed:"
            yield Mark(text.content, part.word.start, len(part.word.text))
            return


def answer_cells(_: MappingText, number: int) -> Iterator[str]:
    """How wide the rows of the answer are."""
    parts = QueryText(pathlib.Path("query.clio").read_bytes()).parts
    if parts:
        width = len(parts[0].answer)
        yield (f"the answer has rows of {amount(width, 'cell')}, and more than {number // width:,} of them;"
               f" {number:,} cells are allowed")


def given_cells(text: MappingText, number: int) -> Iterator[str]:
    """The cells of each file of a given target."""
    total = 0
    for table in tables_of(text.target):
        path = pathlib.Path("given", table.name + ".csv")
        if path.is_file():
            count = max(sum(1 for _ in records(path.read_bytes())) - 1, 0)
            total += count * len(table.columns)
            yield (f"   {path}: {amount(count, 'record')} of {amount(len(table.columns), 'column')},"
                   f" {count * len(table.columns):,} cells"
                   + (" (exceeds it)" if total > number >= total - count * len(table.columns) else ""))
    yield f"the files have {total:,} cells in all; {number:,} are allowed"


def tables(text: MappingText, number: int) -> Iterator[str]:
    for side in "source", "target":
        yield f"the {side} has {amount(len(text.side(side)), 'set')}; {number} are allowed"


def columns(text: MappingText, number: int) -> Iterator[Piece]:
    for side in "source", "target":
        for table in text.side(side):
            roots = text.source if side == "source" else text.target
            own = bool(table.inner) + all(table is not root for root in roots)
            if len(table.columns) + own > number:
                ids = ["#id"] * bool(table.inner) + ["#up"] * (own - bool(table.inner))
                with_ids = f" with {' and '.join(ids)}" if ids else ""
                yield (f"the set {table.name} of the {side} has {amount(len(table.columns) + own, 'column')}{with_ids};"
                       f" {number} are allowed:")
                yield Mark(text.content, table.name.start, len(table.name))
                return


def depth(text: MappingText, number: int) -> Iterator[Piece]:
    if text.fault and text.fault.kind == "depth":
        yield f"this set would be number {number + 1} of those nested in each other:"
        yield Mark(text.content, text.fault.start, 3)


def lines(text: MappingText, number: int) -> Iterator[str]:
    conditions = f" and {amount(len(text.conditions), 'condition')}" if text.conditions else ""
    yield f"the mapping has {amount(len(text.lines), 'line')}{conditions}; {number} are allowed"


def variants(text: MappingText, number: int) -> Iterator[str]:
    """The ways to follow the optional refs of each side, where they are too many."""
    for side, trees in ("source", text.source), ("target", text.target):
        yield from of_variants(tables_of(trees), side, number)


def unfolded(tables_: list[Table], number: int, known: dict[int, int]) -> int:
    """How many tables follow from one along its links, with itself."""
    if number not in known:
        known[number] = 1 + sum(unfolded(tables_, link.table, known) for link in tables_[number].every_link())
    return known[number]


def occurrences(text: MappingText, number: int) -> Iterator[Piece]:
    """The tables from which too many follow; else the rule that has too many atoms, or gets them by refs."""
    found = False
    for side, trees in ("source", text.source), ("target", text.target):
        tables_ = tables_of(trees)
        known: dict[int, int] = {}
        for place, table in enumerate(tables_):
            if unfolded(tables_, place, known) > number and text.lines:
                found = True
                following = ", ".join(f"{tables_[link.table].name} ({known[link.table]:,})"
                                      for link in table.every_link())
                yield (f"from {table.name} of the {side} follow {known[place]:,} tables along refs, itself among them;"
                       f" {number} are allowed: {following}")
    if not found:
        mapping = read_mapping(text.content)
        for place, rule in enumerate(mapping.rules):
            try:
                closed(rule, mapping.target)
                if len(rule.premise) <= OCCURRENCES:
                    continue
            except TooLarge:
                pass
            yield (f"this hand-written rule has {len(rule.premise)} sets on its left, and with what refs add too many"
                   " on one side:")
            first = text.rules[place].premise[0].name
            yield Mark(text.content, first.start, len(first.text))
            return


def ways(text: MappingText, number: int) -> Iterator[str]:
    """The lines and refs that make the values of two tables too many."""
    yield from of_values(read_mapping(text.content), lambda found: sum(map(len, found.values())), number)


def candidates(text: MappingText, number: int) -> Iterator[str]:
    """The lines and refs that make the combinations of values too many."""
    yield ("a combination has one value for each target column that has some, and each is a rule, if no smaller one"
           " says as much")
    yield from of_values(read_mapping(text.content), number_of_candidates, number)


def rules(text: MappingText, number: int) -> Iterator[str]:
    mapping = read_mapping(text.content)
    made = len(rules_of_lines(mapping.lines, mapping.source, mapping.target))
    yield (f"lines make {amount(made, 'rule')}, and {amount(len(mapping.rules), 'rule')} are in the text;"
           f" {number} are allowed in all")


def frozen_cells(text: MappingText, number: int) -> Iterator[str]:
    """The rules whose left sides make most matches, when it is looked whether they follow from others."""
    mapping = read_mapping(text.content)
    all_rules = rules_of_lines(mapping.lines, mapping.source, mapping.target) + mapping.rules
    most = []
    for place, rule in enumerate(all_rules):
        tables_ = [atom.table for atom in rule.premise]
        own = 1
        for table in tables_:
            own *= tables_.count(table)
        most.append((own * len(rule.conclusion_cells()), own, place, rule))
    for cells, own, place, rule in sorted(most, key=lambda one: -one[0])[:3]:
        names = ", ".join(f"{mapping.source[table].name} {[atom.table for atom in rule.premise].count(table)} times"
                          for table in dict.fromkeys(atom.table for atom in rule.premise))
        yield (f"rule {place} (before any is left out) has on its left {names}: up to {own:,} matches of its own,"
               f" {cells:,} cells; {number:,} are allowed")


def data_bytes(text: MappingText, number: int) -> Iterator[str]:
    total = 0
    for table in tables_of(text.source):
        if table.parent is None and os.path.isfile(file_of(table)):
            size = os.path.getsize(file_of(table))
            total += size
            yield f"   {file_of(table)}: {size:,} bytes" + (" (exceeds it)" if total > number >= total - size else "")
    yield f"the source files have {total:,} bytes in all; {number:,} can be read"


def source_cells(text: MappingText, number: int) -> Iterator[str]:
    total, tables_ = 0, tables_of(text.source)
    for table in tables_:
        if table.parent is None and not table.inner and os.path.isfile(file_of(table)):
            count = sum(1 for _ in records(pathlib.Path(file_of(table)).read_bytes())) - 1
            total += count * len(table.columns)
            yield (f"   {file_of(table)}: {amount(count, 'record')} of {amount(len(table.columns), 'column')},"
                   f" {count * len(table.columns):,} cells")
        elif table.parent is None and table.inner:
            yield (f"   {file_of(table)}: a document of {os.path.getsize(file_of(table)):,} bytes, whose objects count"
                   " with #id and #up")
    yield f"the tables have {total:,} cells in all; {number:,} are allowed"


def target_cells(text: MappingText, number: int) -> Iterator[str]:
    """The rules that make most cells, and why."""
    mapping, printed = mapping_of(text.content)
    if mapping is None:
        return
    source, total = Source(mapping), 0
    counted: list[tuple[int, int, str]] = []
    for place, rule in enumerate(mapping.rules):
        cells = len(rule.conclusion_cells())
        try:
            count = len(Matches(rule, source, most_tuples=number // cells + 1).found)
            total += count * cells
            said = f"{amount(count, 'match', 'matches')} of {cells} cells, {count * cells:,}"
            counted.append((count * cells, place, said))
        except TooMany:
            counted.append((number + 1, place, f"more than {number:,} cells"))
    for _, place, said in sorted(counted, key=lambda one: (-one[0], one[1]))[:MOST_RULES]:
        yield f"   rule {place}: {said}: {visible(printed[place])[:300]}"
    if len(counted) > MOST_RULES:
        yield f"   and {amount(len(counted) - MOST_RULES, 'rule')} with fewer"
    yield f"the rules make {total:,} cells" + (f"; {number:,} are allowed" if total > number else " besides")
    yield from of_premise(mapping, max(counted, key=lambda one: one[0])[1], source)


def of_premise(mapping: Mapping, number: int, source: Source) -> Iterator[str]:
    """The sets on the left of a rule with their rows, and those that nothing joins."""
    rule = mapping.rules[number]
    names = dict.fromkeys(f"{mapping.source[atom.table].name} ({amount(len(source.rows[atom.table].rows), 'row')})"
                          for atom in rule.premise)
    yield f"rule {number} joins {listed(names)}"
    first = set(rule.premise[0].cells)
    for _ in rule.premise:
        first = first.union(*(atom.cells for atom in rule.premise if first.intersection(atom.cells)))
    apart = dict.fromkeys(mapping.source[atom.table].name for atom in rule.premise
                          if not first.intersection(atom.cells))
    if apart:
        yield f"nothing joins {listed(apart)} to the others: each row there is taken with each row of these"
