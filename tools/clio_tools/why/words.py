"""Reasons in words for a terminal, and as JSON for other programs."""
from __future__ import annotations

import dataclasses
from collections.abc import Callable, Iterable, Iterator

from clio_tools.explain.said import amount, shown, visible
from clio_tools.why.data import CellReason, Edit, Match, Miss, Part, Replacement, RowReason, SourceReason, SourceRow
from clio_tools.why.exchange import is_null, text_of

MOST_CELLS = 8  # cells of a source row that are printed
LONGEST = 300  # of a rule
Named = Callable[[str], str]  # how a null is called


def as_json(reason: RowReason | SourceReason) -> dict[str, object]:
    """A reason as JSON has it."""
    return {"kind": "row" if isinstance(reason, RowReason) else "source", **dataclasses.asdict(reason)}


def same(null: str) -> str:
    """A null by its own name."""
    return null


class Words:
    """Says reasons; rules are those that clio prints, and `named` may add to the name of a null."""

    def __init__(self, rules: list[str], content: bytes, named: Named = same) -> None:
        self.rules, self.content, self.named = rules, content, named

    def value(self, value: str) -> str:
        """A value of the target: a null by its name, a text in quotes."""
        return visible(self.named(value)) if is_null(value) else shown(text_of(value))

    def row(self, columns: Iterable[str], values: Iterable[str]) -> str:
        """A row of the target."""
        return ", ".join(f"{visible(column)} = {self.value(value)}" for column, value in zip(columns, values))

    def of_row(self, reason: RowReason, where: str) -> Iterator[str]:
        """Why a row of the target is there."""
        yield f"{where}:"
        wide = max(len(column) for column in reason.columns)
        for cell in reason.cells:
            yield f"  {visible(cell.column):{wide}}  {self.value(cell.value)}: {self.of_cell(cell)}"
        yield f"{amount(reason.count, 'match asks', 'matches ask')} for it ({by_rules(reason.rules)}):"
        yield from self.of_matches(reason.asked)
        if reason.count > len(reason.asked):
            yield f"  and {reason.count - len(reason.asked):,} more"
        told = {(match.rule, match.place) for match in reason.asked}
        if reason.replaced:
            yield "what these matches left open was replaced:"
        for one in reason.replaced:
            yield from self.of_replacement(one, told)
        matches = [*reason.asked, *(cell.match for cell in reason.cells)]
        matches += [match for one in reason.replaced for match in one.matches]
        yield from self.of_rules({match.rule for match in matches})

    def of_cell(self, cell: CellReason) -> str:
        """Where the value of a cell is from."""
        said = f"in the place of {self.value(cell.instead_of)}, " if cell.instead_of else ""
        by = f", by rule {cell.match.rule}{of_part(cell.part)}"
        if cell.kind == "open":
            also = f"; it is in {', '.join(map(visible, cell.shared))}" if len(cell.shared) > 1 else ""
            return f"nobody gave it: rule {cell.match.rule} left it open at place {cell.match.place:,}{also}"
        if cell.kind == "literal":
            return f"{said}a text of the mapping{by}"
        given = " and ".join(f"{visible(one.set)}.{visible(one.column)}" for one in cell.given)
        rows = " and ".join(dict.fromkeys(visible(one.row.where) for one in cell.given))
        return f"{said}{f'{cell.conversion} of ' * bool(cell.conversion)}{given} in {rows}{by}"

    def of_matches(self, matches: Iterable[Match]) -> Iterator[str]:
        """Matches with their source rows."""
        for match in matches:
            yield f"  rule {match.rule}, place {match.place:,}:"
            yield from self.of_sources(match)

    def of_sources(self, match: Match) -> Iterator[str]:
        """The source rows of a match."""
        for number, rows in enumerate(match.sources):
            for place, row in enumerate(dict.fromkeys(rows)):
                yield f"    {'   ' if place else 'or ' if number else ''}{of_source(row)}"
        if match.count > len(match.sources):
            yield f"    or {match.count - len(match.sources):,} more"

    def of_replacement(self, one: Replacement, told: set[tuple[int, int]]) -> Iterator[str]:
        """Why a value is in the place of a null."""
        head = f"  {self.value(one.value)} in the place of {self.value(one.null)}: "
        places = [f"rule {match.rule}, place {match.place:,}" for match in one.matches]
        if one.by in ("key", "dep"):
            agreed = self.row(one.columns, one.agreed)
            yield (f"{head}two rows of {visible(one.set)} agree on {agreed}{of_part(one.part)}: "
                   f"{' and '.join(places)}")
        elif one.by == "core":
            other = f" what {places[1]} says" if len(places) > 1 else " less than other rows do"
            yield f"{head}core mode left out a row of {visible(one.set)} of {places[0]}, which says{other} too"
        else:
            yield f"{head}the way there is too long to be looked for"
        for match in one.matches:
            if (match.rule, match.place) not in told:
                told.add((match.rule, match.place))
                yield from ("  " + line for line in self.of_matches([match]))

    def of_rules(self, numbers: Iterable[int]) -> Iterator[str]:
        """Rules, as clio prints them."""
        for number in sorted(numbers):
            text = visible(self.rules[number])
            yield f"rule {number}: {text.removeprefix('rule ')[:LONGEST]}{' ..' if len(text) > LONGEST + 5 else ''}"

    def of_source_row(self, reason: SourceReason) -> Iterator[str]:
        """What became of a row of the source."""
        yield of_source(reason.row)
        if reason.made:
            yield f"it is in {amount(reason.count, 'match', 'matches')} ({by_rules(reason.rules)}); asked for by them:"
            for one in reason.made:
                yield f"  {visible(one.set)}: {self.row(one.columns, one.row)} (rule {one.rule}, place {one.place:,})"
            if reason.more:
                yield "  and more"
            if reason.besides:
                yield "it misses:"
            for miss in reason.besides:
                yield from self.of_miss(miss)
            yield from self.of_rules(rule for rule, _ in reason.rules)
            return
        yield "no rule uses it:"
        for miss in reason.misses:
            yield from self.of_miss(miss)
        yield from self.of_edits(reason)
        yield from self.of_rules({miss.rule for miss in reason.misses if miss.kind == "join" and miss.rule is not None})

    def of_miss(self, miss: Miss) -> Iterator[str]:
        """What a row missed."""
        if miss.kind == "unread":
            yield f"  no rule reads {visible(miss.set)}"
        elif miss.kind == "condition":
            yield f"  {visible(miss.columns[0])} = {shown(miss.texts[0])} is not {miss.test}{of_part(miss.part)}"
        elif miss.from_set == miss.set and miss.from_columns == miss.columns and not miss.test:
            told = " and ".join(f"{visible(one)} = {shown(text)}" for one, text in zip(miss.columns, miss.texts))
            yield f"  rule {miss.rule} takes rows in which {' and '.join(map(visible, miss.columns))} are equal: {told}"
        else:
            asked = ", ".join(f"{visible(column)} = {shown(text)}" for column, text in zip(miss.columns, miss.texts))
            by = f", by rule {miss.rule}" * (miss.kind == "join") + of_part(miss.part)
            who = f"{visible(miss.from_set)} ({', '.join(map(visible, miss.from_columns))})" * bool(miss.from_columns)
            equal = f" with {visible(miss.test)}" * bool(miss.test)
            yield f"  no row of {visible(miss.set)}{equal} has {asked}{f', as {who} asks for it' * bool(who)}{by}"
        if miss.near:
            yield f"    {shown(miss.near)} is there, which differs by case or by signs that aren't seen: mend the file"
        if miss.failing:
            yield f"    one that has it fails a condition: {of_source(miss.failing)}"

    def of_edits(self, reason: SourceReason) -> Iterator[str]:
        """What keeps a row."""
        if reason.edits:
            changes = "this change" if len(reason.edits) == 1 else "these changes"
            yield f"kept by {changes} of mapping.clio:"
        for edit in sorted(reason.edits, key=lambda one: one.start):
            line = self.content.count(b"\n", 0, edit.start) + 1
            yield f"  line {line}: {self.changed(edit)}"

    def changed(self, edit: Edit) -> str:
        """A change of a line, as the statement that it changes."""
        if not edit.text:
            return f"without {shown_bytes(self.content[edit.start:edit.end])}"
        begin = max(self.content.rfind(mark, 0, edit.start) for mark in (b";", b"{", b"\n", b"}")) + 1
        end = self.content.find(b";", edit.end) + 1
        return shown_bytes(self.content[begin:edit.start] + edit.text.encode() + self.content[edit.end:end])


def by_rules(rules: Iterable[tuple[int, int]]) -> str:
    """How many of something each rule has."""
    return ", ".join(f"{count:,} of rule {rule}" for rule, count in rules)


def of_part(part: Part | None) -> str:
    """A part of the mapping, in parentheses; the text of a rule is printed elsewhere."""
    if part is None:
        return ""
    text = "" if part.text.startswith("rule") else f": {visible(part.text)[:LONGEST].removesuffix(';')}"
    return f" (mapping.clio, line {part.line}{text})"


def of_source(row: SourceRow) -> str:
    """A source row with its place."""
    cells = [f"{visible(name)} = {shown(text, 40)}" for name, text in zip(row.columns, row.texts)]
    return f"{visible(row.where)}: {', '.join(cells[:MOST_CELLS])}{', ..' * (len(cells) > MOST_CELLS)}"


def shown_bytes(content: bytes) -> str:
    """Some bytes of the mapping on one line."""
    return visible(" ".join(content.decode("utf-8", "replace").split()))
