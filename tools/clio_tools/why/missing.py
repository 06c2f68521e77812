"""What became of a row of the source: the matches in which it is, or what it missed, and what would keep it."""
from __future__ import annotations

import pathlib
import tempfile
from collections.abc import Iterable, Iterator
from typing import NamedTuple

from clio_tools.explain.program import mapping_of
from clio_tools.mapping import tree
from clio_tools.mapping.meaning import Mapping
from clio_tools.rules.printed import is_as_printed, sets_for_tests
from clio_tools.why.data import Edit, Miss
from clio_tools.why.lookup import Columns, Row
from clio_tools.why.matches import Chosen, RuleMatches, Step, Values, steps_of
from clio_tools.why.parts import Parts
from clio_tools.why.source import Fact, Source, named

MOST_WAYS = 100_000  # rows that are tried at once


class Found(NamedTuple):
    """What one rule doesn't find for a row: from an atom a table, with columns and the texts that are not there."""

    rule: int
    start: int
    own: Columns
    table: int
    columns: Columns
    texts: Row
    equal: tuple[tuple[int, int], ...]  # columns there that have to be equal


class Missing:
    """Looks for what source rows have missed."""

    def __init__(self, mapping: Mapping, printed: list[str], content: bytes, source: Source) -> None:
        self.mapping, self.printed, self.content, self.source = mapping, printed, content, source
        self.matches = [RuleMatches(rule, source) for rule in mapping.rules]
        self.parts = Parts(content, mapping, printed)

    def matches_with(self, table: int, row: int) -> Iterator[tuple[int, Chosen, Values]]:
        """The matches in which a row is, each with its rule and the texts of its variables; one with the row in several
        atoms comes several times."""
        for number, rule in enumerate(self.mapping.rules):
            for place, atom in enumerate(rule.premise):
                if atom.table == table:
                    for chosen, values in self.matches[number].extended({}, {place: row}):
                        yield number, chosen, values

    def is_used(self, table: int, row: int) -> bool:
        """Whether a rule uses a row."""
        return next(self.matches_with(table, row), None) is not None

    def misses(self, fact: Fact) -> tuple[tuple[Miss, ...], list[Edit]]:
        """What a row missed that no rule uses, and changes of the text by which it doesn't miss that; none if a few
        words don't help."""
        if not any(atom.table == fact.table for rule in self.mapping.rules for atom in rule.premise):
            return (Miss("unread", None, "", (), self.mapping.source[fact.table].name, (), (), "", None, "", None),), []
        failed = self.source.failed(fact.table, fact.row)
        if failed:
            return tuple(self.condition(number, fact) for number in failed), self.without(failed)
        misses, edits = [], []
        for found in self.unfound(fact):
            misses.append(self.miss(found))
            edits.append(self.cure(found, misses[-1]))
        return tuple(misses), [one for some in edits for one in some] if all(edits) else []

    def besides(self, fact: Fact, used: Iterable[int]) -> tuple[Miss, ...]:
        """What a row that rules use misses in others that begin with it, as along an optional ref. An empty text misses
        nothing, nor is it a miss that a test of a drawing fails.
        """
        row = self.source.rows(fact.table).numbers[fact.row]
        of_tests = sets_for_tests(self.content.decode("utf-8", "replace"))
        first: dict[tuple[object, ...], Found] = {}
        for number in sorted(set(range(len(self.mapping.rules))).difference(used)):
            if self.mapping.rules[number].premise[0].table == fact.table:
                for one in self.unfound_by(number, 0, row):
                    if any(one.texts) and self.mapping.source[one.table].name not in of_tests:
                        first.setdefault((self.start(one), *one[2:]), one)
        return tuple(map(self.miss, first.values()))

    def condition(self, number: int, fact: Fact) -> Miss:
        """A condition that a row fails."""
        one, table = self.mapping.conditions[number], self.mapping.source[fact.table]
        column = one.column.column
        return Miss("condition", None, "", (), table.name, (table.columns[column],), (fact.row[column],), one.test,
                    self.parts.condition(number), "", None)

    def without(self, conditions: list[int]) -> list[Edit]:
        """The changes that take out conditions."""
        parts = map(self.parts.condition, conditions)
        return [Edit(part.start, part.end, "") for part in parts]

    def unfound(self, fact: Fact) -> list[Found]:
        """What the rules don't find for a row: of those that miss least, each once."""
        row = self.source.rows(fact.table).numbers[fact.row]
        by_rule = [found for number, rule in enumerate(self.mapping.rules) for place, atom in enumerate(rule.premise)
                   if atom.table == fact.table and (found := self.unfound_by(number, place, row))]
        least = min(map(len, by_rule), default=0)
        first: dict[tuple[object, ...], Found] = {}
        for one in (one for found in by_rule if len(found) == least for one in found):
            first.setdefault((self.start(one), *one[2:]), one)
        return list(first.values())

    def unfound_by(self, number: int, place: int, row: int) -> list[Found]:
        """The same of one rule, the row being that of one atom."""
        rule, found = self.mapping.rules[number], []
        left = {at: atom for at, atom in enumerate(rule.premise) if at != place}
        atom = rule.premise[place]
        texts = self.source.rows(atom.table).rows[row]
        values = dict(zip(atom.cells, texts))
        apart = [column for column, variable in enumerate(atom.cells) if values[variable] != texts[column]]
        if apart:
            same = (apart[0], max(column for column, one in enumerate(atom.cells) if one == atom.cells[apart[0]]))
            return [Found(number, place, same, atom.table, same, (texts[same[0]], texts[same[1]]), ())]
        ways = [values]
        met = {place}
        while left:
            places = list(left)
            step = steps_of([left[at] for at in places], ways[0])[0]
            if not step.bound and len(met) + len(left) < len(rule.premise):
                break  # what is left is joined by what was not found
            at = places[step.place]
            del left[at]
            extended = self.extended(ways, step)
            if extended:
                ways = extended
                met.add(at)
            else:
                found.append(self.found(number, at, step, ways[0], met))
        return found

    def extended(self, ways: list[Values], step: Step) -> list[Values]:
        """The ways to go on by an atom."""
        rows = self.source.rows(step.table)
        made = []
        for values in ways:
            for number in rows.find(step.bound, tuple([values[variable] for variable in step.variables])):
                row = rows.rows[number]
                if all(row[one] == row[other] for one, other in step.equal):
                    made.append(values | {variable: row[column] for variable, column in step.new})
                    if len(made) == MOST_WAYS:
                        return made
        return made

    def found(self, number: int, at: int, step: Step, values: Values, met: set[int]) -> Found:
        """An atom that has no row, and the atom that asks for it."""
        premise = self.mapping.rules[number].premise
        start = max(met, key=lambda one: (sum(variable in premise[one].cells for variable in step.variables), -one))
        cells = premise[start].cells
        own = tuple(cells.index(variable) for variable in step.variables if variable in cells)
        texts = tuple(values[variable] for variable in step.variables)
        return Found(number, start, own, premise[at].table, step.bound, texts, step.equal)

    def miss(self, found: Found) -> Miss:
        """What wasn't found, as data."""
        ref, failing = self.ref(found), self.failing(found)
        start, table = self.mapping.source[self.start(found)], self.mapping.source[found.table]
        part = self.parts.part(ref) if ref else self.parts.rule(found.rule)
        shown = self.source.told(failing.table, failing.row, failing.place) if failing else None
        equal = " and ".join(" = ".join(named(table, pair)) for pair in found.equal)
        return Miss("ref" if ref else "join", found.rule, start.name, named(start, found.own), table.name,
                    named(table, found.columns), found.texts, equal, part, self.near(found), shown)

    def start(self, found: Found) -> int:
        """The table that asks for what wasn't found."""
        return self.mapping.rules[found.rule].premise[found.start].table

    def ref(self, found: Found) -> tree.Ref | None:
        """The ref that leads where nothing was found; none if the rule itself joins there."""
        start = self.mapping.source[self.start(found)]
        if self.parts.rule(found.rule) is None:
            for place, link in enumerate(start.links[start.parent is not None:]):
                pairs = set(zip(link.own, link.referred))
                if link.table == found.table and pairs <= set(zip(found.own, found.columns)):
                    return self.parts.ref(self.start(found), place)
        return None

    def cure(self, found: Found, miss: Miss) -> list[Edit]:
        """The changes of the text by which this is no miss."""
        ref, failing = self.ref(found), self.failing(found)
        if ref:
            return [Edit(ref.end - 1, ref.end - 1, " optional"), *self.parts.second_version()]
        return self.without(self.source.failed(found.table, failing.row)) if failing else []

    def near(self, found: Found) -> str:
        """A text that is there and differs by case, or by signs that aren't seen."""
        if len(found.columns) != 1 or not seen(found.texts[0]):
            return ""
        plain, column = seen(found.texts[0]), found.columns[0]
        return min((row[column] for row in self.source.rows(found.table).rows
                    if len(row[column]) >= len(plain) and seen(row[column]) == plain), default="")

    def failing(self, found: Found) -> Fact | None:
        """A row that has the texts and fails a condition."""
        is_own = self.start(found) == found.table and found.own == found.columns
        if is_own or not self.source.has_conditions(found.table):
            return None
        facts = self.source.having(found.table, list(zip(found.columns, found.texts)))
        return next((fact for fact in facts if not self.source.passes(fact.table, fact.row)), None)

    def all_misses(self, fact: Fact) -> tuple[tuple[Miss, ...], tuple[Edit, ...]]:
        """What a row missed, and missed besides if it is kept from that; with all changes that keep it."""
        misses, edits = self.misses(fact)
        told, made = list(misses), tuple(dict.fromkeys(edits))
        while made and is_as_printed(self.content.decode("utf-8", "replace")) is None:
            other = self.changed(made)
            if other is None:
                break
            row = other.source.rows(fact.table).numbers.get(fact.row)
            if row is not None and other.is_used(fact.table, row):
                return tuple(told), made
            more, edits = other.misses(fact)
            told += more
            made = tuple(dict.fromkeys([*made, *(before(edit, made) for edit in edits)])) if edits else ()
        return tuple(told), ()

    def changed(self, edits: tuple[Edit, ...]) -> Missing | None:
        """The same with a changed mapping text, if clio takes it."""
        content = edited(self.content, edits)
        with tempfile.TemporaryDirectory(prefix="clio-why-") as name:
            folder = pathlib.Path(name)
            (folder / "mapping.clio").write_bytes(content)
            mapping, printed = mapping_of(content, folder)
        return Missing(mapping, printed, content, self.source.of(mapping)) if mapping else None


def edited(content: bytes, edits: tuple[Edit, ...]) -> bytes:
    """A text with all changes made."""
    for edit in sorted(edits, key=lambda one: one.start, reverse=True):
        content = content[:edit.start] + edit.text.encode() + content[edit.end:]
    return content


def before(edit: Edit, edits: tuple[Edit, ...]) -> Edit:
    """A change of a changed text as one of the text before."""
    start, end = edit.start, edit.end
    for one in sorted(edits, key=lambda one: one.start):
        shift = len(one.text.encode()) - (one.end - one.start)
        start, end = (start - shift if one.start < start else start), (end - shift if one.start < end else end)
    return Edit(start, end, edit.text)


def seen(text: str) -> str:
    """What is seen of a text, whatever its case."""
    return "".join(sign for sign in text if sign.isprintable() and not sign.isspace()).casefold()
