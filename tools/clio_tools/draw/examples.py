"""Chosen examples in place of first rows: for each rule a match, for each key or dependency two rows that it made
agree, for each optional ref of the source a row with and one without a partner, for each source set a row that is not
used."""
from collections.abc import Iterator
from itertools import islice

from ..mapping.tables import Link
from ..why.exchange import Null, Origin, null_of
from ..why.source import Fact
from .outline import Data
from .places import placed
from .reasons import Reasons, said

MOST_ROWS = 5_000  # rows of a source set that are looked through
MOST_NULLS = 2  # of one variable of a rule


class Examples:
    """The examples of a run."""

    def __init__(self, reasons: Reasons) -> None:
        self.reasons, self.exchange = reasons, reasons.exchange

    def made(self) -> list[Data]:
        """All examples."""
        return [*self._of_rules(), *self._of_keys(), *self._of_refs(), *self._of_unused()]

    def _of_rules(self) -> Iterator[Data]:
        """For each rule its first match, with the rows that it asks for."""
        for number, rule in enumerate(self.exchange.mapping.rules):
            rows = self.exchange.matches[number].lookup.rows
            if not rows:
                yield {"kind": "rule", "rule": number, "says": f"rule {number} has no match", "sources": [], "made": []}
                continue
            match = self.exchange.match(Origin(number, 0, 0))
            made = [{"table": self.exchange.mapping.target[atom.table].name,
                     "cells": list(self.exchange.last_row(self.exchange.raw(Origin(number, place, 0))))}
                    for place, atom in enumerate(rule.conclusion)]
            yield {"kind": "rule", "rule": number, "says": f"a match of rule {number}",
                   "sources": [placed(row, self.reasons.report) for row in match.sources[0]], "made": made}

    def _of_keys(self) -> Iterator[Data]:
        """For each key and dependency of the target two rows that it made agree."""
        seen: set[tuple[str, tuple[str, ...]]] = set()
        for null in self._nulls():
            for one in self.reasons.known.merging.replacements([null]):
                if one.by in ("key", "dep") and (one.set, one.columns) not in seen:
                    seen.add((one.set, one.columns))
                    yield {"kind": "key", "says": f"{one.by} ({', '.join(one.columns)}) of {one.set}",
                           "step": self.reasons.replaced(one)}

    def _nulls(self) -> Iterator[Null]:
        """Some nulls that were replaced, of each variable of each rule."""
        counts: dict[tuple[int, int], int] = {}
        for text in self.exchange.fold:
            null = null_of(text)
            counts[null[:2]] = counts.get(null[:2], 0) + 1
            if counts[null[:2]] <= MOST_NULLS:
                yield null

    def _of_refs(self) -> Iterator[Data]:
        """For each optional ref of the source a row with and one without a partner."""
        for number, table in enumerate(self.exchange.mapping.source):
            for link in table.optional_links:
                found: dict[bool, int] = {}
                for row in range(min(MOST_ROWS, len(self.exchange.source.rows(number).rows))):
                    found.setdefault(self._has_partner(number, row, link), row)
                for is_with, row in sorted(found.items(), reverse=True):
                    columns = ", ".join(table.columns[column] for column in link.own)
                    other = self.exchange.mapping.source[link.table].name
                    shown = self.exchange.source.shown(number, row)
                    yield {"kind": "ref", "says": f"a row of {table.name} {'with' if is_with else 'without'} a partner "
                           f"in {other} by ({columns})", "sources": [placed(shown, self.reasons.report)], "made": []}

    def _has_partner(self, number: int, row: int, link: Link) -> bool:
        texts = self.exchange.source.rows(number).rows[row]
        there = self.exchange.source.rows(link.table)
        return bool(there.find(link.referred, tuple(texts[column] for column in link.own)))

    def _of_unused(self) -> Iterator[Data]:
        """For each source set the first row that is not used, with what it missed."""
        for number, table in enumerate(self.exchange.mapping.source):
            fact: Fact | None = next((one for one in islice(self.reasons.facts(number), MOST_ROWS)
                                      if self.reasons.misses(one)), None)
            if fact is not None:
                shown = self.exchange.source.told(fact.table, fact.row, fact.place)
                why = said(self.reasons.misses(fact)[0])[0]
                yield {"kind": "unused", "says": f"a row of {table.name} that is not used: {why}",
                       "sources": [placed(shown, self.reasons.report)], "made": []}
