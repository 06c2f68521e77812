"""Why a row is in the target, and where a source row goes or what it missed: the reasons of clio_tools.why as data for
the page, with the places in the whole files, and the lines of the page's text."""
import pathlib
from collections.abc import Iterator
from itertools import islice

from ..csv import records
from ..explain.said import shown
from ..program import Refused
from ..why.data import CellReason, Match, Miss, Replacement, RowReason, SourceReason
from ..why.exchange import Exchange
from ..why.reasons import Reasons as Known
from ..why.source import Fact, declared
from . import cures
from .meant import Meant
from .outline import Data, Outline
from .places import placed
from .sample import Report

MOST_GROUPED = 5_000  # rows of a target table that are put into groups
MOST_ORIGINS = 1_000  # matches that are looked at of one row
SHOWN = 3  # rows of a group that are shown
MOST_COUNTED = 20_000  # rows of a source set of which each is looked at
Group = tuple[str, str, tuple[str, ...], str, tuple[str, ...], str]  # what rows missed, without their texts


class Reasons:
    """The reasons of the last run; `content` is the text of the page, and a drawing's mapping is another."""

    def __init__(self, room: pathlib.Path, meant: Meant, report: Report, content: bytes) -> None:
        self.known = Known(Exchange(room))
        self.exchange, self.meant, self.report = self.known.exchange, meant, report
        self.outline = Outline(content)
        self.listed: dict[str, list[Fact]] = {}

    # --- of a target row ---------------------------------------------------------------------------------------------

    def of_row(self, table: str, cells: list[str]) -> Data:
        """Why a row is there."""
        try:
            reason = self.known.row(table, tuple(cells))
        except Refused as why:
            return {"unknown": str(why)}
        return {"cells": [self._cell(reason, one) for one in reason.cells],
                "rules": [rule for rule, _ in reason.rules], "count": reason.count,
                "asked": [self.match(one) for one in reason.asked],
                "replaced": [self.replaced(one) for one in reason.replaced]}

    def groups(self, table: str) -> Data:
        """The rows of a target table that are there for one reason: those that the same rules ask for."""
        number = self.exchange.table(table)
        found: dict[tuple[int, ...], list[list[str]]] = {}
        entries = records((self.exchange.out / f"{table}.csv").read_bytes())
        next(entries)
        count = 0
        for count, (_, row) in enumerate(islice(entries, MOST_GROUPED), 1):
            origins = self.exchange.asking(number, dict(enumerate(row)))
            rules = tuple(sorted({origin.rule for origin in islice(origins, MOST_ORIGINS)}))
            found.setdefault(rules, []).append(row)
        groups = [{"rules": list(rules), "count": len(rows), "rows": rows[:SHOWN]}
                  for rules, rows in sorted(found.items(), key=lambda one: -len(one[1]))]
        return {"groups": groups, "cut": count == MOST_GROUPED}

    def _cell(self, reason: RowReason, one: CellReason) -> Data:
        """Where the value of a cell is from."""
        given = [f"{each.set}.{each.column}" for each in one.given]
        says = f"{one.conversion}({', '.join(given)})" if one.conversion else ", ".join(given)
        places = dict.fromkeys(self._place(each.row.file, placed(each.row, self.report)) for each in one.given)
        return {"column": one.column, "text": one.value, "kind": one.kind, "says": says, "where": ", ".join(places),
                "rule": one.match.rule, "line": self._line(reason.set, one), "shared": list(one.shared),
                "instead_of": one.instead_of}

    @staticmethod
    def _place(file: str, row: Data) -> str:
        """A short name of a place."""
        return f"{row['file'] or file} {str(row['where']).partition(' (')[0]}"

    def _line(self, table: str, one: CellReason) -> int | None:
        """The number of the line of the page's text that gives a cell."""
        lines = self.outline.tree.lines
        if not self.meant.is_drawing:
            return next((number for number, line in enumerate(lines) if one.part and line.start == one.part.start),
                        None)
        behind = self.meant.behind_rule(one.match.rule)
        same = [each for each in self.meant.behind if behind is not None and each.rows == behind.rows]
        names = {number for each in [behind, *same] if each is not None for number in each.lines}
        return next((number for number in sorted(names) if lines[number].target.column.text == one.column
                     and lines[number].target.set.text == table), None)

    def match(self, one: Match) -> Data:
        """A match that asks for a row, with its source rows."""
        return {"rule": one.rule, "atom": one.atom, "row": list(one.row), "more": one.count > len(one.sources),
                "matches": [[placed(row, self.report) for row in rows] for rows in one.sources]}

    def replaced(self, one: Replacement) -> Data:
        """What came in the place of a null."""
        return {"null": one.null, "value": one.value, "by": one.by, "set": one.set, "columns": list(one.columns),
                "agreed": list(one.agreed), "rows": [self.match(each) for each in one.matches]}

    # --- of source rows ----------------------------------------------------------------------------------------------

    def source_tables(self, most: int) -> list[Data]:
        """The first rows of each source table, with what each unused one missed."""
        return [self._table(number, most) for number, table in enumerate(self.exchange.mapping.source)
                if self._root(number) in self.report and self.report[self._root(number)].kind != "test"]

    def _root(self, number: int) -> str:
        source = self.exchange.source
        return source.tables[source.root(number)].name

    def _table(self, number: int, most: int) -> Data:
        """One source table: its rows in the order of the file, also those that fail a condition."""
        table, rows = self.exchange.mapping.source[number], self.exchange.source.rows(number)
        columns = declared(table)
        facts = self.listed[table.name] = []
        groups: dict[Group, Data] = {}
        first: list[Data] = []
        count = unused = 0
        for fact in self.facts(number):
            count += 1
            if count > MOST_COUNTED:
                break
            misses = self.misses(fact)
            if misses:
                unused += 1
                self._put(misses[0], groups)
            if len(facts) < most:
                facts.append(fact)
                first.append({"cells": [fact.row[column] for column in columns],
                              "why": said(misses[0])[0] if misses else None})
        return {"name": table.name, "columns": [table.columns[column] for column in columns],
                "count": len(rows.rows), "counted": count <= MOST_COUNTED, "unused": unused, "rows": first,
                "repeats": count - len({fact.row for fact in self.facts(number)}) if count <= MOST_COUNTED else 0,
                "groups": list(groups.values()), "made_up": self.report[self._root(number)].kind == "made up"}

    def facts(self, number: int) -> Iterator[Fact]:
        """The rows of a table as they are in the file."""
        source = self.exchange.source
        return (fact for fact in source.facts(source.root(number)) if fact.table == number)

    def misses(self, fact: Fact) -> tuple[Miss, ...]:
        """What a row missed; nothing if a rule uses it."""
        number = self.exchange.source.rows(fact.table).numbers.get(fact.row)
        if number is not None and self.known.missing.is_used(fact.table, number):
            return ()
        return self.known.missing.misses(fact)[0]

    def _put(self, miss: Miss, groups: dict[Group, Data]) -> None:
        """Counts a row among those that missed the same."""
        key = (miss.kind, miss.from_set, miss.from_columns, miss.set, miss.columns, miss.test)
        if key not in groups:
            groups[key] = {"count": 0, "says": _of_group(miss), "cures": cures.of_misses([miss], self.outline)}
        groups[key]["count"] = int(str(groups[key]["count"])) + 1

    def of_source_row(self, table: str, row: int) -> Data:
        """Which rows of the target a source row has part in, or what it missed; the row is one that was listed."""
        reason: SourceReason = self.known.source_fact(self.listed[table][row])
        return {"row": placed(reason.row, self.report), "count": reason.count,
                "rules": [rule for rule, _ in reason.rules],
                "rows": [{"table": one.set, "cells": list(one.row), "rule": one.rule} for one in reason.made],
                "misses": [said(one) for one in reason.misses],
                "cures": cures.of_misses(reason.misses, self.outline) if reason.edits else []}


def said(miss: Miss) -> list[str]:
    """What a row missed, in words."""
    texts = ", ".join(f"{column} = {shown(text)}" for column, text in zip(miss.columns, miss.texts))
    if miss.kind == "unread":
        return [f"no rule reads {miss.set}"]
    if miss.kind == "condition":
        return [f"{texts} is not {miss.test}"]
    said = [f"no row of {miss.set} has {texts}" + _asked(miss)]
    if miss.near:
        said.append(f"{shown(miss.near)} is there, which differs by case or by signs that aren't seen: mend the file")
    if miss.failing:
        said.append(f"one that has it fails a condition: {miss.failing.where}")
    return said


def _asked(miss: Miss) -> str:
    """What asked for the row that isn't there."""
    return f", as {miss.from_set} ({', '.join(miss.from_columns)}) asks for it" if miss.from_columns else ""


def _of_group(miss: Miss) -> str:
    """What rows missed, without their texts."""
    columns = ", ".join(miss.columns)
    if miss.kind == "unread":
        return f"no rule reads {miss.set}"
    if miss.kind == "condition":
        return f"{columns} is not {miss.test}"
    return f"no row of {miss.set} has their {columns}{_asked(miss)}"
