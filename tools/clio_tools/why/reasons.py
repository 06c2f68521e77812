"""Why a row of the target is there, and what became of a row of the source."""
from __future__ import annotations

import pathlib
from collections import Counter
from itertools import islice
from typing import Literal

from clio_tools.mapping.rules import EXISTENTIAL, LITERAL
from clio_tools.program import Refused
from clio_tools.why.data import CellReason, Given, Made, Match, RowReason, SourceReason, SourceRow
from clio_tools.why.exchange import Exchange, Origin, is_null, null_of
from clio_tools.why.lookup import Row
from clio_tools.why.merging import Merging
from clio_tools.why.missing import Missing
from clio_tools.why.parts import At, Parts, conversion_of
from clio_tools.why.source import Fact

MOST_MATCHES = 6  # matches that are told of a row
MOST_MADE = 40  # rows of the target that are told of a source row


class Reasons:
    """The reasons of an exchange; what is asked twice is computed once."""

    def __init__(self, exchange: Exchange) -> None:
        self.exchange = exchange
        self.parts = Parts(exchange.content, exchange.mapping, exchange.printed)
        self.merging = Merging(exchange, self.parts)
        self.missing = Missing(exchange.mapping, exchange.printed, exchange.content, exchange.source)

    @classmethod
    def of_folder(cls, folder: pathlib.Path, out: pathlib.Path | None = None) -> Reasons:
        """The reasons of a folder with mapping.clio and its files, and what `clio exchange` wrote of them."""
        return cls(Exchange(folder, out))

    def row(self, name: str, values: Row, most: int | None = MOST_MATCHES) -> RowReason:
        """Why a row of the target is there; of the matches that ask for it, at most so many are told."""
        table = self.exchange.table(name)
        wanted = dict(enumerate(values))
        origins = self.exchange.asking(table, wanted)
        first = list(islice(origins, most))
        if not first:
            raise Refused(f"no rule asks for this row of {name}: {self.exchange.stale()}")
        rules = Counter(origin.rule for origin in first)
        rules.update(origin.rule for origin in origins)
        cells = tuple(self.cell(table, column, values, first[0]) for column in range(len(values)))
        nulls = [value for origin in first for value in self.exchange.raw(origin) if isinstance(value, tuple)]
        return RowReason(name, tuple(self.exchange.mapping.target[table].columns), values, cells,
                         tuple(map(self.exchange.match, first)), rules.total(), tuple(sorted(rules.items())),
                         self.merging.replacements(nulls))

    def source_rows(self, name: str, texts: dict[str, str]) -> list[Fact]:
        """The different rows of a source set that have some texts, by the names of columns, whether they pass or
        not."""
        number = self.source_table(name)
        table = self.exchange.mapping.source[number]
        for column in texts:
            if column not in table.columns:
                raise Refused(f"{name} has no column {column}; it has {', '.join(table.columns)}")
        wanted = [(table.columns.index(column), text) for column, text in texts.items()]
        found: dict[Row, Fact] = {}
        for fact in self.exchange.source.having(number, wanted):
            found.setdefault(fact.row, fact)
        return list(found.values())

    def source_table(self, name: str) -> int:
        """The number of a table of the source."""
        names = [table.name for table in self.exchange.mapping.source]
        if name not in names:
            raise Refused(f"the source has no set {name}; it has {', '.join(names)}")
        return names.index(name)

    def source_row(self, name: str, number: int, most: int | None = MOST_MADE) -> SourceReason:
        """What became of a source row, by its number among the different rows that pass."""
        table = self.source_table(name)
        rows = self.exchange.source.rows(table)
        return self.source_fact(Fact(table, rows.rows[number], rows.place(number)), most)

    def source_fact(self, fact: Fact, most: int | None = MOST_MADE) -> SourceReason:
        """What became of a source row, whether it passes or not."""
        number = self.exchange.source.rows(fact.table).numbers.get(fact.row)
        row = self.exchange.source.told(fact.table, fact.row, fact.place, -1 if number is None else number)
        rules: Counter[int] = Counter()
        made: dict[tuple[int, Row], Made] = {}
        met: set[tuple[int, Row]] = set()
        for rule, _, values in self.missing.matches_with(fact.table, number) if number is not None else ():
            texts = self.exchange.matches[rule].texts_of(values)
            if (rule, texts) not in met:
                met.add((rule, texts))
                rules[rule] += 1
                if most is None or len(made) <= most:
                    self.add_made(rule, texts, made)
        misses, edits = self.missing.all_misses(fact) if not rules else ((), ())
        besides = self.missing.besides(fact, rules) if rules else ()
        told, by_rule = tuple(made.values())[:most], tuple(sorted(rules.items()))
        return SourceReason(row, told, len(told) < len(made), rules.total(), by_rule, misses, edits, besides)

    def add_made(self, rule: int, texts: Row, made: dict[tuple[int, Row], Made]) -> None:
        """The rows of the target that a match asks for."""
        place = self.exchange.matches[rule].place(texts)
        assert place is not None
        for atom, conclusion in enumerate(self.exchange.mapping.rules[rule].conclusion):
            table = self.exchange.mapping.target[conclusion.table]
            row = self.exchange.last_row(self.exchange.raw(Origin(rule, atom, place)))
            made.setdefault((conclusion.table, row), Made(table.name, tuple(table.columns), row, rule, place))

    def cell(self, table: int, column: int, values: Row, first: Origin) -> CellReason:
        """Where the value of a cell is from."""
        name, value = self.exchange.mapping.target[table].columns[column], values[column]
        if is_null(value):
            return self.open_cell(name, value)
        for rule, atom in self.exchange.atoms[table]:
            if self.exchange.mapping.rules[rule].conclusion[atom].cells[column].kind != EXISTENTIAL:
                for origin in self.exchange.of_atom(rule, atom, dict(enumerate(values))):
                    return self.given_cell(name, value, origin, column, "")
        null = self.exchange.raw(first)[column]
        assert isinstance(null, tuple)
        giver = self.merging.giver(null)
        if giver is None:
            raise Refused(f"nothing gives the text in {name}: {self.exchange.stale()}")
        return self.given_cell(name, value, *giver, "?%d.%d.%d" % null)

    def open_cell(self, column: str, value: str) -> CellReason:
        """A null: the rule that left it open, and where else it is."""
        null = null_of(value)
        places = list(self.exchange.occurrences(null))
        rule = self.exchange.mapping.rules[null[0]]
        names = [f"{target.name}.{target.columns[one]}" for origin, columns in places for one in columns
                 for target in [self.exchange.mapping.target[rule.conclusion[origin.atom].table]]]
        part, _ = self.parts.cell(null[0], places[0][0].atom, places[0][1][0])
        shared = tuple(dict.fromkeys(names))
        return CellReason(column, value, "open", self.exchange.match(places[0][0]), "", (), part, shared, "")

    def given_cell(self, name: str, value: str, origin: Origin, column: int, instead_of: str) -> CellReason:
        """A text that a match gives."""
        rule, match = self.exchange.mapping.rules[origin.rule], self.exchange.match(origin)
        cell = rule.conclusion[origin.atom].cells[column]
        part, columns = self.parts.cell(origin.rule, origin.atom, column)
        if cell.kind == LITERAL:
            return CellReason(name, value, "literal", match, "", (), part, (), instead_of)
        assert isinstance(cell.content, int)
        conversion = conversion_of(rule, cell.content) or ""
        given = tuple(self.given(origin, match, one, argument)
                      for argument, one in zip(self.arguments(origin, column), columns))
        kind: Literal["conversion", "column"] = "conversion" if conversion else "column"
        return CellReason(name, value, kind, match, conversion, given, part, (), instead_of)

    def arguments(self, origin: Origin, column: int) -> tuple[int, ...]:
        """The variables of which a cell is made."""
        rule = self.exchange.mapping.rules[origin.rule]
        variable = rule.conclusion[origin.atom].cells[column].content
        assert isinstance(variable, int)
        number = variable - rule.premise_variables()
        return rule.derived[number].arguments if number >= 0 else (variable,)

    def given(self, origin: Origin, match: Match, at: At, variable: int) -> Given:
        """The text of a source column in the rows of a match."""
        rule = self.exchange.mapping.rules[origin.rule]
        place = next(place for place, atom in enumerate(rule.premise)
                     if atom.table == at[0] and atom.cells[at[1]] == variable)
        row: SourceRow = match.sources[0][place]
        table = self.exchange.mapping.source[at[0]]
        text = self.exchange.source.rows(at[0]).rows[row.number][at[1]]
        return Given(table.name, table.columns[at[1]], text, row)
