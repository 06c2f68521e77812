"""The figures of an exchange, counted anew from the mapping, the source files and what clio wrote."""
import pathlib
from collections import Counter
from typing import TypedDict

from clio_tools.csv import read_table
from clio_tools.explain.joins import Matches, TooMany
from clio_tools.explain.key_chase import Cells, KeyChase, KeyStep, Null, Value, cell_value
from clio_tools.explain.program import mapping_of
from clio_tools.explain.source import Row, Source, files_of
from clio_tools.explain.traps import used_cells
from clio_tools.ids.nulls import Marks
from clio_tools.ids.target import is_renamed
from clio_tools.mapping.rules import EXISTENTIAL, Rule
from clio_tools.mapping.tables import Link, Table
from clio_tools.program import Refused
from clio_tools.safe_files import check_file

Open = tuple[int, int]  # a rule, and a variable that it leaves open
Fate = str | tuple[str, str]  # "stay", or by what a null was replaced, and by what kind of value
AGAIN = "run clio exchange again"
NOTHING: list[tuple[int, ...]] = []


class ColumnFigures(TypedDict):
    """How many rows have a text, the empty text and a null in a column, how many nulls are different, and of which
    rules and variables they are.
    """

    texts: int
    empty: int
    nulls: int
    different: int
    why: Counter[Open]


class UsedMatches(Matches):
    """The matches of a rule, with each source row that is in one."""

    def __init__(self, rule: Rule, source: Source) -> None:
        self.used = [bytearray(len(source.rows[atom.table].rows)) for atom in rule.premise]
        super().__init__(rule, source)

    def keep(self) -> None:
        """Marks the rows of a match besides."""
        super().keep()
        for used, row in zip(self.used, self.chosen):
            used[row] = 1

    def take(self, texts: Row) -> None:
        """Takes down the texts of a match, and none of its rows."""
        row = self.steps[-1].rows[self.chosen[self.steps[-1].place]]
        self.found[row if row == texts else texts] = NOTHING  # one tuple takes less memory than two


class CountedChase(KeyChase):
    """The key chase, which counts how many nulls each key or dependency replaced."""

    def __init__(self, rows: list[list[Cells]], tables: list[Table]) -> None:
        self.by_key: Counter[tuple[int, int]] = Counter()
        super().__init__(rows, tables)

    def note(self, value: Value, step: KeyStep) -> None:
        """Counts a null that was replaced."""
        self.by_key[step.table, step.key] += 1


class Asked:
    """The rows that the rules ask for: each table's different ones, and which rules ask for each of them, as bits."""

    def __init__(self, rules: list[Rule], matches: list[UsedMatches], tables: list[Table]) -> None:
        asked: list[dict[Cells, int]] = [{} for _ in tables]
        self.number = [[0] * len(rules) for _ in tables]
        for rule, found in enumerate(matches):
            variables = open_variables(rules[rule])
            for place, texts in enumerate(found.places()):
                values = dict(zip(found.exported, texts))
                nulls = {variable: (rule, variable, place) for variable in variables}
                for atom in rules[rule].conclusion:
                    row = tuple([nulls[int(cell.content)] if cell.kind == EXISTENTIAL
                                 else cell_value(cell, values, rule, place) for cell in atom.cells])
                    asked[atom.table][row] = asked[atom.table].get(row, 0) | 1 << rule
                    self.number[atom.table][rule] += 1
        self.rows = [list(rows) for rows in asked]
        self.masks = [list(rows.values()) for rows in asked]


def open_variables(rule: Rule) -> set[int]:
    """The variables that a rule leaves open."""
    return {int(cell.content) for cell in rule.conclusion_cells() if cell.kind == EXISTENTIAL}


def value_text(value: Value) -> str:
    """A value as clio writes it."""
    if isinstance(value, tuple):
        return "?%d.%d.%d" % value
    return "?" + value if value[:1] == "?" else value


def null_of(text: str) -> Null | None:
    """The rule, the variable and the place of a null, or None for a text."""
    if text[:1] != "?" or text[1:2] == "?":
        return None
    rule, variable, place = map(int, text[1:].split("."))
    return rule, variable, place


class SourceFigures:
    """One table of the source: its records, those that repeat another, the rows that some rule used, and why others
    weren't.
    """

    def __init__(self, number: int, source: Source, rules: list[Rule], matches: list[UsedMatches]) -> None:
        self.table, self.rows, self.failing = source.tables[number], source.rows[number], source.failing[number]
        self.conditions = [condition for condition in source.mapping.conditions if condition.column.table == number]
        self.kept: dict[Link, set[Row]] = {}
        self.used = bytes(len(self.rows.rows))
        self.by_rule: dict[int, int] = {}
        for rule, found in enumerate(matches):
            own = bytes(len(self.rows.rows))
            for atom, used in zip(rules[rule].premise, found.used):
                if atom.table == number:
                    own = bytes(map(int.__or__, own, used))
            if any(atom.table == number for atom in rules[rule].premise):
                self.by_rule[rule] = sum(own)
                self.used = bytes(map(int.__or__, self.used, own))
        self.not_used = [row for row, used in enumerate(self.used) if not used]
        self.reasons = Counter(self.reason(row, number, source) for row in self.not_used)
        files = files_of(source.tables)  # the columns of one file are told of the first set that is read from it
        going = {column for rule in rules for atom, column in used_cells(rule) if files[atom.table] == files[number]}
        self.unused_columns = [name for column, name in enumerate(self.table.columns)
                               if name in self.table.tree.columns and column not in going
                               and files.index(files[number]) == number]

    def reason(self, row: int, number: int, source: Source) -> str:
        """Why no rule used a row."""
        if not self.by_rule:
            return "no rule reads this set"
        for link in source.tables[number].links[self.table.parent is not None:]:
            there = self.referred(link, source)
            if tuple([self.rows.rows[row][column] for column in link.own]) not in there:
                own = ", ".join(self.table.columns[column] for column in link.own)
                return f"no row of {source.tables[link.table].name} matches its ({own})"
        return "no match of a rule has it"

    def referred(self, link: Link, source: Source) -> set[Row]:
        """The values that a link can lead to."""
        if link not in self.kept:
            self.kept[link] = {tuple([row[column] for column in link.referred])
                               for row in source.rows[link.table].rows}
        return self.kept[link]


class TargetFigures:
    """One table of the target: what rules asked for, what became of it, and what each column has. The rows that were
    asked for are used up.
    """

    def __init__(self, number: int, table: Table, asked: Asked, chase: CountedChase, fold: dict[str, str]) -> None:
        self.table = table
        self.asked, self.asked_by_rule = sum(asked.number[number]), asked.number[number]
        self.different = len(asked.rows[number])
        self.rows: dict[Row, int] = {}
        self.others: set[Row] = set()
        self.plain = 1 << len(self.asked_by_rule)
        while asked.rows[number]:
            self.add(asked.rows[number].pop(), asked.masks[number].pop(), chase, fold)
        self.compare()
        self.check_written()
        self.written = len(self.rows)
        self.by_rules = Counter(self.rows.values())
        self.columns = [self.column(column) for column in range(len(table.columns))]

    def add(self, row: Cells, mask: int, chase: CountedChase, fold: dict[str, str]) -> None:
        """A row that rules ask for: what the fold makes of it, with the rules, and a mark if keys and dependencies
        alone make the same of it.
        """
        texts = [value_text(value) for value in row]
        last = tuple([fold.get(text, text) for text in texts])
        values = [chase.value(value) for value in row]
        plain = tuple(map(value_text, values))
        if plain != last:
            self.others.add(plain)
        self.rows[last] = self.rows.get(last, 0) | (mask if plain != last else mask | self.plain)

    def compare(self) -> None:
        """Counts the rows that keys and dependencies leave, and tells whether these are the rows in out."""
        missing = 0
        for row in self.others:
            if row in self.rows:
                self.rows[row] |= self.plain
            else:
                missing += 1
        self.others.clear()
        found = sum(1 for mask in self.rows.values() if mask & self.plain)
        self.after_keys, self.is_plain = found + missing, not missing and found == len(self.rows)
        for row in self.rows:
            self.rows[row] &= ~self.plain

    def check_written(self) -> None:
        """These must be the rows that were written."""
        for written in read_table(f"out/{self.table.name}.csv", self.table.columns):
            row = tuple(written)
            if self.rows.get(row, -1) < 0:
                raise Refused(why_other(self.table))
            self.rows[row] = ~self.rows[row]  # a row that was found once
        for row, mask in self.rows.items():
            if mask >= 0:
                raise Refused(why_other(self.table))
            self.rows[row] = ~mask

    def column(self, column: int) -> ColumnFigures:
        """What a column has: rows with a text, with the empty text, with a null; the nulls by rule and variable."""
        nulls: Counter[Open] = Counter()
        empty = different = 0
        met: dict[Open, Marks] = {}
        for row in self.rows:
            null = null_of(row[column])
            if null:
                nulls[null[:2]] += 1
                different += met.setdefault(null[:2], Marks()).add(null[2])
            elif not row[column]:
                empty += 1
        with_null = sum(nulls.values())
        return {"texts": self.written - with_null - empty, "empty": empty, "nulls": with_null, "different": different,
                "why": nulls}


class Figures:
    """All figures of the exchange in the current folder."""

    def __init__(self) -> None:
        content = read(pathlib.Path("mapping.clio"))
        mapping, self.printed = mapping_of(content)
        if mapping is None:
            raise Refused("clio refuses mapping.clio: clio-explain show says why")
        self.mapping = mapping
        if read(pathlib.Path("out", "rules.txt")).decode().splitlines() != self.printed:
            raise Refused(f"out/rules.txt has other rules than mapping.clio: {AGAIN}")
        try:
            source = Source(self.mapping)
        except (OSError, ValueError, StopIteration) as error:
            raise Refused(f"the source files can't be read: {error}") from None
        self.fold = {null: value for null, value in read_table("out/fold.csv", ["null", "value"])}
        self.read(source)

    def read(self, source: Source) -> None:
        """Counts all."""
        rules, tables = self.mapping.rules, self.mapping.target
        try:
            self.matches = [UsedMatches(rule, source) for rule in rules]
        except TooMany:
            raise Refused("the rules have too many matches to be counted here") from None
        self.source_rows = source
        self.source = [SourceFigures(number, source, rules, self.matches) for number in range(len(source.tables))]
        asked = Asked(rules, self.matches, tables)
        chase = CountedChase(asked.rows, tables)
        self.target = [TargetFigures(number, table, asked, chase, self.fold) for number, table in enumerate(tables)]
        self.is_plain = not chase.met and all(one.is_plain for one in self.target)
        self.by_key, self.determinations = chase.by_key, chase.determinations
        self.variables = self.fates(chase)
        self.covered = self.said_as_well(chase)

    def fates(self, chase: CountedChase) -> dict[Open, Counter[Fate]]:
        """For each rule and open variable what became of its nulls: they stay, or became a text or another null, by a
        key or dependency, or by core mode alone.
        """
        fates: dict[Open, Counter[Fate]] = {}
        for rule, found in enumerate(self.matches):
            for variable in sorted(open_variables(self.mapping.rules[rule])):
                fate: Counter[Fate] = Counter()
                fates[rule, variable] = fate
                for place in range(len(found.found)):
                    null = (rule, variable, place)
                    value = self.fold.get("?%d.%d.%d" % null)
                    if value is None:
                        fate["stay"] += 1
                    else:
                        by = "key" if chase.value(null) != null else "core"
                        fate[by, "null" if null_of(value) else "text"] += 1
        return fates

    def said_as_well(self, chase: CountedChase) -> dict[int, Counter[int]]:
        """For each rule its matches of whose nulls core mode alone replaced some: by which other rules all rows are
        there that such a match asks for.
        """
        found: dict[int, Counter[int]] = {}
        for number, (rule, matches) in enumerate(zip(self.mapping.rules, self.matches)):
            variables = open_variables(rule)
            for place, texts in enumerate(matches.places()) if variables and not self.is_plain else ():
                nulls = [(number, variable, place) for variable in variables]
                if any("?%d.%d.%d" % null in self.fold and chase.value(null) == null for null in nulls):
                    mask = self.others(rule, number, place, dict(zip(matches.exported, texts)))
                    found.setdefault(number, Counter())[mask] += 1
        return found

    def others(self, rule: Rule, number: int, place: int, values: dict[int, str]) -> int:
        """The rules, without this one, that ask for all rows of a match."""
        mask = -1
        for atom in rule.conclusion:
            row = [value_text(cell_value(cell, values, number, place)) for cell in atom.cells]
            mask &= self.target[atom.table].rows[tuple([self.fold.get(text, text) for text in row])]
        return mask & ~(1 << number)


def why_other(table: Table) -> str:
    """Why a table was written with other rows."""
    if is_renamed():
        return f"out has the numbers of clio-ids: {AGAIN}, and clio-report before clio-ids"
    return f"out/{table.name}.csv doesn't have what the rules make of the source files: {AGAIN}"


def read(path: pathlib.Path) -> bytes:
    """The bytes of a file; a missing one is refused."""
    check_file(path)
    try:
        return path.read_bytes()
    except OSError as error:
        raise Refused(f"{path}: {error.strerror}") from None
