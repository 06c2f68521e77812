"""What `clio exchange` wrote: the rows of the target, and what its nulls are known by.

Rows are read again for each use, and only the numbers of nulls are held.
"""
import json
import pathlib
import sqlite3
from array import array
from collections.abc import Iterable, Iterator
from itertools import groupby
from operator import itemgetter

from clio_tools.csv import read_table
from clio_tools.ids.nulls import AGAIN, NONE, NULL, Nulls, json_text, parts_of
from clio_tools.ids.sureness import FOLDED, RULE
from clio_tools.ids.terms import Terms
from clio_tools.mapping.text import Set
from clio_tools.program import Refused
from clio_tools.safe_files import check_folder

OUT = pathlib.Path("out")
FRESH, RENAMED = "null", "id"  # the first column of nulls.csv as clio writes it, and after the numbers are in
PAIRS = ["null", "value"]

Term = tuple[int, int, str]  # a null, what it is, and its text
Texts = tuple[str, ...]


class Target:
    """The tables of the target. For each column `cells` has the number of the null in each row, or NONE."""

    def __init__(self, tables: list[Set]) -> None:
        self.tables, self.nulls = tables, Nulls()
        self.rules = written("rules", ".txt").read_text(encoding="utf-8").splitlines()
        self.names = names_of(self.rules)
        self.heads: dict[tuple[str, str], str] = {}
        self.cells = [self.read(table) for table in tables]
        self.check_rules(self.nulls.rules())

    def read(self, table: Set) -> "list[array[int]]":
        """The numbers of the nulls in each column of a table."""
        columns, add = [array("i") for _ in table.columns], self.nulls.add
        fill = [column.append for column in columns]
        for row in self.rows(table):
            for append, cell in zip(fill, row):
                append(add(parts) if cell[:1] == "?" and (parts := parts_of(cell)) else NONE)
        return columns

    def rows(self, table: Set) -> Iterator[list[str]]:
        """The rows of a table as they were written."""
        return read_table(written(table.name), table.columns)

    def check_rules(self, rules: Iterable[int]) -> None:
        """The rules of nulls are there."""
        greatest = max(rules, default=-1)
        if greatest >= len(self.rules):
            raise Refused(f"out/ has the null ?{greatest}.., and out/rules.txt has {len(self.rules)} rules: {AGAIN}")

    def exported(self) -> Iterator[tuple[int, str, Texts, Texts]]:
        """Each null of nulls.csv: its number, its name, its variables and their values."""
        named: dict[str, Texts] = {}
        for null, rows in groupby(read_table(written("nulls"), [FRESH, "variable", "value"]), itemgetter(0)):
            parts = parts_of(null)
            number = self.nulls.number(parts) if parts else NONE
            if parts is None or number == NONE:
                raise Refused(f"out/nulls.csv lists {null[:60]}, which is in no table: {AGAIN}")
            _, variables, values = zip(*rows)
            if named.setdefault(parts[0], variables) != variables:
                raise Refused(f"out/nulls.csv has other variables for {null[:60]} than for other nulls of its rule:"
                              f" {AGAIN}")
            yield number, null, variables, values

    def term_text(self, rule: str, variable: str, pairs: Iterable[Iterable[str]]) -> str:
        """A rule, a variable, and values by the names of the variables that have them, as a text of JSON."""
        head = self.heads.get((rule, variable))
        if head is None:
            head = self.heads[rule, variable] = json.dumps(["rule", self.names[int(rule)], int(variable), []])[:-2]
        return head + ", ".join([f"[{json_text(name)}, {json_text(value)}]" for name, value in pairs]) + "]]"

    def terms(self, wanted: bytearray) -> Iterator[Term]:
        """What each null that is wanted is made of, as a text: its rule, its variable, and the values of nulls.csv."""
        is_listed = bytearray(self.nulls.count)
        for number, null, variables, values in self.exported():
            is_listed[number] = 1
            if wanted[number]:
                rule, variable, _ = null[1:].split(".")
                yield number, RULE, self.term_text(rule, variable, zip(variables, values))
        for rule, variable, _, number in self.nulls:
            if wanted[number] and not is_listed[number]:
                yield number, RULE, self.term_text(rule, variable, [])

    def folded(self, wanted: bytearray) -> Iterator[tuple[int, int, int, int]]:
        """The nulls that one of those that are wanted came in the place of: each with its rule, variable and place, and
        the number of that one.
        """
        for null, value in read_table(written("fold"), PAIRS):
            if value[:1] == "?" and (number := self.nulls.number_of(value)) != NONE and wanted[number]:
                found = NULL.fullmatch(null)
                if not found:
                    raise Refused(f"out/fold.csv lists {null[:60]!r}, which is no null: {AGAIN}")
                self.check_rules([int(found[1])])
                yield int(found[1]), int(found[2]), int(found[3]), number

    def folded_terms(self, base: sqlite3.Connection, wanted: bytearray) -> Iterator[Term]:
        """For each of these the number of the target's null, and what the other one was made of, as a text."""
        for rule, variable, pairs, number in Terms(self.rules, base).of(self.folded(wanted)):
            yield number, FOLDED, self.term_text(str(rule), str(variable), pairs)


def names_of(rules: list[str]) -> list[str]:
    """The texts of rules; one that is there already is told from the others by how many are before it."""
    before = [rules[:place].count(rule) for place, rule in enumerate(rules)]
    return [f"{rule} // {count}" if count else rule for rule, count in zip(rules, before)]


def written(name: str, ending: str = ".csv") -> pathlib.Path:
    """A file that clio wrote; a missing one is refused."""
    path = OUT / (name + ending)
    if not path.is_file():
        raise Refused(f"{path} is missing: {AGAIN}")
    return path


def is_renamed() -> bool:
    """Whether nulls.csv has the numbers already."""
    check_folder(OUT)
    with written("nulls").open("rb") as file:
        return file.readline().startswith(RENAMED.encode() + b",")
