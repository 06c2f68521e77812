"""What the nulls of a run are made of that are not in its target.

They are the matches of the rules in the source files, found anew by SQLite in tables of its own.
"""
import pathlib
import re
import sqlite3
import subprocess
from collections.abc import Iterable, Iterator

from clio_tools.csv import read_table
from clio_tools.ids.nulls import AGAIN
from clio_tools.json import rows_in_parts
from clio_tools.mapping.text import Mapping, Set
from clio_tools.program import Refused, program
from clio_tools.safe_files import content_of
from clio_tools.sql.script import Script
from clio_tools.sql.words import SQLITE

SOURCE = re.compile(r"source\.\"([^\"]+)\" AS (a[0-9]+)")
CELL = re.compile(r"(a[0-9]+)\.\"([^\"]+)\"")

Term = tuple[int, int, list[list[str]], int]  # rule, variable, names and values of what is exported, number of a null


class Terms:
    """The matches of rules, each rule's in a table when it is asked for, in the order of their places."""

    def __init__(self, rules: list[str], base: sqlite3.Connection) -> None:
        self.rules, self.base = rules, base

    def of(self, folded: Iterable[tuple[int, int, int, int]]) -> Iterator[Term]:
        """For each of some nulls, given as rule, variable, place and a number: rule, variable, the values that the rule
        exports, and number.
        """
        self.base.execute("CREATE TEMP TABLE folded"
                          " (line INTEGER PRIMARY KEY, rule INTEGER, variable INTEGER, place INTEGER, number INTEGER)")
        self.base.executemany("INSERT INTO folded (rule, variable, place, number) VALUES (?, ?, ?, ?)", folded)
        rules = [rule for rule, in self.base.execute("SELECT DISTINCT rule FROM folded ORDER BY rule").fetchall()]
        if rules:
            self.read()
        for rule in rules:
            yield from self.of_rule(rule)

    def read(self) -> None:
        """Reads mapping.clio, and the source files into tables."""
        show = subprocess.run([program(), "show"], stdin=subprocess.DEVNULL, capture_output=True, check=False)
        lines = show.stdout.decode().splitlines()
        printed = [line for line in lines if line.startswith("rule ")]
        if show.returncode or printed != self.rules:
            raise Refused(f"out/rules.txt has other rules than mapping.clio: {AGAIN}")
        try:
            self.script = Script()
            for line in lines:
                self.script.add(line)
            self.mapping = Mapping(content_of(pathlib.Path("mapping.clio")).decode("utf-8", "replace"))
            for name, function in FUNCTIONS.items():
                self.base.create_function(name, 1, function, deterministic=True)
            for number, table in enumerate(self.mapping.source):
                cells = ", ".join(f"c{place} TEXT" for place in range(len(table.columns)))
                self.base.execute(f"CREATE TEMP TABLE source{number} ({cells})")
            for table in self.mapping.source:
                if table.parent is None:
                    self.load(table)
        except (OSError, ValueError) as error:
            raise Refused(f"the source files can't be read again: {error}: {AGAIN}") from None

    def load(self, root: Set) -> None:
        """Loads a root set and the sets inside it."""
        if not root.inner:
            self.insert(root, read_table(pathlib.Path(f"{root.name}.csv"), root.columns))
            return
        named = {table.name: table for table in self.mapping.source}
        for found in rows_in_parts(pathlib.Path(f"{root.name}.json"), root):
            for name, rows in found.items():
                self.insert(named[name], rows)

    def insert(self, table: Set, rows: Iterable[list[str]]) -> None:
        """Puts the rows of a table that pass its conditions into the table of SQLite."""
        marks = ", ".join("?" * len(table.columns))
        self.base.executemany(f"INSERT INTO source{self.mapping.source.index(table)} VALUES ({marks})",
                              self.mapping.passing(table, rows))

    def of_rule(self, rule: int) -> Iterator[Term]:
        """The nulls of one rule, in the order in which they were given."""
        columns = self.match(rule)
        names = [f"x{number}" for number in self.script.rules[rule].exported]
        cells = "".join(f", m.c{column}" for column in range(columns))
        rows = self.base.execute(f"SELECT f.variable, f.number, f.place, m.rowid{cells} FROM folded AS f"
                                 f" LEFT JOIN matches{rule} AS m ON m.rowid = f.place + 1 WHERE f.rule = ?"
                                 " ORDER BY f.line", (rule,))
        for variable, number, place, row, *texts in rows:
            if row is None:
                raise Refused(f"out/fold.csv has ?{rule}.{variable}.{place}, and the source has no such match now:"
                              f" {AGAIN}")
            values = ["?" + text if text[:1] == "?" else text for text in texts]
            yield rule, variable, [[name, value] for name, value in zip(names, values)], number

    def match(self, rule: int) -> int:
        """Makes the table of a rule's matches, its rows in order; answers how many columns it has."""
        exported, rest = self.script.matches[rule]
        names = {table.name: (number, table) for number, table in enumerate(self.mapping.source)}
        tables = {alias: names[name] for name, alias in SOURCE.findall(rest)}

        def place(found: re.Match[str]) -> str:
            return f"{found[1]}.c{tables[found[1]][1].columns.index(found[2])}"

        select = ", ".join(f"{CELL.sub(place, SQLITE.exported(one))} AS c{column}"
                           for column, one in enumerate(exported)) or "1"
        rest = CELL.sub(place, SOURCE.sub(lambda found: f"source{names[found[1]][0]} AS {found[2]}", rest))
        columns = len(exported)
        order = ", ".join(f"c{column}" for column in range(columns))
        self.base.execute(f"CREATE TEMP TABLE matches{rule} AS SELECT DISTINCT {select} FROM {rest}"
                          + (f" ORDER BY {order}" if order else ""))
        return columns


def digits(text: str) -> str:
    """The digits of a text."""
    return "".join(sign for sign in text if sign in "0123456789")


FUNCTIONS = {"clio_digits": digits}
