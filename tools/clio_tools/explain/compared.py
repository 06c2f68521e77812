"""What a comparison of two mappings leaves out: which rule says more, and how that is seen on the rows that clio
writes."""
import os
import pathlib
import re
import subprocess
import tempfile
from collections.abc import Iterator
from typing import NamedTuple

from clio_tools.csv import read_table
from clio_tools.explain.alignment import Row
from clio_tools.explain.judged import said_value
from clio_tools.explain.program import mapping_of
from clio_tools.explain.said import listed, visible
from clio_tools.mapping.meaning import Mapping
from clio_tools.mapping.rules import EXISTENTIAL, Conclusion, Rule
from clio_tools.mapping.tables import Table
from clio_tools.program import program

NAMES = "mapping.clio", "other.clio"
ANSWER = re.compile(r"^(forward|backward) (?:yes|no ([0-9]+))$", re.MULTILINE)
MOST = 12  # rows of a side that are listed
LONGEST = 300  # of a rule


class Direction(NamedTuple):
    """A direction in which a rule doesn't follow: the mapping that has the rule, that from which it doesn't follow, and
    the number of the rule."""

    name: str
    has: str
    lacks: str
    rule: int


def explain(is_all: bool = False) -> Iterator[str]:
    """The lines on the comparison in this folder, with the first rows of each side or all; it is made once more in a
    folder of its own."""
    with tempfile.TemporaryDirectory(prefix="clio-explain-") as name:
        folder = pathlib.Path(name)
        for file in NAMES:
            (folder / file).write_bytes(pathlib.Path(file).read_bytes())
        command = [os.path.abspath(program()), "compare"]
        ended = subprocess.run(command, stdin=subprocess.DEVNULL, capture_output=True, check=False, cwd=folder)
        found = {direction: rule for direction, rule in ANSWER.findall(ended.stdout.decode())}
        if ended.returncode or len(found) < 2:
            return
        yield from verdict(found)
        for direction, rule in found.items():
            if rule:
                names = NAMES[::-1] if direction == "forward" else NAMES
                yield from Difference(folder, Direction(direction, *names, int(rule)), is_all).words()


def verdict(found: dict[str, str]) -> Iterator[str]:
    """What the two answers mean."""
    is_more = [bool(found["backward"]), bool(found["forward"])]
    if not any(is_more):
        yield "the two mappings say the same, for all data"
    elif all(is_more):
        yield "each of the two mappings says something that the other doesn't"
    else:
        more, less = NAMES if is_more[0] else NAMES[::-1]
        yield f"all that {less} says follows from {more}, which says more"


class Difference:
    """A rule that one mapping has, and that doesn't follow from the other, with the rows that show it."""

    def __init__(self, folder: pathlib.Path, direction: Direction, is_all: bool) -> None:
        self.folder, self.direction, self.most = folder, direction, None if is_all else MOST

    def words(self) -> Iterator[str]:
        """The rule, the source rows, what is made of them, and what is not."""
        (self.folder / "of").mkdir(exist_ok=True)
        content = (self.folder / self.direction.has).read_bytes()
        (self.folder / "of" / "mapping.clio").write_bytes(content)
        mapping, printed = mapping_of(content, self.folder / "of")
        if mapping is None:
            return
        rule, text = mapping.rules[self.direction.rule], visible(printed[self.direction.rule])
        yield (f"rule {self.direction.rule} of {self.direction.has} doesn't follow from {self.direction.lacks}: "
               f"{text[:LONGEST]}{' ..' * (len(text) > LONGEST)}")
        source, target = self.rows("source", mapping.source), self.rows("target", mapping.target)
        yield "   source rows, in which v0, v1 and so on can be any texts:"
        yield from self.listed(mapping.source, source)
        yield f"   {self.direction.lacks} makes {'of them:' if any(target) else 'nothing of them'}"
        yield from self.listed(mapping.target, target)
        yield from self.lacking(rule, mapping, source, target)

    def rows(self, side: str, tables: list[Table]) -> list[list[Row]]:
        """The rows of a side that clio wrote."""
        path = self.folder / "out"
        start = f"{self.direction.name}_{side}_"
        return [[tuple(row) for row in read_table(path / f"{start}{table.name}.csv", table.columns)]
                for table in tables]

    def listed(self, tables: list[Table], rows: list[list[Row]]) -> Iterator[str]:
        """Rows by their tables."""
        told = [f"      {visible(table.name)}: {cells(table, dict(enumerate(row)))}"
                for table, some in zip(tables, rows) for row in some]
        yield from told[:self.most]
        if self.most is not None and len(told) > self.most:
            yield f"      and {len(told) - self.most} more; clio-explain compare --all lists all"

    def lacking(self, rule: Rule, mapping: Mapping, source: list[list[Row]], target: list[list[Row]]) -> Iterator[str]:
        """The rows that the rule asks for and that aren't there."""
        values = texts_of(rule, source)
        is_told = False
        for atom in dict.fromkeys(rule.conclusion):
            table, wanted = mapping.target[atom.table], wanted_of(atom, values)
            rows = target[atom.table]
            agreeing = [sum(row[column] == value for column, value in wanted.items()) for row in rows]
            if len(wanted) not in agreeing:
                is_told = True
                yield (f"   the rule asks for a row of {visible(table.name)} with "
                       f"{cells(table, wanted) or 'any values'}, which isn't there")
                if any(agreeing):
                    nearest = rows[max(range(len(rows)), key=agreeing.__getitem__)]
                    differing = [table.columns[column] for column, value in wanted.items() if nearest[column] != value]
                    yield f"      nearest: {cells(table, dict(enumerate(nearest)))}; it differs in {listed(differing)}"
        if not is_told:
            joined = dict.fromkeys(f"{mapping.target[atom.table].name}.{mapping.target[atom.table].columns[column]}"
                                   for atom in rule.conclusion for column, cell in enumerate(atom.cells)
                                   if cell.kind == EXISTENTIAL and rule.conclusion_cells().count(cell) > 1)
            yield f"   each row that the rule asks for is there, but not joined as it asks: by {listed(joined)}"


def texts_of(rule: Rule, source: list[list[Row]]) -> dict[int, str]:
    """The texts of a rule's variables in the source rows, which are its left side: v0 for the first one, or with more
    letters v in front."""
    texts = {text for rows in source for row in rows for text in row}
    variables = sorted({variable for atom in rule.premise for variable in atom.cells})
    letters = next((count for count in range(1, 100) if all("v" * count + str(one) in texts for one in variables)), 1)
    return {one: "v" * letters + str(one) for one in variables}


def wanted_of(atom: Conclusion, values: dict[int, str]) -> dict[int, str]:
    """The values that an atom of a rule asks for, by columns."""
    found = {column: cell.content if isinstance(cell.content, str) else values[cell.content]
             for column, cell in enumerate(atom.cells) if cell.kind != EXISTENTIAL}
    return {column: "?" + text if text.startswith("?") else text for column, text in found.items()}


def cells(table: Table, values: dict[int, str]) -> str:
    """Cells of a row."""
    return ", ".join(f"{visible(table.columns[column])} = {said_value(value)}" for column, value in values.items())
