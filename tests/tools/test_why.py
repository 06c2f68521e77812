"""clio-why: each row of all examples and of random mappings has a reason, what asks for it is what another reading of
the rules asks for, and each text in a reason is at its place in a source file; each source row goes somewhere exactly
if it isn't said to have missed something, and what would keep it keeps it.

    WHY_ROWS     how many rows of a table are asked about (10)
    WHY_RANDOM   how many random mappings of each kind (6)
"""
import csv
import json
import os
import pathlib
import random
import shutil
import subprocess
import unittest
from collections.abc import Callable
from typing import Any, TypeVar

from matches import canonical, places_of
from random_cases import Case, random_case
from refusals import Limit, TooLong
from trial import PROGRAM, TOP, Trial
from values import value_text

from clio_tools.why.data import CellReason, RowReason, SourceReason, SourceRow
from clio_tools.why.missing import edited
from clio_tools.why.reasons import Reasons

ROWS = int(os.environ.get("WHY_ROWS", "10"))
RANDOM = int(os.environ.get("WHY_RANDOM", "6"))
KINDS = ["rules", "lines", "mixed", "keyed", "optional", "dependent"]
Item = TypeVar("Item")
CONVERSIONS: dict[str, Callable[..., str]] = {
    "trim": lambda text: str(text).strip(" "),
    "digits": lambda text: "".join(one for one in text if one in "0123456789"),
    "pair": lambda one, other: f"{one} {other}"}


def is_null(value: str) -> bool:
    """Whether a value is a null."""
    return value[:1] == "?" and value[1:2] != "?"


def some(listed: list[Item], count: int) -> list[Item]:
    """Some of a list, from its begin to its end."""
    if len(listed) <= count:
        return listed
    return [listed[place * (len(listed) - 1) // (count - 1)] for place in range(count)]


def member(value: object) -> str:
    """The text of a member of a document."""
    return "" if value is None else {True: "true", False: "false"}[value] if isinstance(value, bool) else str(value)


class Files:
    """The files of a folder, read in another way: records with the line on which each begins, and documents."""

    def __init__(self, folder: pathlib.Path) -> None:
        self.folder = folder
        self.read: dict[str, Any] = {}

    def texts(self, row: SourceRow) -> list[str]:
        """What is in the file where a row is said to be."""
        if row.file not in self.read:
            content = (self.folder / row.file).read_bytes().removeprefix(b"\xef\xbb\xbf")
            if row.path:
                self.read[row.file] = json.loads(content)
            else:
                lines = csv.reader(content.decode().splitlines(keepends=True))
                began, listed = 1, []
                for fields in lines:
                    if fields:
                        listed.append((began, fields))
                    began = lines.line_num + 1
                self.read[row.file] = listed
        if not row.path:
            line, fields = self.read[row.file][row.record]
            assert line == row.line, row
            return fields
        value = self.read[row.file]
        for step in row.path[1:].split("/"):
            value = value[int(step)] if isinstance(value, list) else value[step]
        return [member(value.get(column)) for column in row.columns]


class Why(Trial):
    """What the reasons are is asked of the module, in any folder."""

    def reasons(self, folder: pathlib.Path, *words: str) -> Reasons | None:
        """The reasons of a copy of a folder, if clio exchanges it."""
        self.files = Files(folder)
        before = os.environ["PATH"]
        if shutil.which("clio") != PROGRAM:
            bin_folder = self.folder / "bin"
            bin_folder.mkdir(exist_ok=True)
            if not (bin_folder / "clio").exists():
                (bin_folder / "clio").symlink_to(PROGRAM)
            os.environ["PATH"] = f"{bin_folder}{os.pathsep}{before}"
            self.addCleanup(os.environ.__setitem__, "PATH", before)
        ended = subprocess.run([PROGRAM, "exchange", *words], cwd=folder, capture_output=True, check=False)
        return Reasons.of_folder(folder) if ended.returncode == 0 else None

    def copied(self, folder: pathlib.Path) -> pathlib.Path:
        """A copy of a folder's files."""
        made = self.folder / "copy"
        shutil.rmtree(made, ignore_errors=True)
        made.mkdir()
        for path in folder.iterdir():
            if path.is_file():
                (made / path.name).symlink_to(path)
        return made

    def rows(self, folder: pathlib.Path, name: str) -> list[tuple[str, ...]]:
        """The rows of a table in `out`."""
        with open(folder / "out" / f"{name}.csv", newline="", encoding="utf-8") as file:
            return [tuple(fields) for fields in csv.reader(file) if fields][1:]

    def try_row(self, reasons: Reasons, name: str, row: tuple[str, ...], most: int | None = 6) -> RowReason:
        """A reason says where each cell is from, and all that it says is so."""
        reason = reasons.row(name, row, most)
        fold = reasons.exchange.fold
        self.assertTrue(reason.asked)
        self.assertEqual(reason.count, sum(count for _, count in reason.rules))
        self.assertEqual(len(reason.asked), reason.count if most is None else min(most, reason.count))
        self.assertEqual(tuple(cell.value for cell in reason.cells), row)
        for cell in reason.cells:
            self.try_cell(cell)
        for match in reason.asked:
            self.assertEqual(tuple(fold.get(value, value) for value in match.row), row)
            self.assertTrue(match.sources)
            for source in (source for sources in match.sources for source in sources):
                self.assertEqual(list(source.texts), self.files.texts(source))
        for one in reason.replaced:
            self.assertNotEqual(one.by, "unknown")
            self.assertEqual(fold[one.null], fold.get(one.value, one.value))
            if one.by != "core":
                self.assertEqual(len(one.matches), 2)
                names = reasons.exchange.mapping.target[reasons.exchange.table(one.set)].columns
                for match in one.matches:
                    values = [match.row[names.index(column)] for column in one.columns]
                    self.assertEqual(tuple(fold.get(value, value) for value in values), one.agreed)
        return reason

    def try_cell(self, cell: CellReason) -> None:
        """A text is in a source file where it is said to be, or in the mapping; a null is left open."""
        text = cell.value[1:] if cell.value.startswith("?") else cell.value
        self.assertEqual(cell.kind == "open", is_null(cell.value), cell)
        for given in cell.given:
            self.assertEqual(given.row.texts, tuple(self.files.texts(given.row)))
            if not given.column.startswith("#"):
                self.assertEqual(given.text, dict(zip(given.row.columns, given.row.texts))[given.column])
        if cell.kind == "column":
            self.assertEqual([given.text for given in cell.given], [text])
        elif cell.kind == "conversion":
            self.assertEqual(CONVERSIONS[cell.conversion](*[given.text for given in cell.given]), text)
        elif cell.kind == "literal":
            self.assertTrue(cell.part and '"' in cell.part.text)

    def try_sources(self, reasons: Reasons, folder: pathlib.Path, count: int) -> None:
        """Each source row goes somewhere, or is said to have missed something, and what would keep it keeps it."""
        for table in reasons.exchange.mapping.source:
            for fact in some(reasons.source_rows(table.name, {}), count):
                reason = reasons.source_fact(fact)
                self.assertEqual(bool(reason.made), not reason.misses, reason)
                for made in reason.made:
                    self.assertIn(made.row, self.rows(folder, made.set))
                if reason.edits:
                    self.try_edits(folder, reason)

    def try_edits(self, folder: pathlib.Path, reason: SourceReason) -> None:
        """A row goes somewhere when the changes are made that are said."""
        other = self.copied(folder)
        content = edited((folder / "mapping.clio").read_bytes(), reason.edits)
        (other / "mapping.clio").unlink()
        (other / "mapping.clio").write_bytes(content)
        ended = subprocess.run([PROGRAM, "exchange"], cwd=other, capture_output=True, check=False)
        if ended.returncode in (3, 6):  # more rows may clash, or exceed a limit
            return
        self.assertEqual(ended.returncode, 0, ended.stderr)
        new = Reasons.of_folder(other)
        facts = [fact for fact in new.source_rows(reason.row.set, dict(zip(reason.row.columns, reason.row.texts)))]
        self.assertTrue(any(new.source_fact(fact).made for fact in facts), reason)

    def test_examples(self) -> None:
        """All mappings of the examples, plain and core."""
        count = 0
        for path in sorted((TOP / "examples").rglob("mapping.clio")):
            for words in (), ("--core",):
                folder = self.folder / "example"
                shutil.rmtree(folder, ignore_errors=True)
                folder.mkdir()
                for one in path.parent.iterdir():
                    if one.is_file():
                        (folder / one.name).symlink_to(one)
                reasons = self.reasons(folder, *words)
                if reasons is None:
                    continue
                with self.subTest(str(path.parent), words=words):
                    for table in reasons.exchange.mapping.target:
                        for row in some(self.rows(folder, table.name), ROWS if not words else max(3, ROWS // 4)):
                            self.try_row(reasons, table.name, row)
                            count += 1
                    if not words:
                        self.try_sources(reasons, folder, ROWS)
        self.assertGreater(count, 400)

    def test_random(self) -> None:
        """What asks for the rows of a target are all rows that the rules ask for; and the source rows that no match has
        are those that missed something."""
        counts = {"rows": 0, "replaced": 0, "missed": 0}
        for kind in KINDS:
            for number in range(RANDOM):
                case = random_case(random.Random(f"why {kind} {number}"), kind)
                with self.subTest(f"{kind} {number}"):
                    self.try_random(case, number % 2 == 1, counts)
        self.assertGreater(min(counts.values()), 10, counts)

    def try_random(self, case: Case, is_core: bool, counts: dict[str, int]) -> None:
        """One random case."""
        folder = self.folder / "case"
        shutil.rmtree(folder, ignore_errors=True)
        folder.mkdir()
        for name, content in case.files.items():
            (folder / name).write_bytes(content.encode() if isinstance(content, str) else content)
        reasons = self.reasons(folder, *["--core"] * is_core)
        if reasons is None:
            return
        try:
            rules, _ = case.mapping.rule_list()
        except (Limit, TooLong):
            return
        asked = set()
        for number, table in enumerate(case.mapping.target):
            for row in self.rows(folder, table.name):
                reason = self.try_row(reasons, table.name, row, None)
                asked |= {(number, match.row) for match in reason.asked}
                counts["rows"] += 1
                counts["replaced"] += bool(reason.replaced)
        wanted = {(fact.table, tuple(map(value_text, fact.row))) for fact in canonical(places_of(rules, case.instance))}
        self.assertEqual(asked, wanted)
        self.try_sources(reasons, folder, 1000)
        for table in reasons.exchange.mapping.source:
            for fact in reasons.source_rows(table.name, {}):
                counts["missed"] += bool(reasons.source_fact(fact).misses)


if __name__ == "__main__":
    unittest.main()
