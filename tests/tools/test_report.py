"""clio-report: its figures against counts by SQL, on examples and random cases; they add up; the page is whole,
whatever the texts are.
"""
import contextlib
import html
import html.parser
import os
import pathlib
import random
import re
import shutil
import sqlite3
import subprocess
import tempfile
import unittest
import unittest.mock
from collections.abc import Callable, Iterable, Iterator, Sequence
from typing import Any

from trial import MODES, PROGRAM, TIMES, TOP, Trial

from clio_tools.explain import program as explain_program
from clio_tools.csv import read_records, read_table
from clio_tools.mapping.tables import Table
from random_cases import random_case
from clio_tools.report import sections
from clio_tools.report.figures import Figures, SourceFigures, TargetFigures

EXAMPLES = ["blog", "contacts", "departments", "packages", "people", "routes", "standards", "teams"]
KINDS = {"rules": 10, "mixed": 8, "keyed": 6}
NULL = "glob '[?][0-9]*'"
CONVERSIONS: list[tuple[str, int, Callable[..., str]]] = [
    ("trim", 1, lambda text: str(text).strip(" ")),
    ("digits", 1, lambda text: "".join(one for one in text if one in "0123456789")),
    ("pair", 2, lambda one, other: f"{one} {other}")]


class Base:
    """The source and what the script of the plain mode makes of it, in SQLite."""

    def __init__(self, figures: Figures) -> None:
        self.base = sqlite3.connect(":memory:")
        for name, arity, convert in CONVERSIONS:
            self.base.create_function("clio_" + name, arity, convert)
        mapping = figures.mapping
        assert mapping is not None
        self.sides = {"source": mapping.source, "target": mapping.target}
        for number, table in enumerate(self.sides["source"]):
            self.make("raw", number, table.columns, list(read_records(f"{table.name}.csv"))[1:])
            self.run(f"CREATE TABLE source{number} AS SELECT DISTINCT * FROM raw{number}")
        for number, table in enumerate(self.sides["target"]):
            self.make("target", number, [*table.columns, "#rule"], [])
        self.make("fold", "", ["null", "value"], list(read_table("out/fold.csv", ["null", "value"])))
        self.run("CREATE INDEX of_fold ON fold (\"null\")")
        self.premises: dict[int, str] = {}
        said = subprocess.run([PROGRAM, "show"], capture_output=True, check=True).stdout.decode()
        for step in said.split("\n"):
            self.step(step)

    def run(self, query: str, values: Sequence[object] = ()) -> list[Any]:
        return self.base.execute(query, values).fetchall()

    def one(self, query: str) -> Any:
        return self.run(query)[0][0]

    def make(self, kind: str, number: int | str, columns: Sequence[str], rows: Iterable[Sequence[str]]) -> None:
        self.run(f"CREATE TABLE {kind}{number} ({', '.join(f'{chr(34)}{name}{chr(34)} TEXT' for name in columns)})")
        self.base.executemany(f"INSERT INTO {kind}{number} VALUES ({', '.join('?' * len(columns))})", rows)

    def named(self, text: str) -> str:
        """A part of the script with the tables and conversions as they are called here."""
        for side, tables in self.sides.items():
            for number, table in enumerate(tables):
                text = text.replace(f'{side}."{table.name}"', f"{side}{number}")
        return re.sub(r'"(trim|digits|pair)"\(', r"clio_\1(", text)

    def step(self, step: str) -> None:
        """Runs one step of the script."""
        match = re.fullmatch(r"CREATE TABLE m(\d+) AS SELECT DISTINCT (.*) (FROM source\..*);", step, re.DOTALL)
        insert = re.fullmatch(r"INSERT INTO (target\.\S+) SELECT (.*) FROM m(\d+) AS m;", step, re.DOTALL)
        if match:
            rule, select, premise = match[1], self.named(match[2]), self.named(match[3])
            columns = re.findall(r" AS (c\d+)", match[2])
            order = f"ORDER BY {', '.join(columns)}" if columns else ""
            self.run(f"CREATE TABLE m{rule} AS SELECT *, row_number() OVER ({order}) - 1 AS place FROM (SELECT "
                     f"DISTINCT {select} {premise})")
            self.premises[int(rule)] = premise
        elif insert:
            outs = re.sub(r"SKOLEM\((\d+), (\d+), m\.place\)", r"'?\1.\2.' || m.place", insert[2])
            outs = re.sub(r"^('(?:[^']|'')*'|m\.c\d+)(?=, |$)|(?<=, )('(?:[^']|'')*'|m\.c\d+)(?=, |$)", self.written,
                          outs)
            self.run(f"INSERT INTO {self.named(insert[1])} SELECT {outs}, '{insert[3]}' FROM m{insert[3]} AS m")

    def written(self, found: re.Match[str]) -> str:
        """A text as clio writes it."""
        return f"CASE WHEN substr({found[0]}, 1, 1) = '?' THEN '?' || {found[0]} ELSE {found[0]} END"

    def used(self, number: int) -> Any:
        """How many rows of a table of the source some match has."""
        parts = ["SELECT -1"]
        for premise in self.premises.values():
            parts += [f"SELECT {alias}.rowid {premise}"
                      for alias in re.findall(rf"source{number} AS (a\d+)\b", premise)]
        return self.one(f"SELECT count(*) FROM source{number} WHERE rowid IN ({' UNION '.join(parts)})")

    def folded(self, number: int, table: Table) -> str:
        """The rows of a table of the target after the fold, with their rules."""
        cells = ", ".join(f'coalesce((SELECT fold.value FROM fold WHERE fold."null" = t."{name}"), t."{name}") AS '
                          f'"{name}"' for name in table.columns)
        return f'(SELECT {cells}, "#rule" FROM target{number} AS t)'


class Tags(html.parser.HTMLParser):
    """The tags of a page."""

    def __init__(self) -> None:
        super().__init__()
        self.tags: set[str] = set()

    def handle_starttag(self, tag: str, attrs: list[tuple[str, str | None]]) -> None:
        self.tags.add(tag)


class Reports(Trial):
    def setUp(self) -> None:
        super().setUp()
        patched = unittest.mock.patch.object(explain_program, "program", lambda: PROGRAM)
        patched.start()
        self.addCleanup(patched.stop)

    @contextlib.contextmanager
    def there(self, folder: str) -> Iterator[None]:
        before = os.getcwd()
        os.chdir(folder)
        try:
            yield
        finally:
            os.chdir(before)

    def test_examples(self) -> None:
        for name in EXAMPLES:
            for words in MODES:
                with self.subTest(name), tempfile.TemporaryDirectory() as folder:
                    shutil.copytree(TOP / "examples" / name, folder, dirs_exist_ok=True)
                    with self.there(folder):
                        subprocess.run([PROGRAM, "exchange", *words], capture_output=True, check=True)
                        self.compare()

    def test_random(self) -> None:
        compared = 0
        for kind, most in KINDS.items():
            for number in range(most * TIMES):
                case = random_case(random.Random(f"report {kind} {number}"), kind)
                if any(name.endswith(".json") for name in case.files):
                    continue
                with self.subTest(f"{kind} {number}"), tempfile.TemporaryDirectory() as folder, self.there(folder):
                    for name, content in case.files.items():
                        pathlib.Path(name).write_bytes(content.encode() if isinstance(content, str) else content)
                    words = ["--core"] * (number % 2)
                    if not subprocess.run([PROGRAM, "exchange", *words], capture_output=True, check=False).returncode:
                        self.compare()
                        compared += 1
        self.assertGreater(compared, 5)

    def compare(self) -> None:
        """All figures of the exchange in the current folder."""
        figures = Figures()
        base = Base(figures)
        for number, source in enumerate(figures.source):
            self.compare_source(number, source, base)
        for rule, premise in base.premises.items():
            self.assertEqual(figures.matches[rule].number, base.one(f"SELECT count(*) {premise}"))
            self.assertEqual(len(figures.matches[rule].found), base.one(f"SELECT count(*) FROM m{rule}"))
        for number, target in enumerate(figures.target):
            self.compare_target(number, target, base)
        fates = [fate for fate in figures.variables.values()]
        self.assertEqual(sum(count for fate in fates for kind, count in fate.items() if kind != "stay"),
                         base.one("SELECT count(*) FROM fold"))
        if figures.is_plain:
            self.assertEqual(sum(figures.by_key.values()), len(figures.fold))

    def compare_source(self, number: int, one: SourceFigures, base: Base) -> None:
        """A table of the source."""
        self.assertEqual(one.rows.records, base.one(f"SELECT count(*) FROM raw{number}"))
        self.assertEqual(len(one.rows.rows), base.one(f"SELECT count(*) FROM source{number}"))
        self.assertEqual(one.rows.records, one.rows.repeats + len(one.rows.rows))
        self.assertEqual(sum(one.used), base.used(number))
        self.assertEqual(len(one.rows.rows), sum(one.used) + len(one.not_used))
        self.assertEqual(sum(one.reasons.values()), len(one.not_used))

    def compare_target(self, number: int, one: TargetFigures, base: Base) -> None:
        """A table of the target."""
        listed = ", ".join(f'"{name}"' for name in one.table.columns)
        self.assertEqual(one.asked, base.one(f"SELECT count(*) FROM target{number}"))
        distinct_rows = f"SELECT DISTINCT {listed} FROM target{number}"
        self.assertEqual(one.different, base.one(f"SELECT count(*) FROM ({distinct_rows})"))
        rows = base.run(f'SELECT {listed}, group_concat(DISTINCT "#rule") FROM {base.folded(number, one.table)} GROUP '
                        f'BY {listed}')
        masks: dict[int, int] = {}
        for row in rows:
            mask = sum(1 << int(rule) for rule in row[-1].split(","))
            masks[mask] = masks.get(mask, 0) + 1
        self.assertEqual(dict(one.by_rules), masks)
        self.assertEqual(one.written, len(list(read_table(f"out/{one.table.name}.csv", one.table.columns))))
        self.assertTrue(one.written <= one.after_keys <= one.different <= one.asked)
        for name, column in zip(one.table.columns, one.columns):
            distinct = f"(SELECT DISTINCT {listed} FROM {base.folded(number, one.table)})"
            for counted, where in (column["nulls"], f'"{name}" {NULL}'), (column["empty"], f"\"{name}\" = ''"):
                self.assertEqual(counted, base.one(f"SELECT count(*) FROM {distinct} WHERE {where}"))
            self.assertEqual(column["different"], base.one(f'SELECT count(DISTINCT "{name}") FROM {distinct} WHERE '
                                                           f'"{name}" {NULL}'))
            self.assertEqual(column["texts"] + column["empty"] + column["nulls"], one.written)

    def test_page(self) -> None:
        """Texts that look like HTML, control characters, and rows that no rule used."""
        self.file("mapping.clio", "mapping 1; source { set a { x, y; ref (y) -> b (z); } set b { z; } set c { x; } } "
                                  "target { set t { u, v; } } line a.x -> t.u;")
        self.file("a.csv", "x,y\n<script>,1\n\"\x1b[31m\n\",2\n" + "".join(f"{number},3\n" for number in range(50)))
        self.file("b.csv", "z\n1\n2\n")
        self.file("c.csv", "x\n<b>\n<b>\n")
        self.assertEqual(self.clio("exchange")[0], 0)
        page = self.printed_with_clio()
        reader = Tags()
        reader.feed(page)
        self.assertFalse({"script", "b", "link", "img"} & reader.tags)
        self.assertNotRegex(page, "https?://(?!www.w3.org/2000/svg)|[\x00-\x08\x0b-\x1f]")
        self.assertIn("no row of b matches its (y)", page)
        self.assertIn("50 rows; the first 20", page)
        self.assertEqual(len(list(read_records(self.folder / "out" / "not-used-a.csv"))), 51)
        self.assertEqual(list(read_records(self.folder / "out" / "not-used-c.csv")),
                         [["where", "x"], ["line 2", "<b>"]])

    def printed_with_clio(self) -> str:
        """The page, with the program on the path."""
        before = os.environ["PATH"]
        os.symlink(PROGRAM, self.folder / "clio")
        os.environ["PATH"] = f"{self.folder}{os.pathsep}{before}"
        try:
            return self.printed("clio-report")
        finally:
            os.environ["PATH"] = before

    def test_documents(self) -> None:
        """Rows of documents are named by their paths."""
        self.file("mapping.clio", "mapping 1; source { set a { x; set b { y; ref (y) -> c (z); } } set c { z; } } "
                                  "target { set t { u, v; } } line a.x -> t.u; line b.y -> t.v;")
        self.file("a.json", '[{"x": "1", "b": [{"y": "p"}, {"y": "q"}]}, {"x": "2", "b": []}]')
        self.file("c.csv", "z\np\n")
        self.assertEqual(self.clio("exchange")[0], 0)
        self.assertIn("/0/b/1", self.printed_with_clio())
        self.assertEqual(list(read_records(self.folder / "out" / "not-used-b.csv")), [["where", "y"], ["/0/b/1", "q"]])

    def test_dependencies(self) -> None:
        """A null that a dependency replaced counts for it. The rules and files are written by hand."""
        self.file("mapping.clio", "mapping 3; source { set a { who, zip; } set b { zip, town; } } target { set addr { "
                                  "who, town, zip; dep (zip) -> (town); } }"
                                  "line a.who -> addr.who; line a.zip -> addr.zip; line b.zip -> addr.zip; line b.town "
                                  "-> addr.town;")
        rules = [b"rule a(x0, x1) -> addr(x0, y0, x1);\n", b"rule b(x0, x1) -> addr(y0, x1, x0);\n"]
        files: list[tuple[str, str | bytes]] = [
            ("a.csv", "who,zip\nann,10\n"), ("b.csv", "zip,town\n10,Rome\n"), ("out/rules.txt", b"".join(rules)),
            ("out/addr.csv", "who,town,zip\nann,Rome,10\n?1.0.0,Rome,10\n"),
            ("out/fold.csv", "null,value\n?0.0.0,Rome\n")]
        for name, content in files:
            self.file(name, content)
        with (unittest.mock.patch.object(explain_program, "printed_rules", return_value=rules),
              contextlib.chdir(self.folder)):
            figures = Figures()
            page = "".join([*sections.target(figures), *sections.nulls(figures)])
        self.assertEqual(figures.variables, {(0, 0): {("key", "text"): 1}, (1, 0): {"stay": 1}})
        told = " ".join(re.sub("<[^>]*>", " ", html.unescape(page)).split())
        self.assertIn("addr dependency (zip) -> (town) 1 all 1", told)
        self.assertIn("merged by keys and dependencies", told)
        self.assertIn("addr 2 0 0 0 2", told)

    def test_a_file_with_two_names(self) -> None:
        """A drawing has a second name of a file for its tests: the columns of the file are counted once."""
        self.file("drawing.clio", """mapping 2;
source { set e { no, tax, note; } }
target { set p { no, tax; key (no); key (tax); } }
rows p from e;
line e.no -> p.no;
line e.tax -> p.tax where tax filled;
""")
        self.file("e.csv", "no,tax,note\n1,,x\n2,7,y\n3,,z\n")
        self.printed("clio-rules", "--write")
        self.assertEqual(self.clio("exchange")[0], 0)
        page = self.printed("clio-report")
        self.assertIn("1 column of the source goes nowhere.", page)
        self.assertEqual(re.findall("No rule uses <code>([^<]*)", page), ["note"])

    def test_refusals(self) -> None:
        self.refused("clio-report", "a", "b", why="usage")
        self.refused("clio-report", why="mapping.clio: No such file")
        self.file("mapping.clio", "mapping 1; source { set a { x; } } target { set t { u; } } line a.x -> t.u;")
        self.file("a.csv", "x\n1\n")
        self.refused("clio-report", why="out/rules.txt: No such file")
        self.assertEqual(self.clio("exchange")[0], 0)
        self.file("a.csv", "x\n1\n2\n")
        self.refused("clio-report", why="out/t.csv doesn't have what the rules make")
        self.file("out/nulls.csv", "id,variable,value\n")
        self.refused("clio-report", why="out has the numbers of clio-ids")


if __name__ == "__main__":
    unittest.main()
