"""clio-explain: what it passes on is clio's, what it says is what each case wants, and its chase is tried against clio.

    python3 tests/test_explain.py large    at clio's limits, some minutes
"""
import contextlib
import csv
import os
import pathlib
import random
import subprocess
import sys
import tempfile
import unittest
from collections.abc import Iterable, Iterator

from explain_cases import CASES, LARGE_CASES, TOLD, Case, Files
from trial import PROGRAM, TIMES, TOOLS

from clio_tools.csv import ends_open, records
from clio_tools.explain.clashes import FORM, Clashes, plain
from clio_tools.explain.endings import explained
from clio_tools.explain.joins import Matches
from clio_tools.explain.key_chase import Canonical, KeyChase
from clio_tools.explain.pieces import printed
from clio_tools.explain.program import mapping_of
from clio_tools.explain.said import visible
from clio_tools.explain.source import Source
from chase import Chase
from matches import canonical, places_of
from random_cases import random_case
from refusals import Limit as LimitPassed, TooLong
from values import value_text as wanted_text

WHOLE = 9  # of so many cases one is tried by the tool itself, the others by the part that explains
RANDOM = {"rules": 12, "lines": 8, "mixed": 10, "keyed": 10}


def run(command: list[str | os.PathLike[str]]) -> subprocess.CompletedProcess[bytes]:
    """Runs a command in the current folder."""
    return subprocess.run(command, stdin=subprocess.DEVNULL, capture_output=True, check=False)


def make(files: Files) -> None:
    """Writes the files of a case; None is a folder, a text that begins with -> a link, and | a pipe."""
    for name, content in files.items():
        path = pathlib.Path(name)
        path.parent.mkdir(exist_ok=True)
        content = content() if callable(content) else content
        if content is None:
            path.mkdir()
        elif isinstance(content, str) and content.startswith("->"):
            path.symlink_to(content[2:])
        elif content == "|":
            os.mkfifo(path)
        else:
            path.write_bytes(content.encode() if isinstance(content, str) else content)


def value_text(value: str | tuple[int, int, int]) -> str:
    """A value of the chase as clio writes it."""
    return "?%d.%d.%d" % value if isinstance(value, tuple) else "?" + value if value.startswith("?") else value


class Explain(unittest.TestCase):
    """Runs with the program on the path, each case in a folder of its own."""

    def setUp(self) -> None:
        kept = tempfile.TemporaryDirectory()
        self.addCleanup(kept.cleanup)
        os.symlink(PROGRAM, os.path.join(kept.name, "clio"))
        before = os.environ["PATH"]
        os.environ["PATH"] = kept.name + os.pathsep + before
        self.addCleanup(os.environ.__setitem__, "PATH", before)

    @contextlib.contextmanager
    def there(self, files: Files) -> Iterator[None]:
        """A new folder with files is the current one."""
        before = os.getcwd()
        with tempfile.TemporaryDirectory() as name:
            os.chdir(name)
            try:
                make(files)
                yield
            finally:
                os.chdir(before)

    def try_said(self, text: str, wanted: Iterable[str]) -> None:
        """The wanted words are said in this order, and nothing that a terminal would take as a command."""
        place = 0
        for one in wanted:
            place = text.find(one, place)
            self.assertGreaterEqual(place, 0, f"`{one}` is not said in its place:\n{text[:3000]}")
        self.assertTrue(all(one.isprintable() or one == "\n" for one in text), text[:3000])

    def test_messages(self) -> None:
        """Messages of commands and of a version that a program need not know yet."""
        for case in TOLD:
            with self.subTest(case.name), self.there(case.files):
                self.try_said("".join(line + "\n" for line in explained(case.status, case.message, list(case.words))),
                              case.wanted)

    def test_dependencies(self) -> None:
        """The target of random mappings with dependencies is that of another chase, and so are clashes."""
        counts = {True: 0, False: 0}
        for number in range(60 * TIMES):
            case = random_case(random.Random(f"explain dependent {number}"), "dependent")
            try:
                rules, _ = case.mapping.rule_list()
            except (LimitPassed, TooLong):
                continue
            with self.subTest(number), self.there(case.files):
                source = Source(case.mapping)
                rows = Canonical(rules, [Matches(rule, source) for rule in rules], case.mapping.target).rows
                chase = KeyChase(rows, case.mapping.target)
                other = Chase(canonical(places_of(rules, case.instance)), case.mapping.target)
                clashes = chase.clashes()
                self.assertEqual(bool(clashes), other.clash)
                counts[other.clash] += 1
                if not clashes:
                    made = {(table, tuple(value_text(chase.value(value)) for value in row)) for table,
                            listed in enumerate(rows) for row in listed}
                    self.assertEqual(made, {(fact.table, tuple(map(wanted_text, fact.row)))
                                            for fact in other.instance()})
        self.assertGreaterEqual(min(counts.values()), 3, counts)

    def try_case(self, case: Case, is_whole: bool) -> None:
        """The wanted words in this order; if asked for, by the tool itself."""
        with self.subTest(case.name), self.there(case.files):
            own = run(["clio", *case.words])
            self.assertEqual(own.returncode, case.status, own.stderr[:500])
            if is_whole:
                text = self.passed_on(case, own)
            else:
                message = own.stderr.decode("utf-8", "surrogateescape").removesuffix("\n")
                text = "".join(line + "\n" for line in explained(own.returncode, message, list(case.words)))
            self.try_said(text, case.wanted)

    def passed_on(self, case: Case, own: subprocess.CompletedProcess[bytes]) -> str:
        """What clio-explain says after clio's message, in which control characters are escapes; all else must be as
        clio has it.
        """
        told = run([sys.executable, TOOLS / "clio-explain", *case.words])
        self.assertEqual((own.returncode, own.stdout), (told.returncode, told.stdout))
        message = own.stderr.decode("utf-8", "surrogateescape").removesuffix("\n")
        said = f"{message if own.returncode == 2 else visible(message)}\n" * bool(message)
        self.assertTrue(told.stderr.decode().startswith(said))
        text = told.stderr.decode()[len(said):]
        self.assertNotIn("no more can be said", text)
        return text.replace("\n  ", "\n").removeprefix("  ")

    def test_cases(self) -> None:
        for place, case in enumerate(CASES):
            self.try_case(case, place % WHOLE == 0)

    def test_output_is_closed(self) -> None:
        with self.there(CASES[-1].files):
            told = subprocess.run(f"'{sys.executable}' '{TOOLS / 'clio-explain'}' exchange >&-", shell=True,
                                  capture_output=True, check=False)
            self.assertEqual(told.returncode, 8)
            self.assertIn(b"all 5 files are written; what is printed could not be\n  standard output is closed",
                          told.stderr)

    def test_failure_to_explain(self) -> None:
        """A mapping of a later version is passed on; what can't be read isn't explained."""
        with self.there({"mapping.clio": "mapping 2;"}):
            self.assertEqual(run([sys.executable, TOOLS / "clio-explain", "show"]).returncode,
                             run(["clio", "show"]).returncode)

    def test_empty_key(self) -> None:
        """A hundred rows that meet in an empty key take a line for each column, and the rows of two texts."""
        names = ["a", "b", "c", "d", "e", "f"]
        mapping = (f"mapping 1; source {{ set s {{ k, {', '.join(names)}; }} }} target {{ set t {{ k, {', '.join(names)}; key (k); }} }} "
                   + " ".join(f"line s.{name} -> t.{name};" for name in ["k", *names]))
        rows = "".join("," + ",".join(f"{name}{number}" for name in names) + "\n" for number in range(100))
        with self.there({"mapping.clio": mapping, "s.csv": ",".join(["k", *names]) + "\n" + rows}):
            ran = run([sys.executable, TOOLS / "clio-explain", "exchange"])
        self.assertEqual(ran.returncode, 3)
        said = ran.stderr.decode()
        self.assertIn("6 clashes in all", said)
        self.assertIn("k is empty in these rows", said)
        self.assertLess(len(said.splitlines()), 15, said)

    def test_open_quotes(self) -> None:
        for content, wanted in [(b'x\n"a', True), (b'x\n"a"', False), (b'x\n"a""', True), (b'x\na"', False),
                                (b'x\n"a\n\n', True), (b"", False), (b'"a"b"', False)]:
            self.assertEqual(ends_open(content), wanted, content)

    def test_random(self) -> None:
        counts = {0: 0, 3: 0}
        for kind, most in RANDOM.items():
            for number in range(most * TIMES):
                case = random_case(random.Random(f"explain {kind} {number}"), kind)
                with self.subTest(f"{kind} {number}"), self.there(case.files):
                    self.try_random(counts)
        self.assertGreaterEqual(min(counts.values()), 3, counts)

    def test_verdicts(self) -> None:
        """Something is said of each random target with a row less or a value changed exactly if it is no solution, or
        says more."""
        counts = {True: 0, False: 0}
        for kind in "keyed", "lines", "rules":
            for number in range(8 * TIMES):
                chance = random.Random(f"verdict {kind} {number}")
                with self.subTest(f"{kind} {number}"), self.there(random_case(chance, kind).files):
                    if run(["clio", "exchange"]).returncode == 0:
                        pathlib.Path("out").rename("given")
                        self.damage(chance)
                        broken = b"solution" in run(["clio", "judge"]).stdout
                        said = list(explained(0, "", ["judge"]))
                        self.assertEqual(bool(said), broken, said)
                        self.assertTrue(all(line.isprintable() for line in said))
                        counts[broken] += 1
        self.assertGreaterEqual(min(counts.values()), 3, counts)

    def damage(self, chance: random.Random) -> None:
        """Takes a row out of a given table, or changes one of its values."""
        path = chance.choice([path for path in sorted(pathlib.Path("given").glob("*.csv"))
                              if path.name not in ("nulls.csv", "fold.csv")])
        header, *rows = [fields for _, fields in records(path.read_bytes())]
        if rows:
            row = rows.pop(chance.randrange(len(rows)))
            if chance.random() < .6:
                row[chance.randrange(len(row))] = chance.choice(["?9.9.9", "a", ""])
                rows.append(row)
        with open(path, "w", newline="", encoding="utf-8") as file:
            csv.writer(file, lineterminator="\n").writerows([header, *rows])

    def try_random(self, counts: dict[int, int]) -> None:
        """A clash exactly if clio ends with 3, and else the same target."""
        ended = run(["clio", "exchange"])
        if ended.returncode not in counts:
            return
        mapping, printed = mapping_of(pathlib.Path("mapping.clio").read_bytes())
        assert mapping is not None
        found = Clashes(mapping, printed)
        self.assertEqual(bool(found.clashes), ended.returncode == 3)
        counts[ended.returncode] += 1
        if found.clashes:
            self.try_clash(found, ended.stderr.decode()[:-1])
        else:
            self.try_target(found)

    def try_clash(self, found: Clashes, message: str) -> None:
        """The clash that clio tells is the first that is listed."""
        told, first = FORM.fullmatch(message), found.ordered(message)[0]
        assert told is not None
        self.assertEqual(found.names(first), (told[1], told[2].split(", "), told[5]))
        self.assertLessEqual({plain(told[3]), plain(told[4])}, set(first.texts))
        self.assertTrue(all(line.isprintable() for line in printed(found.pieces(message))))

    def try_target(self, found: Clashes) -> None:
        """The rows after the chase are those that clio wrote."""
        for number, table in enumerate(found.mapping.target):
            made = {tuple(value_text(found.chase.value(value)) for value in row)
                    for row in found.canonical.rows[number]}
            written = list(records(pathlib.Path("out", table.name + ".csv").read_bytes()))[1:]
            self.assertEqual(made, {tuple(fields) for _, fields in written})


class Large(Explain):
    """The cases at clio's limits."""

    def test_cases(self) -> None:
        for case in LARGE_CASES:
            self.try_case(case, True)


def load_tests(loader: unittest.TestLoader, _tests: object, _pattern: object) -> unittest.TestSuite:
    """The cases at the limits are left out unless they are asked for."""
    return loader.loadTestsFromTestCase(Explain)


if __name__ == "__main__":
    if sys.argv[1:] == ["large"]:
        sys.exit(not unittest.TextTestRunner(verbosity=2).run(Large("test_cases")).wasSuccessful())
    unittest.main()
