"""clio-explain judge: all differences of a target that was edited by hand, table by table; which rows say more. And
clio-explain compare: the rule that says more, with its rows. Expected lines are worked out by hand."""
import csv
import os
import pathlib
import random
import re
import shutil
import subprocess
import tempfile
import unittest

from random_cases import random_case
from trial import PROGRAM, TIMES, TOP, Trial

from clio_tools.explain.alignment import Alignment
from clio_tools.explain.differences import differences
from clio_tools.explain.endings import explained
from clio_tools.mapping.meaning import read_mapping

EDITS = {  # of the shop's target: a row of a table, as it is and as it is made
    "person": [("?1.0.1,Bob Orr,bob@example.org", "?1.0.1,Bob Orr,bob@example.com"),
               ("?1.0.2,Kim Day,kim@example.org", "")],
    "article": [('?0.0.0,I-01,"Ink, blue",4.5', '?0.0.0,I-01,"Ink, blue",4.50'), ("", "?9.0.0,Z-99,Glue,1")],
    "purchase": [("103,2026-03-05,?1.0.0", "103,2026-03-05,?1.0.1"), ("102,2026-03-02,?1.0.1", "102,?9.0.1,?1.0.1"),
                 ("", "109,2026-05-01,?1.0.0")],
    "bought": [("101,?0.0.2,1", ""), ("103,?0.0.0,5", "103,?0.0.0,50"), ("", "109,?0.0.0,1")],
}
WANTED = [
    "person: 1 row is missing; 1 row differs",
    '   missing: full_name = "Kim Day", mail = "kim@example.org", by rule 1 from customer.csv, line 4 (record 3)',
    '   line 3 (mail = "bob@example.com"): mail is "bob@example.com" and must be "bob@example.org", by rule 1 from'
    " customer.csv, line 3 (record 2)",
    "article: 1 row differs; 1 row is there that nothing asks for",
    '   line 2 (code = "I-01"): price is "4.50" and must be "4.5", by rule 0 from product.csv, line 2 (record 1)',
    '   nothing asks for line 6: aid = ?9.0.0, code = "Z-99", title = "Glue", price = "1"',
    "purchase: 2 rows differ; 1 row is there that nothing asks for",
    '   line 3 (number = "102"): day is ?9.0.1 and must be "2026-03-02", by rule 2 from order.csv, line 3 (record 2)'
    " and customer.csv, line 3 (record 2)",
    '   line 4 (number = "103"): pid is ?1.0.1 and must be ?1.0.0, by rule 2 from order.csv, line 4 (record 3)'
    " and customer.csv, line 2 (record 1)",
    '   nothing asks for line 5: number = "109", day = "2026-05-01", pid = ?1.0.0',
    "bought: 1 row is missing; 1 row differs; 1 row is there that nothing asks for",
    '   missing: number = "101", quantity = "1", by rule 3 from order_item.csv, line 3 (record 2) and order.csv, line 2'
    " (record 1) and customer.csv, line 2 (record 1) and product.csv, line 4 (record 3)",
    '   line 4: quantity is "50" and must be "5", by rule 3 from order_item.csv, line 6 (record 5) and order.csv,'
    " line 4 (record 3) and customer.csv, line 2 (record 1) and product.csv, line 2 (record 1)",
    '   nothing asks for line 6: number = "109", aid = ?0.0.0, quantity = "1"',
]


class Folder(Trial):
    """A folder in which clio ran, with the program on the path; explanations are of the current folder."""

    def setUp(self) -> None:
        super().setUp()
        bin_folder = self.folder / "bin"
        bin_folder.mkdir()
        (bin_folder / "clio").symlink_to(PROGRAM)
        before, here = os.environ["PATH"], os.getcwd()
        os.environ["PATH"] = f"{bin_folder}{os.pathsep}{before}"
        self.addCleanup(os.environ.__setitem__, "PATH", before)
        self.addCleanup(os.chdir, here)
        os.chdir(self.folder)


class Judged(Folder):
    """clio-explain judge."""

    def verdict(self) -> str:
        """The verdict of clio."""
        return self.clio("judge")[1].strip()

    def shop(self) -> None:
        """The shop, with its own target as the given one."""
        for name in "make-shop", "mapping.clio":
            shutil.copy(TOP / "examples" / "shop" / name, self.folder / name)
        subprocess.run(["./make-shop"], cwd=self.folder, check=True)
        self.printed("clio-draft", "sqlite", "shop.db", "--data", ".", "--mapping", "mapping.clio")
        self.assertEqual(self.clio("exchange")[0], 0)
        shutil.copytree(self.folder / "out", self.folder / "given")

    def edit(self, name: str, before: str, after: str) -> None:
        """Changes a line of a given table, takes it out, or puts one behind the others."""
        path = self.folder / "given" / f"{name}.csv"
        text = path.read_text()
        if not before:
            path.write_text(text + after + "\n")
            return
        self.assertIn(f"{before}\n", text)
        path.write_text(text.replace(f"{before}\n", f"{after}\n" if after else ""))

    def test_ten_edits(self) -> None:
        """All of ten edits by hand are listed at once, each in its table."""
        self.shop()
        for name, edits in EDITS.items():
            for before, after in edits:
                self.edit(name, before, after)
        self.assertIn("not a solution", self.verdict())
        said = list(explained(0, "", ["judge"]))
        begin = next(place for place, line in enumerate(said) if line.startswith("person: "))
        self.assertEqual(said[begin:], WANTED)

    def test_bounds(self) -> None:
        """Of each kind five, and how many more there are, unless all are asked for."""
        self.shop()
        for number in range(8):
            self.edit("article", "", f"?9.0.{number},Z-{number},Glue,1")
        self.assertEqual(self.verdict(), "verdict solution")
        said = self.tool("clio-explain", "judge")
        self.assertEqual(said[:2], (0, "verdict solution\n"))
        lines = said[2].splitlines()
        self.assertEqual(lines[0], "clio-explain: article: 8 rows are there that nothing asks for")
        self.assertEqual(lines[6:], ["clio-explain:    and 3 more; clio-explain judge --all lists all"])
        said = self.tool("clio-explain", "judge", "--all")
        self.assertEqual((said[:2], len(said[2].splitlines())), ((0, "verdict solution\n"), 9))

    def test_broken_keys_and_links(self) -> None:
        """All keys and links that don't hold are listed, not the first one alone."""
        self.shop()
        self.edit("person", "", "?1.0.1,Bob Or,other@example.org")
        self.edit("article", "", '?9.0.0,I-01,"Ink, blue",9')
        self.edit("bought", "", "777,?0.0.0,1")
        self.edit("bought", "", "101,?7.7.7,1")
        said = "\n".join(explained(0, "", ["judge"]))
        for wanted in ["two rows of person agree on (pid) and differ in full_name, mail:",
                       "two rows of article agree on (code) and differ in aid, price:",
                       "1 row of bought leads nowhere by (number) -> purchase (number):",
                       "1 row of bought leads nowhere by (aid) -> article (aid):"]:
            self.assertEqual(said.count(wanted), 1, said)

    def test_says_more(self) -> None:
        """Of a solution the texts that nobody gave, and the values that nothing makes one."""
        for path in (TOP / "examples" / "audit").iterdir():
            if path.is_file():
                shutil.copy(path, self.folder / path.name)
        (self.folder / "given").mkdir()
        self.file("given/sale.csv", "number,day,client\n1001,2026-03-02,?0.0.0\n1002,2026-03-02,?0.0.1\n"
                                    "1003,2026-03-03,?0.0.2\n1004,2026-03-03,?0.0.0\n1005,2026-03-04,?0.0.1\n")
        self.file("given/client.csv", "cid,name\n?0.0.0,Ann Ore\n?0.0.2,Bob Orr\n?0.0.1,walk-in\n")
        self.assertEqual(self.verdict(), "verdict solution")
        self.assertEqual(list(explained(0, "", ["judge"])), [
            "sale: 1 row has a value that other rows share",
            "   nothing makes ?0.0.1 one value in sale.client in line 3, sale.client in line 6, client.cid in line 4",
            "client: 1 row has a text that nobody gave",
            '   nobody gave client.name: "walk-in" in line 4'])
        self.file("given/client.csv", "cid,name\n?0.0.0,Ann Ore\n?0.0.2,Bob Orr\n?0.0.1,?0.0.3\n?0.0.4,?0.0.5\n")
        self.file("given/sale.csv", (self.folder / "given" / "sale.csv").read_text().replace("04,?0.0.1", "04,?0.0.4"))
        self.assertEqual(self.verdict(), "verdict core")
        self.assertEqual(list(explained(0, "", ["judge"])), [])
        numbers = {"?0.0.0": "1", "?0.0.1": "2", "?0.0.2": "3", "?0.0.4": "4"}
        for name in "sale", "client":
            text = (self.folder / "given" / f"{name}.csv").read_text()
            for null, number in numbers.items():
                text = text.replace(null, number)
            self.file(f"given/{name}.csv", text)
        said = list(explained(0, "", ["judge"]))
        self.assertIn('client.cid: "1" in line 2, "3" in line 3, "2" in line 4, and 1 more; if they are made up, '
                      "as by a sequence: clio-given .. --surrogate client.cid", "\n".join(said))

    def test_clash(self) -> None:
        """If the sources contradict each other, that is said."""
        self.file("mapping.clio", "mapping 1; source { set a { x, y; } } target { set b { u, v; key (u); } }"
                  " line a.x -> b.u; line a.y -> b.v;")
        self.file("a.csv", "x,y\n1,2\n1,3\n")
        self.file("given/b.csv", "u,v\n1,2\n")
        self.assertIn("no target is right, since the sources contradict each other: clio-explain exchange says how",
                      list(explained(0, "", ["judge"])))

    def test_random(self) -> None:
        """Nothing differs in a target itself; a row less, or more, is named."""
        counts = [0, 0, 0]
        for kind in "keyed", "lines", "rules", "dependent":
            for number in range(5 * TIMES):
                chance = random.Random(f"differences {kind} {number}")
                case = random_case(chance, kind)
                with self.subTest(f"{kind} {number}"), tempfile.TemporaryDirectory() as name:
                    folder = pathlib.Path(name)
                    for file, content in case.files.items():
                        (folder / file).write_bytes(content.encode() if isinstance(content, str) else content)
                    command = [PROGRAM, "exchange"]
                    if subprocess.run(command, cwd=folder, capture_output=True, check=False).returncode == 0:
                        self.try_random(folder, chance, counts)
        self.assertGreater(min(counts), 3 * TIMES, counts)

    def try_random(self, folder: pathlib.Path, chance: random.Random, counts: list[int]) -> None:
        """One random target, taken as it is, then with a row less, then with one more."""
        tables = read_mapping((folder / "mapping.clio").read_bytes()).target
        asked = []
        for table in tables:
            with open(folder / "out" / f"{table.name}.csv", newline="", encoding="utf-8") as file:
                asked.append([tuple(row) for row in csv.reader(file) if row][1:])
        self.assertFalse(any(one.is_any() for one in differences(Alignment(tables, asked, asked))))
        full = [number for number, rows in enumerate(asked) if rows]
        if not full:
            return
        counts[0] += 1
        number = chance.choice(full)
        row = chance.choice(asked[number])
        texts = [value for value in row if value[:1] != "?" or value[1:2] == "?"]
        rest = [other for other in asked[number] if other != row]
        if texts and not any(all(value in other for value in texts) for other in rest):
            found = differences(Alignment(tables, asked, [*asked[:number], rest, *asked[number + 1:]]))
            self.assertTrue(found[number].missing or found[number].changed, (row, found[number]))
            counts[1] += 1
        more = [*asked[number], tuple(f"new {column}" for column in tables[number].columns)]
        found = differences(Alignment(tables, asked, [*asked[:number], more, *asked[number + 1:]]))
        self.assertEqual(found[number].extra, [len(asked[number])])
        counts[2] += 1


class Compared(Folder):
    """clio-explain compare."""

    def compared(self, first: str, second: str) -> list[str]:
        """What is said of two mappings."""
        self.file("mapping.clio", first)
        self.file("other.clio", second)
        self.assertEqual(self.clio("compare")[0], 0)
        before = self.written()
        said = list(explained(0, "", ["compare"]))
        self.assertEqual(before, self.written())
        return said

    def written(self) -> dict[pathlib.Path, bytes]:
        """What is in `out`."""
        out = self.folder / "out"
        return {path: path.read_bytes() for path in out.iterdir()} if out.exists() else {}

    def test_compare(self) -> None:
        text = (TOP / "examples" / "teams" / "mapping.clio").read_text()
        self.assertEqual(self.compared(text, text), ["the two mappings say the same, for all data"])
        less = text.replace("line dept.city -> team.town;", "")
        wanted = [
            "all that other.clio says follows from mapping.clio, which says more",
            "rule 0 of mapping.clio doesn't follow from other.clio: rule emp(x0, x1), dept(x1, x2) ->"
            " person(x0, y0, y1), team(y1, x1, x2);",
            "   source rows, in which v0, v1 and so on can be any texts:",
            '      emp: name = "v0", dept = "v1"', '      dept: dname = "v1", city = "v2"',
            "   other.clio makes of them:",
            '      team: tid = ?0.1.0, label = "v1", town = ?0.2.0',
            '      team: tid = ?1.0.0, label = "v1", town = ?1.1.0',
            '      person: name = "v0", phone = ?0.0.0, team = ?0.1.0',
            '   the rule asks for a row of team with label = "v1", town = "v2", which isn\'t there',
            '      nearest: tid = ?0.1.0, label = "v1", town = ?0.2.0; it differs in town']
        self.assertEqual(self.compared(text, less), wanted)
        names = {"mapping.clio": "other.clio", "other.clio": "mapping.clio"}
        turned = [re.sub("mapping.clio|other.clio", lambda name: names[str(name[0])], line) for line in wanted]
        self.assertEqual(self.compared(less, text), turned)

    def test_compare_bounds(self) -> None:
        """Of each side twelve rows, and how many more there are; or all."""
        sides = "mapping 1; source { set a { x, y; } } target { set b { u, v; } }\n"
        left = ", ".join(f"a(x{number}, x{number + 1})" for number in range(20))
        self.file("mapping.clio", f"{sides}rule {left} -> b(x0, x20);")
        self.file("other.clio", sides)
        self.assertEqual(self.clio("compare")[0], 0)
        said = self.tool("clio-explain", "compare")[2]
        self.assertEqual(said.count("       a: x = "), 12)
        self.assertIn("\nclio-explain:       and 8 more; clio-explain compare --all lists all\n", said)
        status, printed, said = self.tool("clio-explain", "compare", "--all")
        self.assertEqual((status, printed), self.clio("compare"))
        self.assertEqual(said.count("       a: x = "), 20)

    def test_compare_joins(self) -> None:
        """Rows that are there, and not joined as a rule asks; a mapping that makes nothing; texts that begin with v."""
        sides = "mapping 1; source { set a { x, y; } } target { set b { u, v; } set c { v, w; } }\n"
        said = self.compared(sides + 'rule a(x, y) -> b(x, z), c(z, "v0");',
                             sides + 'rule a(x, y) -> b(x, z), c(q, "v0");')
        self.assertEqual(said[-1], "   each row that the rule asks for is there, but not joined as it asks: "
                                   "by b.v, c.v")
        self.assertIn('      a: x = "vv0", y = "vv1"', said)
        said = self.compared(sides, sides + "rule a(x, x) -> b(x, x);")
        self.assertEqual(said[0], "all that mapping.clio says follows from other.clio, which says more")
        self.assertIn("   mapping.clio makes nothing of them", said)
        said = self.compared(sides + "rule a(x, y) -> b(x, z);", sides + "rule a(x, y) -> b(y, z);")
        self.assertEqual(said[0], "each of the two mappings says something that the other doesn't")
        self.assertEqual([line for line in said if line.startswith("rule ")], [
            "rule 0 of other.clio doesn't follow from mapping.clio: rule a(x0, x1) -> b(x1, y0);",
            "rule 0 of mapping.clio doesn't follow from other.clio: rule a(x0, x1) -> b(x0, y0);"])


if __name__ == "__main__":
    unittest.main()
