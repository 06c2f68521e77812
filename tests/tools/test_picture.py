"""clio-picture: each line, ref, set and rule is drawn, nothing lies over another, and the order of the sets makes few
crossings.
"""
import itertools
import random
import unittest
import xml.etree.ElementTree as tree

from trial import TIMES, Trial

from clio_tools.draw.pictures import picture
from clio_tools.picture.ordering import crossings, ordered
from clio_tools.picture.boxes import Box, stacked
from clio_tools.picture.lines import Refs
from random_cases import random_case
from clio_tools.mapping.meaning import read_mapping
from clio_tools.mapping.tables import Table
from clio_tools.picture.whole import Picture

SPACE = "{http://www.w3.org/2000/svg}"
HOSTILE = """mapping 1;
source { set a { x, y, %s; } set set { key, ref; } }
target { set b { x, y, z; key (x, y); key (z); set inner { %s; key (%s); } } }
line "<&>\\"'\\\\ \ufffe \u202e ]]> %s" -> b.x;
line pair(a.x, set.key) -> b.y;
line trim(a.x) -> b.y;
line a.y -> inner.%s;
rule a(p, q, p), set(q, q) where t = digits(q) -> b(i, "</svg>", t, n), inner(i, n), b(i, p, q, n);
""" % (*["n" * 70] * 3, "long" * 50, "n" * 70)
FILTERED = """mapping 2;
source {
  set emp { ename, pay, dept, boss; ref (dept) -> dept (dname) optional; ref (boss) -> dept (dname);
    set mail { mname; } }
  set dept { dname; }
}
target { set staff { name, unit; ref (unit) -> unit (uname); } set unit { uname; } }
line emp.ename -> staff.name;
only emp.pay filled;
only mail.mname filled;
only emp.pay numeric;
"""
DRAWN = """mapping 1;
source { set emp { id, name, mgr; ref (mgr) -> emp (id); } }
target { set person { pid, name, boss, kind, day; key (name); ref (boss) -> person (pid); } }
rows person from emp;
line emp.name -> person.name;
line emp -> person.boss by mgr;
line "<b>" -> person.kind where name = "x";
line trim(emp.name by mgr) -> person.day;
"""
DEPENDENT = """mapping 3;
source { set a { zip, town; } }
target { set addr { street, zip, town, land; key (street, zip); dep (zip, street) -> (town); dep (town) -> (land); } }
line a.zip -> addr.zip;
line a.town -> addr.town;
"""


def drawn(content: str) -> tree.Element:
    """The picture of a mapping text, as a tree of XML."""
    return tree.fromstring(Picture(read_mapping(content.encode()), "a <name>").drawn())


def titles(picture: tree.Element, kind: str) -> list[str]:
    """What is told of the things of a kind."""
    return [text_of(one, "title") for one in picture.iter(SPACE + "g") if kind in one.get("class", "").split()]


def text_of(one: tree.Element, name: str) -> str:
    """The text of an element within another."""
    return one.findtext(SPACE + name) or ""


def height_of(one: tree.Element | None) -> float:
    """Where an element is, from the top."""
    return float("nan" if one is None else one.get("y", "nan"))


def dashed(picture: tree.Element) -> list[str]:
    """What is told of the refs that are drawn with dashes."""
    return [title for title in titles(picture, "ref") if title in titles(picture, "optional")]


class Pictures(Trial):
    def test_hostile(self) -> None:
        picture = drawn(HOSTILE)
        lines = titles(picture, "line")
        self.assertEqual(sum(one.startswith("line ") for one in lines), 4)
        self.assertIn("line pair(a.x, set.key) -> b.y", lines)
        self.assertTrue(any("<&>" in one for one in lines))
        self.assertIn("t = digits(q)", lines)
        texts = [one.text for one in picture.iter(SPACE + "text")]
        self.assertIn('"</svg>"', texts)
        self.assertIn("key 1", texts)
        self.assertFalse(list(picture.iter(SPACE + "script")))

    def test_optional_refs_and_conditions(self) -> None:
        picture = drawn(FILTERED)
        self.assertEqual(dashed(picture), ["ref (dept) -> dept (dname) of emp, optional"])
        self.assertEqual(len(titles(picture, "ref")), 3)
        marks = [(one.text, one.get("y")) for one in picture.iter(SPACE + "text") if one.get("class") == "only"]
        heights = {one.text: one.get("y") for one in picture.iter(SPACE + "text")}
        self.assertEqual(marks, [("only filled, only numeric", heights["pay"]), ("only filled", heights["mname"])])

    def test_dependencies(self) -> None:
        picture = drawn(DEPENDENT)
        self.assertEqual(titles(picture, "dep"), ["dep (zip, street) -> (town)", "dep (town) -> (land)"])
        box = next(one for one in picture.iter(SPACE + "rect") if one.get("class") == "box"
                   and float(one.get("x", "nan")) > 100)
        low = height_of(box) + float(box.get("height", "nan"))
        heights = [height_of(one.find(SPACE + "text")) for one in picture.iter(SPACE + "g")
                   if one.get("class") == "dep"]
        columns = [height_of(one) for one in picture.iter(SPACE + "text")
                   if one.text in ("street", "zip", "town", "land")]
        self.assertTrue(max(columns) < heights[0] < heights[1] < low)

    def test_a_drawing_has_its_notes(self) -> None:
        """As the page of clio-draw shows it: what stands on lines, and a line from the head of a set's box."""
        found: dict[str, list[str]] = {}
        heads: list[str] = []

        def look(one: object) -> None:
            assert isinstance(one, list)
            tag, attributes, inside = one
            self.assertNotIn("style", attributes)
            if "data-line" in attributes:
                found[attributes["data-line"]] = [each[2][0] for each in inside if each[0] in ("title", "text")]
                if attributes["data-line"] == "1":
                    heads.extend(each[1]["d"] for each in inside if "C" in each[1].get("d", ""))
            for each in inside:
                if isinstance(each, list):
                    look(each)

        look(picture(DRAWN, "x", None)["picture"])
        self.assertEqual(found, {
            "0": ["line emp.name -> person.name"], "1": ["line emp -> person.boss by mgr", "by mgr"],
            "2": ['line "<b>" -> person.kind where name = "x"', '"<b>" where name = "x"'],
            "3": ["line trim(emp.name by mgr) -> person.day", "trim by mgr"]})
        self.assertEqual({curve.split("C")[0].split(" ")[1] for curve in heads}, {"63.0"})  # below the top, half a head

    def test_tool(self) -> None:
        self.file("mapping.clio", HOSTILE)
        tree.fromstring(self.printed("clio-picture"))
        tree.fromstring(self.printed("clio-picture", str(self.folder)))
        self.refused("clio-picture", "a", "b", why="usage")
        self.refused("clio-picture", "nowhere", why="nowhere/mapping.clio")
        self.file("mapping.clio", "mapping 1; source {")
        self.refused("clio-picture", why="mapping.clio: line 1, column 20: the text ends here")

    def test_random(self) -> None:
        for number in range(40 * TIMES):
            text = random_case(random.Random(number), ["lines", "mixed", "keyed"][number % 3]).files["mapping.clio"]
            mapping = read_mapping(text.encode() if isinstance(text, str) else text)
            picture = drawn(text)
            refs = sum(len(table.tree.references) for table in mapping.source + mapping.target)
            self.assertEqual(len(titles(picture, "ref")), refs)
            self.assertEqual(sum(one.startswith("line ") for one in titles(picture, "line")), len(mapping.lines))
            names = [one.text for one in picture.iter(SPACE + "text") if one.get("class") == "title"]
            self.assertEqual(sorted(names[1 : 1 + len(mapping.source) + len(mapping.target)]),
                             sorted(table.name for table in mapping.source + mapping.target))
            self.try_boxes(mapping.source)
            self.try_boxes(mapping.target)

    def try_boxes(self, tables: list[Table]) -> None:
        """Boxes lie below each other, columns in their boxes, and refs beside each other."""
        boxes = [Box(tables, number, {}) for number, table in enumerate(tables) if table.parent is None]
        places, width, _ = stacked(boxes, 0, 0)
        for one, other in zip(boxes, boxes[1:]):
            self.assertLess(one.y + one.height(), other.y)
        self.assertEqual(len(places), sum(1 + len(table.tree.columns) for table in tables))
        self.assertEqual(len(set(places.values())), len(places))
        for box in boxes:
            self.assertLessEqual(box.width(), width)
            self.assertTrue(all(box.y < places[port] < box.y + box.height() for port in box.ports()))
        refs = Refs(tables, places, range(len(tables)))
        for first, second in itertools.combinations(range(len(refs.refs)), 2):
            if refs.lanes[first] == refs.lanes[second]:
                spans = [[height for ends in refs.refs[place][:2] for height in ends] for place in (first, second)]
                self.assertTrue(max(spans[0]) < min(spans[1]) or max(spans[1]) < min(spans[0]))


class Ordering(unittest.TestCase):
    def sides(self, choice: random.Random, boxes: int, ports: int) -> list[list[tuple[str, list[str]]]]:
        return [[(f"{side}{number}", [f"{side}{number}.{port}" for port in range(choice.randint(1, ports))])
                 for number in range(choice.randint(2, boxes))] for side in "lr"]

    def test_few_boxes(self) -> None:
        """Hardly more crossings than the best of all orders, and none if there need be none."""
        choice, made, least = random.Random(3), 0, 0
        for _ in range(60):
            left, right = self.sides(choice, 4, 3)
            ends = [[port for _, ports in side for port in ports] for side in (left, right)]
            edges = [(choice.choice(ends[0]), choice.choice(ends[1])) for _ in range(choice.randint(1, 8))]
            best = min(crossings(one, other, edges) for one in itertools.permutations(left)
                       for other in itertools.permutations(right))
            count = crossings(*ordered(left, right, edges), edges)
            self.assertLessEqual(count, crossings(left, right, edges))
            made, least = made + count, least + best
        self.assertLessEqual(made, least * 1.1)

    def test_forty_boxes(self) -> None:
        """Pairs of boxes that were mixed come beside each other again."""
        for seed in range(3):
            choice = random.Random(seed)
            pairs = [((f"l{number}", [f"l{number}.{port}" for port in range(4)]),
                      (f"r{number}", [f"r{number}.{port}" for port in range(4)])) for number in range(40)]
            edges = [(one[1][port], other[1][port]) for one, other in pairs for port in range(4)]
            left, right = [one for one, _ in pairs], [other for _, other in pairs]
            choice.shuffle(left)
            choice.shuffle(right)
            self.assertEqual(crossings(*ordered(left, right, edges), edges), 0)


if __name__ == "__main__":
    unittest.main()
