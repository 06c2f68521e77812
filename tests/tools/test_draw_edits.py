"""clio-draw's edits of texts: they keep comments and all other statements, and an edit and its opposite give the same
bytes."""
import random
import unittest
from typing import Any

from draw_trial import texts
from trial import TIMES

from clio_tools.draw.change import CannotEdit
from clio_tools.draw.edits import edited
from clio_tools.draw.outline import Outline, as_data
from clio_tools.draw.units import Units
from clio_tools.mapping.parser import parse

TEXT = """mapping 1; // first
source { set a { x, y; ref (y) -> b (z); } set b { z; } }
target { set c { u, v; } } // sides end
// lines
  line a.x -> c.u; // about x
line "a -> b" -> c.v; line b.z // odd -> place
  -> c.v;
rule b(p) -> c(p, "q");"""
DRAWING = """mapping 2; // first
source {
  set flight { no, dep, arr; ref (dep) -> port (code); ref (arr) -> port (code); }
  set port { code, city, land; }
  set bus { nr; }
}
target { set leg { no, a, b; key (no); } }
rows leg from flight;             // all flights
line flight.no -> leg.no;
line port.city -> leg.a by dep;   // of dep
line pair(port.city by arr, port.land by arr) -> leg.b from flight where no filled; // pair
lookup port, flight; // looked up
"""


def edit(text: str, **action: object) -> str:
    """The text after an action."""
    return edited(text, action)[0]


def statements(text: str) -> list[str]:
    """The statements of a text, as they are written."""
    outline = Outline(text.encode())
    return [" ".join(outline.text(item).split()) for item in outline.tree.items]


class Edits(unittest.TestCase):
    def test_line_is_put_behind_the_last_into_its_set(self) -> None:
        text = edit(TEXT, do="add_line", source={"columns": [["a", "y"]]}, target=["c", "v"])
        self.assertIn("  -> c.v;\nline a.y -> c.v;\nrule", text)
        self.assertEqual(text.replace("line a.y -> c.v;\n", ""), TEXT)

    def test_first_line_is_behind_the_sides(self) -> None:
        text = "mapping 1; source { set a { x; } } target { set b { y; } } // end"
        self.assertEqual(edit(text, do="add_line", source={"columns": [["a", "x"]]}, target=["b", "y"]),
                         text + "\nline a.x -> b.y;\n")

    def test_deleting_keeps_the_comment(self) -> None:
        text = edit(TEXT, do="delete", kind="line", index=0)
        self.assertIn("// lines\n  // about x\nline", text)
        self.assertNotIn("a.x", text)

    def test_changing_keeps_what_is_around(self) -> None:
        text = edit(TEXT, do="change_line", index=2, source={"columns": [["b", "z"]], "conversion": "trim"})
        self.assertIn("line trim(b.z) // odd -> place\n  -> c.v;", text)
        text = edit(TEXT, do="change_line", index=1, source={"literal": 'q"\\'})
        self.assertIn('line "q\\"\\\\" -> c.v; line b.z', text)

    def test_optional_raises_the_version_and_goes_back(self) -> None:
        text = edit(TEXT, do="optional", side="source", set_name="a", index=0, wanted=True)
        self.assertTrue(text.startswith("mapping 2; // first"))
        self.assertIn("ref (y) -> b (z) optional;", text)
        back = edit(text, do="optional", side="source", set_name="a", index=0, wanted=False)
        self.assertEqual(back.replace("mapping 2", "mapping 1"), TEXT)

    def test_keys_and_refs_come_and_go(self) -> None:
        for text, side, name in (TEXT, "source", "b"), (DRAWING, "source", "port"), (DRAWING, "target", "leg"):
            columns = [one.text for one in next(each for each in Outline(text.encode()).side(side)
                                                if each.name.text == name).columns][:1]
            for clause in ({"kind": "key", "columns": columns},
                           {"kind": "ref", "columns": columns, "set": name, "referred": columns}):
                made = edit(text, do="add_clause", side=side, set_name=name, clause=clause)
                count = next(each for each in as_data_sets(made, side) if each["name"] == name)
                index = len(count["keys" if clause["kind"] == "key" else "refs"]) - 1
                back = edit(made, do="delete_clause", side=side, set_name=name, kind=clause["kind"], index=index)
                self.assertEqual(back, text)
        made = edit(TEXT, do="add_clause", side="target", set_name="c",
                    clause={"kind": "dep", "columns": ["u"], "decided": ["v"]})
        self.assertTrue(made.startswith("mapping 3; // first"))
        self.assertIn("dep (u) -> (v);", made)

    def test_refused(self) -> None:
        one: dict[str, object] = {"do": "add_line", "source": {"columns": [["a", "x"]]}, "target": ["c", "u"]}
        refused: tuple[dict[str, object], ...] = (
            {**one, "source": {"literal": "a\nb"}}, one, {**one, "source": {"columns": [["a", "x; rule"]]}},
            {"do": "delete", "kind": "line", "index": 9}, {"do": "delete", "kind": "line", "index": True},
            {"do": "add_rule", "text": "rule a(x, y) -> c(x, y); line a.x -> c.u;"},
            {"do": "add_rule", "text": "} rule"}, {"do": "text"}, {"do": "__init__", "text": ""},
            {**one, "source": {"columns": [["a", "x"]], "conversion": "pair"}}, {**one, "source": {}},
            {**one, "source": {"columns": [["b", "z"]], "by": ["y; line"]}},
            {**one, "source": {"columns": [["b", "z"]], "by": ["y where x filled"]}},
            {**one, "rows": "a; line"}, {**one, "more": 1},
            {"do": "change_notes", "index": 0, "of": "a", "where": "x = 1"},
            {"do": "change_notes", "index": 0, "of": "", "where": 'x = "a"; line a.x -> c.u'},
            {"do": "add_clause", "side": "source", "set_name": "a", "clause": {"kind": "key"}},
            {"do": "add_clause", "side": "elsewhere", "set_name": "a", "clause": {"kind": "key"}})
        for action in refused:
            with self.assertRaises(CannotEdit, msg=action):
                edited(TEXT, action)
        with self.assertRaises(CannotEdit):
            edited("mapping 1; source {", {"do": "add_rule", "text": "rule a(x) -> b(x);"})

    def test_add_and_delete_give_the_same_bytes(self) -> None:
        tried = 0
        for path, content in texts():
            if b"\r" in content or not content.endswith(b"\n") or parse(content, drawing=True).faults:
                continue
            text, data = content.decode(), as_data(content.decode())
            if not data["source"] or not data["target"]:
                continue
            source, target = as_data_sets(text, "source")[0], as_data_sets(text, "target")[-1]
            column, end = ([one["name"], one["columns"][place]["name"]] for one, place in ((source, 0), (target, -1)))
            made = edit(text, do="add_line", source={"columns": [column], "conversion": "digits"}, target=end)
            lines: Any = as_data(made)["lines"]
            index = next(place for place, line in enumerate(lines) if line["conversion"] == "digits"
                         and line["columns"] == [column] and line["target"] == end)
            self.assertEqual(edit(made, do="delete", kind="line", index=index), text, path)
            tried += 1
        self.assertGreater(tried, 90)

    def test_random_edits_keep_comments_and_the_grammar(self) -> None:
        choice = random.Random(7)
        for _ in range(100 * TIMES):
            text, kept = choice.choice([(TEXT, ("// first", "// sides end", "// lines", "// about x")),
                                        (DRAWING, ("// first", "// all flights", "// of dep", "// pair",
                                                   "// looked up"))])
            for _ in range(8):
                before = statements(text)
                try:
                    text = edited(text, chosen(text, choice))[0]
                except CannotEdit:
                    continue
                self.assertEqual(parse(text.encode(), drawing=True).faults, (), text)
                self.assertLessEqual(len(set(before) ^ set(statements(text))), 2, text)
                for comment in kept:
                    self.assertIn(comment, text)


def as_data_sets(text: str, side: str) -> list[dict[str, Any]]:
    """The sets of a side."""
    found: Any = as_data(text)[side]
    return list(found)


def chosen(text: str, choice: random.Random) -> dict[str, object]:
    """An action by chance."""
    data: Any = as_data(text)
    source, target = choice.choice(data["source"]), choice.choice(data["target"])
    column = [source["name"], choice.choice(source["columns"])["name"]]
    end = [target["name"], choice.choice(target["columns"])["name"]]
    by = choice.choice(["", "", "dep", "arr"])
    actions: list[dict[str, object]] = [
        {"do": "add_line", "source": {"literal": choice.choice(["", 'a"', "// no"])}, "target": end},
        {"do": "add_line", "source": {"columns": [column], "by": [by]}, "target": end},
        {"do": "add_only", "column": column, "test": "filled"}, {"do": "add_rule", "text": "rule b(k) -> c(k, k);"},
        {"do": "add_rows", "target": target["name"], "source": source["name"]},
        {"do": "lookup", "name": source["name"], "wanted": choice.random() < .5},
        {"do": "optional", "side": "source", "set_name": source["name"], "index": 0, "wanted": choice.random() < .5}]
    for kind, listed in (("line", data["lines"]), ("only", data["conditions"]), ("rule", data["rules"]),
                         ("rows", data["rows"])):
        if listed:
            actions.append({"do": "delete", "kind": kind, "index": choice.randrange(len(listed))})
    if data["lines"]:
        index = choice.randrange(len(data["lines"]))
        actions.append({"do": "change_notes", "index": index, "of": choice.choice(["", "flight"]),
                        "where": choice.choice(["", 'no = "1"', "no filled, dep.city = \"x; //\""])})
        actions.append({"do": "change_line", "index": index,
                        "source": {"columns": [column], "conversion": choice.choice([None, "trim"]), "by": [by]}})
    return choice.choice(actions)


class Notes(unittest.TestCase):
    def test_a_way_is_behind_the_target_or_in_the_conversion(self) -> None:
        text = edit(DRAWING, do="change_line", index=1, source={"columns": [["port", "city"]], "by": ["arr"]})
        self.assertIn("line port.city -> leg.a by arr;   // of dep", text)
        text = edit(DRAWING, do="change_line", index=1,
                    source={"columns": [["port", "city"]], "by": ["dep"], "conversion": "trim"})
        self.assertIn("line trim(port.city by dep) -> leg.a;   // of dep", text)
        text = edit(text, do="change_line", index=1, source={"columns": [["port", "land"]], "by": ["dep"]})
        self.assertIn("line port.land -> leg.a by dep;   // of dep", text)

    def test_a_line_with_its_rows(self) -> None:
        text = DRAWING.replace("rows leg from flight;             // all flights\n", "")
        made = edit(text, do="add_line", source={"columns": [["port", "land"]], "by": ["dep"]}, target=["leg", "b"],
                    rows="flight")
        self.assertIn("}\nrows leg from flight;\nline flight.no", made)
        self.assertIn("// pair\nline port.land -> leg.b by dep;\n", made)
        bare = text[:text.index("line")]
        made, shown = edited(bare, {"do": "add_line", "source": {"columns": [["port", "land"]], "by": ["dep"]},
                                    "target": ["leg", "b"], "rows": "flight"})
        self.assertEqual(made, bare + "rows leg from flight;\nline port.land -> leg.b by dep;\n")
        self.assertEqual(made[shown[0]:shown[1]], "line port.land -> leg.b by dep;")

    def test_notes_of_a_line(self) -> None:
        text = edit(DRAWING, do="change_notes", index=2, of="", where='dep.land = "D"')
        self.assertIn('-> leg.b where dep.land = "D"; // pair', text)
        text = edit(DRAWING, do="change_notes", index=1, of="flight", where="")
        self.assertIn("line port.city -> leg.a by dep from flight;   // of dep", text)

    def test_rows(self) -> None:
        text = edit(DRAWING, do="change_rows", index=0, asked={"source": "bus", "by": "", "with": "", "where": ""})
        self.assertIn("rows leg from bus;             // all flights", text)
        text = edit(DRAWING, do="change_rows", index=0,
                    asked={"source": "flight", "by": "", "with": "dep, arr", "where": 'no = "1"'})
        self.assertIn('rows leg from flight with dep, arr where no = "1";             // all flights', text)
        text = edit(DRAWING, do="add_rows", target="leg", source="bus")
        self.assertIn("// all flights\nrows leg from bus;\n", text)
        self.assertEqual(edit(text, do="delete", kind="rows", index=1), DRAWING)

    def test_lookups(self) -> None:
        text = edit(DRAWING, do="lookup", name="port", wanted=False)
        self.assertIn("lookup flight; // looked up", text)
        self.assertIn("\n// looked up", edit(text, do="lookup", name="flight", wanted=False))
        self.assertIn("lookup port; // looked up", edit(DRAWING, do="lookup", name="flight", wanted=False))

    def test_a_comment_in_the_way_is_kept(self) -> None:
        text = DRAWING.replace("leg.a by dep;", "leg.a // here\n by dep;")
        with self.assertRaisesRegex(CannotEdit, "comment"):
            edit(text, do="change_notes", index=1, of="flight", where="")


class Outlines(unittest.TestCase):
    def test_reading_goes_on_after_a_fault(self) -> None:
        outline = Outline(content := b"mapping 1; source { set a { x; } } target { set b { y; } }\nline a.x -> b.y;\nline a. -> b.y;"
                          b"\nline a.x -> b.y;\nrule a(x) ->;\nrule a(x) -> b(x);")
        self.assertEqual([type(one).__name__ for one in outline.tree.items], ["Line", "Line", "Rule"])
        self.assertTrue(outline.is_read)
        self.assertEqual(outline.faults[0].start, content.index(b"-> b.y;\nline a.x -> b.y;\nrule"))

    def test_a_side_that_is_not_closed_is_not_read(self) -> None:
        for text in "", "mapping 1;", "mapping 1; source { set a { x; } }", "mapping 1; source { } target { set b { y; }":
            self.assertFalse(Outline(text.encode()).is_read, text)
        self.assertTrue(Outline(b"mapping 1; source { } target { }").is_read)

    def test_notes_make_a_drawing(self) -> None:
        self.assertTrue(Outline(DRAWING.encode()).has_notes)
        for path, content in texts():
            if not parse(content).faults:
                self.assertFalse(Outline(content).has_notes, path)

    def test_places_count_as_a_browser_does(self) -> None:
        text = 'mapping 1; source { set a { x; } } target { set b { y; } } line "ä😀" -> b.y; line a.x -> b.y;'
        lines: Any = as_data(text)["lines"]
        start, end = lines[1]["at"]
        units = text.encode("utf-16-le")
        self.assertEqual(units[2 * start:2 * end].decode("utf-16-le"), "line a.x -> b.y;")
        self.assertEqual(Units(b"abc")(2), 2)


if __name__ == "__main__":
    unittest.main()
