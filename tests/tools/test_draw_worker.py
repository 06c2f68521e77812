"""clio-draw's live runs on all examples: the rows are those of clio, each row has a reason, and samples keep links."""
import csv
import json
import os
import pathlib
import re
import subprocess
import unittest
import unittest.mock
from typing import Any

import draw_trial
from trial import PROGRAM, TIMES

from clio_tools.draw.edits import edited
from clio_tools.draw.outline import Outline
from clio_tools.draw.worker import Worker

TWO_FILES = ("mapping 1; source { set a { x, y; ref (y) -> b (z); } set b { z, w; } } target { set c { u, v; } } "
             "line a.x -> c.u; line b.w -> c.v;")


class Asked:
    """A worker, asked by words."""

    def __init__(self, folder: pathlib.Path, seconds: float = 10) -> None:
        self.worker = Worker(str(folder), str(draw_trial.room()), seconds)

    def __call__(self, do: str, **words: object) -> Any:
        return self.worker.answer({"do": do, **words})

    def live(self, text: str, core: bool = False, rows: int | None = 100) -> Any:
        """A live run."""
        return self("live", text=text, core=core, rows=rows)


def clio(folder: pathlib.Path, *words: str) -> "subprocess.CompletedProcess[bytes]":
    """The program in a copy of a folder."""
    made = draw_trial.room()
    for path in folder.iterdir():
        if path.is_file():
            (made / path.name).symlink_to(path)
    return subprocess.run([PROGRAM, *words], cwd=made, capture_output=True, check=False, timeout=60)


class Live(unittest.TestCase):
    def setUp(self) -> None:
        self.addCleanup(os.chdir, os.getcwd())

    def test_every_row_of_an_example_has_a_reason(self) -> None:
        found = [0, 0, 0]
        for path, content in draw_trial.texts():
            if path.name == "mapping.clio" and (path.parent.parent == draw_trial.EXAMPLES or TIMES > 1):
                for core in False, True:
                    self.of_example(path.parent, content, core, found)
        self.assertGreater(found[0], 20)
        self.assertGreater(found[1], 500)
        self.assertGreater(found[2], 200)

    def of_example(self, folder: pathlib.Path, content: bytes, core: bool, found: list[int]) -> None:
        """A run ends as clio does, each of its rows has a reason, and each source row goes somewhere or is unused."""
        if Outline(content).is_drawing:  # refs in a circle: the page takes them, and clio doesn't
            return
        ended = clio(folder, "exchange", *["--core"] * core)
        if b"absent" in ended.stderr:  # there the page makes rows up
            return
        ask = Asked(folder)
        try:
            made = ask.live(content.decode(), core, 2000)
        except UnicodeDecodeError:
            return
        self.assertEqual(bool(made["fault"]), ended.returncode != 0, (folder, made["fault"], ended.stderr))
        if ended.returncode:
            self.assertEqual(made["fault"]["message"], ended.stderr.decode().rstrip("\n"), folder)
            return
        found[0] += 1
        for name, table in made["tables"].items():
            for row in table["rows"]:
                reason = ask("why", table=name, row=row)
                self.check_reason(reason, row, (folder, core, name, row))
                found[1] += 1
                found[2] += bool(reason["replaced"])
        for table in ask("sources")["tables"]:
            for number, row in enumerate(table["rows"]):
                goes = ask("forward", table=table["name"], row=number)
                self.assertEqual(bool(goes["rows"]), row["why"] is None, (folder, table["name"], row))
            if table["count"] < 100:
                self.assertEqual(sum(group["count"] for group in table["groups"]),
                                 sum(row["why"] is not None for row in table["rows"]), (folder, table["name"]))

    def check_reason(self, reason: Any, row: list[str], which: object) -> None:
        """A row has a rule and source rows; each text in it has a source, and each null has none."""
        self.assertTrue(reason.get("asked"), (which, reason))
        self.assertEqual([one["text"] for one in reason["cells"]], row)
        for one in reason["cells"]:
            is_null = one["text"][:1] == "?" and one["text"][1:2] != "?"
            self.assertEqual(one["kind"] == "open", is_null, (which, one))
            self.assertEqual(bool(one["where"]), one["kind"] in ("column", "conversion"), (which, one))
        for asked in reason["asked"]:
            self.assertTrue(asked["matches"], which)

    def test_a_drawing_runs_as_its_mapping(self) -> None:
        folder = draw_trial.EXAMPLES / "flights"
        ask = Asked(folder)
        made = ask.live((folder / "drawing.clio").read_text())
        self.assertEqual(made["tables"]["leg"]["rows"], [["F1", "Frankfurt", "New York"], ["F2", "Frankfurt", "?0.1.1"],
                                                         ["F3", "?0.0.2", "New York"]])
        self.assertEqual([rule["words"]["lines"] for rule in made["rules"]], [[0], [1], [2]])
        self.assertEqual({rule["rows"] for rule in made["rules"]}, {0})
        reason = ask("why", table="leg", row=["F1", "Frankfurt", "New York"])
        self.assertEqual([one["where"] for one in reason["cells"]],
                         ["flight.csv line 2", "port.csv line 2", "port.csv line 3"])
        self.assertEqual([one["line"] for one in reason["cells"]], [0, 1, 2])

    def test_rules_of_sets_without_notes_come_first(self) -> None:
        folder = draw_trial.EXAMPLES / "teams"
        text = (folder / "mapping.clio").read_text() + "rows team from dept;\nrule dept(d, c) -> person(d, c, t);\n"
        made = Asked(folder).live(text)
        self.assertIsNone(made["fault"])
        rules = [(rule["rows"], rule["by_hand"], rule["words"]["made"][0]["set"]) for rule in made["rules"]]
        self.assertEqual(rules, [(None, False, "person"), (0, False, "team"), (None, True, "person")])
        self.assertEqual(made["rules"][1]["words"]["lines"], [1, 2])

    def test_sets_are_offered_whose_rows_are_missing(self) -> None:
        folder = draw_trial.EXAMPLES / "teams"
        text = (folder / "mapping.clio").read_text() + "rows person from emp;\n"
        cures = Asked(folder).live(text)["fault"]["cures"]
        self.assertEqual([one["title"] for one in cures], ["rows team from dept"])
        text = edited(text, cures[0]["action"])[0]
        cures = Asked(folder).live(text)["fault"]["cures"]
        self.assertEqual([one["title"] for one in cures], ["key (name) of person", "rows person from emp with dept"])
        for cure in cures:
            for step in self.cured(folder, edited(text, cure["action"])[0], 3):
                self.assertIsNone(step)

    def test_a_remark_has_its_edits(self) -> None:
        """A needed ref that only some rows fill asks for a row of nulls: either edit answers that."""
        folder = draw_trial.EXAMPLES / "teams"
        text = (folder / "mapping.clio").read_text() + "rows person from emp;\nrows team from dept;\n"
        text = text.replace("phone, team;", "phone, team; key (name);").replace("key (label)", "key (tid); key (label)")
        found = Asked(folder).live(text)["remarks"]
        self.assertEqual([one["title"] for each in found for one in each["cures"]],
                         ["rows person from emp with dept", "make the ref (team) of person optional"])
        for cure in found[0]["cures"]:
            made = Asked(folder).live(edited(text, cure["action"])[0])
            self.assertEqual((made["fault"], made["remarks"]), (None, []))

    def test_a_set_of_which_lines_say_too_much_is_left_out(self) -> None:
        """The others have their rows, and the set has them when `rows` says from which set they come."""
        text = (draw_trial.EXAMPLES / "northwind" / "drawing.clio").read_text()
        head = text[:text.index("// Each row")]
        head += "line Countries.Code -> country.code;\nline Countries.Name -> country.name;\n"
        made = Asked(draw_trial.room()).live(head + "rows country from Countries;\n")
        self.assertIsNone(made["fault"])
        self.assertEqual([one["set"] for one in made["aside"]], ["sale", "sale_line"])
        self.assertEqual({name for name, table in made["tables"].items() if table["count"]}, {"country"})
        made = Asked(draw_trial.room()).live(head + "line Countries.Name -> sale.ship_country;\n")
        self.assertIn(["rows sale from Countries"], [[one["title"] for one in each["cures"]] for each in made["aside"]])

    def test_rows_without_a_line_wait(self) -> None:
        """They make no fault: the others are there, until a line is drawn, and other faults are said as they are."""
        text = (draw_trial.EXAMPLES / "northwind" / "drawing.clio").read_text()
        head = text[:text.index("// Each row")] + "rows country from Countries;\nline Countries.Code -> country.code;\n"
        made = Asked(draw_trial.room()).live(head + "rows party from Customers;\nrows party from Employees;\n")
        self.assertIsNone(made["fault"])
        self.assertEqual([(one["set"], one["waits"]) for one in made["aside"][:2]],
                         [("party", "Customers"), ("party", "Employees")])
        self.assertEqual({name for name, table in made["tables"].items() if table["count"]}, {"country"})
        line = "line Customers.Customer_ID -> party.code;\nline \"customer\" -> party.kind from Customers;\n"
        made = Asked(draw_trial.room()).live(head + "rows party from Shippers;\nrows party from Customers;\n" + line)
        self.assertEqual([(one["set"], one["waits"]) for one in made["aside"] if one["waits"]], [("party", "Shippers")])
        self.assertEqual({name for name, table in made["tables"].items() if table["count"]}, {"country", "party"})
        self.assertEqual([rule["rows"] for rule in made["rules"]], [0, 2])
        fault = Asked(draw_trial.room()).live(head + "rows party from Customers;\nline Shippers.Phone -> country.name;\n")
        self.assertIn("no ref leads from Countries to Shippers", fault["fault"]["message"])

    def test_a_limit_of_the_whole_text_leaves_the_sets_their_rows(self) -> None:
        """If a mapping without notes exceeds one, that is said, with the sets that are too much by themselves; one of
        the sides alone leaves nothing."""
        refs = [f"ref (r{number}) -> t{number} (k) optional;" for number in range(9)]
        text = ("mapping 2;\nsource { set s { id; } set u { k; } }\ntarget { set main { id, "
                f"{', '.join(f'r{number}' for number in range(9))}; {' '.join(refs)} }}\n"
                f"{''.join(f'set t{number} {{ k; }} ' for number in range(9))}}}\n")
        made = Asked(draw_trial.room()).live(text + "line u.k -> t1.k;\nline s.id -> main.id;\n")
        self.assertIsNone(made["fault"])
        self.assertEqual(made["limit"]["message"], "limit: variants 256")
        self.assertEqual([one["set"] for one in made["aside"]], ["main"])
        self.assertEqual({name: table["count"] for name, table in made["tables"].items() if table["count"]}, {"t1": 3})
        wide = ", ".join(f"c{number}" for number in range(65))
        made = Asked(draw_trial.room()).live(text.replace("u { k; }", f"u {{ {wide}; }}"))
        self.assertEqual((made["fault"]["message"], made["limit"]), ("limit: columns 64", None))
        lines = "line s.id -> t1.k;\n" * 400 + "line u.k -> t2.k;\n" * 200
        made = Asked(draw_trial.room()).live(text.replace("t1 (k) optional", "t1 (k)") + lines)
        self.assertEqual((made["fault"], made["limit"]["message"]), (None, "limit: lines 512"))
        self.assertEqual((made["tables"]["t1"]["count"], made["tables"]["t2"]["count"]), (3, 3))

    def test_a_clash_in_a_set_without_rows_has_its_edit(self) -> None:
        folder = draw_trial.copy_of("teams")
        with open(folder / "dept.csv", "a", encoding="utf-8") as file:
            file.write("toys,Rome\n")
        text = (folder / "mapping.clio").read_text()
        fault = Asked(folder).live(text)["fault"]
        self.assertEqual([one["title"] for one in fault["cures"]], ["rows team from dept"])
        made = edited(text + "rows person from emp with dept;\n", fault["cures"][0]["action"])[0]
        fault = Asked(folder).live(made)["fault"]
        self.assertEqual((fault["status"], fault["cures"]), (3, []))

    def test_what_a_key_needs_is_offered(self) -> None:
        """A key of which a ref is a part: of the set itself, and of one to which a ref leads."""
        folder = draw_trial.copy_of("teams")
        head = ("mapping 1;\nsource { set shop { code; }\n"
                "  set item { what, sold, made; ref (sold) -> shop (code); ref (made) -> shop (code); }\n"
                "  set part { of, name; ref (of) -> item (what); } }\n"
                "target { set place { pid, code; key (pid); key (code); }\n"
                "  set thing { tid, place, what, note; key (tid); key (place, what); ref (place) -> place (pid); }\n"
                "  set piece { name, thing; ref (thing) -> thing (tid); } }\n"
                "rows place from shop;\nline shop.code -> place.code;\nrows thing from item;\n"
                "line item.what -> thing.what;\nline shop -> thing.place by sold;\n")
        note = "line shop.code -> thing.note by made;\n"
        cures = Asked(folder).live(head + note)["fault"]["cures"]
        self.assertEqual([one["title"] for one in cures],
                         ["rows thing from item with sold", "rows thing from item with made", "lookup shop"])
        self.assertIsNone(Asked(folder).live(edited(head + note, cures[0]["action"])[0])["fault"])
        linked = head + "rows piece from part with of;\nline part.name -> piece.name;\n"
        cures = Asked(folder).live(linked)["fault"]["cures"]
        self.assertEqual([one["title"] for one in cures], ["rows thing from item with sold"])
        self.assertNotIn("rows thing from item;", edited(linked, cures[0]["action"])[0])

    def cured(self, folder: pathlib.Path, text: str, steps: int) -> list[object]:
        """The faults that are left when each fault was answered by each of its cures, so many times at most."""
        fault = Asked(folder).live(text)["fault"]
        if fault is None or not steps:
            return [fault]
        self.assertTrue(fault["cures"], fault)
        return [one for cure in fault["cures"]
                for one in self.cured(folder, edited(text, cure["action"])[0], steps - 1)]

    def test_rows_of_nothing_but_nulls_are_marked(self) -> None:
        folder = draw_trial.copy_of("teams")
        text = (folder / "mapping.clio").read_text()
        made = Asked(folder).live(text[:text.index("line dept.dname")])
        self.assertEqual(made["tables"]["team"]["empty"], [0, 1])
        self.assertEqual(made["tables"]["person"]["empty"], [])

    def test_samples_keep_links(self) -> None:
        folder = draw_trial.room()
        table = [[f"x{number}", f"z{29999 - number}"] for number in range(30000)]
        write(folder / "a.csv", [["x", "y"], *table])
        write(folder / "b.csv", [["z", "w"], *[[f"z{n}", f"w{29999 - n:05}"] for n in range(30000)]])
        ask = Asked(folder)
        made = ask.live(TWO_FILES, rows=20)
        self.assertEqual([made["sources"][name]["rows"] for name in "ab"], [20, 40])
        self.assertEqual(made["sources"]["b"]["of"], 30000)
        reason = ask("why", table="c", row=["x0", "w00000"])
        self.assertEqual([row["where"] for row in reason["asked"][0]["matches"][0]],
                         ["line 2 (record 1)", "line 30001 (record 30000)"])
        text = TWO_FILES.replace("set c { u, v; }", "set c { u, v; key (u); }").replace("line a.x -> c.u",
                                                                                       'line "same" -> c.u')
        self.assertIn("b.csv, line 30001 (record 30000): ",
                      "".join(one["text"] for one in ask.live(text, rows=20)["fault"]["lines"]))
        (folder / "b.csv").write_text("z,w\n1,2,3\n" + "x" * 300000)
        self.assertIn("width of record 1", ask.live(TWO_FILES, rows=20)["fault"]["message"])

    def test_a_fault_of_a_sample_has_its_place_in_the_whole_file(self) -> None:
        folder = draw_trial.room()
        objects: list[dict[str, object]] = [{"id": f"i{n}", "more": [{"x": "x" * 20}]} for n in range(9000)]
        (folder / "a.json").write_text(json.dumps([*objects, {"id": "last", "zz": "1"}]))
        (folder / "b.csv").write_text("k\nlast\n")
        text = ("mapping 1; source { set b { k; ref (k) -> a (id); } set a { id; set more { x; } } }"
                " target { set c { u; } } line a.id -> c.u; line b.k -> c.u;")
        fault = Asked(folder).live(text, rows=20)["fault"]
        self.assertEqual(fault["message"], "rows: a.json: unknown member at /9000/zz")

    def test_the_whole_source_is_read(self) -> None:
        folder = draw_trial.room()
        write(folder / "a.csv", [["x", "y"], *[[f"x{n}", f"z{n % 2999}"] for n in range(30000)]])
        write(folder / "b.csv", [["z", "w"], *[[f"z{n}", f"w{n}"] for n in range(2999)]])
        made = Asked(folder).live(TWO_FILES, rows=None)
        self.assertEqual((made["tables"]["c"]["count"], made["whole"]), (30000 + 2999, True))
        self.assertEqual({one["kind"] for one in made["sources"].values()}, {"whole"})

    def test_tests_of_a_drawing_take_sets_of_their_own(self) -> None:
        folder = draw_trial.room()
        write(folder / "a.csv", [["x", "y"], *[[f"x{n}", "red" if n % 3 else ""] for n in range(30000)]])
        text = ('mapping 1; source { set a { x, y; } } target { set c { u, v, w; key (u); } }\n'
                'rows c from a;\nline a.x -> c.u;\nline "stop" -> c.v where y = "red";\nline a.y -> c.w where y filled;\n')
        for rows in 10, None:
            made = Asked(folder).live(text, rows=rows)
            self.assertIsNone(made["fault"])
            self.assertEqual(set(made["sources"]), {"a", "a_y_filled"})
            shown = {row[0]: row[1:] for row in made["tables"]["c"]["rows"]}
            self.assertEqual(shown["x1"], ["stop", "red"])
            self.assertEqual([text[:1] for text in shown["x0"]], ["?", "?"])

    def test_a_run_that_does_not_end_is_ended(self) -> None:
        slow = draw_trial.room() / "clio"
        slow.write_text(f'#!/bin/sh\nif [ "$1" = exchange ]; then exec sleep 60; fi\nexec {PROGRAM} "$@"\n')
        slow.chmod(0o755)
        folder = draw_trial.EXAMPLES / "teams"
        with unittest.mock.patch.dict(os.environ, PATH=f"{slow.parent}{os.pathsep}{os.environ['PATH']}"):
            made = Asked(folder, 1).live((folder / "mapping.clio").read_text(), True)
        self.assertEqual((made["stopped"], made["tables"], len(made["rules"])),
                         ("clio exchange --core took more than 1 seconds and was ended", None, 2))

    def test_documents_are_sampled(self) -> None:
        folder, example = draw_trial.room(), draw_trial.EXAMPLES / "warehouse"
        for name in "mapping.clio", "product.csv":
            (folder / name).write_bytes((example / name).read_bytes())
        shops = json.loads((example / "shop.json").read_text())
        text = json.dumps([shops[number % len(shops)] for number in range(3000)])
        for member in "code", "no":
            first, *others = text.split(f'"{member}": "')
            text = first + "".join(f'"{member}": "{number}-{part}' for number, part in enumerate(others))
        (folder / "shop.json").write_text(text)
        ask = Asked(folder)
        made = ask.live((folder / "mapping.clio").read_text(), rows=50)
        self.assertEqual((made["fault"], made["sources"]["shop"]),
                         (None, {"file": "shop.json", "kind": "sample", "rows": 50, "of": 3000}))
        for name, table in made["tables"].items():
            for row in table["rows"]:
                self.assertTrue(ask("why", table=name, row=row)["asked"], (name, row))

    def test_rows_are_made_up(self) -> None:
        ask = Asked(draw_trial.room())
        made = ask.live((draw_trial.EXAMPLES / "teams" / "mapping.clio").read_text())
        self.assertEqual(made["sources"]["emp"]["kind"], "made up")
        self.assertEqual(made["tables"]["person"]["count"], 3)
        made = ask.live((draw_trial.EXAMPLES / "warehouse" / "mapping.clio").read_text())
        self.assertIsNotNone(made["tables"])

    def test_faults_have_their_place(self) -> None:
        sets = "mapping 1; source { set a { x; } } target { set b { y; } }"
        for marked in (sets + " line a.<z> -> b.y;", "mapping 1; source { set a { x; key (<q>); } } target { }",
                       "mapping 1; source { set a { x, <x>; } } target { set b { y; } }",
                       "mapping 1; source { set a { x; } } target { set b { y; ref (y) -> <c> (y); } }",
                       sets + " // \u00e4\U0001f600\nline a.x -> b.<q>;",
                       sets + "rows b from a;\nline a.<z> -> b.y;", sets + "rows b from <c>;\nline a.x -> b.y;"):
            start = marked.index("<")
            found = re.search("[^<]*?(?<!-)>", marked[start:])
            assert found is not None
            end = start + found.end() - 2
            text = marked[:start] + marked[start + 1:end + 1] + marked[end + 2:]
            fault = Asked(draw_trial.room()).live(text)["fault"]
            wide = text[:start].count("\U0001f600")  # two units of a browser's text
            self.assertEqual(fault["at"], [start + wide, end + wide], (text, fault))


    def test_explanations_have_the_places_that_they_name(self) -> None:
        text = "mapping 1;\nsource { set a { x, y,\n  x; } } target { set b { y; } }"
        fault = Asked(draw_trial.room()).live(text)["fault"]
        first = text.index("x")
        self.assertEqual(fault["lines"], [{"text": "it is there already:"},
                                          {"text": "line 2, column 18", "line": 2, "at": [first, first + 1]}])


class Examples(unittest.TestCase):
    def setUp(self) -> None:
        self.addCleanup(os.chdir, os.getcwd())

    def test_each_rule_key_ref_and_set_has_its_example(self) -> None:
        folder = draw_trial.copy_of("teams")
        text = (folder / "mapping.clio").read_text().replace("dept (dname);", "dept (dname) optional;")
        text = text.replace("mapping 1", "mapping 2").replace("set dept { dname, city; }",
                                                              "set dept { dname, city; } set bus { nr; }")
        (folder / "bus.csv").write_text("nr\n1\n")
        with open(folder / "emp.csv", "a", encoding="utf-8") as file:
            file.write("cy,cars\n")
        ask = Asked(folder)
        made = ask.live(text)
        found = ask("examples")["examples"]
        self.assertEqual([one["rule"] for one in found if one["kind"] == "rule"], list(range(len(made["rules"]))))
        self.assertEqual([one["says"] for one in found if one["kind"] != "rule"],
                         ["key (label) of team", "a row of emp with a partner in dept by (dept)",
                          "a row of emp without a partner in dept by (dept)",
                          "a row of bus that is not used: no rule reads bus"])
        self.assertEqual(found[-2]["sources"][0]["cells"], [["name", "cy"], ["dept", "cars"]])
        for one in found:
            for row in one.get("made", []):
                self.assertIn(row["cells"], made["tables"][row["table"]]["rows"])


class Drafts(unittest.TestCase):
    def setUp(self) -> None:
        self.addCleanup(os.chdir, os.getcwd())

    def draft(self, kind: str, place: str, side: str = "source") -> Any:
        """A draft of what is in the examples."""
        return Asked(draw_trial.EXAMPLES)("draft", kind=kind, place=place, schema="", side=side, drawing=False,
                                          data=side == "source")

    def test_files_and_documents(self) -> None:
        made = self.draft("csv", "teams")
        self.assertIn("set emp {", made["text"])
        self.assertEqual(pathlib.Path("drafted", "emp.csv").read_text(), "name,dept\nann,toys\nbob,toys\n")
        self.assertIn("set shop {", self.draft("json", "warehouse/shop.json")["text"])
        self.assertTrue(self.draft("csv", "teams", "target")["text"].startswith("target {"))
        self.assertFalse(pathlib.Path("drafted").exists())

    def test_what_is_refused(self) -> None:
        for kind, place, why in (("sqlite", "nowhere.db", "is no file"), ("sqlite", "teams/emp.csv", "emp.csv"),
                                 ("csv", "nowhere", "nowhere"), ("json", "teams/emp.csv", "emp.csv"),
                                 ("sqlite", "", "name what is to be read"), ("text", "teams", "drafted from sqlite")):
            self.assertIn(why, self.draft(kind, place)["error"], (kind, place))


class Choices(unittest.TestCase):
    def setUp(self) -> None:
        self.addCleanup(os.chdir, os.getcwd())
        self.folder = draw_trial.EXAMPLES / "flights"
        self.text = (self.folder / "drawing.clio").read_text()

    def test_each_way_has_a_row(self) -> None:
        found = Asked(self.folder)("ways", text=self.text, source=["port", "city"], target=["leg", "no"])
        self.assertTrue(found["noted"])
        self.assertEqual([(one["from"], one["by"], one["sample"]["value"]) for one in found["choices"]],
                         [("flight", "dep", "Frankfurt"), ("flight", "arr", "New York")])
        self.assertEqual(found["choices"][0]["says"], "city of the port that dep leads to")

    def test_a_line_from_a_whole_set_may_go_to_another_row_of_it(self) -> None:
        text = ("mapping 1; source { set emp { id, mgr; ref (mgr) -> emp (id); } }\n"
                "target { set person { pid, no, boss; key (no); ref (boss) -> person (pid); } }\n"
                "rows person from emp; line emp.id -> person.no;")
        (folder := draw_trial.room()).joinpath("emp.csv").write_text("id,mgr\n1,\n2,1\n")
        found = Asked(folder)("ways", text=text, source=["emp", None], target=["person", "boss"])
        self.assertEqual([(one["by"], one["sample"]["value"]) for one in found["choices"]],
                         [("", [["id", "2"], ["mgr", "1"]]), ("mgr", [["id", "1"], ["mgr", ""]])])
        self.assertEqual(Asked(folder)("ways", text=text, source=["emp", "mgr"], target=["person", "boss"]),
                         {"choices": []})

    def test_without_notes_too(self) -> None:
        text = "\n".join(line.partition(" by ")[0].rstrip(";") + ";" if line.startswith("line") else line
                         for line in self.text.split("\n") if not line.startswith("rows"))
        text = text[:text.index("line port")]
        found = Asked(self.folder)("ways", text=text, source=["port", "city"], target=["leg", "a"])
        self.assertEqual([(one["from"], one["by"]) for one in found["choices"]], [("flight", "dep"), ("flight", "arr")])
        self.assertFalse(found["noted"])

    def test_one_way_is_not_asked(self) -> None:
        ask = Asked(self.folder)
        self.assertEqual(ask("ways", text=self.text, source=["flight", "no"], target=["leg", "a"]), {"choices": []})
        teams = (draw_trial.EXAMPLES / "teams" / "mapping.clio").read_text()
        self.assertEqual(ask("ways", text=teams, source=["dept", "city"], target=["person", "phone"]), {"choices": []})


def write(path: pathlib.Path, rows: list[list[str]]) -> None:
    """A table's file."""
    with open(path, "w", newline="", encoding="utf-8") as file:
        csv.writer(file).writerows(rows)


if __name__ == "__main__":
    unittest.main()
