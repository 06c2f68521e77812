"""clio-rules: what clio makes of the printed mapping is what SQL says, in plain and in core mode."""
import json
import os
import pathlib
import tempfile
import unittest
from collections import Counter

from drawing_cases import cases
from drawing_trial import differences, draw, lines_alone
import random_trees
from random_drawings import tried
from trial import TIMES, Trial

from clio_tools.rules.whole import Faulty


class Cases(Trial):
    def test_cases_are_as_sql_says(self) -> None:
        for case in cases():
            with self.subTest(case.name):
                self.put(case.files)
                draw(self.folder)
                for words in (), ("--core",):
                    self.assertEqual(differences(self.folder, case.wanted, *words), [], words)

    def test_lines_alone_are_otherwise(self) -> None:
        """Where something else came out, the lines without their notes still give it, or are refused."""
        for case in cases():
            if not case.came_out:
                continue
            with self.subTest(case.name, came_out=case.came_out):
                self.put(case.files)
                text = lines_alone((self.folder / "drawing.clio").read_bytes())
                self.file("mapping.clio", text)
                self.assertNotEqual(differences(self.folder, case.wanted), [])

    def put(self, files: dict[str, str]) -> None:
        """A folder with these files alone."""
        for path in self.folder.glob("*.*"):
            path.unlink()
        for path in self.folder.glob("out/*"):
            path.unlink()
        for name, content in files.items():
            self.file(name, content)



HEAD = """mapping 2;
source {
  set ord { no, buyer, payer, note; ref (buyer) -> customer (id); ref (payer) -> customer (id) optional; }
  set customer { id, cname, land; ref (land) -> country (code); }
  set country { code, label; }
  set shop { code; set till { no; } }
  set stray { a; }
}
target {
  set sale { no, who, land, kind, client; key (no); ref (client) -> client (cid) optional; }
  set bare { no, who; }
  set client { cid, cname, land; key (cname); }
  set unit { uname; key (uname); set staff { sid, sname; key (sid); } }
}
"""
ROWS = "rows sale from ord;\nline ord.no -> sale.no;\n"
REFUSED = [  # the end of the drawing, what is said, and the word that is shown
    ("line customer.cname -> sale.who by buyer;", "say from which set the rows of sale come: rows sale from customer;",
     "sale"),
    (ROWS + "line customer.cname -> sale.who;", "several ways lead from ord to customer for sale.who: say which, by "
     "buyer, by payer", "customer"),
    (ROWS + "line customer.cname -> sale.who by land;", "no ref of ord goes by land: buyer leads to customer, payer "
     "leads to customer", "land"),
    (ROWS + "line customer.cname -> sale.who by buyer.note;", "no ref of customer goes by note: land leads to country",
     "note"),
    (ROWS + "line stray.a -> sale.who;", "no ref leads from ord to stray", "stray"),
    (ROWS + "line customer.cname -> sale.who by buyer.land;", "by buyer.land leads from ord to country, and from there "
     "no ref leads to customer", "land"),
    (ROWS + 'line customer.cname -> sale.who by buyer else "none";', "no default for a missing link can be said",
     "else"),
    (ROWS + "line customer.cname -> sale.who by buyer via payer;", "unexpected `via`; here can be `;` or `.` or `from` "
     "or `where`", "via"),
    (ROWS + "line ord.note -> sale.who; line customer.cname -> sale.who by buyer;", "two lines give sale.who a value",
     "who"),
    (ROWS + 'line "x" -> sale.kind from stray;', "the rows of sale come from ord, not from stray", "stray"),
    (ROWS + 'line "x" -> sale.kind from strai;', "the source has no set strai; did you mean stray?", "strai"),
    (ROWS + "line ord.nix -> sale.who;", "ord has no column nix", "nix"),
    (ROWS + "line ord.note -> sale.nix;", "sale has no column nix", "nix"),
    ("rows bare from ord;\nline ord.no -> bare.no;\nline customer.cname -> bare.who by buyer;",
     "are one: give set bare a key of columns that lines fill, or write `with buyer`", "who"),
    ("rows bare from ord with buyer;\nline ord.no -> bare.no;\nline customer.cname -> bare.who by payer;",
     "write `with payer`", "who"),
    ("rows sale from nix;", "the source has no set nix", "nix"),
    ("rows nix from ord;", "the target has no set nix", "nix"),
    ("rows sale from ord;", "no line gives sale a value from ord", "sale"),
    ("rows sale from ord by buyer;\nline ord.no -> sale.no;", "sale is no inner set", "buyer"),
    ("rows sale from ord with note;\nline ord.no -> sale.no;", "no ref of ord goes by note", "note"),
    ("rows staff from ord;\nline ord.no -> staff.sid;", "staff is in unit: say from which set the rows of unit come",
     "staff"),
    ("rows unit from customer;\nline customer.cname -> unit.uname;\nrows staff from ord;\nline ord.no -> staff.sid;",
     "could be in unit in several ways: say which, by buyer, by payer", "ord"),
    ("rows unit from stray;\nline stray.a -> unit.uname;\nrows staff from ord;\nline ord.no -> staff.sid;",
     "no way leads from ord to stray", "ord"),
    (ROWS + "line customer -> sale.client by buyer;", "no row of client comes from customer", "customer"),
    (ROWS + "line customer -> sale.who by buyer;", "sale.who has no ref", "who"),
    (ROWS + "rows client from customer;\nline customer.cname -> client.cname;",
     "sale.client could lead to client in several ways: say which, "
     "line customer -> sale.client by buyer; line customer -> sale.client by payer;", "ord"),
    (ROWS + "rows client from customer;\nline customer.land -> client.land;\nline customer -> sale.client by buyer;",
     "have no key that lines give: each row would make a client of its own. Fill a key of client in every row, by "
     "lines to cname", "client"),
    ("rows client from ord;\nline ord.no -> client.land;\nline customer.cname -> client.cid by buyer;",
     "are one: fill a key of client in every row, by lines to cname, or write `with buyer`", "cid"),
    (ROWS + 'line "x" -> sale.kind where note ~ "x";', "there are no comparisons but `=`", "~"),
    (ROWS + 'line "x" -> sale.kind where note = "x" or note = "y";', "there is no `or`", "or"),
    (ROWS + 'line "x" -> sale.kind where nota = "x";', "ord has no column nota", "nota"),
    (ROWS + 'line "x" -> sale.kind where note = "x";\nline "y" -> sale.kind where note = "x";', "under the same tests",
     "kind"),
    ("rows unit from shop where code filled;\nline shop.code -> unit.uname;",
     "`where .. filled` takes a copy of the set, and shop is in a document", "filled"),
    (ROWS + "line rot13(ord.note) -> sale.who;", "there is no conversion rot13", "rot13"),
    (ROWS + "line pair(ord.note) -> sale.who;", "pair takes 2, and here are 1", "pair"),
    (ROWS + "lookup nix;", "the source has no set nix", "nix"),
    (ROWS + "rule ord(a, b) -> sale(a, b, c, d, e);", "ord has 4 columns (no, buyer, payer, note), and here are 2 "
     "cells", "ord"),
    (ROWS + "rule ord(nix = a) -> sale(no = a);", "ord has no column nix", "nix"),
    (ROWS + "rule ord(no = a, no = b) -> sale(no = a);", "no is here twice", "no"),
    (ROWS + "rule ord(no = a, b) -> sale(no = a);", "unexpected `)`; here can be `=`", ")"),
    (ROWS + "line ord.note -> sale.kind", "the text ends here; here can be `;`", ""),
]


class Refusals(Trial):
    def test_each_shows_its_word(self) -> None:
        for tail, why, word in REFUSED:
            with self.subTest(tail):
                self.file("drawing.clio", HEAD + tail + "\n")
                with self.assertRaises(Faulty) as caught:
                    draw(self.folder)
                fault = next((one for one in caught.exception.faults if why in one.said), None)
                self.assertIsNotNone(fault, [one.said for one in caught.exception.faults])
                if fault:
                    self.assertTrue((HEAD + tail)[fault.start:].startswith(word), fault)

    def test_all_come_at_once_with_line_column_and_caret(self) -> None:
        self.file("drawing.clio", HEAD + ROWS + "line ord.nix -> sale.who;\nline customer.cname -> sale.nox;\n")
        self.refused("clio-rules", why="clio-rules: drawing.clio:17:10: ord has no column nix; it has no, buyer, "
                     "payer, note\n"
                     "  line ord.nix -> sale.who;\n           ^^^\n"
                     "drawing.clio:18:29: sale has no column nox; did you mean no?; it has no, who, land, kind, "
                     "client\n"
                     "  line customer.cname -> sale.nox;\n                              ^^^\n")
        self.file("drawing.clio", HEAD + ROWS + "line customer.cname -> sale.who;\nline stray.a -> sale.kind;\n")
        status, _, said = self.tool("clio-rules")
        self.assertEqual((status, said.count("^")), (2, len("customer" + "stray")))

    def test_a_key_of_which_a_link_is_a_part(self) -> None:
        """What makes two visits one is the place, to which a ref leads that may be missing; and each link of a row has
        its fault."""
        text = ("mapping 1;\nsource { set shop { code; } set ord { no, day, at; ref (at) -> shop (code); }\n"
                "  set item { ord, what, sold; ref (ord) -> ord (no); ref (sold) -> shop (code); } }\n"
                "target { set place { pid, code; key (pid); key (code); }\n"
                "  set visit { vid, place, day; key (vid); key (place, day); ref (place) -> place (pid); }\n"
                "  set thing { visit, place, what; ref (visit) -> visit (vid); ref (place) -> place (pid); } }\n"
                "rows place from shop;\nline shop.code -> place.code;\nrows visit from ord;\n"
                "line ord.day -> visit.day;\nrows thing from item with ord, sold;\nline item.what -> thing.what;\n")
        self.file("drawing.clio", text)
        self.refused("clio-rules", why="thing leads to visit, and what makes two rows of visit one is not there for "
                     "each ord: write rows visit from ord with at;")
        self.refused("clio-rules", why="thing.place could lead to place in several ways: say which, line shop -> "
                     "thing.place by ord.at; line shop -> thing.place by sold;")
        text = text.replace("from ord;", "from ord with at;").replace("with ord, sold;", "with ord.at, sold;")
        self.file("drawing.clio", text + "line shop -> thing.place by sold;\n")
        self.printed("clio-rules")

    def test_a_key_that_a_ref_may_leave_open(self) -> None:
        """The set has a key, and what has to be there for it is said."""
        text = ("mapping 2;\nsource { set shop { code; }\n"
                "  set item { what, sold, made; ref (sold) -> shop (code); ref (made) -> shop (code); } }\n"
                "target { set place { pid, code; key (pid); key (code); }\n"
                "  set thing { place, what, note; key (place, what); ref (place) -> place (pid); } }\n"
                "rows place from shop;\nline shop.code -> place.code;\nrows thing from item;\n"
                "line item.what -> thing.what;\nline shop -> thing.place by sold;\n"
                "line shop.code -> thing.note by made;\n")
        self.file("drawing.clio", text)
        self.refused("clio-rules", why="thing.note is not there for each item, and thing has no key that lines give, "
                     "by which the row with it and the row without it are one: write `with sold`, which its key needs, or "
                     "write `with made` if rows without one are not meant, or `lookup shop;`")
        self.file("drawing.clio", text.replace("from item;", "from item with sold;"))
        self.assertEqual(self.tool("clio-rules")[2], "")
        self.file("drawing.clio", text.replace("line shop.code -> thing.note by made;\n", ""))
        self.refused("clio-rules", why="are one: write `with sold`, which its key needs")

    def test_a_ref_that_may_be_missing_is_remarked_with_both_cures(self) -> None:
        text = ("mapping 2;\nsource { set shop { code; } set item { what, sold; ref (sold) -> shop (code); } }\n"
                "target { set place { pid, code; key (pid); key (code); }\n"
                "  set thing { what, place; key (what); ref (place) -> place (pid); } }\n"
                "rows place from shop;\nline shop.code -> place.code;\nrows thing from item;\n"
                "line item.what -> thing.what;\nline shop -> thing.place by sold;\n")
        self.file("drawing.clio", text)
        self.assertIn("asks for a row of place of nulls: write `with sold`, or make it optional, if that is not meant",
                      self.tool("clio-rules")[2])
        for cured in text.replace("from item;", "from item with sold;"), text.replace("(pid); }", "(pid) optional; }"):
            self.file("drawing.clio", cured)
            self.assertEqual(self.tool("clio-rules")[2], "")

    def test_a_set_without_rows_that_lines_refuse(self) -> None:
        refs = "".join(f" ref (r{n}) -> a (x) optional;" for n in range(8))
        columns = ", ".join(f"r{n}" for n in range(8))
        self.file("drawing.clio", f"mapping 2;\nsource {{ set a {{ x; }} set b {{ y, {columns};{refs} }} }}\ntarget "
                  f"{{ set t {{ u; }} set v {{ w; }} }}\n"
                  "rows t from a;\nline a.x -> t.u;\nline b.y -> v.w;\n")
        self.refused("clio-rules", why="the lines to v, which has no `rows`, are refused (limit: variants 256): say "
                     "from which set its rows come")

    def test_sets_whose_refs_alone_have_lines(self) -> None:
        """Lines to far sets would make their rows in too many ways: all such sets are named, and no line is said to
        lead to them."""
        refs = "".join(f" ref (r{n}) -> a (x) optional;" for n in range(8))
        columns = ", ".join(f"r{n}" for n in range(8))
        far = "".join(f" set {name} {{ id, one; key (id); ref (one) -> u (ux); }}" for name in ("v", "w"))
        text = (f"mapping 2;\nsource {{ set a {{ x; }} set b {{ y, {columns};{refs} }} }}\n"
                f"target {{ set t {{ tx; }} set u {{ ux; key (ux); }}{far} }}\n"
                "rows t from a;\nrows u from a;\nline a.x -> t.tx;\nline a.x -> u.ux;\n")
        self.file("drawing.clio", text)
        for name in "v", "w":
            self.refused("clio-rules", why=f"{name} has no `rows`, and would get rows by the lines to sets that its "
                         "refs lead to: too many (limit: variants 256): say from which set its rows come, rows "
                         f"{name} from SET;")
        self.file("drawing.clio", text + "rows v from a;\nrows w from a;\nline a.x -> v.id;\nline a.x -> w.id;\n")
        self.printed("clio-rules")


class Writing(Trial):
    DRAWING = HEAD + ROWS + 'line "x" -> sale.kind where note = "x";\nline ord.note -> sale.who where note filled;\n'

    def files(self) -> list[str]:
        return sorted(path.name for path in self.folder.iterdir())

    def test_what_is_written_is_what_is_printed_and_stays(self) -> None:
        self.file("drawing.clio", self.DRAWING)
        printed = self.printed("clio-rules")
        self.assertEqual(self.files(), ["drawing.clio"])
        self.printed("clio-rules", "--write")
        self.assertEqual(self.files(), ["drawing.clio", "is_x.csv", "mapping.clio", "ord_note_filled.csv"])
        self.assertEqual((self.folder / "mapping.clio").read_text(), printed)
        self.assertEqual((self.folder / "is_x.csv").read_text(), 'text\n"x"\n')
        self.assertEqual(os.readlink(self.folder / "ord_note_filled.csv"), "ord.csv")
        before = [os.lstat(self.folder / name).st_mtime_ns for name in self.files()]
        self.printed("clio-rules", "--write")
        self.assertEqual([os.lstat(self.folder / name).st_mtime_ns for name in self.files()], before)
        os.rename(self.folder / "mapping.clio",
                  self.folder / "drawing.clio")  # a printed mapping is a drawing without notes
        self.assertEqual(self.printed("clio-rules").split("\n", 1)[1], printed)

    def test_nothing_of_others_is_overwritten(self) -> None:
        self.file("drawing.clio", self.DRAWING)
        self.file("mapping.clio", "mapping 1; source { } target { }")
        self.refused("clio-rules", "--write", why="mapping.clio wasn't printed by clio-rules: move it away first")
        (self.folder / "mapping.clio").unlink()
        self.printed("clio-rules", "--write")
        written = (self.folder / "mapping.clio").read_text()
        self.file("mapping.clio", written + "// mine\n")
        self.refused("clio-rules", "--write", why="was edited by hand since clio-rules printed it")
        self.file("mapping.clio", written)
        for name, why in ("is_x.csv", "is there, with another content"), ("ord_note_filled.csv",
                                                                          "takes it as a second name of ord.csv"):
            (self.folder / name).unlink()
            self.file(name, "mine")
            self.refused("clio-rules", "--write", why=why)
            self.assertEqual((self.folder / name).read_text(), "mine")
            (self.folder / name).unlink()
            self.printed("clio-rules", "--write")
        (self.folder / "far").mkdir()
        (self.folder / "mapping.clio").rename(self.folder / "far" / "mapping.clio")
        os.symlink("far/mapping.clio", self.folder / "mapping.clio")
        self.refused("clio-rules", "--write", why="is a link, and clio-rules writes through none")

    def test_line_ends_stay_and_other_bytes_are_refused(self) -> None:
        self.file("drawing.clio", self.DRAWING.replace("\n", "\r\n"))
        self.printed("clio-rules", "--write")
        self.printed("clio-rules", "--write")
        self.assertIn(b"set country { code, label; }\r\n", (self.folder / "mapping.clio").read_bytes())
        self.assertEqual(self.clio("show")[0], 0)
        self.file("drawing.clio", self.DRAWING.encode() + b"// \xff\n")
        self.refused("clio-rules", why="the text isn't UTF-8 here")

    def test_comments_go_to_their_rules(self) -> None:
        self.file("drawing.clio", HEAD + "// of sales\nrows sale from ord; // all of them\nline ord.no -> "
                  "sale.no;\n\n// who pays\n"
                  "line customer.cname -> sale.who by payer;\n// by hand\nrule stray(a) -> bare(a, b); // still\n// "
                  "the end\n")
        lines = self.printed("clio-rules").split("\n")[lines_of(HEAD) + 1:]
        self.assertEqual(lines, ["", "// of sales", "// all of them", "// sale: a row for each ord",
                                 "rule ord(no, buyer, payer, note) -> sale(no, open_who, "
                                 "open_land, open_kind, open_client);", "// who pays",
                                 "// sale: who of each ord with the customer by payer",
                                 "rule ord(no, buyer, payer, note), customer(payer, cname, land) -> sale(no, cname, "
                                 "open_land, open_kind, open_client);",
                                 "", "// by hand", "// still", "rule stray(a) -> bare(a, b);", "", "// the end", ""])

    def test_a_drawing_without_notes_is_printed_as_it_is(self) -> None:
        text = HEAD + "line ord.no -> sale.no;  // a line\nrule stray(a) -> bare(a, b);\n"
        self.file("drawing.clio", text)
        self.assertEqual(self.printed("clio-rules").split("\n", 1)[1], text)


def lines_of(text: str) -> int:
    return text.count("\n")


class Saying(Trial):
    def test_what_lines_say(self) -> None:
        self.put_case("flights: two airports")
        said = self.printed("clio-rules", "--what-lines-say")
        self.assertIn("leave it out:\n  each flight with the port by dep and the port by arr: leg(no = flight.no, a = "
                      "port.city by dep, "
                      "b = port.city by dep)\n", said)
        self.assertIn("  each port: leg(a = port.city, b = port.city)  [the rows of leg come from flight]\n", said)
        self.assertIn("stays (under the keys of the target):\n  each flight with the port by dep and the port by arr: "
                      "leg(no = flight.no, "
                      "a = port.city by dep, b = port.city by arr)\n", said)
        self.assertIn("The notes add this, which the lines alone don't say:\n  leg: a row for each flight.\n", said)

    def test_proposals_and_choices(self) -> None:
        self.put_case("flights: two airports")
        text = (self.folder / "drawing.clio").read_text()
        (self.folder / "drawing.clio").unlink()
        for note in "rows leg from flight;\n", " by dep", " by arr":
            text = text.replace(note, "")
        self.file("mapping.clio", text)
        choice = "// choose for port.city of each flight: by dep or by arr\n"
        proposed = self.printed("clio-rules", "--propose")
        self.assertEqual(proposed.split("}\n")[-1], "rows leg from flight;\nline flight.no -> leg.no;\n" + choice +
                         "line port.city -> leg.a;\n" + choice + "line port.city -> leg.b;\n")

    def test_links_are_proposed_as_comments(self) -> None:
        """A ref that could go several ways, and the rows of a set of nothing but refs."""
        text = """mapping 1;
source {
  set ord { no, bill, ship; ref (bill) -> addr (id); ref (ship) -> addr (id); }
  set addr { id, town; }
  set note { ord, addr; ref (ord) -> ord (no); ref (addr) -> addr (id); }
}
target {
  set place { pid, old; key (pid); key (old); }
  set sale { sid, no, kind, at, home; key (sid); key (no); ref (at) -> place (pid); ref (home) -> place (pid); }
  set seen { sale, place; ref (sale) -> sale (sid); ref (place) -> place (pid); }
}
line addr.id -> place.old;
line "x" -> sale.kind;
line ord.no -> sale.no;
"""
        self.file("mapping.clio", text)
        either = "line addr -> sale.{0} by bill; or line addr -> sale.{0} by ship;\n"
        self.assertEqual(self.printed("clio-rules", "--propose").split("}\n")[-1],
                         "rows place from addr;\nline addr.id -> place.old;\nrows sale from ord;\n"
                         "// choose for sale.at of each ord: " + either.format("at") +
                         "// choose for sale.home of each ord: " + either.format("home") +
                         'line "x" -> sale.kind;\nline ord.no -> sale.no;\n// rows seen from note;\n')

    def test_data_has_places_ways_rules_and_faults(self) -> None:
        self.put_case("flights: two airports")
        text = (self.folder / "drawing.clio").read_text()
        data = json.loads(self.printed("clio-rules", "--json"))
        self.assertEqual(data["sets"]["leg"]["rows"][0]["key"], ["no"])
        line = data["lines"][1]
        self.assertEqual(text[line["start"]:line["end"]], "line port.city -> leg.a by dep;")
        self.assertEqual(line["arguments"][0]["ways"], {"flight": ["dep", "arr"]})
        self.assertEqual([rule["says"] for rule in data["rules"]][1], "leg: a of each flight with the port by dep")
        self.file("drawing.clio", text.replace("by dep", "by dip"))
        data = json.loads(self.printed("clio-rules", "--json"))
        self.assertEqual([(fault["line"], fault["column"]) for fault in data["faults"]], [(6, 28)])

    def put_case(self, name: str) -> None:
        case = next(one for one in cases() if one.name == name)
        for file, content in case.files.items():
            self.file(file, content)


class Lookups(Trial):
    def test_what_a_set_gets_later_is_looked_up_too(self) -> None:
        """b has got its place before a asks b for more: all links are in one rule for each set still."""
        self.file("drawing.clio", """mapping 1;
source {
  set f { no, a, b; ref (a) -> a (id); ref (b) -> b (id); }
  set a { id, b; ref (b) -> b (id); }
  set b { id, c, x; ref (c) -> c (id); }
  set c { id, x; }
}
target { set t { x, y; } }
rows t from f;
line b.x -> t.x by b;
line c.x -> t.y by a.b.c;
lookup a, b, c;
""")
        rules = [line for line in self.printed("clio-rules").split("\n") if line.startswith("rule ")]
        self.assertEqual([rule.split("(")[0] for rule in rules], ["rule f", "rule b", "rule a", "rule c"])
        self.assertTrue(all(rule.split(" -> ")[0].count("(") == 1 for rule in rules), rules)


class Sizes(Trial):
    def test_too_many_cells_are_refused_before_the_run(self) -> None:
        """12 optional links and 30,000 rows: 13 rules of 13 cells are past the limit; with `lookup` clio runs it."""
        links = range(12)
        keys, values = (", ".join(f"{letter}{n}" for n in links) for letter in "kv")
        refs = "".join(f" ref (k{n}) -> d{n} (id) optional;" for n in links)
        source = f"set f {{ no, {keys};{refs} }}\n" + "".join(f"set d{n} {{ id, v; }}\n" for n in links)
        lines = "".join(f"line d{n}.v -> t.v{n};\n" for n in links)
        text = (f"mapping 2;\nsource {{\n{source}}}\ntarget {{ set t {{ no, {values}; key (no); }} }}\nrows t from f;\n"
                f"line f.no -> t.no;\n{lines}")
        self.file("drawing.clio", text)
        rows = [[str(row), *[str((row + n) % 12) for n in links]] for row in range(30000)]
        self.file("f.csv", f"no,{keys}\n".replace(" ", "") + "".join(",".join(row) + "\n" for row in rows))
        for n in links:
            self.file(f"d{n}.csv", "id,v\n" + "".join(f"{row},{n}-{row}\n" for row in range(10)))
        count = sum(13 * (30000 if not way else 25000) for way in range(13))
        self.refused("clio-rules", "--write", why=f"the rules make {count:,} cells of the files here, and clio takes "
                     f"4,000,000 (target cells): write "
                     "`lookup d0, d1, d2, d3,")
        self.printed("clio-rules", "--write", "--large")
        self.file("drawing.clio", text + "lookup " + ", ".join(f"d{n}" for n in links) + ";\n")
        self.printed("clio-rules", "--write")
        self.assertEqual(self.clio("exchange")[0], 0)
        written = (self.folder / "out/t.csv").read_text().split("\n")[1:-1]
        value = {line.split(",")[0]: line.split(",")[1:] for line in written}
        self.assertEqual(len(value), 30000)
        self.assertEqual(value["3"][:7], [f"{n}-{3 + n}" for n in range(7)])
        self.assertTrue(all(cell.startswith("?") for cell in value["3"][7:9]))


class Limits(Trial):
    """What is past a limit of clio is said with the count, where it comes from, and what to write."""

    def said(self, source: str, target: str, notes: str, why: str) -> None:
        """The drawing is refused so."""
        self.file("drawing.clio", f"mapping 2;\nsource {{ {source} }}\ntarget {{ {target} }}\n{notes}\n")
        self.refused("clio-rules", "--write", why=why)

    def test_rules(self) -> None:
        links, sets = range(43), range(6)
        keys = ", ".join(f"k{n}" for n in links)
        refs = " ".join(f"ref (k{n}) -> d (id) optional;" for n in links)
        self.said("".join(f"set f{n} {{ no, {keys}; {refs} }} " for n in sets) + "set d { id, v; }",
                  "".join(f"set t{n} {{ no, {keys}; key (no); }} " for n in sets),
                  "".join(f"rows t{n} from f{n};\nline f{n}.no -> t{n}.no;\n" + "".join(
                      f"line d.v -> t{n}.k{link} by k{link};\n" for link in links) for n in sets),
                  "drawing.clio:4:1: the drawing means 264 rules, and clio takes 256: write `lookup d;`, by which the "
                  "links of a row are in one rule, or make two drawings\n  rows t0 from f0;\n  ^^^^^^^^^^^^^^^^")

    def test_sets(self) -> None:
        more = " ".join(f"set s{n} {{ x; }}" for n in range(63))
        self.said("set f { x, y, z; } " + more, "set t { x; key (x); }",
                  'rows t from f where y = "a", z = "b";\nline f.x -> t.x;',
                  "the source has 66 sets with the 2 that tests take, and clio takes 64: leave out sets, or tests")
        self.said("set f { a, x; ref (a) -> d (id); } set d { id, v; }", "set t { x, y; key (x); } " + more,
                  "rows t from f;\nline f.x -> t.x;\nline d.v -> t.y;\nlookup d;",
                  "the target has 65 sets with the 1 of `lookup`, and clio takes 64: look up fewer sets, or make two")

    def test_columns(self) -> None:
        columns = [f"c{n}" for n in range(40)]
        self.said(f"set f {{ a; ref (a) -> d (id); }} set d {{ id, {', '.join(columns)}; }}",
                  "".join(f"set t{n} {{ {', '.join(columns)}; }} " for n in range(2)),
                  "rows t0 from f;\nrows t1 from f;\n" + "".join(
                      f"line d.{one} -> t0.{one};\nline trim(d.{one}) -> t1.{one};\n" for one in columns) + "lookup d;",
                  "lookup_d has 81 columns, one for each value that links take from d, and clio takes 64: leave d out of"
                  " `lookup`\n  lookup d;\n         ^")

    def test_rows_at_once(self) -> None:
        way = ".".join(["mgr"] * 64)
        self.said("set emp { id, mgr; ref (mgr) -> emp (id); }", "set t { x; key (x); }",
                  f"rows t from emp with {way};\nline emp.id -> t.x;",
                  "a rule of these rows goes along 64 links and tests, and clio takes 64 sets on a side of a rule: leave "
                  "some to another `rows` of t")


class Random(Trial):
    def test_random_drawings_are_as_sql_says(self) -> None:
        tally: Counter[str] = Counter()
        for number in range(25 * TIMES):
            with tempfile.TemporaryDirectory() as name:
                self.assertIsNone(tried(f"gate.{number}", pathlib.Path(name), tally), number)
        self.assertGreater(tally["as SQL says"], 20 * TIMES)

    def test_random_trees_are_copied(self) -> None:
        for number in range(8 * TIMES):
            with tempfile.TemporaryDirectory() as name:
                self.assertIsNone(random_trees.tried(f"gate.{number}", pathlib.Path(name)), number)


if __name__ == "__main__":
    unittest.main()
