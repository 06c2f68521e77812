"""clio-explain on lines that say more than was meant, with the notes of a drawing that would say it; and on mappings that
clio-rules printed, whose rules it leads back to the drawing."""
import os

from drawing_cases import cases
from drawing_trial import clio, lines_alone
from trial import Trial

from clio_tools.explain.drawn import with_drawing
from clio_tools.explain.endings import explained


class Explained(Trial):
    """What hurts in lines alone is said with the notes that would say what was meant."""

    SOURCE = "source { set f { no, dep, arr; ref (dep) -> p (code); ref (arr) -> p (code); } set p { code, city; } }\n"
    HEAD = "a drawing says what is meant: name the text drawing.clio, put these in"

    def said(self, text: str, *words: str) -> str:
        """What clio-explain says of a mapping."""
        self.file("mapping.clio", text)
        return self.tool("clio-explain", *words)[2]

    def test_each_case_that_hurts_is_said(self) -> None:
        """But for what lines say as it is meant, or what no rule of lines shows: a test, a manager, named cells."""
        unseen = {"firm and private: a test and its complement", "employees and their managers",
                  "rules with named cells, beside rows", "a text for an empty field, another for each code"}
        before = os.getcwd()
        self.addCleanup(os.chdir, before)
        for number, case in enumerate(case for case in cases() if case.came_out and case.name not in unseen):
            with self.subTest(case.name):
                for name, content in case.files.items():
                    self.file(f"{number}/{name}", content)
                folder = self.folder / str(number)
                text = lines_alone((folder / "drawing.clio").read_bytes())
                self.file(f"{number}/mapping.clio", text)
                os.chdir(folder)
                status, _, message = clio(folder, "exchange")
                said = list(explained(status, message, ["exchange"]))
                self.assertTrue(any(line.startswith(self.HEAD) for line in said), said)
                self.assertTrue(any(line.startswith("   rows ") for line in said), said)
                os.chdir(before)

    def test_a_clash_of_two_ways(self) -> None:
        self.file("f.csv", "no,dep,arr\n1,a,b\n")
        self.file("p.csv", "code,city\na,A\nb,B\n")
        text = (f"mapping 1;\n{self.SOURCE}target {{ set leg {{ no, a; key (no); }} }}\n"
                "line f.no -> leg.no;\nline p.city -> leg.a;\n")
        said = self.said(text, "exchange")
        self.assertIn(self.HEAD, said)
        self.assertIn("     rows leg from f;\n     line p.city -> leg.a by dep;  // or by arr\n", said)
        # pasted in the place of the lines that they repeat, they are a drawing
        self.file("drawing.clio", text.replace("line p.city -> leg.a;",
                                               "rows leg from f;\nline p.city -> leg.a by dep;  // or by arr"))
        (self.folder / "mapping.clio").unlink()
        self.printed("clio-rules", "--write")
        self.assertEqual(self.clio("exchange")[0], 0)

    def test_a_drawing_without_its_mapping(self) -> None:
        """The text has its name, and what makes the mapping of it is said."""
        self.file("drawing.clio", f"mapping 1;\n{self.SOURCE}target {{ set leg {{ no; }} }}\nrows leg from f;\n"
                  "line f.no -> leg.no;\n")
        said = self.tool("clio-explain", "show")[2]
        self.assertIn("there is drawing.clio: clio-rules --write makes mapping.clio of it", said)
        self.assertNotIn("rename it", said)
        self.printed("clio-rules", "--write")
        self.assertEqual(self.clio("show")[0], 0)

    def test_limits_of_lines(self) -> None:
        refs = "".join(f" ref (k{n}) -> d (id) optional;" for n in range(8))
        keys = ", ".join(f"k{n}" for n in range(8))
        said = self.said(f"mapping 2;\nsource {{ set f {{ no, {keys};{refs} }} set d {{ id, v; }} }}\ntarget "
                         f"{{ set t {{ no, v; key (no); }} }}\n"
                         "line f.no -> t.no;\nline d.v -> t.v;\n", "show")
        self.assertIn("limit: variants 256", said)
        self.assertIn(self.HEAD, said)
        self.assertIn("     rows t from f;\n     line d.v -> t.v by k0;  // or by k1 or by k2 or by k3", said)

    def test_phantom_rows(self) -> None:
        said = self.said(f"mapping 1;\n{self.SOURCE}target {{ set leg {{ a, b; }} }}\nline p.city -> leg.a;\nline "
                         f"p.city -> leg.b;\n", "show")
        self.assertIn("rule 1 has p twice on its left", said)
        self.assertIn(self.HEAD, said)

    def test_nothing_is_said_of_what_is_clear(self) -> None:
        self.file("f.csv", "no,x\n1,a\n1,b\n")
        said = self.said("mapping 1;\nsource { set f { no, x; } }\ntarget { set t { no, x; key (no); } }\nline f.no -> "
                         "t.no;\nline f.x -> t.x;\n", "exchange")
        self.assertIn("clash", said)
        self.assertNotIn("drawing", said)

    def test_rows_without_the_key_that_others_have(self) -> None:
        said = self.said("mapping 2;\nsource { set ord { no, cust; ref (cust) -> customer (id) optional; } set customer "
                         "{ id, cname; } }\ntarget { set sale { no, who; key (no); } }\nline ord.no -> sale.no;\n"
                         "line customer.cname -> sale.who;\n", "show")
        self.assertIn("makes rows of sale from customer without the key (no), which rule 0 fills", said)
        self.assertIn("     rows sale from ord;\n", said.replace("clio-explain: ", "  "))

    def test_an_inner_set_comes_from_rows_that_know_the_outer_one(self) -> None:
        case = next(case for case in cases() if case.name == "enrolments alone")
        self.file("mapping.clio", lines_alone(case.files["drawing.clio"].encode()))
        self.assertIn("rows takes from enrol with c;\n", self.printed("clio-rules", "--propose"))


class Printed(Trial):
    """Rules have numbers; what was written are the lines of a drawing."""

    def setUp(self) -> None:
        super().setUp()
        self.file("drawing.clio", """mapping 1;
source { set f { no, dep; ref (dep) -> p (code); } set p { code, city; } set g { city; } }
target { set stop { city; key (city); } set leg { no, a; key (no); ref (a) -> stop (city); } }
rows leg from f;
rows stop from p;  // each place
line f.no -> leg.no;
line p.city -> leg.a;
line p.city -> stop.city;
rule g(city = c) -> leg(a = c);
""")
        self.file("f.csv", "no,dep\n1,a\n")
        self.file("p.csv", "code,city\na,A\na,B\n")
        self.file("g.csv", "city\nC\n")
        self.printed("clio-rules", "--write")

    def test_rules_are_of_lines(self) -> None:
        status, out, said = self.tool("clio-explain", "exchange")
        self.assertEqual((status, out), (3, ""))
        self.assertIn("  rule 1 is of drawing.clio: leg: a of each f with the p by dep\n"
                      "     line 4: rows leg from f;\n     line 7: line p.city -> leg.a;\n", said)
        self.assertNotIn("rule 2 is of", said)  # it has no part in the clash

    def test_a_set_twice_is_meant(self) -> None:
        """In a rule that a drawing means it is no cause of a clash."""
        self.file("drawing.clio", """mapping 1;
source { set e { no, name, boss; ref (boss) -> e (no); } }
target { set p { no, name, boss; key (no); } }
rows p from e;
line e.no -> p.no;
line e.name -> p.name;
line e.name -> p.boss by boss;
""")
        self.file("e.csv", "no,name,boss\n1,ann,2\n1,ann,3\n2,bob,\n3,cyd,\n")
        (self.folder / "mapping.clio").unlink()
        self.printed("clio-rules", "--write")
        status, _, said = self.tool("clio-explain", "exchange")
        self.assertEqual(status, 3)
        self.assertNotIn("leave out a ref", said)
        self.assertIn("is of drawing.clio: p: boss of each e with the e by boss", said)

    def test_columns_that_a_test_reads_by_another_name(self) -> None:
        """A file of which a drawing has a second name, for a test, is looked at once."""
        self.file("drawing.clio", """mapping 2;
source { set e { no, tax, note; } }
target { set p { no, tax; key (no); key (tax); } }
rows p from e;
line e.no -> p.no;
line e.tax -> p.tax where tax filled;
""")
        self.file("e.csv", "no,tax,note\n1,,x\n2,7,y\n3,,z\n")
        (self.folder / "mapping.clio").unlink()
        self.printed("clio-rules", "--write")
        said = self.tool("clio-explain", "exchange")[2]
        self.assertIn("no rule uses 1 column of e: note [unused e]", said)
        self.assertEqual(said.count("[unused"), 1, said)

    def test_a_rule_that_follows_from_another_has_no_number(self) -> None:
        """The rule of stop follows from a later one: clio's numbers are those without it."""
        self.file("drawing.clio", """mapping 1;
source { set f { x; } }
target { set stop { x; } set leg { x; } }
rows stop from f;
rows leg from f;
line f.x -> stop.x;
line f.x -> leg.x;
rule f(x = v) -> stop(x = v), leg(x = v), stop(x = "s");
""")
        self.file("f.csv", "x\n1\n")
        self.printed("clio-rules", "--write")
        self.assertEqual(self.clio("show")[1].count("rule "), 1)
        self.assertEqual(self.clio("exchange")[0], 0)
        self.file("given/stop.csv", "x\n1\n")
        self.file("given/leg.csv", "x\n1\n")
        said = self.tool("clio-explain", "judge")[2]
        self.assertIn("rule 0 is of drawing.clio: a rule of the drawing\nclio-explain:    line 8: rule f(x = v) -> ", said)

    def test_numbers_of_other_rules(self) -> None:
        """Those of the other mapping of a comparison, and those before any rule is left out, are no numbers of these."""
        before = os.getcwd()
        self.addCleanup(os.chdir, before)
        os.chdir(self.folder)
        content = (self.folder / "mapping.clio").read_bytes()
        for line in ("rule 1 of other.clio doesn't follow from mapping.clio", "rule 1 (before any is left out) has"):
            self.assertEqual(list(with_drawing([line], "", content)), [line])
        self.assertEqual(len(list(with_drawing(["rule 1 of mapping.clio"], "rules 0, 1", content))), 1 + 3 + 3)
        said = list(with_drawing(["it is in 2 matches (1 of rule 0, 1 of rule 2)"], "", content))
        self.assertEqual([line[:20] for line in said if " is of " in line], ["rule 0 is of drawing", "rule 2 is of drawing"])
        os.chdir(before)

    def test_another_drawing(self) -> None:
        content = (self.folder / "drawing.clio").read_text().replace("rows stop from p;  // each place\n", "")
        self.file("drawing.clio", content)
        said = self.tool("clio-explain", "exchange")[2]
        self.assertIn("mapping.clio isn't what drawing.clio means now: clio-rules --write prints it anew", said)
        self.assertNotIn("rule 1 is of", said)
        (self.folder / "drawing.clio").unlink()
        self.assertIn("mapping.clio isn't what drawing.clio means now", self.tool("clio-explain", "exchange")[2])
