"""clio-explain: what its messages and warnings must say, and must not."""
import unittest

from trial import Trial

EMP = "mapping 1;\nsource { set emp { name, dept; } }\ntarget { set person { name, dept; key (name); } }\n"
REF = """mapping 1;
source { set emp { name, dept; ref (dept) -> dept (dname); } set dept { dname, city; } }
target { set person { name, city; key (name); } }
line emp.name -> person.name;
line dept.city -> person.city;
"""
# each order has a customer, and an address that has one too: a line of it goes both ways
DIAMOND = """mapping 1;
source {
  set customer { id, name, city; key (id); }
  set address { id, owner, street; key (id); ref (owner) -> customer (id); }
  set orders { id, cust, ship, bill; ref (cust) -> customer (id); ref (ship) -> address (id);
    ref (bill) -> address (id); }
}
target {
  set person { pid, name, city; key (pid); }
  set place { lid, owner, street; key (lid); ref (owner) -> person (pid); }
  set sale { no, buyer, ship, bill; key (no); ref (buyer) -> person (pid); ref (ship) -> place (lid);
    ref (bill) -> place (lid); }
}
line customer.name -> person.name;
line customer.city -> person.city;
line address.street -> place.street;
line orders.id -> sale.no;
"""


class Messages(Trial):
    def said(self, *words: str, status: int = 0) -> str:
        """What clio-explain says on standard error."""
        ended, _, said = self.tool("clio-explain", *words)
        self.assertEqual(ended, status, said)
        return said

    def of_mapping(self, text: str, status: int = 4) -> str:
        self.file("mapping.clio", text)
        return self.said("show", status=status)

    def test_comment(self) -> None:
        self.assertIn("a comment begins with //\n", self.of_mapping(EMP + "-- people\nline emp.name -> person.name;"))

    def test_tests_in_rules(self) -> None:
        """A rule has no test of a text; the message says what has."""
        for rule in 'rule emp(n, "toys") -> person(n, n);', 'rule emp(n, d) where d = "toys" -> person(n, d);':
            said = self.of_mapping(EMP + rule)
            self.assertIn("a rule has no test of a text", said)
            self.assertIn("only SET.COLUMN TEST", said)
            self.assertNotIn("here can be", said)

    def test_conversion_in_another(self) -> None:
        for call in "trim(digits(emp.name))", "pair(trim(emp.name), emp.name)", "pair(emp.name, trim(emp.name))":
            said = self.of_mapping(EMP + f"line {call} -> person.name;")
            self.assertIn("conversions can't be nested", said)
            self.assertNotIn("here can be", said)

    def test_curly_quotes(self) -> None:
        self.assertIn("texts are in straight quotes", self.of_mapping(EMP + "line \u201ctoys\u201d -> person.dept;"))

    def test_other(self) -> None:
        """A query is no second mapping."""
        self.file("query.clio", "answer (n) <- person(n, d);")
        self.file("mapping.clio", EMP + "line emp.name -> person.name;")
        said = self.said("compare", status=11)
        self.assertNotIn("query.clio", said)
        self.file("new.clio", EMP)
        self.assertIn("there is new.clio", self.said("compare", status=11))

    def test_space(self) -> None:
        """What keeps two texts from matching may not be seen."""
        self.file("mapping.clio", REF)
        self.file("dept.csv", "dname,city\ntoys,Bonn\n")
        for text in "toys ", "toys\u00a0", '"toys\n"':
            self.file("emp.csv", f"name,dept\nann,{text}\n")
            self.assertIn('differs from "toys" of dept by a space', self.said("exchange"))
        self.file("emp.csv", "name,dept\nann,tools\n")
        self.assertNotIn("by a space", self.said("exchange"))

    def test_type(self) -> None:
        self.file("mapping.clio", EMP + "line emp.name -> person.name; line emp.dept -> person.dept;")
        self.file("emp.csv", "name,dept\nann,0\n")
        self.assertEqual(self.clio("exchange")[0], 0)
        self.file("types.txt", "person.dept boolean\n")
        self.refused("clio-tables", "sqlite", "--types", "types.txt", why="which is no boolean (true or false)")

    def test_quotes(self) -> None:
        """A field that is read otherwise than its writer meant is told with its record and column."""
        self.file("mapping.clio", EMP + "line emp.name -> person.name; line emp.dept -> person.dept;")
        self.file("emp.csv", 'name,dept\n"kim \\"K\\" x",toys\r\nbob,"to""ys"\n\nal,"toys"x\neve,5" disk\n')
        said = self.said("exchange")
        self.assertIn("emp.csv, record 1: column name has text behind its closing quote: a backslash", said)
        self.assertIn("emp.csv, record 3: column dept has text behind its closing quote: what follows", said)
        self.assertEqual(said.count("closing quote"), 2)

    def test_escapes(self) -> None:
        """Control characters of data reach no terminal, and make no lines of their own."""
        self.file("mapping.clio", EMP + "line emp.name -> person.name; line emp.dept -> person.dept;")
        self.file("emp.csv", 'name,dept\n1,\x1b]0;OWNED\x07\n1,"a\nclio: all is well"\n1,\u009b\u202e\x7f\n')
        said = self.said("exchange", status=3)
        self.assertTrue(all(one.isprintable() for one in said.replace("\n", "")), said)
        self.assertNotIn("\nclio: all is well", said)
        self.assertIn("\\u{1b}]0;OWNED\\u{7}", said)
        for escape in "9b", "202e", "7f":
            self.assertIn(f"\\u{{{escape}}}", said)

    def test_many_ways(self) -> None:
        """A limit on lines names the refs and lines that make it, in some lines."""
        names = [f"c{number}" for number in range(20)]
        wide = DIAMOND.replace("id, name, city; key (id)", f"id, name, city, {', '.join(names)}; key (id)").replace(
            "pid, name, city", f"pid, name, city, {', '.join(names)}") + "".join(f"line customer.{name} -> "
                                                                                 f"person.{name};\n" for name in names)
        said = self.of_mapping(wide, 6)
        self.assertTrue(said.startswith("limit: ways 64\n"))
        self.assertIn("most are from orders", said)
        self.assertIn("can have 3 values, as orders (cust) > customer.", said)
        self.assertIn("line customer.", said)
        self.assertIn("without ref (owner) -> customer (id) in address of the source", said)
        self.assertLessEqual(len(said.splitlines()), 41)

    def test_many_variants(self) -> None:
        refs = "".join(f"ref (c{number}) -> b (x) optional; " for number in range(9))
        columns = ", ".join(f"c{number}" for number in range(9))
        said = self.of_mapping(f"mapping 2; source {{ set a {{ {columns}; {refs} }} set b {{ x; }} }} target "
                               f"{{ set t {{ y; }} }} line a.c0 -> t.y;", 6)
        self.assertTrue(said.startswith("limit: variants 256\n"))
        self.assertIn("from a: 512", said)
        self.assertIn("without ref (c0) -> b (x) in a: 257", said)
        self.assertLessEqual(len(said.splitlines()), 41)

    def test_many_cells(self) -> None:
        """Sets that nothing joins make a row for each pair."""
        self.file("mapping.clio", "mapping 1; source { set a { x; } set b { y; } set c { z; } } target { set t { x, y; "
                                  "} }"
                  + "rule c(z) -> t(z, z);" * 60 + "rule a(x), b(y) -> t(x, y);")
        self.file("c.csv", "z\n1\n")
        for name, column in ("a", "x"), ("b", "y"):
            self.file(f"{name}.csv", column + "\n" + "".join(f"{number}\n" for number in range(1500)))
        said = self.said("exchange", status=6)
        self.assertTrue(said.startswith("limit: target cells 4000000\n"))
        self.assertIn("joins a (1,500 rows), b (1,500 rows)", said)
        self.assertIn("nothing joins b to the others", said)
        self.assertLessEqual(len(said.splitlines()), 41)

    def test_deep_sets(self) -> None:
        """A text of any depth is refused with some lines, and no traceback."""
        deep = "set s { x; " * 20_000 + "}" * 20_000
        said = self.of_mapping(f"mapping 1; source {{ {deep} }} target {{ }}", 6)
        self.assertTrue(said.startswith("limit: depth 16\n"), said[:300])
        self.assertIn("this set would be number 17 of those nested in each other", said)
        self.assertLessEqual(len(said.splitlines()), 41)

    def test_rows_that_a_key_joins(self) -> None:
        """Rows whose open key refers on to rows that another key makes one are no rows of their own, and not warned of."""
        text = """mapping 1; source { set sale { id, clerk; } }
            target { set party { pid, name; key (pid); key (name); }
              set employee { eid, desk; key (eid); ref (eid) -> party (pid); }
              set orders { no, seller; key (no); ref (seller) -> employee (eid); } }
            rule sale(i, c) -> orders(i, p), employee(p, "sales"), party(p, c);"""
        self.file("mapping.clio", text)
        self.file("sale.csv", "id,clerk\n1,ann\n2,ann\n3,bob\n")
        self.assertNotIn("a row of its own", self.said("exchange"))
        self.assertEqual(len((self.folder / "out/employee.csv").read_text().splitlines()), 3)
        self.file("mapping.clio", text.replace("key (name);", ""))
        self.assertIn("each match of rule 0 makes a row of its own in employee", self.said("exchange"))

    def test_clash_of_a_literal(self) -> None:
        self.file("mapping.clio", """mapping 1; source { set a { x; } set b { x, k; } }
            target { set t { x, k; key (x); } }
            line a.x -> t.x; line b.x -> t.x; line b.k -> t.k; line "old" -> t.k;""")
        self.file("a.csv", "x\n1\n")
        self.file("b.csv", "x,k\n1,new\n")
        self.assertIn('cause: "old" is a text of the mapping: its line fills t.k in each rule that no other line fills '
                      'there, so in rules 0:',
                      self.said("exchange", status=3))

    def test_clash_of_an_empty_key(self) -> None:
        """Nothing in a key is the cause, not that a rule has a set twice or that two rules fill the column."""
        self.file("mapping.clio", """mapping 1; source { set a { x, tax, boss; } }
            target { set t { x, tax, over; key (x); key (tax); } }
            rule a(x, t, b) -> t(x, t, o);
            rule a(x, t, b), a(b, u, c) -> t(x, t, b);""")
        self.file("a.csv", "x,tax,boss\n1,,3\n2,,3\n3,7,\n")
        said = self.said("exchange", status=3)
        self.assertIn("cause: tax is empty in these rows, and equal empty texts make rows one: a line of a drawing "
                      "leaves it open there by `where COLUMN filled`", said)
        self.assertEqual(said.count("cause: "), 1)

    def test_clash_of_two_refs(self) -> None:
        self.file("mapping.clio", """mapping 1;
            source { set customer { id, name; key (id); }
            set address { id, owner; key (id); ref (owner) -> customer (id); }
              set orders { id, cust, ship; ref (cust) -> customer (id); ref (ship) -> address (id); } }
            target { set sale { no, who; key (no); } }
            line orders.id -> sale.no; line customer.name -> sale.who;""")
        self.file("customer.csv", "id,name\n1,Ann\n2,Bob\n")
        self.file("address.csv", "id,owner\n7,2\n")
        self.file("orders.csv", "id,cust,ship\n5,1,7\n")
        said = self.said("exchange", status=3)
        self.assertRegex(said, "cause: rule [0-9]+ has customer 2 times on its left, by ref ")
        for ref in "ref (cust) -> customer (id) in orders", "ref (owner) -> customer (id) in address":
            self.assertIn(ref, said)

    def test_warnings(self) -> None:
        """A text that no rule has, and a ref to no key, are told; a comment switches off one warning, or one of one
        set.
        """
        text = """mapping 1; source { set a { x, y; } }
            target { set t { x, u; ref (u) -> u (z); } set u { z, v; } set w { v; } }
            line a.x -> t.x; line "old" -> t.x; line a.y -> u.v;"""
        said = self.of_mapping(text, 0)
        self.assertIn('no rule has the text of line "old" -> t.x', said)
        self.assertIn("ref (u) -> u (z) of t leads to columns that are no key of u", said)
        self.assertIn("no rule makes rows of w [unfilled w]", said)
        for off, gone, stays in [("literal", "[literal t]", "[no-key t]"), ("no-key t", "[no-key t]", "[literal t]"),
                                 ("unfilled w", "[unfilled w]", "[no-key t]")]:
            said = self.of_mapping(f"// clio-explain: off {off}\n{text}", 0)
            self.assertNotIn(gone, said)
            self.assertIn(stays, said)
        self.assertIn("[unfilled w]", self.of_mapping(f"// clio-explain: off unfilled t\n{text}", 0))


if __name__ == "__main__":
    unittest.main()
