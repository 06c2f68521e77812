"""The cases that dev/test tries: the files of a folder, the words, the status, and what must be said."""
from collections.abc import Callable, Mapping

from typing import NamedTuple


Content = str | bytes | None | Callable[[], str]  # of a file; None is a folder
Files = Mapping[str, Content]


class Case(NamedTuple):
    """A folder with what must be said of it, in this order."""
    name: str
    files: Files
    status: int
    wanted: list[str]
    words: tuple[str, ...] = ("exchange",)


EMP = ("mapping 1;\nsource { set emp { name, dept; } }\ntarget { set person { name, dept; key (name); } }\n"
       "line emp.name -> person.name;\nline emp.dept -> person.dept;\n")
CLUB = ("mapping 1; source { set club { cname; set member { mname, age; } } } target { set seen { who, years, club; } }"
        "line member.mname -> seen.who; line member.age -> seen.years; line club.cname -> seen.club;")
SIDES = "mapping 1; source { set a { x, y; } } target { set b { x, y; } } "
LONG = "a" * 5_000_000


def text(name: str, content: Content, *wanted: str) -> Case:
    """A mapping text that is refused."""
    return Case(name, {"mapping.clio": content}, 4, list(wanted), ("show",))


def rows(name: str, content: Content, *wanted: str, status: int = 5) -> Case:
    """A table that is refused."""
    return Case(name, {"mapping.clio": EMP, "emp.csv": content}, status, list(wanted))


def document(name: str, content: Content, *wanted: str) -> Case:
    """A document that is refused."""
    return Case(name, {"mapping.clio": CLUB, "club.json": content}, 5, list(wanted))


def limit(name: str, content: Content, *wanted: str, files: Files | None = None,
          words: tuple[str, ...] = ("show",)) -> Case:
    """A limit that is passed."""
    return Case(name, {"mapping.clio": content, **(files or {})}, 6, [*wanted, "what to do: "], words)


TEXTS = [
    Case("no mapping", {"my.clio": "// a text\nmapping 1;", "query.clio": "answer (x) <- b(x, y);",
                        "sub/mapping.clio": ""}, 4, ["there is my.clio", "these folders have one: sub"], ("show",)),
    text("cut", "mapping 1; source {", "line 1, column 20:", "here can be `set` or `}`", "1 bracket not closed",
         "line 1, column 19:"),
    text("a word of a later version", "mapping 1; source{set a{x; ref (x) -> b (x) optional;} set b{x;}}",
         "`optional` takes version 2: begin with mapping 2;"),
    text("a condition in version 1", SIDES + "only a.x filled;", "`only` takes version 2"),
    text("another version", "mapping 9;", "mapping 9;\n" + " " * 12 + "^", "here can be `1`"),
    text("a bracket in the place of a mark", "mapping 1;\r\nsource{set emp{name}}", "line 2, column 20:",
         "here can be `,` or `;`"),
    text("a hyphen", "mapping 1;source{set e-mail{x;}}", "column 23:", "a name has letters, digits and _ alone"),
    text("a byte order mark", b"\xef\xbb\xbfmapping 1;", "line 1, column 1:", "byte order mark"),
    text("an accent", SIDES + "line a.\u00fc -> b.x;", "names are of the letters A to Z"),
    text("an escape", SIDES + 'line "a\\n" -> b.x;', '\\" and \\\\ are the only escapes'),
    text("a text that isn't UTF-8", SIDES.encode() + b'line "\xff" -> b.x;', "\\xff", "UTF-8"),
    text("an open text", SIDES + 'line "a -> b.x;\n', "is on one line"),
    text("an unknown column", "mapping 1;\nsource { set emp { name; } }\ntarget { set person { name; } }\nline emp.nam "
                              "-> person.name;",
         "line 4, column 10:", "    line emp.nam -> person.name;\n" + " " * 13 + "^^^\n", "the columns of emp: name",
         "perhaps name"),
    text("a set of the other side", SIDES + "line b.x -> b.x;", "b is a set of the target",
         "the sets of the source: a"),
    text("an unknown conversion", SIDES + "line upper(a.x) -> b.x;", "the conversions: trim, digits, pair"),
    text("a conversion of one column", SIDES + "line pair(a.x) -> b.x;", "pair takes 2 columns, and here are 1"),
    text("an atom that is too short", SIDES + "rule a(x) -> b(x, y);", "1 cell for 2 columns: a(x, y)"),
    text("a variable of nothing", SIDES + "rule a(x, y) where z = trim(w) -> b(x, z);", "the rule's left side: x, y"),
    text("a variable twice", SIDES + "rule a(x, y) where x = trim(y) -> b(x, y);", "x is taken already"),
    text("a set twice", "mapping 1;source{set a{x;}set a{y;}}target{}", "column 31:", "it is there already:",
         "column 22:"),
    text("a key of nothing", "mapping 1;source{set a{x;key(z);}}target{}", "the columns of a: x"),
    text("a ref to nothing", "mapping 1;source{set a{x;ref(x)->c(x);}set b{x;}}target{}",
         "the sets of this side: a, b"),
    text("a ref of two columns to one", "mapping 1;source{set a{x,y;ref(x,y)->b(z);}set b{z;}}target{}",
         "ref (x, y) -> b (z): 2 columns and 1"),
    text("a circle", "mapping 1;source{set b{y;ref(y)->c(z);} set c{z; ref(z)->b(y);}}target{}", "b (y) -> c (z) -> b"),
    text("a reserved name", "mapping 1;source{}target{set fold{x;}}", "^^^^", "nulls.csv and fold.csv"),
    Case("a folder in the place of the mapping", {"mapping.clio": None}, 7, ["is a folder"], ("show",)),
]
ROWS = [
    Case("no table", {"mapping.clio": EMP, "Emp.csv": "", "emp.json": ""}, 5,
         ["emp.json is there", "there is Emp.csv", "echo 'name,dept' > emp.csv"]),
    rows("an empty file", "", "0 bytes", "name,dept"),
    rows("semicolons", "name;dept\n", "expected: name,dept", "found:    name;dept", "semicolons"),
    rows("another order", "dept,name\n", "another order"),
    rows("capitals", "Name, dept\n", "only capitals or spaces differ"),
    rows("a control character in a header", "na\x1b[31mme,dept\n", "na\\u{1b}[31mme"),
    rows("a column more", "name,dept,x\n", "column 3: expected no column, found \"x\"", "not declared: x"),
    rows("UTF-16", "name,dept\n".encode("utf-16"), "iconv -f UTF-16"),
    rows("a short record", "name,dept\n\"a\nb\",c\n\nbob\n", "record 2 of emp.csv begins on line 5 and has 1 field",
         'name = "bob"', "dept: no field"),
    rows("an open quote", "name,dept\na,b\n\"bob\nx,y\n", "begins on line 3", "2 line ends", "never closed"),
    rows("Latin-1", b"name,dept\na,b\nKurt G\xf6del,\n", "line 3", 'name = "Kurt G\\xf6del"', "byte 7",
         '"Kurt G\u00f6del"'),
    rows("a field of 5 MB", "name,dept\n" + LONG + "\n", "5000000 characters"),
    rows("a byte 0 and \\.", "name,dept\n\0,\\.,\r\n", 'name = "\\u{0}"', 'dept = "\\\\."', '(no column) = ""'),
    Case("a folder", {"mapping.clio": EMP, "emp.csv": None}, 7, ["is a folder"]),
    Case("a circle of links", {"mapping.clio": EMP, "emp.csv": "->emp.csv"}, 7, ["in a circle"]),
]
DOCUMENTS = [
    document("an object", '{"club": []}', "here is an object", "the object has arrays: club"),
    document("a number in the place of an object", "[1]", "column 2:", "here must be an object of club"),
    document("a fraction", '[{"cname":"\u00fc",\n  "member":[{"mname":"x","age":7.50}]}]', "line 2, column 32:",
             'write it as a text: "7.50"'),
    document("a member with a stroke", '[{"cname":1.5,"x/y":0}]', "column 21:",
             "the columns cname and the inner sets member"),
    document("an object in the place of an array", '[{"member":{}}]', "member is an inner set"),
    document("an array in the place of a text", '[{"cname":["a"]}]', "cname is a column of club"),
    document("a cut document", '[{', "column 3:", "the document ends here"),
    document("half a character", '[{"cname":"\\ud800"}]', "half of a character"),
    document("too large a number", '[{"cname":1e999}]', "too large"),
    document("no UTF-8", b'[{"cname":"\xff"}]', "no UTF-8"),
    document("deep nesting", "[" * 200 + "]" * 200, "200 deep"),
    Case("no document", {"mapping.clio": CLUB, "club.csv": ""}, 5, ["club.csv is there", "echo '[]' > club.json"]),
]
CHAIN = "".join(f"set {name} {{ x; " + f"ref (x) -> {other} (x); " * 4 + "} " for name,
                other in zip("abc", "bcd")) + "set d { x; } "
LIMITS = [
    limit("bytes", EMP + " " * 1_048_576, "bytes; 1,048,576 can be read"),
    limit("sets", "mapping 1; source {" + "".join(f"set s{n} {{ x; }}" for n in range(65)) + "} target {}",
          "the source has 65 sets"),
    limit("columns", "mapping 1; source { set s {" + ", ".join(f"c{n}" for n in range(65)) + "; } } target {}",
          "s of the source has 65 columns", "^"),
    limit("depth", "mapping 1; source {" + "".join(f"set s{n} {{ x; " for n in range(17)) + "}" * 17 + "} target {}",
          "number 17", "^^^"),
    limit("lines", SIDES + "line a.x -> b.x;" * 513, "513 lines"),
    limit("occurrences", "mapping 1; source {" + CHAIN + "} target { set t { y; } } line a.x -> t.y;",
          "from a of the source follow 85 tables", "b (21)"),
    limit("occurrences of a rule", SIDES + "rule " + ", ".join(["a(x, y)"] * 65) + " -> b(x, y);",
          "this hand-written rule has 65 sets on its left", "^"),
    limit("ways", "mapping 1; source { set a {" + ", ".join(f"c{n}" for n in range(13))
          + "; } } target { set b { v, w, x, y, z; } }"
          + "".join(f"line a.c{n} -> b.{name};" for n in range(13) for name in "vwxyz"), "most are from a", "to b",
          "65; 64 are allowed", "b.v can have 13 values, as a.c0, a.c1, a.c2, and 10 more"),
    limit("candidates", "mapping 1; source { set a { x, y; } } target { set b {" + ", ".join(f"c{n}" for n in range(11))
          + "; } }"
          + "".join(f"line a.{name} -> b.c{n};" for n in range(11) for name in "xy"), "most are from a", "to b",
          "2,048; 1,024 are allowed", "b.c0 can have 2 values, as a.x, a.y"),
    limit("rules", "mapping 1; source { set a { x, y; } } target { set b {" + ", ".join(f"c{n}" for n in range(9))
          + "; } }"
          + "".join(f"line a.{name} -> b.c{n};" for n in range(9) for name in "xy"), "512 rules"),
    limit("frozen cells", "mapping 1; source { set a { x; } } target { set p {" + ", ".join(f"c{n}" for n in range(7))
          + "; } }"
          + ("rule " + ", ".join(f"a(x{n})" for n in range(7)) + " -> p(" + ", ".join(f"x{n}" for n in range(7))
             + ");") * 2,
          "a 7 times", "823,543 matches"),
]
WRITES = [
    Case("out is a file", {"mapping.clio": EMP, "emp.csv": "name,dept\n", "out": ""}, 8,
         ["out/rules.txt", "out is a file"]),
    Case("a folder in the place of a file", {"mapping.clio": EMP, "emp.csv": "name,dept\n", "out/person.csv": None, },
         8,
         ["file 3 of 5", "out/person.csv is a folder", "rules.txt, script.sql are written"]),
    Case("a link in the place of a file",
         {"mapping.clio": EMP, "emp.csv": "name,dept\n", "out/rules.txt": "->/nowhere/at/all"}, 0, []),
    Case("out is a link to a folder", {"mapping.clio": EMP, "emp.csv": "name,dept\n", "out": "->."}, 8,
         ["out is a link to ."]),
    Case("out is a link to nothing", {"mapping.clio": EMP, "emp.csv": "name,dept\n", "out": "->nowhere"}, 8,
         ["out is a link to nowhere"]),
    Case("no words", {}, 2, ["there is no command"], ()),
    Case("help", {}, 2, ["man clio"], ("--help",)),
    Case("a word twice", {}, 2, ["`--core` is there twice"], ("exchange", "--core", "--core")),
    Case("a number with a zero", {}, 2, ["`007` is no word", "from 1 to 100000"], ("demo", "007")),
    Case("a word of another command", {}, 2, ["`--nested` is no word that show takes"], ("show", "--nested")),
    Case("control characters in a word", {}, 2, ["`\\u{1b}[31m` is no command"], ("\x1b[31m",)),
    Case("a demo", {}, 0, [], ("demo", "5")),
]
CLASHES = [
    Case("two clashes", {"mapping.clio": EMP, "emp.csv": "name,dept\nann,1\nbob,2\n\nann,3\nbob,4\nkim,5\nann,\"say "
                                                         "\"\"x\"\"\n\"\n"}, 3,
         ["2 clashes in all", '. person, name = "ann": column dept has 3 texts: "1", "3", "say \\"x\\"\\u{a}"',
          '"1" by rule 0', "from emp.csv, line 2 (record 1)",
          '"3" by', "line 5 (record 3)", "line 8 (record 6)"]),
    Case("a clash of an inner set", {"mapping.clio": CLUB.replace("club; } }", "club; key (who); } }"),
                                     "club.json": '[{"cname":"A","member":[{"mname":"x","age":7},'
                                                  '{"mname":"x","age":8}]}]'}, 3,
         ["seen, who = \"x\": column years", "from club.json/0/member/0: mname = \"x\", age = \"7\"",
          " and club.json/0: cname = \"A\"", "club.json/0/member/1"]),
    Case("a clash after steps", {"mapping.clio": "mapping 1; source { set a { x, v; } } target { set p { id, g; key "
                                                 "(id); } set q { g, h; key (g); } set r { h, v; key (h); } }"
                                                 "rule a(x, v) -> p(x, g), q(g, h), r(h, v);",
                                 "a.csv": "x,v\n1,ann\n1,bob\n"}, 3,
         ["r, h = ?0.1.0: column v", "?0.1.1 is ?0.1.0, since two rows of q agree on (g)",
          "?0.0.1 is ?0.0.0, since two rows of p agree on (id)"]),
    Case("texts of 5 MB", {"mapping.clio": EMP, "emp.csv": lambda: f"name,dept\na,{LONG}\na,{LONG}b\n"}, 3,
         ["1 clash in all", "(5000000 characters)", "(5000001 characters)", "line 3"]),
    Case("sets and columns called as words of the text", {"mapping.clio": "mapping 1; source { set set { key, ref; } } "
                                                                          "target { set line { source, rule; key "
                                                                          "(source); } }"
                                                          "line set.key -> line.source; line set.ref -> line.rule;",
                                                          "set.csv": "key,ref\n?,\\.\n?,\x1b\n"}, 3,
         ['line, source = "?": column rule has 2 texts: "\\u{1b}", "\\\\."',
          'set.csv, line 3 (record 2): key = "?", ref = "\\u{1b}"']),
]
DEPT = ("mapping 1; source { set emp { name, dept; ref (dept) -> dept (dname); } set dept { dname, city; } } target { "
        "set person { name, town; } }"
        "line emp.name -> person.name;")
LINKED = ("mapping 1; source { set sale { id, buyer; } set ware { sku; } } target { set orders { oid, who; key (oid); "
          "} set item { sku, oid; ref (oid) -> orders (oid); } }"
          "line sale.id -> orders.oid; line sale.buyer -> orders.who; line ware.sku -> item.sku;")
TRAPS = [
    Case("a ref that drops rows",
         {"mapping.clio": DEPT, "emp.csv": "name,dept\nann,toys\nbob,books\nkim,\n",
          "dept.csv": "dname,city\ntoys,Bonn\n"}, 0,
         ["no rule uses 1 column of dept: city", "nothing fills 1 column of person, and nothing refers there: town",
          "ref (dept) -> dept (dname) of emp: rows of emp without a match there are dropped, 2 of 3; no line uses the "
          "ref", "emp.csv, line 3 (record 2)"]),
    Case("the same, shown", {"mapping.clio": DEPT}, 0, ["ref (dept) -> dept (dname) of emp: no line uses it"],
         ("show",)),
    Case("a ref that lines use",
         {"mapping.clio": DEPT + "line dept.city -> person.town;", "emp.csv": "name,dept\nbob,books\n",
          "dept.csv": "dname,city\n"}, 0,
         ["dropped, 1 of 1", "make the ref optional"]),
    Case("a set twice", {"mapping.clio": "mapping 1; source { set flight { from, to; } } target { set stop { name; }"
                         "set leg { start, goal; ref (start) -> stop (name); ref (goal) -> stop (name); } } line "
                         "flight.from -> stop.name;"}, 0,
         ["rule 0 has stop twice on its right"], ("show",)),
    Case("equal rows", {"mapping.clio": EMP.replace("line emp.dept -> person.dept;", ""),
                        "emp.csv": "name,dept\na,b\na,b\na,c\n,\n,d\n"}, 0,
         ["of 5 rows, 1 repeats", "4 matches are 2 different ones, since only emp.name go on"]),
    Case("empty keys", {"mapping.clio": "mapping 1; source { set a { x, y; } } target { set b { x, y; key (x); } } "
                                        "rule a(x, y) -> b(x, z); rule a(x, y) -> b(y, z);",
                        "a.csv": "x,y\n,\n"}, 0, ["2 matches ask for a row of b with nothing in its key (x)"]),
    Case("texts alone", {"mapping.clio": SIDES + 'line "t" -> b.x;', "a.csv": "x,y\n"}, 0,
         ["no rule uses a of the source", "no rule makes rows of b: lines from texts alone"]),
    Case("no key", {"mapping.clio": "mapping 1; source { set sale { id, buyer; } } target { set customer { cid, cname; "
                                    "} set orders { oid, cid; ref (cid) -> customer (cid); } }"
                    "line sale.id -> orders.oid; line sale.buyer -> customer.cname;", "sale.csv": "id,buyer\n"}, 0,
         ["each match of rule 0 makes a row of its own in customer"]),
    Case("rows of nulls", {"mapping.clio": LINKED, "sale.csv": "id,buyer\n1,ann\n", "ware.csv": "sku\n7\n8\n"}, 0,
         ["2 of 3 rows of orders hold nothing but nulls, since rule 1 fills no column there: if that isn't meant, use "
          "core mode, make refs to orders optional (mapping 2), or"]),
    Case("rows of nulls in core mode",
         {"mapping.clio": LINKED, "sale.csv": "id,buyer\n1,ann\n", "ware.csv": "sku\n7\n"}, 0,
         ["1 of 2 rows of orders holds nothing but nulls",
          "if that isn't meant, make refs to orders optional (mapping 2), or say in a drawing"], ("exchange", "--core")),
    Case("an open quote in the last field", {"mapping.clio": EMP, "emp.csv": "name,dept\na,\"b\nc,d\n"}, 0,
         ["a quote of emp.csv is never closed"]),
    Case("nothing to say", {"mapping.clio": EMP, "emp.csv": "name,dept\na,b\n"}, 0, []),
]
AUDIT = {"mapping.clio": "mapping 3; source { set orders { no, buyer, tel; } } target { set sale { no, client; key "
                         "(no); ref (client) -> client (cid); } "
                         "set client { cid, name, tel; key (cid); dep (name) -> (tel); } } rule orders(n, b, t) -> "
                         "sale(n, c), client(c, b, t);",
         "orders.csv": "no,buyer,tel\n1,ann,\n2,?,7\n"}


def judged(name: str, sales: str, clients: str, *wanted: str) -> Case:
    """A given target that is no solution."""
    return Case(name, {**AUDIT, "given/sale.csv": "no,client\n" + sales, "given/client.csv": "cid,name,tel\n"
                       + clients}, 0, list(wanted), ("judge",))


VERDICTS = [
    judged("a null in the place of an empty text", "1,?0.0.0\n", "?0.0.0,ann,?0.0.1\n", "rule 0: rule orders(",
           'from orders.csv, line 2 (record 1): no = "1"',
           'no row of given/client.csv has name = "ann", tel = ""',
           "nearest: given/client.csv, line 2 (record 1): cid = ?0.0.0", "tel must be the empty text"),
    judged("a row that isn't there", "1,?0.0.0\n3,?0.0.0\n", "?0.0.0,ann,\n", "from orders.csv, line 3",
           'no row of given/sale.csv has no = "2"\n', 'has name = "?", tel = "7"\n'),
    judged("rows that don't meet", "1,?0.0.9\n", "?0.0.0,ann,\n",
           "each row that it asks for is there, but not joined as it asks: by sale.client, client.cid"),
    judged("a broken key", "1,?0.0.0\n2,?0.0.1\n1,?0.0.5\n", "?0.0.0,ann,\n?0.0.1,??,7\n",
           "two rows of sale agree on (no) and differ in client:",
           "given/sale.csv, line 2 (record 1)", "given/sale.csv, line 4 (record 3)"),
    judged("a broken dependency", "1,?0.0.0\n2,?0.0.1\n", "?0.0.0,ann,\n?0.0.1,??,7\n?0.0.2,ann,8\n",
           "two rows of client agree on (name) and differ in tel:", "line 4 (record 3)"),
    judged("a row that leads nowhere", "1,?0.0.0\n2,?0.0.1\n3,?0.0.2\n", "?0.0.0,ann,\n?0.0.1,??,7\n",
           "1 row of sale leads nowhere by (client) -> client (cid):",
           'given/sale.csv, line 4 (record 3): no = "3", client = ?0.0.2'),
    judged("a table without rows", "", "", 'no row of given/sale.csv has no = "1"',
           'no row of given/client.csv has name = "ann", tel = ""\n'),
]
CASES = TEXTS + ROWS + DOCUMENTS + LIMITS + WRITES + CLASHES + VERDICTS + TRAPS
WIDE = "mapping 1; source { set a { x; } } target { set b { x; } } line a.x -> b.x;"
LARGE_CASES = [
    limit("source cells", WIDE, "4,000,001 cells", files={"a.csv": lambda: "x\n" + "a\n" * 4_000_001},
          words=("exchange",)),
    limit("data bytes", WIDE, "67,108,865 bytes", files={"a.csv": lambda: "x\n" + "a" * 67_108_862 + "\n"},
          words=("exchange",)),
    limit("target cells", WIDE.replace("set b { x; }", "set b { x, y; }"), "2,000,001 matches of 2 cells",
          "4,000,002 cells",
          files={"a.csv": lambda: "x\n" + "".join(f"{n}\n" for n in range(2_000_001))}, words=("exchange",)),
    Case("4,000,000 cells", {"mapping.clio": WIDE, "a.csv": lambda: "x\n" + "a\n" * 4_000_000}, 0,
         ["of 4,000,000 rows, 3,999,999 repeat"]),
    Case("4,000,000 different cells",
         {"mapping.clio": WIDE, "a.csv": lambda: "x\n" + "".join(f"{n}\n" for n in range(4_000_000))}, 0, []),
    Case("a clash of 1,000,000 rows",
         {"mapping.clio": EMP, "emp.csv": lambda: "name,dept\n"
          + "".join(f"{n % 999_999},{n}\n" for n in range(1_000_000))}, 3,
         ['1 clash in all', 'name = "0"', "line 2 (record 1)", "line 1000001 (record 1000000)"]),
]


class Told(NamedTuple):
    """A message as a command ends with it, with what must be said of it, in this order."""
    name: str
    files: Files
    status: int
    message: str
    wanted: list[str]
    words: tuple[str, ...]


PERSON = ("mapping 1;\nsource { set emp { name; } }\n"
          "target { set person { name, num; key (name); } set desk { no; } }\n"
          "line emp.name -> person.name;\n")
ADDRESS = "mapping 3; source { set a { zip; } } target { set addr { zip, town; %s } } line a.zip -> addr.zip;"


def query(name: str, kind: str, content: str, place: int, *wanted: str) -> Told:
    """A query that is refused at a byte."""
    return Told(name, {"mapping.clio": PERSON, "query.clio": content}, 10, f"query: {kind} at byte {place}",
                list(wanted), ("answer",))


def given(name: str, content: str, message: str, *wanted: str, **more: str) -> Told:
    """A given target that is refused."""
    files = {"mapping.clio": PERSON, "given/person.csv": content}
    return Told(name, {**files, **more}, 5, f"rows: given/{message}", list(wanted), ("judge",))


def other(name: str, message: str, content: str | None, *wanted: str, first: str = PERSON) -> Told:
    """A second mapping that is refused."""
    return Told(name, {"mapping.clio": first, **({} if content is None else {"other.clio": content})}, 11,
                f"other: {message}", list(wanted), ("compare",))


TOLD = [
    Told("no query", {"mapping.clio": PERSON}, 10, "query: query.clio is absent",
         ["clio answer reads query.clio", "answer(v0, v1) from person(v0, v1);"], ("answer",)),
    query("an unknown set", "unknown name", "query 1;\nanswer(n)\n from persons(n, t);", 25, "line 3, column 7:",
          "     from persons(n, t);\n" + " " * 10 + "^^^^^^^",
          "the sets of the target: person, desk", "perhaps person"),
    query("a set of the source", "unknown name", "query 1; answer(n) from emp(n);", 24,
          "emp is a set of the source, and a query asks the target"),
    query("an atom that is too short", "wrong number of cells", "query 1; answer(n) from person(n);", 24,
          "1 cell for 2 columns: person(name, num)"),
    query("a part of another width", "wrong number of cells",
          'query 1; answer(n) from desk(n); answer(n, "x") from desk(n);', 33, "^^^^^^",
          "part 2 answers 2 cells, and the first part 1 cell"),
    query("a variable of nothing", "unsafe variable", "query 1; answer(z) from person(n, t);", 16, "column 17:",
          "those of part 1: n, t"),
    query("a cut query", "text ended", "query 1; answer(n", 17, "here can be `,` or `)`", "1 bracket not closed",
          "column 16:"),
    query("a word in the place of another", "unexpected token", "query 1; answer(n) of desk(n);", 19, "column 20:",
          "^^", "here can be `from`"),
    query("a bad character", "bad character", "query 1; answer('n') from desk(n);", 16, 'texts are in ", not in'),
    Told("a long query", {"mapping.clio": PERSON, "query.clio": " " * 70000}, 6, "limit: query bytes 65536",
         ["70,000 bytes; 65,536 can be read", "what to do: "], ("answer",)),
    Told("many atoms", {"mapping.clio": PERSON, "query.clio": f"query 1; answer(n) from desk(n); answer(n) from "
                                                              f"{', '.join(['desk(n)'] * 65)};"}, 6,
         "limit: query atoms 64", ["part 2 has 65 atoms; 64 are allowed", "column 34:", "what to do: "], ("answer",)),
    Told("a long answer", {"mapping.clio": PERSON, "query.clio": "query 1; answer(n, t) from person(n, t);"}, 6,
         "limit: answer cells 4000000",
         ["rows of 2 cells, and more than 2,000,000"], ("answer",)),
    given("no value", 'name,num\nann,1\n"bob",?0\n', "person.csv: record 2 is not a value",
          "record 2 of given/person.csv begins on line 3", 'num = "?0"',
          "num is no value: a null has three numbers", '"??0" is the text "?0"'),
    given("a null with a zero in front", "name,num\n?0.0.01,?0.0.1\n", "person.csv: record 1 is not a value",
          "name is no value: ", "no zero in front"),
    given("a null with a great number", "name,num\n?0.0.4294967295,?0.0.4294967296\n",
          "person.csv: record 1 is not a value", "num is no value: ", "at most 4,294,967,295"),
    given("a given header", "name\n", "person.csv: header at column 1", "expected: name,num", "found:    name",
          'expected "num", found no column'),
    given("a given record of another width", "name,num\nann\n", "person.csv: width of record 1",
          "begins on line 2 and has 1 field for 2 columns", "num: no field"),
    given("a given file that isn't there", "name,num\n", "desk.csv is absent", "a file for each set of the target",
          "echo 'no' > given/desk.csv"),
    Told("no given target", {"mapping.clio": PERSON, "out/person.csv": ""}, 5, "rows: given/person.csv is absent",
         ["there is no folder given/", "cp -r out given"], ("judge",)),
    Told("given cells", {"mapping.clio": PERSON, "given/person.csv": "name,num\n" + "a,\n" * 4,
                         "given/desk.csv": "no\n1\n"}, 6, "limit: given cells 7",
         ["given/person.csv: 4 records of 2 columns, 8 cells (exceeds it)", "9 cells in all; 7 are allowed",
          "what to do: "], ("judge",)),
    other("no other mapping", "other.clio is absent", None, "clio compare reads mapping.clio and other.clio"),
    other("an unknown column of the other mapping", f"unknown name at byte {PERSON.index('emp.name') + 4}",
          PERSON.replace("line emp.name", "line emp.nome"), "line 4, column 10:", "^^^^", "perhaps name"),
    other("a set twice in the other mapping", "source: double name a", "mapping 1;source{set a{x;}set a{y;}}target{}",
          "column 31:", "it is there already:"),
    other("other columns", "schemas differ", PERSON.replace("name, num", "name, tel"), "number 1 of the target",
          "mapping.clio has columns name, num in set person", "^^^^^^",
          "other.clio has columns name, tel in set person"),
    other("a key less", "schemas differ", PERSON.replace("key (name);", ""),
          "mapping.clio has key (name) in set person", "other.clio has no more in set person"),
    other("a set less", "schemas differ", PERSON.replace("set desk { no; }", ""), "number 2 of the target",
          "mapping.clio has set desk", "other.clio has no set"),
    other("a condition", "row conditions", PERSON.replace("mapping 1", "mapping 2") + "only emp.name filled;",
          "other.clio: only emp.name filled", "line 5, column 6:", "^^^"),
    other("a conversion", "conversion in rule 0 of other.clio", PERSON.replace("emp.name ->", "trim(emp.name) ->"),
          "this is rule 0 of other.clio", "trim(x0)"),
    Told("the usage of later commands", {}, 2, "usage: clio show | clio exchange | clio answer",
         ["`judge` is no command: show, exchange or answer"], ("judge",)),
    Told("answer takes no option", {}, 2, "usage: clio show | clio answer",
         ["`--core` is no word that answer takes; it takes none"], ("answer", "--core")),
    Told("an unknown column of a dependency", {"mapping.clio": ADDRESS % "dep (zip) -> (city);"}, 4,
         "mapping: target: unknown name city", ["^^^^", "the columns of addr: zip, town"],
         ("show",)),
    Told("a column twice in a dependency", {"mapping.clio": ADDRESS % "dep (zip) -> (town, town);"}, 4,
         "mapping: target: double name town",
         ["column 89:", "it is there already:", "column 83:"], ("show",)),
    Told("a pipe", {"mapping.clio": EMP, "emp.csv": "|"}, 7, "read fault: emp.csv", ["emp.csv is a pipe"],
         ("exchange",)),
]
