"""Chosen folders with questions: first faults of queries, of given files and of other mappings, and limits at both ends."""

FLAT = "mapping 1; source { set a { x; } } target { set t { y; } } line a.x -> t.y;"
PAIR = "mapping 1; source { set s { x; } } target { set p { x, y; } set q { z; } } line s.x -> p.x; line s.x -> q.z;"
QUERIES = [
    "", "quer", "query", "query 1", "query 2;", "query 01;", "query 1;", "query 1; $", "query 1; -", "query 1; /", "query 1; //",
    "query 1; answer(n) from p(n, t);",
    "query 1; answer(n) from p(n, t); // the end",
    "query 1; answer(n) from p(n, t)",
    "query 1; answer(n) from p(n, t);;",
    "query 1; answer(n) from p(n, t),;",
    "query 1; answer() from p(n, t);",
    "query 1; answer from p(n, t);",
    "query 1; answer(n) from ;",
    "query 1; answer(n.x) from p(n, t);",
    "query 1; answer(1) from p(n, t);",
    'query 1; answer("a',
    'query 1; answer("a\\',
    'query 1; answer("a\\n") from p(n, t);',
    'query 1; answer("a\nb") from p(n, t);',
    'query 1; "answer"(n) from p(n, t);',
    'query 1; answer(n) "from p(n, t);',
    'query 1; answer(n) from "p"(n, t);',
    "query 1; answer(n) from p(n, t) -",
    "query 1; answer(n) from p(n -> t);",
    "query 1; answer(n) from p{n, t};",
    "query 1; answer(n) from p(n, t); line s.x -> p.x;",
    "query 1; answer(n) from s(n);",
    "query 1; answer(n) from p(n), r(n);",
    "query 1; answer(n) from r(n), p(n);",
    "query 1; answer(z) from p(n, t), r(n);",
    "query 1; answer(z) from p(n, t); answer(n) from r(n);",
    "query 1; answer(n) from p(n, t); answer(n, z) from q(n);",
    "query 1; answer(n) from p(n, t); answer(n, z) from q(n, n);",
    "query 1; answer(n, z) from p(n, t); answer(n) from q(n);",
    'query 1; answer("n") from p(x, x); answer(answer) from q(answer);',
    'query 1; answer("a", "a") from q(n); answer(n) from q(n);',
    "query1;answer(n)from q(n);",
    "query 1;answer(n)from q(n);answer(n)from p(n,m),q(m);",
    "query 1; answer(#id) from q(n);",
    "query 1; answer(n) from q(n)," + " q(n)," * 62 + " q(n);",
    "query 1; answer(n) from q(n)," + " q(n)," * 63 + " q(n);",
    "query 1; answer(n) from q(n)," + " q(n)," * 63 + " q(n); answer(z) from q(n);",
    "query 1; answer(n) from q(n);" + " " * 65507,
    "query 1; answer(n) from q(n);" + " " * 65508,
    "$" * 65537,
]

GIVEN = [
    "z\na\n", "z\nb\n", "z\n?0.0.0\n", "z\n?0.0\n", "z\n?\n", "z\n??\n", "z\n???\n", "z\n?a\n", "z\n?0.0.00\n", "z\n?00.0.0\n",
    "z\n?4294967295.4294967295.4294967295\n", "z\n?4294967295.4294967296.0\n", "z\n?1.2.3.4\n", "z\n?1.2.3.\n", "z\n?.2.3\n",
    "z\n?-1.2.3\n", "z\n?1.2.3 \n", "z\n ?a\n", "z\n?١.0.0\n", "z\na\n?\nb,c\n", "z\n?\n?\n", "z\na\n\n?\n", "", "x\na\n",
    'z\n"?0.0.0"\n', 'z\n"?0.0\n.0"\n', "z\n" + "a\n" * 1000000, "z\n" + "a\n" * 1000001, "z\n" + "a\n" * 1000000 + "?\n",
]

SIDES = "source { set s { x, y; key (x); key (y); ref (x) -> u (z); } set u { z; } } target { set p { x; } }"
OTHERS = [
    "", "mapping 1;", "mapping 4; " + SIDES, "mapping 1; source { set s { z; } } target { } line s.z -> p.q;",
    "mapping 1; %s line s.x -> p.x;" % SIDES,
    "mapping 3; %s line s.x -> p.x;" % SIDES,
    "mapping 1; %s line s.z -> p.x;" % SIDES,
    "mapping 2; %s line s.x -> p.x; only s.y filled;" % SIDES,
    "mapping 2; %s line s.x -> p.x; only s.y full;" % SIDES,
    "mapping 1; %s line trim(s.x) -> p.x;" % SIDES,
    "mapping 1; %s line s.x -> p.x; line s.y -> p.x; rule s(x, y) where z = digits(y) -> p(x);" % SIDES,
    "mapping 2; %s line trim(s.x) -> p.x; only s.y filled;" % SIDES,
    "mapping 2; source { set s { x; } } target { set p { x; } } line trim(s.x) -> p.x; only s.x filled;",
    "mapping 2; %s line s.x -> p.x;" % SIDES.replace("(z);", "(z) optional;"),
    "mapping 3; %s line s.x -> p.x;" % SIDES.replace("key (x);", "key (x); dep (x) -> (y);"),
    "mapping 1; %s line s.x -> p.x;" % SIDES.replace("key (x); key (y);", "key (y); key (x);"),
    "mapping 1; %s line s.x -> p.x;" % SIDES.replace("key (y); ref (x) -> u (z);", "ref (x) -> u (z); key (y);"),
    "mapping 1; %s line s.x -> p.x;" % SIDES.replace("set u { z; }", ""),
    "mapping 1; %s" % SIDES.replace("p { x; }", "nulls { x; }"),
    "mapping 1; %s %s" % (SIDES, "line s.x -> p.x; " * 512),
    "mapping 1; %s %s" % (SIDES, "line s.x -> p.x; " * 513),
    "mapping 1; %s" % SIDES + " " * (1048576 - len(SIDES) - 11),
    "mapping 1; %s" % SIDES + " " * (1048577 - len(SIDES) - 11),
    'mapping 1; %s rule s(x, y) -> p("v"); rule s(x, y) -> p("vv");' % SIDES,
    "mapping 1; %s rule s(x, y) -> p(y);" % SIDES,
]


def questions():
    """The files of each folder, and the word of its question."""
    for text in QUERIES:
        yield {"mapping.clio": PAIR, "s.csv": "x\na\n", "query.clio": text}, "answer"
    yield {"mapping.clio": PAIR, "s.csv": "x\na\n"}, "answer"
    yield {"mapping.clio": PAIR, "query.clio": QUERIES[0]}, "answer"
    yield {"mapping.clio": PAIR, "s.csv": "y\n", "query.clio": "query 1; answer(n) from q(n);"}, "answer"
    one = {"mapping.clio": FLAT, "a.csv": "x\na\n"}
    for text in GIVEN:
        yield {**one, "given/t.csv": text.replace("z", "y", 1)}, "judge"
    yield one, "judge"
    yield {**one, "given": ""}, "judge"
    yield {**one, "given/t.csv/x": ""}, "judge"
    yield {"mapping.clio": one["mapping.clio"], "given/t.csv": "y\n?\n"}, "judge"
    for text in OTHERS:
        for first in ("mapping 1; %s line s.x -> p.x;" % SIDES, OTHERS[7], OTHERS[10], OTHERS[-2]):
            yield {"mapping.clio": first, "other.clio": text}, "compare"
    yield {"mapping.clio": OTHERS[4]}, "compare"
    yield {"mapping.clio": OTHERS[4], "other.clio/x": ""}, "compare"
    yield {"mapping.clio": "mapping", "other.clio": "mapping"}, "compare"


def pair_of_joins(number):
    """Twice a rule that joins a table of one column with itself, so many times: as many cells as its power, times the number."""
    variables = ["x%d" % place for place in range(number)]
    columns, premise = ", ".join(variables), ", ".join("a(%s)" % variable for variable in variables)
    text = "mapping 1; source { set a { x; } } target { set p { %s; } } rule %s -> p(%s);" % (columns, premise, columns)
    return {"mapping.clio": text, "other.clio": text}


def product_of_rows(number):
    """A query for all pairs of so many rows, each pair twice."""
    rows = "x\n" + "".join("%d\n" % row for row in range(number))
    return {"mapping.clio": FLAT, "a.csv": rows, "query.clio": "query 1; answer(n, m, n, m) from t(n), t(m);"}


def questions_at_limits():
    """The files of large folders and their words, with the status, the message and what is said, counted by hand."""
    yield pair_of_joins(6), "compare", (0, "", "forward yes\nbackward yes\n")  # 6 ** 6 * 6 = 279,936
    yield pair_of_joins(7), "compare", (6, "limit: frozen cells 4000000\n", "")  # 7 ** 7 * 7 = 5,764,801
    yield product_of_rows(1000), "answer", (0, "", "answers.csv 1000000\n")  # 4,000,000 cells
    yield product_of_rows(1001), "answer", (6, "limit: answer cells 4000000\n", "")
