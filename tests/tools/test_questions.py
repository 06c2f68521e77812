"""The second reading of `answer`, `judge` and `compare`, without the program: worked texts, and the definitions on
small cases.
"""
import itertools
import random
import unittest

from trial import TIMES

import definitions
from collections.abc import Iterator
from chase import Chase
from comparing import refutation
from judging import verdict
from mapping import Mapping
from pair_cases import changed_rule
from matches import canonical, places_of
from program import Folder, Run
from queries import certain_rows, read_query
from query_cases import QueryMaker
from question_cases import MAKERS
from questions import wanted_run
from random_cases import add_dependencies, random_rule
from refusals import Refusal, TooLong
from rules import LITERAL, Atom, Cell, Rule, closed
from schema import Reference, SetTree, Table, tables_of
from values import Constant, Fact, Null, Value, ascending, nulls_of

PERSONS = """mapping 1; source { set emp { name; } set phone { name, num; } } target { set person { name, num; } }
line emp.name -> person.name; line phone.name -> person.name; line phone.num -> person.num;"""
KEYED = """mapping 1; source { set p { id, name; } } target { set person { id, name; key (id); } }
line p.id -> person.id; line p.name -> person.name;"""
TRIMMED = "mapping 1; source { set emp { name; } } target { set person { name; } } line trim(emp.name) -> person.name;"
ZIPPED = """mapping 3; source { set a { who, zip; } set b { zip, town; } } target {
  set addr { who, town, zip; dep (zip) -> (town); } }
line a.who -> addr.who; line a.zip -> addr.zip; line b.zip -> addr.zip; line b.town -> addr.town;"""
PHONES = {"mapping.clio": PERSONS, "emp.csv": "name\nann\nbob\n", "phone.csv": "name,num\nann,555\n"}
ONE_PHONE = {**PHONES, "emp.csv": "name\nann\n"}
TWO_NAMES = {"mapping.clio": KEYED, "p.csv": "id,name\n1,ann\n1,bob\n"}

ANSWERS = [
    ("query 1; answer(n) from person(n, t);", 0, "c0\nann\nbob\n"),
    ("query 1; answer(n, t) from person(n, t);", 0, "c0,c1\nann,555\n"),
    ('query 1; answer(n) from person(n, "555"); answer("x") from person(n, n);', 0, "c0\nann\n"),
    ("query 1; answer(z) from person(n, t);", 10, "query: unsafe variable at byte 16\n"),
    ("query 1; answer(n) from person(n);", 10, "query: wrong number of cells at byte 24\n"),
    ("query 1; answer(n) from person(n, t), person(m, t);", 0, "c0\nann\nbob\n"),
    ('query 1; answer("?", n) from person(n, t), person(m, t), person(m, "555");', 0, "c0,c1\n??,ann\n"),
    ("", 10, "query: text ended at byte 0\n"),
    ("query 2; answer(n) from person(n, t);", 10, "query: unexpected token at byte 6\n"),
    ("query 1;", 10, "query: text ended at byte 8\n"),
    ("query 1; answer(n) from person(n, t); $", 10, "query: bad character at byte 38\n"),
    ("query 1; answer(n) from person(n, t), persons(n);", 10, "query: unknown name at byte 38\n"),
    ("query 1; answer(n) from person(n, t); answer(z, n) from person(n, t);", 10,
     "query: wrong number of cells at byte 38\n"),
    ("query 1; answer(z) from person(n, t); answer(n) from persons(n);", 10, "query: unsafe variable at byte 16\n"),
    ("query 1; answer(n) from person(n, t)" + ", person(n, t)" * 63 + ";", 0, "c0\nann\nbob\n"),
    ("query 1; answer(n) from person(n, t)" + ", person(n, t)" * 64 + ";", 6, "limit: query atoms 64\n"),
    ("$" * 65537, 6, "limit: query bytes 65536\n"),
    (None, 10, "query: query.clio is absent\n"),
]

VERDICTS = [
    (ONE_PHONE, "name,num\nann,555\n", "verdict core\n"),
    (ONE_PHONE, "name,num\nann,555\nann,?7.0.0\n", "verdict universal\n"),
    (ONE_PHONE, "name,num\nann,555\nann,556\n", "verdict solution\n"),
    (ONE_PHONE, "name,num\nann,?0.0.0\n", "verdict not a solution: rule 1 place 0\n"),
    (ONE_PHONE, "name,num\nann,?0\n", "rows: given/person.csv: record 1 is not a value\n"),
    (ONE_PHONE, "name,num\nann,?0\nann\n", "rows: given/person.csv: width of record 2\n"),
    (ONE_PHONE, None, "rows: given/person.csv is absent\n"),
    ({**ONE_PHONE, "phone.csv": ""}, "name,num\nann,?0\n", "rows: phone.csv: no header\n"),
    (PHONES, "name,num\nann,555\n", "verdict not a solution: rule 0 place 1\n"),
    (TWO_NAMES, "id,name\n1,ann\n1,bob\n", "verdict not a solution: key 0 of table person\n"),
    (TWO_NAMES, "id,name\n1,ann\n", "verdict not a solution: rule 0 place 1\n"),
    (TWO_NAMES, "id,name\n1,?\n", "rows: given/person.csv: record 1 is not a value\n"),
]


def pair(first: str, second: str,
         schema: str = "source { set a { x, y; } } target { set p { x, y; } }") -> dict[str, str]:
    return {"mapping.clio": "mapping 1; %s %s" % (schema, first), "other.clio": "mapping 1; %s %s" % (schema, second)}


BACKWARD = "forward yes\nbackward no 0\nbackward_source_a.csv 1\nbackward_target_p.csv 1\n"
PAIRS = [
    (pair("rule a(x, y) -> p(x, y);", "rule a(x, y) -> p(x, y);"), "forward yes\nbackward yes\n", []),
    (pair("rule a(x, y) -> p(x, y);", "rule a(x, y) -> p(x, z);"), BACKWARD, ["x,y\nv0,v1\n", "x,y\nv0,?0.0.0\n"]),
    (pair('rule a(x, y) -> p("v", x);', "rule a(x, y) -> p(z, x);"), BACKWARD, ["x,y\nvv0,vv1\n", "x,y\n?0.0.0,vv0\n"]),
    (pair("", "rule a(x, x) -> p(y, z);"), "forward no 0\nbackward yes\nforward_source_a.csv 1\nforward_target_p.csv "
                                           "0\n",
     ["x,y\nv0,v0\n", "x,y\n"]),
    ({"mapping.clio": TRIMMED, "other.clio": TRIMMED}, "other: conversion in rule 0 of mapping.clio\n", []),
    (pair("", "rule a(x, y) where z = trim(x) -> p(z, y);"), "other: conversion in rule 0 of other.clio\n", []),
    (pair("", "line a.x -> p.z;"), "other: unknown name at byte 79\n", []),
    ({"mapping.clio": TRIMMED}, "other: other.clio is absent\n", []),
    ({"mapping.clio": TRIMMED, "other.clio": PERSONS}, "other: schemas differ\n", []),
    ({"mapping.clio": TRIMMED.replace("1", "2", 1) + " only emp.name filled;", "other.clio": TRIMMED},
     "other: row conditions\n", []),
    ({"mapping.clio": TRIMMED, "other.clio": " " * 1048577}, "limit: text bytes 1048576\n", []),
]


class Questions(unittest.TestCase):
    def run_of(self, files: dict[str, str], word: str) -> Run:
        folder = Folder(files)
        self.addCleanup(folder.remove)
        return wanted_run(folder, word)

    def test_answers(self) -> None:
        for query, status, text in ANSWERS:
            with self.subTest(query=query and query[:80]):
                run = self.run_of(PHONES if query is None else {**PHONES, "query.clio": query}, "answer")
                self.assertEqual((run.status, run.told or run.files["answers.csv"]), (status, text))
        self.assertEqual(self.run_of({**TWO_NAMES, "query.clio": "query 1; answer(n) from person(n, t);"},
                                     "answer").status, 3)

    def test_order_of_refusals(self) -> None:
        wrong: dict[str, str] = {"mapping.clio": PERSONS, "query.clio": "query", "emp.csv": ""}
        folders: list[dict[str, str]] = [
            {**wrong, "mapping.clio": "mapping"}, wrong, {**wrong, "query.clio": str(ANSWERS[0][0])},
            {"mapping.clio": PERSONS}]
        told = [self.run_of(files, "answer").told for files in folders]
        self.assertEqual(told, ["mapping: text ended at byte 7\n", "query: text ended at byte 5\n",
                                "rows: emp.csv: no header\n",
                                "query: query.clio is absent\n"])

    def test_verdicts(self) -> None:
        for files, given, text in VERDICTS:
            with self.subTest(given=given, text=text):
                run = self.run_of(files if given is None else {**files, "given/person.csv": given}, "judge")
                self.assertEqual((run.told or run.said, run.files), (text, {}))

    def test_kinds_of_values(self) -> None:
        for text, is_value in (("??", 1), ("???", 1), ("?0.0.0", 1), ("??0", 1), (" ?", 1), ("?4294967295.0.0", 1),
                               ("?", 0), ("?0.0", 0),
                               ("?0.0.00", 0), ("?0.0.4294967296", 0), ("?0.0.0.0", 0), ("?a", 0), ("?0.0.0 ", 0),
                               ("?+1.0.0", 0)):
            with self.subTest(text=text):
                run = self.run_of({**ONE_PHONE, "given/person.csv": "name,num\nann,%s\n" % text}, "judge")
                self.assertEqual(run.status, 0 if is_value else 5)

    def test_pairs(self) -> None:
        for files, text, tables in PAIRS:
            with self.subTest(text=text):
                run = self.run_of(files, "compare")
                self.assertEqual((run.told or run.said, list(run.files.values())), (text, tables))

    def test_dependency(self) -> None:
        rows = {"mapping.clio": ZIPPED, "a.csv": "who,zip\nann,10\n", "b.csv": "zip,town\n10,Rome\n"}
        asked = {**rows, "query.clio": "query 1; answer(w, t, z) from addr(w, t, z); answer(t, z, t) from addr(w, t, "
                                       "z);"}
        self.assertEqual(self.run_of(asked, "answer").files, {"answers.csv": "c0,c1,c2\nRome,10,Rome\nann,Rome,10\n"})
        self.assertEqual(self.run_of({**asked, "b.csv": "zip,town\n10,Rome\n10,Pisa\n"}, "answer").status, 3)
        for given, said in (("ann,Rome,10", "core"), ("ann,Rome,10\n?1.0.0,Rome,10", "universal"),
                            ("ann,Rome,10\nbob,Rome,10", "solution"),
                            ("ann,Rome,10\nbob,?1.0.0,10", "not a solution: key 0 of table addr")):
            run = self.run_of({**rows, "given/addr.csv": "who,town,zip\n%s\n" % given}, "judge")
            self.assertEqual(run.said, "verdict %s\n" % said)


class Small:
    """A random case so small that all targets with its constants and its nulls can be gone through."""

    def __init__(self, chance: random.Random) -> None:
        self.chance = chance
        self.mapping = Mapping([SetTree("s0", ["a"]), SetTree("s1", ["a", "b"])], self.trees(chance), version=3)
        self.tables = self.mapping.target
        self.rules = [self.rule() for _ in range(chance.choice([1, 1, 2]))]
        texts = ["a", "b"][:chance.choice([1, 2, 2])]
        self.instance: dict[int, set[tuple[str, ...]]] = {
            0: {(text,) for text in texts if chance.random() < .6},
            1: {row for row in itertools.product(texts, texts) if chance.random() < .3}}
        self.source = {Fact(table, tuple(map(Constant, row))) for table, rows in self.instance.items() for row in rows}
        self.places = places_of(self.rules, self.instance)
        self.chase = Chase(canonical(self.places), self.tables)

    @staticmethod
    def schema(chance: random.Random) -> list[Table]:
        """The tables of a target with one column or two each."""
        tables: list[Table] = tables_of(Small.trees(chance))
        return tables

    @staticmethod
    def trees(chance: random.Random) -> list[SetTree]:
        """Sets with keys, dependencies and refs."""
        widths = chance.choice([[1, 1], [1, 1, 1], [2], [2, 1], [1, 2]])
        trees = [SetTree("t%d" % number, ["c0", "c1"][:width]) for number, width in enumerate(widths)]
        for number, tree in enumerate(trees):
            for other in trees[:number]:
                if chance.random() < .3:
                    tree.references.append(Reference([chance.choice(tree.columns)], other.name,
                                                     [chance.choice(other.columns)]))
            if len(tree.columns) > 1 and chance.random() < .5:
                tree.keys.append([chance.choice(tree.columns)])
            if chance.random() < .3:
                add_dependencies(chance, tree)
        return trees

    def rule(self) -> Rule:
        """A rule without conversions whose only literal is a."""
        while True:
            rule = random_rule(self.chance, self.mapping.source, self.tables)
            if not rule.derived:
                break
        rule.conclusion = [Atom(atom.table, tuple(Cell(LITERAL, "a") if cell.kind == LITERAL else cell
                                                  for cell in atom.cells))
                           for atom in rule.conclusion]
        return closed(rule, self.tables)

    def values(self) -> list[Value]:
        """The constants, and as many nulls as the chased target has."""
        nulls = nulls_of(self.chase.instance())
        constants = {value for fact in self.source for value in fact.row} | {Constant("a")}
        return sorted(constants) + [Null(9, 9, number) for number in range(len(nulls))]

    def is_small(self) -> bool:
        values, variables = len(self.values()), [len(set(rule.conclusion_cells())) for rule in self.rules]
        return sum(values ** len(table.columns) for table in self.tables) < 11 and max(variables) < 6

    def solutions(self) -> list[set[Fact]]:
        """All solutions with these values."""
        return [target for target in definitions.small_targets(self.tables, self.values())
                if definitions.is_solution(self.rules, self.tables, self.source, target)]


def small_cases(name: str, number: int) -> Iterator[Small]:
    """So many small cases."""
    for place in itertools.count():
        try:
            case = Small(random.Random("%s %d" % (name, place)))
        except (TooLong, Refusal):
            continue
        if case.is_small():
            yield case
            number -= 1
        if number == 0:
            return


class Definitions(unittest.TestCase):
    def test_certain_answers(self) -> None:
        """The answers are the rows of constants that each solution has."""
        found = 0
        for case in small_cases("certain", 25 * TIMES):
            solutions = case.solutions()
            self.assertEqual(case.chase.clash, not solutions)
            if case.chase.clash:
                continue
            chased = case.chase.instance()
            for number in range(4):
                text = QueryMaker(random.Random("query %d" % number), case.tables, ascending(chased)).query()
                try:
                    query = read_query(text.encode(), case.tables)
                except Refusal:
                    continue
                if max(len({cell for atom in part.atoms for cell in atom.cells}) for part in query) > 5:
                    continue
                everywhere = set.intersection(*[definitions.answers(query, target) for target in solutions])
                certain = {row for row in everywhere if not any(isinstance(value, Null) for value in row)}
                self.assertEqual(set(certain_rows(query, chased)), certain, text)
                found += bool(certain)
        self.assertGreater(found, 10)

    def test_forced_values(self) -> None:
        """The chase makes equal what every null map makes equal after which keys hold; it clashes if there is none."""
        clashes = moved = 0
        for number in range(150 * TIMES):
            chance = random.Random("forced %d" % number)
            tables = Small.schema(chance)
            values = [Constant("a"), Constant("b"), Null(0, 0, 1), Null(0, 1, 0), Null(1, 0, 0)]
            facts = {Fact(table, tuple(chance.choice(values[:2] + values) for _ in tables[table].columns))
                     for table in (chance.randrange(len(tables)) for _ in range(6))}
            chase, images = Chase(facts, tables), []
            nulls = sorted(nulls_of(facts))
            for sent in definitions.assignments(nulls, values):
                image = {Fact(fact.table, tuple(sent.get(value, value) for value in fact.row)) for fact in facts}
                if definitions.keys_hold(tables, image):
                    images.append(sent)
            self.assertEqual(chase.clash, not images)
            for null in nulls if images else []:
                alike = [value for value in values[:2] + nulls
                         if all(sent[null] == sent.get(value, value) for sent in images)]
                self.assertEqual(chase.value(null), alike[0])
                moved += alike[0] != null
            clashes += chase.clash
        self.assertGreater(min(clashes, moved), 10)

    def test_verdicts(self) -> None:
        """A target is universal if it is a solution and maps into each solution; a core has no smaller image in
        itself.
        """
        found: dict[str, int] = {}
        for case in small_cases("verdict", 25 * TIMES):
            solutions, chased = case.solutions(), case.chase.instance()
            targets = list(definitions.small_targets(case.tables, case.values()))
            given = [one for some in (targets, solutions) for one in case.chance.sample(some, min(len(some), 15))]
            for target in given:
                told = verdict(case.tables, case.places, chased, target)
                wanted = self.verdict_of(target, solutions)
                self.assertEqual(told.split(":")[0], wanted)
                if wanted == "not a solution":
                    self.check_reason(case, target, told.split(": ")[1])
                found[wanted] = found.get(wanted, 0) + 1
        self.assertGreater(min(found.values()), 20, found)
        self.assertEqual(len(found), 4)

    def verdict_of(self, target: set[Fact], solutions: list[set[Fact]]) -> str:
        if target not in solutions:
            return "not a solution"
        if not all(definitions.maps_into(target, other) for other in solutions):
            return "solution"
        return "core" if definitions.is_core(target) else "universal"

    def check_reason(self, case: Small, target: set[Fact], reason: str) -> None:
        """The reason names the first rule, else the first determination, else the first link that doesn't hold."""
        unsatisfied = [number for number, rule in enumerate(case.rules)
                       if not definitions.satisfied(rule, case.source, target)]
        if unsatisfied:
            self.assertRegex(reason, "^rule %d place" % unsatisfied[0])
        else:
            self.assertRegex(reason, "^link " if definitions.keys_hold(case.tables, target) else "^key ")

    def test_implications(self) -> None:
        """What refutes satisfies the one list and not the rule; else no random pair of source and target does."""
        found: dict[bool, int] = {}
        for number in range(60 * TIMES):
            case = Small(random.Random("implies %d" % number))
            first = case.rules
            changed = [changed_rule(case.chance, rule, case.mapping.source) for rule in first + first[:1]]
            second = [case.rule() if case.chance.random() < .2 else closed(rule, case.tables) for rule in changed]
            if max(len(set(rule.conclusion_cells())) for rule in first + second) > 6:
                continue
            result = refutation(first, second)
            found[result is None] = found.get(result is None, 0) + 1
            if result is not None:
                self.assertTrue(all(definitions.satisfied(rule, result.source, result.target) for rule in first))
                self.assertFalse(definitions.satisfied(second[result.rule], result.source, result.target))
            implied = second if result is None else second[:result.rule]
            target = {Fact(fact.table, tuple(case.chance.choice([Constant("b"), Constant("a"), value])
                                             if isinstance(value, Null) else value
                                             for value in fact.row)) for fact in ascending(canonical(case.places))}
            if all(definitions.satisfied(rule, case.source, target) for rule in first):
                self.assertTrue(all(definitions.satisfied(rule, case.source, target) for rule in implied))
        self.assertGreater(min(found.values()), 5, found)

    def test_random_cases(self) -> None:
        """Each kind of random folder can be read."""
        statuses: dict[str, set[int]] = {}
        for word, make in MAKERS.items():
            for number in range(25 * TIMES):
                try:
                    folder = Folder(make(random.Random("%s %d" % (word, number))).files)
                    self.addCleanup(folder.remove)
                    run = wanted_run(folder, word)
                except TooLong:
                    continue
                statuses.setdefault(word, set()).add(run.status)
        self.assertTrue(all({0} < found for found in statuses.values()), statuses)


if __name__ == "__main__":
    unittest.main()
