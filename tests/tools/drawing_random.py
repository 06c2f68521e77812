"""Random drawings, and what SQL says of their targets by LEFT JOINs over the source.

Source sets have refs at will, circles too. Target sets have surrogate keys and a key `no`; values come by ways of up to
three steps, by conversions, and under tests; links go to rows of other sets, or in a circle to rows of the same one."""
import random
import sqlite3
from dataclasses import dataclass, field
from typing import Optional

from drawing_trial import Table, in_order

Steps = list[str]
Need = frozenset[object]  # ways, and tests at their ends


@dataclass
class Value:
    """What a line gives: columns of the rows at the ends of ways, perhaps by a conversion, perhaps under a test."""

    conversion: str
    taken: list[tuple[Steps, str]]
    tests: Need = frozenset()


class Joins:
    """SQL that goes along ways from the row `a`; a way that is gone twice is joined once."""

    def __init__(self, refs: dict[str, list[tuple[str, str]]], start: str) -> None:
        self.refs, self.start = refs, start
        self.joined: dict[str, str] = {}
        self.where: list[str] = []

    def along(self, steps: Steps, inner: bool = False) -> str:
        """The name of the row to which steps lead."""
        at, place = self.start, "a"
        for step in steps:
            at = dict(self.refs[at])[step]
            before, place = place, f"{place}_{step}"
            kind = "JOIN" if inner else "LEFT JOIN"
            if place not in self.joined or inner:
                self.joined[place] = f" {kind} {at} {place} ON {before}.{step} = {place}.id"
        return place

    def text(self, columns: list[str]) -> str:
        """The query."""
        where = " WHERE " + " AND ".join(self.where) if self.where else ""
        return f"SELECT {', '.join(columns)} FROM {self.start} a{''.join(self.joined.values())}{where}"


@dataclass
class Target:
    """A target set: its source set, what keeps its rows, and the query that says what is in it."""

    name: str
    start: str
    musts: list[Steps]
    tests: list[tuple[Steps, str]]  # steps, and a test of `kind`
    columns: dict[str, Value] = field(default_factory=dict)
    links: dict[str, str] = field(default_factory=dict)
    required: set[str] = field(default_factory=set)
    needs: list[Need] = field(default_factory=list)  # of its lines
    query: str = ""
    has_key: bool = True

    def names(self) -> list[str]:
        """All columns."""
        return ["sk", "no", *self.columns, *self.links] if self.has_key else [*self.columns]

    def base_after(self, way: Steps) -> Need:
        """What each row needs, as it is seen from the beginning of a way to it."""
        need = frozenset[object]().union(*(need_of(must, way) for must in self.musts))
        return need.union(*(need_of(steps, way) | {(*way, *steps, "=", text)} for steps, text in self.tests))

    def number_of_rules(self) -> int:
        """One for the rows, and one for each different need beyond what each row needs."""
        return len({frozenset(), *(need - self.base_after([]) for need in self.needs)})


def need_of(steps: Steps, after: Steps = []) -> Need:
    """The beginnings of a way behind another one."""
    return frozenset((*after, *steps[:count]) for count in range(1, len(steps) + 1))


class Random:
    """One random drawing with its files."""

    def __init__(self, seed: str) -> None:
        self.r = random.Random(seed)
        self.sets = [f"s{number}" for number in range(self.r.randrange(2, 5))]
        self.refs = {one: [(f"k{number}", self.r.choice(self.sets)) for number in range(self.r.randrange(1, 4))]
                     for one in self.sets}
        self.files: dict[str, str] = {}
        self.targets: list[Target] = []
        self.items: list[str] = []
        self.looked_up: list[str] = []
        if self.r.random() < .4:
            self.looked_up = self.r.sample(self.sets, self.r.randrange(1, len(self.sets) + 1))
            self.items.append(f"lookup {', '.join(self.looked_up)};")
        source = "".join(self.source_set(one) for one in self.sets)
        target = "".join(self.target_set(number) for number in range(self.r.randrange(1, 4)))
        if self.r.random() < .4:
            target += self.keyless_set()
        self.r.shuffle(self.items)
        self.files["drawing.clio"] = "\n".join(["mapping 2;", f"source {{\n{source}}}", f"target {{\n{target}}}",
                                                *self.items, ""])

    # --- the source --------------------------------------------------------------------------------------------------

    def source_set(self, name: str) -> str:
        """A source set and its file."""
        rows = [[f"{name}{number}", *[self.reference(other) for _, other in self.refs[name]],
                 self.r.choice("xyz"), self.r.choice(["", f"v{self.r.randrange(99)}", f" {self.r.randrange(99)} "])]
                for number in range(5)]
        head = ["id", *[ref for ref, _ in self.refs[name]], "kind", "val"]
        self.files[name + ".csv"] = "".join(",".join(row) + "\n" for row in [head, *rows])
        refs = "".join(f" ref ({ref}) -> {other} (id){self.r.choice(['', ' optional'])};" for ref,
                       other in self.refs[name])
        return f"  set {name} {{ {', '.join(head)};{refs} }}\n"

    def reference(self, other: str) -> str:
        """A text that refers to a row, or to none."""
        return self.r.choice(["", "zz", *[f"{other}{self.r.randrange(6)}" for _ in range(4)]])

    def way(self, start: str, longest: int, least: int = 0) -> tuple[Steps, str]:
        """Random steps from a set, and where they lead."""
        steps, at = [], start
        for _ in range(self.r.randrange(least, longest + 1)):
            step, at = self.r.choice(self.refs[at])
            steps.append(step)
        return steps, at

    def way_to(self, start: str, goal: str, least: int = 0) -> Optional[Steps]:
        """Random steps from a set to another, if they are found soon."""
        for _ in range(20):
            steps, end = self.way(start, 3, least)
            if end == goal:
                return steps
        return None

    # --- the target --------------------------------------------------------------------------------------------------

    def target_set(self, number: int) -> str:
        """A target set with its notes, its lines and its query."""
        r, start = self.r, self.r.choice(self.sets)
        one = Target(f"t{number}", start, [self.way(start, 2, 1)[0] for _ in range(r.choice([0, 0, 1, 2]))],
                     [(self.way(start, 2)[0], r.choice("xyz"))] if r.random() < .3 else [])
        joins = self.base(one)
        self.items += [self.rows(one), f"line {start}.id -> {one.name}.no;"]
        chosen = ["a.id"]
        for place in range(r.randrange(1, 4)):
            chosen.append(self.value(one, joins, f"c{place}"))
        clauses = self.link(one, joins, chosen) + self.circle(one, joins, chosen)
        one.query = joins.text(chosen)
        self.targets.append(one)
        one.needs += [frozenset().union(*(need_of(steps) for steps, _ in value.taken), value.tests)
                      for value in one.columns.values()]
        return f"  set {one.name} {{ {', '.join(one.names())}; key (no); key (sk);{clauses} }}\n"

    def keyless_set(self) -> str:
        """A target set without keys: rows that say the same are one."""
        start = self.r.choice(self.sets)
        one = Target("t9", start, [self.way(start, 2, 1)[0] for _ in range(self.r.randrange(3))], [], has_key=False)
        joins, chosen = self.base(one), list[str]()
        self.items.append(self.rows(one))
        for place in range(self.r.randrange(1, 4)):
            steps: Steps = self.r.choice([list[str](), *one.musts])
            end = start
            for step in steps:
                end = dict(self.refs[end])[step]
            taken, by = self.r.choice(["val", "kind"]), f" by {'.'.join(steps)}" if steps else ""
            one.columns[f"c{place}"] = Value("", [(steps, taken)])
            self.items.append(f"line {end}.{taken} -> {one.name}.c{place}{by};")
            chosen.append(f"{joins.along(steps)}.{taken}")
        one.query = joins.text(chosen).replace("SELECT", "SELECT DISTINCT", 1)
        self.targets.append(one)
        return f"  set {one.name} {{ {', '.join(one.names())}; }}\n"

    def base(self, one: Target) -> Joins:
        """The joins that keep the rows of a target set."""
        joins = Joins(self.refs, one.start)
        for must in one.musts:
            joins.along(must, inner=True)
        for steps, text in one.tests:
            joins.where.append(f"{joins.along(steps, inner=True)}.kind = '{text}'")
        return joins

    def rows(self, one: Target) -> str:
        """The `rows` statement."""
        musts = " with " + ", ".join(".".join(must) for must in one.musts) if one.musts else ""
        tests = [".".join([*steps, "kind"]) + f' = "{text}"' for steps, text in one.tests]
        return f"rows {one.name} from {one.start}{musts}{' where ' + ', '.join(tests) if tests else ''};"

    def value(self, one: Target, joins: Joins, column: str) -> str:
        """A line to a column, and what SQL has there."""
        steps, end = self.way(one.start, 3)
        by = f" by {'.'.join(steps)}" if steps else ""
        taken = self.r.choice(["val", "kind", "id"])
        sql = f"{joins.along(steps)}.{taken}"
        kind = self.r.random()
        if kind < .2:
            self.items.append(f"line trim({end}.{taken}{by}) -> {one.name}.{column};")
            one.columns[column] = Value("trim", [(steps, taken)])
            return f"trim({sql})"
        if kind < .35:
            more, other = self.way(one.start, 2)
            second = f"{other}.kind{' by ' + '.'.join(more) if more else ''}"
            self.items.append(f"line pair({end}.{taken}{by}, {second}) -> {one.name}.{column};")
            one.columns[column] = Value("pair", [(steps, taken), (more, "kind")])
            return f"{sql} || ' ' || {joins.along(more)}.kind"
        one.columns[column] = Value("", [(steps, taken)])
        if kind < .5:
            test = self.r.choice(['kind = "x"', "val filled", 'val = ""'])
            one.columns[column].tests = frozenset([("=", "x") if test.startswith("kind") else test])
            self.items.append(f"line {end}.{taken} -> {one.name}.{column}{by} where {test};")
            said = {'kind = "x"': "a.kind = 'x'", "val filled": "a.val <> ''", 'val = ""': "a.val = ''"}[test]
            return f"CASE WHEN {said} THEN {sql} END"
        self.items.append(f"line {end}.{taken} -> {one.name}.{column}{by};")
        return sql

    def link(self, one: Target, joins: Joins, chosen: list[str]) -> str:
        """Perhaps a link to rows of an earlier set."""
        if not self.targets or self.r.random() < .3:
            return ""
        other = self.r.choice(self.targets)
        steps = self.way_to(one.start, other.start)
        if steps is None:
            return ""
        by = f" by {'.'.join(steps)}" if steps else ""
        self.items.append(f"line {other.start} -> {one.name}.l{by};")
        one.needs.append(need_of(steps) | other.base_after(steps))
        one.links["l"] = other.name
        chosen.append(self.linked(other, joins.along(steps)))
        optional = self.r.choice([" optional", ""])
        one.required |= set() if optional else {"l"}
        return f" ref (l) -> {other.name} (sk){optional};"

    def circle(self, one: Target, joins: Joins, chosen: list[str]) -> str:
        """Perhaps a link to a row of the same set."""
        steps = self.way_to(one.start, one.start, 1) if self.r.random() < .3 else None
        if not steps:
            return ""
        self.items.append(f"line {one.start} -> {one.name}.m by {'.'.join(steps)};")
        one.needs.append(need_of(steps) | one.base_after(steps))
        one.links["m"] = one.name
        chosen.append(self.linked(one, joins.along(steps)))
        return f" ref (m) -> {one.name} (sk) optional;"

    def linked(self, other: Target, end: str) -> str:
        """The number of the row that a link leads to, if that row is in the target."""
        return f"CASE WHEN {end}.id IN ({self.base(other).text(['a.id'])}) THEN {end}.id END"

    # --- what SQL says -----------------------------------------------------------------------------------------------

    def wanted(self, base: sqlite3.Connection) -> dict[str, Table]:
        """For each target set its rows without surrogate keys; a link is the `no` of the row to which it leads."""
        return {one.name: in_order(base.execute(one.query).fetchall()) for one in self.targets}
