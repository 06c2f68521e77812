"""The cover fold: in core mode the script leaves out matches that others cover, and what these say is in the place of
their nulls.

A match is covered by the first rule, the first way to it, and the first of its matches that give the same texts. The
script that `clio show --core` prints has the ways in this order, as far as exported columns go; the rest of a way is
the first that sends each atom of the conclusion to one of the other rule.
"""
import functools
from collections.abc import Callable

from clio_tools.program import Refused
from clio_tools.sql.script import Cell, Cover, Null, Rule, Script
from clio_tools.sql.stars import Part, followed, part_of
from clio_tools.sql.tables import NO_NULL, SHIFT, Heads
from clio_tools.sql.words import Words, quoted
from clio_tools.sql.work import Work

STEPS = 50_000
Way = dict[Cell, Cell]


class WayOf:
    """The way from one rule to another that covers it as a script says: what each cell becomes."""

    def __init__(self, rule: Rule, other: Rule, cover: Cover) -> None:
        self.rule, self.other, self.steps = rule, other, 0
        met = {own: Cell("x", other.exported[column]) for own, column in cover.columns.items()}
        met |= {own: Cell("", 0, text) for own, text in cover.literals.items()}
        self.start: Way = {Cell("x", rule.exported[own]): cell for own, cell in met.items()}

    def found(self) -> Way:
        """The first way, atom by atom."""
        way = self.onward(0, self.start)
        if way is None:
            raise Refused("clio shows a script in which a rule covers another one that it doesn't cover")
        return way

    def onward(self, place: int, way: Way) -> Way | None:
        """The first way that sends the atoms from a place on somewhere."""
        self.steps += 1
        if self.steps > STEPS:
            raise Refused("what covers what in core mode takes too many steps to find out for these rules;"
                          " without --core they are no trouble")
        if place == len(self.rule.conclusion):
            return way
        atom = self.rule.conclusion[place]
        for chosen in self.other.conclusion:
            longer = meeting(way, atom.cells, chosen.cells) if chosen.table == atom.table else None
            found = None if longer is None else self.onward(place + 1, longer)
            if found is not None:
                return found
        return None


def meeting(way: Way, cells: tuple[Cell, ...], chosen: tuple[Cell, ...]) -> Way | None:
    """A way with the cells of an atom and those that they become, or None if they can't."""
    longer = dict(way)
    for cell, other in zip(cells, chosen):
        is_one = longer.setdefault(cell, other) == other
        if not is_one or (cell.kind == "x" and other.kind == "y") or (cell.kind == "" and cell != other):
            return None
    return longer


class Covering:
    """Makes the part of the nulls of covered matches."""

    def __init__(self, work: Work, script: Script, heads: Heads) -> None:
        self.work, self.words, self.script, self.heads = work, work.words, script, heads

    def part(self) -> Part | None:
        """All rules; what a null became is followed on until it is there."""
        works: list[Callable[[], list[str]]] = []
        before, after = set[int](), set[int]()
        for rule, covers in self.script.covers.items():
            nulls = [Null(rule, variable) for variable in self.script.rules[rule].existential]
            if nulls:
                rules = self.script.rules
                ways = [(cover, WayOf(rules[rule], rules[cover.rule], cover).found()) for cover in covers]
                works.append(functools.partial(self.queries, rule, ways))
                before |= {self.heads.number[null] for null in nulls}
                after |= {self.heads.number[Null(cover.rule, cell.number)]
                          for cover, way in ways for cell in way.values() if cell.kind == "y"}
        queries = [query for found in self.work.engine.side_by_side(works) for query in found]
        if not queries:
            return None
        table = self.work.made("covering", " UNION ALL ".join(queries), ["u"], "nulls of covered matches")
        part = part_of(self.work, table, before, after, True)
        while part and self.has_more(part):
            part = self.followed(part)
        return part

    def has_more(self, part: Part) -> bool:
        """Whether what a null became has become something else."""
        both = part.before & part.after
        return bool(both) and self.work.any(f"{part.table} WHERE n IN (SELECT u FROM {part.table})")

    def followed(self, part: Part) -> Part | None:
        """Each null with what became of what it became."""
        query = followed(part.table, part.table)
        table = self.work.made("covering", query, ["u"], "nulls of covered matches")
        return part_of(self.work, table, part.before, part.after, part.texts)

    def queries(self, rule: int, ways: list[tuple[Cover, Way]]) -> list[str]:
        """The nulls of the covered matches of a rule, with what they became."""
        covered = [f"SELECT a.place, {number * SHIFT} + b.place AS way FROM m{rule} AS a"
                   f" JOIN m{cover.rule} AS b ON {same(cover, self.words)}" for number, (cover, _) in enumerate(ways)]
        query = f"SELECT place, min(way) AS way FROM ({' UNION ALL '.join(covered)}) AS q GROUP BY place"
        table = self.work.made("covered", query, ["place"], f"covered matches of rule {rule}")
        return [self.query(rule, table, number, cover, way) for number, (cover, way) in enumerate(ways)]

    def query(self, rule: int, covered: str, number: int, cover: Cover, way: Way) -> str:
        """The nulls of matches that are covered in one way."""
        null_of, by_place = self.script.rules[rule].existential, f"(q.way - {number * SHIFT})"
        cells = [way[Cell("y", variable)] for variable in null_of]
        rows = [(self.heads.code(Null(rule, variable), "q.place"), *self.value(cover.rule, cell, by_place))
                for variable, cell in zip(null_of, cells)]
        source = f"{covered} AS q"
        if any(cell.kind == "x" for cell in cells):
            source += f" JOIN m{cover.rule} AS b ON b.place = {by_place}"
        where = f"q.way >= {number * SHIFT} AND q.way < {(number + 1) * SHIFT}"
        if len(rows) == 1:
            u, n, c = rows[0]
            return f"SELECT {u} AS u, {n} AS n, {c} AS c FROM {source} WHERE {where}"
        listed = self.words.listed([f"({place})" for place in range(len(rows))], 1)
        u, n, c = (chosen([row[column] for row in rows]) for column in range(3))
        return f"SELECT {u} AS u, {n} AS n, {c} AS c FROM {source} CROSS JOIN {listed} WHERE {where}"

    def value(self, rule: int, cell: Cell, place: str) -> tuple[str, str]:
        """What a cell of a rule is at a place, as a null and as a constant."""
        if cell.kind == "y":
            return self.heads.code(Null(rule, cell.number), place), self.words.no_text
        if cell.kind == "x":
            return NO_NULL, f"b.c{self.script.rules[rule].exported.index(cell.number)}"
        return NO_NULL, self.words.text(quoted(cell.text))


def chosen(values: list[str]) -> str:
    """The value of the number v."""
    whens = " ".join(f"WHEN {number} THEN {value}" for number, value in enumerate(values))
    return f"CASE v.column1 {whens} END"


def same(cover: Cover, words: Words) -> str:
    """That a match b covers a match a."""
    tests = [f"a.c{own} = b.c{column}" for own, column in cover.columns.items()]
    tests += [f"a.c{own} = {quoted(text)}{words.by_bytes}" for own, text in cover.literals.items()]
    return " AND ".join(tests) or "1 = 1"
