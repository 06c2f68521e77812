"""What keys and dependencies make equal, one after the other, by queries over whole tables."""
import functools
from collections.abc import Sequence
from typing import NamedTuple

from clio_tools.sql.collapsing import Collapse
from clio_tools.sql.determinations import Determination, bring_together
from clio_tools.sql.stars import Part, Stars, part_of
from clio_tools.sql.tables import NO_NULL, Table
from clio_tools.sql.work import Home, Work


class Ask(NamedTuple):
    """A determination that is asked, and whether it's a key whose groups share no nulls."""
    one: Determination
    is_simple: bool


class Chase:
    """Replaces nulls until all determinations hold. `parts` are the tables of nulls that went."""

    def __init__(self, work: Work, tables: Sequence[Table], asked: Sequence[Determination]) -> None:
        self.work, self.tables, self.asked = work, tables, [one for one in asked if one.right]
        self.parts: list[Part] = []
        self.waiting: list[Determination] = []
        self.stars, self.rounds = Stars(work), 0

    def run(self) -> None:
        """All determinations, each after those that feed it; one is asked again if its left columns have changed."""
        self.waiting = list(self.asked)
        while self.waiting and not (self.work.engine.is_plan and self.rounds >= 2 * len(self.asked)):
            asks = [Ask(one, one.is_key and one.is_simple()) for one in self.next()]
            for ask in asks:
                self.waiting.remove(ask.one)
                self.rounds += 1
            parts = self.work.engine.side_by_side([functools.partial(self.part, ask) for ask in asks])
            for ask, part in zip(asks, parts):
                if part:
                    changed = self.apply(part, ask.one.table if ask.is_simple else None)
                    self.wait_for(changed, [] if ask.is_simple else [ask.one])

    def next(self) -> list[Determination]:
        """Some that no other feeds, if there are such, and that don't meet."""
        free = [one for one in self.waiting
                if not any(other.feeds(one) for other in self.waiting if other is not one)] or self.waiting[:1]
        chosen: list[Determination] = []
        for one in free:
            if not any(one.meets(other) for other in chosen):
                chosen.append(one)
        return chosen

    def part(self, ask: Ask) -> Part | None:
        """What a determination makes equal. A simple one is a key whose groups share no nulls: it makes one row of each
        group at once. Any other may have to be asked again."""
        return Collapse(self.work, ask.one).run() if ask.is_simple else self.pairs(ask.one)

    def wait_for(self, changed: dict[str, set[int]], again: list[Determination]) -> None:
        """Has those asked again whose left columns have changed."""
        for other in self.asked:
            if other not in self.waiting and (other in again or changed.get(other.table.name, set()) & set(other.left)):
                self.waiting.append(other)

    def pairs(self, one: Determination) -> Part | None:
        """What a determination makes equal: each null with the least of its group, joined to stars."""
        table, tests = one.table, one.has_more()
        if not tests:
            return None
        what = f"key of {table.name}"
        bring_together(self.work, one)
        if not table.work or table.is_loose:
            table.put(self.work.made("t", table.query(distinct=True), table.listed(one.left), f"rows of {table.name}",
                                     is_local=True))
        by = table.listed(one.left)
        query = f"SELECT {', '.join(by + one.least_and_greatest())} FROM {table.work} AS t"
        grouped = f"{' GROUP BY ' * bool(by)}{', '.join(by)} HAVING {' OR '.join(tests)}"
        wheres = [f" WHERE {where}" for where in self.work.engine.split(by)] or [""]
        groups = self.work.made_in_parts("g", [f"{query}{where}{grouped}" for where in wheres], by, what).name
        one.check_clash(self.work, groups)
        queries = pair_queries(one, groups)
        if not queries:
            return None
        query = " UNION ALL ".join(queries)
        source = self.work.moved(query, Home("u")) or f"({query})"
        pair = self.work.made("pair", f"SELECT DISTINCT * FROM {source} AS q", ["u"], what, is_local=True)
        if not self.work.any(pair, True):
            return None
        heads = table.all_heads(one.right)
        texts = any(table.cells[place].texts for place in one.right)
        stars = self.stars.join(pair)
        return part_of(self.work, stars, heads, heads, texts, stars == pair)

    def apply(self, part: Part, done: Table | None) -> dict[str, set[int]]:
        """Puts what nulls became into all tables and all earlier parts; answers the columns that may have changed, by
        table."""
        works = [functools.partial(earlier.follow, self.work, part) for earlier in self.parts
                 if earlier.after & part.before]
        self.parts.append(part)
        changed = {}
        for table in self.tables:
            places = [place for place, cell in enumerate(table.cells) if cell.heads & part.before]
            if places:
                changed[table.name] = set(places)
                if table is done:
                    for place in places:
                        table.cells[place].heads |= part.after
                else:
                    works.append(functools.partial(self.replace_in, table, part, places))
        self.work.engine.side_by_side(works)
        return changed

    def replace_in(self, table: Table, part: Part, places: Sequence[int]) -> None:
        """A table with its replaced nulls. Where a match has its rows they meet the nulls of all columns; elsewhere
        they are brought to those of one column after the other."""
        if table.work and self.work.engine.is_spread:
            for place in places:
                table.put(self.work.moved(table.query(distinct=False), Home(f"n{place}")), is_loose=True)
                if place != places[-1]:
                    table.put(self.work.view("v", f"SELECT {self.replaced(table, part, [place])}"), is_loose=True)
            places = places[-1:]
        self.fill(table, self.replaced(table, part, places))

    def replaced(self, table: Table, part: Part, places: Sequence[int]) -> str:
        """What a table becomes with the nulls of some columns replaced."""
        query, old = table.query(distinct=False), table.copied_cells()
        shown, joins = [], ""
        for place, cell in enumerate(table.cells):
            if place not in places:
                shown += [f"t.{one}" for one in table.listed([place])]
                continue
            joins += f" LEFT JOIN {part.table} AS g{place} ON g{place}.u = t.n{place}"
            if part.texts or cell.texts:
                constant = f"coalesce(t.c{place}, g{place}.c)" if old[place].texts else f"g{place}.c"
                shown.append(f"{constant} AS c{place}")
            shown.append(f"CASE WHEN g{place}.u IS NULL THEN t.n{place} ELSE g{place}.n END AS n{place}")
            cell.heads |= part.after
            cell.texts, cell.once = cell.texts or part.texts, False
        return f"{', '.join(shown)} FROM ({query}) AS t{joins}"

    def fill(self, table: Table, selected: str) -> None:
        """Lets a table have what is selected: by a view, if a key will make its groups one row each anyway."""
        if any(one.table is table and one.is_key and one.is_simple() for one in self.waiting):
            table.put(self.work.view("v", f"SELECT {selected}"), is_loose=True)
            return
        moved = self.work.moved(f"SELECT {selected}", table.listed(range(len(table.cells))))
        query = f"SELECT DISTINCT {f'* FROM {moved}' if moved else selected}"
        table.put(self.work.made("t", query, what=f"rows of {table.name}", is_local=True))


def pair_queries(one: Determination, groups: str) -> list[str]:
    """The pairs (u, n or c) of a determination's groups."""
    table, queries = one.table, []
    for place in one.right:
        if table.cells[place].heads:
            queries.append(f"SELECT t.n{place} AS u, g.n{place} AS n, {table.words.no_text} AS c FROM {table.work} AS t"
                           f" JOIN {groups} AS g ON {table.same('t', 'g', one.left)} WHERE t.n{place} <> g.n{place}")
            if table.cells[place].texts:
                queries.append(f"SELECT g.n{place} AS u, {NO_NULL} AS n, g.c{place} AS c FROM {groups} AS g"
                               f" WHERE g.n{place} IS NOT NULL AND g.c{place} IS NOT NULL")
    return queries
