"""Keys whose groups share no nulls: one query over a whole table makes one row of each group."""
from collections.abc import Sequence

from clio_tools.sql.determinations import Determination, bring_together
from clio_tools.sql.script import Null
from clio_tools.sql.stars import Part, part_of
from clio_tools.sql.tables import NO_NULL
from clio_tools.sql.work import Parts, Work


class Collapse:
    """A simple key: one GROUP BY makes the merged table, shows clashes, and says of most groups what went."""

    def __init__(self, work: Work, one: Determination) -> None:
        self.work, self.one, self.table = work, one, one.table
        self.opens = [place for place in one.right if self.table.cells[place].heads]

    def run(self) -> Part | None:
        """Merges; answers the part of nulls that went."""
        table, one = self.table, self.one
        is_at_home = not table.work and bool(one.together)
        bring_together(self.work, one)
        groups = self.grouped()
        many, two, filled = self.found(groups.name)
        queries = [self.gone(part, many, two, filled) for part in groups.names]
        heads = table.all_heads(many + two), any(table.cells[place].texts for place in {*many, *two, *filled})
        before = table.all_heads([*many, *two, *filled])
        self.settle(groups.name)
        if not queries[0]:
            return None
        gone = self.work.made_in_parts("gone", queries, ["u"], f"nulls of {table.name} that went").name
        return part_of(self.work, gone, before, *heads, is_at_home)

    def grouped(self) -> Parts:
        """The table with one row for each group."""
        table, one, by = self.table, self.one, self.table.listed(self.one.left)
        grouped = f" GROUP BY {', '.join(by)}" if by else " HAVING count(*) > 0"
        counts = [f"count(n{place}) AS k{place}" for place in self.opens]
        query = f"SELECT {', '.join(by + one.least_and_greatest() + counts)} FROM ({table.query(distinct=False)}) AS t"
        wheres = [f" WHERE {where}" for where in self.work.engine.split(by)] or [""]
        return self.work.made_in_parts("g", [f"{query}{where}{grouped}" for where in wheres], by,
                                       f"key of {table.name}")

    def gone(self, groups: str, many: Sequence[int], two: Sequence[int], filled: Sequence[int]) -> str:
        """The query for the nulls of groups that went."""
        queries = [f"SELECT n{place} AS u, {NO_NULL} AS n, c{place} AS c FROM {groups}"
                   f" WHERE c{place} IS NOT NULL AND n{place} = x{place}" for place in filled]
        queries += [query for place in two for query in self.of_two(groups, place)]
        queries += [query for place in many for query in self.of_many(groups, place)]
        return " UNION ALL ".join(queries)

    def found(self, groups: str) -> tuple[list[int], list[int], list[int]]:
        """The columns in which some group has more than two nulls, other ones in which some has two, and those in
        which some has a null and a constant."""
        any_of = "max(CASE WHEN {} THEN 1 ELSE 0 END)".format
        cells = self.table.cells
        texts = [place for place in self.one.right if cells[place].texts]
        both = [place for place in self.opens if cells[place].texts]
        clash = [any_of(" OR ".join(f"c{place} <> z{place}" for place in texts))] if texts else ["0"]
        several = [f"max(CASE WHEN n{place} <> x{place} THEN k{place} ELSE 0 END)" for place in self.opens]
        mixed = [any_of(f"n{place} IS NOT NULL AND c{place} IS NOT NULL") for place in both]
        assumed = (0, *[3] * len(several), *[1] * len(mixed))
        each = self.work.engine.each(f"SELECT {', '.join(clash + several + mixed)} FROM {groups}", [assumed])
        row = [max(int(one or 0) for one in answers) for answers in zip(*each)]
        if row[0]:
            self.one.check_clash(self.work, groups)
        most = {place: int(one or 0) for place, one in zip(self.opens, row[1:])}
        return ([place for place in self.opens if most[place] > 2], [place for place in self.opens if most[place] == 2],
                [place for place, one in zip(both, row[1 + len(self.opens):]) if one])

    def of_two(self, groups: str, place: int) -> list[str]:
        """What went in a column of groups with two nulls at most: the greater one, and both if there is a constant."""
        n, c = f"n{place}", self.table.words.no_text
        if not self.table.cells[place].texts:
            return [f"SELECT x{place} AS u, {n} AS n, {c} AS c FROM {groups} WHERE {n} <> x{place}"]
        least = f"CASE WHEN c{place} IS NULL THEN {n} END"
        return [f"SELECT x{place} AS u, {least} AS n, c{place} AS c FROM {groups} WHERE {n} <> x{place}",
                f"SELECT {n} AS u, {NO_NULL} AS n, c{place} AS c FROM {groups}"
                f" WHERE {n} <> x{place} AND c{place} IS NOT NULL"]

    def of_many(self, groups: str, place: int) -> list[str]:
        """What went in a column of groups with several nulls, which are joined back to their rows."""
        table = self.table
        gone = Gone(groups, place, table.words.no_text, table.cells[place].texts)
        if table.work:
            return [gone.query(str(table.work), table.same("t", "g", self.one.left)) + f" AND t.n{place} IS NOT NULL"]
        places = sorted({*self.one.left, place})
        return [gone.query(f"({table.insert_query(insert, places)})", table.same("t", "g", self.one.left))
                for insert in table.inserts if isinstance(insert.cells[place], Null)]

    def settle(self, groups: str) -> None:
        """Lets the table be a view of the groups, in which a cell is a constant or a null."""
        shown = []
        for place, cell in enumerate(self.table.cells):
            if cell.texts:
                shown.append(f"c{place}")
            if cell.heads:
                is_both = cell.texts and place in self.one.right
                shown.append(f"CASE WHEN c{place} IS NULL THEN n{place} END AS n{place}" if is_both else f"n{place}")
        self.table.put(self.work.view("v", f"SELECT {', '.join(shown)} FROM {groups}"))


class Gone:
    """The nulls of a column that aren't what their group became."""

    def __init__(self, groups: str, place: int, no_text: str, texts: bool) -> None:
        self.groups, self.place, self.no_text, self.texts = groups, place, no_text, texts

    def query(self, rows: str, same: str) -> str:
        """Of some rows, by what makes a row one of a group."""
        n, c, gone = f"g.n{self.place}", self.no_text, f"g.n{self.place} <> t.n{self.place}"
        if self.texts:
            n, c = f"CASE WHEN g.c{self.place} IS NULL THEN g.n{self.place} END", f"g.c{self.place}"
            gone = f"(g.c{self.place} IS NOT NULL OR g.n{self.place} <> t.n{self.place})"
        return (f"SELECT t.n{self.place} AS u, {n} AS n, {c} AS c FROM {rows} AS t JOIN {self.groups} AS g ON {same}"
                f" WHERE g.n{self.place} <> g.x{self.place} AND {gone}")
