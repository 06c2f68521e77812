"""What the reduction to a core still has to look at.

Every homomorphism of the target into itself keeps constants. If a row is the only one of its table that agrees with
it in the columns that hold constants or nulls known to be kept, it goes to itself, so its nulls are kept too. What is
left when no more nulls become known so are rows with open nulls; rows that share an open null are in one block.
"""
import functools
from collections.abc import Sequence

from clio_tools.sql.determinations import Determination
from clio_tools.sql.stars import Stars
from clio_tools.sql.tables import Table, head_of
from clio_tools.sql.work import Work


class Rigid:
    """The nulls known to be kept are those of known heads and those in the table `known`."""

    def __init__(self, work: Work, tables: Sequence[Table], keys: Sequence[Determination]) -> None:
        self.work, self.known_heads = work, known_by_keys(keys)
        self.tables = [table for table in tables if self.opens(table)]
        self.known = work.made("known", "SELECT CAST(0 AS bigint) AS u WHERE 1 = 0", ["u"])

    def run(self) -> None:
        """Looks for rows that go to themselves until there are no more."""
        before, after = -1, 0
        while self.tables and before < after:
            before = after
            each = self.work.engine.side_by_side([functools.partial(self.kept_of, table) for table in self.tables])
            found = [query for queries in each for query in queries]
            if not found:
                return
            query = " UNION ".join([f"SELECT u FROM {self.known}", *found])
            self.known = self.work.made("known", query, ["u"], "nulls that stay")
            after = self.work.number(f"SELECT count(*) FROM {self.known}", 0)

    def opens(self, table: Table) -> list[int]:
        """The columns that may have nulls that aren't known to be kept."""
        return [place for place, cell in enumerate(table.cells) if cell.heads - self.known_heads]

    def marked(self, table: Table) -> str:
        """A work table of the rows: c as it is, o the null, k the null if it is known."""
        shown, joins, opens = [], "", self.opens(table)
        for place, cell in enumerate(table.cells):
            shown += [f"t.c{place}"] * cell.texts
            if cell.heads:
                shown.append(f"t.n{place} AS o{place}")
            if place in opens:
                null, known = f"t.n{place}", sorted(cell.heads & self.known_heads)
                by_head = "".join(f"WHEN {head_of(table.words, null)} = {head} THEN {null} " for head in known)
                shown.append(f"CASE {by_head}ELSE k{place}.u END AS k{place}" if by_head else f"k{place}.u AS k{place}")
                joins += f" LEFT JOIN {self.known} AS k{place} ON k{place}.u = t.n{place}"
        query = f"SELECT {', '.join(shown)} FROM ({table.query(distinct=True)}) AS t{joins}"
        key = key_columns(table, range(len(table.cells)))
        return self.work.made("marked", query, key, f"open nulls of {table.name}")

    def kept_of(self, table: Table) -> list[str]:
        """Queries for the open nulls of rows that are the only ones with what is known of them."""
        name, queries = self.marked(table), []
        for hidden in self.forms(table, name):
            shown = [place for place in range(len(table.columns)) if place not in hidden]
            key = key_columns(table, shown)
            group = f" GROUP BY {', '.join(key)}" if key else ""
            once = f"SELECT {', '.join([*key, 'count(*) AS number'])} FROM {name}{group} HAVING count(*) = 1"
            queries += [f"SELECT t.o{place} AS u FROM {name} AS t JOIN ({once}) AS o"
                        f" ON {same_key(table, shown, 't', 'o')} WHERE {self.is_form(table, hidden, 't.')}"
                        for place in hidden]
        return queries

    def forms(self, table: Table, name: str) -> list[list[int]]:
        """The lists of columns that are open together in some row."""
        opens = self.opens(table)
        tests = ", ".join(f"CASE WHEN {is_open(place)} THEN 1 ELSE 0 END AS e{place}" for place in opens)
        rows = self.work.engine.rows(f"SELECT DISTINCT {tests} FROM {name}", [(1,) * len(opens)])
        forms = [[place for place, one in zip(opens, row) if one] for row in rows]
        return sorted(form for form in forms if form)

    def is_form(self, table: Table, hidden: Sequence[int], alias: str = "") -> str:
        """That just these columns of a row are open."""
        return " AND ".join(is_open(place, alias) if place in hidden else f"NOT {is_open(place, alias)}"
                            for place in self.opens(table))

    def left(self) -> tuple[int, int]:
        """How many rows have open nulls, and in how many blocks they are."""
        each = self.work.engine.side_by_side([functools.partial(self.left_of, table) for table in self.tables])
        rows = sum(count for count, _ in each)
        return (rows, self.blocks([pair for _, pairs in each for pair in pairs])) if rows else (0, 0)

    def left_of(self, table: Table) -> tuple[int, list[str]]:
        """How many rows of a table have open nulls, and the queries for pairs of these."""
        name, opens = self.marked(table), self.opens(table)
        rows = self.work.number(f"SELECT count(*) FROM {name} WHERE {' OR '.join(map(is_open, opens))}")
        least = self.work.words.least_of([f"CASE WHEN {is_open(other)} THEN o{other} END" for other in opens])
        return rows, [f"SELECT o{place} AS u, {least} AS n, {self.work.words.no_text} AS c FROM {name}"
                      f" WHERE {is_open(place)}" for place in opens]

    def blocks(self, parts: Sequence[str]) -> int:
        """The number of connected groups of nulls, of queries for pairs."""
        pair = self.work.made("pair", " UNION ".join(parts), ["u"])
        nulls = self.work.number(f"SELECT count(DISTINCT u) FROM {pair}")
        apart = self.work.made("pair", f"SELECT * FROM {pair} WHERE u <> n", ["u"])
        return nulls - self.work.number(f"SELECT count(DISTINCT u) FROM {Stars(self.work).join(apart)}", 0)


def is_open(place: int, alias: str = "") -> str:
    """That a column of a marked row has a null that isn't known to be kept."""
    return f"({alias}o{place} IS NOT NULL AND {alias}k{place} IS NULL)"


def key_columns(table: Table, places: Sequence[int]) -> list[str]:
    """The columns of marked rows that tell what is in some columns."""
    return [("o" + name[1:] if name[0] == "n" else name) for name in table.listed(places)]


def same_key(table: Table, places: Sequence[int], one: str, other: str) -> str:
    """That two marked rows agree in some columns."""
    tests = []
    for place in places:
        cell = table.cells[place]
        for name in key_columns(table, [place]):
            here, there = f"{one}.{name}", f"{other}.{name}"
            both = cell.texts and cell.heads
            tests.append(table.words.agree(here, there, name[0]) if both else f"{here} = {there}")
    return " AND ".join(tests) or "1 = 1"


def known_by_keys(keys: Sequence[Determination]) -> set[int]:
    """The heads of nulls of rows whose key has constants and known nulls: such a row goes to itself."""
    known: set[int] = set()
    more = True
    while more:
        before = len(known)
        for one in keys:
            if one.is_key and one.table.all_heads(one.left) <= known:
                known |= one.table.all_heads(range(len(one.table.columns)))
        more = len(known) > before
    return known
