"""Nulls that went: tables of what each became, and how pairs that have to be equal are joined to such tables."""
from clio_tools.sql.tables import head_of
from clio_tools.sql.work import Home, Row, Work

FIRST = -(1 << 60)  # texts are numbered from here while pairs are joined: below all nulls


class Part:
    """A table of nulls that went: u, and n or c, what it became; with the heads of both, and whether some became
    constants."""

    def __init__(self, table: str, before: set[int], after: set[int], texts: bool) -> None:
        self.table, self.before, self.after, self.texts = table, before, after, texts
        self.is_cover = False  # whether the matches that made these nulls are left out

    def follow(self, work: Work, other: "Part") -> None:
        """Puts what nulls became by another part in the place of these nulls."""
        rows = work.moved(f"SELECT * FROM {self.table}", Home("n")) or self.table
        self.table = at_home(work, work.made("fold", followed(rows, other.table), ["u"], is_local=True))
        self.after |= other.after
        self.texts |= other.texts


def followed(table: str, other: str) -> str:
    """The nulls of one table, with what became by another one of what they became."""
    return (f"SELECT e.u, CASE WHEN g.u IS NULL THEN e.n ELSE g.n END AS n, coalesce(g.c, e.c) AS c"
            f" FROM {table} AS e LEFT JOIN {other} AS g ON g.u = e.n")


def at_home(work: Work, table: str) -> str:
    """A table of nulls that went, each on the server that has the match that made it."""
    return work.moved(f"SELECT * FROM {table}", Home("u")) or table


def part_of(work: Work, table: str, before: set[int], after: set[int], texts: bool,
            is_at_home: bool = False) -> Part | None:
    """The part of a table of nulls that went, or None if it has none; the heads that it may have are given, and whether
    each null is on the server of its match."""
    assumed: list[Row] = [(u, n, int(texts)) for u in sorted(before) for n in [*sorted(after), None]]
    u, n = (head_of(work.words, number) for number in "un")
    query = f"SELECT {u} AS u, {n} AS n, max(CASE WHEN c IS NOT NULL THEN 1 ELSE 0 END) FROM {table} GROUP BY {u}, {n}"
    found = work.engine.each(query, assumed)
    if not found:
        return None
    if not is_at_home:
        table = at_home(work, table)
    becomes = [int(row[1]) for row in found if row[1] is not None]
    return Part(table, {int(row[0]) for row in found}, set(becomes), any(row[2] for row in found))


class Stars:
    """Joins pairs (u, n or c) to stars: each null with the least of its class, where constants are less than nulls."""

    def __init__(self, work: Work) -> None:
        self.work, self.steps = work, 0

    def are_stars(self, table: str, least: int, assumed: bool) -> bool:
        """Whether each u has one lesser neighbour, which has none; a neighbour below `least` needn't be asked for
        lesser ones."""
        return not (self.work.any(f"{table} GROUP BY u HAVING count(*) > 1", assumed)
                    or self.work.any(f"{table} WHERE v >= {least} AND v IN (SELECT u FROM {table})", assumed))

    def join(self, pair: str) -> str:
        """The table of what each null of some pairs becomes."""
        twice = self.work.any(f"{pair} GROUP BY u HAVING count(*) > 1", True)
        if not twice and not self.work.any(f"{pair} WHERE n IN (SELECT u FROM {pair})", True):
            return pair
        texts = self.work.made("texts", f"SELECT c, row_number() OVER (ORDER BY c) + {FIRST} AS v"
                                        f" FROM (SELECT DISTINCT c FROM {pair} WHERE c IS NOT NULL) AS q", ["c"])
        numbers = f"SELECT p.u, coalesce(p.n, t.v) AS v FROM {pair} AS p LEFT JOIN {texts} AS t ON t.c = p.c"
        now = self.stars(self.work.made("pair", numbers, ["u"]))
        return self.work.made("gone", f"SELECT p.u, CASE WHEN p.v >= 0 THEN p.v END AS n, t.c FROM {now} AS p"
                                      f" LEFT JOIN {texts} AS t ON t.v = p.v WHERE p.u >= 0", ["u"])

    def stars(self, pair: str) -> str:
        """Lesser neighbours pass on the least of theirs, until all are stars."""
        assumed = True
        while not self.are_stars(pair, 0, assumed):
            self.steps, assumed = self.steps + 1, False
            least = self.work.made("least", f"SELECT u, min(v) AS v FROM {pair} GROUP BY u", ["u"])
            far = self.work.made("far", f"SELECT DISTINCT p.u, coalesce(l.v, p.v) AS v FROM {pair} AS p"
                                        f" LEFT JOIN {least} AS l ON l.u = p.v", ["u"])
            least = self.work.made("least", f"SELECT u, min(v) AS v FROM {far} GROUP BY u", ["u"])
            pair = self.work.made("pair", f"SELECT u, v FROM {least} UNION SELECT f.v, l.v FROM {far} AS f"
                                          f" JOIN {least} AS l ON l.u = f.u WHERE f.v <> l.v", ["u"])
        return pair
