"""The tables that are left, with values as clio writes them: the target, its nulls, and the fold."""
from collections.abc import Sequence

from clio_tools.sql.script import Insert, Script
from clio_tools.sql.stars import Part
from clio_tools.sql.tables import SHIFT, Heads, Table, code
from clio_tools.sql.words import Words, quoted
from clio_tools.sql.work import Work

TOLD = 3  # so many columns part the rows of a table well enough


def escaped(cell: str) -> str:
    """A constant as clio writes it."""
    return f"CASE WHEN {cell} LIKE '?%' THEN '?' || {cell} ELSE {cell} END"


class Names:
    """Names of nulls and texts of cells."""

    def __init__(self, heads: Heads, words: Words) -> None:
        self.heads, self.words = heads, words

    def head(self, number: int) -> str:
        """How the names of a head begin."""
        return quoted(f"?{self.heads.nulls[number].rule}.{self.heads.nulls[number].variable}.")

    def null(self, number: str, heads: set[int]) -> str:
        """The name of a null whose head is one of some; the numbers of a head are below those of the next."""
        named = [f"{self.head(head)} || ({number} - {head * SHIFT})" for head in sorted(heads)]
        ends = [(head + 1) * SHIFT for head in sorted(heads)[:-1]]
        whens = " ".join(f"WHEN {number} < {end} THEN {name}" for end, name in zip(ends, named))
        return f"CASE {whens} ELSE {named[-1]} END" if whens else named[0]

    def cell(self, c: str, n: str, texts: bool, heads: set[int]) -> str:
        """A cell as clio writes it."""
        if not heads:
            return escaped(c)
        if not texts:
            return self.null(n, heads)
        return f"CASE WHEN {c} IS NULL THEN {self.null(n, heads)} WHEN {c} LIKE '?%' THEN '?' || {c} ELSE {c} END"

    def column(self, expression: str, name: str) -> str:
        """A column of the target."""
        return f'({expression}){self.words.by_language} AS "{name}"'


class Writer:
    """Writes all tables; each is made by queries that can run side by side."""

    def __init__(self, work: Work, script: Script, heads: Heads, parts: Sequence[Part], split: int) -> None:
        self.work, self.script, self.heads, self.parts, self.split = work, script, heads, parts, split
        self.names = Names(heads, work.words)

    def write(self, tables: Sequence[Table]) -> None:
        """The target, its nulls, and the fold."""
        for table in tables:
            with self.work.step(f"writing {table.name}"):
                self.work.engine.write(table.name, table.columns, self.table(table))
        with self.work.step("writing nulls"):
            columns = ["null", "variable", "value"]
            self.work.engine.write("nulls", columns, self.nulls() or [nothing(*columns)])
        with self.work.step("writing fold"):
            columns = ["null", "value"]
            parts = [self.fold(part, where) for part in self.parts for where in self.wheres(" WHERE ", "g.u")]
            self.work.engine.write("fold", columns, parts or [nothing(*columns)])

    def table(self, table: Table) -> list[str]:
        """The queries for a table."""
        cells = ", ".join(self.names.column(self.names.cell(f"t.c{place}", f"t.n{place}", cell.texts, cell.heads), name)
                          for place, (cell, name) in enumerate(zip(table.cells, table.columns)))
        if table.work or not table.inserts or not all(map(table.is_apart, table.inserts)):
            columns = table.listed(range(len(table.columns)))
            moved = (lambda query: self.work.moved(query, columns)) if self.work.engine.is_spread else None
            wheres = [f" WHERE {where}" for where in self.work.engine.split(columns[:TOLD])] or [""]
            query = table.query(True, moved)
            return [f"SELECT {cells} FROM ({query}) AS t{where}" for where in wheres]
        return [f"SELECT {cells} FROM ({table.insert_query(insert, where=where)}) AS t"
                for insert in table.inserts for where in self.wheres(" WHERE ")]

    def wheres(self, word: str, number: str = "m.place") -> list[str]:
        """Conditions that part rows by a number, such as the places of matches."""
        return [f"{word}{number} % {self.split} = {one}" for one in range(self.split)] if self.split > 1 else [""]

    def nulls(self) -> list[str]:
        """For each null that is left the values that its rule exports at its place."""
        return [self.nulls_of(head, where) for head, null in enumerate(self.heads.nulls)
                if self.script.rules[null.rule].exported for where in self.wheres(" AND ")]

    def nulls_of(self, head: int, also: str) -> str:
        """The nulls of a head: those of the matches that didn't go."""
        null = self.heads.nulls[head]
        variables = self.script.rules[null.rule].exported
        gone = [part.table for part in self.parts if head in part.before and not part.is_cover]
        here = code(head, "m.place")
        where = " WHERE 1 = 1" + also + "".join(f" AND NOT EXISTS (SELECT 1 FROM {table} AS g WHERE g.u = {here})"
                                                for table in gone)
        source = f"{matches_of(self.script.inserts, null.rule)} AS m"
        variable, value = quoted(f"x{variables[0]}"), escaped("m.c0")
        if len(variables) > 1:
            listed = [f"({column}, 'x{one}')" for column, one in enumerate(variables)]
            source += f" CROSS JOIN {self.work.words.listed(listed, 2)}"
            whens = " ".join(f"WHEN {column} THEN {escaped(f'm.c{column}')}" for column in range(len(variables)))
            variable, value = "v.column2", f"CASE v.column1 {whens} END"
        columns = [(f"{self.names.head(head)} || m.place", "null"), (variable, "variable"), (value, "value")]
        return f"SELECT {', '.join(self.names.column(*one) for one in columns)} FROM {source}{where}"

    def fold(self, part: Part, where: str) -> str:
        """The nulls that went, with what they became."""
        value = self.names.cell("g.c", "g.n", part.texts, part.after)
        null = self.names.null("g.u", part.before)
        return (f"SELECT {self.names.column(null, 'null')}, {self.names.column(value, 'value')} FROM {part.table} AS g"
                f"{where}")


def matches_of(inserts: Sequence[Insert], rule: int) -> str:
    """The table of matches from which a rule inserts."""
    return next(insert.matches for insert in inserts if insert.rule == rule)


def nothing(*names: str) -> str:
    """A query without rows."""
    return "SELECT " + ", ".join(f"CAST('' AS text) AS \"{name}\"" for name in names) + " WHERE 1 = 0"
