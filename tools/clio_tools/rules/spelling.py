"""A rule as a text."""
from ..mapping.names import named_column
from ..mapping.printing import quoted
from ..mapping.schema import Table
from ..mapping.tokens import Token
from ..mapping.tree import Atom, Rule
from .model import Drawing, Made
from .naming import Names, TestSets
from .terms import Call, Cell, Literal, Var, vars_of
from .ways import Way


class Spelling:
    """Spells one rule: its variables have the names of their columns."""

    def __init__(self, drawing: Drawing, sets: TestSets, made: Made) -> None:
        self.drawing, self.sets, self.made = drawing, sets, made
        self.source = drawing.source_of(made.rows).number
        self.names = Names()
        self.derived: list[str] = []

    def variable(self, one: Var) -> Var:
        """The column that gives a text: one that a step goes to has the text of that from which it comes."""
        way, column = one.way, one.column
        while way and column in way[-1].referred:
            column = way[-1].own[way[-1].referred.index(column)]
            way = way[:-1]
        return Var(way, column)

    def order(self, way: Way) -> list[int]:
        """By what the rows on the left side are ordered."""
        table, places = self.source, []
        for step in way:
            places.append(self.drawing.ways.steps[table].index(step))
            table = step.table
        return places

    def ways(self) -> list[Way]:
        """The ways of the left side: not to an outer row of which nothing but its `#id` is used."""
        used = {self.variable(one).way for row in self.made.conclusion for cell in row.cells for one in vars_of(cell)}
        for test in self.made.need.tests:
            used.add(test.way if test.text is None else self.variable(Var(test.way, test.column)).way)
        ways = set(self.made.need.ways) | {()}
        for way in sorted(ways, key=len, reverse=True):
            goes_on = any(len(other) > len(way) and other[:len(way)] == way for other in ways)
            idle = way and way[-1].is_up and way not in used and not self.drawing.has_condition(way[-1].table)
            if idle and not goes_on:
                ways.discard(way)
        return sorted(ways, key=self.order)

    def premise(self) -> list[str]:
        """The left side."""
        atoms = []
        for way in self.ways():
            table = self.drawing.source.tables[self.drawing.ways.end(self.source, way)]
            variables = [self.named(Var(way, column)) for column in range(len(table.columns))]
            tests = [(one.column, one.name) for one in self.made.need.tests if one.way == way and one.name]
            atoms.append(f"{self.sets.copy_of(table.number, tests) if tests else table.name}({', '.join(variables)})")
        texts = [one for one in self.made.need.tests if one.text is not None]
        for test in sorted(texts, key=lambda one: (self.order(one.way), one.column, one.text)):
            atoms.append(f"{self.sets.of_text(test.text or '')}({self.named(Var(test.way, test.column))})")
        return atoms

    def named(self, one: Var) -> str:
        """The variable of a column."""
        found = self.variable(one)
        table = self.drawing.source.tables[self.drawing.ways.end(self.source, found.way)]
        wanted = self.drawing.source.tables[self.drawing.ways.end(self.source, one.way)].columns[one.column]
        return self.names.name(found, wanted.lstrip("#") or table.name)

    def cell(self, cell: Cell, column: str) -> str:
        """A cell of the right side."""
        if isinstance(cell, Literal):
            return quoted(cell.text)
        if isinstance(cell, Var):
            return self.named(cell)
        if isinstance(cell, Call):
            arguments = tuple(map(self.named, cell.arguments))
            known = self.names.knows((cell.conversion, arguments))
            name = self.names.name((cell.conversion, arguments), column.lstrip("#"))
            if not known:
                self.derived.append(f"{name} = {cell.conversion}({', '.join(arguments)})")
            return name
        target = self.drawing.target_of(self.drawing.rows[cell.rows])
        return self.names.name(cell, "open_" + target.columns[cell.column].lstrip("#"))

    def spelled(self) -> str:
        """The rule."""
        premise = ", ".join(self.premise())
        atoms = []
        for row in self.made.conclusion:
            table = self.drawing.targets[row.table]
            cells = [self.cell(cell, table.columns[place]) for place, cell in enumerate(row.cells)]
            atoms.append(f"{table.name}({', '.join(cells)})")
        where = f" where {', '.join(self.derived)}" if self.derived else ""
        return f"rule {premise}{where} -> {', '.join(atoms)};"


def with_all_cells(rule: Rule, source: dict[str, Table], target: dict[str, Table]) -> str:
    """A rule written by hand with all cells in the order of the columns; those that it doesn't name are open."""
    names = Names(cell.value.text for atom in rule.premise + rule.conclusion for cell in atom.cells
                  if cell.value.kind == "word")
    names.taken |= {one.name.text for one in rule.derived}
    premise = ", ".join(_atom(atom, source[atom.name.text], names, "") for atom in rule.premise)
    derived = [f"{one.name.text} = {one.call.name.text}({', '.join(cell.value.text for cell in one.call.cells)})"
               for one in rule.derived]
    where = f" where {', '.join(derived)}" if derived else ""
    conclusion = ", ".join(_atom(atom, target[atom.name.text], names, "open_") for atom in rule.conclusion)
    return f"rule {premise}{where} -> {conclusion};"


def _atom(atom: Atom, table: Table, names: Names, before: str) -> str:
    """An atom with all its cells."""
    given: dict[int | None, Token] = {}
    for place, cell in enumerate(atom.cells):
        given[named_column(cell.column.text, table) if cell.column else place] = cell.value
    cells = []
    for place, column in enumerate(table.columns):
        value = given.get(place)
        if value is None:
            cells.append(names.name((atom, place), before + column.lstrip("#")))
        else:
            cells.append(quoted(value.text) if value.kind == "string" else value.text)
    return f"{table.name}({', '.join(cells)})"
