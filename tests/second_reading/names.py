"""From a mapping text to a mapping: what is wrong with its names, or the mapping that it defines."""
from lines import Column, Line
from grammar import Reader, fault
from mapping import Condition, Mapping
from matches import NAMED, TESTS
from refusals import COLUMNS, LINES, MAPPING, TABLES, Limit, Refusal
from rules import EXISTENTIAL, LITERAL, VARIABLE, Atom, Cell, Derived, Rule
from schema import preorder, tables_of


def check_schema(trees, side):
    """The first fault of a schema: of its sets, then of their keys and refs, then of its links."""
    def refuse(kind, name):
        raise Refusal(MAPPING, "mapping: %s: %s %s" % (side, kind, name), name)

    sets = list(preorder(trees))
    if len(sets) > TABLES:
        raise Limit("tables", TABLES)
    check_sets(trees, sets, refuse)
    columns = {tree.name: tree.columns for tree in sets}
    for tree in sets:
        for key in tree.keys:
            check_columns(key, tree.columns, refuse)
        for dependency in tree.dependencies:
            check_columns(dependency.left, tree.columns, refuse)
            check_columns(dependency.right, tree.columns, refuse)
        for reference in tree.references:
            check_columns(reference.own, tree.columns, refuse)
            if reference.name not in columns:
                refuse("unknown name", reference.name)
            check_columns(reference.referred, columns[reference.name], refuse)
            if len(reference.own) != len(reference.referred):
                refuse("bad link in", tree.name)
    tables = tables_of(trees)
    for number, table in enumerate(tables):
        if leads_back(tables, number):
            refuse("cyclic links at", table.name)


def check_sets(trees, sets, refuse):
    """Names of sets are distinct, and so are the names inside each set, which has at most 64 columns."""
    roots = {id(tree) for tree in trees}
    for place, tree in enumerate(sets):
        if tree.name in [earlier.name for earlier in sets[:place]]:
            refuse("double name", tree.name)
        if len(tree.columns) + bool(tree.inner) + (id(tree) not in roots) > COLUMNS:
            raise Limit("columns", COLUMNS)
        names = tree.columns + [inner.name for inner in tree.inner]
        for position, name in enumerate(names):
            if name in names[:position]:
                refuse("double name", name)


def check_columns(names, columns, refuse):
    """The names are columns, and none stands twice."""
    for place, name in enumerate(names):
        if name not in columns:
            refuse("unknown name", name)
        if name in names[:place]:
            refuse("double name", name)


def leads_back(tables, start):
    """Whether links lead from a table back to it."""
    seen, left = set(), [start]
    while left:
        for link in tables[left.pop()].every_link():
            if link.table == start:
                return True
            if link.table not in seen:
                seen.add(link.table)
                left.append(link.table)
    return False


def table_number(tables, token):
    """The table that a word names."""
    for number, table in enumerate(tables):
        if table.name == token.text:
            return number
    raise fault("unknown name", token.start)


def column_of(place, tables):
    """The column that a line names."""
    number = table_number(tables, place.set)
    if place.column.text not in tables[number].columns:
        raise fault("unknown name", place.column.start)
    return Column(number, tables[number].columns.index(place.column.text))


def check_conversion(name, arguments):
    """A conversion is known and has its number of arguments."""
    if name.text not in NAMED:
        raise fault("unknown name", name.start)
    if NAMED[name.text].arity != len(arguments):
        raise fault("wrong number of cells", name.start)


def line_of(text, mapping):
    """A line, its source looked at before its target."""
    if text.conversion:
        check_conversion(text.conversion, text.columns)
    columns = tuple(column_of(place, mapping.source) for place in text.columns)
    target = column_of(text.target, mapping.target)
    return Line(target, columns, text.conversion and text.conversion.text, text.literal and text.literal.text)


def condition_of(text, mapping):
    """A condition: its set, its column, then its test."""
    column = column_of(text.place, mapping.source)
    if text.test.text not in TESTS:
        raise fault("unknown name", text.test.start)
    return Condition(column, text.test.text)


def atom_table(call, tables):
    """The table of an atom, which has a cell for each of its columns."""
    number = table_number(tables, call.name)
    if len(tables[number].columns) != len(call.cells):
        raise fault("wrong number of cells", call.name.start)
    return number


def rule_of(text, mapping):
    """A hand-written rule: premise, derived variables, conclusion."""
    variables = {}
    premise = []
    for call in text.premise:
        table = atom_table(call, mapping.source)
        premise.append(Atom(table, tuple([variables.setdefault(cell.text, len(variables)) for cell in call.cells])))
    names, derived = dict(variables), []
    for one in text.derived:
        if one.name.text in names:
            raise fault("unsafe variable", one.name.start)
        check_conversion(one.call.name, one.call.cells)
        for cell in one.call.cells:
            if cell.text not in variables:
                raise fault("unsafe variable", cell.start)
        derived.append(Derived(one.call.name.text, tuple(variables[cell.text] for cell in one.call.cells)))
        names[one.name.text] = len(names)
    return Rule(premise, conclusion_of(text, mapping, names), derived)


def conclusion_of(text, mapping, names):
    """The conclusion's atoms; a word that names no variable is an existential variable."""
    existential, conclusion = {}, []
    for call in text.conclusion:
        table, cells = atom_table(call, mapping.target), []
        for cell in call.cells:
            if cell.kind == "string":
                cells.append(Cell(LITERAL, cell.text))
            elif cell.text in names:
                cells.append(Cell(VARIABLE, names[cell.text]))
            else:
                cells.append(Cell(EXISTENTIAL, existential.setdefault(cell.text, len(existential))))
        conclusion.append(Atom(table, tuple(cells)))
    return conclusion


def read_mapping(text):
    """The mapping of a text, or its first fault up to the names of its rules."""
    reader = Reader(text)
    source, target, lines, conditions, rules = reader.mapping()
    check_schema(source, "source")
    check_schema(target, "target")
    for tree in preorder(target):
        if tree.name in ("nulls", "fold"):
            raise Refusal(MAPPING, "mapping: target: reserved name %s" % tree.name)
    if len(lines) + len(conditions) > LINES:
        raise Limit("lines", LINES)
    mapping = Mapping(source, target, version=reader.version)
    mapping.lines = [line_of(line, mapping) for line in lines]
    mapping.conditions = [condition_of(condition, mapping) for condition in conditions]
    mapping.rules = [rule_of(rule, mapping) for rule in rules]
    return mapping
