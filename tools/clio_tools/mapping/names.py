"""The faults of the names in lines, conditions and rules, in clio's order; those of a drawing's notes are found where
they are worked out."""
import difflib
from typing import Iterator, Optional

from .meanings import CONVERSIONS, TESTS
from .schema import Schema, Table
from .places import Fault
from .tokens import Token
from .tree import Atom, Derived, Line, Only, Place, Rule, Tree


def faults_of_names(tree: Tree, source: Schema, target: Schema) -> list[Fault]:
    """All faults, of lines, then of conditions, then of rules."""
    found: list[Fault] = []
    for line in tree.lines:
        found += of_line(line, source, target)
    for condition in tree.conditions:
        found += of_condition(condition, source)
    for rule in tree.rules:
        found += of_rule(rule, source, target)
    return found


def fault_at(word: Token, said: str, kind: str = "unknown name") -> Fault:
    """A fault of a word."""
    return Fault(kind, word.start, word.end, said)


def alike(word: str, names: list[str]) -> str:
    """A name that is like a word, as the end of a message."""
    folded = {name.lower(): name for name in names}
    close = difflib.get_close_matches(word.lower(), folded, 1, 0.7)
    return f"; did you mean {folded[close[0]]}?" if close else ""


def of_set(word: Token, schema: Schema) -> Optional[Fault]:
    """The fault of a word that names no set."""
    if schema.find(word.text):
        return None
    names = [table.name for table in schema.tables]
    return fault_at(word, f"the {schema.side} has no set "
                    f"{word.text}{alike(word.text, names) or f'; it has ' + (', '.join(names) or 'none')}")


def of_column(word: Token, table: Table) -> Optional[Fault]:
    """The fault of a word that names no column."""
    if word.text in table.declared:
        return None
    return fault_at(word, f"{table.name} has no column {word.text}{alike(word.text, list(table.declared))}; it has "
                    f"{', '.join(table.declared)}")


def of_place(set_name: Token, column: Optional[Token], schema: Schema) -> Optional[Fault]:
    """The fault of a set and a column of it."""
    table = schema.find(set_name.text)
    if table is None:
        return of_set(set_name, schema)
    return of_column(column, table) if column else None


def of_conversion(name: Token, count: int) -> Optional[Fault]:
    """The fault of a conversion with so many arguments."""
    known = CONVERSIONS.get(name.text)
    if known is None:
        return fault_at(name, f"there is no conversion {name.text}; there are {', '.join(CONVERSIONS)}")
    if known.arity != count:
        return fault_at(name, f"{name.text} takes {known.arity}, and here are {count}", "wrong number of cells")
    return None


def of_line(line: Line, source: Schema, target: Schema) -> Iterator[Fault]:
    """The faults of a line: of its conversion, its source, its target."""
    found = [of_conversion(line.conversion, len(line.arguments))] if line.conversion else []
    found += [of_place(one.set, one.column, source) for one in line.arguments]
    found.append(of_place(line.target.set, line.target.column, target))
    yield from (one for one in found if one)


def of_condition(condition: Only, source: Schema) -> Iterator[Fault]:
    """The faults of a condition: of its column, its test."""
    place: Place = condition.place
    fault = of_place(place.set, place.column, source)
    if fault:
        yield fault
    if condition.test.text not in TESTS:
        yield fault_at(condition.test, f"there is no test {condition.test.text}; there are {', '.join(TESTS)}")


def of_rule(rule: Rule, source: Schema, target: Schema) -> Iterator[Fault]:
    """The faults of a rule: of its left side, its conversions, its right side."""
    variables: set[str] = set()
    for atom in rule.premise:
        yield from of_atom(atom, source)
        variables |= {cell.value.text for cell in atom.cells if cell.value.kind == "word"}
    known = set(variables)
    for derived in rule.derived:
        yield from of_derived(derived, variables, known)
        known.add(derived.name.text)
    for atom in rule.conclusion:
        yield from of_atom(atom, target)


def of_derived(derived: Derived, variables: set[str], known: set[str]) -> Iterator[Fault]:
    """The faults of a derived variable: its name is a new one, and its arguments are of the left side."""
    if derived.name.text in known:
        yield fault_at(derived.name, f"{derived.name.text} is a name already: give what the conversion makes a name of "
                       f"its own", "unsafe variable")
    fault = of_conversion(derived.call.name, len(derived.call.cells))
    if fault:
        yield fault
    for cell in derived.call.cells:
        if cell.value.text not in variables:
            yield fault_at(cell.value, f"{cell.value.text} isn't on the left side", "unsafe variable")


def of_atom(atom: Atom, schema: Schema) -> Iterator[Fault]:
    """The faults of an atom: its set, and its number of cells or their names."""
    table = schema.find(atom.name.text)
    if table is None:
        yield from [one for one in [of_set(atom.name, schema)] if one]
    elif atom.is_named:
        yield from _of_names(atom, table)
    elif len(atom.cells) != len(table.columns):
        yield fault_at(atom.name, f"{table.name} has {len(table.columns)} columns ({', '.join(table.columns)}), and "
                       f"here are {len(atom.cells)} "
                       "cells", "wrong number of cells")


def _of_names(atom: Atom, table: Table) -> Iterator[Fault]:
    """The faults of the columns that an atom names."""
    seen: set[int] = set()
    for cell in atom.cells:
        if cell.column is None:
            continue
        place = named_column(cell.column.text, table)
        if place is None:
            fault = of_column(cell.column, table)
            yield from [fault] if fault else []
        elif place in seen:
            yield fault_at(cell.column, f"{cell.column.text} is here twice", "double name")
        else:
            seen.add(place)


def named_column(name: str, table: Table) -> Optional[int]:
    """The column that a named cell is for: `id` and `up` are `#id` and `#up` if the set has no column of that name."""
    if name in table.columns:
        return table.columns.index(name)
    hidden = "#" + name
    return table.columns.index(hidden) if name in ("id", "up") and hidden in table.columns else None
