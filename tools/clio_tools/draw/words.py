"""Rules in words that a data engineer reads: which rows are taken together, and which rows they make."""
from ..mapping.meaning import Column, Line, Mapping
from ..mapping.rules import LITERAL, VARIABLE, Conclusion, Premise, Rule
from ..mapping.tables import Table
from .outline import Data

Known = tuple[dict[int, str], dict[int, list[list[str]]]]  # of each variable: how it is said, and its columns


def numbered(atoms: list[Premise] | list[Conclusion], tables: list[Table]) -> list[str]:
    """Names of a rule's rows: a set that is there twice is numbered."""
    names = [tables[atom.table].name for atom in atoms]
    return [f"{name} {names[:place].count(name) + 1}" if names.count(name) > 1 else name
            for place, name in enumerate(names)]


def in_words(rule: Rule, mapping: Mapping, lines: list[int] | None = None) -> Data:
    """A rule as parts: the rows on its left with what joins them, and the rows on its right with each cell; and the
    lines behind it, which for a rule of plain lines are those that may have given it its cells."""
    left, right = numbered(rule.premise, mapping.source), numbered(rule.conclusion, mapping.target)
    said: dict[int, str] = {}
    at: dict[int, list[list[str]]] = {}
    taken = [_taken(place, atom, left, mapping, (said, at)) for place, atom in enumerate(rule.premise)]
    for number, derived in enumerate(rule.derived, rule.premise_variables()):
        said[number] = f"{derived.conversion}({', '.join(said[one] for one in derived.arguments)})"
        at[number] = [place for one in derived.arguments for place in at[one][:1]]
    made = [_made(place, rule, mapping, (said, at), right) for place in range(len(rule.conclusion))]
    return {"taken": taken, "made": made, "lines": lines_behind(rule, mapping) if lines is None else lines}


def _taken(place: int, atom: Premise, names: list[str], mapping: Mapping, known: Known) -> Data:
    """A row that a rule takes, with what joins it to those before it, and its tests."""
    said, at = known
    table, joined = mapping.source[atom.table], []
    for column, cell in enumerate(atom.cells):
        here = f"{names[place]}.{table.columns[column]}"
        if cell in said:
            joined.append([here, said[cell]])
        said.setdefault(cell, here)
        at.setdefault(cell, []).append([table.name, table.columns[column]])
    tests = [f"{names[place]}.{table.columns[one.column.column]} is {one.test}" for one in mapping.conditions
             if one.column.table == atom.table]
    return {"name": names[place], "set": table.name, "joined": joined, "tests": tests}


def _made(place: int, rule: Rule, mapping: Mapping, known: Known, names: list[str]) -> Data:
    """A row that a rule makes: each column, what kind of value it has, how that is said, and the columns it is from."""
    said, at = known
    atom = rule.conclusion[place]
    table = mapping.target[atom.table]
    cells: list[list[object]] = []
    for column, cell in enumerate(atom.cells):
        name = table.columns[column]
        if cell.kind == VARIABLE:
            cells.append([name, "is", said[int(cell.content)], at[int(cell.content)]])
        elif cell.kind == LITERAL:
            cells.append([name, "text", cell.content])
        else:
            elsewhere = [f"{names[other]}.{mapping.target[one.table].columns[there]}"
                         for other, one in enumerate(rule.conclusion) for there, that in enumerate(one.cells)
                         if that == cell and (other, there) != (place, column)]
            cells.append([name, "link" if elsewhere else "open", " and ".join(elsewhere)])
    return {"name": names[place], "set": table.name, "cells": cells}


def lines_behind(rule: Rule, mapping: Mapping) -> list[int]:
    """The numbers of the lines that may have given a rule its cells."""
    return [number for number, line in enumerate(mapping.lines)
            if any(atom.table == line.target.table and _gives(line, rule, atom) for atom in rule.conclusion)]


def _gives(line: Line, rule: Rule, atom: Conclusion) -> bool:
    """Whether a cell has what a line gives."""
    cell = atom.cells[line.target.column]
    if line.literal is not None:
        return cell.kind == LITERAL and cell.content == line.literal
    if cell.kind != VARIABLE:
        return False
    if line.conversion is None:
        return _holds(rule, int(cell.content), line.columns[0])
    place = int(cell.content) - rule.premise_variables()
    return (place >= 0 and rule.derived[place].conversion == line.conversion
            and all(_holds(rule, variable, column)
                    for variable, column in zip(rule.derived[place].arguments, line.columns)))


def _holds(rule: Rule, variable: int, column: Column) -> bool:
    """Whether a variable is in a column on a rule's left side."""
    return any(atom.table == column.table and atom.cells[column.column] == variable for atom in rule.premise)
