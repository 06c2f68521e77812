"""Queries: their text with its first fault, and their answers over some facts."""
from typing import NamedTuple

from files import csv_text
from grammar import Reader, Token, fault
from names import atom_table
from refusals import QUERY_ATOMS, Limit, Steps
from rules import LITERAL, VARIABLE, Atom, Cell
from values import Constant, row_order, value_text


class PartText(NamedTuple):
    """A part of a query as it is written: the word `answer`, what is answered, and the atoms."""
    word: Token
    answer: list
    atoms: list


class Part(NamedTuple):
    """A part of a query: the cells of its answers and its atoms over target tables, whose cells are variables or literals."""
    answer: tuple
    atoms: list


class QueryGrammar:
    """The grammar of queries, over what a reader takes."""

    def query(self):
        """The parts of a whole text, at least one, one after the other."""
        for one in ('"query"', '"1"', ";"):
            self.take(one)
        yield self.part()
        while not self.is_at_end():
            yield self.part()

    def part(self):
        """A part, up to its semicolon."""
        word = self.take('"answer"')
        self.take("(")
        answer = self.listed(lambda: self.take("word", "string"), ")")[0]
        self.take('"from"')
        return PartText(word, answer, self.listed(lambda: self.call("word", "string"), ";")[0])


class QueryReader(QueryGrammar, Reader):
    """Reads the grammar of queries."""


def read_query(text, tables):
    """The parts of a query, or its first fault."""
    texts = list(QueryReader(text).query())
    parts = [part_of(part, len(texts[0].answer), tables) for part in texts]
    if any(len(part.atoms) > QUERY_ATOMS for part in parts):
        raise Limit("query atoms", QUERY_ATOMS)
    return parts


def part_of(text, width, tables):
    """A part: first its atoms, then the number of its answer cells, then the variables of the answer."""
    variables = {}

    def cell_of(token):
        if token.kind == "string":
            return Cell(LITERAL, token.text)
        return Cell(VARIABLE, variables.setdefault(token.text, len(variables)))

    atoms = [Atom(atom_table(call, tables), tuple(map(cell_of, call.cells))) for call in text.atoms]
    if len(text.answer) != width:
        raise fault("wrong number of cells", text.word.start)
    for token in text.answer:
        if token.kind == "word" and token.text not in variables:
            raise fault("unsafe variable", token.start)
    return Part(tuple(map(cell_of, text.answer)), atoms)


def assignments(atoms, facts):
    """All values for the variables of some atoms with which each atom is one of the facts."""
    found, budget = [{}], Steps(200000)
    for atom in atoms:
        rows, longer = [fact.row for fact in facts if fact.table == atom.table], []
        for values in found:
            for row in rows:
                budget.take()
                known = dict(values)
                if all(meets(cell, value, known) for cell, value in zip(atom.cells, row)):
                    longer.append(known)
        found = longer
    return found


def meets(cell, value, known):
    """Whether a cell can have a value, beside the values that variables have already; it is taken down among them."""
    if cell.kind == LITERAL:
        return value == Constant(cell.content)
    return known.setdefault(cell.content, value) == value


def answers(query, facts):
    """The rows that a query has over some facts."""
    rows = set()
    for part in query:
        for values in assignments(part.atoms, facts):
            rows.add(tuple([Constant(cell.content) if cell.kind == LITERAL else values[cell.content]
                            for cell in part.answer]))
    return rows


def certain_rows(query, facts):
    """The answers that are rows of constants, ascending; over a universal target these are the certain answers."""
    constant = [row for row in answers(query, facts) if all(isinstance(value, Constant) for value in row)]
    return sorted(constant, key=row_order)


def answers_text(query, rows):
    """The file of the answers."""
    header = ["c%d" % place for place in range(len(query[0].answer))]
    return csv_text([header] + [[value_text(value) for value in row] for row in rows])
