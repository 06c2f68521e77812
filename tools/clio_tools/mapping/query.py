"""The text of a query, word by word, as far as it can be read; its faults are as those of a mapping text."""
from __future__ import annotations

from typing import NamedTuple

from clio_tools.mapping.parser import STRING, WORD, _Parser, _Stop
from clio_tools.mapping.places import Fault
from clio_tools.mapping.tokens import Token
from clio_tools.mapping.tree import Atom


class Part(NamedTuple):
    """A part of a query: the word `answer`, what is answered, and the atoms."""

    word: Token
    answer: tuple[Token, ...]
    atoms: tuple[Atom, ...]


class Query(NamedTuple):
    """The parts up to the first fault, if there is one."""

    parts: tuple[Part, ...]
    fault: Fault | None


class _QueryParser(_Parser):
    """Reads queries."""

    def part(self) -> Part:
        """A part, up to its semicolon."""
        word = self.take("answer")
        self.take("(")
        answer = self.listed(lambda: self.take(WORD, STRING), ")")
        self.take("from")
        return Part(word, answer, self.listed(lambda: self.atom(WORD, STRING), ";"))


def parse_query(content: bytes) -> Query:
    """The parts of a query, at least one."""
    parser = _QueryParser(content, False)
    parts: list[Part] = []
    try:
        for one in "query", "1", ";":
            parser.take(one)
        while not parts or parser.here.kind != "end":
            parts.append(parser.part())
    except _Stop:
        pass
    first = sorted(parser.faults, key=lambda one: one.start)[:1]
    return Query(tuple(parts), first[0] if first else None)
