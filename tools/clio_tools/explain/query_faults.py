"""What a refusal of a query leaves out: the line, the word, and the sets and variables that exist there."""
import os
import re
from collections.abc import Iterator

from clio_tools.explain.mapping_faults import Sides, of_atom, of_character, unclosed
from clio_tools.explain.pieces import Mark, Piece
from clio_tools.explain.placed import MappingText, is_told, possible, token_length
from clio_tools.explain.said import amount, listed, visible
from clio_tools.mapping.query import Part, parse_query
from clio_tools.mapping.tables import Table, tables_of


class QueryText:
    """A query as far as it can be read: its parts, and the fault that stopped the reading."""

    def __init__(self, content: bytes) -> None:
        self.content = content
        self.parts, self.fault = parse_query(content)


def explain(message: str, content: bytes | None, mapping: bytes) -> Iterator[Piece]:
    """The lines that explain a message `query: ..` on the query with these bytes, over the target of a mapping."""
    text = MappingText(mapping)
    sides = {"source": tables_of(text.source), "target": tables_of(text.target)}
    found = re.fullmatch(r"query: (.*) at byte ([0-9]+)", message)
    if message == "query: query.clio is absent":
        yield from absent(sides["target"])
    elif found and content is not None:
        yield from at_byte(found[1], int(found[2]), QueryText(content), sides)


def absent(tables: list[Table]) -> Iterator[str]:
    """There is no query.clio."""
    yield f"clio answer reads query.clio in the folder where it is started: {visible(os.getcwd())}"
    if os.path.islink("query.clio"):
        yield f"query.clio is a link to {visible(os.readlink('query.clio'))}, which isn't there"
    if tables:
        cells = ", ".join(f"v{place}" for place in range(len(tables[0].columns)))
        yield (f"a query of all that is certain in {tables[0].name}:"
               f" query 1; answer({cells}) from {tables[0].name}({cells});")


def at_byte(kind: str, place: int, text: QueryText, sides: Sides) -> Iterator[Piece]:
    """A fault at a byte: its line with carets, then what stands in its place or what exists."""
    yield Mark(text.content, place, token_length(text.content, place))
    fault = text.fault if kind in ("unexpected token", "text ended") else None
    if fault and fault.expected and is_told(fault, kind, place):
        yield possible(fault)
    if kind == "text ended":
        yield from unclosed(text.content)
    elif kind == "bad character":
        yield from of_character(text.content, place)
    elif not text.fault:
        yield from of_name(place, text.parts, sides)


def of_name(place: int, parts: tuple[Part, ...], sides: Sides) -> Iterator[str]:
    """Says what exists where a name isn't known, or doesn't fit."""
    for number, part in enumerate(parts, 1):
        for atom in part.atoms:
            if atom.name.start == place:
                in_source, in_target = (atom.name.text in [table.name for table in sides[side]]
                                        for side in ("source", "target"))
                if in_source and not in_target:
                    yield f"{atom.name.text} is a set of the source, and a query asks the target"
                yield from of_atom(atom, "target", {**sides, "source": []})
        if part.word.start == place:
            yield (f"part {number} answers {amount(len(part.answer), 'cell')}, and the first part"
                   f" {amount(len(parts[0].answer), 'cell')}: all parts answer rows of one width")
        if any(cell.kind == "word" and cell.start == place for cell in part.answer):
            variables = dict.fromkeys(cell.value.text for atom in part.atoms for cell in atom.cells
                                      if cell.value.kind == "word")
            yield ("a variable that is answered must be in a table of its part;"
                   f" those of part {number}: {listed(variables) or 'none'}")
