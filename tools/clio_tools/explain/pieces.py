"""What an explanation is made of: lines of words, places in texts, rows of the source, and warnings with what answers
them. clio-explain prints its lines; the page of clio-draw takes the pieces as they are."""
from collections.abc import Iterable, Iterator
from typing import NamedTuple

from clio_tools.explain.said import shown, visible, with_caret
from clio_tools.mapping.cures import Cure
from clio_tools.why.data import SourceRow

MOST_CELLS = 8  # of a row that are printed
LONGEST = 40  # of a cell


class Mark(NamedTuple):
    """Some bytes of a text."""

    content: bytes
    start: int
    length: int = 1

    def lines(self) -> Iterator[str]:
        """Line and column, and the line with carets under the bytes."""
        return with_caret(self.content, self.start, self.length)


class RowLine(NamedTuple):
    """A row of the source behind some words."""

    lead: str
    row: SourceRow

    def said(self, where: str) -> str:
        """The line, with the words for the place of the row."""
        named = list(zip(self.row.columns, self.row.texts))
        cells = [f"{visible(name)} = {shown(text, LONGEST)}" for name, text in named[:MOST_CELLS]]
        return f"{self.lead}{where}: " + ", ".join(cells) + (", .." if len(named) > MOST_CELLS else "")


Piece = str | Mark | RowLine


class Warned(NamedTuple):
    """A warning: its name, the set that it is about, what is said, the edit that answers it, and the target sets and
    the rules whose lines may say more than was meant."""

    name: str
    set: str
    pieces: list[Piece]
    cure: Cure | None = None
    sets: tuple[str, ...] = ()
    rules: tuple[int, ...] = ()

    def lines(self) -> Iterator[str]:
        """Its lines; the first ends with its name and its set."""
        first, *others = printed(self.pieces)
        yield f"{first} [{' '.join([self.name, self.set]).strip()}]"
        yield from others


def printed(pieces: Iterable[Piece]) -> Iterator[str]:
    """The lines of an explanation."""
    for piece in pieces:
        if isinstance(piece, Mark):
            yield from piece.lines()
        else:
            yield piece if isinstance(piece, str) else piece.said(piece.row.where)


def first_lines(pieces: Iterable[Piece], most: int) -> Iterator[Piece]:
    """The pieces up to so many lines."""
    for piece in pieces:
        lines = list(printed([piece]))
        if len(lines) <= most:
            yield piece
        else:
            yield from lines[:most]
        most -= len(lines)
        if most <= 0:
            return
