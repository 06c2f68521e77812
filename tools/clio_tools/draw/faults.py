"""A refusal as data for the page: its message, its place in the text, and what clio-explain says of it."""
from collections.abc import Iterable, Iterator

from ..explain.endings import explanation
from ..explain.pieces import Mark, Piece, RowLine, first_lines
from ..mapping.cures import NoLine
from ..mapping.meaning import Unread, read_mapping
from ..mapping.places import Fault, Text
from ..program import ending
from .cures import of_fault
from .outline import Data, Outline
from .places import said
from .sample import Report
from .units import Units

SHOWN = 60  # lines of an explanation that are shown


class Shown:
    """The pieces of explanations as the page shows them: places of its text, if they speak of that, can be clicked, and
    rows of a sample are where they are in the whole files."""

    def __init__(self, content: bytes | None, report: Report) -> None:
        self.content, self.report, self.units = content, report, Units(content or b"")

    def piece(self, piece: Piece) -> Data:
        """A piece as text, and with its place if it is one of the page's text."""
        if isinstance(piece, RowLine):
            return {"text": said(piece, self.report)}
        if isinstance(piece, Mark):
            return self.mark(piece) if self.is_here(piece) else {"text": "\n".join(piece.lines())}
        return {"text": piece}

    def is_here(self, piece: Piece) -> bool:
        """Whether a piece is a place of the page's text."""
        return isinstance(piece, Mark) and piece.content == self.content

    def mark(self, mark: Mark) -> Data:
        """A place of the page's text."""
        return self.place(mark.start, mark.start + mark.length)

    def place(self, start: int, end: int) -> Data:
        """The bytes from one up to another in the page's text."""
        place = Text(self.content or b"").place(start)
        return {"text": f"line {place.line}, column {place.column}", "line": place.line,
                "at": self.units.span(start, end)}

    def pieces(self, pieces: Iterable[Piece]) -> list[Data]:
        """The first pieces."""
        return [self.piece(piece) for piece in first_lines(pieces, SHOWN)]


def of_clio(status: int, message: str, words: list[str], shown: Shown) -> Data:
    """clio's own refusal, with what clio-explain says. The first place that this names in the text is that of the
    refusal."""
    pieces = list(_explained(status, message, words))
    first = next((place for place, piece in enumerate(pieces) if shown.is_here(piece)), None)
    made: Data = shown.piece(pieces.pop(first)) if first is not None else _unexplained(message, shown)
    made.update(status=status, message=message, lines=shown.pieces(pieces))
    return made


def _unexplained(message: str, shown: Shown) -> Data:
    """The place of a fault of the text that is not explained."""
    if message.startswith("mapping: ") and shown.content is not None:
        try:
            read_mapping(shown.content)
        except Unread as why:
            return shown.place(why.fault.start, why.fault.end)
    return {"at": None}


def _explained(status: int, message: str, words: list[str]) -> Iterator[Piece]:
    try:
        yield from explanation(status, message, words)
    except Exception as error:  # pylint: disable=broad-except
        yield f"no more can be said of it: {ending(error)[1]}"


def aside(faults: tuple[Fault, ...], content: bytes) -> list[Data]:
    """The sets that are left out: without `rows`, each with what is said of it, and with its edits; or of which the
    rows from a source set wait for a line."""
    shown, outline = Shown(content, {}), Outline(content)
    waiting = {one: cure.source for one in faults for cure in one.cures if isinstance(cure, NoLine)}
    return [{"set": content[one.start:one.end].decode(), "says": one.said, "waits": waiting.get(one),
             "cures": [] if one in waiting else of_fault(one, outline), **shown.place(one.start, one.end)}
            for one in faults]


def of_drawing(faults: tuple[Fault, ...], content: bytes) -> Data:
    """The faults of a drawing: the first with its place and its cures, the others in lines below it."""
    shown, first = Shown(content, {}), faults[0]
    others: list[Data] = [{"says": one.said, **shown.place(one.start, one.end)} for one in faults[1:SHOWN + 1]]
    return {**shown.place(first.start, first.end), "status": 2, "message": first.said, "lines": others,
            "cures": of_fault(first, Outline(content))}
