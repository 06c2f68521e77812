"""A text of bytes with the lines and columns in it, and faults, which are shown at the word that they mean."""
import bisect
from dataclasses import dataclass
from typing import NamedTuple

from .cures import Cure


class Place(NamedTuple):
    """Where a byte is: its number from 0, its line and its column, both from 1; a column is a character."""

    byte: int
    line: int
    column: int


@dataclass(frozen=True)
class Fault:
    """What is wrong from one byte up to another, in words.

    The kind is one of `bad character`, `text ended`, `unexpected token` (as clio's messages have them), `version` (a
    word of a later version of the text), `note` (a word of a drawing in a mapping), `depth`, or `meaning` (the text is
    well formed, but can't be meant). `expected` has the words and marks that could be in its place, `cures` the edits
    that the words name."""

    kind: str
    start: int
    end: int
    said: str
    expected: tuple[str, ...] = ()
    cures: tuple[Cure, ...] = ()


class Text:
    """The bytes of a text, and where its lines begin."""

    def __init__(self, content: bytes) -> None:
        self.content = content
        self._starts = [0]
        place = content.find(b"\n")
        while place >= 0:
            self._starts.append(place + 1)
            place = content.find(b"\n", place + 1)

    def place(self, byte: int) -> Place:
        """Where a byte is."""
        line = bisect.bisect_right(self._starts, byte) - 1
        before = self.content[self._starts[line]:byte].decode("utf-8", "replace")
        return Place(byte, line + 1, len(before) + 1)

    def line(self, number: int) -> str:
        """A line of the text without its end; the first has the number 1."""
        end = self._starts[number] - 1 if number < len(self._starts) else len(self.content)
        return self.content[self._starts[number - 1]:end].decode("utf-8", "replace").rstrip("\r")

    def between(self, start: int, end: int) -> str:
        """The text from a byte up to another."""
        return self.content[start:end].decode("utf-8", "replace")

    def shown(self, name: str, fault: Fault) -> str:
        """A fault with the place of its word in the text of this name, the line, and carets below the word."""
        place = self.place(fault.start)
        line = self.line(place.line)
        before = "".join("\t" if sign == "\t" else " " for sign in line[:place.column - 1])
        word = self.between(fault.start, fault.end).split("\n")[0]
        return f"{name}:{place.line}:{place.column}: {fault.said}\n  {line}\n  {before}{'^' * max(1, len(word))}"
