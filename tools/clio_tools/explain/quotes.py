"""Quoted fields of CSV that were written by other rules than clio reads by: text behind a closing quote, often since a
backslash was to escape it.
"""
import re
from collections.abc import Iterator
from typing import NamedTuple

from clio_tools.csv import MARK

INSIDE = re.compile(rb'[^,\r\n]"[^",\r\n]')  # without this no text is behind a closing quote
FIELD = re.compile(rb'"((?:[^"]|"")*)(?:"([^,\r\n]*)|\Z)|[^,\r\n]*')


class Odd(NamedTuple):
    """A field with text behind its closing quote: its record and its column (from 0), and whether a backslash is in
    front of the quote.
    """
    record: int
    column: int
    is_escaped: bool


def odd_fields(content: bytes) -> Iterator[Odd]:
    """The fields that are read otherwise than their writer meant, in the order of the file."""
    content = content.removeprefix(MARK)
    if b'"' not in content or not INSIDE.search(content):
        return
    place, record, column = 0, 0, 0
    while place < len(content):
        found = FIELD.match(content, place)
        if found is None:
            return
        if found[2]:
            yield Odd(record, column, found[1].endswith(b"\\"))
        is_line = column == 0 and not found[0]
        place, sign = found.end() + 1, content[found.end():found.end() + 1]
        column += 1
        if sign != b",":
            place += content[place - 1:place + 1] == b"\r\n"
            record, column = record + (not is_line), 0
