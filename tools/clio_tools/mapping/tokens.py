"""The tokens and comments of a mapping text, each with its bytes; what is no token is a fault, and reading goes on
behind it."""
import re
from typing import NamedTuple, Optional

from .places import Fault

NEXT = re.compile(rb"[ \t\r\n]*(?:(?P<comment>//[^\n]*)|(?P<word>[A-Za-z_][A-Za-z0-9_]*)|(?P<number>[0-9]+)"
                  rb"|(?P<mark>->|[{}(),;.=])|)")  # blanks, and what is behind them if it begins as one of these
CHARACTER = re.compile(rb"[\x20-\x7f]|[\xc2-\xdf][\x80-\xbf]|\xe0[\xa0-\xbf][\x80-\xbf]"
                       rb"|[\xe1-\xec\xee\xef][\x80-\xbf]{2}|\xed[\x80-\x9f][\x80-\xbf]"
                       rb"|\xf0[\x90-\xbf][\x80-\xbf]{2}|[\xf1-\xf3][\x80-\xbf]{3}|\xf4[\x80-\x8f][\x80-\xbf]{2}")
CUT = re.compile(rb"(?:[\xc2-\xdf]|\xe0(?:[\xa0-\xbf])?|[\xe1-\xec\xee\xef](?:[\x80-\xbf])?|\xed(?:[\x80-\x9f])?"
                 rb"|\xf0(?:[\x90-\xbf][\x80-\xbf]?)?|[\xf1-\xf3](?:[\x80-\xbf]{1,2})?"
                 rb"|\xf4(?:[\x80-\x8f][\x80-\xbf]?)?)\Z")  # a character that the end of the text cuts


class Token(NamedTuple):
    """A word, a number, a string, a mark, `bad` for bytes that are none of these, or `end` for the end of the text.

    `text` is what is written; of a string it is the value. A string or an arrow that is cut or holds what can't be in
    it has a fault."""

    kind: str
    text: str
    start: int
    end: int
    fault: Optional[Fault] = None


class Comment(NamedTuple):
    """A comment from its two strokes up to the end of its line."""

    text: str
    start: int
    end: int


class Lexed(NamedTuple):
    """The tokens of a text, the last of which is its end, and the comments."""

    tokens: tuple[Token, ...]
    comments: tuple[Comment, ...]


def lexed(content: bytes) -> Lexed:
    """All tokens and comments of a text."""
    tokens: list[Token] = []
    comments: list[Comment] = []
    place = 0
    while place < len(content):
        found = NEXT.match(content, place)
        kind = found.lastgroup if found else None
        if found and kind:
            start, place = found.span(kind)
            text = content[start:place].decode("utf-8", "replace")
            if kind == "comment":
                comments.append(Comment(text.rstrip("\r"), start, place))
            else:
                tokens.append(Token(text if kind == "mark" else kind, text, start, place))
            continue
        place = found.end() if found else place
        if place < len(content):
            tokens.append(_token_at(content, place))
            place = tokens[-1].end
    tokens.append(Token("end", "", len(content), len(content)))
    return Lexed(tuple(tokens), tuple(comments))


def _token_at(content: bytes, start: int) -> Token:
    """The token that begins at a byte and is no word, number or mark."""
    if content[start:start + 1] == b'"':
        return _string_at(content, start)
    if start + 1 == len(content) and content[start:] in (b"-", b"/"):
        cut = Fault("text ended", len(content), len(content), "the text ends inside a mark")
        return Token("->" if content[start:] == b"-" else "bad", content[start:].decode(), start, start + 1, cut)
    found = CHARACTER.match(content, start)
    end = found.end() if found else start + 1
    return Token("bad", content[start:end].decode("utf-8", "replace"), start, end, _bad(content, start, end))


def _bad(content: bytes, start: int, end: int) -> Fault:
    """The fault of bytes at which no token begins."""
    sign = content[start:end].decode("utf-8", "backslashreplace")
    shown = sign if sign.isprintable() else f"byte {content[start]:02x}"
    return Fault("bad character", start, end, f"no name, text or mark begins with "
                 f"{shown}{HINTS.get(content[start:end], '')}")


HINTS = {b"'": ': a text is in "', b"#": ": a comment begins with //",
         b"-": ": names have letters, digits and _ alone, and an arrow is ->",
         b">": ": an arrow is ->", b"/": ": a comment begins with //", b":": ": the marks are { } ( ) , ; . = ->",
         b"*": ": rules have no star", b"<": ": there are no comparisons but `=`",
         b"~": ": there are no comparisons but `=`",
         b"!": ": there are no comparisons but `=`",
         "\u201c".encode(): ': a text is in "', "\u201d".encode(): ': a text is in "'}


def _string_at(content: bytes, start: int) -> Token:
    """The string that begins at a byte; behind a fault it goes on up to the next quote of its line, or to the end of
    the line."""
    place, value = start + 1, bytearray()
    while place < len(content):
        byte = content[place:place + 1]
        if byte == b'"':
            return Token("string", value.decode(), start, place + 1)
        if byte == b"\\":
            place += 1
            if place == len(content):
                break
            if content[place:place + 1] not in (b'"', b"\\"):
                return _faulty(content, start, place, 'in a text \\ is written \\\\, and " is written \\"')
            value += content[place:place + 1]
            place += 1
            continue
        found = CHARACTER.match(content, place)
        if not found:
            if CUT.match(content, place):
                break
            return _faulty(content, start, place, "the text in quotes isn't closed in its line, or holds a byte that "
                           "is no character")
        value += found[0]
        place = found.end()
    return Token("string", "", start, len(content), Fault("text ended", len(content), len(content),
                                                          "a text in quotes isn't closed"))


def _faulty(content: bytes, start: int, place: int, said: str) -> Token:
    """A string with a byte that can't be in it."""
    line = content.find(b"\n", place)
    line = len(content) if line < 0 else line
    quote = content.find(b'"', place, line)
    end = max(quote + 1 if quote >= 0 else line, place)
    return Token("string", "", start, max(end, start + 1), Fault("bad character", place, place + 1, said))
