"""How texts are shown on a terminal: quoted, without control characters, and cut if they are long."""
import unicodedata
from collections.abc import Iterable, Iterator

LONGEST = 60


def visible(text: str) -> str:
    """The text with an escape for each character that a terminal doesn't show; a byte that is no UTF-8 is \\xNN."""
    return "".join(character if character.isprintable() else escape(character) for character in text)


def escape(character: str) -> str:
    """A character written as an escape."""
    number = ord(character)
    if 0xdc80 <= number <= 0xdcff:
        return f"\\x{number - 0xdc00:02x}"
    return f"\\u{{{number:x}}}"


def shown(text: str, longest: int = LONGEST) -> str:
    """A text in quotes."""
    made = visible(text[:longest].replace("\\", "\\\\").replace('"', '\\"'))
    return f'"{made}"' + (f".. ({len(text)} characters)" if len(text) > longest else "")


def listed(names: Iterable[str], most: int = 24) -> str:
    """Names with commas between them, the first ones if they are many."""
    names = list(names)
    more = f", and {len(names) - most} more" if len(names) > most else ""
    return ", ".join(visible(name[:LONGEST]) for name in names[:most]) + more


def amount(number: int, one: str, many: str | None = None) -> str:
    """A number with its word: 1 row, 2 rows."""
    return f"{number:,} {one if number == 1 else many or one + 's'}"


def width(text: str) -> int:
    """How many columns of a terminal a text takes."""
    return sum(0 if unicodedata.combining(character) else 1 + (unicodedata.east_asian_width(character) in "WF")
               for character in text)


def with_caret(content: bytes, start: int, length: int = 1) -> Iterator[str]:
    """Line and column of a byte of some bytes, and that line with carets under the bytes that begin there."""
    begin = max(content.rfind(b"\n", 0, start), content.rfind(b"\r", 0, start)) + 1
    ends = [end for end in (content.find(b"\n", start), content.find(b"\r", start)) if end >= 0]
    end = min(ends, default=len(content))
    number = content.count(b"\n", 0, begin) + content.count(b"\r", 0, begin) - content.count(b"\r\n", 0, begin) + 1
    decoded = [part.decode("utf-8", "surrogateescape") for part in
               (content[begin:start], content[start:min(start + length, end)], content[start:end])]
    before, marked, after = decoded
    first = ".. " if len(before) > 80 else ""
    before_shown = first + visible(before[-80:])
    carets = "^" * max(width(visible(marked[:60])), 1)
    yield f"line {number}, column {len(before) + 1}:"
    yield "    " + before_shown + visible(after[:80]) + (" .." if len(after) > 80 else "")
    yield "    " + " " * width(before_shown) + carets
