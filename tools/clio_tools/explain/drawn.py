"""What in a drawing led to the rules that are named, if the mapping was printed by clio-rules."""
import pathlib
import re
from typing import Iterable, Iterator, Optional, TypeVar

from clio_tools.explain.pieces import Piece
from clio_tools.explain.program import mapping_of
from clio_tools.explain.said import visible
from clio_tools.mapping.meaning import read_mapping
from clio_tools.mapping.places import Text
from clio_tools.mapping.rules import numbers_of
from clio_tools.rules.printed import Origin, Printed, is_as_printed, marked
from clio_tools.rules.whole import Faulty, worked_out
from clio_tools.rules.ways import Wrong

P = TypeVar("P", bound=Piece)
MOST = 20  # rules, and statements of each
PRINTED = re.compile(rb"// Printed by clio-rules from ([\w.-]+): ")
# not those of another mapping, nor those with the numbers of rules before any is left out, nor the 2 of "rule 1, 2 of
# rule 3"
NAMED = re.compile(r"\brules? ([0-9]+(?:, [0-9]+\b(?! of rule))*(?: and [0-9]+)?)\b(?! of other[.]clio| \(before)")


def with_drawing(pieces: Iterable[P], message: str, content: Optional[bytes]) -> Iterator[P | str]:
    """Pieces as they come, and then the statements of the drawing behind the rules that they or the message name."""
    numbers = dict.fromkeys(_numbers(message))
    for piece in pieces:
        yield piece
        if isinstance(piece, str):
            numbers.update(dict.fromkeys(_numbers(piece)))
    printed = PRINTED.match(content) if content and numbers else None
    if printed and content:
        yield from _behind(list(numbers), printed[1].decode(), content)


def _numbers(text: str) -> list[int]:
    """The numbers of the rules that a text names outside of quotes."""
    bare = re.sub(r'"(?:[^"\\]|\\.)*"', "", text)
    return [int(number) for found in NAMED.finditer(bare) for number in re.findall("[0-9]+", found[1])]


def _behind(numbers: list[int], name: str, content: bytes) -> Iterator[str]:
    """What led to rules, or why that can't be said."""
    path = pathlib.Path(name)
    drawn = path.read_bytes() if path.is_file() else b""
    made = _printed(drawn)
    if made is None or not is_as_printed(content.decode("utf-8", "replace")) \
            or marked(made.text, name).encode() != content:
        yield f"mapping.clio isn't what {name} means now: clio-rules --write prints it anew"
        return
    text, origins = Text(drawn), _origins(made, content)
    for number in [number for number in numbers if number in origins][:MOST]:
        yield f"rule {number} is of {name}: {visible(origins[number].words)}"
        yield from _statements(text, origins[number])


def _origins(made: Printed, content: bytes) -> dict[int, Origin]:
    """What led to each rule, by the numbers that clio gives them: it leaves out those that follow from others."""
    shown, written = mapping_of(content)[1], read_mapping(content)
    found: dict[int, Origin] = {}
    for number, origin in zip(numbers_of(written.rules, written.source, written.target, shown), made.origins()):
        if number is not None:
            found.setdefault(number, origin)
    return found


def _printed(drawn: bytes) -> Optional[Printed]:
    """The mapping that a drawing means; None if it means none."""
    try:
        return Printed(worked_out(drawn))
    except (Faulty, Wrong):
        return None


def _statements(text: Text, origin: Origin) -> Iterator[str]:
    """The statements behind a rule, each with its line."""
    for one in origin.statements[:MOST]:
        words = " ".join(text.content[one.start:one.end].decode("utf-8", "replace").split())
        yield f"   line {text.place(one.start).line}: {visible(words[:200])}"
