"""The nulls of a target by number: each has the number of its first appearance, from 0."""
import json
import re
from array import array
from collections.abc import Callable, Iterator

from clio_tools.program import Refused

NULL = re.compile(r"\?(0|[1-9][0-9]{0,18})\.(0|[1-9][0-9]{0,18})\.(0|[1-9][0-9]{0,18})")
AGAIN = "run clio exchange again"
BLOCK = 256  # places that are kept together
NONE = -1
json_text: Callable[[str], str] = vars(json.encoder)["encode_basestring_ascii"]  # a text as JSON has it


def parts_of(text: str) -> tuple[str, str, str] | None:
    """The rule, the variable and the place of a null as texts, or None for another text; a text that clio writes in no
    way is refused.
    """
    if text[:1] != "?" or text[1:2] == "?":
        return None
    found = NULL.fullmatch(text)
    if not found:
        raise Refused(f"out/ has the text {text[:60]!r}, which is none that clio writes: {AGAIN}")
    return found[1], found[2], found[3]


class Marks:
    """Marks at numbers."""

    def __init__(self) -> None:
        self.blocks: dict[int, bytearray] = {}

    def add(self, number: int) -> bool:
        """Marks a number; answers whether it had no mark."""
        block = self.blocks.setdefault(number // BLOCK, bytearray(BLOCK))
        had, block[number % BLOCK] = block[number % BLOCK], 1
        return not had


class Nulls:
    """Names of nulls and their numbers. The places of a rule's variable lie close to each other, so a block has the
    numbers of some hundred.
    """

    def __init__(self) -> None:
        self.blocks: dict[tuple[str, str, int], array[int]] = {}
        self.count = 0

    def number(self, parts: tuple[str, str, str]) -> int:
        """The number of a null by its rule, variable and place, or NONE."""
        rule, variable = parts[:2]
        place = int(parts[2])
        block = self.blocks.get((rule, variable, place // BLOCK))
        return NONE if block is None else block[place % BLOCK]

    def number_of(self, text: str) -> int:
        """The number of the null that a text is, or NONE."""
        parts = parts_of(text)
        return NONE if parts is None else self.number(parts)

    def add(self, parts: tuple[str, str, str]) -> int:
        """The number of a null, the next one if it has none."""
        rule, variable = parts[:2]
        place = int(parts[2])
        block = self.blocks.get((rule, variable, place // BLOCK))
        if block is None:
            block = self.blocks[rule, variable, place // BLOCK] = array("q", [NONE]) * BLOCK
        if block[place % BLOCK] == NONE:
            block[place % BLOCK] = self.count
            self.count += 1
        return block[place % BLOCK]

    def __iter__(self) -> Iterator[tuple[str, str, int, int]]:
        """The rule, the variable and the place of each null, and its number."""
        for (rule, variable, first), block in self.blocks.items():
            for within, number in enumerate(block):
                if number != NONE:
                    yield rule, variable, first * BLOCK + within, number

    def rules(self) -> set[int]:
        """The rules that have nulls."""
        return {int(rule) for rule, _, _ in self.blocks}
