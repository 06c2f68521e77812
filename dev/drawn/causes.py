"""Why a command refuses: what each command asks for, in the order in which it asks."""
from __future__ import annotations

from typing import NamedTuple

from clio_tools.picture.svg import LETTER, ROW, Element, document, group, path, rectangle, text_at

COMMANDS = ["show", "exchange", "answer", "judge", "compare"]
ALL, DATA = "show exchange answer judge compare", "exchange answer judge"
WIDE, COLUMN, TOP = 44 * LETTER, 74, 44


class Cause(NamedTuple):
    """What is asked for, what a refusal's message begins with, its status, and the commands that ask for it."""

    asked: str
    message: str
    status: str
    commands: str


CAUSES = [
    Cause("the command line", "usage", "2", ALL),
    Cause("mapping.clio: its grammar", "mapping, limit", "4, 6", ALL),
    Cause("its source sets, then its target sets", "mapping, limit", "4, 6", ALL),
    Cause("its lines, conditions, hand-written rules", "mapping, limit", "4, 6", ALL),
    Cause("limits on what they imply", "limit", "6", ALL),
    Cause("query.clio", "query, limit", "10, 6", "answer"),
    Cause("other.clio, then whether it can be compared", "other, limit", "11, 6", "compare"),
    Cause("the source files, set by set", "rows, limit", "5, 6", DATA),
    Cause("the files in given, table by table", "rows, limit", "5, 6", "judge"),
    Cause("the limit on target cells", "limit", "6", DATA),
    Cause("whether rules and keys contradict", "clash", "3", "exchange answer"),
    Cause("the limit on answers", "limit", "6", "answer"),
]


def row_of(cause: Cause, y: float) -> Element:
    """A cause with a dot for each command that asks for it."""
    right = 12 + WIDE + COLUMN * len(COMMANDS)
    parts = [text_at(20, y, cause.asked), text_at(right + 10, y, cause.message),
             text_at(right + 130, y, cause.status)]
    for place, command in enumerate(COMMANDS):
        if command in cause.commands.split(" "):
            parts.append(Element("circle", {"cx": f"{12 + WIDE + COLUMN * (place + .5):.0f}", "cy": f"{y:.0f}",
                                            "r": "5", "style": "fill: var(--c0)"}))
    return group("ref", cause.asked, parts)


def picture() -> str:
    """The whole picture."""
    right = 12 + WIDE + COLUMN * len(COMMANDS)
    wide, low = right + 190, TOP + (len(CAUSES) + 1) * (ROW + 6) + 4
    parts = [text_at(12, 18, "What a command asks for, in this order; the first that fails is reported", "title"),
             rectangle(12, TOP, wide - 12, low - TOP, "box"), rectangle(12, TOP, wide - 12, ROW + 4, "head")]
    parts += [text_at(12 + WIDE + COLUMN * (place + .5), TOP + 11, command, "title", "middle")
              for place, command in enumerate(COMMANDS)]
    parts += [text_at(right + 10, TOP + 11, "message", "title"), text_at(right + 130, TOP + 11, "status", "title")]
    for number, cause in enumerate(CAUSES):
        y = TOP + (number + 1.5) * (ROW + 6)
        parts.append(row_of(cause, y))
        if number:
            parts.append(path(f"M20 {y - 12:.0f}H{wide - 8:.0f}").also(style="stroke: var(--edge); opacity: .3"))
    return document(wide + 12, low + 12, "what each command asks for", parts)


def figures() -> dict[str, str]:
    """The figure by its name."""
    return {"causes": picture()}
