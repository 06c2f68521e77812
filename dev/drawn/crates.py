"""The crates by their groups, as crates.txt lists them: which ones the program doesn't use, and which take a step of
an exchange."""
from __future__ import annotations

import functools
from typing import NamedTuple

from clio_tools.picture.svg import LETTER, ROW, Element, document, group, rectangle, text_at
from drawn.pages import TOP
from drawn.steps import STEPS

WIDE, NAME, HIGH = 880, 156, 22


class Group(NamedTuple):
    """Crates under one heading of crates.txt."""

    name: str
    crates: list[str]


@functools.cache
def groups() -> tuple[list[Group], dict[str, list[str]]]:
    """The groups in order, and which crates each crate uses."""
    found: list[Group] = []
    uses: dict[str, list[str]] = {}
    for line in (TOP / "crates.txt").read_text(encoding="utf-8").split("\n")[1:]:
        if line.startswith("# "):
            found.append(Group(line[2:].split(":")[0].removesuffix(" that cross crates."), []))
        elif line:
            name, _, used = line.partition(":")
            found[-1].crates.append(name)
            uses[name] = used.split()
    return found, uses


@functools.cache
def needed() -> frozenset[str]:
    """The program's crate and all that it uses."""
    uses = groups()[1]
    seen: set[str] = set()
    waiting = ["clio"]
    while waiting:
        name = waiting.pop()
        if name in uses and name not in seen:
            seen.add(name)
            waiting += uses[name]
    return frozenset(seen)


def label_of(crate: str) -> str:
    """A crate's name, with a star if the program doesn't use it, and the number of the step that it takes."""
    numbers = [step.name.split(" ")[0] for step in STEPS if step.call.startswith(f"{crate}::")]
    return crate + "*" * (crate not in needed()) + "".join(f" {number}" for number in numbers)


def band(one: Group, y: float) -> tuple[list[Element], float]:
    """A group with its crates in rows, and where it ends."""
    x, low, parts = float(NAME + 16), y + 8, []
    for crate in one.crates:
        label = label_of(crate)
        wide = len(label) * LETTER + 14
        if x + wide > WIDE - 8:
            x, low = float(NAME + 16), low + HIGH + 6
        kind = "head" if " " in label else "pill"
        frame = rectangle(x, low, wide, HIGH, kind, 8).also(style="stroke: var(--edge)")
        parts += [frame, text_at(x + 7, low + HIGH / 2, label, "soft" if "*" in label else "")]
        x += wide + 8
    end = low + HIGH + 8
    return [rectangle(12, y, WIDE - 12, end - y, "box"), text_at(22, y + 8 + HIGH / 2, one.name, "title"), *parts], end


def picture() -> str:
    """The whole picture, the top first."""
    y = 64.0
    parts = [text_at(12, 18, "The crates: each uses only some before it in its band, and in the bands below", "title"),
             text_at(12, 42, "* the program doesn't use it; a number is the step of an exchange that it takes", "soft")]
    for one in reversed(groups()[0]):
        drawn, low = band(one, y)
        parts.append(group("ref", one.name, drawn))
        y = low + 8
    return document(WIDE + 12, y + ROW / 2, "the crates of clio", parts)


def figures() -> dict[str, str]:
    """The figure by its name."""
    return {"crates": picture()}
