"""The nine steps of an exchange, from the texts and files to what is written, with the calls that take them."""
from __future__ import annotations

from typing import NamedTuple

from clio_tools.picture.svg import ROW, Element, document, group, path, rectangle, text_at

WIDE, HIGH, DOWN, LEFT, OTHER = 236, 44, 74, 26, 322


class Step(NamedTuple):
    """A step: its number and name, the call that takes it, what it passes on, its row and column; whether core mode
    alone takes it."""

    name: str
    call: str
    gives: str
    row: int
    x: int = LEFT
    core: bool = False


STEPS = [
    Step("1 read the text", "dx_schema_text::read_mapping", "sets, lines, conditions, rules", 1),
    Step("2 unfold", "dx_logical::unfoldings", "each table with what its refs lead to", 2),
    Step("3 lines to rules", "dx_candidates::kept", "rules", 3),
    Step("4 read the rows", "clio_source::read_source", "rows that satisfy the conditions", 3, OTHER),
    Step("5 match", "dx_tgd::canonical_plain", "the canonical instance", 4),
    Step("6 fold", "dx_cover_fold::cover_fold", "without rows that another rule makes too", 5, core=True),
    Step("7 chase", "dx_keys::chase", "nulls replaced, so that keys hold", 6),
    Step("8 reduce", "dx_core::reduce", "a core: no row is redundant", 7, core=True),
    Step("9 write", "clio_files::print_files", "tables, nulls.csv, fold.csv", 8),
]
FILES = [("mapping.clio", 0, LEFT), ("emp.csv, dept.csv", 2, OTHER), ("out/", 9, LEFT)]
PARTS = [("clio_accept::accept", 1, 3), ("dx_exchange::exchange", 4, 7)]


def top_of(row: int) -> float:
    """The upper side of what is in a row."""
    return 40 + row * DOWN - (24 if row else 0)


def box(step: Step) -> Element:
    """A step with its call."""
    y = top_of(step.row)
    frame = rectangle(step.x, y, WIDE, HIGH, "box").also(**{"style": "stroke-dasharray: 4 3"} if step.core else {})
    parts = [frame, text_at(step.x + 10, y + 13, step.name, "title"), text_at(step.x + 10, y + 31, step.call, "soft")]
    if step.core:
        parts.append(text_at(step.x + WIDE - 8, y + 13, "--core", "only", "end"))
    return group("ref", step.name, parts)


def arrow(x: float, start: float, goal: float, label: str) -> Element:
    """An arrow down, with what goes along."""
    return group("ref", label, [path(f"M{x:.0f} {start:.0f}V{goal - 5:.0f}"),
                                path(f"M{x:.0f} {goal:.0f}l-4 -7h8z", "tip"),
                                text_at(x + 10, (start + goal) / 2, label, "soft")])


def part(name: str, first: int, last: int) -> list[Element]:
    """A call that takes several steps: a line beside them, with its name upright."""
    y, low = top_of(first), top_of(last) + HIGH
    return [path(f"M{LEFT - 8} {y:.0f}h-4V{low:.0f}h4").also(style="fill: none; stroke: var(--edge)"),
            text_at(0, 0, name, "soft", "middle").also(
                transform=f"translate({LEFT - 18} {(y + low) / 2:.0f}) rotate(-90)")]


def picture() -> str:
    """The whole picture."""
    middle, other = LEFT + WIDE / 2 - 60, OTHER + WIDE / 2 - 60
    parts = [text_at(LEFT, 18, "clio exchange, in nine steps", "title")]
    for name, row, x in FILES:
        y = top_of(row) + (20 if x == OTHER else 0)
        parts.append(group("ref", name, [rectangle(x, y, WIDE, 24, "head", 12), text_at(x + 12, y + 12, name)]))
    parts.append(arrow(middle, top_of(0) + 24, top_of(1), ""))
    for step, below in zip(STEPS, [*STEPS[1:], None]):
        goal = top_of(below.row if below else 9)
        if step.x == OTHER:
            low = top_of(4) + HIGH / 2
            parts.append(group("ref", step.gives, [
                path(f"M{other:.0f} {top_of(3) + HIGH:.0f}V{low:.0f}H{LEFT + WIDE + 6}").also(
                    style="fill: none"), path(f"M{LEFT + WIDE} {low:.0f}l7 -4v8z", "tip"),
                text_at(other + 10, low, step.gives, "soft")]))
            parts.append(arrow(other, top_of(2) + 44, top_of(3), ""))
        else:
            parts.append(arrow(middle, top_of(step.row) + HIGH, top_of(4) if step.row == 3 else goal, step.gives))
        parts.append(box(step))
    for name, first, last in PARTS:
        parts += part(name, first, last)
    return document(OTHER + WIDE + 100, top_of(9) + 24 + ROW, "the nine steps of clio exchange", parts)


def figures() -> dict[str, str]:
    """The figure by its name."""
    return {"steps": picture()}
