"""Reads the cases of drawings.txt."""
import pathlib
from typing import Iterator, NamedTuple

from drawing_trial import Wanted

FILE = pathlib.Path(__file__).parent / "drawings.txt"


class Case(NamedTuple):
    """A drawing with its files, what SQL says of its target, and what the lines alone gave, if that was otherwise."""

    name: str
    files: dict[str, str]
    wanted: tuple[Wanted, ...]
    came_out: str


def cases() -> Iterator[Case]:
    """All cases."""
    for part in FILE.read_text(encoding="utf-8").split("\n=== ")[1:]:
        head, *blocks = part.split("\n--- ")
        name, *said = head.split("\n")
        came_out = next((line.removeprefix("came out: ") for line in said if line.startswith("came out: ")), "")
        titles = [block.split("\n", 1) for block in blocks]
        files = {title: text.strip("\n") + "\n" for title, text in titles if not title.startswith(("source", "target"))}
        queries = [(title, text) for title, text in titles if title.startswith(("source", "target"))]
        wanted = tuple(Wanted(title.removeprefix("source "), text, over, "keeping nulls" in target)
                       for (title, text), (target, over) in zip(queries[::2], queries[1::2]))
        yield Case(name, files, wanted, came_out)
