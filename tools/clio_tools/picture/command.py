"""Draws the picture of a mapping as SVG.

    clio-picture [FOLDER] > mapping.svg

It draws the mapping.clio of FOLDER, or of the current folder: on the left the sets of the source, on the right those of
the target, inner sets inside theirs, with their keys, and with their dependencies below the columns; refs beside the
boxes, with a tip where they lead to, optional ones with dashes; lines from column to column, with the conversion or the
text on them; and beside a column of the source what a condition asks of it, like "only filled". The sets are in an
order in which few lines cross. Below are the rules that are written by hand, each as a figure under the number that
clio gives it: the sets that it asks for, the sets that it makes, and what its variables join.

A browser shows it, light or dark as it is set; under the pointer a line stands out, and its text in the mapping is
shown. It has no script and loads nothing. A mapping that clio refuses is refused with clio's message; `clio-explain
show` says more. It is not proved, but has tests.
"""
import os
import pathlib
import sys

from clio_tools.explain.program import printed_rules
from clio_tools.mapping.meaning import read_mapping
from clio_tools.picture.whole import Picture
from clio_tools.program import Refused, run
from clio_tools.safe_files import content_of

USAGE = "usage: clio-picture [FOLDER] > mapping.svg; the manual is man clio-picture"


def work(words: list[str]) -> None:
    """Prints the picture."""
    if len(words) > 1 or words[:1] and words[0].startswith("-"):
        raise Refused(USAGE)
    path = pathlib.Path(words[0] if words else ".") / "mapping.clio"
    content = content_of(path)
    try:
        mapping = read_mapping(content)
    except Refused as why:
        raise Refused(f"{path}: {why}") from None
    name = os.path.basename(os.path.realpath(path.parent))
    sys.stdout.write(Picture(mapping, name, shown_rules(path.parent)).drawn())


def shown_rules(folder: pathlib.Path) -> list[str] | None:
    """The rules as clio prints them, which have their numbers; nothing if there is no clio, or it refuses them."""
    try:
        printed = printed_rules(folder)
    except Refused:
        return None
    return None if printed is None else [line.decode().strip() for line in printed]


def main() -> None:
    """Runs the tool."""
    run("clio-picture", work)
