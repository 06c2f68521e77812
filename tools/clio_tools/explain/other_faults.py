"""What a refusal of the second mapping of a comparison leaves out, and why two mappings can't be compared."""
import itertools
import os
import pathlib
import re
import subprocess
import tempfile
from collections.abc import Iterator

from clio_tools.explain import mapping_faults
from clio_tools.explain.pieces import Mark, Piece
from clio_tools.explain.placed import MappingText
from clio_tools.explain.said import visible
from clio_tools.mapping.tables import SetTree
from clio_tools.program import program

Placed = tuple[SetTree | None, list[str]]  # a set with its clauses

NAMES = ("mapping.clio", "other.clio")


def explain(message: str, content: bytes | None, first: bytes) -> Iterator[Piece]:
    """The lines that explain a message `other: ..` on these bytes of other.clio; `first` are those of mapping.clio."""
    if message == "other: other.clio is absent":
        yield from absent()
        return
    if content is None:
        return
    found = re.fullmatch(r"other: conversion in rule ([0-9]+) of (mapping\.clio|other\.clio)", message)
    if message == "other: schemas differ":
        yield from schemas(MappingText(first), MappingText(content))
    elif message == "other: row conditions":
        yield from conditions(MappingText(first), MappingText(content))
    elif found:
        yield from conversion(int(found[1]), found[2], content if found[2] == NAMES[1] else first)
    else:
        yield from mapping_faults.explain("mapping" + message.removeprefix("other"), content)


def absent() -> Iterator[str]:
    """There is no other.clio."""
    yield f"clio compare reads mapping.clio and other.clio in the folder where it is started: {visible(os.getcwd())}"
    if os.path.islink("other.clio"):
        yield f"other.clio is a link to {visible(os.readlink('other.clio'))}, which isn't there"
    alike = mapping_faults.mappings_here()
    if alike:
        yield f"there is {visible(alike[0])}: to compare with it, cp {visible(alike[0])} other.clio"
    else:
        yield "it is another mapping of the same two schemas: cp mapping.clio other.clio, and change its lines"


def clauses(tree: SetTree, parent: str) -> list[str]:
    """What is declared of a set, clause by clause."""
    words = ", ".join
    return [f"set {tree.name}" + (f" inside {parent}" if parent else ""),
            f"columns {words(tree.columns)}",
            *[f"key ({words(key)})" for key in tree.keys],
            *[f"dep ({words(left)}) -> ({words(right)})" for left, right in tree.dependencies],
            *[f"ref ({words(one.own)}) -> {one.name} ({words(one.referred)})" + " optional" * one.optional
              for one in tree.references]]


def placed_sets(trees: list[SetTree], parent: str = "") -> Iterator[Placed]:
    """All sets, each before its inner sets, with its clauses."""
    for tree in trees:
        yield tree, clauses(tree, parent)
        yield from placed_sets(tree.inner, tree.name)


def schemas(one: MappingText, other: MappingText) -> Iterator[Piece]:
    """The first set in which two schemas differ, and its first clause that does."""
    no_set: Placed = None, ["no set"]
    for side in "source", "target":
        pairs = itertools.zip_longest(placed_sets(getattr(one, side)), placed_sets(getattr(other, side)),
                                      fillvalue=no_set)
        for place, here in enumerate(pairs, 1):
            clause_pairs = list(itertools.zip_longest(here[0][1], here[1][1]))
            first = next((number for number, pair in enumerate(clause_pairs) if pair[0] != pair[1]), None)
            if first is None:
                continue
            yield ("both mappings must declare the same sets, in the same order; the first that differs is number"
                   f" {place} of the {side}")
            for name, text, (tree, listed) in zip(NAMES, (one, other), here):
                yield (f"{name} has {visible(listed[first]) if first < len(listed) else 'no more'}"
                       + (f" in set {tree.name}" if tree and first else ""))
                if tree is not None:
                    yield Mark(text.content, tree.name.start, len(tree.name))
            return


def conditions(*texts: MappingText) -> Iterator[Piece]:
    """The conditions of both mappings."""
    yield "mappings with conditions on rows are not compared; these are there:"
    for name, text in zip(NAMES, texts):
        for one in text.conditions:
            yield f"{name}: only {one.place.set.text}.{one.place.column.text} {one.test.text}"
            yield Mark(text.content, one.place.set.start, len(one.place.set.text))


def conversion(number: int, name: str, content: bytes) -> Iterator[str]:
    """The rule that has a conversion, as `clio show` prints it."""
    with tempfile.TemporaryDirectory() as folder:
        pathlib.Path(folder, "mapping.clio").write_bytes(content)
        shown = subprocess.run([program(), "show"], cwd=folder, stdin=subprocess.DEVNULL, capture_output=True,
                               check=False)
    rules = [line for line in shown.stdout.decode().splitlines() if line.startswith("rule ")]
    said = "mappings with conversions are not compared"
    if number >= len(rules):
        yield said
        return
    yield f"{said}; rules count from 0, as clio show prints them, and this is rule {number} of {name}:"
    yield f"    {visible(rules[number][:300])}"
