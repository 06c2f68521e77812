"""What the documents have: the files of an example on a page, and what clio writes of such files."""
from __future__ import annotations

import csv
import functools
import pathlib
import re
import subprocess
import tempfile
from collections.abc import Mapping
from typing import NamedTuple

from clio_tools.program import program

TOP = pathlib.Path(__file__).resolve().parent.parent.parent
BLOCK = re.compile(r"^```\w+ (\S+)\n(.*?)^```$", re.M | re.S)
KEY = re.compile(r" key \([^)]*\);")


class Tables(NamedTuple):
    """What an exchange writes: each table with its header and rows, and which nulls were replaced by what."""

    tables: dict[str, list[list[str]]]
    fold: dict[str, str]


def first_example(page: str) -> dict[str, str]:
    """The files of the first example of a page: its first mapping, and the tables up to the next one of a name that
    is there."""
    files: dict[str, str] = {}
    for name, text in BLOCK.findall((TOP / "docs" / page).read_text(encoding="utf-8")):
        if name in files:
            break
        files[name] = text
    return files


def example(name: str) -> dict[str, str]:
    """The mapping and the source files of a folder of examples/."""
    folder = TOP / "examples" / name
    return {file.name: file.read_text(encoding="utf-8") for file in sorted(folder.iterdir())
            if file.name == "mapping.clio" or file.suffix == ".csv"}


def without_keys(files: Mapping[str, str]) -> dict[str, str]:
    """The same files, with a mapping that has no key: so a target as the rules make it."""
    return {**files, "mapping.clio": KEY.sub("", files["mapping.clio"])}


@functools.cache
def clio() -> str:
    """The program."""
    return program()


def exchanged(files: Mapping[str, str], *words: str) -> Tables:
    """What clio makes of these files."""
    with tempfile.TemporaryDirectory() as name:
        folder = pathlib.Path(name)
        for file, text in files.items():
            (folder / file).write_text(text, encoding="utf-8")
        subprocess.run([clio(), "exchange", *words], cwd=folder, check=True, stdout=subprocess.DEVNULL)
        read = {}
        for path in sorted((folder / "out").glob("*.csv")):
            with path.open(encoding="utf-8", newline="") as stream:
                read[path.stem] = list(csv.reader(stream))
    fold = dict(row[:2] for row in read.pop("fold")[1:])
    del read["nulls"]
    return Tables(read, {null: value for null, value in fold.items()})
