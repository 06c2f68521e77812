"""The files with the numbers in them: all are written beside the old ones first, and then put in their places,
nulls.csv first.
"""
import json
import sqlite3
from array import array
from collections.abc import Iterable, Iterator
from typing import Any

from clio_tools.csv import read_table, record_text
from clio_tools.ids.keys import has_nulls
from clio_tools.ids.nulls import NONE, parts_of
from clio_tools.ids.target import OUT, PAIRS, RENAMED, Target, Texts, written
from clio_tools.json import Elements
from clio_tools.mapping.text import Set
from clio_tools.program import Refused
from clio_tools.safe_files import Fresh

UNKNOWN = 999  # the rule in the names of nulls that are no numbers: clio has at most 256
ESCAPES = str.maketrans({"\0": "\1\1", "\1": "\1\2"})  # so that a byte 0 is after each text alone
LAST = "\1\3"  # what no escaped text has: it becomes a byte that is after all of theirs
MARK = LAST.encode()


class Form:
    """How the records of a null in nulls.csv are written: those of one rule have the same variables."""

    def __init__(self, variables: Texts) -> None:
        self.variables, self.places = variables, list(range(len(variables)))
        if len(variables) > 1:
            self.places.sort(key=lambda place: int(variables[place][1:]))
        names = [variables[place].replace("%", "%%") for place in self.places]
        self.pattern = "".join([f"%s,{name},%s\n" for name in names])

    def records(self, name: str, values: Texts) -> str:
        """The records of a null with this name, and with these values of the variables."""
        cells = [name] * (2 * len(values))
        cells[1::2] = [values[place] for place in self.places]
        text = self.pattern % tuple(cells)
        if '"' in text or "\r" in text or text.count(",") > len(cells) or text.count("\n") > len(values):
            return "".join([record_text([name, self.variables[place], values[place]]) for place in self.places])
        return text


class Files:
    """The files of a target with other names for its nulls."""

    def __init__(self, target: Target, numbers: "array[int]", is_written: bytearray, base: sqlite3.Connection) -> None:
        self.target, self.numbers, self.is_written, self.base = target, numbers, is_written, base
        self.made: list[Fresh] = []
        base.execute("CREATE TEMP TABLE sorted (line INTEGER PRIMARY KEY, by BLOB, text TEXT)")

    def write(self, nested: bool) -> dict[str, bytes]:
        """Writes all files beside the old ones, and answers their digests."""
        self.file("nulls.csv", record_text([RENAMED, "variable", "value"]), self.sorted(self.nulls()))
        for place, table in enumerate(self.target.tables):
            self.file(table.name + ".csv", record_text(table.columns), self.sorted(self.rows(place, table)))
        for table in self.target.tables:
            if nested and not table.parent:
                self.file(table.name + ".json", "[", self.document(table))
        folds = (record_text([null, self.renamed(value)]) for null, value in read_table(written("fold"), PAIRS))
        self.file("fold.csv", record_text(PAIRS), folds)
        return {fresh.path.name: fresh.digest() for fresh in self.made}

    def file(self, name: str, head: str, texts: Iterable[str]) -> None:
        """Writes a file beside the old one."""
        fresh = Fresh(OUT / name)
        self.made.append(fresh)
        fresh.file.write(head)
        fresh.file.writelines(texts)
        fresh.close()

    def name(self, null: int) -> str:
        """The new name of a null."""
        return str(self.numbers[null]) if self.is_written[null] else f"?{UNKNOWN}.0.{self.numbers[null]}"

    def order(self, null: int) -> str:
        """What a null is sorted by: as the text of a number, or after all texts by its number."""
        return str(self.numbers[null]) if self.is_written[null] else f"{LAST}{self.numbers[null]:019}"

    def number(self, text: str) -> int:
        """The number of a null by its name; NONE for a text that is no name of the target's."""
        return self.target.nulls.number_of(text) if text[:1] == "?" else NONE

    def renamed(self, cell: str) -> str:
        """A cell with the new name of its null."""
        null = self.number(cell)
        return cell if null == NONE else self.name(null)

    def nulls(self) -> Iterator[tuple[bytes, str]]:
        """The records of each null in nulls.csv, with what they are sorted by."""
        forms: dict[Texts, Form] = {}
        for number, _, variables, values in self.target.exported():
            form = forms.get(variables)
            if form is None:
                form = forms[variables] = Form(variables)
            yield sorted_by(self.order(number)), form.records(self.name(number), values)

    def rows(self, place: int, table: Set) -> Iterator[tuple[bytes, str]]:
        """The records of a table, with what they are sorted by."""
        cells, is_written = self.target.cells[place], self.is_written
        nulls = [(column, numbers) for column, numbers in enumerate(cells) if has_nulls(numbers)]
        for number, row in enumerate(self.target.rows(table)):
            orders, loose = row[:], 0
            for column, numbers in nulls:
                null = numbers[number]
                if null == NONE:
                    continue
                if is_written[null]:
                    row[column] = orders[column] = str(self.numbers[null])
                else:
                    row[column], orders[column] = self.name(null), self.order(null)
                    loose += 1
            text = "\0".join(orders) + "\0"
            if "?" in text or text.count("\1") > loose or text.count("\0") > len(orders):
                orders = [order if one[number] != NONE else order_of_text(order) for order, one in zip(orders, cells)]
                text = "\0".join(orders) + "\0"
            yield sorted_by(text), record_text(row)

    def document(self, table: Set) -> Iterator[str]:
        """The text of a document, its objects in the order of their texts, after the first bracket."""
        texts = (text_of(self.renamed_in(value)) for value in Elements(written(table.name, ".json")))
        mark = ""
        for text in self.sorted((text.encode(), text) for text in texts):
            yield mark + text
            mark = ","
        yield "]\n"

    def renamed_in(self, value: Any) -> Any:
        """A value of a document with new names."""
        if isinstance(value, list):
            return sorted((self.renamed_in(one) for one in value), key=text_of)
        if isinstance(value, dict):
            return {name: self.renamed_in(one) for name, one in value.items()}
        if parts_of(value) and self.number(value) == NONE:
            raise Refused(f"a document has {value}, which is in no table: run clio exchange --nested again")
        return self.renamed(value)

    def sorted(self, records: Iterable[tuple[bytes, str]]) -> Iterator[str]:
        """Texts in the order of what stands before them."""
        self.base.execute("DELETE FROM sorted")
        self.base.executemany("INSERT INTO sorted (by, text) VALUES (?, ?)", records)
        return (text for text, in self.base.execute("SELECT text FROM sorted ORDER BY by, line"))

    def replace(self) -> None:
        """Puts the files in the places of the old ones."""
        for fresh in self.made:
            fresh.replace()

    def clear(self) -> None:
        """Takes away what was not put in its place."""
        for fresh in self.made:
            fresh.remove()


def text_of(value: Any) -> str:
    """A value of JSON as clio writes it."""
    return json.dumps(value, ensure_ascii=False, separators=(",", ":"), sort_keys=True)


def sorted_by(text: str) -> bytes:
    """The bytes that a record is sorted by."""
    return text.encode().replace(MARK, b"\xff") if LAST in text else text.encode()


def order_of_text(cell: str) -> str:
    """What a text is sorted by."""
    return (cell[1:] if cell[:1] == "?" else cell).translate(ESCAPES)
