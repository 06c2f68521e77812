"""What a refusal of a JSON document leaves out: the line, what is there, and what can be there."""
import itertools
import json
import re
from collections.abc import Iterable, Iterator
from typing import NoReturn

from clio_tools.csv import MARK
from clio_tools.explain.pieces import Mark, Piece
from clio_tools.explain.said import amount, listed, shown, visible
from clio_tools.mapping.tables import Table

Found = tuple[int, object, int]  # the place of a value, itself, and the number of its table
FILLED = re.compile(r"[^ \t\n\r]")
HALF = re.compile(r"\\u[dD][89abAB][0-9a-fA-F]{2}(?!\\u[dD][c-fC-F])"
                  r"|(?<!\\u[dD][89abAB][0-9a-fA-F]{2})\\u[dD][c-fC-F][0-9a-fA-F]{2}")  # of a surrogate pair
KINDS: dict[type, str] = {dict: "an object", list: "an array", str: "a text", bool: "true or false", int: "a number",
                          float: "a number", type(None): "null"}
DEEPEST = 127


def explain(message: str, file: str, content: bytes, tables: list[Table], root: int) -> Iterator[Piece]:
    """The lines that explain what is wrong with the document of a set."""
    if content.startswith((b"\xff\xfe", b"\xfe\xff")):
        yield f"the file is UTF-16: iconv -f UTF-16 -t UTF-8 {file} > new; mv new {file}"
        return
    if message == "not JSON":
        yield from no_document(content)
        return
    found = re.fullmatch(r"(wrong shape|number|unknown member) at (.*)", message, re.DOTALL)
    if not found:
        return
    document = Document(content)
    for place, value, number in document.places(found[2], tables, root):
        yield Mark(document.content, document.byte(place))
        if found[1] == "number":
            raw = document.text[place:document.decoder.raw_decode(document.text, place)[1]]
            yield (f"{raw[:60]} is no integer of 64 bits: its digits would not be kept, so write it as a text:"
                   f' "{raw[:60]}"')
        else:
            yield from of_value(found[1], value, tables[number], found[2])
        return
    yield f"nothing was found at {visible(found[2][:200])}"


def no_document(content: bytes) -> Iterator[Piece]:
    """Why the bytes are no JSON: the first place at which reading stops."""
    body = content.removeprefix(MARK)
    try:
        text = body.decode("utf-8")
    except UnicodeDecodeError as error:
        yield Mark(body, error.start)
        yield f"the byte {body[error.start:error.start + 1].hex()} is no UTF-8"
        return
    try:
        value = json.loads(text, parse_constant=no_constant)
    except json.JSONDecodeError as error:
        yield Mark(body, len(text[:error.pos].encode()))
        yield error.msg + (": the document ends here" if error.pos >= len(text.rstrip()) else "")
    except RecursionError:
        yield f"arrays and objects are nested deeper than {DEEPEST}"
    except ValueError as error:
        yield str(error)
    else:
        yield from accepted_elsewhere(value, text, body)


def no_constant(name: str) -> NoReturn:
    """Refuses NaN and Infinity."""
    raise ValueError(f"{name} is no JSON: write it as a text")


def accepted_elsewhere(value: object, text: str, body: bytes) -> Iterator[Piece]:
    """What Python reads and clio doesn't: nesting, halves of characters, numbers past all floating numbers."""
    found = HALF.search(text)
    if depth(value) > DEEPEST:
        yield f"arrays and objects are nested {depth(value)} deep, and clio reads {DEEPEST}"
    elif found:
        yield Mark(body, len(text[:found.start()].encode()), 6)
        yield f"{found[0]} is half of a character: a pair of them is one character"
    else:
        number = next((one for one in re.finditer(r"-?[0-9]+(?:\.[0-9]+)?[eE][+-]?[0-9]+|[0-9]{300,}", text)
                       if abs(float(one[0])) == float("inf")), None)
        if number:
            yield Mark(body, len(text[:number.start()].encode()), min(len(number[0]), 60))
            yield "this number is too large: write it as a text"


def depth(value: object) -> int:
    """How deep arrays and objects are nested."""
    deepest = 0
    left: list[tuple[object, int]] = [(value, 1)]
    while left:
        one, here = left.pop()
        if isinstance(one, (dict, list)):
            deepest = max(deepest, here)
            left += [(inner, here + 1) for inner in (one.values() if isinstance(one, dict) else one)]
    return deepest


class Document:
    """A document whose values can be found by the path that a message names."""

    def __init__(self, content: bytes) -> None:
        self.content = content.removeprefix(MARK)
        self.text = self.content.decode("utf-8", "surrogateescape")
        self.decoder = json.JSONDecoder()

    def byte(self, place: int) -> int:
        """The byte at which a character stands."""
        return len(self.text[:place].encode("utf-8", "surrogateescape"))

    def after_space(self, place: int) -> int:
        """The place of the next sign that is no blank, or that of the end."""
        found = FILLED.search(self.text, place)
        return found.start() if found else len(self.text)

    def places(self, path: str, tables: list[Table], root: int) -> Iterator[Found]:
        """The places, values and tables that a path can mean: a name may have a `/` in it. The table is the one whose
        object has the value.
        """
        yield from self.inside(self.after_space(0), path, tables, root, False)

    def inside(self, place: int, path: str, tables: list[Table], number: int, is_object: bool) -> Iterator[Found]:
        """The same from a value on, whose table is known; `is_object` tells whether it should be an object of it."""
        value, _ = self.decoder.raw_decode(self.text, place)
        if not path:
            yield place, value, number
        elif isinstance(value, list) and not is_object:
            step = re.match(r"/([0-9]+)", path)
            if step:
                for start in itertools.islice(self.elements(place), int(step[1]), int(step[1]) + 1):
                    yield from self.inside(start, path[step.end():], tables, number, True)
        elif isinstance(value, dict):
            inner = {tables[one].name: one for one in tables[number].inner}
            for name, start in self.members(place):
                if path == "/" + name or path.startswith("/" + name + "/"):
                    yield from self.inside(start, path[1 + len(name):], tables, inner.get(name, number), False)

    def elements(self, place: int) -> Iterator[int]:
        """Where the elements of an array begin."""
        place = self.after_space(place + 1)
        while self.text[place] != "]":
            yield place
            place = self.after_space(self.decoder.raw_decode(self.text, place)[1])
            if self.text[place] == ",":
                place = self.after_space(place + 1)

    def members(self, place: int) -> Iterable[tuple[str, int]]:
        """The members of an object by their names, and where their values begin; of equal names the last."""
        found: dict[str, int] = {}
        place = self.after_space(place + 1)
        while self.text[place] != "}":
            name, place = self.decoder.raw_decode(self.text, place)
            start = self.after_space(self.after_space(place) + 1)
            found[name] = start
            place = self.after_space(self.decoder.raw_decode(self.text, start)[1])
            if self.text[place] == ",":
                place = self.after_space(place + 1)
        return found.items()


def of_value(kind: str, value: object, table: Table, path: str) -> Iterator[str]:
    """What stands at a path, and what can."""
    inner = [one.name for one in table.tree.inner]
    if kind == "unknown member":
        yield f"an object of {table.name} can have the columns {listed(table.tree.columns, 64)}" + (
            f" and the inner sets {listed(inner, 64)}" if inner else "")
    else:
        yield f"here is {KINDS[type(value)]}" + (f": {shown(value)}" if isinstance(value, str) else "")
        yield from wanted(path, value, table)


def wanted(path: str, value: object, table: Table) -> Iterator[str]:
    """What a value of the wrong kind should be."""
    last = path.rsplit("/", 1)[-1]
    if not path:
        yield f"the document is an array of objects of {table.name}"
        if isinstance(value, dict):
            lists = [name for name, one in value.items() if isinstance(one, list)]
            yield ("one object alone is an array of one: [ .. ]"
                   + (f"; the object has arrays: {listed(lists)}" if lists else ""))
    elif last.isdigit() and last not in table.tree.columns:
        yield (f"here must be an object of {table.name}: {amount(len(table.tree.columns), 'column')}:"
               f" {listed(table.tree.columns, 64)}")
    elif last in table.tree.columns:
        yield f"{last} is a column of {table.name}: a text, an integer, true, false or null"
        if isinstance(value, (dict, list)):
            yield f"declare it as an inner set, if it is an array of objects: set {last} {{ .. }}"
    else:
        yield f"{last} is an inner set: an array of objects, also if there is one"
