"""The sets of a JSON document or of a file with a document in each line, and the documents that clio reads of them.

An array of objects is a set, inside another one an inner set; an object in a column's place becomes columns
`member_column`; an array of single values an inner set with the column `value`. A number with a fraction is its text.
"""
from __future__ import annotations

import dataclasses
import pathlib
from collections.abc import Iterable

from clio_tools import json as clio_json
from clio_tools.draft.model import Column, Made, Remark, Table
from clio_tools.draft.names import shown, word
from clio_tools.json import Object, Value
from clio_tools.mapping.text import Set
from clio_tools.program import Refused

Path = tuple[str, ...]  # of members

VALUE = "value"  # the column of an array of single values
PLACE = "place"  # that of objects without any


@dataclasses.dataclass
class Shape:
    """What the objects of an array have in them: the kinds of each member."""

    kinds: dict[Path, set[str]] = dataclasses.field(default_factory=dict)
    inner: dict[Path, Shape] = dataclasses.field(default_factory=dict)

    def look(self, one: Object, prefix: Path = ()) -> None:
        """Takes an object in."""
        for name, value in one.items():
            path = (*prefix, name)
            if isinstance(value, dict):
                self.kinds.setdefault(path, set()).add("object")
                self.look(value, path)
            elif isinstance(value, list):
                self.kinds.setdefault(path, set()).add("array")
                inner = self.inner.setdefault(path, Shape())
                for each in value:
                    inner.look(object_of(each))
            else:
                self.kinds.setdefault(path, set()).update(() if value is None else {"value"})

    def why_not(self, path: Path) -> str:
        """Why a member can't be said, if so."""
        kinds = self.kinds[path]
        if len(kinds) > 1:
            return f"it is {' or '.join(sorted(kinds))}"
        return ""


class Base:
    """A file with a document, or with one in each line."""

    def __init__(self, path: str) -> None:
        self.path = pathlib.Path(path)
        self.arrays = roots_of(self.path, values_of(self.path))
        self.paths: dict[int, Path] = {}  # of tables and columns, by their ids
        self.shapes: dict[int, Shape] = {}  # what the objects of each table have in them, by its id

    def tables(self) -> list[Table]:
        return [self._table(name, shape_of(array), None) for name, array in self.arrays.items()]

    def _table(self, name: str, shape: Shape, parent: Table | None) -> Table:
        table = Table(name, [], parent=parent)
        self.shapes[id(table)] = shape
        for path in shape.kinds:
            why_not = shape.why_not(path)
            column = Column("_".join(path))
            if why_not:
                table.notes.append(f"{column.name} is left out: {why_not}")
            elif shape.kinds[path] == {"array"}:
                inner = self._table(column.name, shape.inner[path], table)
                self.paths[id(inner)] = path
                table.inner.append(inner)
            elif shape.kinds[path] != {"object"}:
                self.paths[id(column)] = path
                table.columns.append(column)
        if not table.columns:
            table.columns.append(Column(PLACE))
            table.notes.append(f"{PLACE} is the place of the object, since a set has one column at least")
        return table

    def documents(self, table: Table) -> list[Made]:
        """The objects of a root set as clio reads them, with the words for names."""
        return [self._object(table, one, place) for place, one in enumerate(self.arrays[table.name])]

    def mapped(self, one: Set, table: Table, remark: Remark) -> list[Made]:
        """The objects of a set as a mapping declares it; tells what it doesn't have, and refuses what it has in another
        place.
        """
        self._check(one, table, remark)
        return [self._mapped(one, table, value) for value in self.arrays[table.name]]

    def _check(self, one: Set, table: Table, remark: Remark) -> None:
        """Compares a set of a mapping with what the objects have."""
        shape, declared = self.shapes[id(table)], {*one.declared, *(inner.name for inner in one.inner)}
        kinds = {word("_".join(path)): kind for path, kind in shape.kinds.items()}
        columns = [column.word for column in table.said if id(column) in self.paths]
        inner = {each.word: each for each in table.inner}
        for name in one.declared:
            if name not in columns and kinds.get(name):
                raise Refused(f"{table.name}.{name} is {' or '.join(sorted(kinds[name]))} here, and a column in the"
                              " mapping")
        for each in one.inner:
            if each.name not in inner and kinds.get(each.name):
                raise Refused(f"{table.name}.{each.name} is {' or '.join(sorted(kinds[each.name]))} here,"
                              " and an inner set in the mapping")
        absent = [name for name in one.declared if name not in columns]
        if absent and shape.kinds:
            remark(f"{table.name}: no object has {', '.join(absent)}: written as null")
        for path, kind in shape.kinds.items():
            name = word("_".join(path))
            if kind and kind != {"object"} and name not in declared:
                thing = "array" if kind == {"array"} else "member"
                remark(f"{table.name}: the {thing} {shown('.'.join(path))} is not in the mapping, and left out")
        for each in one.inner:
            if each.name in inner:
                self._check(each, inner[each.name], remark)

    def _mapped(self, one: Set, table: Table, value: Object) -> Made:
        """An object of a set of a mapping."""
        places = {column.word: self.paths[id(column)] for column in table.said if id(column) in self.paths}
        made = Made({name: text_at(value, places[name]) if name in places else None for name in one.declared}, {})
        inner = {each.word: each for each in table.inner if not each.why_not}
        for each in one.inner:
            found = inner.get(each.name)
            made.inner[each.name] = [self._mapped(each, found, item)
                                     for item in objects_at(value, self.paths[id(found)])] if found else []
        return made

    def _object(self, table: Table, one: Object, place: int) -> Made:
        made = Made({}, {})
        for column in table.said:
            path = self.paths.get(id(column))
            made.cells[column.word] = str(place) if path is None else text_at(one, path)
        for inner in table.inner:
            if not inner.why_not:
                array = objects_at(one, self.paths[id(inner)])
                made.inner[inner.word] = [self._object(inner, each, number) for number, each in enumerate(array)]
        return made


def value_at(one: Value, path: Path) -> Value:
    """The value of a member, or nothing."""
    for name in path:
        one = one.get(name) if isinstance(one, dict) else None
    return one


def object_of(value: Value) -> Object:
    """An object of an inner set; a single value is one with the column `value`."""
    return value if isinstance(value, dict) else {VALUE: value}


def objects_at(one: Value, path: Path) -> list[Object]:
    """The objects of an inner set."""
    array = value_at(one, path)
    return [object_of(each) for each in array] if isinstance(array, list) else []


def text_at(one: Value, path: Path) -> str | None:
    """The text of a column; what clio refuses of numbers is its text."""
    value = value_at(one, path)
    if value is None:
        return None
    if isinstance(value, str):
        value = str(value)
    return clio_json.scalar(value, "/".join(path))


def shape_of(array: Iterable[Object]) -> Shape:
    """What the objects of an array have in them."""
    shape = Shape()
    for one in array:
        shape.look(one)
    return shape


def values_of(path: pathlib.Path) -> Value:
    """The document of a file, or those of its lines as one array."""
    if path.is_char_device() or path.is_block_device():
        raise Refused(f"{path} is a device, and no file")
    content = path.read_bytes()
    try:
        return clio_json.parse(content, path, twice=False)
    except Refused as why:
        lines = [(number, line) for number, line in enumerate(content.removeprefix(clio_json.MARK).split(b"\n"), 1)
                 if line.strip()]
        if len(lines) < 2:
            raise
        try:
            first = clio_json.parse(lines[0][1], path, twice=False)
        except Refused:
            raise why from None
        if not isinstance(first, dict):
            raise
        return [clio_json.parse(line, f"{path}: line {number}", twice=False) for number, line in lines]


def roots_of(path: pathlib.Path, document: Value) -> dict[str, list[Object]]:
    """The arrays of objects of a document by their names: itself, or its members."""
    if isinstance(document, list):
        arrays = {path.stem: document}
    elif isinstance(document, dict):
        arrays = {name: one for name, one in document.items() if isinstance(one, list)}
        if not document or len(arrays) < len(document):
            arrays = {path.stem: [document]}
    else:
        raise Refused(f"{path}: the document is a single value, and must be an array of objects")
    roots = {name: [one for one in array if isinstance(one, dict)] for name, array in arrays.items()}
    for name, array in arrays.items():
        if len(roots[name]) < len(array):
            raise Refused(f"{path}: {name} has an element that is no object")
    return roots
