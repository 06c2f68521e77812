"""The data files: the records of a CSV file, the facts of a JSON document, and the first fault of either."""
import json
import math
import re

from refusals import ROWS, Refusal, Unsure
from values import read_value

MARK = b"\xef\xbb\xbf"
DEEPEST = 127


def refusal(file, fault):
    return Refusal(ROWS, "rows: %s: %s" % (file, fault))


def without_mark(content):
    """The bytes without one byte order mark at their front."""
    return content[len(MARK):] if content.startswith(MARK) else content


def records_of(content):
    """The records of a CSV file as lists of bytes; ends of lines are LF, CR or both, and empty lines are none."""
    if b'"' not in content:
        return [line.split(b",") for line in re.split(rb"[\r\n]", content) if line]
    records, record, place = [], [], 0
    while place < len(content):
        if not record and content[place:place + 1] in (b"\n", b"\r"):
            place += 1
            continue
        field, place = field_at(content, place)
        record.append(field)
        if content[place:place + 1] == b",":
            place += 1
            if place < len(content):
                continue
            record.append(b"")
        records.append(record)
        record = []
    return records


def field_at(content, place):
    """The field at a byte, and the byte after it."""
    if content[place:place + 1] != b'"':
        end = place
        while end < len(content) and content[end] not in b",\r\n":
            end += 1
        return content[place:end], end
    field, place = b"", place + 1
    while True:
        end = content.find(b'"', place)
        if end < 0:
            raise Unsure()  # an open quote
        field += content[place:end]
        if content[end + 1:end + 2] != b'"':
            break
        field, place = field + b'"', end + 2
    if content[end + 1:end + 2] not in (b"", b",", b"\r", b"\n"):
        raise Unsure()  # a byte after the closing quote
    return field, end + 1


def table_rows(content, columns, file):
    """The rows of a CSV file, or its first fault."""
    content = without_mark(content)
    if content.startswith(MARK):
        raise Unsure()
    records = records_of(content)
    if not records:
        raise refusal(file, "no header")
    header = [column.encode() for column in columns]
    for place in range(max(len(header), len(records[0]))):
        if header[place:place + 1] != records[0][place:place + 1]:
            raise refusal(file, "header at column %d" % place)
    rows = []
    for number, record in enumerate(records[1:], 1):
        if len(record) != len(columns):
            raise refusal(file, "width of record %d" % number)
        try:
            rows.append(tuple(field.decode() for field in record))
        except UnicodeDecodeError:
            raise refusal(file, "record %d is not text" % number) from None
    return rows


def value_rows(content, columns, file):
    """The rows of a given CSV file, each field read as a value text, or its first fault."""
    rows = [tuple(map(read_value, row)) for row in table_rows(content, columns, file)]
    for number, row in enumerate(rows, 1):
        if None in row:
            raise refusal(file, "record %d is not a value" % number)
    return rows


def integer(numeral):
    """An integer of 64 bits, or else the fraction that it is held as."""
    if numeral == "-0":
        raise Unsure()
    if len(numeral) < 21 and -2 ** 63 <= int(numeral) < 2 ** 64:
        return int(numeral)
    return fraction(numeral)


def fraction(numeral):
    """A number that is no integer of 64 bits; one past all floating numbers is no JSON."""
    number = float(numeral)
    if math.isinf(number):
        raise ValueError()
    return number


def no_constant(_):
    raise ValueError()


def object_of(pairs):
    """An object, unless a member is repeated."""
    if len({name for name, _ in pairs}) < len(pairs):
        raise Unsure()
    return dict(pairs)


def is_plain(value, depth=1):
    """Whether a value is nested at most 127 deep and has no half of a character pair in its texts."""
    if isinstance(value, str):
        return not any("\ud800" <= character <= "\udfff" for character in value)
    if isinstance(value, dict):
        return depth <= DEEPEST and all(is_plain(name) and is_plain(one, depth + 1) for name, one in value.items())
    return not isinstance(value, list) or depth <= DEEPEST and all(is_plain(one, depth + 1) for one in value)


def json_value(content, file):
    """The value of a JSON text."""
    try:
        value = json.loads(without_mark(content).decode(), parse_int=integer, parse_float=fraction,
                           parse_constant=no_constant, object_pairs_hook=object_of)
    except (ValueError, RecursionError):
        raise refusal(file, "not JSON") from None
    if not is_plain(value):
        raise refusal(file, "not JSON")
    return value


class Walk:
    """Walks a document along the sets of a schema and takes down its facts, up to the first fault."""

    def __init__(self, tables, file):
        self.tables, self.file, self.facts = tables, file, []

    def objects(self, number, value, path, identity, up):
        """A list of objects of a set."""
        if not isinstance(value, list):
            raise refusal(self.file, "wrong shape at " + path)
        for position, one in enumerate(value):
            here = "%s.%d" % (identity, position) if up is not None else "#%d" % position
            self.object(number, one, "%s/%d" % (path, position), here, up)

    def object(self, number, value, path, identity, up):
        """One object: unknown members, columns, inner sets."""
        table = self.tables[number]
        if not isinstance(value, dict):
            raise refusal(self.file, "wrong shape at " + path)
        inner_names = [inner.name for inner in table.tree.inner]
        for name in sorted(value):
            if name not in table.tree.columns and name not in inner_names:
                raise refusal(self.file, "unknown member at %s/%s" % (path, name))
        texts = [self.text(value.get(column), "%s/%s" % (path, column)) for column in table.tree.columns]
        before = ([identity] if table.inner else []) + ([up] if up is not None else [])
        self.facts.append((number, tuple(before + texts)))
        for inner, name in zip(table.inner, inner_names):
            if value.get(name) is not None:
                self.objects(inner, value[name], "%s/%s" % (path, name), identity, identity)

    def text(self, value, path):
        """The text that a column's member stands for."""
        if value is None:
            return ""
        if isinstance(value, bool):
            return "true" if value else "false"
        if isinstance(value, float):
            raise refusal(self.file, "number at " + path)
        if isinstance(value, (dict, list)):
            raise refusal(self.file, "wrong shape at " + path)
        return str(value)


def document_facts(content, tables, root, file):
    """The facts of a document, or its first fault."""
    walk = Walk(tables, file)
    walk.objects(root, json_value(content, file), "", "#", None)
    return walk.facts
