"""What a refusal of the mapping text leaves out: the line, the word, and the names that exist there."""
import difflib
import os
import re
from collections.abc import Collection, Iterator, Sized

from clio_tools.explain.pieces import Mark, Piece
from clio_tools.explain.placed import MappingText, is_told, open_marks, possible, token_length
from clio_tools.explain.said import amount, listed, visible
from clio_tools.mapping import tree
from clio_tools.mapping.meanings import CONVERSIONS, TESTS
from clio_tools.mapping.places import Fault
from clio_tools.mapping.schema import schema_of
from clio_tools.mapping.tables import Link, SetTree, Table, Word, tables_of
from clio_tools.mapping.tokens import Token

Sides = dict[str, list[Table]]  # the tables of the source and of the target
CHARACTERS = {
    b"'": "texts are in \", not in '",
    b"#": "a comment begins with //",
    b"-": "a comment begins with //; a name has letters, digits and _ alone; an arrow is ->",
    b">": "an arrow is ->",
    b"/": "a comment begins with //",
    b"\xef": "if this is a byte order mark, take it off: sed -i '1s/^\\xef\\xbb\\xbf//' mapping.clio",
    b"\xff": "the text isn't UTF-8: write it as UTF-8",
    b"\xfe": "the text isn't UTF-8: write it as UTF-8",
    b":": "the marks are { } ( ) , ; . = ->",
}
CALLS = "|".join(CONVERSIONS).encode()
NESTED = re.compile(rb"\b(%b)\s*\([^()]*\b(%b)\s*$" % (CALLS, CALLS))
CURLY = "\u201c\u201d\u201e\u201f\u2018\u2019\u201a\u00ab\u00bb"  # quotes of word processors


def explain(message: str, content: bytes | None) -> Iterator[Piece]:
    """The lines that explain a message `mapping: ..` on the text with these bytes."""
    if content is None:
        yield from absent()
        return
    text = MappingText(content)
    found = re.fullmatch(r"mapping: (.*) at byte ([0-9]+)", message)
    if found:
        yield from at_byte(found[1], int(found[2]), text, message)
        return
    found = re.fullmatch(r"mapping: (source|target): (.*?) ([A-Za-z_][A-Za-z0-9_]*|#id|#up)", message)
    if found and not text.fault:
        yield from of_sets(found[1], found[2], found[3], text)


def absent() -> Iterator[str]:
    """There is no mapping.clio."""
    yield f"clio reads mapping.clio in the folder where it is started: {visible(os.getcwd())}"
    if os.path.islink("mapping.clio"):
        yield f"mapping.clio is a link to {visible(os.readlink('mapping.clio'))}, which isn't there"
    alike = mappings_here()
    if "drawing.clio" in alike:
        yield "there is drawing.clio: clio-rules --write makes mapping.clio of it"
    elif alike:
        yield f"there is {listed(alike)}: rename it, or link it: ln -s {visible(alike[0])} mapping.clio"
    below = [name for name in sorted(os.listdir(".")) if os.path.isfile(os.path.join(name, "mapping.clio"))]
    if below:
        yield f"these folders have one: {listed(below)}"


def mappings_here() -> list[str]:
    """The other files of this folder that are mapping texts."""
    found = []
    for name in sorted(os.listdir(".")):
        if name.lower().endswith(".clio") and name not in ("mapping.clio", "other.clio") and os.path.isfile(name):
            with open(name, "rb") as file:
                if re.match(rb"(\s|//[^\n]*\n)*mapping\s", file.read(4096)):
                    found.append(name)
    return found


def at_byte(kind: str, place: int, text: MappingText, message: str) -> Iterator[Piece]:
    """A fault at a byte: its line with carets, then what stands in its place or what exists."""
    yield Mark(text.content, place, token_length(text.content, place))
    if kind in ("unexpected token", "text ended") and text.fault and is_told(text.fault, kind, place):
        yield from of_place(text.content, place) or of_token(text.fault)
    if kind == "text ended":
        yield from unclosed(text.content)
    elif kind == "bad character":
        yield from of_character(text.content, place)
    elif kind in ("unknown name", "wrong number of cells", "unsafe variable") and not text.fault:
        yield from of_name(place, text)


def of_place(content: bytes, place: int) -> list[str]:
    """What is often meant at a place where it can't be: a test in a rule, or a conversion in another one."""
    before = re.split(rb";|}", content[:place])[-1]
    if content[place:place + 1] == b"(" and NESTED.search(before):
        return ["conversions can't be nested: one takes columns alone (in a rule variables)"]
    in_rule, is_right = re.match(rb"\s*(//[^\n]*\n\s*)*rule\b", before), b"->" in before
    if in_rule and not is_right and content[place:place + 1] == b'"':
        return ["a rule has no test of a text: its left side has variables alone, and after `where` conversions",
                f"a column of the source is tested by `only SET.COLUMN TEST;`, with one of the tests {listed(TESTS)}"
                " (mapping 2); for any other test leave rows out before"]
    return []


def of_token(fault: Fault) -> Iterator[str]:
    """What could be in the place of a word that can't be there, or which version takes it."""
    if fault.expected:
        yield possible(fault)
    if not fault.said.startswith(("unexpected ", "the text ends")):
        yield fault.said


def unclosed(content: bytes) -> Iterator[Piece]:
    """What is open at the end of the text."""
    opened, string = open_marks(content)
    if string is not None:
        yield "this text in quotes isn't closed:"
        yield Mark(content, string)
    elif opened:
        yield f"{amount(len(opened), 'bracket')} not closed; the last one:"
        yield Mark(content, opened[-1])


def of_character(content: bytes, place: int) -> Iterator[str]:
    """A byte at which no token begins, or that can't be in a text."""
    byte = content[place:place + 1]
    if not byte:
        return
    if content[place:place + 2] == b"--":
        yield "a comment begins with //"
        return
    sign = content[place:place + 4].decode("utf-8", "ignore")[:1]
    if sign and sign in CURLY:
        yield f"texts are in straight quotes, \", and this is {sign}"
        return
    more = f"; {CHARACTERS[byte]}" if byte in CHARACTERS else ""
    yield f"the byte {byte.hex()} begins nothing that can be here{more}"
    if content[place - 1:place] == b"\\":
        yield 'in a text in quotes \\" and \\\\ are the only escapes'
    elif byte < b" ":
        yield "a text in quotes is on one line, without tabs and other control characters"
    elif byte >= b"\x80":
        yield "names are of the letters A to Z and a to z, digits and _; texts in quotes are UTF-8"


def of_name(place: int, text: MappingText) -> Iterator[str]:
    """Says what exists where a name of a line or a rule isn't known or doesn't fit."""
    tables = {"source": tables_of(text.source), "target": tables_of(text.target)}
    for line in text.lines:
        if line.conversion and line.conversion.start == place:
            yield from of_conversion(line.conversion, line.arguments)
        ends: list[tuple[str, tree.Argument | tree.Place]] = [("source", one) for one in line.arguments]
        for side, one in [*ends, ("target", line.target)]:
            if one.set.start == place:
                yield from of_set(one.set.text, side, tables)
            elif one.column and one.column.start == place:
                table = next(table for table in tables[side] if table.name == one.set.text)
                yield from close_ones(f"the columns of {table.name}", one.column.text, table.tree.columns)
    for condition in text.conditions:
        yield from of_condition(place, condition, tables["source"])
    for rule in text.rules:
        for side, atoms in ("source", rule.premise), ("target", rule.conclusion):
            for atom in atoms:
                if atom.name.start == place:
                    yield from of_atom(atom, side, tables)
        yield from of_derived(rule, place)


def of_condition(place: int, condition: tree.Only, tables: list[Table]) -> Iterator[str]:
    """A condition whose set, column or test isn't there."""
    if condition.place.set.start == place:
        yield from close_ones("the sets of the source", condition.place.set.text, [table.name for table in tables])
    elif condition.place.column.start == place:
        table = next(table for table in tables if table.name == condition.place.set.text)
        yield from close_ones(f"the columns of {table.name}", condition.place.column.text, table.tree.columns)
    elif condition.test.start == place:
        yield from close_ones("the tests", condition.test.text, TESTS)


def of_set(name: str, side: str, tables: Sides) -> Iterator[str]:
    """A set that this side doesn't have."""
    other = "target" if side == "source" else "source"
    if any(table.name == name for table in tables[other]):
        yield f"{name} is a set of the {other}: lines and rules go from the source to the target"
    yield from close_ones(f"the sets of the {side}", name, [table.name for table in tables[side]])


def of_atom(atom: tree.Atom, side: str, tables: Sides) -> Iterator[str]:
    """An atom of a set that isn't there, or with too few or too many cells."""
    table = next((table for table in tables[side] if table.name == atom.name.text), None)
    if table is None:
        yield from of_set(atom.name.text, side, tables)
        return
    yield (f"{amount(len(atom.cells), 'cell')} for {amount(len(table.columns), 'column')}:"
           f" {table.name}({listed(table.columns, 64)})")
    yield f"cells here: {listed((cell.value.text for cell in atom.cells), 64)}"


def of_conversion(name: Token, arguments: Sized) -> Iterator[str]:
    """A conversion that isn't there, or with too few or too many columns."""
    if name.text in CONVERSIONS:
        yield f"{name.text} takes {amount(CONVERSIONS[name.text].arity, 'column')}, and here are {len(arguments)}"
        return
    yield from close_ones("the conversions", name.text, CONVERSIONS)


def of_derived(rule: tree.Rule, place: int) -> Iterator[str]:
    """What is wrong after `where`."""
    variables = list(dict.fromkeys(cell.value.text for atom in rule.premise for cell in atom.cells))
    taken = list(variables)
    for one in rule.derived:
        if one.name.start == place:
            yield f"{one.name.text} is taken already; taken are {listed(taken)}"
        if one.call.name.start == place:
            yield from of_conversion(one.call.name, one.call.cells)
        if any(cell.start == place for cell in one.call.cells):
            yield f"a conversion takes variables of the rule's left side: {listed(variables)}"
        taken.append(one.name.text)


def close_ones(what: str, name: str, names: Collection[str]) -> Iterator[str]:
    """The names that exist, and the one that is most like this one."""
    yield f"{what}: {listed(names, 64) or 'none'}"
    lower = {one.lower(): one for one in names}
    alike = difflib.get_close_matches(name.lower(), lower, 1)
    if alike:
        yield f"perhaps {lower[alike[0]]}"


def of_sets(side: str, kind: str, name: str, text: MappingText) -> Iterator[Piece]:
    """A fault of the sets, keys and refs of a side."""
    trees = text.side(side)
    if kind in ("reserved name", "bad link in", "cyclic links at"):
        one = next(one for one in trees if one.name == name)
        yield Mark(text.content, one.name.start, len(name))
        if kind == "reserved name":
            yield "clio writes files of its own called nulls.csv and fold.csv"
        elif kind == "bad link in":
            yield from uneven(one)
        else:
            yield "the circle: " + circle(tables_of(text.source if side == "source" else text.target), name)
        return
    faults = schema_of(text.tree.source if side == "source" else text.tree.target, side).faults
    place = next((fault.start for fault in faults if fault.kind == kind), None)
    if place is None:
        return
    yield Mark(text.content, place, len(name))
    if kind == "double name":
        yield from first_of(place, name, trees, text.content)
    elif kind == "unknown name":
        yield from known_there(place, name, trees)


def first_of(place: int, name: str, trees: list[SetTree], content: bytes) -> Iterator[Piece]:
    """Where a name that is there twice is for the first time."""
    lists: list[list[Word]] = [[one.name for one in trees]]
    for one in trees:
        lists += [one.columns + [inner.name for inner in one.inner], *one.keys]
        for dependency in one.dependencies:
            lists += [dependency.left, dependency.right]
        for reference in one.references:
            lists += [reference.own, reference.referred]
    for names in lists:
        if any(word.start == place for word in names):
            first = next(word for word in names if word == name)
            if first.start != place:
                yield "it is there already:"
                yield Mark(content, first.start, len(first))
                return


def known_there(place: int, name: str, trees: list[SetTree]) -> Iterator[str]:
    """The columns or sets that a key, a dependency or a ref could name."""
    named = {str(one.name): one for one in trees}
    for one in trees:
        sides = [side for dependency in one.dependencies for side in dependency]
        for key in one.keys + sides + [reference.own for reference in one.references]:
            if any(word.start == place for word in key):
                yield from close_ones(f"the columns of {one.name}", name, one.columns)
        for reference in one.references:
            if reference.name.start == place:
                yield from close_ones("the sets of this side", name, [other.name for other in trees])
            elif any(word.start == place for word in reference.referred):
                yield from close_ones(f"the columns of {reference.name}", name, named[reference.name].columns)


def uneven(one: SetTree) -> Iterator[str]:
    """The refs of a set that have more columns on one side than on the other."""
    for reference in one.references:
        if len(reference.own) != len(reference.referred):
            yield (f"ref ({listed(reference.own)}) -> {reference.name} ({listed(reference.referred)}): "
                   f"{amount(len(reference.own), 'column')} and {len(reference.referred)}")


def circle(tables: list[Table], name: str) -> str:
    """A way along links from a table back to it."""
    start = next(number for number, table in enumerate(tables) if table.name == name)
    before: dict[int, tuple[int, Link]] = {}
    left = [start]
    while left:
        number = left.pop(0)
        for link in tables[number].every_link():
            if link.table not in before:
                before[link.table] = (number, link)
                left.append(link.table)
    steps: list[str] = []
    number = start
    while not steps or number != start:
        number, link = before[number]
        own = ", ".join(tables[number].columns[column] for column in link.own)
        steps.append(f"{tables[number].name} ({own})")
    return " -> ".join([*reversed(steps), name])
