"""All clashes of a mapping and its source, each with the source rows behind its texts."""
import re
from collections.abc import Iterator

from clio_tools.explain.causes import shown_ref
from clio_tools.explain.drawn import PRINTED
from clio_tools.explain.joins import Matches, TooMany
from clio_tools.explain.key_chase import Canonical, Cells, Clash, KeyChase, KeyStep, Origin, Value
from clio_tools.explain.pieces import Piece, RowLine
from clio_tools.explain.program import mapping_of
from clio_tools.explain.said import amount, listed, shown, visible
from clio_tools.explain.source import Source
from clio_tools.mapping.meaning import Mapping
from clio_tools.mapping.rules import LITERAL
from clio_tools.mapping.tables import Columns, Table

IN_FULL = 50  # keys of which clashes are told with their rows
IN_ALL = 1000  # clashes that are told at all
TEXTS = 8  # texts that are told with their rows, of all clashes of the same rows
OF_EMPTY_KEY = 2  # the same, if they meet in a key with nothing in it: what to do is said already
ROWS = 3  # rows that are told of one text
STRING = r'("[^"\\]*(?:\\.[^"\\]*)*")'
FORM = re.compile(rf"clash: table (\w+), key \(([#\w, ]+)\): {STRING} and {STRING} in column ([#\w]+)", re.DOTALL)


class Clashes:
    """The clashes, and what is needed to tell them."""

    def __init__(self, mapping: Mapping, printed: list[str], is_drawn: bool = False) -> None:
        """The clashes of a mapping; of one that is printed from a drawing, in which a set that a rule has twice is
        meant.
        """
        self.mapping, self.printed, self.is_drawn = mapping, printed, is_drawn
        self.source = Source(mapping)
        matches = [Matches(rule, self.source) for rule in mapping.rules]
        self.canonical = Canonical(mapping.rules, matches, mapping.target)
        self.matches = matches
        self.chase = KeyChase(self.canonical.rows, mapping.target)
        self.clashes = self.chase.clashes()

    def ordered(self, message: str) -> list[Clash]:
        """The clashes, first those that the message tells."""
        told = FORM.fullmatch(message)
        if not told:
            return self.clashes
        names = (told[1], told[2].split(", "), told[5])
        texts = {plain(told[3]), plain(told[4])}

        def is_told(clash: Clash) -> bool:
            return self.names(clash) == names and texts <= set(clash.texts)

        return sorted(self.clashes, key=lambda clash: not is_told(clash))

    def names(self, clash: Clash) -> tuple[str, list[str], str]:
        """The names of a clash's table, of its key's columns and of its column."""
        table = self.mapping.target[clash.table]
        return table.name, [table.columns[column] for column in self.left(clash)], table.columns[clash.column]

    def left(self, step: Clash | KeyStep) -> Columns:
        """The columns of the key, or the left ones of the dependency, of a clash or a step."""
        return self.chase.determinations[step.table][step.key][0]

    def pieces(self, message: str) -> Iterator[Piece]:
        """All clashes in words."""
        ordered = self.ordered(message)
        yield (f"{amount(len(ordered), 'clash', 'clashes')} in all: rows that agree on a key{self.or_dependency()} and"
               " have different texts in a column")
        if ordered:
            yield from self.causes(ordered[0])
        left: dict[tuple[int, int, Cells], int] = {}
        for number, clash in enumerate(ordered[:IN_ALL]):
            table, key, column = self.names(clash)
            agreed = ", ".join(f"{name} = {self.shown_value(value)}" for name, value in zip(key, clash.agreed))
            texts = list(clash.texts)
            yield (f"{number + 1}. {table}, {agreed}: column {column} has {amount(len(texts), 'text')}: "
                   + ", ".join(map(shown, texts[:4])) + (", .." if len(texts) > 4 else ""))
            group = (clash.table, clash.key, clash.agreed)
            if group in left or len(left) < IN_FULL:
                told = texts[:left.setdefault(group, TEXTS if any(clash.agreed) else OF_EMPTY_KEY)]
                left[group] -= len(told)
                for text in told:
                    yield from self.of_text(clash, text)
                if told:
                    yield from self.of_nulls(clash)
        if len(ordered) > IN_ALL:
            yield f"and {len(ordered) - IN_ALL:,} more"

    def causes(self, clash: Clash) -> Iterator[str]:
        """What makes the texts of a clash meet: a key with nothing in it, or of the mapping a text of its own, or a set
        that a rule has twice, if that isn't meant.
        """
        table, key, column = self.names(clash)
        if not any(clash.agreed):
            yield (f"cause: {listed(key)} is empty in these rows, and equal empty texts make rows one: a line of a"
                   " drawing leaves it open there by `where COLUMN filled` (man clio-rules); in mapping 2, `only"
                   " SET.COLUMN filled;` leaves such rows out")
            return
        origins = [self.canonical.origins[clash.table][rows[0]][0] for rows in clash.texts.values()]
        cells = [self.mapping.rules[one.rule].conclusion[one.atom].cells[clash.column] for one in origins]
        literals = dict.fromkeys(str(cell.content) for cell in cells if cell.kind == LITERAL)
        for text in literals:
            rules = listed(str(number) for number, rule in enumerate(self.mapping.rules)
                           if any(atom.table == clash.table and atom.cells[clash.column] == (LITERAL, text)
                                  for atom in rule.conclusion))
            yield (f"cause: {shown(text)} is a text of the mapping: its line fills {table}.{column} in each rule that"
                   f" no other line fills there, so in rules {rules}: make the key hold apart what these rules make,"
                   " or say in a drawing for which rows it is, by `from` or `where` (man clio-rules)")
        used = dict.fromkeys(one.rule for one in origins if not self.is_drawn)
        twice = [line for number in used for line in self.twice(number)]
        yield from twice
        if len({one.rule for one in origins}) > 1 and not literals and not twice:
            rules = listed(dict.fromkeys(str(one.rule) for one in origins))
            yield f"cause: rules {rules} both fill {table}.{column}, from sources that do not agree"

    def twice(self, number: int) -> Iterator[str]:
        """A set that a rule has twice on its left, or on its right, with the refs that lead there."""
        rule = self.mapping.rules[number]
        sides: list[tuple[str, list[Table], list[int]]] = [
            ("left", self.mapping.source, [atom.table for atom in rule.premise]),
            ("right", self.mapping.target, [atom.table for atom in rule.conclusion])]
        for side, tables, numbers in sides:
            for double in [one for one in dict.fromkeys(numbers) if numbers.count(one) > 1]:
                refs = [shown_ref(tables, one, link) for one in dict.fromkeys(numbers)
                        for link in tables[one].every_link() if link.table == double]
                yield (f"cause: rule {number} has {tables[double].name} {amount(numbers.count(double), 'time')} on its"
                       f" {side}, by {' and '.join(refs) or 'its text'}: values of different rows there meet in one"
                       " row: leave out a ref, or write rules")

    def or_dependency(self) -> str:
        """What else rows may agree on."""
        is_there = any(table.tree.dependencies for table in self.mapping.target)
        return ", or on the left of a dependency," if is_there else ""

    def shown_value(self, value: Value) -> str:
        return "?%d.%d.%d" % value if isinstance(value, tuple) else shown(value)

    def of_text(self, clash: Clash, text: str) -> Iterator[Piece]:
        """The rows that have a text, with the source rows that they are from."""
        rows = clash.texts[text]
        for row in rows[:ROWS]:
            origin = self.canonical.origins[clash.table][row][0]
            yield f"   {shown(text)} by rule {origin.rule}: {visible(self.printed[origin.rule])[:300]}"
            yield from self.sources(origin)
        if len(rows) > ROWS:
            yield f"   {shown(text)} in {len(rows) - ROWS} more"

    def sources(self, origin: Origin) -> Iterator[RowLine]:
        """The source rows of the first match that gives a tuple."""
        chosen = self.matches[origin.rule].found[origin.tuple][0]
        rule = self.mapping.rules[origin.rule]
        rows = dict.fromkeys((atom.table, row) for atom, row in zip(rule.premise, chosen))
        for place, (table, row) in enumerate(rows):
            yield RowLine("       and " if place else "      from ", self.source.row(table, row))

    def of_nulls(self, clash: Clash) -> Iterator[Piece]:
        """How the nulls in the key of a clash's rows became what they are."""
        told: set[Value] = set()
        for row in [rows[0] for rows in clash.texts.values()][:4]:
            for column in (*self.left(clash), clash.column):
                yield from self.of_value(self.canonical.rows[clash.table][row][column], told)

    def of_value(self, value: Value, told: set[Value]) -> Iterator[Piece]:
        """The key steps that replaced a null, one after the other."""
        while value in self.chase.steps and value not in told and len(told) < 12:
            told.add(value)
            step = self.chase.steps[value]
            table = self.mapping.target[step.table]
            key = ", ".join(table.columns[column] for column in self.left(step))
            yield (f"   {self.shown_value(value)} is {self.shown_value(step.value)}, since two rows of {table.name}"
                   f" agree on ({key}):")
            for row in step.rows:
                yield from self.sources(self.canonical.origins[step.table][row][0])
            for row in step.rows:
                for column in self.left(step):
                    yield from self.of_value(self.canonical.rows[step.table][row][column], told)
            value = step.value


def plain(literal: str) -> str:
    """The text of a string of a message, in which `\\u{..}` is a character that was not printed."""
    return re.sub(r"\\(?:u\{([0-9a-f]+)\}|(.))", lambda found: found[2] or chr(int(found[1], 16)), literal[1:-1],
                  flags=re.DOTALL)


def explain(message: str, content: bytes) -> Iterator[Piece]:
    """The lines that explain a clash."""
    mapping, printed = mapping_of(content)
    if mapping is None:
        return
    try:
        yield from Clashes(mapping, printed, bool(PRINTED.match(content))).pieces(message)
    except TooMany:
        yield "the matches of the rules are too many to look for all clashes here"
