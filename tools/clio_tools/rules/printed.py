"""The mapping text that a drawing means: its own schemas, the sets that tests and lookups take, and rules."""
import hashlib
import re
from typing import Iterator, NamedTuple, Optional, Sequence

from ..mapping import tree
from ..mapping.places import Fault
from ..mapping.printing import printed_rule, quoted
from ..mapping.schema import Table
from .lines_alone import circular_refs, conditions_of, rules_without_notes
from .model import Drawing, Made
from .naming import TestSets
from .remarks import Comments
from .saying import said
from .spelling import Spelling, with_all_cells
from .variants import refs_past_limit

FOR_TESTS = re.compile(r"^  set (\w+) \{ .* \}  // \1\.csv (?:holds the one text \"|is \w+\.csv$)", re.MULTILINE)


class Origin(NamedTuple):
    """What led to a rule: the rule in words, and the statements of the drawing."""

    words: str
    statements: Sequence[tree.Item]


class Printed:
    """The text, the files that it takes, and the rules with the words for each. With `aside` the faults of sets without
    `rows` are put there, and the text says nothing of these sets, and has rules in place of lines in any case."""

    def __init__(self, drawing: Drawing, aside: Optional[list[Fault]] = None) -> None:
        self.drawing, self.sets = drawing, TestSets(drawing.source)
        self.comments = Comments(drawing.tree)
        self.rules = [Spelling(drawing, self.sets, made).spelled() for made in drawing.made]
        self.left_out = circular_refs(drawing)
        self.unnoted: list[tree.Rule] = []
        self.aside = aside
        self.text = self._whole()

    def origins(self) -> list[Origin]:
        """Of each rule of the text, in its order, what led to it; none if the text is the drawing itself."""
        if not self.left_out and self.text == self.drawing.tree.content.decode("utf-8"):
            return []
        lines = self.drawing.tree.lines
        alone = [Origin(f"{name}: what lines alone say", [line for line in lines if line.target.set.text == name])
                 for name in (rule.conclusion[0].name.text for rule in self.unnoted)]
        noted = [Origin(said(self.drawing, made), [*([made.rows.note] if made.rows.note else []), *made.lines])
                 for made in self.drawing.made]
        return alone + noted + [Origin("a rule of the drawing", [rule]) for rule in self.drawing.tree.rules]

    def _whole(self) -> str:
        """The whole text, below the line that names the drawing."""
        parsed = self.drawing.tree
        if self.aside is None and not self.drawing.rows and not self.left_out \
                and all(rule.is_plain for rule in parsed.rules):
            return parsed.content.decode("utf-8")
        many = refs_past_limit(self.drawing, self.left_out)
        return self._head(self.left_out + many) + "\n" + "\n".join(self._items()) + "\n"

    # --- schemas -----------------------------------------------------------------------------------------------------

    def _head(self, left_out: list[tree.Ref]) -> str:
        """The drawing up to the end of its target, with what the mapping has otherwise."""
        parsed = self.drawing.tree
        edits: list[tuple[int, int, str]] = []
        if self.sets.copies and parsed.version == 1:
            edits.append((parsed.version_at.start, parsed.version_at.end, "2"))
        for ref in left_out:
            words = " ".join(parsed.content[ref.start:ref.end].decode("utf-8").split())
            edits.append((ref.start, ref.end, f"// only in the drawing: {words}\n    "))
        edits += self._more(parsed.source, list(self._test_sets()))
        edits += self._more(parsed.target, list(self._lookup_sets()))
        head = parsed.content[:parsed.target.end]
        for start, end, new in sorted(edits, reverse=True):
            head = head[:start] + new.encode() + head[end:]
        return head.decode("utf-8") + "\n"

    def _more(self, side: tree.Side, lines: list[str]) -> list[tuple[int, int, str]]:
        """The edit that puts sets in front of the brace that closes a side."""
        if not lines:
            return []
        at = side.end - 1
        own_line = self.drawing.tree.content[:at].rstrip(b" \t").endswith(b"\n")
        return [(at, at, ("" if own_line else "\n") + "".join(line + "\n" for line in lines))]

    def _test_sets(self) -> Iterator[str]:
        for text, name in self.sets.texts.items():
            yield f"  set {name} {{ text; }}  // {name}.csv holds the one text {quoted(text)}"
        for (number, _), name in self.sets.copies.items():
            table = self.drawing.source.tables[number]
            yield f"  set {name} {{ {', '.join(table.columns)}; }}  // {name}.csv is {table.name}.csv"

    def _lookup_sets(self) -> Iterator[str]:
        for rows in self.drawing.looked_up.values():
            table = self.drawing.target_of(rows)
            key = ", ".join(table.named(table.keys[0]))
            yield (f"  set {table.name} {{ {', '.join(table.columns)}; key ({key}); }}  // the "
                   f"{self.drawing.source_of(rows).name} that links look up")

    # --- rules -------------------------------------------------------------------------------------------------------

    def _items(self) -> Iterator[str]:
        self.unnoted = unnoted = rules_without_notes(self.drawing, self.aside)
        if unnoted:
            yield "// What lines alone say of sets without `rows`."
            yield from self._comments_of_unnoted()
            yield from map(printed_rule, unnoted)
            yield ""
        last: Optional[Made] = None
        for made, rule in zip(self.drawing.made, self.rules):
            if last and last.rows is not made.rows:
                yield ""
            last = made
            yield from self.comments.of([*([made.rows.note] if made.rows.note and not made.extra.ways
                                          and not made.extra.tests else []), *made.lines])
            yield "// " + said(self.drawing, made)
            yield rule
        yield from self._conditions()
        yield from self._by_hand()
        yield from self.comments.rest()

    def _comments_of_unnoted(self) -> Iterator[str]:
        noted = {self.drawing.targets[number].name for number in self.drawing.noted}
        yield from self.comments.of([line for line in self.drawing.tree.lines if line.target.set.text not in noted])

    def _conditions(self) -> Iterator[str]:
        """The conditions on second names of sets, which have those of the set itself, too."""
        for (number, tests), name in self.sets.copies.items():
            table: Table = self.drawing.source.tables[number]
            yield from (f"only {name}.{table.columns[column]} {test};" for column, test in tests)
            for one in conditions_of(self.drawing, table.name):
                yield f"only {name}.{one.place.column.text} {one.test.text};"

    def _by_hand(self) -> Iterator[str]:
        """Conditions and rules of the drawing, as they are written; a rule with named cells gets all cells."""
        parsed, first = self.drawing.tree, True
        source = {table.name: table for table in self.drawing.source.tables}
        target = {table.name: table for table in self.drawing.targets}
        for item in parsed.items:
            if not isinstance(item, (tree.Only, tree.Rule)):
                continue
            if first:
                yield ""
            first = False
            yield from self.comments.of([item])
            written = parsed.content[item.start:item.end].decode("utf-8")
            plain = not isinstance(item, tree.Rule) or item.is_plain
            yield written if plain or not isinstance(item, tree.Rule) else with_all_cells(item, source, target)


def marked(text: str, name: str) -> str:
    """A printed mapping with its first line, which names its drawing and has the sum of what is below."""
    return f"// Printed by clio-rules from {name}: change that. Sum {sum_of(text)}\n{text}"


def sum_of(text: str) -> str:
    """The sum by which an edit of a printed mapping is seen."""
    return hashlib.sha256(text.encode("utf-8")).hexdigest()[:16]


def is_as_printed(content: str) -> Optional[bool]:
    """Whether a mapping is one that was printed and not edited since; None if it wasn't printed."""
    first, _, rest = content.partition("\n")
    if not first.startswith("// Printed by clio-rules from "):
        return None
    return first.endswith(f" Sum {sum_of(rest)}")


def sets_for_tests(content: str) -> set[str]:
    """The source sets that a mapping which was printed has for the tests of its drawing."""
    return set() if is_as_printed(content) is None else set(FOR_TESTS.findall(content))
