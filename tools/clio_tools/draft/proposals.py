"""Notes of a drawing that names and texts suggest, as comments: from which set the rows of a target set come, and
lines."""
import re
from typing import Iterator, Optional

from clio_tools.draft import model
from clio_tools.draft.texts import Texts
from clio_tools.mapping.parser import parse
from clio_tools.mapping.schema import Schema, Table, schema_of
from clio_tools.program import Refused
from clio_tools.rules.ways import Step, Ways, spelled

HEAD = "\n// What {} suggest: take away the // of what is meant.\n"


def proposals(source_text: bytes, side: model.Side, texts: Optional[Texts] = None) -> str:
    """The proposed notes for a target side, of a source side as clio-draft printed it."""
    found = re.search(rb"^source \{.*?^\}", source_text, re.M | re.S)
    parsed = parse(b"mapping 3;\n" + (found[0] if found else b"") + b"\ntarget { }\n", drawing=True)
    if parsed.faults or not found:
        raise Refused("the file of --lines-from has no source as clio-draft prints it")
    source = schema_of(parsed.tree.source, "source", circles=True).schema
    naming = _Proposing(source, {_plain(table.word) for table in side.tables}, texts)
    notes = [note for table in side.tables if not table.why_not for note in naming.of_set(table)]
    return HEAD.format("names and texts" if texts else "names") + "".join(f"// {note}\n" for note in notes)


class _Proposing:
    """Compares names without regard to case, marks and a plural s, and texts if there are some."""

    def __init__(self, source: Schema, targets: set[str], texts: Optional[Texts]) -> None:
        self.source, self.ways, self.texts = source, Ways(source), texts
        self.free = [table for table in source.tables if _plain(table.name) not in targets]

    def of_set(self, table: model.Table) -> Iterator[str]:
        """The notes for one target set."""
        words = [column.word for column in table.said]
        start = self._alike(table.word, words)
        if start is None:
            yield f"rows {table.word} from ..;"
            return
        yield f"rows {table.word} from {start.name};"
        linked = {column for ref in table.refs for column in ref.words(table)[0]}
        for word in words:
            if word not in linked:
                yield from self._lines(start, table.word, word)

    def _alike(self, name: str, words: list[str]) -> Optional[Table]:
        """The source set that has the name, or else of those without a namesake that with most of the columns, two at
        least."""
        named = [table for table in self.source.tables if _plain(table.name) == _plain(name)]
        if named:
            return named[0]
        wanted = {_plain(word) for word in words}
        counts = [(len(wanted & {_plain(column) for column in table.declared}), -table.number) for table in self.free]
        most, number = max(counts, default=(0, 0))
        return self.source.tables[-number] if most > 1 else self._of_texts(name, words)

    def _of_texts(self, name: str, words: list[str]) -> Optional[Table]:
        """The source set of which most columns have the texts of target columns."""
        counts = [(sum(1 for word in words if self._with_texts(table, name, word)), -table.number)
                  for table in self.free]
        most, number = max(counts, default=(0, 0))
        return self.source.tables[-number] if most else None

    def _with_texts(self, table: Table, target: str, word: str) -> list[str]:
        """The columns of a source set that have the texts of a target column."""
        texts = self.texts
        return [column for column in table.declared if texts and texts.are_alike(table.name, column, target, word)]

    def _lines(self, start: Table, target: str, word: str) -> Iterator[str]:
        """The lines to a column: from one of the same name, or else of the same texts."""
        named = list(self._by_names(start, target, word))
        yield from named or self._by_texts(start, target, word)

    def _by_texts(self, start: Table, target: str, word: str) -> Iterator[str]:
        """The lines from columns with the same texts, of the set itself or of one a step away."""
        for column in self._with_texts(start, target, word):
            yield f"line {start.name}.{column} -> {target}.{word};  // the same texts"
        for step in self.ways.steps[start.number]:
            other = self.source.tables[step.table]
            for column in self._with_texts(other, target, word):
                yield f"line {other.name}.{column} -> {target}.{word} by {spelled((step,))};  // the same texts"

    def _by_names(self, start: Table, target: str, word: str) -> Iterator[str]:
        """The lines from a column of the same name, or of a set one step away, by each step that there is."""
        own = next((column for column in start.declared if _plain(column) == _plain(word)), None)
        if own:
            yield f"line {start.name}.{own} -> {target}.{word};"
            return
        for step in self.ways.steps[start.number]:
            other = self.source.tables[step.table]
            for column in other.declared:
                if _plain(word) in self._names(other, column, step):
                    yield f"line {other.name}.{column} -> {target}.{word} by {spelled((step,))};"

    def _names(self, other: Table, column: str, step: Step) -> set[str]:
        """What a column of a linked row could be called: by itself, with the name of its set, with that of the ref."""
        before = re.sub("(id|code|no|key)$", "", _plain("".join(step.words)))
        return {_plain(column), _plain(other.name) + _plain(column), before + _plain(column)}


def _plain(name: str) -> str:
    """A name without case, marks and a plural s."""
    letters = re.sub("ies$", "y", re.sub("[^a-z0-9]", "", name.lower()))
    return letters[:-1] if letters.endswith("s") and len(letters) > 3 else letters
