"""The parts of a mapping text or of a drawing as data for the page, each with its place, as far as they can be read.

What clio makes of the text is said by clio alone."""
from ..mapping import tree
from ..mapping.parser import parse
from ..mapping.printing import printed_step, printed_test
from ..mapping.schema import schema_of
from .units import Units

Data = dict[str, object]


class Outline:
    """A text as far as it can be read; notes are read in any text."""

    def __init__(self, content: bytes) -> None:
        self.content = content
        self.tree, self.faults = parse(content, drawing=True)
        end = self.tree.target.end
        kinds = [token.kind for token in self.tree.tokens if token.start < end]
        self.is_read = self.tree.target.start < end and kinds.count("{") == kinds.count("}") \
            and not any(fault.start < end for fault in self.faults)

    @property
    def fault(self) -> str | None:
        """What is wrong first."""
        return self.faults[0].said if self.faults else None

    @property
    def has_notes(self) -> bool:
        """Whether it says what only a drawing can say."""
        parts = self.tree
        return bool(parts.rows or parts.lookups) or any(not one.is_plain for one in parts.lines) \
            or any(not one.is_plain for one in parts.rules)

    @property
    def is_drawing(self) -> bool:
        """Whether it has notes, or refs in a circle, which only a drawing can have."""
        return self.has_notes or self._has_circles()

    def _has_circles(self) -> bool:
        sides = [schema_of(self.tree.source, "source", True), schema_of(self.tree.target, "target", True)]
        return any(link.circular for side in sides for table in side.schema.tables for link in table.links)

    def side(self, name: str) -> list[tree.SetText]:
        """The sets of a side, each before its inner ones."""
        return (self.tree.source if name == "source" else self.tree.target).every()

    def as_data(self) -> Data:
        """All of it, with the places that a browser counts."""
        at = Units(self.content)
        parts = self.tree
        return {
            "readable": self.is_read, "fault": self.fault, "version": parts.version, "drawing": self.is_drawing,
            "source": [_set(one, at) for one in parts.source.sets] if self.is_read else None,
            "target": [_set(one, at) for one in parts.target.sets] if self.is_read else None,
            "lines": [_line(one, at) for one in parts.lines],
            "conditions": [{"at": at.span(one.start, one.end), "column": [one.place.set.text, one.place.column.text],
                            "test": one.test.text} for one in parts.conditions],
            "rules": [{"at": at.span(one.start, one.end), "text": self.text(one)} for one in parts.rules],
            "rows": [_rows(one, at) for one in parts.rows],
            "lookups": [word.text for word in parts.lookups],
        }

    def text(self, part: tree.Part) -> str:
        """What is written."""
        return self.content[part.start:part.end].decode("utf-8", "replace")


def _set(one: tree.SetText, at: Units) -> Data:
    return {
        "name": one.name.text, "at": at.span(one.name.start, one.name.end),
        "columns": [{"name": word.text, "at": at.span(word.start, word.end)} for word in one.columns],
        "keys": [[word.text for word in key.columns] for key in one.keys],
        "deps": [[[word.text for word in dep.columns], [word.text for word in dep.decided]]
                 for dep in one.dependencies],
        "refs": [{"own": [word.text for word in ref.columns], "set": ref.set.text,
                  "referred": [word.text for word in ref.referred], "optional": ref.optional is not None,
                  "at": at.span(ref.start, ref.end)} for ref in one.refs],
        "inner": [_set(inner, at) for inner in one.inner],
    }


def _line(one: tree.Line, at: Units) -> Data:
    """A line; a whole set is a column without a name."""
    return {
        "at": at.span(one.start, one.end), "literal": one.literal.text if one.literal else None,
        "conversion": one.conversion.text if one.conversion else None,
        "columns": [[each.set.text, each.column.text if each.column else None] for each in one.arguments],
        "by": [_steps(each.by) for each in one.arguments], "target": [one.target.set.text, one.target.column.text],
        "from": one.source.text if one.source else None, "where": _tests(one.tests),
    }


def _rows(one: tree.Rows, at: Units) -> Data:
    return {"at": at.span(one.start, one.end), "target": one.target.text, "source": one.source.text,
            "by": _steps(one.by), "with": [_steps(must) for must in one.musts], "where": _tests(one.tests)}


def _steps(steps: tuple[tree.Step, ...]) -> str:
    return ".".join(map(printed_step, steps))


def _tests(tests: tuple[tree.Test, ...]) -> str:
    return ", ".join(map(printed_test, tests))


def as_data(text: str) -> Data:
    """The outline of a text."""
    return Outline(text.encode()).as_data()
