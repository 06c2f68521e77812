"""The mapping text read once more, with the place of each of its words."""
from __future__ import annotations

from clio_tools.mapping import tree
from clio_tools.mapping.parser import STRING, WORD, parse
from clio_tools.mapping.places import Fault
from clio_tools.mapping.tables import SetTree, preorder, trees_of
from clio_tools.mapping.tokens import lexed

KINDS = {"version": "unexpected token", "note": "unexpected token"}  # what clio calls these faults


class MappingText:
    """A mapping text as far as it can be read: its parts, or the fault that stops clio's reading."""

    def __init__(self, content: bytes) -> None:
        self.content = content
        parsed = parse(content)
        self.tree = parsed.tree
        self.fault: Fault | None = parsed.faults[0] if parsed.faults else None
        self.source: list[SetTree] = []
        self.target: list[SetTree] = []
        self.lines: list[tree.Line] = []
        self.conditions: list[tree.Only] = []
        self.rules: list[tree.Rule] = []
        if self.fault is None:
            self.source, self.target = trees_of(parsed.tree.source), trees_of(parsed.tree.target)
            self.lines, self.conditions, self.rules = parsed.tree.lines, parsed.tree.conditions, parsed.tree.rules

    def side(self, name: str) -> list[SetTree]:
        """The sets of a side, each before its inner sets."""
        return list(preorder(self.source if name == "source" else self.target))


def is_told(fault: Fault | None, kind: str, place: int) -> bool:
    """Whether clio tells this fault by this kind and byte."""
    return fault is not None and KINDS.get(fault.kind, fault.kind) == kind and fault.start == place


def possible(fault: Fault) -> str:
    """What could be in the place of a fault."""
    return "here can be " + " or ".join(one if one in (WORD, STRING) else f"`{one}`" for one in fault.expected)


def token_length(content: bytes, start: int) -> int:
    """How many bytes the token at a byte has; 1 if none begins there."""
    found = lexed(content[start:start + 4096]).tokens[0]
    return max(found.end - found.start, 1) if found.start == 0 and found.fault is None else 1


def open_marks(content: bytes) -> tuple[list[int], int | None]:
    """The bytes of the marks `{` and `(` that are never closed, and the byte of a string that isn't closed."""
    opened: list[int] = []
    for token in lexed(content).tokens:
        if token.kind == "string" and token.fault:
            return opened, token.start
        if token.kind == "bad" or token.fault:
            break
        if token.kind in ("{", "("):
            opened.append(token.start)
        elif token.kind in ("}", ")") and opened:
            opened.pop()
    return opened, None
