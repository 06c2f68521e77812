"""A mapping text that changes by replacing ranges of its bytes: all else, comments and blanks too, stays as it is."""
from ..mapping import tree
from ..mapping.tokens import Token
from .outline import Outline


class CannotEdit(Exception):
    """A change that isn't possible; the text says why."""


class Change:
    """A text and its outline; each replacement leaves the outline as it was, so the last place comes first."""

    def __init__(self, text: str) -> None:
        self.content = text.encode()
        self.outline = Outline(self.content)
        self.shown = (0, 0)  # the bytes that a reader wants to see
        if not self.outline.is_read:
            raise CannotEdit(f"first mend the text: {self.outline.fault or 'it has no two sides'}")

    @property
    def parts(self) -> tree.Tree:
        """The parts of the text before it changed."""
        return self.outline.tree

    def text(self) -> str:
        """The text as it is now."""
        return self.content.decode()

    def replace(self, start: int, end: int, new: str) -> None:
        """Puts a text in the place of some bytes."""
        made = new.encode()
        self.content = self.content[:start] + made + self.content[end:]
        self.shown = (start, start + len(made))

    def swap(self, start: int, end: int, new: str) -> None:
        """Puts a text in the place of some bytes that hold no comment."""
        if self.content[start:end] == new.encode():
            return
        if any(start <= comment.start < end for comment in self.parts.comments):
            raise CannotEdit("a comment is inside of what would change: change the text itself")
        self.replace(start, end, new)

    def tokens_in(self, part: tree.Part) -> list[Token]:
        """The words and marks of a part."""
        return [token for token in self.parts.tokens if part.start <= token.start < part.end]

    def show(self, start: int) -> None:
        """Shows the statement that begins at a byte."""
        found = [one for one in Outline(self.content).tree.items if one.start == start]
        self.shown = (start, found[0].end if found else start)

    def check(self) -> None:
        """Refuses a change after which less of the text can be read."""
        made = Outline(self.content)
        if not made.is_read or len(made.faults) > len(self.outline.faults):
            new = next((one.said for one in made.faults if one not in self.outline.faults), "")
            raise CannotEdit(f"the text couldn't be read any more: {new}")

    def put_after(self, at: int, statement: str, indent: str = "") -> None:
        """A statement on a line of its own behind a byte: behind the comment there if nothing else follows."""
        rest = self.content[at:self._line_end(at)]
        if not rest.strip() or rest.lstrip().startswith(b"//"):
            at = self._line_end(at)
        new = f"\n{indent}{statement}"
        if self.content[at:at + 1] != b"\n":
            new += "\n"
        self.replace(at, at, new)
        begin = at + 1 + len(indent.encode())
        self.shown = (begin, begin + len(statement.encode()))

    def put_before(self, part: tree.Part, statement: str) -> None:
        """A statement on a line of its own in front of a part that begins its line, or else right before it."""
        indent = self.indent(part.start)
        self.replace(part.start, part.start, f"{statement}\n{indent}" if self._begins_line(part.start) else
                     f"{statement} ")
        self.shown = (part.start, part.start + len(statement.encode()))

    def remove(self, part: tree.Part) -> None:
        """Takes out a statement, with its line of text if nothing else is there. A comment stays."""
        start, end = part.start, part.end
        after = self.content[end:self._line_end(end)]
        if self._begins_line(start) and not after.strip():
            start, end = self._line_start(start), min(self._line_end(end) + 1, len(self.content))
        elif self._begins_line(start):
            end += len(after) - len(after.lstrip())
        self.replace(start, end, "")

    def indent(self, at: int) -> str:
        """The blanks before a statement that begins its line of text."""
        return self.content[self._line_start(at):at].decode() if self._begins_line(at) else ""

    def at_least(self, version: int) -> None:
        """Raises the version of the text; done last, since it is in front of all else."""
        word = self.parts.version_at
        if self.parts.version < version:
            start, end = self.shown
            self.replace(word.start, word.end, str(version))
            more = len(str(version)) - (word.end - word.start)
            self.shown = (start + more, end + more)

    def _begins_line(self, at: int) -> bool:
        return not self.content[self._line_start(at):at].strip(b" \t")

    def _line_start(self, at: int) -> int:
        return self.content.rfind(b"\n", 0, at) + 1

    def _line_end(self, at: int) -> int:
        end = self.content.find(b"\n", at)
        return len(self.content) if end < 0 else end
