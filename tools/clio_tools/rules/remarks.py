"""The comments of a drawing, which go to the rules that their statements led to."""
from typing import Iterable, Iterator, Sequence

from ..mapping import tree


class Comments:
    """The comments above each statement, and those behind it on its line, each printed once for a rule."""

    def __init__(self, parsed: tree.Tree) -> None:
        self.by_item: dict[int, list[str]] = {}
        self.last: list[str] = []
        self.printed: set[int] = set()
        items = sorted(parsed.items, key=lambda item: item.start)
        for comment in parsed.comments:
            if comment.start < parsed.target.end:
                continue
            before = [item for item in items if item.end <= comment.start]
            behind = before and b"\n" not in parsed.content[before[-1].end:comment.start]
            following = [item for item in items if item.end > comment.start]
            place = before[-1] if behind else following[0] if following else None
            (self.by_item.setdefault(place.start, []) if place else self.last).append(comment.text)

    def of(self, items: Iterable[tree.Item]) -> Iterator[str]:
        """The comments of the statements that led to a rule."""
        for item in items:
            self.printed.add(item.start)
            yield from self.by_item.get(item.start, [])

    def rest(self) -> Sequence[str]:
        """The comments below the last statement, and those of statements that led to no rule."""
        left = [text for start, texts in self.by_item.items() if start not in self.printed for text in texts]
        return [""] * bool(left + self.last) + left + self.last
