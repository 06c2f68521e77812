"""Bytes of a text as places of a text in a browser, which counts in units of UTF-16."""
import itertools


class Units:
    """The place in a browser's text of each byte of a text."""

    def __init__(self, content: bytes) -> None:
        self._places: list[int] = []
        if content.isascii():
            return
        widths: list[int] = []
        for sign in content.decode("utf-8", "replace"):
            width = len(sign.encode("utf-8", "replace"))
            widths += [2 if width == 4 else 1] + [0] * (width - 1)
        self._places = [0, *itertools.accumulate(widths)]

    def __call__(self, byte: int) -> int:
        """The place of a byte."""
        return self._places[min(byte, len(self._places) - 1)] if self._places else byte

    def span(self, start: int, end: int) -> list[int]:
        """The places of a range of bytes."""
        return [self(start), self(end)]
