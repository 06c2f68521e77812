"""Parts of a picture in SVG."""
import html
import re
from collections.abc import Iterable
from typing import NamedTuple

LETTER = 7.25  # the width of a letter of the font, 12 pixels high
ROW = 18
PALETTE = 8
NO_XML = re.compile("[^\t\n\r\x20-\ud7ff\ue000-\ufffd\U00010000-\U0010ffff]")
STYLE = """
.picture { font: 12px ui-monospace, "DejaVu Sans Mono", Menlo, Consolas, monospace; background: var(--page); \
color-scheme: light dark;
  --page: #ffffff; --box: #f6f8fa; --head: #dde4ec; --edge: #8a97a6; --text: #1c2630; --soft: #5c6a78; \
--key: #9a6700; --only: #0b6e4f; --pill: #ffffff;
  --c0: #1f6feb; --c1: #c2410c; --c2: #15803d; --c3: #9333ea; --c4: #b91c1c; --c5: #0e7490; --c6: #a16207; \
--c7: #be185d; }
@media (prefers-color-scheme: dark) { .picture { --page: #14181d; --box: #1d242c; --head: #2d3844; --edge: #6b7986; \
--text: #e3e9ef; --soft: #9aa7b4; --key: #e3b341;
  --only: #4fd1a5; --pill: #14181d; --c0: #6cb0ff; --c1: #ff9a62; --c2: #5fd38d; --c3: #cf9bff; --c4: #ff8a8a; \
--c5: #5ed0e6; --c6: #e5c04f; --c7: #ff8ac4; } }
.picture text { fill: var(--text); white-space: pre; }
.picture .soft { fill: var(--soft); color: var(--soft); } .picture .key { fill: var(--key); color: var(--key); }
.picture .only { fill: var(--only); } .picture .title { font-weight: bold; }
.picture .c0 { color: var(--c0); } .picture .c1 { color: var(--c1); } .picture .c2 { color: var(--c2); } \
.picture .c3 { color: var(--c3); }
.picture .c4 { color: var(--c4); } .picture .c5 { color: var(--c5); } .picture .c6 { color: var(--c6); } \
.picture .c7 { color: var(--c7); }
.picture .box { fill: var(--box); stroke: var(--edge); } .picture .head { fill: var(--head); }
.picture .pill { fill: var(--pill); stroke: currentColor; }
.picture .line path { fill: none; stroke: currentColor; stroke-width: 1.4; opacity: .8; }
.picture .line .wide { stroke-width: 9; opacity: 0; } .picture .line text { fill: currentColor; }
.picture .line:hover path { stroke-width: 3.2; opacity: 1; }
.picture .line:hover .wide { stroke-width: 9; opacity: .15; }
.picture .ref path { fill: none; stroke: var(--edge); stroke-width: 1.2; }
.picture .ref .tip { fill: var(--edge); stroke: none; }
.picture .ref:hover path { stroke: var(--text); stroke-width: 2.4; }
.picture .ref .wide { stroke-width: 8; opacity: 0; } .picture .ref:hover .wide { stroke-width: 8; opacity: .12; }
.picture .optional .way { stroke-dasharray: 4 3; }
.picture:has(.line:hover) .line:not(:hover) { opacity: .18; }
"""


class Element(NamedTuple):
    """An element of SVG: its name, its attributes, and what is inside it."""

    tag: str
    attributes: dict[str, str]
    inside: tuple["Element | str", ...] = ()

    def __str__(self) -> str:
        head = self.tag + "".join(f' {name}="{escaped(value)}"' for name, value in self.attributes.items())
        inside = "".join(escaped(one) if isinstance(one, str) else str(one) for one in self.inside)
        return f"<{head}>{inside}</{self.tag}>" if self.inside else f"<{head}/>"

    def also(self, **attributes: str) -> "Element":
        """With more attributes."""
        return self._replace(attributes={**self.attributes, **attributes})

    def as_data(self) -> list[object]:
        """As JSON can hold it."""
        return [self.tag, self.attributes, [one if isinstance(one, str) else one.as_data() for one in self.inside]]


def escaped(text: str) -> str:
    """A text of XML; characters that XML can't hold are replaced."""
    return html.escape(held(text))


def held(text: str) -> str:
    """A text with a mark in the place of each character that XML can't hold."""
    return NO_XML.sub("\ufffd", text)


def cut(text: str, most: int) -> str:
    """A text that isn't longer than so many letters."""
    return text if len(text) <= most else text[: most - 2] + ".."


def text_at(x: float, y: float, text: str, kind: str = "", anchor: str = "start") -> Element:
    """A text whose middle is at this height."""
    more = {"class": kind} if kind else {}
    if anchor != "start":
        more["text-anchor"] = anchor
    return Element("text", {"x": f"{x:.0f}", "y": f"{y + 4:.0f}", **more}, (text,))


def rectangle(x: float, y: float, width: float, height: float, kind: str, radius: int = 3) -> Element:
    """A rectangle with round corners."""
    return Element("rect", {"x": f"{x:.0f}", "y": f"{y:.0f}", "width": f"{width:.0f}", "height": f"{height:.0f}",
                            "rx": str(radius), "class": kind})


def curve(x: float, y: float, to_x: float, to_y: float) -> str:
    """A path that leaves and arrives level."""
    bend = max(abs(to_x - x) * .45, 20)
    return f"M{x:.0f} {y:.1f}C{x + bend:.0f} {y:.1f} {to_x - bend:.0f} {to_y:.1f} {to_x:.0f} {to_y:.1f}"


def group(kind: str, title: str, parts: Iterable[Element], line: int | None = None) -> Element:
    """Parts that are one thing, with what a pointer on it tells, and the number of the line that it is."""
    number = {} if line is None else {"data-line": str(line)}
    return Element("g", {"class": kind, **number}, (Element("title", {}, (title,)), *parts))


def path(place: str, kind: str = "") -> Element:
    """A path."""
    return Element("path", {"d": place, **({"class": kind} if kind else {})})


def pill(right: float, y: float, text: str) -> tuple[list[Element], float]:
    """A label with a rim that ends at `right`; the label and where it begins."""
    width = len(text) * LETTER + 12
    begin = right - width
    return [rectangle(begin, y - 8, width, 16, "pill", 8), text_at(begin + 6, y, text)], begin


def root(width: float, height: float) -> Element:
    """The element that holds a whole picture, as yet empty."""
    return Element("svg", {"class": "picture", "width": f"{width:.0f}", "height": f"{height:.0f}",
                           "viewBox": f"0 0 {width:.0f} {height:.0f}"})


def document(width: float, height: float, title: str, parts: Iterable[Element]) -> str:
    """A whole picture."""
    head = str(root(width, height)).replace("<svg", '<svg xmlns="http://www.w3.org/2000/svg"').removesuffix("/>")
    return (f"{head}>\n<title>{escaped(title)}</title>\n<style>{STYLE}</style>\n" + "\n".join(map(str, parts))
            + "\n</svg>\n")
