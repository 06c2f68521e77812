"""The page of a report."""
import html
from collections.abc import Iterable, Sequence

Cell = int | str | tuple[str]  # a number, a text, or what is HTML already

STYLE = """
:root { color-scheme: light dark; --page: #ffffff; --text: #1c2630; --soft: #5c6a78; --rim: #d5dce4; --head: #eef2f6;
  --good: #15803d; --bad: #b42318; }
@media (prefers-color-scheme: dark) {
  :root { --page: #14181d; --text: #e3e9ef; --soft: #9aa7b4; --rim: #36424e; --head: #1f2730; --good: #5fd38d;
    --bad: #ff8f85; }
}
body { font: 15px/1.5 system-ui, "DejaVu Sans", sans-serif; background: var(--page); color: var(--text);
  max-width: 62rem; margin: 2rem auto; padding: 0 1rem; }
h1 { font-size: 1.6rem; margin: 0 0 .3rem; }
h2 { font-size: 1.25rem; margin: 2.2rem 0 .5rem; border-bottom: 1px solid var(--rim); }
h3 { font-size: 1.02rem; margin: 1.4rem 0 .3rem; }
code, td.name, th.name { font-family: ui-monospace, "DejaVu Sans Mono", Menlo, Consolas, monospace; font-size: .87em;
  overflow-wrap: break-word; }
td.name { max-width: 40rem; }
td code { display: inline-block; min-width: 18rem; }
.wide { overflow-x: auto; }
table { border-collapse: collapse; margin: .4rem 0 .8rem; }
th, td { border: 1px solid var(--rim); padding: .18rem .6rem; text-align: left; vertical-align: top; }
th { background: var(--head); font-weight: 600; }
td.number, th.number { text-align: right; font-variant-numeric: tabular-nums; }
td.number, td.brief { white-space: nowrap; }
tr.sum td { font-weight: 600; border-top: 2px solid var(--soft); }
.soft { color: var(--soft); }
.good { color: var(--good); }
.bad { color: var(--bad); }
p { margin: .4rem 0; }
a { color: inherit; }
summary { cursor: pointer; }
nav a { margin-right: 1rem; }
@media (max-width: 40rem) {
  body { margin: 1rem auto; padding: 0 .6rem; }
  table { font-size: .74rem; line-height: 1.35; }
  th, td { padding: .12rem .22rem; }
  td.name, td.brief { white-space: normal; overflow-wrap: anywhere; min-width: 3.4rem; }
  td code { min-width: 7rem; overflow-wrap: anywhere; }
}
"""


def escaped(text: str) -> str:
    """A text of HTML; what isn't shown is an escape."""
    return html.escape("".join(one if one.isprintable() or one == " " else f"\\x{ord(one):02x}" for one in text))


def short(text: str, most: int = 80) -> str:
    """A text that is cut if it is long."""
    more = f" <span class=soft>.. ({len(text):,} characters)</span>" if len(text) > most else ""
    return escaped(text[:most]) + more


def code(text: str, most: int = 400) -> str:
    """A text as code."""
    return f"<code>{short(text, most)}</code>"


def cell(value: Cell) -> str:
    """A cell of a table: a number to the right, a text as it is; a tuple is HTML already."""
    if isinstance(value, int):
        return f'<td class="number">{value:,}</td>'
    if isinstance(value, tuple):
        return f"<td>{value[0]}</td>"
    return f'<td class="name{" brief" if len(value) <= 30 else ""}">{short(value)}</td>'


def table(head: Sequence[str], rows: Iterable[Sequence[Cell]], total: Sequence[Cell] | None = None) -> str:
    """A table; `total` is its last row, of sums."""
    heads = "".join(f'<th class="{"number" if one.startswith("#") else ""}">{escaped(one.lstrip("#"))}</th>'
                    for one in head)
    lines = ["<tr>" + "".join(map(cell, row)) + "</tr>" for row in rows]
    if total:
        lines.append('<tr class="sum">' + "".join(map(cell, total)) + "</tr>")
    return f'<div class="wide"><table><tr>{heads}</tr>\n' + "\n".join(lines) + "\n</table></div>"


def summed(head: Sequence[str], lines: list[tuple[Cell, list[int]]]) -> str:
    """A table of things and their numbers, and the sums of these."""
    sums = [sum(numbers[place] for _, numbers in lines) for place in range(len(head) - 1)]
    return table(head, [[name, *numbers] for name, numbers in lines], ["all", *sums])


def paragraph(text: str, kind: str = "") -> str:
    """A paragraph, which is HTML already."""
    return f"<p class={kind}>{text}</p>" if kind else f"<p>{text}</p>"


def whole(title: str, parts: Iterable[str]) -> str:
    """The whole page."""
    return ("<!DOCTYPE html>\n<html lang=en>\n<head><meta charset=utf-8>"
            "<meta name=viewport content='width=device-width, initial-scale=1'>\n"
            f"<title>{escaped(title)}</title>\n<style>{STYLE}</style></head>\n<body>\n" + "\n".join(parts)
            + "\n</body>\n</html>\n")
