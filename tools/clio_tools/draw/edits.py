"""The changes of a text that the page asks for; each touches as few bytes as it can."""
from collections.abc import Callable, Sequence

from ..mapping import tree
from ..mapping.meanings import TESTS
from . import schema_edits, spelling
from .change import CannotEdit, Change
from .checked import checked

Asked = dict[str, object]


def statement(found: Sequence[tree.Item], index: int) -> tree.Item:
    """A statement by its number among those of its kind."""
    if not 0 <= index < len(found):
        raise CannotEdit("it isn't there any more")
    return found[index]


def line_at(change: Change, index: int) -> tree.Line:
    """A line by its number."""
    found = statement(change.parts.lines, index)
    assert isinstance(found, tree.Line)
    return found


# --- lines -----------------------------------------------------------------------------------------------------------

def add_line(change: Change, source: Asked, target: list[object], rows: str | None = None,
             of: str | None = None) -> None:
    """A new line, behind the last one into the same set, or behind the last one, or else behind both sides; `rows`
    names the set of which each row of the target set shall come, if the text doesn't say it yet, and `of` the set for
    the rows of which alone the line is."""
    left, place = spelling.left_of(source), spelling.place(target)
    made = f"line {left.written} -> {place}{_notes(left.behind, spelling.word(of) if of else '', '')};"
    lines, name = change.parts.lines, str(target[0])
    if any(change.content[one.start:one.end].split() == made.encode().split() for one in lines):
        raise CannotEdit("this line is there")
    same = [one for one in lines if one.target.set.text == name]
    note = f"rows {spelling.word(name)} from {spelling.word(rows)};" if rows else ""
    if same or lines:
        last = (same or lines)[-1]
        if note and not same:
            made = f"{note}\n{change.indent(last.start)}{made}"
        change.put_after(last.end, made, change.indent(last.start))
        if note and same:
            shown = change.shown
            change.put_before(same[0], note)
            more = change.shown[1] - change.shown[0] + 1 + len(change.indent(same[0].start).encode())
            change.shown = (shown[0] + more, shown[1] + more)
        elif note:
            change.shown = (change.shown[1] - len(made.rpartition("\n")[2].encode()), change.shown[1])
    else:
        change.put_after(change.parts.target.end, f"{note}\n{made}" if note else made)
        change.shown = (change.shown[1] - len(made.encode()), change.shown[1])


def _notes(by: str, of: str, where: str) -> str:
    """What is behind a line's target."""
    return (f" by {by}" if by else "") + (f" from {of}" if of else "") + (f" where {where}" if where else "")


def change_line(change: Change, index: int, source: Asked) -> None:
    """Another left side of a line, with its ways."""
    one, left = line_at(change, index), spelling.left_of(source)
    tokens = change.tokens_in(one)
    arrow = next(place for place, token in enumerate(tokens) if token.kind == "->")
    by = left.behind
    _set_notes(change, one, by, one.source.text if one.source else "", _tests(change, one))
    change.swap(tokens[1].start, tokens[arrow - 1].end, left.written)
    change.show(one.start)


def change_notes(change: Change, index: int, of: str, where: str) -> None:
    """For the rows of which set a line is, and for which of them."""
    one = line_at(change, index)
    plain = one.arguments[0] if one.arguments and not one.conversion else None
    by = change.outline.text(tree.Part(plain.by[0].start, plain.by[-1].end)) if plain and plain.by else ""
    inside = plain is not None and plain.by and plain.by[-1].end < one.target.start
    _set_notes(change, one, "" if inside else by, spelling.word(of) if of else "", spelling.tests(where))
    change.show(one.start)


def _set_notes(change: Change, one: tree.Line, by: str, of: str, where: str) -> None:
    """What is between a line's target and its end."""
    change.swap(one.target.end, change.tokens_in(one)[-1].start, _notes(by, of, where))


def _tests(change: Change, one: tree.Line | tree.Rows) -> str:
    return change.outline.text(tree.Part(one.tests[0].start, one.tests[-1].end)) if one.tests else ""


def delete(change: Change, kind: str, index: int) -> None:
    """Takes a statement out."""
    parts = change.parts
    kinds: dict[str, Sequence[tree.Item]] = {"line": parts.lines, "only": parts.conditions, "rule": parts.rules,
                                             "rows": parts.rows}
    if kind not in kinds:
        raise CannotEdit("there is no such kind of statement")
    change.remove(statement(kinds[kind], index))


# --- the notes of a drawing ------------------------------------------------------------------------------------------

def add_rows(change: Change, target: str, source: str) -> None:
    """From which set the rows of a target set come: in front of the first line there, or behind all `rows`."""
    made = f"rows {spelling.word(target)} from {spelling.word(source)};"
    if any(one.target.text == target and one.source.text == source for one in change.parts.rows):
        raise CannotEdit("this is there already")
    same = [one for one in change.parts.items if isinstance(one, tree.Line) and one.target.set.text == target]
    own = [one for one in change.parts.rows if one.target.text == target]
    if own:
        change.put_after(own[-1].end, made, change.indent(own[-1].start))
    elif same:
        change.put_before(same[0], made)
    else:
        _put_behind_statements(change, made)


def change_rows(change: Change, index: int, asked: Asked) -> None:
    """Another set, or other ways and tests, of a `rows` statement."""
    one = statement(change.parts.rows, index)
    assert isinstance(one, tree.Rows)
    by, musts, where = (spelling.way(asked.get("by")), spelling.musts(asked.get("with")),
                        spelling.tests(asked.get("where")))
    notes = "".join(f" {word} {said}" for word, said in (("by", by), ("with", musts), ("where", where)) if said)
    change.swap(one.source.end, change.tokens_in(one)[-1].start, notes)
    change.swap(one.source.start, one.source.end, spelling.word(asked.get("source")))
    change.show(one.start)


def lookup(change: Change, name: str, wanted: bool) -> None:
    """Whether links to a set go through a set of their own."""
    items = [one for one in change.parts.items if isinstance(one, tree.Lookup)]
    found = [(item, place) for item in items for place, word in enumerate(item.sets) if word.text == name]
    if wanted and not found:
        made = f"lookup {spelling.word(name)};"
        if items:
            change.put_after(items[-1].end, made, change.indent(items[-1].start))
        else:
            _put_behind_statements(change, made)
    elif found and not wanted:
        item, place = found[0]
        if len(item.sets) == 1:
            change.remove(item)
        elif place:
            change.swap(item.sets[place - 1].end, item.sets[place].end, "")
        else:
            change.swap(item.sets[0].start, item.sets[1].start, "")


def _put_behind_statements(change: Change, made: str) -> None:
    """A statement behind the last one, or behind both sides."""
    items = change.parts.items
    if items:
        change.put_after(items[-1].end, made, change.indent(items[-1].start))
    else:
        change.put_after(change.parts.target.end, made)


# --- conditions and rules --------------------------------------------------------------------------------------------

def add_only(change: Change, column: list[object], test: str) -> None:
    """A condition, behind the last one, or else behind the last line."""
    if test not in TESTS:
        raise CannotEdit(f"there is no test {test}")
    made = f"only {spelling.place(column)} {test};"
    before: Sequence[tree.Item] = change.parts.conditions or change.parts.lines
    if before:
        change.put_after(before[-1].end, made, change.indent(before[-1].start))
    else:
        change.put_after(change.parts.target.end, made)
    change.at_least(2)


def add_rule(change: Change, text: str) -> None:
    """A rule at the end."""
    change.put_after(len(change.content.rstrip()), spelling.rule(text))


def change_rule(change: Change, index: int, text: str) -> None:
    """Another text of a rule."""
    one = statement(change.parts.rules, index)
    change.replace(one.start, one.end, spelling.rule(text))


Edit = Callable[..., None]
ACTIONS: dict[str, tuple[Edit, dict[str, type]]] = {
    "add_line": (add_line, {"source": dict, "target": list, "rows": str, "of": str}),
    "change_line": (change_line, {"index": int, "source": dict}),
    "change_notes": (change_notes, {"index": int, "of": str, "where": str}),
    "delete": (delete, {"kind": str, "index": int}),
    "add_rows": (add_rows, {"target": str, "source": str}),
    "change_rows": (change_rows, {"index": int, "asked": dict}),
    "lookup": (lookup, {"name": str, "wanted": bool}),
    "add_only": (add_only, {"column": list, "test": str}),
    "add_rule": (add_rule, {"text": str}),
    "change_rule": (change_rule, {"index": int, "text": str}),
    **schema_edits.ACTIONS,
}
OPTIONAL = {"rows", "of"}


def edited(text: str, action: Asked) -> tuple[str, tuple[int, int]]:
    """The text after an action, which is a name and its words; and the place to show, in bytes."""
    words = dict(action)
    name = words.pop("do", None)
    if not isinstance(name, str) or name not in ACTIONS:
        raise CannotEdit("there is no such change")
    edit, kinds = ACTIONS[name]
    if not checked(words, kinds, OPTIONAL):
        raise CannotEdit("the change can't be read")
    change = Change(text)
    edit(change, **words)
    change.check()
    return change.text(), change.shown
