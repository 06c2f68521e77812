"""Changes of the sets: whether a ref is optional, and keys, dependencies and refs that are added or taken out."""
from collections.abc import Callable, Sequence

from ..mapping import tree
from ..mapping.tokens import lexed
from . import spelling
from .change import CannotEdit, Change


def set_of(change: Change, side: str, name: str) -> tree.SetText:
    """A set by its name."""
    found = [one for one in change.outline.side(side) if one.name.text == name] if side in ("source", "target") else []
    if not found:
        raise CannotEdit(f"there is no set {name}")
    return found[0]


def optional(change: Change, side: str, set_name: str, index: int, wanted: bool) -> None:
    """Makes a ref optional, or takes that back."""
    refs = set_of(change, side, set_name).refs
    if not 0 <= index < len(refs):
        raise CannotEdit("there is no such ref")
    ref = refs[index]
    if wanted and ref.optional is None:
        end = change.tokens_in(ref)[-1].start
        change.replace(end, end, " optional")
        change.at_least(2)
    elif ref.optional is not None and not wanted:
        before = change.tokens_in(ref)[-3]
        change.swap(before.end, ref.optional.end, "")


def add_clause(change: Change, side: str, set_name: str, clause: dict[str, object]) -> None:
    """A key, a dependency or a ref of a set, behind its last clause of this kind, or else behind its columns."""
    one, kind = set_of(change, side, set_name), clause.get("kind")
    columns = spelling.words(_list(clause.get("columns")))
    found: Sequence[tree.Part]
    if kind == "key":
        made, found, version = f"key ({columns});", one.keys, 1
    elif kind == "dep":
        made = f"dep ({columns}) -> ({spelling.words(_list(clause.get('decided')))});"
        found, version = one.dependencies, 3
    elif kind == "ref":
        other, referred = spelling.word(clause.get("set")), spelling.words(_list(clause.get("referred")))
        is_optional = clause.get("optional") is True
        made = f"ref ({columns}) -> {other} ({referred}){' optional' if is_optional else ''};"
        found, version = one.refs, 2 if is_optional else 1
    else:
        raise CannotEdit("a clause is a key, a dep or a ref")
    end = found[-1].end if found else _end_of_columns(change, one)
    _put_clause(change, one, end, made)
    change.at_least(version)


def _list(value: object) -> list[object]:
    if not isinstance(value, list):
        raise CannotEdit("a list is wanted")
    return value


def _end_of_columns(change: Change, one: tree.SetText) -> int:
    """The byte behind the semicolon that ends a set's columns."""
    last = one.columns[-1].end if one.columns else one.name.end
    return next(token.end for token in change.parts.tokens if token.start >= last and token.kind == ";")


def _put_clause(change: Change, one: tree.SetText, end: int, made: str) -> None:
    """A clause behind a byte: on the same line if the set is on one, else on a line of its own."""
    if b"\n" not in change.content[one.start:one.end]:
        change.replace(end, end, " " + made)
        change.shown = (end + 1, end + 1 + len(made.encode()))
        return
    indent = change.indent(one.columns[0].start if one.columns else one.start)
    change.put_after(end, made, indent or change.indent(one.start) + "  ")


def delete_clause(change: Change, side: str, set_name: str, kind: str, index: int) -> None:
    """Takes out a key, a dependency or a ref by its number among those of its kind."""
    one = set_of(change, side, set_name)
    kinds: dict[str, Sequence[tree.Part]] = {"key": one.keys, "dep": one.dependencies, "ref": one.refs}
    found = kinds.get(kind, ())
    if not 0 <= index < len(found):
        raise CannotEdit("it isn't there any more")
    part, before = found[index], change.content[:found[index].start]
    if b"\n" in change.content[one.start:one.end] and not before[before.rfind(b"\n") + 1:].strip():
        change.remove(part)
    else:
        change.replace(len(before.rstrip(b" \t")), part.end, "")


def side(change: Change, side: str, text: str) -> None:  # pylint: disable=redefined-outer-name
    """Another text of a whole side."""
    parts = {"source": change.parts.source, "target": change.parts.target}
    if side not in parts:
        raise CannotEdit("a side is the source or the target")
    made = text.strip()
    start = parts[side].start
    change.replace(start, parts[side].end, made)
    if any(token.text == "optional" for token in lexed(made.encode()).tokens):
        change.at_least(2)


ACTIONS: dict[str, tuple[Callable[..., None], dict[str, type]]] = {
    "optional": (optional, {"side": str, "set_name": str, "index": int, "wanted": bool}),
    "add_clause": (add_clause, {"side": str, "set_name": str, "clause": dict}),
    "side": (side, {"side": str, "text": str}),
    "delete_clause": (delete_clause, {"side": str, "set_name": str, "kind": str, "index": int}),
}
