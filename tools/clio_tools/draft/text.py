"""A side of a mapping text, printed."""
from collections.abc import Iterator

from clio_tools.draft.model import Ref, Side, Table
from clio_tools.draft.names import shown

NO_MATCH = {
    "source": "and lines drop rows without a match: leave the ref out if no line needs it, or make it optional"
              " (mapping 2)",
    "target": "but a row without a link would get one to a row of nulls: make the ref optional (mapping 2)",
}


def side_text(side: Side) -> str:
    """The text, with what can't be said as comments."""
    lines = [f"{side.name} {{", *("  " + line for line in renamed(side))]
    for table in side.roots:
        lines += set_lines(table, side.name, "  ", side.drawing)
    return "\n".join(lines + ["}"]) + "\n"


def renamed(side: Side) -> Iterator[str]:
    """The names that are no words, each with its word."""
    for table in side.tables:
        if table.word != table.name:
            yield f"// {shown(table.name)} is {table.word}"
        for column in table.columns:
            if column.word != column.name and not column.why_not and not table.why_not:
                yield f"// {shown(table.name)}.{shown(column.name)} is {table.word}.{column.word}"


def set_lines(table: Table, side_name: str, blanks: str, drawing: bool = False) -> list[str]:
    """The lines of a set, or the comment in its place."""
    if table.why_not:
        return [f"{blanks}// {shown(table.name)} is left out: {table.why_not}"]
    lines = [f"{blanks}set {table.word} {{", *wrapped([column.word for column in table.said], blanks + "  ")]
    within = [f"// {shown(column.name)} is left out: {column.why_not}" for column in table.columns if column.why_not]
    within += filled_line(table, side_name)
    within += [key_line(table, key, side_name) for key in table.keys]
    within += ref_lines(table, side_name, drawing)
    within += [f"// {note}" for note in table.notes]
    lines += [f"{blanks}  {line}" for line in within]
    for inner in table.inner:
        lines += set_lines(inner, side_name, blanks + "  ", drawing)
    return lines + [f"{blanks}}}"]


def wrapped(words: list[str], blanks: str) -> list[str]:
    """The columns, in lines that are not too long."""
    lines, line = [], blanks
    for place, word in enumerate(words):
        end = ";" if place == len(words) - 1 else ","
        if len(line) + len(word) > 130 and line.strip():
            lines.append(line.rstrip())
            line = blanks
        line += f"{word}{end} "
    return lines + [line.rstrip()]


def filled_line(table: Table, side_name: str) -> list[str]:
    """A comment on the columns of the target that must have a value in each row."""
    if side_name != "target" or not table.is_of_catalog:
        return []
    filled = [column for column in table.said if not column.may_be_null]
    bare = ", ".join(column.word for column in filled if not column.has_default)
    given = ", ".join(column.word for column in filled if column.has_default)
    return [f"// NOT NULL: {bare}"] * bool(bare) + [f"// NOT NULL, with a default: {given}"] * bool(given)


def key_line(table: Table, key: list[str], side_name: str) -> str:
    columns = [table.column(name) for name in key]
    line = f"key ({', '.join(column.word for column in columns)});"
    if side_name == "target" and any(column.may_be_null for column in columns):
        line += "  // NULL is allowed there, but rows with equal empty texts would become one here"
    return line


def ref_lines(table: Table, side_name: str, drawing: bool = False) -> Iterator[str]:
    seen: list[Table] = []
    for ref in table.refs:
        own, referred = ref.words(table)
        line = f"ref ({', '.join(own)}) -> {ref.other.word} ({', '.join(referred)})"
        may_be_null = any(table.column(name).may_be_null for name in ref.columns)
        if drawing:
            line += drawn(table, ref, side_name, may_be_null)
        elif ref.other in seen:
            line += (f";  // a second ref to {ref.other.word}: a line of it goes both ways, so leave one out, or draw"
                     " (man clio-rules)")
        else:
            line += f";  // NULL is allowed there, {NO_MATCH[side_name]}" if may_be_null else ";"
        seen.append(ref.other)
        yield line


def drawn(table: Table, ref: Ref, side_name: str, may_be_null: bool) -> str:
    """The end of a ref in a drawing: one of the target that may be NULL is optional; of several to one set, how a line
    says which.
    """
    own, _ = ref.words(table)
    step = own[0] if len(own) == 1 else f"({', '.join(own)})"
    several = sum(other.other is ref.other for other in table.refs) > 1 or ref.other is table
    end = " optional;" if side_name == "target" and may_be_null else ";"
    return end + (f"  // line .. by {step}" if several and side_name == "source" else "")
