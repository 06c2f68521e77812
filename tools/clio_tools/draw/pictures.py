"""The whole text as one picture, drawn as clio-picture draws a mapping; its lines have the drawing's notes on them."""
from ..mapping import tree
from ..mapping.meaning import Mapping
from ..mapping.printing import printed_test, printed_way, quoted
from ..mapping.tables import Table
from ..picture.boxes import WHOLE, Port
from ..picture.lines import LABEL, Joined
from ..picture.svg import cut
from ..picture.whole import Picture
from .meant import bare
from .outline import Data, Outline

MOST = 44  # letters of what stands on a line


def picture(text: str, name: str, shown: list[str] | None) -> Data:
    """The picture of a text that can be read; `shown` has the rules as clio prints them."""
    content = text.encode()
    return {"picture": Picture(bare(content), name, shown, lines_of(content)).as_data()}


def order(text: str) -> Data:
    """The sets of both sides in the order of the picture, in which few lines cross."""
    content = text.encode()
    made = Picture(bare(content), "", None, lines_of(content))
    return {"source": [box.table.name for box in made.left], "target": [box.table.name for box in made.right]}


def lines_of(content: bytes) -> list[Joined]:
    """The lines of a text that can be read, by their numbers there."""
    mapping, outline = bare(content), Outline(content)
    return [_joined(line, number, mapping, outline) for number, line in enumerate(outline.tree.lines)]


def _joined(line: tree.Line, number: int, mapping: Mapping, outline: Outline) -> Joined:
    columns = tuple(_port(mapping.source, one.set.text, one.column.text if one.column else None)
                    for one in line.arguments)
    title = " ".join(outline.text(line).split()).removesuffix(";")
    return Joined(columns, _port(mapping.target, line.target.set.text, line.target.column.text), _label(line), title,
                  number)


def _port(tables: list[Table], name: str, column: str | None) -> Port:
    number = next(number for number, table in enumerate(tables) if table.name == name)
    return number, WHOLE if column is None else tables[number].columns.index(column)


def _label(line: tree.Line) -> str | None:
    """What stands on a line: its text or its conversion, and its notes."""
    parts = [cut(quoted(line.literal.text), LABEL)] if line.literal else []
    parts += [line.conversion.text] if line.conversion else []
    parts += [f"by {printed_way(one.by)}" for one in line.arguments if one.by]
    parts += [f"from {line.source.text}"] if line.source else []
    parts += [f"where {', '.join(map(printed_test, line.tests))}"] if line.tests else []
    return cut(" ".join(parts), MOST) or None
