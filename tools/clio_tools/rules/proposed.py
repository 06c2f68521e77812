"""`--propose`: a whole drawing of a mapping by lines."""
from .model import Drawing
from .proposing import Proposing
from .proposing_links import link_choices, rows_of_links


def proposed(drawing: Drawing) -> str:
    """The drawing with a `rows` for each set that has none, above its first line, and the open choices above lines;
    below the last line what sets of refs alone could come from."""
    proposing = Proposing(drawing)
    edits = [(line.start, choice + "\n") for line in drawing.tree.lines for choice in proposing.choices(line)]
    content = drawing.tree.content
    for table in proposing.open:
        lines = [line for line in drawing.tree.lines if line.target.set.text == table.name]
        if proposing.lines(table):
            notes = [*proposing.rows(table), *link_choices(proposing, table)]
            edits.append((lines[0].start, "".join(note + "\n" for note in notes)))
    for at, text in sorted(edits, key=lambda one: -one[0]):
        start = content.rfind(b"\n", 0, at) + 1
        at = start if not content[start:at].strip() else at
        content = content[:at] + text.encode() + content[at:]
    more = [note for table in proposing.open for note in rows_of_links(proposing, table)]
    return content.decode("utf-8") + "".join(note + "\n" for note in more)
