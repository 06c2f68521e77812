"""Mappings as clio-picture draws them: that of the first page, and those of two pages of the manual."""
from __future__ import annotations

from clio_tools.mapping.meaning import read_mapping
from clio_tools.picture.whole import Picture
from drawn.pages import example, first_example


def drawn(text: str, name: str) -> str:
    """The picture of a mapping text."""
    return Picture(read_mapping(text.encode()), name).drawn()


def figures() -> dict[str, str]:
    """Each figure by its name."""
    return {"mapping-teams": drawn(example("teams")["mapping.clio"], "examples/teams"),
            "mapping-start": drawn(first_example("manual/start.md")["mapping.clio"], "from emp to person"),
            "mapping-rules": drawn(first_example("manual/rules.md")["mapping.clio"], "examples/departments")}
