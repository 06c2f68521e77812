"""Rows that lines make without the key that other rows of their table have: of what no row leads to, most often."""
from typing import Iterator, Sequence

from clio_tools.explain.pieces import Warned
from clio_tools.explain.said import listed, visible
from clio_tools.mapping.meaning import Mapping
from clio_tools.mapping.rules import EXISTENTIAL, Conclusion


def open_keys(mapping: Mapping, printed: list[str], by_hand: set[str]) -> Iterator[Warned]:
    """A warning for each key that some rules fill, and others of lines leave open with all other keys."""
    for number, table in enumerate(mapping.target):
        made = [(place, atom) for place, rule in enumerate(mapping.rules) for atom in rule.conclusion
                if atom.table == number and not is_unknown(atom)]
        keys = [[column for column in key if not table.columns[column].startswith("#")] for key in table.keys]
        keys = [key for key in keys if key]
        opened = [place for place, atom in made if printed[place] not in by_hand
                  and all(is_open(atom, key) for key in keys)]
        for key in keys:
            filling = [place for place, atom in made if not is_open(atom, key)]
            if filling and opened:
                sources = dict.fromkeys(mapping.source[atom.table].name for atom in mapping.rules[opened[0]].premise)
                yield Warned("open-key", table.name, [
                    f"rule {opened[0]} makes rows of {table.name} from {listed(sources)} without the key"
                    f" ({listed(table.columns[column] for column in key)}), which rule {filling[0]} fills: is it meant?"
                    f" {visible(printed[opened[0]])[:300]}"], rules=(opened[0],))


def is_open(atom: Conclusion, columns: Sequence[int]) -> bool:
    """Whether a rule says nothing of some of these columns."""
    return any(atom.cells[column].kind == EXISTENTIAL for column in columns)


def is_unknown(atom: Conclusion) -> bool:
    """Whether a rule leaves each cell of a row open."""
    return all(cell.kind == EXISTENTIAL for cell in atom.cells)
