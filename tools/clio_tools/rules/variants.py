"""How many variants the optional refs of a side have. clio counts them also if no line goes along; a drawing leaves out
refs that its rules don't need."""
from ..mapping.schema import Table
from ..mapping.tree import Ref
from .model import Drawing

VARIANTS, OCCURRENCES = 256, 64


def counts(tables: list[Table], left_out: list[Ref]) -> tuple[int, int]:
    """How many variants there are of all tables, and the most occurrences of one, some refs left out."""
    made: dict[int, tuple[int, int]] = {}

    def of(number: int) -> tuple[int, int]:
        if number not in made:
            variants, occurrences = 1, 1
            for link in tables[number].links:
                if link.circular or any(link.ref is ref for ref in left_out):
                    continue
                below = of(link.table)
                variants *= below[0] + 1 if link.optional else below[0]
                occurrences += below[1]
            made[number] = (min(variants, VARIANTS + 1), min(occurrences, OCCURRENCES + 1))
        return made[number]

    all_counts = [of(table.number) for table in tables]
    return sum(one[0] for one in all_counts), max((one[1] for one in all_counts), default=0)


def refs_past_limit(drawing: Drawing, left_out: list[Ref]) -> list[Ref]:
    """The refs that rules don't need and of which clio allows only so many: optional ones, or else all of the
    source."""
    found: list[Ref] = []
    sides: list[tuple[list[Table], bool]] = [(list(drawing.source.tables), True), (drawing.targets, False)]
    for tables, is_source in sides:
        refs = [ref for table in tables for ref in table.text.refs if not any(ref is one for one in left_out)]
        choices: list[list[Ref]] = [[], [ref for ref in refs if ref.optional], refs if is_source else []]
        for some in choices:
            variants, occurrences = counts(tables, left_out + some)
            if variants <= VARIANTS and occurrences <= OCCURRENCES:
                found += some
                break
    return found
