"""Tries random drawings: random_drawings.py SEED COUNT [FIRST]. Says what is otherwise than SQL says."""
import pathlib
import sys
import tempfile
from collections import Counter
from typing import Optional

from drawing_given import Given, Unjudged
from drawing_random import Random
from drawing_trial import Table, clio, draw, in_order, records, source_base, value

from clio_tools.rules.whole import Faulty


def target_of(one: Random, folder: pathlib.Path) -> dict[str, Table]:
    """The target's rows in the form in which SQL says them; rows that a ref alone asked for have no number, and are
    left out."""
    tables = {each.name: records(folder / "out" / f"{each.name}.csv")[1:] for each in one.targets}
    numbers = {(each.name, row[0]): value(row[1]) for each in one.targets if each.has_key for row in tables[each.name]}
    found: dict[str, Table] = {}
    for each in one.targets:
        if not each.has_key:
            found[each.name] = in_order([tuple(map(value, row)) for row in tables[each.name]])
            continue
        width = 2 + len(each.columns)
        rows: Table = []
        for row in tables[each.name]:
            links = [numbers.get((other, cell)) for other, cell in zip(each.links.values(), row[width:])]
            if value(row[1]) is not None:
                rows.append(tuple([*map(value, row[1:width]), *links]))
        found[each.name] = in_order(rows)
    return found


def tried(seed: str, folder: pathlib.Path, tally: Counter[str]) -> Optional[str]:
    """What is otherwise in one random drawing."""
    one = Random(seed)
    for name, content in one.files.items():
        (folder / name).write_text(content, encoding="utf-8")
    try:
        text = draw(folder)
    except Faulty as why:
        tally["refused: " + why.faults[0].said[-50:]] += 1
        return None
    rules = {each.name: text.count(f"\n// {each.name}: ") for each in one.targets}
    if not one.looked_up and rules != {each.name: each.number_of_rules() for each in one.targets}:
        return f"rules: {rules}"
    wanted = one.wanted(source_base(folder))
    ways: tuple[list[str], ...] = ([], ["--core"])
    for words in ways:
        status, _, message = clio(folder, "exchange", *words)
        got = target_of(one, folder) if status == 0 else {}
        if got != wanted:
            return f"{words} {message}\n  wanted {wanted}\n  got    {got}"
    tally["as SQL says"] += 1
    return judged(one, folder, wanted, tally)


def judged(one: Random, folder: pathlib.Path, wanted: dict[str, Table], tally: Counter[str]) -> Optional[str]:
    """What `clio judge` says of the target that SQL made, if it is not the best."""
    try:
        given = Given(one, folder, wanted).files()
    except Unjudged:
        tally["not judged"] += 1
        return None
    (folder / "given").mkdir()
    for name, content in given.items():
        (folder / name).write_text(content, encoding="utf-8")
    _, out, message = clio(folder, "judge")
    tally[f"judge: {(out + message).strip()}"] += 1
    return None if out.split()[:2] in (["verdict", "universal"], ["verdict", "core"]) else f"judge: {out}{message}"


def main() -> None:
    """Tries so many."""
    seed, count, first = sys.argv[1], int(sys.argv[2]), int(sys.argv[3]) if len(sys.argv) > 3 else 0
    tally: Counter[str] = Counter()
    bad = 0
    for number in range(first, first + count):
        with tempfile.TemporaryDirectory() as name:
            said = tried(f"{seed}.{number}", pathlib.Path(name), tally)
        if said:
            bad += 1
            print("DIFFERS", seed, number, said, flush=True)
        if (number + 1 - first) % 250 == 0 and number + 1 < first + count:
            print(f"{number + 1 - first} drawings, {bad} differ", flush=True)
    print(f"{count} drawings, {bad} differ:", *(f"\n  {many} {what}" for what, many in tally.most_common()))
    sys.exit(bool(bad))


if __name__ == "__main__":
    main()
