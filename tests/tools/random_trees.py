"""Random documents copied into trees of the same shape, or without a middle level, or with a key that merges.

random_trees.py SEED COUNT tries so many; what clio writes as JSON is compared with what the copy has to be."""
import json
import pathlib
import random
import sys
import tempfile
from typing import Any, Iterator, Optional

from drawing_trial import clio, draw

Document = list[dict[str, Any]]


class Tree:
    """A set with those inside it: some are dropped, so that what is inside them is in the outer row; some have a
    key.
    """

    def __init__(self, r: random.Random, depth: int, name: str = "s") -> None:
        self.name, self.r = name, r
        self.inner = [Tree(r, depth - 1, f"{name}{i}") for i in range(r.randrange(0, 3))] if depth else []
        self.dropped = bool(self.inner) and name != "s" and r.random() < .25
        self.keyed = bool(self.inner) and r.random() < .3

    def source(self) -> str:
        """The set of the source."""
        inner = " ".join(one.source() for one in self.inner)
        return f"set {self.name} {{ a_{self.name}, b_{self.name}; {inner} }}"

    def kept(self) -> list["Tree"]:
        """The inner sets of the target."""
        return [other for one in self.inner for other in (one.kept() if one.dropped else [one])]

    def target(self) -> str:
        """The set of the target."""
        key = f" key (x_{self.name});" if self.keyed else ""
        inner = " ".join(one.target() for one in self.kept())
        return f"set t_{self.name} {{ x_{self.name}, y_{self.name};{key} {inner} }}"

    def items(self) -> Iterator[str]:
        """The statements of the drawing."""
        if not self.dropped:
            yield f"rows t_{self.name} from {self.name};"
            yield f"line {self.name}.a_{self.name} -> t_{self.name}.x_{self.name};"
            yield f"line {self.name}.b_{self.name} -> t_{self.name}.y_{self.name};"
        for one in self.inner:
            yield from one.items()

    def document(self, width: int) -> Document:
        """Random entries; what a key decides follows from it."""
        entries = []
        for _ in range(self.r.randrange(0, width)):
            a = self.r.choice("pqr")
            entry: dict[str, Any] = {f"a_{self.name}": a, f"b_{self.name}": "of " + a if self.keyed
                                     else self.r.choice("uv")}
            entry.update({one.name: one.document(4) for one in self.inner})
            entries.append(entry)
        return entries

    def wanted(self, entries: Document) -> list[str]:
        """The target's entries: keyed ones merged, equal ones without inner sets once."""
        made: dict[Any, tuple[dict[str, Any], dict[str, Document]]] = {}
        for number, entry in enumerate(entries):
            a, b = entry[f"a_{self.name}"], entry[f"b_{self.name}"]
            key = (a, b) if self.keyed or not self.kept() else (number,)
            row = made.setdefault(key, ({f"x_{self.name}": a, f"y_{self.name}": b},
                                        {one.name: [] for one in self.kept()}))
            for one in self.kept():
                row[1][one.name] += self.entries_of(one, entry)
        inner = {one.name: one for one in self.kept()}
        return sorted(json.dumps({**row, **{f"t_{name}": inner[name].wanted(found) for name, found in more.items()}},
                                 sort_keys=True) for row, more in made.values())

    def entries_of(self, one: "Tree", entry: dict[str, Any]) -> Document:
        """The source entries of an inner set of the target."""
        for inner in self.inner:
            if inner is one:
                return list(entry[inner.name])
            if inner.dropped and one in inner.kept():
                return [row for middle in entry[inner.name] for row in inner.entries_of(one, middle)]
        raise AssertionError(one.name)


def plain(tree: Tree, entries: Document) -> list[str]:
    """What clio wrote, in the same form."""
    return sorted(json.dumps({**{key: cell for key, cell in entry.items() if not isinstance(cell, list)},
                              **{f"t_{one.name}": plain(one, entry[f"t_{one.name}"]) for one in tree.kept()}},
                             sort_keys=True) for entry in entries)


def written(tree: Tree, folder: pathlib.Path) -> list[str]:
    """The target as clio wrote it."""
    if tree.kept():
        return plain(tree, json.loads((folder / "out" / "t_s.json").read_text(encoding="utf-8")))
    rows = [line.split(",") for line in (folder / "out" / "t_s.csv").read_text(encoding="utf-8").splitlines()[1:]]
    return sorted(json.dumps({f"x_{tree.name}": row[0], f"y_{tree.name}": row[1]}, sort_keys=True) for row in rows)


def tried(seed: str, folder: pathlib.Path) -> Optional[str]:
    """What is otherwise in one random tree."""
    r = random.Random(seed)
    tree = Tree(r, 3)
    while not tree.inner:
        tree = Tree(r, 3)
    items = list(tree.items())
    r.shuffle(items)
    document = tree.document(5)
    text = f"mapping 1;\nsource {{ {tree.source()} }}\ntarget {{ {tree.target()} }}\n" + "\n".join(items) + "\n"
    (folder / "drawing.clio").write_text(text, encoding="utf-8")
    (folder / "s.json").write_text(json.dumps(document), encoding="utf-8")
    draw(folder)
    for words in (["--nested"], ["--core", "--nested"]):
        status, _, message = clio(folder, "exchange", *words)
        if status or written(tree, folder) != tree.wanted(document):
            return f"{words} {message}\n{text}"
    return None


def main() -> None:
    """Tries so many."""
    bad = 0
    for number in range(int(sys.argv[2])):
        with tempfile.TemporaryDirectory() as name:
            said = tried(f"trees {sys.argv[1]}.{number}", pathlib.Path(name))
        if said:
            bad += 1
            print("DIFFERS", number, said, flush=True)
    print(f"{sys.argv[2]} trees, {bad} differ")
    sys.exit(bool(bad))


if __name__ == "__main__":
    main()
