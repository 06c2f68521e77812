"""The sets that tests take, and the names of variables."""
import re
from typing import Hashable, Iterable

from ..mapping.schema import Schema


class Names:
    """Names for things; what is named twice keeps its name, and no two things have one."""

    def __init__(self, taken: Iterable[str] = ()) -> None:
        self.taken = set(taken)
        self.given: dict[Hashable, str] = {}

    def name(self, thing: Hashable, wanted: str) -> str:
        """The name of a thing, the wanted one if it is free."""
        if thing not in self.given:
            name, count = wanted, 2
            while name in self.taken:
                name, count = f"{wanted}_{count}", count + 1
            self.taken.add(name)
            self.given[thing] = name
        return self.given[thing]

    def knows(self, thing: Hashable) -> bool:
        """Whether a thing has a name."""
        return thing in self.given


class TestSets:
    """The source sets that tests take: of one row for a text, and a second name of a set for other tests.

    A rule has no tests of its own, so `where kind = "F"` joins with a set whose one row is F, and `where tax filled`
    takes the rows under another name, which has the condition."""

    def __init__(self, source: Schema) -> None:
        self.source = source
        self.names = Names([table.name for table in source.tables] + ["nulls", "fold"])
        self.texts: dict[str, str] = {}
        self.copies: dict[tuple[int, tuple[tuple[int, str], ...]], str] = {}

    def of_text(self, text: str) -> str:
        """The set with this one text."""
        if text not in self.texts:
            word = re.sub("[^A-Za-z0-9]+", "_", text.encode("ascii", "ignore").decode()).strip("_")[:20]
            self.texts[text] = self.names.name(("text", text), "is_" + (word or ("text" if text else "empty")))
        return self.texts[text]

    def copy_of(self, number: int, tests: list[tuple[int, str]]) -> str:
        """The second name of a set for these tests."""
        key = (number, tuple(sorted(tests)))
        if key not in self.copies:
            table = self.source.tables[number]
            parts = "_".join(f"{table.columns[column]}_{name}" for column, name in key[1])
            self.copies[key] = self.names.name(("copy", key), f"{table.name}_{parts}")
        return self.copies[key]

    def files(self) -> dict[str, str]:
        """The files of the sets of one row."""
        return {name + ".csv": 'text\n"' + text.replace('"', '""') + '"\n' for text, name in self.texts.items()}

    def links(self) -> dict[str, str]:
        """Of which file each second name is one."""
        return {name + ".csv": self.source.tables[number].name + ".csv" for (number, _), name in self.copies.items()}
