"""What the page can ask for, by name, and what it gets."""
import pathlib
import threading
from collections.abc import Callable
from typing import NamedTuple

from ..mapping.meanings import CONVERSIONS, TESTS
from .change import CannotEdit
from .checked import checked
from .edits import edited
from .folder import DRAFTED, CannotRead, CannotSave, ChangedOnDisk, Folder
from .helper import Helper
from .outline import Data, as_data
from .units import Units

MOST_ROWS = 2000  # rows of large files that a live run takes at most


class Wrong(Exception):
    """The page asked for something in a form that nothing has."""


class Unknown(Exception):
    """The page asked for something that there isn't."""


class Asked(NamedTuple):
    """What answers, and the kinds of the words that it takes."""

    answer: Callable[..., Data]
    kinds: dict[str, type]


class Answers:
    """Answers the page of a folder; a helper runs clio on a sample, another one on the whole source."""

    def __init__(self, folder: Folder, sample: Helper, whole: Helper) -> None:
        self.folder = folder
        self.helpers = {False: sample, True: whole}
        self.saving = threading.Lock()
        run: dict[str, type] = {"whole": bool, "run": int}
        self.known = {
            "open": Asked(self.open, {}), "disk": Asked(self.disk, {"name": str}),
            "outline": Asked(self.outline, {"text": str}), "edit": Asked(self.edit, {"text": str, "action": dict}),
            "save": Asked(self.save, {"text": str, "name": str, "digest": str, "ends": str}),
            "live": Asked(self.live, {"text": str, "core": bool, "rows": int, "whole": bool}),
            "warnings": Asked(self.of_run("warnings"), run), "examples": Asked(self.of_run("examples"), run),
            "sources": Asked(self.of_run("sources"), run),
            "why": Asked(self.of_run("why"), {**run, "table": str, "row": list}),
            "groups": Asked(self.of_run("groups"), {**run, "table": str}),
            "forward": Asked(self.of_run("forward"), {**run, "table": str, "row": int}),
            "more": Asked(self.of_run("more"), {**run, "table": str, "start": int}),
            "arrange": Asked(self.job("arrange"), {"text": str}), "picture": Asked(self.job("picture"), {"text": str}),
            "proposals": Asked(self.job("proposals"), {"text": str}),
            "draft": Asked(self.draft, {"text": str, "kind": str, "place": str, "schema": str, "side": str,
                                        "drawing": bool, "data": bool}),
            "ways": Asked(self.job("ways"), {"text": str, "source": list, "target": list}),
        }

    def answer(self, name: str, words: object) -> Data:
        """The answer to what the page asks for."""
        if name not in self.known:
            raise Unknown
        asked = self.known[name]
        if not isinstance(words, dict) or not checked(words, asked.kinds):
            raise Wrong
        try:
            return asked.answer(**words)
        except UnicodeEncodeError:  # half of a pair of surrogates, which no file can hold
            raise Wrong from None

    def open(self) -> Data:
        """The text as it is on the disk."""
        try:
            read = self.folder.read()
        except CannotRead as why:
            return {"error": str(why)}
        return {"name": read.name, "folder": str(self.folder.path), "text": read.text, "digest": read.digest,
                "ends": read.ends, "outline": as_data(read.text),
                "conversions": {name: one.arity for name, one in CONVERSIONS.items()}, "tests": list(TESTS)}

    def disk(self, name: str) -> Data:
        """Which text is on the disk now."""
        try:
            read = self.folder.read()
            return {"digest": read.digest if read.name == name else "absent", "name": read.name}
        except CannotRead:
            return {"digest": "unreadable", "name": name}

    @staticmethod
    def outline(text: str) -> Data:
        """The parts of a text."""
        return {"outline": as_data(text)}

    @staticmethod
    def edit(text: str, action: dict[str, object]) -> Data:
        """A text with a change, its outline, and the place to show."""
        try:
            made, shown = edited(text, action)
        except CannotEdit as why:
            return {"error": str(why)}
        return {"text": made, "outline": as_data(made), "shown": Units(made.encode()).span(*shown)}

    def save(self, text: str, name: str, digest: str, ends: str) -> Data:
        """Writes the text."""
        with self.saving:
            try:
                saved = self.folder.save(text, name, digest, ends)
            except ChangedOnDisk as why:
                return {"changed": str(why)}
            except (CannotSave, CannotRead) as why:
                return {"error": str(why)}
            except OSError as why:
                return {"error": f"{name}: {why.strerror}"}
        return {"digest": saved.digest, "name": saved.name, "in_the_way": saved.in_the_way}

    def live(self, text: str, core: bool, rows: int, whole: bool) -> Data:
        """What clio makes of a text: of large files on their first rows, or on the whole of them."""
        if not whole:
            self.helpers[True].overtake()  # its text is an old one now
        most = None if whole else max(1, min(rows, MOST_ROWS))
        return self.helpers[whole].ask(do="live", text=text, core=core, rows=most)

    def draft(self, text: str, data: bool, side: str, **words: object) -> Data:
        """A text with a side that is drafted anew; with data the files that it reads are put into the folder."""
        helper = self.helpers[False]
        made = helper.ask(do="draft", side=side, data=data, **words)
        if "error" in made:
            return made
        edit = self.edit(text, {"do": "side", "side": side, "text": made["text"]})
        if "error" in edit or not data:
            return {**edit, "remarks": made["remarks"], "files": []}
        try:
            files = self.folder.take(pathlib.Path(helper.room, DRAFTED))
        except (CannotSave, OSError) as why:
            return {"error": f"no files were written: {why}"}
        return {**edit, "remarks": made["remarks"], "files": files}

    def of_run(self, do: str) -> Callable[..., Data]:
        """What is asked of a run."""
        return lambda whole, **words: self.helpers[whole].ask(do=do, **words)

    def job(self, do: str) -> Callable[..., Data]:
        """What is asked of a text."""
        return lambda **words: self.helpers[False].ask(do=do, **words)
