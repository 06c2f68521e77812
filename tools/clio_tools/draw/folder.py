"""The text in its folder: how it is read, and how it is written back so that nothing of anybody else is lost."""
import hashlib
import os
import pathlib
import shutil
import stat
from dataclasses import dataclass

from ..program import Refused
from ..rules.printed import is_as_printed
from ..safe_files import Fresh
from .outline import Outline

MAPPING, DRAWING = "mapping.clio", "drawing.clio"
DRAFTED = "drafted"  # the folder in that of a worker in which the files of a draft are
MOST_BYTES = 1 << 20  # clio reads no longer text
EMPTY = "mapping 1;\nsource {\n}\ntarget {\n}\n"
ABSENT = "absent"


class CannotRead(Exception):
    """The text can't be shown."""


class CannotSave(Exception):
    """The text can't be written."""


class ChangedOnDisk(CannotSave):
    """Somebody else wrote the file since it was read."""


@dataclass(frozen=True)
class Read:
    """A text as a browser takes it, with LF alone, and what is needed to write it back."""

    name: str
    text: str
    digest: str
    ends: str


@dataclass(frozen=True)
class Saved:
    """Where a text was written, the digest of its file, and whether a mapping.clio is in the way of the one that
    clio-rules prints of a drawing."""

    name: str
    digest: str
    in_the_way: bool = False


def digest_of(content: bytes | None) -> str:
    """The digest of a file's bytes; of a file that isn't there, a mark of its own."""
    return ABSENT if content is None else hashlib.sha256(content).hexdigest()


def as_read(name: str, content: bytes | None) -> Read:
    """A file's bytes as a text of a browser."""
    try:
        text = (EMPTY.encode() if content is None else content).decode("utf-8")
    except UnicodeDecodeError:
        raise CannotRead(f"{name} isn't UTF-8: write it as UTF-8 first") from None
    crlf = text.count("\r\n")
    ends = "\r\n" if crlf and crlf == text.count("\n") == text.count("\r") else "\n"
    if ends == "\n" and "\r" in text or "\0" in text:
        raise CannotRead(f"{name} has mixed line ends or bytes 0, which a browser's text field would change")
    return Read(name, text.replace("\r\n", "\n"), digest_of(content), ends)


class Folder:
    """A folder with drawing.clio, or else with mapping.clio; what is saved takes its place in one step."""

    def __init__(self, path: str) -> None:
        self.path = pathlib.Path(path).resolve(strict=True)
        if not self.path.is_dir():
            raise Refused(f"{path} is no folder")

    def name(self) -> str:
        """The file that is shown."""
        return DRAWING if os.path.lexists(self.path / DRAWING) else MAPPING

    def content(self, name: str) -> bytes | None:
        """The bytes of a file, or None if there is none. What is no file, as a pipe or a link to a device, isn't read:
        it may never end."""
        path = self.path / name
        try:
            if not stat.S_ISREG(path.stat().st_mode):
                raise CannotRead(f"{name} is no file: take it away")
            with path.open("rb") as file:
                content = file.read(MOST_BYTES + 1)
        except FileNotFoundError:
            return None
        except OSError as error:
            raise CannotRead(f"{name}: {error.strerror}") from None
        if len(content) > MOST_BYTES:
            raise CannotRead(f"{name} is longer than clio reads")
        return content

    def read(self) -> Read:
        """The text as it is on the disk."""
        name = self.name()
        return as_read(name, self.content(name))

    def save(self, text: str, name: str, seen: str, ends: str) -> Saved:
        """Writes the text if its file is what was seen; whoever reads it gets the old or the new text whole. A mapping
        that has got notes becomes drawing.clio, and mapping.clio stays as it is."""
        if name not in (MAPPING, DRAWING) or ends not in ("\n", "\r\n") or "\r" in text or "\0" in text:
            raise CannotSave("the text has line ends that can't be kept")
        content = text.replace("\n", ends).encode("utf-8")
        if len(content) > MOST_BYTES:
            raise CannotSave("the text is longer than clio reads")
        if name == MAPPING and Outline(text.encode()).is_drawing:
            name, seen = DRAWING, ABSENT
        path = self.path / name
        if path.is_symlink():
            raise CannotSave(f"{name} is a link to another file: save it where it is")
        self._replace(path, content, seen)
        return Saved(name, digest_of(content), name == DRAWING and self._is_own(MAPPING))

    def _is_own(self, name: str) -> bool:
        """Whether a mapping is there that clio-rules hasn't printed, and so doesn't replace."""
        try:
            content = self.content(name)
        except CannotRead:
            return True
        return content is not None and is_as_printed(content.decode("utf-8", "replace")) is None

    def take(self, drafted: pathlib.Path) -> list[str]:
        """Copies the files of a draft into the folder; one that is there is not replaced."""
        paths = sorted(drafted.iterdir()) if drafted.is_dir() else []
        there = [path.name for path in paths if os.path.lexists(self.path / path.name)]
        if there:
            raise CannotSave(f"{', '.join(there[:8])} {'is' if len(there) == 1 else 'are'} there already, and not"
                             " replaced")
        for path in paths:
            with open(path, "rb") as source, open(self.path / path.name, "xb") as file:
                shutil.copyfileobj(source, file)
        return [path.name for path in paths]

    def _replace(self, path: pathlib.Path, content: bytes, seen: str) -> None:
        """Puts a file in its place, on the disk, if what is there was seen."""
        try:
            fresh = Fresh(path)
        except Refused as why:
            raise CannotSave(str(why)) from None
        try:
            fresh.file.write(content.decode("utf-8"))
            fresh.file.flush()
            os.fsync(fresh.file.fileno())
            fresh.close()
            if digest_of(self.content(path.name)) != seen:
                raise ChangedOnDisk(f"{path.name} was changed by somebody else since it was read here")
            fresh.replace()
        finally:
            fresh.remove()
        handle = os.open(self.path, os.O_RDONLY)
        try:
            os.fsync(handle)
        finally:
            os.close(handle)
