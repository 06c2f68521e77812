"""Files that take their place whole or not at all, and files that may be somebody else's.

A new file is made beside the old one under a name that nobody can foresee, and takes its place when it is whole. So a
link there is replaced, and what it leads to stays as it was; a pipe, a socket, a device or a folder is refused. No
reader sees a part of a file.
"""
import contextlib
import hashlib
import os
import pathlib
import stat
import tempfile
from collections.abc import Iterator
from typing import TextIO

from clio_tools.program import Refused

KINDS = {stat.S_IFDIR: "a folder", stat.S_IFIFO: "a pipe", stat.S_IFSOCK: "a socket", stat.S_IFCHR: "a device",
         stat.S_IFBLK: "a device"}


MOST_TEXT = 1 << 20  # clio reads no longer text, such as mapping.clio
MOST_DATA = 64 << 20  # and no longer source file


def check_file(path: pathlib.Path) -> None:
    """Refuses what is there and is no file, as a pipe or a link to a device: it may never end."""
    if path.exists() and not path.is_file():
        raise Refused(f"{path} is no file: take it away")


def content_of(path: pathlib.Path, most: int = MOST_TEXT) -> bytes:
    """The bytes of a file that clio reads too; what is no file, and what is longer, is refused."""
    check_file(path)
    with path.open("rb") as file:
        content = file.read(most + 1)
    if len(content) > most:
        raise Refused(f"{path} is longer than clio reads")
    return content


def check_place(path: pathlib.Path) -> int | None:
    """Refuses a place that has something else than a file or a link; answers the mode of a file that is there."""
    try:
        mode = path.lstat().st_mode
    except FileNotFoundError:
        return None
    kind = KINDS.get(stat.S_IFMT(mode))
    if kind:
        raise Refused(f"{path} is {kind}, and a file is to be written there: take it away")
    return stat.S_IMODE(mode) if stat.S_ISREG(mode) else None


def check_folder(path: pathlib.Path) -> None:
    """Refuses a folder that is a link: what is written there would be written elsewhere."""
    if path.is_symlink():
        raise Refused(f"{path} is a link to {os.readlink(path)}, and files would be written there: take it away")


def usual_mode() -> int:
    """The mode that a new file has."""
    mask = os.umask(0)
    os.umask(mask)
    return 0o666 & ~mask


class Fresh:
    """A new file, which can take the place of another; nothing is changed before that."""

    def __init__(self, path: pathlib.Path) -> None:
        self.path, self.mode = path, check_place(path)
        try:
            handle, name = tempfile.mkstemp(prefix=f".{path.name[:100]}.", dir=path.parent)
        except OSError as error:
            raise OSError(error.errno, error.strerror, str(path)) from None
        self.made = pathlib.Path(name)
        self.file: TextIO = open(handle, "w", newline="", encoding="utf-8")

    def close(self) -> None:
        """All that was written is in the file."""
        try:
            self.file.flush()
            os.fchmod(self.file.fileno(), usual_mode() if self.mode is None else self.mode)
            self.file.close()
        except OSError as error:
            raise OSError(error.errno, error.strerror, str(self.path)) from None

    def digest(self) -> bytes:
        """The SHA-256 of a closed file."""
        return digest_of_file(self.made)

    def replace(self) -> None:
        """Puts the closed file in its place."""
        os.replace(self.made, self.path)

    def remove(self) -> None:
        """Takes away a file that has not taken its place."""
        with contextlib.suppress(OSError):
            self.file.close()
        self.made.unlink(missing_ok=True)


@contextlib.contextmanager
def replaced(path: pathlib.Path) -> Iterator[TextIO]:
    """A file to write, which takes its place at the end; if anything fails, all stays as it was."""
    fresh = Fresh(path)
    try:
        yield fresh.file
        fresh.close()
        fresh.replace()
    except OSError as error:
        if error.filename is not None:
            raise
        raise OSError(error.errno, error.strerror, str(path)) from None
    finally:
        fresh.remove()


def digest_of_file(path: pathlib.Path) -> bytes:
    """The SHA-256 of a file's bytes."""
    with open(path, "rb") as file:
        return hashlib.file_digest(file, "sha256").digest()
