"""Writes the printed mapping and the files that it takes, and nothing of anyone else's."""
import os
import pathlib

from ..program import Refused
from ..safe_files import content_of, replaced
from .printed import Printed, is_as_printed, marked


def write(folder: pathlib.Path, made: Printed, name: str) -> list[str]:
    """Writes mapping.clio and what it takes; answers the names of what was changed. All is looked at before the first
    write."""
    mapping = folder / "mapping.clio"
    _look_at_mapping(mapping, name)
    files = made.sets.files()
    links = made.sets.links()
    for file, content in files.items():
        _look_at_file(folder / file, content)
    for file, of in links.items():
        _look_at_link(folder / file, of)
    written = [file for file, content in files.items() if _put(folder / file, content)]
    for file, of in links.items():
        if not os.path.islink(folder / file):
            os.symlink(of, folder / file)
            written.append(file)
    return written + ["mapping.clio"] * _put(mapping, marked(made.text, name))


def _look_at_mapping(path: pathlib.Path, name: str) -> None:
    """Refuses a mapping that was not printed here, or was edited since."""
    if path.is_symlink():
        raise Refused(f"{path} is a link, and clio-rules writes through none: take it away first")
    if not path.exists():
        return
    printed = is_as_printed(content_of(path).decode("utf-8", "replace"))
    if printed is None:
        raise Refused(f"{path} wasn't printed by clio-rules: move it away first, or rename it to {name} if it is the "
                      f"drawing")
    if not printed:
        raise Refused(f"{path} was edited by hand since clio-rules printed it: bring the edit into {name}, and take "
                      f"{path.name} away")


def _look_at_file(path: pathlib.Path, content: str) -> None:
    """Refuses a file with another content than a set for a test has."""
    if path.is_symlink() or (path.exists() and path.read_bytes() != content.encode("utf-8")):
        raise Refused(f"{path} is there, with another content than `where` takes: rename it, and its set")


def _look_at_link(path: pathlib.Path, of: str) -> None:
    """Refuses what is in the place of a second name of a file, unless it is one."""
    if path.is_symlink() and os.readlink(path) == of:
        return
    if path.is_symlink() or path.exists():
        raise Refused(f"{path} is there, and `where` takes it as a second name of {of}: rename it, and its set")


def _put(path: pathlib.Path, content: str) -> bool:
    """Writes a file whole; one that has this content stays as it is."""
    if path.exists() and path.read_bytes() == content.encode("utf-8"):
        return False
    with replaced(path) as file:
        file.write(content)
    return True
