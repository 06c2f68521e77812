"""The folder in which a load has its own target: an exchange is run there, or the files of one are taken.

The user's folder is only read. Numbers of clio-ids are put in there too; the crosswalk is changed only when the load
keeps what it did.
"""
from __future__ import annotations

import contextlib
import pathlib
import signal
import subprocess
import sys
import tempfile
from collections.abc import Iterable
from typing import NoReturn

from clio_tools.ids.crosswalk import Crosswalk
from clio_tools.ids.numbering import check_whole, prepared
from clio_tools.ids.target import is_renamed
from clio_tools.mapping.text import Mapping, Set
from clio_tools.program import Refused, counted, harmless, program
from clio_tools.safe_files import content_of
from clio_tools.tables.command import read_summary

AGAIN = "run clio exchange again"
EXPLAINED = range(3, 7)  # a clash, and faults of the mapping, of a file, and of the sizes: clio's statuses
OTHER_FILES = "rules.txt", "nulls.csv", "fold.csv"


def mapping_here() -> Mapping:
    """The mapping of the folder."""
    try:
        return Mapping(content_of(pathlib.Path("mapping.clio")).decode("utf-8", "replace"))
    except ValueError as error:
        raise Refused(f"mapping.clio: {error}") from None


def sources_of(mapping: Mapping) -> list[pathlib.Path]:
    """The files that an exchange reads, as far as they are there."""
    names = [pathlib.Path(one.name + (".json" if one.inner else ".csv")) for one in mapping.source
             if one.parent is None]
    return [pathlib.Path("mapping.clio"), *(name for name in names if name.exists())]


class Workspace:
    """A temporary folder with links to the mapping and the source files, and with the folder out."""

    def __init__(self, mapping: Mapping) -> None:
        self.mapping = mapping
        self.kept = tempfile.TemporaryDirectory(prefix="clio-load.")
        self.folder = pathlib.Path(self.kept.name)
        self.digests: dict[str, bytes] = {}
        self.counts: dict[str, int] = {}  # rows of files, by the summary
        for path in sources_of(mapping):
            (self.folder / path).symlink_to(path.resolve())

    @property
    def out(self) -> pathlib.Path:
        """The folder with the files of the target."""
        return self.folder / "out"

    def exchange(self, core: bool) -> None:
        """Runs the exchange; what clio refuses ends the load as it ends clio."""
        summary = self.folder / "summary"
        with summary.open("wb") as file:
            done = subprocess.run([program(), "exchange", *["--core"] * core], cwd=self.folder,
                                  stdin=subprocess.DEVNULL, stdout=file, stderr=subprocess.PIPE, check=False)
        if done.returncode:
            more = f"clio-load: nothing is changed; clio-explain exchange{' --core' * core} says more\n"
            pass_on(done.stderr + more.encode() * (done.returncode in EXPLAINED), done.returncode)
        self.counts = read_summary(str(summary))

    def take(self, out: pathlib.Path, summary: str) -> None:
        """Takes the files of an exchange that was run before, if they are whole and of these sources."""
        counts = read_summary(summary)
        newest = max(sources_of(self.mapping), key=lambda path: path.stat().st_mtime_ns)
        self.out.mkdir()
        for name in [*OTHER_FILES, *(f"{one.name}.csv" for one in self.mapping.target)]:
            path = out / name
            if not path.is_file():
                raise Refused(f"{path} is missing: {AGAIN}")
            if path.stat().st_mtime_ns < newest.stat().st_mtime_ns:
                raise Refused(f"{path} is older than {newest}: {AGAIN}")
            if name not in counts:
                raise Refused(f"the summary has no {name}: it is of another mapping")
            (self.out / name).symlink_to(path.resolve())
        self.counts = counts
        self.check_rules()

    def check_count(self, one: Set, rows: int) -> None:
        """Refuses a file with other rows than its summary says."""
        count = self.counts.get(f"{one.name}.csv", rows)
        if rows != count:
            raise Refused(f"out/{one.name}.csv has {counted(rows, 'row')}, and the summary says {count}: it was cut or "
                          f"changed, so {AGAIN}")

    def check_rules(self) -> None:
        """The rules of the files are those of the mapping."""
        done = subprocess.run([program(), "show"], cwd=self.folder, stdin=subprocess.DEVNULL, capture_output=True,
                              check=False)
        if done.returncode:
            pass_on(done.stderr, done.returncode)
        rules = [line for line in done.stdout.decode().splitlines() if line.startswith("rule ")]
        if rules != (self.out / "rules.txt").read_text(encoding="utf-8").splitlines():
            raise Refused(f"out/rules.txt has other rules than mapping.clio: {AGAIN}")

    def number(self, crosswalk: Crosswalk, taken: Iterable[tuple[int, int, int]]) -> None:
        """Puts numbers into the files; `taken` are those that rows of others have already."""
        with contextlib.chdir(self.folder):
            if is_renamed():
                check_whole(crosswalk)
                return
            crosswalk.reserve(taken)
            _, files, self.digests = prepared(self.mapping.target, crosswalk, {}, False)
            files.replace()

    def path(self, one: Set) -> pathlib.Path:
        """The file of a set of the target."""
        return self.out / f"{one.name}.csv"

    def close(self) -> None:
        """Takes the folder away."""
        self.kept.cleanup()


def pass_on(said: bytes, status: int) -> NoReturn:
    """Ends as clio has ended."""
    if status < 0:
        raise Refused(f"clio was ended by {signal.Signals(-status).name}; nothing is changed")
    print(harmless(said.decode("utf-8", "replace")), end="", file=sys.stderr)
    sys.exit(status)
