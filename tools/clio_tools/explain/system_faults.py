"""Why the system refused to read or to write, and what memory there is."""
import errno
import os
import resource
import select
import stat
import tempfile
from collections.abc import Iterator

from clio_tools.explain.placed import MappingText
from clio_tools.explain.said import amount, visible
from clio_tools.mapping.tables import tables_of
from clio_tools.safe_files import KINDS


def kind_of(path: str) -> str | None:
    """What a path is, if it is no plain file."""
    try:
        return KINDS.get(stat.S_IFMT(os.stat(path).st_mode))
    except OSError:
        return None


def reading(file: str) -> Iterator[str]:
    """Why a file could not be read."""
    if kind_of(file):
        yield f"{file} is {kind_of(file)}"
        return
    try:
        with open(file, "rb") as opened:
            opened.read(1)
        yield f"{file} can be read now: it was not for that moment, or only in part"
    except OSError as error:
        yield f"{file}: {error.strerror}"
        if error.errno == errno.EACCES:
            yield from permissions(file)
        elif error.errno == errno.ELOOP:
            yield f"{file} is a link to {visible(os.readlink(file))}, and such links lead in a circle"


def permissions(path: str) -> Iterator[str]:
    """Who owns a path, and who asks."""
    try:
        found = os.stat(path)
        yield f"its mode is {stat.filemode(found.st_mode)}, its owner {found.st_uid}; this user is {os.getuid()}"
    except OSError:
        pass


def files_of(content: bytes | None, words: list[str]) -> list[str]:
    """The names of the files in the order in which they are written, but for those of a comparison."""
    if words[:1] == ["answer"]:
        return ["answers.csv"]
    if words[:1] != ["exchange"] or content is None:
        return []
    tables = tables_of(MappingText(content).target)
    nested = [table.name + ".json" for table in tables if table.parent is None] if "--nested" in words else []
    return ["rules.txt", "script.sql", *(table.name + ".csv" for table in tables), "nulls.csv", "fold.csv", *nested]


def writing(message: str, content: bytes | None, words: list[str]) -> Iterator[str]:
    """Which file could not be written, and why."""
    written = int(message.removeprefix("write fault: ").split(" ", 1)[0])
    files = files_of(content, words)
    if words[:1] == ["compare"]:
        yield f"{amount(written, 'file')} of the comparison {'is' if written == 1 else 'are'} written"
        yield from of_path(os.path.join("out", "forward_source_.csv"))
        return
    if written >= len(files):
        if files:
            yield f"all {amount(len(files), 'file')} are written; what is printed could not be"
        yield from output()
        return
    path = os.path.join("out", files[written])
    yield f"file {written + 1} of {len(files)} could not be written: {path}"
    reasons = list(of_path(path))
    yield from reasons or [f"{path} could be written now: the disk may have been full for that moment"]
    if written:
        yield (f"{', '.join(files[:written][:8])}{', ..' if written > 8 else ''} are written;"
               " do not use out/ before a run ends with status 0")


def of_path(path: str) -> Iterator[str]:
    """Why a path in `out` can't be written; nothing if it can."""
    if os.path.islink("out"):
        yield (f"out is a link to {visible(os.readlink('out'))}, and clio writes into a folder of this name: move it"
               " away")
        return
    if os.path.lexists("out") and not os.path.isdir("out"):
        yield "out is a file, and clio writes into a folder of this name: move it away"
        return
    try:
        if not os.path.isdir("out"):
            with tempfile.TemporaryFile(dir="."):
                return
        if os.path.isdir(path) and not os.path.islink(path):
            yield f"{path} is a folder: move it away"
        else:
            with tempfile.TemporaryFile(dir="out"):
                pass
        yield from space()
    except OSError as error:
        yield f"{'out' if os.path.isdir('out') else 'this folder'}: {error.strerror}"
        if error.errno == errno.EACCES:
            yield from permissions("out" if os.path.isdir("out") else ".")


def space() -> Iterator[str]:
    """Whether the disk is full, or files may not be longer than some size."""
    found = os.statvfs("out" if os.path.isdir("out") else ".")
    if found.f_bavail * found.f_frsize < 1 << 20:
        yield f"the disk is full: {found.f_bavail * found.f_frsize:,} bytes are left"
    elif found.f_files and not found.f_favail:
        yield "the disk can hold no more files: its inodes are used up"
    elif found.f_flag & os.ST_RDONLY:
        yield "the disk can only be read"
    most = resource.getrlimit(resource.RLIMIT_FSIZE)[0]
    if most != resource.RLIM_INFINITY:
        yield f"files may not be longer than {most:,} bytes here (ulimit -f)"


def output() -> Iterator[str]:
    """Why standard output could not be written."""
    try:
        found = os.fstat(1)
    except OSError:
        yield "standard output is closed"
        return
    if stat.S_ISFIFO(found.st_mode):
        poll = select.poll()
        poll.register(1, select.POLLERR)
        if poll.poll(0):
            yield "standard output is a pipe that nobody reads any more: the program after | has ended"
            return
    full = os.path.exists("/dev/full") and stat.S_ISCHR(found.st_mode) and found.st_rdev == os.stat("/dev/full").st_rdev
    place = os.fstatvfs(1)
    if full or stat.S_ISREG(found.st_mode) and place.f_bavail * place.f_frsize < 1 << 20:
        yield "standard output is a file on a disk that is full"
    else:
        yield "standard output could not be written"


def memory(content: bytes | None) -> Iterator[str]:
    """How much memory there is, and how much is read."""
    most = resource.getrlimit(resource.RLIMIT_AS)[0]
    if most != resource.RLIM_INFINITY:
        yield f"a program may take {most >> 20:,} MiB here (ulimit -v)"
    try:
        with open("/proc/meminfo", encoding="ascii") as opened:
            kept = dict(line.split(":") for line in opened)
        left, whole = (int(kept[name].split()[0]) >> 10 for name in ("MemAvailable", "MemTotal"))
        yield f"the machine has {left:,} MiB left of {whole:,} MiB"
    except (OSError, KeyError, ValueError):
        pass
    total = 0
    for table in tables_of(MappingText(content or b"").source):
        for file in table.name + ".csv", table.name + ".json":
            total += os.path.getsize(file) if table.parent is None and os.path.isfile(file) else 0
    if total:
        yield f"the source files have {total:,} bytes; a run takes 5 to 65 times as much"
    yield "what to do: end other programs, raise the limit, or split the source where nothing joins across the cut"
