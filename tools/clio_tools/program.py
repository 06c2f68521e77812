"""What the tools have in common: how they find clio, how they refuse, what they print, and how they end."""
from __future__ import annotations

import io
import os
import pathlib
import shutil
import signal
import subprocess
import sys
import threading
import traceback
from collections.abc import Callable
from typing import NoReturn, TextIO, cast

FINDER = pathlib.Path(__file__).resolve().parent.parent.parent / "dev" / "program"
WHOLE = "CLIO_TRACEBACK"  # if this is set, a bug is told with all the calls that led to it


class Refused(Exception):
    """Something that a tool can't carry; the text says what, where and why."""


class Stopped(KeyboardInterrupt):
    """The tool was told to end, by SIGTERM."""


def counted(count: int, thing: str) -> str:
    """A number of things, as in "1 row" and "2 rows"."""
    return f"{count} {thing}" if count == 1 else f"{count} {thing}s"


def program() -> str:
    """The path of clio: the one on the path, or else the one that dev/program names."""
    found = shutil.which("clio")
    if found:
        return found
    if FINDER.exists():
        ended = subprocess.run([FINDER], stdout=subprocess.PIPE, stderr=subprocess.DEVNULL, check=False)
        if ended.returncode == 0:
            return os.fsdecode(ended.stdout).strip()
    raise Refused("clio is not on the path, and no program was built")


def harmless(text: str) -> str:
    """A text with nothing in it that a terminal would take as a command."""
    return "".join(sign if sign.isprintable() or sign in "\n\t" else f"\\u{{{ord(sign):x}}}" for sign in text)


def remark(name: str, text: object) -> None:
    """A remark on standard error, which changes no status."""
    print(harmless(f"{name}: {text}"), file=sys.stderr)


class Closed(io.TextIOBase):
    """Takes the place of a standard output that is closed: what is printed is refused."""

    def write(self, _: str) -> int:
        raise Refused("standard output is closed")


def stop_by_exception() -> None:
    """Has SIGTERM end the tool by an exception, so that it can undo what it began, as a query on a server."""
    def stop(*_: object) -> NoReturn:
        raise Stopped
    if threading.current_thread() is threading.main_thread() and signal.getsignal(signal.SIGTERM) == signal.SIG_DFL:
        signal.signal(signal.SIGTERM, stop)


def bug(error: BaseException) -> str:
    """What is said of an exception that no tool should let through."""
    frames = traceback.extract_tb(error.__traceback__)
    place = f", {pathlib.Path(frames[-1].filename).name}:{frames[-1].lineno}" if frames else ""
    said = " ".join(str(error).split())[:200]
    return (f"this is a bug in the tool ({type(error).__name__}: {said}{place}); report it to whoever gave you clio,"
            f" with the command and what it says under {WHOLE}=1")


def run(name: str, work: Callable[[list[str]], None]) -> None:
    """Runs a tool on its words, and ends it if it doesn't succeed: what it refuses ends with a message and status 2."""
    sys.stdout = sys.stdout or cast(TextIO, Closed())
    for stream, errors in (sys.stdout, "strict"), (sys.stderr, "backslashreplace"):
        if isinstance(stream, io.TextIOWrapper):
            stream.reconfigure(encoding="utf-8", errors=errors, newline="\n")
    try:
        work(sys.argv[1:])
        sys.stdout.flush()
    except BrokenPipeError:  # what reads the output has ended, and says why itself
        os.dup2(os.open(os.devnull, os.O_WRONLY), sys.stdout.fileno())
        sys.exit(1)
    except KeyboardInterrupt as why:
        sys.exit(143 if isinstance(why, Stopped) else 130)
    except Exception as why:  # pylint: disable=broad-except
        if os.environ.get(WHOLE):
            traceback.print_exc()
        status, said = ending(why)
        remark(name, said)
        sys.exit(status)


def ending(why: Exception) -> tuple[int, str]:
    """The status that an exception ends with, and what is said of it."""
    if isinstance(why, OSError) and why.filename is not None:
        name = os.fsdecode(why.filename) if isinstance(why.filename, (str, bytes)) else why.filename
        return 2, f"{name}: {why.strerror}"
    if isinstance(why, OSError) and why.strerror:
        return 2, why.strerror
    if isinstance(why, (Refused, OSError)):
        return 2, str(why)
    if isinstance(why, MemoryError):
        return 2, "out of memory"
    if isinstance(why, RecursionError):
        return 2, "what it reads is nested too deep"
    return 1, bug(why)
