"""Runs clio in the current folder; a run that is overtaken by another, or takes too long, is ended."""
import subprocess
import time
from typing import NamedTuple

from ..program import program


class Stopped(Exception):
    """A run was ended."""


class Ended(NamedTuple):
    """How clio ended, what it printed, its message, and how long it took."""

    status: int
    printed: bytes
    message: str
    seconds: float


class Runner:
    """Runs clio, one run at a time."""

    def __init__(self, most_seconds: float) -> None:
        self.most_seconds = most_seconds
        self.process: subprocess.Popen[bytes] | None = None
        self.is_overtaken = False

    def overtake(self, *_: object) -> None:
        """Ends the run; it is a handler of a signal."""
        self.is_overtaken = True
        if self.process is not None:
            self.process.kill()

    def run(self, *words: str) -> Ended:
        """One run of clio."""
        self.look()
        began = time.monotonic()
        with subprocess.Popen([program(), *words], stdin=subprocess.DEVNULL, stdout=subprocess.PIPE,
                              stderr=subprocess.PIPE) as process:
            self.process = process
            try:
                out, err = process.communicate(timeout=self.most_seconds)
            except subprocess.TimeoutExpired:
                process.kill()
                process.communicate()
                raise Stopped(f"clio {' '.join(words)} took more than {self.most_seconds} seconds and was ended"
                              ) from None
            finally:
                self.process = None
        self.look()
        message = err.decode("utf-8", "replace").rstrip("\n")
        return Ended(process.returncode, out, message, time.monotonic() - began)

    def look(self) -> None:
        """Ends the job if it is overtaken."""
        if self.is_overtaken:
            raise Stopped("overtaken")
