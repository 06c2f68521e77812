"""The process that runs clio and computes reasons: it works in a temporary folder, and can be ended at any time without
loss. It reads one JSON text a line on standard input and answers with one. The folder with the text is only read."""
import json
import os
import pathlib
import signal
import sys
from collections.abc import Callable
from typing import Any

from ..program import Refused
from .choices import choices
from .drafting import drafted
from .live import Live
from .meant import bare
from .outline import Data
from .pictures import order, picture
from .proposals import Proposals
from .running import Runner, Stopped

SECONDS = 10.0  # a run of clio may take so long
WHOLE_SECONDS = 300.0  # and one on the whole source
MOST_PROPOSALS = 200


class Stale(Exception):
    """Something is asked of a run that is gone."""


class Worker:
    """Does the jobs of the page."""

    def __init__(self, folder: str, room: str, seconds: float = SECONDS) -> None:
        self.folder = pathlib.Path(folder)
        os.chdir(room)
        self.runner = Runner(seconds)
        self.live = Live(self.folder, self.runner)
        self.jobs: dict[str, Callable[..., Data]] = {
            "live": self.live.run, "more": self.live.more, "warnings": self.live.warnings, "why": self.live.why,
            "groups": self.live.groups, "sources": self.live.sources, "examples": self.live.examples,
            "forward": self.live.forward, "arrange": order, "picture": self.picture,
            "proposals": self.proposals, "ways": self.ways,
            "draft": self.draft}

    def answer(self, job: dict[str, Any]) -> Data:
        """What a job gives; no failure ends this process."""
        self.runner.is_overtaken = False
        try:
            if job.pop("run", self.live.number) != self.live.number:
                raise Stale("these rows are of an earlier run: another page of this clio-draw has run since")
            return self.jobs[job.pop("do")](**job)
        except (Stopped, Stale, Refused) as why:
            return {"error": str(why)}
        except OSError as why:
            return {"error": f"{why.filename}: {why.strerror}" if why.filename else str(why)}
        except (Exception, MemoryError) as error:  # pylint: disable=broad-except
            return {"error": f"{type(error).__name__}: {str(error)[:300]}"}

    def proposals(self, text: str) -> Data:
        """Lines that could be meant."""
        return {"proposals": Proposals(bare(text.encode()), self.folder).made()[:MOST_PROPOSALS]}

    def ways(self, text: str, source: list[str | None], target: list[str]) -> Data:
        """The ways that a line could go, with a row of each."""
        return choices(text, source, target, self.live.sampler)

    def draft(self, **words: Any) -> Data:
        """A side drafted from what is elsewhere."""
        return drafted(**words, folder=self.folder)

    def picture(self, text: str) -> Data:
        """The text as clio-picture would draw it; rules by hand have the numbers of the last run if it was of this
        text."""
        live = self.live
        is_last = live.mapping is not None and live.content == text.encode() and not live.meant.is_drawing
        return picture(text, self.folder.name, live.printed if is_last else None)


def main() -> None:
    """Answers until standard input ends."""
    signal.signal(signal.SIGINT, signal.SIG_IGN)  # the server ends this process
    try:
        worker = Worker(sys.argv[1], sys.argv[2], WHOLE_SECONDS if sys.argv[3] == "whole" else SECONDS)
    except FileNotFoundError:  # the server has ended meanwhile, and took the folder away
        return
    signal.signal(signal.SIGUSR1, worker.runner.overtake)
    signal.pthread_sigmask(signal.SIG_UNBLOCK, {signal.SIGUSR1})
    answers = os.fdopen(os.dup(1), "w", encoding="utf-8")
    os.dup2(2, 1)  # nothing else is printed among the answers
    for line in sys.stdin:
        answers.write(json.dumps(worker.answer(json.loads(line))) + "\n")
        answers.flush()


if __name__ == "__main__":
    main()
