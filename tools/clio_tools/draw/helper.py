"""The worker seen from the server: started when it is needed, ended when it takes too long."""
import contextlib
import json
import os
import pathlib
import select
import shutil
import signal
import subprocess
import sys
import tempfile
import threading
import time

from ..program import program
from .outline import Data

PACKAGE = pathlib.Path(__file__).resolve().parent.parent.parent
AGAIN = 0.1  # after so many seconds a run that is overtaken is asked to end once more
SECONDS = {"sample": 40.0, "whole": 600.0}  # a job may take so long


class Helper:
    """Passes jobs to a worker, one after the other."""

    def __init__(self, folder: pathlib.Path, kind: str = "sample") -> None:
        self.folder, self.kind = folder, kind
        self.lock = threading.Lock()
        self.process: subprocess.Popen[bytes] | None = None
        self.left = b""
        self.doing = ""
        self.room = tempfile.mkdtemp(prefix="clio-draw-")
        clio = program()
        self.environment = {**os.environ, "PYTHONPATH": str(PACKAGE),
                            "PATH": os.path.dirname(clio) + os.pathsep + os.environ.get("PATH", "")}

    def start(self) -> subprocess.Popen[bytes]:
        """A worker in a process group of its own, so that it can be ended with what it runs. It takes no module from
        the current folder, which may be somebody else's."""
        self.left = b""
        before = signal.pthread_sigmask(signal.SIG_BLOCK, {signal.SIGUSR1})  # until the worker has its handler
        try:
            self.process = subprocess.Popen(  # pylint: disable=consider-using-with
                [sys.executable, "-P", "-m", "clio_tools.draw.worker", str(self.folder), self.room, self.kind],
                env=self.environment, stdin=subprocess.PIPE, stdout=subprocess.PIPE, start_new_session=True)
        finally:
            signal.pthread_sigmask(signal.SIG_SETMASK, before)
        return self.process

    def ask(self, **job: object) -> Data:
        """The answer to a job. A live run overtakes one that is under way."""
        if job["do"] == "live":
            while not self.lock.acquire(timeout=AGAIN):
                self.overtake()
        else:
            self.lock.acquire()
        try:
            return self._asked(job)
        finally:
            self.lock.release()

    def _asked(self, job: dict[str, object]) -> Data:
        """The answer to a job, while no other is under way."""
        if self.process is not None and self.process.poll() is not None:
            self.end()
        process = self.process or self.start()
        assert process.stdin is not None
        self.doing = str(job["do"])
        try:
            process.stdin.write(json.dumps(job).encode() + b"\n")
            process.stdin.flush()
            answer: Data = json.loads(self._answer(process))
            return answer
        except (OSError, ValueError, TimeoutError) as why:
            self.end()
            return {"error": f"the live run was ended: {why or type(why).__name__}"}
        finally:
            self.doing = ""

    def overtake(self) -> None:
        """Ends the run of clio that is under way; the worker stays, with what it has read."""
        process = self.process
        if process is not None and self.doing == "live":
            with contextlib.suppress(ProcessLookupError):
                process.send_signal(signal.SIGUSR1)

    def _answer(self, process: subprocess.Popen[bytes]) -> bytes:
        """One line of the worker's output."""
        assert process.stdout is not None
        until = time.monotonic() + SECONDS[self.kind]
        descriptor = process.stdout.fileno()
        while b"\n" not in self.left:
            if not select.select([descriptor], [], [], max(until - time.monotonic(), 0))[0]:
                raise TimeoutError(f"it took more than {SECONDS[self.kind]:.0f} seconds")
            part = os.read(descriptor, 1 << 16)
            if not part:
                raise OSError("its process ended")
            self.left += part
        line, _, self.left = self.left.partition(b"\n")
        return line

    def end(self) -> None:
        """Ends the worker and what it runs."""
        process, self.process = self.process, None
        if process is None:
            return
        with contextlib.suppress(ProcessLookupError):
            os.killpg(process.pid, signal.SIGKILL)
        process.wait()
        for stream in process.stdout, process.stdin:
            with contextlib.suppress(OSError):  # a job that it hadn't read
                if stream is not None:
                    stream.close()

    def close(self) -> None:
        """Ends the worker and takes its folder away."""
        self.end()
        shutil.rmtree(self.room, ignore_errors=True)
