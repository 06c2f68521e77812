"""The tools, each run in a process of its own that has the modules of this one, which saves most of its time: for
dev/check.
"""
import importlib
import os
import pathlib
import runpy
import signal
import sys
import tempfile
import traceback
from collections.abc import Sequence
from typing import IO

for module in ("draft.postgres", "draft.sqlite", "tables.bases", "sql.command", "load.command", "load.postgres",
               "load.sqlite"):
    importlib.import_module(f"clio_tools.{module}")

TOOLS = pathlib.Path(__file__).resolve().parent.parent.parent / "tools"


def ended(name: str, words: Sequence[str], folder: pathlib.Path, text: str = "") -> tuple[int, str, str]:
    """How a tool ends: its status, what it prints and what it says."""
    with tempfile.TemporaryFile() as given, tempfile.TemporaryFile() as printed, tempfile.TemporaryFile() as said:
        given.write(text.encode())
        given.seek(0)
        child = os.fork()
        if not child:
            os._exit(run_here(name, words, folder, (given, printed, said)))
        status = os.waitstatus_to_exitcode(os.waitpid(child, 0)[1])
        for file in printed, said:
            file.seek(0)
        return status, printed.read().decode(), said.read().decode()


def run_here(name: str, words: Sequence[str], folder: pathlib.Path, files: Sequence[IO[bytes]]) -> int:
    """Runs a tool in this process, which is there for it alone; answers its status."""
    try:
        signal.signal(signal.SIGTERM, signal.SIG_DFL)
        os.chdir(folder)
        for number, file in enumerate(files):
            os.dup2(file.fileno(), number)
        sys.stdin = open(0, encoding="utf-8")
        sys.stdout, sys.stderr = open(1, "w", encoding="utf-8"), open(2, "w", encoding="utf-8")
        sys.argv = [name, *words]
        try:
            runpy.run_path(str(TOOLS / name), run_name="__main__")
            status = 0
        except SystemExit as end:
            status = end.code if isinstance(end.code, int) else int(end.code is not None)
        sys.stdout.flush()
        sys.stderr.flush()
        return status
    except BaseException:  # pylint: disable=broad-except
        os.write(2, traceback.format_exc().encode("utf-8", "backslashreplace"))
        return 1
