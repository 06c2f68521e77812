"""What the tests of clio-draw share: the examples, a folder with a copy of one, and one with a large mapping."""
import atexit
import contextlib
import csv
import os
import pathlib
import random
import select
import signal
import shutil
import subprocess
import sys
import tempfile
import time
from collections.abc import Callable, Iterator

from trial import PROGRAM, TOOLS, TOP

EXAMPLES = TOP / "examples"
os.environ["PATH"] = os.path.dirname(PROGRAM) + os.pathsep + os.environ["PATH"]  # the worker asks for the program there
SECONDS = 60  # in which clio-draw prints its address, and whatever else a test waits for is there
SETS, COLUMNS, LINES = 60, 800, 300  # of each side of the large mapping
THINGS = ["customer", "order", "invoice", "product", "stock", "vendor", "payment", "branch", "contract", "ticket",
          "asset", "shipment"]
PARTS = ["name", "street", "town", "zip", "phone", "mail", "created", "changed", "amount", "currency", "status", "note",
         "code", "kind", "weight", "colour", "owner", "level", "rate", "tax", "limit", "region"]
Made = tuple[str, list[str], int | None]  # a set, its columns, and the set that it refers to


def room() -> pathlib.Path:
    """An empty folder that goes with the tests."""
    made = pathlib.Path(tempfile.mkdtemp(prefix="clio-draw-test-"))
    atexit.register(shutil.rmtree, made, ignore_errors=True)
    return made


# Processes of clio-draw keep what Python makes of the modules for the next one, and not in the repository.
ENVIRONMENT = {name: value for name, value in os.environ.items() if name != "PYTHONDONTWRITEBYTECODE"}
ENVIRONMENT["PYTHONPYCACHEPREFIX"] = str(room())


@contextlib.contextmanager
def served(*words: str | pathlib.Path, env: dict[str, str] | None = None,
           cwd: pathlib.Path | None = None) -> Iterator["subprocess.Popen[str]"]:
    """clio-draw, which is ended in the end; a test fails if it doesn't end by itself. It hears Ctrl-C as on a terminal,
    also if the tests are run in the background.
    """
    with subprocess.Popen([sys.executable, "-B", TOOLS / "clio-draw", *words], stdout=subprocess.PIPE, text=True,
                          env=env, cwd=cwd, preexec_fn=lambda: signal.signal(signal.SIGINT, signal.SIG_DFL)) as process:
        try:
            yield process
            process.terminate()
            process.wait(SECONDS)
        finally:
            process.kill()


def first_line(process: "subprocess.Popen[str]") -> str:
    """The line that a process prints first."""
    assert process.stdout is not None
    if not select.select([process.stdout], [], [], SECONDS)[0]:
        raise TimeoutError(f"nothing is printed in {SECONDS} s")
    return process.stdout.readline().strip()


def until(is_so: Callable[[], object], what: str) -> None:
    """Waits until something is so."""
    end = time.monotonic() + SECONDS
    while not is_so():
        if time.monotonic() > end:
            raise TimeoutError(f"after {SECONDS} s it isn't so that {what}")
        time.sleep(.02)


def copy_of(name: str) -> pathlib.Path:
    """A folder with an example's files."""
    folder = room() / name
    shutil.copytree(EXAMPLES / name, folder)
    return folder


def texts() -> Iterator[tuple[pathlib.Path, bytes]]:
    """The mapping texts and drawings of all examples; the mapping beside a drawing is printed from it."""
    for path in sorted([*EXAMPLES.rglob("mapping.clio"), *EXAMPLES.rglob("drawing.clio")]):
        if path.name == "drawing.clio" or not path.with_name("drawing.clio").exists():
            yield path, path.read_bytes()


# --- a large mapping -------------------------------------------------------------------------------------------------

def sets(prefix: str, choice: random.Random) -> list[Made]:
    """Sets with their columns; the first column is a key, and most sets refer to one that is divisible by five."""
    made: list[Made] = []
    extra = COLUMNS - SETS * 13
    for number in range(SETS):
        name = f"{prefix}{THINGS[number % len(THINGS)]}_{number}"
        parts = choice.sample(PARTS, 11 + (1 if number < extra else 0))
        last = "link" if number % 5 else "root"
        made.append((name, [f"{name}_id", *parts, last], number - number % 5 if number % 5 else None))
    return made


def large_text(source: list[Made], target: list[Made]) -> str:
    """The mapping text."""
    made = ["mapping 2;"]
    for side, listed in ("source", source), ("target", target):
        made.append(f"{side} {{")
        for name, columns, ref in listed:
            made.append(f"  set {name} {{\n    {', '.join(columns)};\n    key ({columns[0]});")
            if ref is not None:
                word = " optional" if side == "target" else ""
                made.append(f"    ref (link) -> {listed[ref][0]} ({listed[ref][1][0]}){word};")
            made.append("  }")
        made.append("}")
    count = 0
    for number, ((name, columns, _), (other, others, _)) in enumerate(zip(source, target)):
        made.append(f"line {name}.{columns[0]} -> {other}.{others[0]};")
        same = [column for column in columns if column in others and column not in ("link", "root")]
        for column in same[:5 if number % 3 else 3]:
            if count + number < LINES:
                made.append(f"line {name}.{column} -> {other}.{column};")
                count += 1
    return "\n".join(made) + "\n"


def large(rows: int) -> pathlib.Path:
    """A folder with a large mapping, with so many rows of each source set."""
    folder, choice = room(), random.Random(1)
    source, target = sets("s_", choice), sets("t_", choice)
    (folder / "mapping.clio").write_text(large_text(source, target))
    for number, (name, columns, ref) in enumerate(source):
        with open(folder / f"{name}.csv", "w", newline="", encoding="utf-8") as file:
            writer = csv.writer(file, lineterminator="\n")
            writer.writerow(columns)
            for row in range(rows):
                link = f"{ref}-{choice.randrange(rows)}" if ref is not None else f"r{row}"
                cells = [f"{column} {choice.randrange(1000)}" for column in columns[1:-1]]
                writer.writerow([f"{number}-{row}", *cells, link])
    return folder
