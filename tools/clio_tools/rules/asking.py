"""What the program says of a mapping: its rules, its refusal, its answers to a query."""
import pathlib
import subprocess
import tempfile
from typing import Mapping, NamedTuple

from ..program import program


class Said(NamedTuple):
    """How the program ended, what it printed, and its message."""

    status: int
    printed: str
    message: str


def ask(words: list[str], files: Mapping[str, str], read: str = "") -> Said:
    """Runs clio on files in a folder of their own; `read` is a file that it writes, printed in place of what it
    prints."""
    with tempfile.TemporaryDirectory() as name:
        folder = pathlib.Path(name)
        for file, content in files.items():
            (folder / file).write_text(content, encoding="utf-8", newline="")
        done = subprocess.run([program(), *words], cwd=folder, capture_output=True, check=False)
        printed = done.stdout.decode("utf-8", "replace")
        if read and done.returncode == 0:
            printed = (folder / read).read_text(encoding="utf-8")
        return Said(done.returncode, printed, done.stderr.decode("utf-8", "replace").strip())


def rules_of(text: str) -> tuple[list[str], str]:
    """The rules that clio makes of a mapping text; or else its message."""
    said = ask(["show"], {"mapping.clio": text})
    if said.status:
        return [], said.message
    return [line for line in said.printed.split("\n") if line.startswith("rule ")], ""
