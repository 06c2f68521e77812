"""What the tests of the tools have in common: a folder with a mapping, and how the program and the tools are run in
it.
"""
import os
import pathlib
import subprocess
import sys
import tempfile
import unittest
from collections.abc import Sequence

TOP = pathlib.Path(__file__).resolve().parent.parent.parent
TOOLS = TOP / "tools"
os.environ.pop("PYTHONPATH", None)  # the tools find their modules by themselves
MODES: list[list[str]] = [[], ["--core"]]  # the words of the plain mode, and of core mode
TIMES = int(os.environ.get("TIMES", "1"))  # so many times as many random cases
PROGRAM = subprocess.run([TOP / "dev/program"], capture_output=True, text=True, check=False).stdout.strip()


class Trial(unittest.TestCase):
    """A test in a folder of its own."""

    def setUp(self) -> None:
        kept = tempfile.TemporaryDirectory()
        self.addCleanup(kept.cleanup)
        self.folder = pathlib.Path(kept.name)

    def file(self, name: str, content: str | bytes) -> pathlib.Path:
        path = self.folder / name
        path.parent.mkdir(parents=True, exist_ok=True)
        path.write_bytes(content if isinstance(content, bytes) else content.encode("utf-8"))
        return path

    def clio(self, *words: str) -> tuple[int, str]:
        """The program's status and what it prints."""
        done = subprocess.run([PROGRAM, *words], cwd=self.folder, capture_output=True, check=False, timeout=300)
        return done.returncode, done.stdout.decode()

    def tool(self, name: str, *words: str | bytes, text: str = "") -> tuple[int, str, str]:
        """A tool's status, what it prints, and what it says on standard error."""
        done = subprocess.run([sys.executable, "-B", TOOLS / name, *words], cwd=self.folder, input=text.encode(),
                              capture_output=True, check=False, timeout=300)
        return done.returncode, done.stdout.decode(), done.stderr.decode()

    def printed(self, name: str, *words: str | bytes, text: str = "") -> str:
        """What a tool prints that ends with status 0."""
        status, out, said = self.tool(name, *words, text=text)
        self.assertEqual(status, 0, said)
        return out

    def refused(self, name: str, *words: str | bytes, text: str = "", why: str = "") -> None:
        """A tool ends with status 2, prints nothing, and says why."""
        status, out, said = self.tool(name, *words, text=text)
        self.assertEqual((status, out), (2, ""), said)
        self.assertIn(why, said)


def copy_mapping(columns: Sequence[str], count: int = 1) -> str:
    """A mapping text that copies the tables a0, a1 and so on into b0, b1 and so on."""
    listed = ", ".join(columns)
    sides = ["".join(f"set {side}{number} {{ {listed}; }} " for number in range(count)) for side in "ab"]
    lines = "".join(f"line a{number}.{column} -> b{number}.{column};\n" for number in range(count)
                    for column in columns)
    return f"mapping 1;\nsource {{ {sides[0]}}}\ntarget {{ {sides[1]}}}\n{lines}"
