"""Tools whose standard output can't be written: they end with status 2 and one line, which is no bug."""
import subprocess
import sys

from trial import TOOLS, Trial

MAPPING = """mapping 1;
source { set a { n; } }
target { set b { n; } }
line a.n -> b.n;
"""


class ClosedOutput(Trial):
    """Tools that print what they make."""

    def refused_into(self, output: str, said: str) -> None:
        """Each tool says why, in one line."""
        self.file("mapping.clio", MAPPING)
        self.file("a.csv", "n\nann\n")
        self.assertEqual(self.clio("exchange")[0], 0)
        for name, words in [("clio-picture", ""), ("clio-report", ""), ("clio-draft", "csv ."),
                            ("clio-tables", "sqlite"), ("clio-explain", "version")]:
            with self.subTest(name):
                done = subprocess.run(f"'{sys.executable}' -B '{TOOLS / name}' {words} {output}", shell=True, text=True,
                                      cwd=self.folder, capture_output=True, check=False, timeout=60)
                self.assertEqual((done.returncode, done.stderr), (2, f"{name}: {said}\n"))

    def test_closed(self) -> None:
        """There is no standard output."""
        self.refused_into(">&-", "standard output is closed")

    def test_full(self) -> None:
        """The disk is full."""
        self.refused_into("> /dev/full", "No space left on device")
