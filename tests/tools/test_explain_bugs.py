"""clio-explain when it fails itself: what clio said and its status stay, and one line says what to report."""
import os
import subprocess
import sys

from trial import PROGRAM, TOOLS, Trial

FAILING = """
import clio_tools.explain.command as command
def explained(status, message, words):
    yield "begun"
    raise {error}
command.explained = explained
command.main()
"""


class ExplainBugs(Trial):
    """The tool with an explanation that fails, in a folder without a mapping, for which clio ends with status 4."""

    def failing(self, error: str, **more: str) -> tuple[int, str]:
        """The status, and what is said."""
        os.symlink(PROGRAM, self.folder / "clio")
        places = {**os.environ, "PATH": f"{self.folder}{os.pathsep}{os.environ['PATH']}", "PYTHONPATH": str(TOOLS)}
        done = subprocess.run([sys.executable, "-B", "-c", FAILING.format(error=error), "show"], cwd=self.folder,
                              env=places | more, capture_output=True, text=True, check=False, timeout=60)
        return done.returncode, done.stderr

    def test_bug(self) -> None:
        """An error that nobody foresaw is one line, with what to report and how."""
        status, said = self.failing("KeyError('\\x1b[31m and\\n more')")
        lines = said.splitlines()
        self.assertEqual((status, len(lines)), (4, 3), said)
        self.assertEqual(lines[:2], ["mapping: mapping.clio is absent", "  begun"])
        self.assertRegex(lines[2], r"clio-explain: no more can be said of it: this is a bug in the tool \(KeyError: .*;"
                                   " report it to whoever gave you clio, with the command")
        self.assertNotIn("\x1b", said)

    def test_whole(self) -> None:
        """What is to be reported is said if it is asked for."""
        status, said = self.failing("KeyError('x')", CLIO_TRACEBACK="1")
        self.assertEqual(status, 4)
        self.assertIn("Traceback (most recent call last)", said)

    def test_file(self) -> None:
        """A file that can't be read any more is no bug."""
        status, said = self.failing("FileNotFoundError(2, 'No such file or directory', 'emp.csv')")
        self.assertEqual(status, 4)
        self.assertTrue(said.endswith("\nclio-explain: no more can be said of it: emp.csv: No such file or directory\n"),
                        said)
