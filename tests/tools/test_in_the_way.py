"""clio itself, with a link or a pipe in the place of what it writes and reads: nothing is written through a link, no pipe
is waited for. And what no case of examples/cases can have: a loop of links, a word that is no text, a last byte 26.
"""
import os
import subprocess
import unittest

from trial import PROGRAM, Trial

MAPPING = "mapping 1; source { set a { x; } } target { set t { alias; } } line a.x -> t.alias;"


class InTheWay(Trial):
    def setUp(self) -> None:
        super().setUp()
        self.file("mapping.clio", MAPPING)
        self.file("a.csv", "x\ntouch PWNED\n")

    def test_a_link_in_the_place_of_a_file(self) -> None:
        """A folder of someone else's has a link to a file of the user's, which stays as it was."""
        victim = self.file("home/.bashrc", "mine\n")
        (self.folder / "out").mkdir()
        place = self.folder / "out/t.csv"
        os.symlink("../home/.bashrc", place)
        self.assertEqual(self.clio("exchange")[0], 0)
        self.assertEqual(victim.read_text(), "mine\n")
        self.assertEqual((place.is_symlink(), place.read_text()), (False, "alias\ntouch PWNED\n"))

    def test_a_link_in_the_place_of_out(self) -> None:
        (self.folder / "else").mkdir()
        os.symlink("else", self.folder / "out")
        self.assertEqual(self.clio("exchange")[0], 8)
        self.assertEqual(list((self.folder / "else").iterdir()), [])

    def test_pipes(self) -> None:
        """One in the place of a file is replaced; one in the place of a source is a read fault at once."""
        (self.folder / "out").mkdir()
        os.mkfifo(self.folder / "out/t.csv")
        self.assertEqual(self.clio("exchange")[0], 0)
        self.assertEqual((self.folder / "out/t.csv").read_text(), "alias\ntouch PWNED\n")
        (self.folder / "a.csv").unlink()
        os.mkfifo(self.folder / "a.csv")
        self.assertEqual(self.clio("exchange")[0], 7)

    def test_a_loop_of_links(self) -> None:
        """What is there and can't be opened is a read fault, and not absent."""
        (self.folder / "a.csv").unlink()
        os.symlink("a.csv", self.folder / "a.csv")
        self.assertEqual(self.clio("exchange")[0], 7)

    def test_a_word_that_is_no_text(self) -> None:
        """No command has such a word, wherever it is, and nothing is written or printed for one."""
        for words in [b"exchange", b"\xff"], [b"\xff", b"exchange"], [b"\xff"]:
            done = subprocess.run([PROGRAM, *words], cwd=self.folder, capture_output=True, check=False)
            self.assertEqual((done.returncode, done.stdout), (2, b""))
            self.assertIn(b"usage: clio", done.stderr)
            self.assertFalse((self.folder / "out").exists())

    def test_a_last_byte_26(self) -> None:
        """It is a byte of the last cell, and no end of the file."""
        self.file("a.csv", b"x\nabc\x1a")
        self.assertEqual(self.clio("exchange")[0], 0)
        self.assertEqual((self.folder / "out/t.csv").read_bytes(), b"alias\nabc\x1a\n")


if __name__ == "__main__":
    unittest.main()
