"""Files that take their place whole or not at all, and are never written through a link or a pipe."""
import os
import pathlib
import sqlite3
import stat

from trial import Trial

from clio_tools.program import Refused
from clio_tools.safe_files import Fresh, replaced


MAPPING = "mapping 1; source { set a { x; } } target { set t { y; } } line a.x -> t.y;"


class SafeFiles(Trial):
    def names(self) -> list[str]:
        return sorted(path.name for path in self.folder.iterdir())

    def test_replaced(self) -> None:
        place = self.file("a", "old")
        place.chmod(0o640)
        with replaced(place) as file:
            file.write("new")
            self.assertEqual(place.read_text(), "old")
        self.assertEqual((place.read_text(), stat.S_IMODE(place.stat().st_mode), self.names()), ("new", 0o640, ["a"]))

    def test_failure(self) -> None:
        """What fails leaves the old file, and nothing beside it."""
        place = self.file("a", "old")
        with self.assertRaises(ValueError), replaced(place) as file:
            file.write("new")
            raise ValueError
        self.assertEqual((place.read_text(), self.names()), ("old", ["a"]))

    def test_link(self) -> None:
        """A link is replaced; what it leads to stays as it was, also if it isn't there."""
        victim = self.file("victim", "mine")
        for goal in "victim", "nothing":
            os.symlink(goal, self.folder / "a")
            with replaced(self.folder / "a") as file:
                file.write("new")
            self.assertFalse((self.folder / "a").is_symlink())
            self.assertEqual(((self.folder / "a").read_text(), victim.read_text()), ("new", "mine"))
            (self.folder / "a").unlink()
        self.assertEqual(self.names(), ["victim"])

    def test_no_file(self) -> None:
        os.mkfifo(self.folder / "pipe")
        (self.folder / "folder").mkdir()
        for name, why in ("pipe", "is a pipe"), ("folder", "is a folder"):
            with self.assertRaisesRegex(Refused, why):
                Fresh(self.folder / name)
        self.assertEqual(self.names(), ["folder", "pipe"])

    def test_names(self) -> None:
        """Nobody can foresee the name of a file that is being made."""
        one, other = Fresh(self.folder / "a"), Fresh(self.folder / "a")
        self.assertNotEqual(one.made, other.made)
        self.assertEqual({one.made.parent, other.made.parent}, {self.folder})
        for fresh in one, other:
            fresh.remove()
        self.assertEqual(self.names(), [])


class Tools(Trial):
    """The tools that write files, with a link and a pipe in the place of one."""

    def links(self, place: str) -> pathlib.Path:
        victim = self.file("victim", "mine")
        (self.folder / place).parent.mkdir(exist_ok=True)
        (self.folder / place).unlink(missing_ok=True)
        os.symlink(victim, self.folder / place)
        return victim

    def test_given(self) -> None:
        self.file("mapping.clio", "mapping 1; source { set s { x; } } target { set t { a; } }")
        base = sqlite3.connect(self.folder / "b.db")
        base.executescript("CREATE TABLE t (a); INSERT INTO t VALUES (1);")
        base.close()
        victim = self.links("given/t.csv")
        self.printed("clio-given", "sqlite", "b.db")
        self.assertEqual((victim.read_text(), (self.folder / "given/t.csv").read_text()), ("mine", "a\n1\n"))
        (self.folder / "given/t.csv").unlink()
        os.mkfifo(self.folder / "given/t.csv")
        self.refused("clio-given", "sqlite", "b.db", why="given/t.csv is a pipe")
        os.rename(self.folder / "given", self.folder / "other")
        os.symlink("other", self.folder / "given")
        self.refused("clio-given", "sqlite", "b.db", why="given is a link to other")

    def test_draft(self) -> None:
        self.file("in/t.csv", "a\n1\n")
        for name in "out/t.csv", "out/t.csv.part":
            victim = self.links(name)
        self.printed("clio-draft", "csv", "in", "--data", "out")
        self.assertEqual((victim.read_text(), (self.folder / "out/t.csv").read_text()), ("mine", "a\n1\n"))
        (self.folder / "out/t.csv").unlink()
        os.mkfifo(self.folder / "out/t.csv")
        self.refused("clio-draft", "csv", "in", "--data", "out", why="out/t.csv is a pipe")

    def test_report(self) -> None:
        self.file("mapping.clio", "mapping 1; source { set s { x; } set u { y; } } target { set t { a; } }"
                  "rule s(x), u(x) -> t(x);")
        self.file("s.csv", "x\n1\n2\n")
        self.file("u.csv", "y\n1\n")
        self.assertEqual(self.clio("exchange")[0], 0)
        victim = self.links("out/not-used-s.csv")
        self.printed("clio-report")
        self.assertEqual(victim.read_text(), "mine")
        self.assertFalse((self.folder / "out/not-used-s.csv").is_symlink())
        os.rename(self.folder / "out", self.folder / "other")
        os.symlink("other", self.folder / "out")
        self.refused("clio-report", why="out is a link to other")

    def endless(self, path: pathlib.Path, is_pipe: bool) -> None:
        """Puts a pipe, or a link to a device, into a place."""
        if is_pipe:
            os.mkfifo(path)
        else:
            path.symlink_to("/dev/zero")

    def test_what_never_ends_is_not_read(self) -> None:
        """A text or a source file in a folder of somebody else may be a pipe, or a link to a device."""
        text, source = self.folder / "mapping.clio", self.folder / "a.csv"
        for is_pipe in False, True:
            text.unlink(missing_ok=True)
            source.unlink(missing_ok=True)
            self.endless(text, is_pipe)
            for words in (["clio-picture"], ["clio-report"], ["clio-why", "t", "x"], ["clio-ids", "ids.db"],
                          ["clio-tables", "postgres"], ["clio-given", "sqlite", "x.db"], ["clio-load", "sqlite", "x.db"],
                          ["clio-rules", "--propose"]):
                self.refused(*words, why="mapping.clio is no file: take it away")
            text.unlink()
            text.write_text(MAPPING)
            self.endless(source, is_pipe)
            self.refused("clio-tables", "source", why="a.csv is no file: take it away")
        os.symlink("/dev/zero", self.folder / "a.json")
        self.refused("clio-draft", "json", "a.json", why="a.json is a device, and no file")
        text.write_text(f"{MAPPING}//{'x' * (1 << 20)}")
        self.refused("clio-tables", "postgres", why="mapping.clio is longer than clio reads")


if __name__ == "__main__":
    import unittest
    unittest.main()
