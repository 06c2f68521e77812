"""Crosswalks that an older clio-ids made, which kept names as hashes."""
import sqlite3

from trial import Trial

MAPPING = """mapping 1;
source { set a { n; } }
target { set b { id, n; key (id); key (n); } }
line a.n -> b.n;
"""
OLD = """PRAGMA application_id = 1668049263; PRAGMA user_version = 1;
CREATE TABLE identity (digest BLOB PRIMARY KEY, number INTEGER NOT NULL, sureness INTEGER NOT NULL, text TEXT NOT NULL)
 WITHOUT ROWID;
CREATE TABLE own (number INTEGER PRIMARY KEY);
CREATE TABLE numbered (set_name TEXT, column_name TEXT, is_numbered INTEGER NOT NULL,
 PRIMARY KEY (set_name, column_name));
CREATE TABLE written (name TEXT PRIMARY KEY, digest BLOB NOT NULL);
CREATE TABLE next (number INTEGER NOT NULL);
INSERT INTO next VALUES (5);
"""


class OldCrosswalks(Trial):
    """A target in out, and a crosswalk."""

    def setUp(self) -> None:
        super().setUp()
        self.file("mapping.clio", MAPPING)
        self.file("a.csv", "n\nann\n")
        self.assertEqual(self.clio("exchange")[0], 0)

    def test_refused(self) -> None:
        """It is refused with what to do, and neither it nor a file of out is changed."""
        sqlite3.connect(self.folder / "ids.db").executescript(OLD)
        before = {path: path.read_bytes() for path in [self.folder / "ids.db", *(self.folder / "out").iterdir()]}
        self.refused("clio-ids", "ids.db", why="ids.db was made by an older clio-ids, which kept names as hashes alone,"
                     " so its numbers can't be taken over: name a new file, and load all tables anew")
        self.assertEqual({path: path.read_bytes() for path in before}, before)

    def test_of_a_later_one(self) -> None:
        """One of a version that isn't known is refused too."""
        sqlite3.connect(self.folder / "ids.db").executescript(OLD.replace("user_version = 1", "user_version = 77"))
        self.refused("clio-ids", "ids.db", why="ids.db was made by another clio-ids than this one")
