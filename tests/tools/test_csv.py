"""The reader and the writer of CSV, against the program, on hostile files."""
import random
import unittest
from collections.abc import Iterable

from trial import TIMES, Trial, copy_mapping

from clio_tools import csv as clio_csv
from clio_tools.program import Refused

SIGNS = [b",", b'"', b'""', b"\n", b"\r", b"\r\n", b"a", b"b7", b"\\", b"\\.", b" ", b"?", b"??0.0.0", b"\t", b"\0",
         b"\xc3\xa9",
         b"\xef\xbb\xbf", b"\x1c", b"\xe2\x80\xa8", b'"x,y"', b'"x\ny"']
PLAIN = [b"a", b"b7", b" ", b"?", b"\\.", "\u00e9\u20ac".encode()]
QUOTED = [*PLAIN, b",", b'""', b"\n", b"\r", b"\r\n"]
FILES = [
    b"", b"\n\n", b"x", b"x\n", b"\xef\xbb\xbfx\n1\n", b"\xef\xbb\xbf\xef\xbb\xbfx\n1\n", b"x\r1\r2", b'x\n""\n',
    b'x\n"', b'x\n"a', b'x\n"a""', b'"x"\na',
    b"x\n\xff\n", b"x\n\xed\xa0\x80\n", b"x\n1,2\n", b"x\n\\.\n", b"x\n5\" disk\n", b'x\n"5"-6" disk\n',
    b'x\n5"-6" disk\n', b"X\n1\n", b" x\n1\n",
    b"x\n" + b"a" * 5_000_000 + b"\n", b'x\n"' + b'""\n' * 100_000 + b'"\n', b"x\n1\n2", b"x\r\n1\n2\r3\r\n\r\n",
    b'x\n"a"b"c"\n',
    b'x\n"\xc3"\xa9\n',
]


def hostile(choice: random.Random, columns: list[str]) -> bytes:
    """A file of random signs under a good header."""
    head = ",".join(columns).encode() + choice.choice([b"\n", b"\r", b"\r\n"])
    if len(columns) == 1:
        return head + b"".join(choice.choices(SIGNS, k=choice.randrange(12)))
    fields = [[b"".join(choice.choices(SIGNS, k=choice.randrange(4))) for _ in columns]
              for _ in range(choice.randrange(4))]
    return head + b"".join(b",".join(row) + choice.choice([b"\n", b"\r\n", b""]) for row in fields)


def field_of(choice: random.Random) -> bytes:
    """A field that stands as it is, or whole in quotes."""
    if choice.random() < 0.5:
        return b"".join(choice.choices(PLAIN, k=choice.randrange(3)))
    return b'"' + b"".join(choice.choices(QUOTED, k=choice.randrange(5))) + b'"'


def orderly(choice: random.Random, columns: list[str]) -> bytes:
    """A file of such fields; in one of three stands a random sign somewhere."""
    end = choice.choice([b"\n", b"\r", b"\r\n"])
    rows = [b",".join(field_of(choice) for _ in columns) for _ in range(choice.randrange(6))]
    head = ",".join(columns).encode() + end
    body = end.join(rows) + choice.choice([end, b""])
    place = choice.randrange(len(body) + 1)
    sign = choice.choice(SIGNS) if choice.random() < 0.3 else b""
    return head + body[:place] + sign + body[place:]


class Reading(Trial):
    def read(self, content: bytes, columns: list[str]) -> list[tuple[str, ...]] | None:
        """The rows that the tools read, or nothing if they refuse the file."""
        path = self.file("read.csv", content)
        try:
            rows = list(clio_csv.read_table(path, columns))
        except Refused:
            return None
        self.assertEqual([[clio_csv.text(field) for field in fields] for _, fields in clio_csv.records(content)],
                         list(clio_csv.read_records(path)))
        return sorted({tuple(row) for row in rows})

    def made(self, name: str, columns: list[str]) -> list[tuple[str, ...]]:
        """The rows that the program wrote, with the bytes of the file made again."""
        path = self.folder / "out" / name
        rows = list(clio_csv.read_table(path, columns))
        self.assertEqual((clio_csv.record_text(columns) + "".join(map(clio_csv.record_text, rows))).encode(),
                         path.read_bytes())
        return sorted(tuple(cell[1:] if cell.startswith("?") else cell for cell in row) for row in rows)

    def compare(self, contents: Iterable[bytes], columns: list[str]) -> None:
        """The program refuses what the tools refuse, and reads the same rows of the others."""
        read = [(content, self.read(content, columns)) for content in contents]
        self.file("mapping.clio", copy_mapping(columns))
        for content in [content for content, rows in read if rows is None]:
            self.file("a0.csv", content)
            self.assertNotEqual(self.clio("exchange")[0], 0, content[:200])
        taken = [(content, rows) for content, rows in read if rows is not None]
        for start in range(0, len(taken), 60):
            batch = taken[start : start + 60]
            self.file("mapping.clio", copy_mapping(columns, len(batch)))
            for number, (content, _) in enumerate(batch):
                self.file(f"a{number}.csv", content)
            self.assertEqual(self.clio("exchange")[0], 0)
            for number, (content, rows) in enumerate(batch):
                self.assertEqual(self.made(f"b{number}.csv", columns), rows, content[:200])

    def test_files(self) -> None:
        self.compare(FILES, ["x"])

    def test_random_files(self) -> None:
        choice = random.Random(48)
        for columns in ["x"], ["x", "y"], ["x", "y", "z"]:
            self.compare([hostile(choice, columns) for _ in range(250)], columns)
            self.compare([orderly(choice, columns) for _ in range(250 * TIMES)], columns)


class Writing(Trial):
    def test_round_trip(self) -> None:
        rows = [["", ""], ["a\rb", "c\nd"], ['"', ","], ["\\.", "\0"], ["\ufeffx", "é"]]
        self.assertEqual(clio_csv.write_table(self.folder / "a.csv", ["x", "y"], rows), len(rows))
        self.assertEqual(list(clio_csv.read_table(self.folder / "a.csv", ["x", "y"])), rows)
        self.assertEqual(clio_csv.record_text([""]), '""\n')

    def test_refusals(self) -> None:
        for content, why in [(b"", "no header"), (b"y\n", "the header is y"), (b"x\n1\n1,2\n", "record 2 has 2"),
                             (b"x\n\n1\n\xff\n", "record 2, at line 4")]:
            path = self.file("a.csv", content)
            with self.assertRaisesRegex(Refused, why):
                list(clio_csv.read_table(path, ["x"]))


if __name__ == "__main__":
    unittest.main()
