"""The reader of documents, against the program."""
import json
import unittest

from trial import Trial

from clio_tools import csv as clio_csv
from clio_tools import json as clio_json
from clio_tools.program import Refused
from clio_tools.mapping.text import read_sets

MAPPING = """mapping 1;
source { set club { cname; set member { mname; } } }
target { set seen { club, who; } }
rule club(c, n), member(c, m) -> seen(n, m);
"""
VALUES = ["1", "18446744073709551615", "18446744073709551616", "-9223372036854775808", "-9223372036854775809", "-0",
          "0", "01", "1.0", "1e2", "NaN",
          "Infinity", "true", "false", "null", '""', '"a\\u0000b"', '"\\ud83d\\ude00"', '"\\ud800"', '"a\nb"',
          '"\\\\."', "[]", "{}", "[1]", '"?x"']
DOCUMENTS = ["", "null", "[]", "{}", "[null]", "[1]", "\ufeff[]", '[{"cname": "a"}]',
             '[{"cname": "a", "cname": "b", "member": [{}]}]', '[{"town": 1}]',
             '[{"member": null}]', '[{"member": {}}]',
             '[{"member": [{"mname": 1}, {"mname": 2}]}, {"member": [{"x": 1}]}]', "[],", "[}", '[{"cname": "a"},]',
             "[" * 100_000, '[{"\\u0063name": "q", "member": [{}, {}]}]']


class Documents(Trial):
    def read(self, content: bytes) -> list[tuple[str, str]] | None:
        root = read_sets(MAPPING)["source"][0]
        try:
            found = clio_json.rows(content, root, "club.json")
        except Refused:
            return None
        names = {row[0]: row[1] for row in found.get("club", [])}
        return sorted({(names[row[0]], row[1]) for row in found.get("member", [])})

    def compare(self, content: bytes) -> None:
        self.file("mapping.clio", MAPPING)
        self.file("club.json", content)
        status, _ = self.clio("exchange")
        wanted = None
        if status == 0:
            rows = clio_csv.read_table(self.folder / "out/seen.csv", ["club", "who"])
            wanted = sorted(tuple(cell[1:] if cell.startswith("?") else cell for cell in row) for row in rows)
        self.assertEqual(self.read(content), wanted, content[:100])

    def test_documents(self) -> None:
        for text in DOCUMENTS:
            self.compare(text.encode())
        for value in VALUES:
            self.compare(f'[{{"cname": {value}, "member": [{{"mname": {value}}}, {{"mname": "x"}}]}}]'.encode())
        self.compare(b'[{"cname": "\xff"}]')

    def test_large(self) -> None:
        document = [{"cname": f"c{one}", "member": [{"mname": two} for two in range(20)]} for one in range(500)]
        self.compare(json.dumps(document).encode())


if __name__ == "__main__":
    unittest.main()
