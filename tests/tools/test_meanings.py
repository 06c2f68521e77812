"""The table of conversions and row tests: what each gives, here and in SQL, and that another name is refused."""
import sqlite3
import unittest

from clio_tools.mapping.meanings import CONVERSIONS, TESTS, own
from clio_tools.program import Refused
from clio_tools.sql.words import DUCKDB, POSTGRES, SQLITE
from trial import Trial

# worked out by hand
CONVERTED = [("trim", (" a b ",), "a b"), ("trim", ("   ",), ""), ("trim", ("\ta ",), "\ta"),
             ("digits", ("+39 (02) 7",), "39027"), ("digits", ("\u0664",), ""), ("digits", ("",), ""),
             ("pair", ("a", ""), "a "), ("pair", ("a", "b"), "a b"), ("pair", ("'", "{0}"), "' {0}")]
TESTED = [("filled", "", False), ("filled", " ", True), ("numeric", "", False), ("numeric", "0123456789", True),
          ("numeric", "+39", False), ("numeric", "\u0664", False), ("numeric", "1\n", False)]


class Meanings(Trial):
    def setUp(self) -> None:
        super().setUp()
        self.base = sqlite3.connect(":memory:")
        self.addCleanup(self.base.close)
        for name, conversion in CONVERSIONS.items():
            self.base.create_function(own(name), conversion.arity, conversion.apply)

    def test_each_has_its_cases(self) -> None:
        self.assertEqual(list(CONVERSIONS), ["trim", "digits", "pair"])
        self.assertEqual({name for name, *_ in CONVERTED}, set(CONVERSIONS))
        self.assertEqual({name for name, *_ in TESTED}, set(TESTS))

    def test_conversions(self) -> None:
        for name, texts, made in CONVERTED:
            with self.subTest(name=name, texts=texts):
                self.assertEqual(len(texts), CONVERSIONS[name].arity)
                self.assertEqual(CONVERSIONS[name].apply(*texts), made)
                sql = CONVERSIONS[name].sql.sqlite.format("?1", "?2")
                self.assertEqual(self.base.execute(f"SELECT {sql}", texts).fetchone(), (made,))

    def test_row_tests(self) -> None:
        for name, text, holds in TESTED:
            with self.subTest(name=name, text=text):
                self.assertEqual(TESTS[name].holds(text), holds)
                sql = TESTS[name].sql.sqlite.format("?1")
                self.assertEqual(self.base.execute(f"SELECT {sql}", (text,)).fetchone(), (int(holds),))

    def test_other_names_are_refused(self) -> None:
        for words in POSTGRES, SQLITE, DUCKDB:
            self.assertEqual(words.exported('a0."upper"'), 'a0."upper"')
            self.assertEqual(words.exported('"pair"(a0."x", a1."y")'), """a0."x" || ' ' || a1."y\"""")
            with self.assertRaisesRegex(Refused, "knows no conversion upper"):
                words.exported('"upper"(a0."x")')
            with self.assertRaisesRegex(Refused, "knows no row test lower"):
                words.passes('"x"', "lower")
        for text in "line upper(a.x) -> b.x;", "only a.x lower;", "rule a(x) where y = upper(x) -> b(y);":
            self.file("mapping.clio", f"mapping 2; source {{ set a {{ x; }} }} target {{ set b {{ x; }} }} {text}")
            self.file("a.csv", "x\n1\n")
            for tool in ("clio-picture",), ("clio-tables", "sqlite"):
                self.refused(*tool, why="there is no conversion upper" if "upper" in text else "there is no test lower")


if __name__ == "__main__":
    unittest.main()
