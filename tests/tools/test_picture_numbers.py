"""clio-picture: a hand-written rule has the number that clio gives it."""
import re

from clio_tools.picture.svg import LETTER
from trial import Trial

MAPPING = """mapping 1;
source { set a { x, y; } }
target { set b { x, y; } set c { x; } }
line a.x -> b.x;
line a.y -> b.y;
rule a(p, q) -> b(p, z);
rule a(p, q) -> c(p);
"""


class Numbers(Trial):
    """A mapping whose lines make rule 0, and imply the first of two hand-written rules."""

    def test_numbers(self) -> None:
        """The numbers are those of the lines that `clio show` prints, from 0; a rule that it leaves out has none."""
        self.file("mapping.clio", MAPPING)
        shown = [line for line in self.clio("show")[1].split("\n") if line.startswith("rule ")]
        self.assertEqual(shown, ["rule a(x0, x1) -> b(x0, x1);", "rule a(x0, x1) -> c(x0);"])
        drawn = self.printed("clio-picture")
        self.assertIn(">rule 1<", drawn)
        self.assertNotIn(">rule 0<", drawn)
        title = "left out, since other rules imply it"
        starts = [float(found[1]) for found in re.finditer(rf'<text x="([0-9]+)"[^>]*>(?:rule 1|{title})<', drawn)]
        self.assertEqual(len(starts), 2)
        self.assertGreater(starts[1], starts[0] + len(title) * LETTER)

    def test_refused(self) -> None:
        """If clio refuses the rules by a limit, they have no numbers."""
        atoms = ", ".join(["a(p, q)"] * 65)
        self.file("mapping.clio", MAPPING + f"rule {atoms} -> c(p);\n")
        self.assertEqual(self.clio("show")[0], 6)
        self.assertIn(">a hand-written rule<", self.printed("clio-picture"))
