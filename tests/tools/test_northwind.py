"""The example northwind: from its databases by clio-draft, clio-rules and clio; what SQL makes is the core of it."""
import pathlib
import subprocess
import sys

from drawing_trial import clio, lines_alone
from trial import TOP, Trial

EXAMPLE = TOP / "examples" / "northwind"


class Northwind(Trial):
    def test_it_runs_as_the_manual_says(self) -> None:
        self.make("make-data")
        source = self.printed("clio-draft", "sqlite", "old.db", "--drawing", "--data", ".")
        target = self.printed("clio-draft", "sqlite", "new.db", "--drawing", "--side", "target")
        drawing = (EXAMPLE / "drawing.clio").read_text(encoding="utf-8")
        head = "mapping 2;\n" + source + target
        self.assertTrue(drawing.startswith(head))
        self.assertLessEqual(drawing.removeprefix(head).count("\n"), 60)
        self.file("drawing.clio", drawing)
        self.assertEqual(self.tool("clio-rules", "--write"), (0, "", ""))
        self.assertEqual((self.folder / "mapping.clio").read_bytes(), (EXAMPLE / "mapping.clio").read_bytes())
        self.assertEqual(self.clio("exchange")[0], 0)
        self.make("make-given")
        self.assertEqual(self.clio("judge"), (0, "verdict core\n"))
        self.assertEqual(self.rows("out"), self.rows("given"))

    def test_its_lines_alone_are_refused(self) -> None:
        self.file("mapping.clio", lines_alone((EXAMPLE / "drawing.clio").read_bytes()))
        self.assertEqual(clio(self.folder, "show")[2], "limit: variants 256")

    def make(self, name: str) -> None:
        """Runs a program of the example."""
        subprocess.run([sys.executable, "-B", EXAMPLE / name, self.folder], check=True)

    def rows(self, where: str) -> dict[str, int]:
        """How many lines each table has that SQL made."""
        tables = sorted(pathlib.Path(self.folder, "given").glob("*.csv"))
        return {path.name: (self.folder / where / path.name).read_bytes().count(b"\n") for path in tables}

    def test_names_suggest_notes(self) -> None:
        """Both refs of a pair are proposed, each with its `by`."""
        self.file("source", "source {\n  set orders {\n    number, ship, bill;\n    ref (ship) -> place (id);  // line "
                  ".. by ship\n"
                  "    ref (bill) -> place (id);  // line .. by bill\n  }\n  set place {\n    id, city;\n  }\n}\n")
        self.file("new/order.csv", "number,city,ship_city\n")
        target = self.printed("clio-draft", "csv", "new", "--side", "target", "--drawing", "--lines-from", "source")
        self.assertEqual(target.split("\n\n")[1], "// What names suggest: take away the // of what is meant.\n"
                         "// rows order from orders;\n// line orders.number -> order.number;\n"
                         "// line place.city -> order.city by ship;\n// line place.city -> order.city by bill;\n"
                         "// line place.city -> order.ship_city by ship;\n")
        self.refused("clio-draft", "csv", "new", "--lines-from", "source",
                     why="--lines-from is for the target of a drawing")

    def test_texts_suggest_notes(self) -> None:
        """Columns of other names whose texts are those of a source column, of the set itself or a step away."""
        self.file("source", "source {\n  set orders {\n    number, ship, flag;\n    ref (ship) -> place (id);\n  }\n"
                            "  set place {\n    id, city;\n  }\n}\n")
        self.file("orders.csv", "number,ship,flag\n1,a,y\n2,b,n\n3,c,y\n4,zz,y\n")
        self.file("place.csv", "id,city\na,Rome\nb,Bonn\nc,Oslo\n")
        self.file("new/sale.csv", "code,town,is_open\n2,Bonn,y\n3,Oslo,n\n1,Rome,y\n")
        words = ["clio-draft", "csv", "new", "--side", "target", "--drawing", "--lines-from", "source"]
        self.assertEqual(self.printed(*words, "--data", ".").split("\n\n")[1],
                         "// What names and texts suggest: take away the // of what is meant.\n"
                         "// rows sale from orders;\n// line orders.number -> sale.code;  // the same texts\n"
                         "// line place.city -> sale.town by ship;  // the same texts\n")
        self.assertIn("// rows sale from ..;\n", self.printed(*words))
        self.assertEqual((self.folder / "orders.csv").read_text().count("\n"), 5)
        self.refused(*words, "--data", ".", "--mapping", "m", why="--lines-from goes without --mapping")
