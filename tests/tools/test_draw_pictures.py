"""The pictures of clio-draw in the documents: with PICTURES they are made anew.

    PICTURES=docs/figures dev/python tests/tools/test_draw_pictures.py"""
import os
import pathlib
import unittest

import draw_trial
from draw_page import Page
from small_png import small
from trial import TOP

MOST_BYTES = 60_000
NAMES = "draw-line", "draw-ways", "draw-why", "draw-why-dark"
FOLDER = os.environ.get("PICTURES", "")


@unittest.skipUnless(FOLDER, "PICTURES names no folder")
class Pictures(Page):
    def setUp(self) -> None:
        super().setUp()
        self.browser.size(1040, 600)
        self.addCleanup(self.browser.size, 1400, 900)

    def shot(self, name: str) -> None:
        """A picture, which is small; what is warned of comes last."""
        self.until_shown("#tab-warnings", "(")
        self.browser.js("document.activeElement.blur()")
        path = pathlib.Path(FOLDER, f"{name}.png")
        self.browser.shot(path)
        path.write_bytes(small(path.read_bytes()))

    def test_a_line(self) -> None:
        self.open(draw_trial.copy_of("teams"))
        self.browser.drag('#source [data-key="emp.dept"]', '#target [data-key="person.phone"]')
        self.until_text("line emp.dept -> person.phone;")
        self.settled()
        self.until_shown("[data-table=person] tbody", "toys")
        self.browser.js("(document.getElementById('status').textContent = '', 1)")
        self.shot("draw-line")

    def test_ways(self) -> None:
        folder = draw_trial.copy_of("flights")
        text = (folder / "drawing.clio").read_text()
        (folder / "drawing.clio").write_text(text.replace("line port.city -> leg.b by arr;\n", ""))
        self.open(folder)
        self.browser.drag('#source [data-key="port.city"]', '#target [data-key="leg.b"]')
        self.browser.until("document.getElementById('ways').open")
        self.browser.js("(document.getElementById('status').textContent = '', 1)")
        self.shot("draw-ways")

    def test_why(self) -> None:
        self.open(draw_trial.copy_of("flights"))
        self.browser.click('[data-table="leg"] tbody tr')
        self.browser.until("!document.getElementById('why').hidden")
        self.browser.js("(document.getElementById('status').textContent = '', 1)")
        self.shot("draw-why")
        self.addCleanup(self.browser.dark, False)
        self.browser.dark(True)
        self.shot("draw-why-dark")


class Made(unittest.TestCase):
    def test_the_documents_have_them(self) -> None:
        for name in NAMES:
            path = TOP / "docs" / "figures" / f"{name}.png"
            self.assertLess(path.stat().st_size, MOST_BYTES, path)


if __name__ == "__main__":
    unittest.main()
