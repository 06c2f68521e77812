"""A page of clio-draw in Chromium, for the tests of the page."""
import json
import pathlib
import unittest

import chromium
import draw_trial


MOST_SILENT = 2  # browsers that are killed before no other is started


class Shared:
    """The one browser of a module's scenarios; after one that was killed, since it didn't answer, there is another."""

    def __init__(self) -> None:
        self.one: chromium.Chromium | None = None
        self.silent = 0

    def browser(self) -> chromium.Chromium:
        """The browser, which is started if there is none."""
        if self.one is not None and self.one.ended:
            self.one, self.silent = None, self.silent + 1
        if self.silent == MOST_SILENT:
            raise chromium.Failed(f"{MOST_SILENT} browsers didn't answer in time: no other is started")
        if self.one is None:
            try:
                self.one = chromium.Chromium()
            except TimeoutError:
                self.silent += 1
                raise
        return self.one

    def close(self) -> None:
        """Ends the browser."""
        if self.one is not None and not self.one.ended:
            self.one.close()
            self.one = None


shared = Shared()


class Page(unittest.TestCase):
    """Scenarios in one browser; after each nothing was complained of, and no request has left."""

    @classmethod
    def setUpClass(cls) -> None:
        if chromium.PATH is None:
            print("tools: clio-draw's page is left out, since there is no Chromium", flush=True)
            raise unittest.SkipTest("no Chromium")
        unittest.addModuleCleanup(shared.close)

    def setUp(self) -> None:
        self.browser = shared.browser()

    def open(self, folder: pathlib.Path) -> None:
        """The page of a folder, after its first live run."""
        server = self.enterContext(draw_trial.served(folder, env=draw_trial.ENVIRONMENT))
        self.address = draw_trial.first_line(server)
        self.addCleanup(self.leave)
        self.browser.events.clear()
        self.browser.go(self.address)
        self.browser.until("globalThis.clioDraw && clioDraw.model.live !== null", 120)

    def leave(self) -> None:
        """Leaves the page; its server ends then."""
        if self.browser.ended:
            return
        self.browser.js("(globalThis.clioDraw && (clioDraw.model.saved = clioDraw.model.text), 1)")  # no question
        self.browser.go("about:blank")
        self.assertEqual(self.browser.faults(), [])
        elsewhere = [url for url in self.browser.requests() if not url.startswith(self.address)]
        self.assertEqual([url for url in elsewhere if url != "about:blank"], [])

    def text(self) -> str:
        """The text of the page."""
        return str(self.browser.js("clioDraw.model.text"))

    def until_text(self, part: str) -> None:
        """Waits until the text has a part."""
        self.browser.until(f"clioDraw.model.text.includes({json.dumps(part)})")

    def until_shown(self, selector: str, part: str) -> None:
        """Waits until an element has a part of a text."""
        self.browser.until(f"document.querySelector({json.dumps(selector)})?.textContent.includes({json.dumps(part)})")

    def shown(self, selector: str) -> str:
        """What an element shows."""
        return str(self.browser.js(f"document.querySelector({json.dumps(selector)}).textContent"))

    def count(self, selector: str) -> int:
        """How many elements there are."""
        return int(self.browser.js(f"document.querySelectorAll({json.dumps(selector)}).length"))

    def settled(self) -> None:
        """Waits until the last text has had its live run."""
        self.browser.until("clioDraw.model.liveText === clioDraw.model.text && clioDraw.model.current", 120)

    def choose(self, selector: str, value: str) -> None:
        """Chooses from a list."""
        self.browser.js(f"(() => {{ const s = document.querySelector({json.dumps(selector)}); "
                        f"s.value = {json.dumps(value)}; s.dispatchEvent(new Event('change')) }})()")

    def caret(self, place: str) -> None:
        """Puts the caret at a place of the text."""
        self.browser.js("(() => { const t = document.getElementById('text'); t.focus(); "
                        f"t.setSelectionRange({place}, {place}) }})()")
