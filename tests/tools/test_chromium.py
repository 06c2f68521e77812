"""A browser of the tests that doesn't answer in time is killed with all its processes."""
import os
import signal
import unittest
import unittest.mock

import chromium


@unittest.skipUnless(chromium.PATH, "no Chromium")
class Silent(unittest.TestCase):
    def test_a_browser_that_does_not_answer_is_killed(self) -> None:
        browser = chromium.Chromium()
        self.addCleanup(browser.kill)
        self.assertEqual(browser.js("1 + 1"), 2)
        session = browser.process.pid
        self.assertGreater(len(chromium.members(session)), 1)
        os.kill(session, signal.SIGSTOP)
        with unittest.mock.patch.object(chromium, "ANSWER", 1):
            with self.assertRaisesRegex(TimeoutError, "doesn't answer Runtime.evaluate in 1 s: it is killed"):
                browser.js("1 + 1")
        self.assertTrue(browser.ended)
        self.assertEqual(chromium.members(session), [])
        with self.assertRaisesRegex(chromium.Failed, "was killed"):
            browser.js("1 + 1")

    def test_no_process_is_left_of_one_that_is_closed(self) -> None:
        browser = chromium.Chromium()
        browser.close()
        self.assertEqual(chromium.members(browser.process.pid), [])


if __name__ == "__main__":
    unittest.main()
