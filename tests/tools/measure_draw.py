"""Measures clio-draw in Chromium: from a change of the text until the rows of its run are on the page, for each example
and for a mapping of 1,600 columns and 303 lines. A line is taken away and put back, so many times; the 200 ms that the
page waits for more changes count.

    dev/measure-draw [TIMES]    5 times, if it isn't said otherwise
"""
import json
import pathlib
import statistics
import subprocess
import sys
import time

import chromium
import draw_trial
from trial import TOOLS

ROWS = 200  # of each set of the large mapping
OPENED = "globalThis.clioDraw && clioDraw.model.live !== null && clioDraw.model.current"
CHANGE = """new Promise((done) => {
  const box = document.getElementById('text'), text = %s, began = performance.now();
  const look = () => {
    if (clioDraw.model.liveText !== text) setTimeout(look, 1);
    else requestAnimationFrame(() => done([performance.now() - began, Boolean(clioDraw.model.live.tables)]));
  };
  box.value = text;
  box.dispatchEvent(new Event('input'));
  look();
})"""


def folders() -> list[tuple[str, pathlib.Path]]:
    """The examples, with the files of those that make a database first, and the large mapping; an example without its
    files has made-up rows.
    """
    found = [(path.parent.name, draw_trial.copy_of(path.parent.name)) for path, _ in draw_trial.texts()
             if path.parent.parent == draw_trial.EXAMPLES]
    for name, folder in found:
        if (folder / "make-data").exists() and not [*folder.glob("*.csv"), *folder.glob("*.json")]:
            subprocess.run([sys.executable, folder / "make-data", folder], check=False, capture_output=True)
        if (folder / "old.db").exists():
            subprocess.run([sys.executable, TOOLS / "clio-draft", "sqlite", folder / "old.db", "--drawing", "--data",
                            folder], check=True, capture_output=True)
    return [*found, ("large", draw_trial.large(ROWS))]


def measured(browser: chromium.Chromium, folder: pathlib.Path, times: int) -> list[float]:
    """How long each change took, in ms; a change whose run makes no rows doesn't count."""
    with draw_trial.served(folder, env=draw_trial.ENVIRONMENT) as server:
        browser.go(draw_trial.first_line(server))
        browser.until(OPENED, 120)
        text, lines = browser.js("[clioDraw.model.text, clioDraw.model.outline.lines.map((line) => line.at)]")
        start, end = lines[-1] if lines else (0, 0)
        fewer = text[:start] + text[end:] if lines else text + "\n"
        found = [browser.js(CHANGE % json.dumps(one)) for _ in range(times) for one in (fewer, text)]
        browser.js("(clioDraw.model.saved = clioDraw.model.text, 1)")
        browser.go("about:blank")
    return [took for took, has_rows in found if has_rows]


def main() -> None:
    """Prints for each mapping the median and the longest time."""
    times = int(sys.argv[1]) if len(sys.argv) > 1 else 5
    if chromium.PATH is None:
        sys.exit("measure-draw: there is no Chromium")
    browser = chromium.Chromium()
    print(time.strftime("%Y-%m-%d %H:%M UTC", time.gmtime()))
    for name, folder in folders():
        took = measured(browser, folder, times)
        print(f"{name:14} {len(took):3} changes" + (
            f", median {statistics.median(took):5.0f} ms, longest {max(took):5.0f} ms" if took else ": no rows"),
              flush=True)
    browser.close()


if __name__ == "__main__":
    main()
