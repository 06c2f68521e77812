"""Draws a mapping in a browser.

    clio-draw [FOLDER] [--port PORT] [--open]

It shows both sides of the drawing.clio of FOLDER, or of its mapping.clio, with the lines between them; without FOLDER
the current folder is meant. A line is drawn from a column of the source to one of the target by the pointer or by the
keyboard, and its text is in the mapping beside it; a change of the text changes the picture. After each change clio
runs in a folder of its own, on the source files or on the first rows of large ones; the page shows its rules in words,
its faults at their place, the rows of the target, and of each row why it is there. Only `Save` writes, and it writes
the text alone: a mapping that has got notes becomes drawing.clio, of which clio-rules makes mapping.clio.

The page is served on 127.0.0.1, at an address with a secret, which is printed; `--open` starts a browser there. It
loads nothing from elsewhere. Ctrl-C ends it.

OPTIONS
`--port PORT` takes this port; without it a free one is taken.

`--open` starts a browser. The address is passed in a page that only you can read.

This tool is not proved. What it shows of rows, rules and faults is clio's own; only reasons are worked out beside it,
and its tests look for the reason of each row that clio writes.
"""
import argparse
import html
import pathlib
import shutil
import tempfile
import webbrowser

from ..program import Refused, run, stop_by_exception
from .answers import Answers
from .folder import Folder
from .helper import Helper
from .server import Server

MOST_PORT = 65535


def words_of(words: list[str]) -> argparse.Namespace:
    """The options and the folder."""
    parser = argparse.ArgumentParser(prog="clio-draw", description="Draws a mapping in a browser.",
                                     epilog="The manual is man clio-draw.")
    parser.add_argument("folder", nargs="?", default=".", metavar="FOLDER", help="the current one if it is left out")
    parser.add_argument("--port", type=int, default=0, help="take this port; without it a free one is taken")
    parser.add_argument("--open", action="store_true", help="start a browser")
    return parser.parse_args(words)


def open_browser(address: str, room: str) -> None:
    """Starts a browser by a page that leads on: an address among a program's words could be read by everybody on this
    machine."""
    page = pathlib.Path(room, "open.html")
    page.touch(mode=0o600)
    page.write_text('<!doctype html><meta name="referrer" content="no-referrer">'
                    f'<meta http-equiv="refresh" content="0;url={html.escape(address)}">', encoding="utf-8")
    webbrowser.open(page.as_uri())


def work(words: list[str]) -> None:
    """Serves the page until it is ended."""
    asked = words_of(words)
    if not 0 <= asked.port <= MOST_PORT:
        raise Refused(f"port {asked.port}: a port is a number up to {MOST_PORT}")
    stop_by_exception()
    folder = Folder(asked.folder)
    room = tempfile.mkdtemp(prefix="clio-draw-open-")
    helpers = [Helper(folder.path, "sample"), Helper(folder.path, "whole")]
    try:
        try:
            server = Server(Answers(folder, *helpers), asked.port)
        except OSError as why:
            raise Refused(f"port {asked.port}: {why.strerror}") from None
        print(server.address, flush=True)
        helpers[0].start()
        if asked.open:
            open_browser(server.address, room)
        server.serve_forever()
    finally:
        for helper in helpers:
            helper.close()
        shutil.rmtree(room, ignore_errors=True)


def main() -> None:
    """The program clio-draw."""
    run("clio-draw", work)
