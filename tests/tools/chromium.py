"""Chromium driven through its DevTools protocol over a pipe: no driver, no websocket, no package.

`--remote-debugging-pipe` makes Chromium read commands on descriptor 3 and answer on descriptor 4, each a JSON text that
ends with a byte 0."""
import base64
import contextlib
import json
import os
import pathlib
import select
import shutil
import signal
import subprocess
import tempfile
import time
from typing import Any

PATH = shutil.which("chromium") or shutil.which("chromium-browser") or shutil.which("google-chrome")
OPTIONS = ["--headless=new", "--no-sandbox", "--disable-gpu", "--remote-debugging-pipe", "--no-first-run",
           "--disable-extensions", "--disable-background-networking", "--force-prefers-reduced-motion"]
ANSWER = 45  # seconds in which the browser answers a command
KEYS = {"Enter": 13, "Escape": 27, "Delete": 46, "ArrowDown": 40, "ArrowUp": 38, "ArrowLeft": 37, "ArrowRight": 39,
        "Tab": 9, "Home": 36, "End": 35, "ContextMenu": 93}
MIDDLE = """(() => { const e = document.querySelector(%s); if (!e) return null; e.scrollIntoViewIfNeeded?.();
const r = e.getBoundingClientRect(); return [r.x + r.width / 2, r.y + r.height / 2] })()"""


class Failed(Exception):
    """The browser says that a command or a script failed."""


class Chromium:
    """A browser with one page. One that doesn't answer in time is killed with all its processes: `ended` is true."""

    def __init__(self, width: int = 1400, height: int = 900) -> None:
        assert PATH is not None
        self.ended = False
        self.room = tempfile.mkdtemp(prefix="clio-draw-chromium-")
        to_read, self.writing = os.pipe()
        self.reading, to_write = os.pipe()

        def descriptors() -> None:
            high = [os.dup2(to_read, 100), os.dup2(to_write, 101)]
            os.dup2(high[0], 3, inheritable=True)
            os.dup2(high[1], 4, inheritable=True)

        self.process = subprocess.Popen(  # pylint: disable=consider-using-with,subprocess-popen-preexec-fn
            [PATH, *OPTIONS, f"--user-data-dir={self.room}", f"--window-size={width},{height}", "about:blank"],
            stdin=subprocess.DEVNULL, stdout=subprocess.DEVNULL, stderr=subprocess.DEVNULL, preexec_fn=descriptors,
            close_fds=False, start_new_session=True)
        os.close(to_read)
        os.close(to_write)
        os.set_blocking(self.writing, False)
        self.number, self.left = 0, b""
        self.events: list[dict[str, Any]] = []
        self.session: str | None = None
        target = next(one for one in self.send("Target.getTargets")["targetInfos"] if one["type"] == "page")
        self.session = self.send("Target.attachToTarget", targetId=target["targetId"], flatten=True)["sessionId"]
        for domain in "Page", "Runtime", "Log", "Network", "Accessibility":
            self.send(f"{domain}.enable")
        self.size(width, height)
        self.dark(False)

    def size(self, width: int, height: int) -> None:
        """How large the window is."""
        self.send("Emulation.setDeviceMetricsOverride", width=width, height=height, deviceScaleFactor=1, mobile=False)

    def dark(self, wanted: bool) -> None:
        """Whether the page is to be dark."""
        self.send("Emulation.setEmulatedMedia",
                  features=[{"name": "prefers-color-scheme", "value": "dark" if wanted else "light"}])

    def send(self, method: str, **words: object) -> dict[str, Any]:
        """Sends a command and waits for its answer; events are kept."""
        if self.ended:
            raise Failed("the browser was killed, since it didn't answer in time")
        self.number += 1
        message: dict[str, object] = {"id": self.number, "method": method, "params": words}
        if self.session:
            message["sessionId"] = self.session
        end = time.monotonic() + ANSWER
        try:
            self.write(json.dumps(message).encode() + b"\0", end)
            while (answer := self.message(end)).get("id") != self.number:
                self.events.append(answer)
        except TimeoutError:
            self.kill()
            raise TimeoutError(f"the browser doesn't answer {method} in {ANSWER} s: it is killed") from None
        if "error" in answer:
            raise Failed(f"{method}: {answer['error'].get('message')}")
        result: dict[str, Any] = answer["result"]
        return result

    def write(self, message: bytes, end: float) -> None:
        """Writes a message before a time has come."""
        while message:
            if not select.select([], [self.writing], [], max(0, end - time.monotonic()))[1]:
                raise TimeoutError
            message = message[os.write(self.writing, message):]

    def message(self, end: float) -> dict[str, Any]:
        """The next answer or event before a time has come."""
        while b"\0" not in self.left:
            if not select.select([self.reading], [], [], max(0, end - time.monotonic()))[0]:
                raise TimeoutError
            part = os.read(self.reading, 1 << 20)
            if not part:
                raise Failed("the browser ended")
            self.left += part
        one, _, self.left = self.left.partition(b"\0")
        found: dict[str, Any] = json.loads(one)
        return found

    def go(self, address: str) -> None:
        """Loads a page."""
        self.send("Page.navigate", url=address)
        self.until("document.readyState === 'complete'")

    def js(self, script: str) -> Any:
        """The value of a script, which may wait."""
        answer = self.send("Runtime.evaluate", expression=f"(async () => {{ return ({script}) }})()", awaitPromise=True,
                           returnByValue=True)
        if "exceptionDetails" in answer:
            raise Failed(f"{script[:100]}: {answer['exceptionDetails'].get('exception', {}).get('description')}")
        return answer["result"].get("value")

    def until(self, script: str, seconds: float = 60) -> None:
        """Waits until a script is true."""
        end = time.monotonic() + seconds
        while not self.js(f"Boolean({script})"):
            if time.monotonic() > end:
                raise TimeoutError(script)
            time.sleep(.02)

    def middle(self, selector: str) -> tuple[float, float]:
        """The middle of an element; it is scrolled into sight."""
        found = self.js(MIDDLE % json.dumps(selector))
        if not found:
            raise Failed(f"there is no {selector}")
        return found[0], found[1]

    def mouse(self, kind: str, place: tuple[float, float]) -> None:
        """What a mouse does at a place."""
        pressed = {} if kind == "mouseMoved" else {"clickCount": 1}
        self.send("Input.dispatchMouseEvent", type=kind, x=place[0], y=place[1], button="left",
                  buttons=1 if kind == "mousePressed" else 0, **pressed)

    def move(self, place: tuple[float, float]) -> None:
        """Moves with the button pressed."""
        self.send("Input.dispatchMouseEvent", type="mouseMoved", x=place[0], y=place[1], button="left", buttons=1)

    def click(self, selector: str) -> None:
        """Clicks on an element."""
        self.click_at(self.middle(selector))

    def click_at(self, place: tuple[float, float]) -> None:
        """Clicks at a place."""
        self.send("Input.dispatchMouseEvent", type="mouseMoved", x=place[0], y=place[1])
        self.mouse("mousePressed", place)
        self.mouse("mouseReleased", place)

    def drag(self, one: str, other: str) -> None:
        """Presses on an element and lets go on another."""
        start, end = self.middle(one), self.middle(other)
        self.mouse("mousePressed", start)
        for part in range(1, 6):
            self.move((start[0] + (end[0] - start[0]) * part / 5, start[1] + (end[1] - start[1]) * part / 5))
        self.mouse("mouseReleased", end)

    def key(self, key: str, modifiers: int = 0) -> None:
        """Presses a key."""
        text = "\r" if key == "Enter" else key if len(key) == 1 and not modifiers else ""
        words: dict[str, object] = {"key": key, "code": key if len(key) > 1 else f"Key{key.upper()}",
                                    "windowsVirtualKeyCode": KEYS.get(key, ord(key.upper()[0])), "modifiers": modifiers}
        self.send("Input.dispatchKeyEvent", type="keyDown", **words, **({"text": text} if text else {}))
        self.send("Input.dispatchKeyEvent", type="keyUp", **words)

    def type(self, text: str) -> None:
        """Types a text."""
        self.send("Input.insertText", text=text)

    def shot(self, path: pathlib.Path) -> None:
        """A picture of the page."""
        path.write_bytes(base64.b64decode(self.send("Page.captureScreenshot", format="png")["data"]))

    def faults(self) -> list[str]:
        """What the console and the loading of the page complained of."""
        found = []
        for event in self.events:
            words = event.get("params", {})
            if event.get("method") == "Runtime.exceptionThrown":
                found.append(str(words["exceptionDetails"].get("exception", {}).get("description", words)))
            elif event.get("method") == "Log.entryAdded" and words["entry"]["level"] == "error":
                found.append(str(words["entry"]["text"]))
            elif event.get("method") == "Runtime.consoleAPICalled" and words["type"] in ("error", "assert"):
                found.append(str(words["args"]))
        return found

    def requests(self) -> list[str]:
        """The addresses that the page asked for."""
        return [event["params"]["request"]["url"] for event in self.events
                if event.get("method") == "Network.requestWillBeSent"]

    def close(self) -> None:
        """Ends the browser."""
        if self.ended:
            return
        try:
            self.send("Browser.close")
            self.process.wait(10)
        except (Failed, OSError, TimeoutError, subprocess.TimeoutExpired):
            pass
        self.kill()

    def kill(self) -> None:
        """Ends all processes of the browser that are left, whatever they do."""
        if self.ended:
            return
        self.ended = True
        for _ in range(2):  # those too that were started meanwhile
            for member in members(self.process.pid):
                with contextlib.suppress(ProcessLookupError):
                    os.kill(member, signal.SIGKILL)
            self.process.wait(10)
        os.close(self.reading)
        os.close(self.writing)
        shutil.rmtree(self.room, ignore_errors=True)


def members(session: int) -> list[int]:
    """The processes of a session, which a browser has of its own."""
    found = []
    for place in pathlib.Path("/proc").glob("[0-9]*/stat"):
        try:
            words = place.read_text().rpartition(")")[2].split()
        except OSError:
            continue
        if int(words[3]) == session and words[0] != "Z":
            found.append(int(place.parent.name))
    return found
