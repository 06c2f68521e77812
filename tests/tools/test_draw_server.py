"""clio-draw's server: who is let in, how the text is saved, and how a run that is overtaken ends."""
import contextlib
import functools
import http.client
import json
import os
import pathlib
import signal
import socket
import stat
import threading
import time
import unittest
import urllib.parse
from typing import Any

import draw_trial
from trial import PROGRAM, Trial

from clio_tools.draw.answers import Answers
from clio_tools.draw.folder import DRAWING, MAPPING, CannotRead, CannotSave, ChangedOnDisk, Folder, as_read
from clio_tools.draw.helper import Helper
from clio_tools.draw.server import MOST_WAITING, Server


class Served(unittest.TestCase):
    """A server on a copy of an example."""

    example = "teams"

    def setUp(self) -> None:
        self.path = draw_trial.copy_of(self.example)
        folder = Folder(str(self.path))
        self.helpers = [Helper(folder.path), Helper(folder.path, "whole")]
        self.server = Server(Answers(folder, *self.helpers))
        threading.Thread(target=self.server.serve_forever, daemon=True).start()
        self.host = f"127.0.0.1:{self.server.server_port}"
        self.base = f"/{self.server.secret}/"

    def tearDown(self) -> None:
        self.server.shutdown()
        self.server.server_close()
        for helper in self.helpers:
            helper.close()

    def ask(self, method: str, path: str, body: bytes | None = None,
            **headers: str) -> tuple[int, http.client.HTTPMessage, bytes]:
        """An answer: its status, its headers, its bytes."""
        connection = http.client.HTTPConnection("127.0.0.1", self.server.server_port, timeout=60)
        connection.putrequest(method, path, skip_host=True, skip_accept_encoding=True)
        for name, value in {"Host": self.host, **headers}.items():
            connection.putheader(name.replace("_", "-"), value)
        if body is not None:
            connection.putheader("Content-Length", str(len(body)))
        connection.endheaders(body)
        answer = connection.getresponse()
        content = answer.read()
        connection.close()
        return answer.status, answer.headers, content

    def call(self, what: str, **words: object) -> Any:
        """What the page gets."""
        status, _, content = self.ask("POST", f"{self.base}api/{what}", json.dumps(words).encode(),
                                      Origin=f"http://{self.host}", Content_Type="application/json")
        self.assertEqual(status, 200)
        return json.loads(content)

    def live(self, text: str, whole: bool = False) -> Any:
        """A live run."""
        return self.call("live", text=text, core=False, rows=100, whole=whole)


class Requests(Served):
    def test_who_is_let_in(self) -> None:
        self.assertEqual(self.ask("GET", self.base)[0], 200)
        for path in ("/", "/x/", "/" + "x" * 32 + "/", self.base[:-1], f"{self.base}../clio-draw",
                     f"{self.base}..%2f..%2fetc/passwd", f"{self.base}static/app.js", f"{self.base}mapping.clio"):
            self.assertEqual(self.ask("GET", path)[0], 404, path)
        port = self.server.server_port
        for host in "evil.example", f"evil.example:{port}", "127.0.0.1", "", f"localhost.evil:{port}":
            self.assertEqual(self.ask("GET", self.base, Host=host)[0], 403, host)

    def test_what_a_foreign_page_can_ask(self) -> None:
        good = {"Origin": f"http://{self.host}", "Content_Type": "application/json"}
        changes: list[tuple[dict[str, str], int]] = [
            ({}, 200), ({"Origin": "http://evil.example"}, 403), ({"Origin": "null"}, 403),
            ({"Content_Type": "text/plain"}, 415), ({"Content_Type": "application/x-www-form-urlencoded"}, 415),
            ({"Sec_Fetch_Site": "cross-site"}, 403)]
        for change, wanted in changes:
            self.assertEqual(self.ask("POST", self.base + "api/open", b"{}", **{**good, **change})[0], wanted, change)
        self.assertEqual(self.ask("POST", self.base + "api/open", b"{}", Content_Type="application/json")[0], 403)
        for body in b"[]", b"{", b'{"a": 1}', b"[" * 9999, b"null":
            self.assertEqual(self.ask("POST", self.base + "api/open", body, **good)[0], 400, body[:9])
        for name in "api/nothing", "open", "api/answer", "api/__init__":
            self.assertEqual(self.ask("POST", self.base + name, b"{}", **good)[0], 404, name)
        self.assertEqual(self.ask("POST", self.base + "api/open", None, **good, Content_Length=str(1 << 40))[0], 413)
        self.assertEqual(self.ask("OPTIONS", self.base + "api/open", None, **good)[0], 501)

    def test_words_of_another_kind_are_refused(self) -> None:
        good = {"Origin": f"http://{self.host}", "Content_Type": "application/json"}
        for name, words in (("outline", {"text": 5}), ("outline", {}), ("outline", {"text": "", "more": 1}),
                            ("outline", {"text": "\ud800"}), ("why", {"whole": False, "run": 1, "table": "a", "row": 1}),
                            ("live", {"text": "", "core": 1, "rows": 9, "whole": False}),
                            ("edit", {"text": "", "action": []})):
            body = json.dumps(words).encode()
            self.assertEqual(self.ask("POST", f"{self.base}api/{name}", body, **good)[0], 400, (name, words))

    def test_connections_without_the_secret_do_not_keep_the_page_away(self) -> None:
        with contextlib.ExitStack() as opened:
            others = [opened.enter_context(socket.create_connection(("127.0.0.1", self.server.server_port)))
                      for _ in range(2 * MOST_WAITING)]
            for one in others:
                one.sendall(b"GET /")
            self.assertEqual(self.ask("GET", self.base)[0], 200)
            others[0].settimeout(20)
            self.assertEqual(others[0].recv(1), b"")  # it is closed
            self.assertLessEqual(len(self.server.waiting), MOST_WAITING)
        draw_trial.until(lambda: not self.server.waiting, "all are closed")

    def test_headers(self) -> None:
        for path in "", "app.js":
            _, headers, _ = self.ask("GET", self.base + path)
            self.assertIn("default-src 'none'", headers["Content-Security-Policy"])
            self.assertNotIn("unsafe", headers["Content-Security-Policy"])
            self.assertEqual((headers["Referrer-Policy"], headers["X-Content-Type-Options"], headers["Cache-Control"]),
                             ("no-referrer", "nosniff", "no-store"))
            self.assertNotIn("Access-Control-Allow-Origin", headers)

    def test_it_listens_here_alone(self) -> None:
        self.assertEqual(self.server.server_address[0], "127.0.0.1")
        with socket.socket() as other:
            other.settimeout(2)
            with self.assertRaises(OSError):
                other.connect(("127.0.0.2", self.server.server_port))

    def test_live_writes_nothing_into_the_folder(self) -> None:
        before = sorted(path.name for path in self.path.iterdir())
        text = self.call("open")["text"]
        for whole in False, True:
            made = self.live(text, whole)
            self.assertEqual((made["tables"]["team"]["count"], made["whole"]), (2, whole))
            reason = self.call("why", whole=whole, run=made["run"], table="team",
                               row=made["tables"]["team"]["rows"][0])
            self.assertEqual(reason["count"], 3)
        self.assertEqual(before, sorted(path.name for path in self.path.iterdir()))

    def test_saving(self) -> None:
        read = self.call("open")
        os.chmod(self.path / "mapping.clio", 0o640)
        made = self.call("save", text=read["text"] + "// x\n", name=MAPPING, digest=read["digest"], ends=read["ends"])
        self.assertEqual((self.path / "mapping.clio").read_text(), read["text"] + "// x\n")
        self.assertEqual(stat.S_IMODE((self.path / "mapping.clio").stat().st_mode), 0o640)
        (self.path / "mapping.clio").write_text("theirs")
        self.assertIn("changed", self.call("save", text="mine", name=MAPPING, digest=made["digest"], ends="\n"))
        self.assertEqual((self.path / "mapping.clio").read_text(), "theirs")
        self.assertIn("error", self.call("save", text="mine", name="../x", digest=made["digest"], ends="\n"))
        self.assertEqual([path.name for path in self.path.iterdir() if path.name.startswith(".")], [])

    def test_a_worker_that_died_is_started_anew(self) -> None:
        text = self.call("open")["text"]
        self.live(text)
        process = self.helpers[0].process
        assert process is not None
        process.kill()
        process.wait()
        self.assertIsNotNone(self.live(text)["tables"])


class Overtaken(Served):
    def is_live(self, helper: Helper) -> bool:
        """Whether a live run is under way."""
        return helper.doing == "live"

    def test_a_run_that_is_overtaken_ends(self) -> None:
        slow = draw_trial.room() / "clio"
        slow.write_text(f'#!/bin/sh\nif [ "$1" = exchange ] && grep -q slow mapping.clio; then exec sleep 60; fi\n'
                        f'exec {PROGRAM} "$@"\n')
        slow.chmod(0o755)
        for helper in self.helpers:
            helper.environment["PATH"] = f"{slow.parent}{os.pathsep}{os.environ['PATH']}"
        text = self.call("open")["text"]
        for whole in False, True:
            found: list[Any] = []
            first = threading.Thread(target=lambda whole=whole, found=found: found.append(
                self.live(text + "// slow\n", whole)))
            first.start()
            draw_trial.until(functools.partial(self.is_live, self.helpers[whole]), "the run has begun")
            time.sleep(.5)
            began = time.monotonic()
            self.assertEqual(self.live(text, whole)["tables"]["team"]["count"], 2)
            first.join(20)
            self.assertEqual(found[0].get("stopped"), "overtaken", found[0])
            self.assertLess(time.monotonic() - began, 20)


class Folders(unittest.TestCase):
    def test_line_ends_are_kept(self) -> None:
        path = draw_trial.copy_of("teams")
        folder, file = Folder(str(path)), path / "mapping.clio"
        file.write_bytes(file.read_bytes().replace(b"\n", b"\r\n"))
        read = folder.read()
        self.assertNotIn("\r", read.text)
        folder.save(read.text + "// y\n", MAPPING, read.digest, read.ends)
        self.assertEqual(file.read_bytes().count(b"\r\n"), read.text.count("\n") + 1)
        for bad in b"a\r\nb\nc", b"a\rb", b"a\0", b"\xff":
            with self.assertRaises(CannotRead):
                as_read(MAPPING, bad)

    def test_a_link_is_not_replaced(self) -> None:
        path = draw_trial.copy_of("teams")
        (path / "mapping.clio").rename(path / "other")
        (path / "mapping.clio").symlink_to("other")
        folder = Folder(str(path))
        with self.assertRaises(CannotSave):
            folder.save("x", MAPPING, folder.read().digest, "\n")
        self.assertTrue((path / "mapping.clio").is_symlink())

    def test_what_is_no_file_is_not_read(self) -> None:
        path = draw_trial.copy_of("teams")
        (path / "mapping.clio").unlink()
        (path / "mapping.clio").symlink_to("/dev/zero")
        with self.assertRaisesRegex(CannotRead, "no file"):
            Folder(str(path)).read()
        os.mkfifo(path / "drawing.clio")
        with self.assertRaisesRegex(CannotRead, "no file"):
            Folder(str(path)).read()

    def test_a_new_mapping(self) -> None:
        path = draw_trial.copy_of("teams")
        (path / "mapping.clio").unlink()
        folder = Folder(str(path))
        read = folder.read()
        self.assertEqual(read.digest, "absent")
        (path / "mapping.clio").write_text("theirs")
        with self.assertRaises(ChangedOnDisk):
            folder.save(read.text, MAPPING, read.digest, "\n")

    def test_a_mapping_with_notes_is_saved_as_a_drawing(self) -> None:
        path = draw_trial.copy_of("teams")
        folder = Folder(str(path))
        read = folder.read()
        before = (path / "mapping.clio").read_bytes()
        text = read.text + "rows team from dept;\n"
        saved = folder.save(text, MAPPING, read.digest, "\n")
        self.assertEqual((saved.name, saved.in_the_way), (DRAWING, True))
        self.assertEqual((path / "mapping.clio").read_bytes(), before)
        self.assertEqual((folder.read().name, folder.read().text), (DRAWING, text))
        with self.assertRaises(ChangedOnDisk):
            folder.save(text, MAPPING, read.digest, "\n")


class Command(Trial):
    def test_it_prints_an_address_and_ends(self) -> None:
        before = signal.signal(signal.SIGINT, signal.default_int_handler)  # what runs behind a shell would ignore it
        self.addCleanup(signal.signal, signal.SIGINT, before)
        for name, status in (signal.SIGTERM, 143), (signal.SIGINT, 130):
            with draw_trial.served(draw_trial.EXAMPLES / "teams") as process:
                self.assertRegex(draw_trial.first_line(process), r"\Ahttp://127\.0\.0\.1:[0-9]+/[\w-]{32}/\Z")
                process.send_signal(name)
                self.assertEqual(process.wait(20), status)

    def test_what_it_refuses(self) -> None:
        self.refused("clio-draw", "nowhere", why="nowhere")
        self.file("file", "")
        self.refused("clio-draw", "file", why="file is no folder")
        self.refused("clio-draw", "--port", "70000", why="port 70000")
        with socket.socket() as taken:
            taken.bind(("127.0.0.1", 0))
            taken.listen()
            self.refused("clio-draw", "--port", str(taken.getsockname()[1]), why="Address already in use")

    def test_no_code_of_the_folder_runs(self) -> None:
        """A folder of somebody else may have modules with the names of Python's own, or of the tools'."""
        code = "open('RAN', 'w').close()\n"
        for name in "json.py", "signal.py", "clio_tools/__init__.py", "clio_tools/draw/worker.py":
            self.file(name, code)
        self.file("mapping.clio", (draw_trial.EXAMPLES / "teams" / "mapping.clio").read_bytes())
        with draw_trial.served(cwd=self.folder) as process:
            address = urllib.parse.urlsplit(draw_trial.first_line(process))
            connection = http.client.HTTPConnection(address.netloc, timeout=60)
            connection.request("POST", f"{address.path}api/arrange", json.dumps({"text": "mapping 1;"}),
                               {"Origin": f"http://{address.netloc}", "Content-Type": "application/json"})
            made = json.loads(connection.getresponse().read())
            connection.close()
        self.assertNotIn("ended", made.get("error", ""))
        self.assertFalse((self.folder / "RAN").exists())

    def test_open_shows_the_secret_to_nobody(self) -> None:
        browser = self.file("browser", "#!/bin/sh\necho \"$@\" > \"$0.words\"\n")
        browser.chmod(0o755)
        environment = {**os.environ, "BROWSER": str(browser)}
        with draw_trial.served("--open", draw_trial.EXAMPLES / "teams", env=environment) as process:
            address = draw_trial.first_line(process)
            words = pathlib.Path(f"{browser}.words")
            draw_trial.until(lambda: words.exists() and words.read_text(), "the browser was called")
            page = pathlib.Path(words.read_text().strip().removeprefix("file://"))
            self.assertNotIn(address.split("/")[3], words.read_text())
            self.assertIn(address, page.read_text())
            self.assertEqual(stat.S_IMODE(page.stat().st_mode), 0o600)
        self.assertFalse(page.exists())


if __name__ == "__main__":
    unittest.main()
