"""The local web server: the page's files, and what the page asks for.

It listens on 127.0.0.1 alone. Each address begins with a secret; the header Host has to be this server's, so that no
other name leads here; and a request that asks for something has to come from the page itself. The page can load nothing
from elsewhere."""
import contextlib
import hmac
import http.server
import json
import pathlib
import secrets
import socket
import sys
import threading
from collections.abc import Callable
from typing import Any

from ..picture.svg import STYLE
from ..program import remark
from .answers import Answers, Unknown, Wrong

STATIC = pathlib.Path(__file__).resolve().parent / "static"
KINDS = {".html": "text/html; charset=utf-8", ".css": "text/css; charset=utf-8",
         ".js": "text/javascript; charset=utf-8", ".svg": "image/svg+xml"}
MOST_BYTES = 8 << 20
MOST_WAITING = 32  # so many connections may not have shown the secret yet
HEADERS = {
    "Content-Security-Policy": "default-src 'none'; script-src 'self'; style-src 'self'; connect-src 'self'; "
                               "img-src 'self'; base-uri 'none'; form-action 'none'; frame-ancestors 'none'",
    "Cache-Control": "no-store", "X-Content-Type-Options": "nosniff", "Referrer-Policy": "no-referrer",
    "Cross-Origin-Resource-Policy": "same-origin", "Cross-Origin-Opener-Policy": "same-origin",
    "X-Frame-Options": "DENY"}
Content = tuple[str, bytes]  # its type, and its bytes


class Denied(Exception):
    """A request that isn't answered, with its status."""

    def __init__(self, status: int, why: str) -> None:
        super().__init__(why)
        self.status = status


class Server(http.server.ThreadingHTTPServer):
    """A server for one folder."""

    daemon_threads = True

    def __init__(self, answers: Answers, port: int = 0) -> None:
        self.answers = answers
        self.secret = secrets.token_urlsafe(24)
        self.files = {path.name: path.read_bytes() for path in STATIC.iterdir() if path.suffix in KINDS}
        self.files["picture.css"] = STYLE.encode()
        self.waiting: dict[socket.socket, None] = {}  # connections that haven't shown the secret, the oldest first
        self.lock = threading.Lock()
        super().__init__(("127.0.0.1", port), Handler)
        self.hosts = {f"{name}:{self.server_port}" for name in ("127.0.0.1", "localhost")}

    @property
    def address(self) -> str:
        """Where the page is."""
        return f"http://127.0.0.1:{self.server_port}/{self.secret}/"

    def process_request(self, request: Any, client_address: Any) -> None:
        """Each connection has a thread. Whoever doesn't know the secret can't take them all: the oldest ones are
        closed."""
        with self.lock:
            self.waiting[request] = None
            oldest = next(iter(self.waiting)) if len(self.waiting) > MOST_WAITING else None
        if oldest is not None:
            self.known(oldest)
            with contextlib.suppress(OSError):  # it may be closed already
                oldest.shutdown(socket.SHUT_RDWR)
        super().process_request(request, client_address)

    def known(self, request: socket.socket) -> None:
        """A connection waits no more."""
        with self.lock:
            self.waiting.pop(request, None)

    def shutdown_request(self, request: Any) -> None:
        """Closes a connection."""
        self.known(request)
        super().shutdown_request(request)

    def handle_error(self, request: object, client_address: object) -> None:
        """A browser that goes away is no fault; of others one line is reported, without what was sent."""
        error = sys.exception()
        if not isinstance(error, (ConnectionError, TimeoutError)):
            remark("clio-draw", f"a request failed ({type(error).__name__})")


class Handler(http.server.BaseHTTPRequestHandler):
    """Answers one browser."""

    server: Server
    protocol_version = "HTTP/1.1"
    server_version, sys_version = "clio-draw", ""
    timeout = 60
    name = ""  # what is asked for, behind the secret

    def log_message(self, format: str, *args: object) -> None:  # pylint: disable=redefined-builtin
        """Addresses have the secret, so none is reported."""

    def do_GET(self) -> None:  # pylint: disable=invalid-name
        """A file of the page."""
        self.answered(self.file)

    def do_POST(self) -> None:  # pylint: disable=invalid-name
        """What the page asks for."""
        self.answered(self.asked)

    def answered(self, answer: Callable[[], Content]) -> None:
        """Answers, or says why not."""
        try:
            self.check_address()
            kind, content = answer()
            self.send(200, kind, content)
        except Denied as why:
            self.close_connection = True
            self.send(why.status, KINDS[".html"], b"")

    def check_address(self) -> None:
        """The host has to be this one, and the secret the right one."""
        if self.headers.get_all("Host", []) not in [[host] for host in self.server.hosts]:
            raise Denied(403, "host")
        parts = self.path.split("?")[0].split("/", 2)
        if len(parts) < 3 or not hmac.compare_digest(parts[1].encode("utf-8", "replace"),
                                                     self.server.secret.encode()):
            raise Denied(404, "secret")
        self.name = parts[2]
        self.server.known(self.connection)

    def file(self) -> Content:
        """A file of the page by its name."""
        name = self.name or "index.html"
        if name not in self.server.files:
            raise Denied(404, "file")
        return KINDS[name[name.rindex("."):]], self.server.files[name]

    def asked(self) -> Content:
        """The answer to a request that comes from the page itself."""
        origins = {f"http://{host}" for host in self.server.hosts}
        if self.headers.get("Origin") not in origins \
                or self.headers.get("Sec-Fetch-Site", "same-origin") != "same-origin":
            raise Denied(403, "origin")
        if self.headers.get("Content-Type") != "application/json" or "Transfer-Encoding" in self.headers:
            raise Denied(415, "type")
        length = self.headers.get("Content-Length", "")
        if not length.isascii() or not length.isdecimal() or len(length) > 9 or int(length) > MOST_BYTES:
            raise Denied(413, "length")
        try:
            words = json.loads(self.rfile.read(int(length)))
            made = self.server.answers.answer(self.name.removeprefix("api/") if self.name.startswith("api/") else "",
                                              words)
        except Unknown:
            raise Denied(404, "name") from None
        except (ValueError, RecursionError, Wrong):
            raise Denied(400, "form") from None
        return "application/json", json.dumps(made).encode()

    def send(self, status: int, kind: str, content: bytes) -> None:
        """An answer with its headers."""
        self.send_response(status)
        for name, value in {"Content-Type": kind, "Content-Length": str(len(content)), **HEADERS}.items():
            self.send_header(name, value)
        self.end_headers()
        self.wfile.write(content)
