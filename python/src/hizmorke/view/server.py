"""The HTTP side: the page's files, and what it asks for, to pages of this server alone.

A page asks by ``POST /api/NAME`` with an object of JSON. Every request has a `Host` that is this server's, so a name
that somebody else owns doesn't lead here; a `POST` comes from a page of this server (`Origin`), with JSON, which no
other page can send. An edit has the token that stands in the printed URL behind the ``#``: browsers send that part
nowhere, and no page but this one reads it.
"""

from __future__ import annotations

import hmac
import ipaddress
import json
import secrets
import socket
import sys
import threading
from http.server import BaseHTTPRequestHandler, ThreadingHTTPServer
from importlib import resources
from typing import Any

from hizmorke.errors import HizmorkeError
from hizmorke.view.model import CALLS, Model

LOOPBACK = "127.0.0.1"
TOKEN = "X-Hizmorke-Token"
"""The header that has the token."""

MOST_BYTES = 262_144
"""So many bytes a request's body has at most."""

_MOST_CONNECTIONS = 64
# So long a connection may do nothing, in seconds.
_IDLE = 30
_KINDS = {
    ".html": "text/html; charset=utf-8",
    ".css": "text/css; charset=utf-8",
    ".js": "text/javascript; charset=utf-8",
    ".svg": "image/svg+xml",
}
_POLICY = (
    "default-src 'none'; script-src 'self'; style-src 'self'; img-src 'self' data: blob:; connect-src 'self'; "
    "base-uri 'none'; form-action 'none'; frame-ancestors 'none'"
)
_HEADERS = (
    ("Content-Security-Policy", _POLICY),
    ("X-Content-Type-Options", "nosniff"),
    ("X-Frame-Options", "DENY"),
    ("Referrer-Policy", "no-referrer"),
    ("Cross-Origin-Resource-Policy", "same-origin"),
    ("Cross-Origin-Opener-Policy", "same-origin"),
    ("Cache-Control", "no-store"),
)


def page_files() -> dict[str, tuple[str, bytes]]:
    """The files of the page by their paths, each with its kind and bytes. No other file is ever read."""
    found = {}
    for file in resources.files("hizmorke.view").joinpath("page").iterdir():
        end = file.name[file.name.rfind("."):]
        if end in _KINDS:
            found[f"/{file.name}"] = _KINDS[end], file.read_bytes()
    found["/"] = found["/index.html"]
    return found


class Server(ThreadingHTTPServer):
    """Serves one network to pages.

    Parameters
    ----------
    model : Model
        What pages ask.
    listen : str
        The address, 127.0.0.1 unless others may look too.
    port : int
        The port; 0 takes a free one.
    token : str, optional
        What an edit has to have; without it no edit is taken.
    """

    daemon_threads = True
    block_on_close = False
    request_queue_size = 64

    def __init__(self, model: Model, listen: str = LOOPBACK, port: int = 0, token: str | None = None) -> None:
        self.model, self.listen, self.token = model, listen, token
        self.files = page_files()
        self._room = threading.BoundedSemaphore(_MOST_CONNECTIONS)
        self.address_family = socket.AF_INET6 if ":" in listen else socket.AF_INET
        super().__init__((listen, port), Handler)

    def server_bind(self) -> None:
        # The standard one asks who this machine is, which may ask a name server.
        self.socket.setsockopt(socket.SOL_SOCKET, socket.SO_REUSEADDR, 1)
        self.socket.bind(self.server_address)
        self.server_address = self.socket.getsockname()
        self.server_name, self.server_port = self.listen, self.server_address[1]

    @property
    def url(self) -> str:
        """The page's address, with the token where edits are taken."""
        host = f"[{self.listen}]" if ":" in self.listen else self.listen
        if self.listen in ("0.0.0.0", "::"):
            host = LOOPBACK if self.listen == "0.0.0.0" else "[::1]"
        return f"http://{host}:{self.server_port}/" + ("" if self.token is None else f"#token={self.token}")

    def is_own(self, host: str) -> bool:
        """Whether a `Host` is this server's: localhost, its own address, or with ``--listen`` any address."""
        name, colon, port = host.rpartition(":")
        if not colon or port != str(self.server_port):
            # A browser leaves the port 80 out.
            if self.server_port != 80 or colon and port.isdecimal():
                return False
            name = host
        name = name.lower()
        if name in ("localhost", LOOPBACK, "[::1]", self.listen.lower(), f"[{self.listen.lower()}]"):
            return True
        if self.listen in (LOOPBACK, "localhost", "::1"):
            return False
        try:
            ipaddress.ip_address(name.removeprefix("[").removesuffix("]"))
        except ValueError:
            return False
        return True

    def process_request(self, request: Any, client_address: Any) -> None:
        if not self._room.acquire(blocking=False):
            self.shutdown_request(request)
            return
        super().process_request(request, client_address)

    def process_request_thread(self, request: Any, client_address: Any) -> None:
        try:
            super().process_request_thread(request, client_address)
        finally:
            self._room.release()

    def handle_error(self, request: Any, client_address: Any) -> None:
        # A page that has gone away, or was too slow, is nothing to tell.
        if not isinstance(sys.exc_info()[1], OSError):
            super().handle_error(request, client_address)


class Handler(BaseHTTPRequestHandler):
    """Answers the requests of one connection."""

    protocol_version = "HTTP/1.1"
    server_version, sys_version = "hizmorke", ""
    timeout = _IDLE
    server: Server

    def do_GET(self) -> None:
        """A file of the page."""
        refused = self._refusal(is_call=False)
        if refused is not None:
            return self._tell(*refused)
        found = self.server.files.get(self.path.partition("?")[0])
        if found is None:
            return self._tell(404, "there is no such page")
        self._send(200, *found)

    do_HEAD = do_GET

    def do_POST(self) -> None:
        """What the page asks for."""
        length = self.headers.get("Content-Length", "")
        is_number = length.isascii() and length.isdecimal() and len(length) < 10
        if not is_number or int(length) > MOST_BYTES or "Transfer-Encoding" in self.headers:
            # What is left of it isn't read as a request.
            self.close_connection = True
            return self._tell(413, f"a request has a length, of at most {MOST_BYTES:,} bytes")
        content = self.rfile.read(int(length))
        if len(content) < int(length):
            self.close_connection = True
            return
        refused = self._refusal(is_call=True)
        if refused is not None:
            return self._tell(*refused)
        name = self.path.removeprefix("/api/")
        call = CALLS.get(name) if self.path.startswith("/api/") else None
        if call is None:
            return self._tell(404, "there is no such call")
        if name == "edit" and not self._may_edit():
            return self._tell(403, "no edits are taken without the token of the printed address")
        try:
            body = json.loads(content)
        except (ValueError, RecursionError):
            return self._tell(400, "the request is no JSON")
        if not isinstance(body, dict):
            return self._tell(400, "the request is no object")
        try:
            answer = call(self.server.model, body)
        except HizmorkeError as error:
            return self._tell(400 if error.status == 2 else 409, str(error))
        except MemoryError:
            return self._tell(503, "out of memory")
        except OSError as error:
            return self._tell(503, error.strerror or str(error))
        self._send(200, "application/json", json.dumps(answer, separators=(",", ":")).encode("ascii"))

    def _refusal(self, is_call: bool) -> tuple[int, str] | None:
        """Why a request isn't taken, whatever it asks for."""
        hosts: list[str] = self.headers.get_all("Host", [])
        if len(hosts) != 1 or not self.server.is_own(hosts[0]):
            return 403, "this server has another name"
        origins: list[str] = self.headers.get_all("Origin", [])
        if any(origin != f"http://{hosts[0]}" for origin in origins) or (is_call and len(origins) != 1):
            return 403, "only pages of this server may ask"
        if not is_call:
            return None
        if self.headers.get("Sec-Fetch-Site", "same-origin") != "same-origin":
            return 403, "only pages of this server may ask"
        if self.headers.get_content_type() != "application/json":
            return 415, "a request is JSON"
        return None

    def _may_edit(self) -> bool:
        token = self.server.token
        given = self.headers.get(TOKEN, "").encode("utf-8", "replace")
        return token is not None and self.server.model.source.can_edit and hmac.compare_digest(given, token.encode())

    def _tell(self, status: int, text: str) -> None:
        self._send(status, "application/json", json.dumps({"error": text}).encode("ascii"))

    def _send(self, status: int, kind: str, content: bytes) -> None:
        self.send_response(status)
        self.send_header("Content-Type", kind)
        self.send_header("Content-Length", str(len(content)))
        self.end_headers()
        if self.command != "HEAD":
            self.wfile.write(content)

    def send_error(self, code: int, message: str | None = None, explain: str | None = None) -> None:
        """What isn't HTTP as this server takes it, in the same form as other refusals."""
        self.close_connection = True
        if not hasattr(self, "request_version"):
            self.request_version = "HTTP/1.1"
        self.command = getattr(self, "command", None) or "GET"
        self._tell(int(code), message or "the request isn't understood")

    def end_headers(self) -> None:
        for name, value in _HEADERS:
            self.send_header(name, value)
        if self.close_connection:
            self.send_header("Connection", "close")
        super().end_headers()

    def version_string(self) -> str:
        return self.server_version

    def log_message(self, format: str, *words: Any) -> None:
        """Nothing is told of single requests."""


def new_token() -> str:
    """A token that nobody guesses."""
    return secrets.token_urlsafe(24)
