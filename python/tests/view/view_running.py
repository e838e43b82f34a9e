"""What the tests of the page share: a server in this process, and a client that says what it likes."""

from __future__ import annotations

import http.client
import json
import random
import socket
import subprocess
import threading
import time
from collections.abc import Callable
from contextlib import suppress
from pathlib import Path
from typing import Any, NamedTuple, Self

from hizmorke.network import Network
from hizmorke.view.model import Model
from hizmorke.view.server import Server

# So long something may take, in seconds: this machine may do something else too.
PATIENCE = 240
CITIES = "Bern Thun Basel Lausanne Zurich Chur Geneva Lugano Sion Winterthur".split()
ROADS = [
    (0, 1, 27), (0, 2, 95), (0, 3, 97), (2, 4, 87), (4, 0, 121), (4, 5, 118), (3, 6, 62),
    (5, 7, 140), (7, 1, 190), (6, 8, 157), (8, 7, 160), (4, 9, 26), (9, 2, 110), (8, 1, 95),
]  # fmt: skip

# Names that a page which took them for markup, or for a part of a script, would stumble over.
HOSTILE = [
    "<script>document.title='taken'</script>",
    '"><img src=x onerror="document.title=\'taken\'">',
    "</title></svg><!--",
    "a & b ' c",
    "\u202egnorw",
    "{{7*7}}${7*7}`",
    "__proto__",
    "x" * 120,
]


class Answer(NamedTuple):
    """What came back."""

    status: int
    headers: dict[str, str]
    content: bytes

    @property
    def told(self) -> Any:
        """The JSON in it."""
        return json.loads(self.content)


class Running:
    """A server in a thread of this process."""

    def __init__(self, model: Model, token: str | None = None) -> None:
        self.server = Server(model, token=token)
        self.model = model
        self.thread = threading.Thread(target=self.server.serve_forever, args=(0.02,))
        self.thread.start()

    @property
    def url(self) -> str:
        return self.server.url

    @property
    def port(self) -> int:
        return self.server.server_port

    def get(self, path: str, **headers: str) -> Answer:
        return self._send("GET", path, None, headers)

    def post(self, path: str, body: Any = None, content: bytes | None = None, **headers: str) -> Answer:
        """Asks as the page does, but for the headers that are given; a header of no text is left out."""
        own = {"Origin": f"http://127.0.0.1:{self.port}", "Content-Type": "application/json"}
        sent = json.dumps({} if body is None else body).encode() if content is None else content
        return self._send("POST", path, sent, {**own, **{name.replace("_", "-"): text for name, text in headers.items()}})

    def ask(self, name: str, **body: Any) -> Any:
        """The answer, once it is there."""
        while True:
            answer = self.post(f"/api/{name}", body)
            assert answer.status == 200, answer.content
            if answer.told["ready"]:
                return answer.told
            threading.Event().wait(0.02)

    def _send(self, method: str, path: str, content: bytes | None, headers: dict[str, str]) -> Answer:
        connection = http.client.HTTPConnection("127.0.0.1", self.port, timeout=PATIENCE)
        try:
            connection.putrequest(method, path, skip_host="Host" in headers)
            for name, value in headers.items():
                if value:
                    connection.putheader(name, value)
            if content is not None:
                connection.putheader("Content-Length", str(len(content)))
            connection.endheaders(content)
            got = connection.getresponse()
            return Answer(got.status, {name.lower(): value for name, value in got.getheaders()}, got.read())
        finally:
            connection.close()

    def close(self) -> None:
        self.server.shutdown()
        self.thread.join()
        self.server.server_close()
        self.model.close()


Serve = Callable[..., Running]
Start = Callable[..., "subprocess.Popen[bytes]"]


def said(path: Path, text: str) -> str:
    """What a command has printed into a file, once this is in it."""
    end = time.monotonic() + PATIENCE
    while text not in path.read_text():
        assert time.monotonic() < end, path.read_text()
        time.sleep(0.05)
    return path.read_text()


def drawn_network(nodes: int, edges: int) -> Network:
    """A drawn network that is joined: each node to one before it, and edges between any two."""
    numbers = random.Random(1)
    found = {(numbers.randrange(node), node) for node in range(1, nodes)}
    while len(found) < edges:
        a, b = sorted(numbers.sample(range(nodes), 2))
        found.add((a, b))
    return Network(nodes, [(a, b, numbers.randint(1, 100)) for a, b in sorted(found)])


class StandIn:
    """A Unix socket whose clients are served by a thread each, until the block that it stands for ends.

    A socket is closed by the thread that waits on it, or once that thread has ended: its number is given to the next
    socket of this process, whose clients a thread that still waits would take.
    """

    def __init__(self, path: str) -> None:
        self._lock = threading.Lock()
        self._clients: set[socket.socket] = set()
        self._threads: list[threading.Thread] = []
        self._is_ended = False
        self._listener = socket.socket(socket.AF_UNIX, socket.SOCK_STREAM)
        self._listener.bind(path)
        self._listener.listen(16)
        self._accepting = threading.Thread(target=self._accept)

    def serve(self, client: socket.socket) -> None:
        """Serves a client until it is gone, in a thread of its own."""
        raise NotImplementedError

    def __enter__(self) -> Self:
        self._accepting.start()
        return self

    def __exit__(self, *_: object) -> None:
        self._listener.shutdown(socket.SHUT_RDWR)
        self._accepting.join()
        self._listener.close()
        with self._lock:
            self._is_ended = True
            for client in self._clients:
                _end(client)
        for thread in self._threads:
            thread.join()

    def _accept(self) -> None:
        with suppress(OSError):
            while True:
                client, _ = self._listener.accept()
                self._threads.append(threading.Thread(target=self._hold, args=(client,)))
                self._threads[-1].start()

    def _hold(self, client: socket.socket) -> None:
        with client:
            with self._lock:
                self._clients.add(client)
                if self._is_ended:
                    return
            try:
                with suppress(OSError):
                    self.serve(client)
            finally:
                with self._lock:
                    self._clients.remove(client)


def _end(made: socket.socket) -> None:
    """Nothing more comes or goes by it, and who waits on it is woken. It is still open."""
    with suppress(OSError):
        made.shutdown(socket.SHUT_RDWR)


class Tapped(StandIn):
    """A Unix socket in front of another one, which writes down the lines that clients send."""

    def __init__(self, path: str, behind: str) -> None:
        super().__init__(path)
        self.lines: list[bytes] = []
        self._behind = behind

    def serve(self, client: socket.socket) -> None:
        with socket.socket(socket.AF_UNIX, socket.SOCK_STREAM) as server:
            server.connect(self._behind)
            back = threading.Thread(target=self._carry, args=(server, client, False))
            back.start()
            self._carry(client, server, True)
            back.join()

    def _carry(self, source: socket.socket, target: socket.socket, is_client: bool) -> None:
        rest = b""
        try:
            while content := source.recv(65_536):
                if is_client:
                    *whole, rest = (rest + content).split(b"\n")
                    self.lines += whole
                target.sendall(content)
            target.shutdown(socket.SHUT_WR)
        except OSError:
            # One side is gone: so the other direction ends too.
            _end(source)
            _end(target)
