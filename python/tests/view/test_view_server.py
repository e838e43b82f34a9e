"""The HTTP side of the page: who may ask, and what is told to whom."""

from __future__ import annotations

import json
import re
import socket
import struct
import time
from pathlib import Path
from typing import Any

import pytest

pytest.importorskip("scipy")

from hizmorke.device import Device
from hizmorke.network import Network
from hizmorke.view.server import TOKEN, page_files

from view_running import HOSTILE, PATIENCE, Serve

CALLS = ["network", "part", "scheme", "node", "packet", "reach", "figures", "service", "again", "edit", "nothing"]


def test_each_answer_has_its_policy_and_is_kept_nowhere(serve: Serve, path_network: Network) -> None:
    running = serve(path_network)
    for answer in (running.get("/"), running.get("/nothing"), running.post("/api/network"), running.get("/", Host="evil")):
        policy = answer.headers["content-security-policy"]
        assert "default-src 'none'" in policy and "script-src 'self'" in policy and "unsafe" not in policy
        assert answer.headers["x-content-type-options"] == "nosniff"
        assert answer.headers["cache-control"] == "no-store"
        assert answer.headers["referrer-policy"] == "no-referrer"
        assert "access-control-allow-origin" not in answer.headers


def test_the_page_has_no_inline_scripts_and_nothing_from_elsewhere() -> None:
    files = page_files()
    for path, (kind, content) in files.items():
        text = content.decode()
        assert not re.search(r"innerHTML|outerHTML|insertAdjacentHTML|document\.write|\beval\(|new Function", text), path
        outside = re.sub(r"http://www\.w3\.org/(2000/svg|1999/xhtml)", "", text)
        assert "http:" not in outside and "https:" not in outside and "//cdn" not in outside, path
        if kind.startswith("text/html"):
            assert not re.search(r"<script(?![^>]*\bsrc=)|\son[a-z]+=|<style|\sstyle=|javascript:", text)


@pytest.mark.parametrize(
    "host",
    ["evil.example", "evil.example:PORT", "127.0.0.1", "127.0.0.1:1", "localhost.evil.example:PORT", "127.0.0.1:PORT@evil", "10.1.2.3:PORT", " "],
)
def test_another_host_is_refused(serve: Serve, path_network: Network, host: str) -> None:
    running = serve(path_network)
    named = host.replace("PORT", str(running.port))
    assert running.get("/", Host=named).status in (400, 403)
    assert running.post("/api/network", Host=named).status in (400, 403)


@pytest.mark.parametrize("host", ["127.0.0.1:PORT", "localhost:PORT", "LOCALHOST:PORT"])
def test_its_own_hosts_are_taken(serve: Serve, path_network: Network, host: str) -> None:
    running = serve(path_network)
    named = host.replace("PORT", str(running.port))
    assert running.get("/", Host=named).status == 200
    assert running.post("/api/network", Host=named, Origin=f"http://{named}").status == 200


def test_where_others_may_look_it_has_addresses_and_no_names(serve: Serve, path_network: Network) -> None:
    running = serve(path_network)
    running.server.listen = "0.0.0.0"
    for host, status in (("127.0.0.1", 200), ("localhost", 200), ("10.1.2.3", 200), ("[fd00::1]", 200), ("evil.example", 403), ("10.1.2.3.evil.example", 403)):
        assert running.get("/", Host=f"{host}:{running.port}").status == status, host
        assert running.get("/", Host=host).status == 403
        other = running.post("/api/network", Host=f"10.1.2.3:{running.port}", Origin=f"http://{host}:{running.port}")
        assert other.status == (200 if host == "10.1.2.3" else 403)
    assert running.url == f"http://127.0.0.1:{running.port}/"


@pytest.mark.parametrize("origin", ["", "null", "http://evil.example", "https://127.0.0.1:PORT", "http://127.0.0.1:1", "http://127.0.0.1"])
def test_a_page_of_another_origin_is_refused(serve: Serve, path_network: Network, origin: str) -> None:
    running = serve(path_network, edit=True, token="secret")
    named = origin.replace("PORT", str(running.port))
    for call in CALLS:
        answer = running.post(f"/api/{call}", Origin=named, X_Hizmorke_Token="secret")
        assert answer.status == 403, call
        assert b"net" not in answer.content
    if named:
        assert running.get("/", Origin=named).status == 403


def test_a_page_that_a_browser_calls_foreign_is_refused(serve: Serve, path_network: Network) -> None:
    running = serve(path_network)
    for site, status in (("cross-site", 403), ("same-site", 403), ("none", 403), ("same-origin", 200)):
        assert running.post("/api/network", Sec_Fetch_Site=site).status == status


def test_a_form_of_another_page_is_no_request(serve: Serve, path_network: Network) -> None:
    running = serve(path_network)
    for kind in ("text/plain", "application/x-www-form-urlencoded", "multipart/form-data", ""):
        assert running.post("/api/network", Content_Type=kind).status == 415


@pytest.mark.parametrize("path", ["/../server.py", "/%2e%2e/server.py", "/page/index.html", "//etc/passwd", "/index.html/", "/api/network"])
def test_no_other_file_is_told(serve: Serve, path_network: Network, path: str) -> None:
    assert serve(path_network).get(path).status == 404


@pytest.mark.parametrize("content", [b"", b"{", b"[]", b"1", b'"x"', b"null", b"[" * 100_000, b"\xff"])
def test_what_is_no_object_of_json_is_refused(serve: Serve, path_network: Network, content: bytes) -> None:
    running = serve(path_network)
    assert running.post("/api/network", content=content).status == 400
    assert running.ask("network")["nodes"] == 5


@pytest.mark.parametrize(
    ("call", "body"),
    [
        ("part", {"near": "x"}),
        ("part", {"near": [5]}),
        ("part", {"near": [-1]}),
        ("part", {"near": [True]}),
        ("scheme", {"choice": "nothing"}),
        ("scheme", {"choice": ["draw"]}),
        ("scheme", {}),
        ("node", {"choice": "draw", "node": 5}),
        ("node", {"choice": "draw", "node": 1.0}),
        ("packet", {"choice": "draw", "from": 0, "to": -1}),
        ("packet", {"choice": "draw", "from": 0, "to": 1, "failed": [[0]]}),
        ("packet", {"choice": "draw", "from": 0, "to": 1, "failed": [[0, 9]]}),
        ("packet", {"choice": "draw", "from": 0, "to": 1, "failed": [[0, 1]] * 65}),
        ("reach", {"choice": "draw", "from": 0, "nodes": [7]}),
        ("service", {}),
    ],
)
def test_what_names_nothing_is_refused(serve: Serve, path_network: Network, library: None, call: str, body: Any) -> None:
    running = serve(path_network)
    running.ask("scheme", choice="draw")
    answer = running.post(f"/api/{call}", body)
    assert answer.status == 400 and answer.told["error"]


def test_hostile_names_are_told_as_texts(serve: Serve, library: None) -> None:
    count = len(HOSTILE)
    running = serve(Network(count, [(node, (node + 1) % count, 1) for node in range(count)], HOSTILE))
    told = running.post("/api/network")
    while not told.told["ready"]:
        told = running.post("/api/network")
    assert told.headers["content-type"] == "application/json"
    assert told.told["names"] == HOSTILE
    assert running.ask("packet", choice="none", **{"from": 0, "to": 3})["length"] == 3


def test_no_edit_is_taken_without_edit_or_its_token(serve: Serve, path_network: Network, tmp_path: Path) -> None:
    running = serve(path_network, edit=True, token="secret")
    body = {"kind": "cut", "a": 0, "b": 1}
    for token in ("", "wrong", "secre", "secrets", "\xe9"):
        assert running.post("/api/edit", body, **{TOKEN: token}).status == 403
    assert len(running.ask("network")["names"] or range(4)) == 4
    assert running.ask("network")["count"] == 1
    running.ask("network")
    answer = running.post("/api/edit", body, **{TOKEN: "secret"})
    assert answer.status == 200 and answer.told["made"] and answer.told["ticket"] == 2
    assert running.ask("network")["edges"] == 3


def test_without_edit_no_token_opens_it(serve: Serve, path_network: Network) -> None:
    running = serve(path_network)
    running.ask("network")
    for token in ("", "None", "null"):
        assert running.post("/api/edit", {"kind": "cut", "a": 0, "b": 1}, **{TOKEN: token}).status == 403
    assert running.ask("network")["count"] == 1


def test_edits_are_made_under_tickets_with_their_outcomes(serve: Serve, path_network: Network, found: Any, tmp_path: Path) -> None:
    running = serve(path_network, edit=True, token="secret")
    running.ask("network")
    rows = [
        ({"kind": "add", "a": 0, "b": 4, "weight": 7}, True, "accepted", 2),
        ({"kind": "add", "a": 4, "b": 0, "weight": 7}, False, "refused: the edge is there already", None),
        ({"kind": "set", "a": 0, "b": 4, "weight": 9}, True, "accepted", 3),
        ({"kind": "cut", "a": 1, "b": 4}, False, "refused: there is no such edge", None),
        ({"kind": "cut", "a": 0, "b": 1}, True, "accepted", 4),
    ]
    for body, made, text, count in rows:
        running.ask("network")
        told = running.post("/api/edit", body, **{TOKEN: "secret"}).told
        assert (told["made"], told["text"], told["count"]) == (made, text, count)
    assert Device(tmp_path / "net", found).show().edges == [(0, 4, 9), (1, 2, 1), (2, 3, 1), (3, 4, 1)]
    for body in ({"kind": "drop", "a": 0, "b": 1}, {"kind": "add", "a": 0, "b": 1, "weight": 0}, {"kind": "add", "a": 0, "b": 1}):
        running.ask("network")
        assert running.post("/api/edit", body, **{TOKEN: "secret"}).status == 400


def _raw(port: int, *parts: bytes, cut: bool = False) -> bytes:
    with socket.create_connection(("127.0.0.1", port), PATIENCE) as made:
        for part in parts:
            made.sendall(part)
        if cut:
            # The connection ends by a reset, at once.
            made.setsockopt(socket.SOL_SOCKET, socket.SO_LINGER, struct.pack("ii", 1, 0))
            return b""
        made.shutdown(socket.SHUT_WR)
        found = b""
        while content := made.recv(65_536):
            found += content
        return found


def test_cut_and_broken_connections_leave_the_server_as_it_was(serve: Serve, path_network: Network, capfd: pytest.CaptureFixture[str]) -> None:
    running = serve(path_network)
    running.ask("network")
    body = json.dumps({}).encode()
    head = (
        f"POST /api/network HTTP/1.1\r\nHost: 127.0.0.1:{running.port}\r\nOrigin: http://127.0.0.1:{running.port}\r\n"
        "Content-Type: application/json\r\n"
    ).encode()
    whole = head + b"Content-Length: %d\r\n\r\n" % len(body) + body
    for end in (0, 1, 20, len(head), len(whole) - 1, len(whole)):
        _raw(running.port, whole[:end], cut=True)
        _raw(running.port, whole[:end])
    assert b" 413 " in _raw(running.port, head, b"Content-Length: 99999999999\r\n\r\n")
    assert b" 413 " in _raw(running.port, head, b"Content-Length: -1\r\n\r\n")
    assert b" 413 " in _raw(running.port, head, b"Transfer-Encoding: chunked\r\nContent-Length: 2\r\n\r\n{}")
    assert b" 413 " in _raw(running.port, head, b"\r\n")
    assert b" 403 " in _raw(running.port, head, b"Host: evil\r\nContent-Length: 2\r\n\r\n{}")
    for junk in (b"\x00\xff\r\n\r\n", b"GET\r\n\r\n", b"PUT / HTTP/1.1\r\nHost: x\r\n\r\n", b"GET / HTTP/9.9\r\n\r\n", b"A" * 70_000 + b"\r\n\r\n"):
        assert b"<" not in _raw(running.port, junk).partition(b"\r\n\r\n")[2]
    assert running.ask("network")["nodes"] == 5
    assert "Traceback" not in capfd.readouterr().err


def test_connections_have_a_bound(serve: Serve, path_network: Network) -> None:
    running = serve(path_network)
    held = [socket.create_connection(("127.0.0.1", running.port), PATIENCE) for _ in range(64)]
    try:
        for made in held:
            made.sendall(b"GET / HTTP/1.1\r\n")
        with socket.create_connection(("127.0.0.1", running.port), PATIENCE) as more:
            try:
                more.sendall(b"GET / HTTP/1.1\r\n\r\n")
                assert more.recv(1_000) == b""
            except ConnectionError:
                pass
    finally:
        for made in held:
            made.close()
    end = time.monotonic() + PATIENCE
    while True:
        try:
            assert running.get("/").status == 200
            return
        except OSError:
            assert time.monotonic() < end, "it takes no connections any more"
            time.sleep(0.05)
