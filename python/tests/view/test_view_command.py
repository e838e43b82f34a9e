"""The command ``hizmorke view``: what it takes, what it prints, and how it ends; and a service that is lost, without a
browser.
"""

from __future__ import annotations

import http.client
import os
import re
import signal
import socket
import subprocess
import time
from pathlib import Path

import pytest

pytest.importorskip("scipy")

from hizmorke.device import Device
from hizmorke.network import Network
from hizmorke.programs import Programs, checkout
from hizmorke.view.sources import LiveService
from hizmorke.view.watch import Watch

from view_running import PATIENCE, StandIn, Start, said


def _status(port: int, path: str = "/") -> int:
    connection = http.client.HTTPConnection("127.0.0.1", port, timeout=PATIENCE)
    try:
        connection.request("GET", path)
        return connection.getresponse().status
    finally:
        connection.close()


def _port(url: str) -> int:
    found = re.fullmatch(r"http://127\.0\.0\.1:(\d+)/(#token=[A-Za-z0-9_-]{32})?", url)
    assert found is not None, url
    return int(found[1])


def test_it_prints_its_address_and_ends_in_order(start: Start, found: Programs, tmp_path: Path) -> None:
    Device(tmp_path / "net", found).load(Network(3, [(0, 1, 1), (1, 2, 1)]))
    before = (tmp_path / "net").read_bytes()
    for ends in (signal.SIGTERM, signal.SIGINT):
        view = start("view", "net")
        port = _port(said(tmp_path / "view.log", "\n").strip())
        assert _status(port) == 200
        view.send_signal(ends)
        assert view.wait(PATIENCE) == 0
        with pytest.raises(OSError):
            _status(port)
    assert said(tmp_path / "view.log", "\n").count("\n") == 1
    assert (tmp_path / "net").read_bytes() == before


def test_it_opens_a_browser_that_is_told_no_token(start: Start, found: Programs, tmp_path: Path) -> None:
    Device(tmp_path / "net", found).load(Network(3, [(0, 1, 1)]))
    opens = tmp_path / "opens"
    opens.write_text('#!/bin/sh\nprintf "%s\\n" "$@" >>"$0.words"\n')
    opens.chmod(0o700)
    start("view", "net", "--edit", BROWSER=f"{opens} %s")
    url = said(tmp_path / "view.log", "\n").strip()
    assert "#token=" in url
    end = time.monotonic() + PATIENCE
    while not (tmp_path / "opens.words").exists() or not (tmp_path / "opens.words").read_text():
        assert time.monotonic() < end
        time.sleep(0.05)
    given = (tmp_path / "opens.words").read_text().strip()
    assert given.startswith("file:///") and "token" not in given
    page = Path(given.removeprefix("file://"))
    # Nobody else reads the page that leads there.
    assert page.stat().st_mode & 0o077 == 0 and url in page.read_text()


@pytest.mark.parametrize(
    ("words", "status", "text"),
    [
        ([], 2, "view takes a DEVICE, or --connect"),
        (["net", "--token", "t"], 2, "--token and --name go with --connect"),
        (["net", "--port", "65536"], 2, "--port is a number up to 65535"),
        (["net", "--listen", "evil.example"], 2, "--listen takes an address of this machine"),
        (["net", "--words", "at:"], 2, "words not understood"),
        (["--connect", "nowhere"], 2, "--connect takes HOST:PORT, or a path with a slash"),
        (["--connect", "./s", "--words", "none"], 2, "a service has landmarks of its own"),
        (["nothing"], 1, "device file cannot be used"),
        (["junk"], 1, "junk: not formatted"),
        (["--connect", "./nothing"], 1, "no gate can be reached"),
        (["net", "more"], 2, "hizmorke help view tells what it takes"),
        (["net", "--port", "TAKEN"], 1, "127.0.0.1:TAKEN"),
    ],
)
def test_what_it_refuses(start: Start, found: Programs, tmp_path: Path, words: list[str], status: int, text: str) -> None:
    (tmp_path / "junk").write_bytes(b"no device")
    if "TAKEN" in words:
        Device(tmp_path / "net", found).load(Network(3, [(0, 1, 1)]))
    with socket.socket() as taken:
        taken.bind(("127.0.0.1", 0))
        taken.listen(1)
        port = str(taken.getsockname()[1])
        view = start("view", *(word.replace("TAKEN", port) for word in words))
        assert view.wait(PATIENCE) == status
    told = (tmp_path / "view.log").read_text()
    assert told.startswith("hizmorke: ") and told.count("\n") == 1 and text.replace("TAKEN", port) in told


def test_bash_completes_its_words() -> None:
    top = checkout()
    if top is None:
        pytest.skip("the package is installed: its completion lies elsewhere")
    asked = 'source "$1" && compopt() { :; } && COMP_WORDS=(hizmorke view net --) COMP_CWORD=3 && _tz hizmorke && echo "${COMPREPLY[*]}"'
    told = subprocess.run(
        ["bash", "-c", asked, "bash", str(top / "packaging" / "completion.bash")], stdout=subprocess.PIPE, text=True, check=True
    ).stdout
    from hizmorke.cli.look import view

    taken = {word for option in view.params for word in option.opts if word.startswith("--")}
    assert set(told.split()) == taken | {"--help"}


def _until(watch: Watch, text: str | None) -> None:
    """Waits until the service is lost with such a word, or there again for None."""
    end = time.monotonic() + PATIENCE
    while True:
        lost = watch.told()["lost"]
        if lost is None if text is None else lost is not None and text in lost:
            return
        assert time.monotonic() < end, lost
        time.sleep(0.05)


def test_a_lost_service_is_told_and_comes_back(start: Start, found: Programs, tmp_path: Path) -> None:
    Device(tmp_path / "net", found).load(Network(5, [(0, 1, 1), (1, 2, 1), (2, 3, 1), (3, 4, 1)]))
    place = str(tmp_path / "s")
    words = ("net", "--words", "at:2", "--socket", place)
    gate = start("gate", *words)
    said(tmp_path / "gate.log", "the service is up")
    watch, source = Watch(place), LiveService(place, programs=found, name="view")
    try:
        _until(watch, None)
        made = source.edit(("add", 0, 4, 7))
        assert (made.text, made.count, made.ticket) == ("accepted", 2, 1)
        gate.terminate()
        gate.wait(PATIENCE)
        _until(watch, "no gate can be reached")
        start("gate", *words)
        _until(watch, None)
        # Its rows go on, and so do changes, under the next ticket.
        refused = source.edit(("add", 4, 0, 7))
        assert (refused.made, refused.ticket) == (False, 2) and refused.text.startswith("refused: ")
        made = source.edit(("cut", 0, 4))
        assert (made.text, made.count, made.ticket) == ("accepted", 3, 3)
        assert watch.told()["rows"][-1]["count"] in (2, 3)
    finally:
        watch.close()
        source.close()


def test_a_service_that_does_not_answer_is_lost_too(tmp_path: Path) -> None:
    with _Gate(tmp_path / "s") as gate:
        gate.says = False
        watch = Watch(str(tmp_path / "s"))
        try:
            _until(watch, "it doesn't answer")
            gate.says = True
            _until(watch, None)
            assert watch.told()["rows"][-1]["count"] == 1
        finally:
            watch.close()


def test_a_change_without_an_answer_is_told_as_not_known(tmp_path: Path) -> None:
    with _Gate(tmp_path / "s") as gate:
        source = LiveService(str(tmp_path / "s"), name="view")
        try:
            gate.ends_at_edits = True
            told = source.edit(("add", 0, 1, 1))
            assert (told.session, told.ticket, told.made) == (3, 8, False)
            assert told.text == "not known: the service was lost before it answered"
            gate.ends_at_edits = False
            # Nothing was made under that ticket, as `hello` tells; the next one is sent, and no ticket twice.
            told = source.edit(("add", 0, 1, 1))
            assert (told.ticket, told.made, told.count) == (9, True, 2)
        finally:
            source.close()


class _Gate(StandIn):
    """A stand-in for a gate: it answers what the page asks, stays silent, or ends at an edit."""

    def __init__(self, path: Path) -> None:
        super().__init__(os.fspath(path))
        self.says, self.ends_at_edits = True, False

    def serve(self, client: socket.socket) -> None:
        with client.makefile("rb") as lines:
            for line in lines:
                words = line.decode().split() or [""]
                if words[0] == "edit" and self.ends_at_edits:
                    return
                answer = {
                    "hello": "session=3 ticket=7",
                    "resume": f"session={words[-1]} ticket=7",
                    "edit": " ".join([*words[1:3], "accepted count=2"]),
                    "metrics": '{"count": 1, "accepted": 0, "refused": 0, "route": 0}',
                }.get(words[0], "not understood")
                # A client whose greeting was answered waits for what it asks next.
                if self.says or words[0] in ("hello", "resume") and words[-1] == "0":
                    client.sendall(f"{answer}\n".encode())
