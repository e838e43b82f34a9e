"""The commands ``hizmorke fleet ..``, over routers that run, and a whole run that is judged."""

from __future__ import annotations

import os
import re
import shutil
import signal
import socket
import subprocess
import sys
import time
from pathlib import Path

import pytest
from fleet_running import NODES, PATIENCE, TOP, WORDS, Wired

from hizmorke.cli import run as command
from hizmorke.errors import GenerationGone
from hizmorke.fleet.counters import counters_of_text, read_counters, sum_of
from hizmorke.fleet.errors import CountersNotThere, NoWire, TablesNotTaken
from hizmorke.fleet.handing import READY, HandingOut, wait_until_taken
from hizmorke.fleet.run import Judge
from hizmorke.fleet.wires import Wires
from hizmorke.programs import Programs
from hizmorke.service import Service
from hizmorke.tables import PACKET_LENGTH, carry


class Called:
    """Calls the command, with the programs that the tests found."""

    def __init__(self, programs: Path) -> None:
        source = Path(__file__).resolve().parents[2] / "src"
        self.environment = {**os.environ, "PYTHONPATH": str(source), "HIZMORKE_PROGRAMS": str(programs)}

    def __call__(self, *words: object, status: int = 0, content: bytes | None = None) -> tuple[str, str]:
        call = [sys.executable, "-B", "-m", "hizmorke", "fleet", *map(str, words)]
        done = subprocess.run(call, env=self.environment, input=content, capture_output=True, timeout=PATIENCE, check=False)
        assert done.returncode == status, (words, done)
        return done.stdout.decode(), done.stderr.decode()


@pytest.fixture
def called(programs: Path) -> Called:
    return Called(programs)


def test_send_ping_and_trace(wired: Wired, called: Called) -> None:
    way = list(carry(wired.tables, 0, 22))
    back = list(carry(wired.tables, 22, 0))
    generation = wired.tables[0].info.generation
    out, _ = called("send", wired.path, wired.folder, 0, 22, wired.port, "hello")
    assert out == f"sent generation={generation} bytes={PACKET_LENGTH + 3 + 5}\n"
    found = wired.heard()
    assert found is not None and found[0][PACKET_LENGTH + 3:] == b"hello" and found[1] == 22
    address = wired.tables[22].address().hex()
    called("send", wired.path, wired.folder, 0, address, wired.port, content=b"\x00\xff" * 600)
    found = wired.heard()
    assert found is not None and found[0][PACKET_LENGTH + 3:] == b"\x00\xff" * 600
    out, _ = called("ping", wired.path, wired.folder, 0, 22, "--count", 3, "--every", 0.01, "--wait", 120, "--size", 1_351)
    lines = out.splitlines()
    assert lines[0] == f"ping 0 to 22 generation={generation} bytes=1351"
    for sequence, line in enumerate(lines[1:4], 1):
        hops = f"{len(way) - 1}\\+{len(back) - 1}"
        assert re.fullmatch(f"from 22: sequence={sequence} hops={hops} time=[0-9.]+ ms", line), line
    assert lines[4].startswith("sent=3 answered=3 lost=0 least=")
    out, _ = called("trace", wired.path, wired.folder, 0, address, "--wait", 120)
    assert [int(line.split()[2]) for line in out.splitlines()] == way
    assert [line.split()[0] for line in out.splitlines()] == [str(k) for k in range(len(way))]
    assert out.endswith(" ms arrived\n")


def test_what_has_no_answer_and_no_way(wired: Wired, called: Called) -> None:
    _, err = called("ping", wired.path, wired.folder, 0, NODES - 1, status=1)
    assert err == "hizmorke: unreachable\n"
    wires = Wires(wired.wires)
    way = list(carry(wired.tables, 0, 22))
    del wires[way[-1]]
    other = wired.net.room / "other-wires"
    wires.write(other)
    _, err = called("ping", other, wired.folder, way[-1], 0, status=1)
    assert err == f"hizmorke: node {way[-1]} has no wire\n"
    wires.write(wired.path)
    wired.router.process.send_signal(signal.SIGHUP)
    wired.router.until("fleet_tables_loaded_total", 2 * NODES)
    out, _ = called("ping", wired.path, wired.folder, 0, 22, "--count", 1, "--wait", 120, status=1)
    assert out.splitlines()[1] == f"from {way[-2]}: sequence=1 lost: no_wire"
    out, _ = called("trace", wired.path, wired.folder, 0, 22, "--wait", 120, status=1)
    assert out.endswith("ms lost: no_wire\n")
    wired.router.end()
    out, _ = called("ping", wired.path, wired.folder, 0, 22, "--count", 1, "--wait", 0.2, status=1)
    assert out.splitlines()[1:] == ["sequence=1 no answer", "sent=1 answered=0 lost=1"]
    out, _ = called("trace", wired.path, wired.folder, 0, 22, "--wait", 0.2, status=1)
    assert out == "0 *\n"


def test_words_that_are_not_understood(tmp_path: Path, capsys: pytest.CaptureFixture[str]) -> None:
    def called(*words: object, status: int = 0) -> tuple[str, str]:
        assert command(["fleet", *map(str, words)]) == status, words
        return capsys.readouterr()

    wires = tmp_path / "wires"
    assert called("wires", wires, 3, "--first-port", 7_000)[0] == "wires=3 ports=7000-7002\n"
    assert wires.read_text() == "0 127.0.0.1:7000\n1 127.0.0.1:7001\n2 127.0.0.1:7002\n"
    for words in (
        ("wires", wires, 0),
        ("wires", wires, 2, "--first-port", 65_535),
        ("wires", wires, 2, "--host", "localhost"),
        ("ping", wires, tmp_path, "x", 1),
        ("ping", wires, tmp_path, 0, "z" * 84),
        ("ping", wires, tmp_path, 0, 1, "--size", 11),
        ("ping", wires, tmp_path, 0, 1, "--wait", "nan"),
        ("send", wires, tmp_path, 0, 1, 0, "x"),
        ("send", wires, tmp_path, 0, 1, 7, "x" * 1_398),
        ("hand-out", tmp_path),
        ("hand-out", "net", tmp_path),
        ("hand-out", "net", tmp_path, "--connect", "here"),
        ("edit", "hello", "--etcd", "http://127.0.0.1:9", "--name", "a", "--number", 1),
        ("edit", "cut:0:1", "--etcd", "http://127.0.0.1:9", "--name", "a", "--number", -1),
        ("edit", "cut:0:1", "--etcd", "here", "--name", "a", "--number", 1),
        ("no-such-command",),
    ):
        called(*words, status=2)
    _, err = called("ping", wires, tmp_path, 0, 1, status=1)
    assert "0.table" in err


def test_hand_out_of_a_device_and_of_a_gate(wired: Wired, called: Called, found: Programs) -> None:
    net = wired.net
    net.device.edit(["set:0:1:2"])
    generation = wired.tables[0].info.generation + 1
    out, _ = called("hand-out", net.device.path, wired.folder, "--words", WORDS, "--routers", wired.router.port)
    assert re.fullmatch(
        f"generation={generation} tables={NODES} bytes=[0-9]+ greatest=[0-9]+ written_ms=[0-9]+ taken_ms=[0-9]+\n", out
    )
    assert (wired.folder / READY).read_text() == f"{generation}\n"
    assert wired.router.counters()["fleet_generation_least"] == generation
    place = net.room / "gate"
    gate = subprocess.Popen(
        [sys.executable, "-B", "-m", "hizmorke", "gate", str(net.device.path), "--words", WORDS, "--socket", str(place)]
        + ["--tables", str(net.room)],
        env=called.environment,
        stdout=subprocess.DEVNULL,
        stderr=subprocess.PIPE,
    )
    handing = None
    try:
        end = time.monotonic() + PATIENCE
        while not place.exists():
            assert gate.poll() is None and time.monotonic() < end, gate.communicate()
            time.sleep(0.05)
        words = [sys.executable, "-B", "-m", "hizmorke", "fleet", "hand-out", wired.folder, "--connect", place]
        words += ["--as", "tables", "--routers", str(wired.router.port), "--every", "0.1"]
        handing = subprocess.Popen(words, env=called.environment, stdout=subprocess.PIPE, text=True)
        assert handing.stdout is not None
        assert handing.stdout.readline().startswith(f"generation={generation} ")
        with Service.connect(str(place), "tester") as client:
            client.edit(["set:0:1:3"])
            client.edit(["set:0:1:4"])
        told = [handing.stdout.readline()]
        while not told[-1].startswith(f"generation={generation + 2} "):
            told.append(handing.stdout.readline())
        assert len(told) <= 2
        wired.router.until("fleet_generation_least", generation + 2)
        handing.send_signal(signal.SIGTERM)
        assert handing.wait(PATIENCE) == 0
    finally:
        for process in (handing, gate):
            if process is not None and process.poll() is None:
                process.terminate()
                process.wait(PATIENCE)
            if process is not None:
                for stream in (process.stdout, process.stderr):
                    if stream is not None:
                        stream.close()


class Standing:
    """A service whose generations come as a test says."""

    def __init__(self, generations: list[int]) -> None:
        self.generations = generations
        self.asked: list[int] = []

    def state(self):  # type: ignore[no-untyped-def]
        from hizmorke.service import ServiceState

        return ServiceState(self.generations[0], self.generations[0], 0)

    def tables(self, folder):  # type: ignore[no-untyped-def]
        from hizmorke.device import TableFiles

        self.asked.append(self.generations[0])
        if len(self.generations) > 1:
            raise GenerationGone()
        return TableFiles(self.generations[0], 1, 2, 3)


def test_handing_out_is_told_once_and_again_where_tables_were_gone(tmp_path: Path) -> None:
    service = Standing([4])
    # Between two calls here there is less time, on a machine that has other work too.
    handing = HandingOut(service, tmp_path, every=0.5)
    first = handing.step()
    assert first is not None and first.taken is None and first.files.generation == 4
    time.sleep(0.6)
    assert handing.step() is None and service.asked == [4]
    service.generations = [5, 6]
    assert handing.step() is None and service.asked == [4, 5]
    assert handing.step() is None and service.asked == [4, 5]
    time.sleep(0.6)
    service.generations = [6]
    again = handing.step()
    assert again is not None and again.files.generation == 6


def test_counters_that_are_not_there(tmp_path: Path) -> None:
    with pytest.raises(CountersNotThere):
        read_counters(tmp_path / "none")
    with socket.socket() as listening:
        listening.bind(("127.0.0.1", 0))
        listening.listen()
        with pytest.raises(CountersNotThere):
            read_counters(listening.getsockname()[1], 0.1)
        with pytest.raises(TablesNotTaken):
            wait_until_taken([listening.getsockname()[1]], 1, 0.3)
    file = tmp_path / "counters"
    file.write_text("fleet_nodes_without_table 0\nfleet_generation_least 7\nhello\nx{a=\"b\"} 1\n")
    wait_until_taken([str(file)], 7, 1)
    with pytest.raises(TablesNotTaken):
        wait_until_taken([str(file)], 8, 0.1)
    assert sum_of([counters_of_text(file.read_text())] * 2)["x.b"] == 2
    with pytest.raises(NoWire):
        Wires().of(3)


def test_the_second_judge() -> None:
    judge = Judge(4, [(0, 1, 5), (1, 2, 5)], 7)
    assert judge.edit(["set:1:0:2", "add:2:3:1"]) == "accepted count=8"
    cases = {
        "add:0:4:1": 1,
        "cut:9:9": 1,
        "add:2:2:1": 2,
        "set:0:1:0": 3,
        "add:0:3:1000001": 3,
        "add:0:1:5": 4,
        "set:0:3:5": 5,
        "cut:0:2": 5,
    }
    for op, code in cases.items():
        assert judge.edit(["set:0:1:9", op]) == f"refused op=1 code={code}"
    assert judge.edges() == [(0, 1, 2), (1, 2, 5), (2, 3, 1)]
    assert judge.length(7, [0, 1, 2]) == 10 and judge.length(8, [0, 1, 2]) == 7 and judge.length(7, [0, 2]) is None
    assert list(judge.least(8, [0])[0]) == [0, 2, 7, 8]
    assert judge.least(7, [0])[0][3] == float("inf")


def run(programs: Path, room: Path, *words: str) -> str:
    """A run of ``fleet/run.sh``, which has to end well; what it printed."""
    environment = {**os.environ, "HIZMORKE_PROGRAMS": str(programs), "TMPDIR": str(room)}
    call = [str(TOP / "fleet" / "run.sh"), "--nodes", "48", "--processes", "3", "--rate", "200", *words]
    done = subprocess.run(call, env=environment, capture_output=True, text=True, timeout=500, check=False)
    if "there is no C library" in done.stderr:
        pytest.skip(done.stderr.strip())
    assert done.returncode == 0, done.stdout + done.stderr
    assert "faults=0" in done.stdout and "WRONG" not in done.stdout
    return done.stdout


def test_a_run_that_is_judged(loading: Programs, programs: Path, tmp_path: Path) -> None:
    out = run(programs, tmp_path, "--seconds", "6")
    assert "wrong=0 twice=0" in out and re.search("ways judged=[1-9]", out)


def test_a_run_over_etcd_with_ends_by_9(loading: Programs, programs: Path, tmp_path: Path) -> None:
    if shutil.which("etcd") is None:
        pytest.skip("etcd isn't there: on Debian it is etcd-server")
    out = run(programs, tmp_path, "--seconds", "15", "--replicas", "3", "--kills", "2")
    assert "devices=3" in out and re.search("ended by -9 and started again: .*[0-9]", out)
