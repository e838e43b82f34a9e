"""Edits by way of etcd: a real one on loopback, replicas over devices of their own, and what a replica does when it or
etcd is gone for a while. Left out where etcd isn't there."""

from __future__ import annotations

import base64
import os
import random
import shutil
import signal
import subprocess
import sys
import threading
import time
from collections.abc import Iterator
from pathlib import Path

import pytest

from hizmorke.device import Device
from hizmorke.errors import ChangeRefused, NotUnderstood
from hizmorke.fleet.errors import EtcdRefused, EtcdUnreachable, NoAnswer, NumberTaken, ReplicasDiffer
from hizmorke.fleet.etcd import Etcd
from hizmorke.fleet.log import SHARED, VAGUE, Log, Places, ops_of
from hizmorke.fleet.replica import Replica, all_told, follow, made_of
from hizmorke.fleet.run import Judge, Process, members_of
from hizmorke.network import Network
from hizmorke.programs import Programs
from hizmorke.service import Service

# So long something may take, in seconds: this machine may do something else too.
PATIENCE = 240
NODES = 16
EDGES = [(k, k + 1, 5) for k in range(NODES - 1)]


@pytest.fixture(scope="module")
def member(tmp_path_factory: pytest.TempPathFactory) -> Iterator[tuple[str, Process]]:
    """An etcd of one member."""
    if shutil.which("etcd") is None:
        pytest.skip("etcd isn't there: on Debian it is etcd-server")
    room = Path("/dev/shm" if os.access("/dev/shm", os.W_OK) else tmp_path_factory.mktemp("etcd"))
    room = room / f"fleet-tests-{os.getpid()}"
    room.mkdir()
    ((url, process),) = members_of(room, 1)
    process.start()
    until_it_answers(Etcd([url]))
    yield url, process
    process.kill()
    shutil.rmtree(room)


def until_it_answers(etcd: Etcd) -> None:
    end = time.monotonic() + PATIENCE
    while True:
        try:
            etcd.range(b"/")
            return
        except EtcdUnreachable:
            assert time.monotonic() < end
            time.sleep(0.1)


@pytest.fixture
def log(member: tuple[str, Process], request: pytest.FixtureRequest) -> Log:
    """A log of the test's own."""
    return Log(Etcd([member[0]], timeout=PATIENCE), f"/{request.node.name}-{time.monotonic_ns()}/")


class Running:
    """A replica in a thread of this process."""

    def __init__(self, log: Log, device: Device, found: Programs, made: dict[int, int] | None = None) -> None:
        self.device = device
        known = made_of(device) if made is None else made
        self.service = Service(device.path, "at:3", programs=found)
        self.replica = Replica(log.etcd, self.service, log.places.prefix, known)
        self.said: list[str] = []
        self.error: Exception | None = None
        self._ended = threading.Event()
        self._thread = threading.Thread(target=self._follow)

    def start(self) -> Running:
        self._thread.start()
        return self

    def _follow(self) -> None:
        try:
            follow(self.replica, self._ended, self.said.append)
        except Exception as error:
            self.error = error

    def until(self, revision: int) -> None:
        end = time.monotonic() + PATIENCE
        while self.replica.position < revision:
            assert time.monotonic() < end and self.error is None, self.error
            time.sleep(0.01)

    def end(self) -> None:
        self._ended.set()
        if self._thread.is_alive():
            self._thread.join()
        self.service.close()


@pytest.fixture
def devices(tmp_path: Path, loading: Programs) -> list[Device]:
    """Three copies of a device."""
    first = Device(tmp_path / "device-0", loading)
    first.load(Network(NODES, EDGES))
    copies = [Device(tmp_path / f"device-{k}", loading) for k in (1, 2)]
    for copy in copies:
        first.copy(copy.path)
    return [first, *copies]


def judged(log: Log, devices: list[Device], count: int) -> None:
    """All edits of the log, by the second judge: their outcomes, and what the devices hold."""
    judge = Judge(NODES, EDGES, count)
    told = {row.key: row.value.decode() for row in log.etcd.range(log.places.outcomes)[0]}
    edits = log.etcd.range(log.places.edits)[0]
    assert len(told) == len(edits)
    for row in edits:
        ops, wrong = ops_of(row.value)
        assert told[log.places.outcome_of(row.key)] == (wrong or judge.edit(ops.split(" ")))
    for device in devices:
        assert device.state().count == judge.count
        assert device.show().ascending() == judge.edges()
        assert device.resume(63) <= edits[-1].revision


def drawn_ops(drawn: random.Random) -> list[str]:
    ops = []
    for _ in range(drawn.randint(1, 3)):
        a, b, weight = drawn.randrange(NODES + 1), drawn.randrange(NODES), drawn.randint(0, 50)
        ops.append(drawn.choice((f"add:{a}:{b}:{weight}", f"set:{a}:{b}:{weight}", f"cut:{a}:{b}", f"set:{b}:{(b + 1) % NODES}:7")))
    return ops


def test_an_edit_is_put_once_and_told_the_same_again(log: Log, devices: list[Device], loading: Programs) -> None:
    count = devices[0].state().count
    running = [Running(log, device, loading).start() for device in devices]
    try:
        first = log.edit("anna", 1, ["set:0:1:7"])
        assert first.count == count + 1
        assert log.edit("anna", 1, [("set", 0, 1, 7)]) == first
        with pytest.raises(NumberTaken):
            log.edit("anna", 1, ["set:0:1:8"])
        with pytest.raises(ChangeRefused) as refused:
            log.edit("anna", 2, ["set:0:1:9", "add:0:1:9"])
        assert (refused.value.op, refused.value.code) == (1, 4)
        with pytest.raises(ChangeRefused):
            log.edit("anna", 2, ["set:0:1:9", "add:0:1:9"])
        assert log.edit("bert", 1, ["set:0:1:9"]).count == count + 2
        for name in ("", "a/b", "a b", "x" * 65, ".."):
            with pytest.raises(NotUnderstood):
                log.put(name, 1, ["cut:0:1"])
        last = log.put("bert", 2, ["cut:0:1"])
        for each in running:
            each.until(last)
    finally:
        for each in running:
            each.end()
    judged(log, devices, count)


def test_many_clients_and_three_replicas_come_to_the_same(log: Log, devices: list[Device], loading: Programs) -> None:
    count = devices[0].state().count
    running = [Running(log, device, loading).start() for device in devices]

    def client(name: str) -> None:
        drawn = random.Random(name)
        revisions.append(max(log.put(name, number, drawn_ops(drawn)) for number in range(60)))

    revisions: list[int] = []
    try:
        clients = [threading.Thread(target=client, args=(f"client-{k}",)) for k in range(4)]
        for each in clients:
            each.start()
        for each in clients:
            each.join()
        for each in running:
            each.until(max(revisions))
        assert all_told(log.etcd, log.places.prefix)
    finally:
        for each in running:
            each.end()
    assert [each.error for each in running] == [None] * 3
    judged(log, devices, count)


def test_what_is_no_edit_is_told_and_the_replica_goes_on(log: Log, devices: list[Device], loading: Programs) -> None:
    etcd, places = log.etcd, log.places
    wrong = {
        b"x/1": b"hello",
        b"x/2": b"",
        b"x/3": b"add:0:1:5\nedit 63 9 cut:0:1",
        b"x/4": b"add:0:2:05",
        b"x/5": b"add:0:65536:5",
        b"x/6": b"cut:0:1 ",
        b"x/7": bytes(range(256)),
        b"": b"cut:0:1:1",
        b"x/8": b" ".join([b"set:0:1:5"] * 17),
        b"x/9": "set:0:1:\u0665".encode(),
    }
    for name, value in wrong.items():
        etcd.put_all_if_absent([(places.edits + name, value)])
    # Two edits that one revision puts: the first by its key is one.
    etcd.put_all_if_absent([(places.edits + b"y/2", b"cut:1:2"), (places.edits + b"y/1", b"cut:0:1")])
    running = [Running(log, device, loading).start() for device in devices[:2]]
    try:
        count = log.edit("z", 1, ["cut:2:3"]).count
    finally:
        for each in running:
            each.end()
    told = {row.key[len(places.outcomes):]: row.value.decode() for row in etcd.range(places.outcomes)[0]}
    assert told[b"x/8"] == "change too long"
    assert {told[name] for name in wrong if name != b"x/8"} == {"op not understood"}
    assert (told[b"y/1"], told[b"y/2"], count) == (f"accepted count={(count or 0) - 1}", SHARED, count)
    assert [each.error for each in running] == [None, None]
    assert devices[0].show().ascending() == devices[1].show().ascending() == [(1, 2, 5), *EDGES[3:]]


def test_another_device_differs_and_says_so(log: Log, devices: list[Device], loading: Programs) -> None:
    devices[1].edit(["cut:0:1"])
    right = Running(log, devices[0], loading).start()
    try:
        log.edit("a", 1, ["set:0:1:9"])
        wrong = Running(log, devices[1], loading)
        with pytest.raises(ReplicasDiffer) as differ:
            wrong.replica.step()
        wrong.end()
        assert f"{log.places.prefix}edits/a/" in str(differ.value) and "refused op=0 code=5" in str(differ.value)
        assert log.edit("a", 2, ["set:0:1:8"]).count
    finally:
        right.end()


class Mute(Etcd):
    """An etcd that takes no outcome: each replica over it ends before it tells."""

    def put_all_if_absent(self, rows):  # type: ignore[no-untyped-def]
        raise EtcdUnreachable()


def test_outcomes_that_were_not_told_are_told_after_a_start(log: Log, devices: list[Device], loading: Programs, member: tuple[str, Process]) -> None:
    count = devices[0].state().count
    log.put("a", 1, ["set:0:1:9"])
    log.put("a", 2, ["add:0:1:9"])
    log.put("a", 3, ["set:0:1:8"])
    log.etcd.put_all_if_absent([(log.places.edits + b"a/hello", b"hello")])
    last = log.put("a", 4, ["add:0:1:9"])
    mute = Log(Mute([member[0]]), log.places.prefix)
    for device in devices[:2]:
        running = Running(mute, device, loading)
        with pytest.raises(EtcdUnreachable):
            running.replica.step()
        assert running.replica.position == last
        running.end()
    assert not log.etcd.range(log.places.outcomes)[0]
    # By the journal the first one knows what was made, and that one before was refused, not why.
    running = Running(log, devices[0], loading)
    running.replica.begin()
    told = [row.value.decode() for row in log.etcd.range(log.places.outcomes)[0]]
    assert sorted(told) == sorted([f"accepted count={count + 1}", f"accepted count={count + 2}", "refused"])
    # Behind the last one that was made all come again.
    while running.replica.step(0.1):
        pass
    running.end()
    settled = {row.key: row.value.decode() for row in log.etcd.range(log.places.outcomes)[0]}
    assert len(settled) == 5 and "refused op=0 code=4" in settled.values() and "op not understood" in settled.values()
    # A third one that has just come knows why, and tells it.
    third = Running(log, devices[2], loading)
    third.replica.step()
    third.end()
    judged(log, devices[:1] + devices[2:], count)
    # One whose journal begins later knows nothing of what was before, and agrees.
    running = Running(log, devices[1], loading, {})
    running.replica.begin()
    running.end()
    assert VAGUE not in {row.value.decode() for row in log.etcd.range(log.places.outcomes)[0]}


def test_etcd_that_is_gone_for_a_while(log: Log, devices: list[Device], loading: Programs, member: tuple[str, Process]) -> None:
    count = devices[0].state().count
    running = [Running(log, device, loading).start() for device in devices[:2]]
    try:
        log.edit("a", 1, ["set:0:1:9"])
        member[1].kill()
        time.sleep(2)
        with pytest.raises(EtcdUnreachable):
            log.put("a", 2, ["set:0:1:8"])
        member[1].start()
        until_it_answers(log.etcd)
        log.edit("a", 2, ["set:0:1:8"])
        last = log.put("a", 3, ["set:0:1:7"])
        for each in running:
            each.until(last)
        assert all_told(log.etcd, log.places.prefix)
    finally:
        for each in running:
            each.end()
    assert [each.error for each in running] == [None, None]
    assert any("etcd answers again" in each.said for each in running)
    judged(log, devices[:2], count)


def test_replicas_that_are_killed_make_each_edit_once(
    log: Log, devices: list[Device], loading: Programs, programs: Path, member: tuple[str, Process], tmp_path: Path
) -> None:
    count = devices[0].state().count
    source = Path(__file__).resolve().parents[2] / "src"
    environment = {**os.environ, "PYTHONPATH": str(source), "HIZMORKE_PROGRAMS": str(programs)}

    logs: list[Path] = []

    def started(device: Device) -> tuple[subprocess.Popen[bytes], Path]:
        words = [sys.executable, "-B", "-m", "hizmorke", "fleet", "replica", device.path, "--words", "at:3"]
        words += ["--etcd", member[0], "--prefix", log.places.prefix]
        logs.append(tmp_path / f"said-{len(logs)}")
        with open(logs[-1], "wb") as said:
            process = subprocess.Popen(
                words, env=environment, stdin=subprocess.DEVNULL, stdout=said, stderr=said, start_new_session=True
            )
        return process, logs[-1]

    def said() -> str:
        return "".join(each.read_text() for each in logs)[-3_000:]

    running = [started(device) for device in devices]
    drawn, ended = random.Random(5), threading.Event()

    def kill() -> None:
        while not ended.wait(drawn.uniform(0.3, 1.5)):
            k = drawn.randrange(3)
            os.killpg(running[k][0].pid, signal.SIGKILL)
            running[k][0].wait()
            kills.append(k)
            running[k] = started(devices[k])

    kills: list[int] = []
    killer = threading.Thread(target=kill)
    killer.start()
    number = 0
    try:
        begun = time.monotonic()
        end = begun + (60 if os.environ.get("HIZMORKE_KILLS") else 12)
        # A machine that has other work takes longer for as much.
        while (now := time.monotonic()) < end or (len(kills) <= 3 or number <= 100) and now < begun + PATIENCE:
            log.put("a", number, drawn_ops(random.Random(number)))
            number += 1
            time.sleep(0.01)
        ended.set()
        killer.join()
        assert all_told(log.etcd, log.places.prefix, PATIENCE), said()
        last = log.put("a", number, ["set:0:1:3"])
        log.outcome("a", number, last, PATIENCE)
        for process, path in running:
            while "replica position=" not in path.read_text():
                assert process.poll() is None and time.monotonic() < end + 4 * PATIENCE, said()
                time.sleep(0.05)
        # Each one has all now, or soon.
        time.sleep(5)
    finally:
        ended.set()
        killer.join()
        for process, _ in running:
            process.terminate()
        statuses = [process.wait(PATIENCE) for process, _ in running]
    assert statuses == [0, 0, 0], said()
    assert len(kills) > 3 and number > 100
    # One that was late goes on from where it ended.
    for device in devices:
        late = Running(log, device, loading).start()
        try:
            late.until(last)
        finally:
            late.end()
    refused_vaguely(log)
    judged(log, devices, count)


def refused_vaguely(log: Log) -> None:
    """Where all replicas were ended at once, it may be known no more why an edit was refused. None may be vaguer."""
    told = log.etcd.range(log.places.outcomes)[0]
    assert VAGUE not in {row.value.decode() for row in told}
    for row in told:
        if row.value == b"refused":
            pytest.skip("all replicas were ended before one told why an edit was refused")


def test_nobody_tells(log: Log) -> None:
    with pytest.raises(NoAnswer):
        log.edit("a", 1, ["set:0:1:9"], 0.5)
    with pytest.raises(EtcdUnreachable):
        Log(Etcd(["http://127.0.0.1:9", "http://127.0.0.1:10"])).put("a", 1, ["set:0:1:9"])
    for urls in ([], ["127.0.0.1:2379"], ["ftp://127.0.0.1"]):
        with pytest.raises(NotUnderstood):
            Etcd(urls)


def test_a_member_that_is_gone_is_passed_over(member: tuple[str, Process]) -> None:
    etcd = Etcd(["http://127.0.0.1:9", member[0]])
    revision, there = etcd.put_all_if_absent([(b"/passed/a", b"1"), (b"/passed/b", b"2")])
    assert there == []
    again, there = etcd.put_all_if_absent([(b"/passed/a", b"3"), (b"/passed/c", b"4")])
    assert again >= revision and there[0] is not None and there[0].value == b"1" and there[1] is None
    assert [row.key for row in etcd.range(b"/passed/")[0]] == [b"/passed/a", b"/passed/b"]
    assert etcd.put_if(b"/passed/a", b"5", b"1") and not etcd.put_if(b"/passed/a", b"6", b"1")
    assert [row.key for row in etcd.range(b"/passed/", newest_first=True, limit=1)[0]] == [b"/passed/a"]
    assert etcd.range(b"/passed/", after=revision)[0][0].value == b"5"
    begun = time.monotonic()
    etcd.wait(b"/passed/", revision, 20)
    assert time.monotonic() - begun < 10
    assert Places("/x/").outcome_of(b"/x/edits/a/1") == b"/x/outcomes/a/1"
    assert base64.b64encode(b"/passed/") == b"L3Bhc3NlZC8="


def test_users_and_https(tmp_path: Path) -> None:
    if shutil.which("etcd") is None or shutil.which("openssl") is None:
        pytest.skip("etcd or openssl isn't there")
    key, certificate, user = tmp_path / "key", tmp_path / "certificate", "root:a word: of many"
    call = ["openssl", "req", "-x509", "-newkey", "rsa:2048", "-nodes", "-keyout", key, "-out", certificate, "-days", "2"]
    call += ["-subj", "/CN=localhost", "-addext", "subjectAltName=IP:127.0.0.1"]
    subprocess.run(call, check=True, capture_output=True)
    ((plain, process),) = members_of(tmp_path, 1)
    url = plain.replace("http:", "https:")
    process.words = [word.replace(plain, url) for word in process.words]
    process.words += ["--cert-file", str(certificate), "--key-file", str(key)]
    process.start()
    try:
        etcd = Etcd([url], authority=str(certificate))
        until_it_answers(etcd)
        with pytest.raises(EtcdUnreachable):
            Etcd([url]).range(b"/")
        etcd.call("auth/user/add", {"name": "root", "password": user.partition(":")[2]})
        etcd.call("auth/role/add", {"name": "root"})
        etcd.call("auth/user/grant", {"user": "root", "role": "root"})
        etcd.call("auth/enable", {})
        for other in (None, "root:wrong", "nobody:x"):
            with pytest.raises(EtcdRefused):
                Etcd([url], other, str(certificate)).range(b"/")
        known = Etcd([url], user, str(certificate))
        log = Log(known)
        revision = log.put("a", 1, ["cut:0:1"])
        begun = time.monotonic()
        known.wait(log.places.edits, revision - 1, 20)
        assert time.monotonic() - begun < 15 and known.range(log.places.edits)[0][0].value == b"cut:0:1"
    finally:
        process.kill()
