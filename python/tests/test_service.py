"""Live services: answers by many threads, services that are killed in the middle of edits, and gates."""

from __future__ import annotations

import os
import random
import signal
import socket
import subprocess
import sys
import threading
import time
from collections.abc import Callable, Iterator
from concurrent.futures import ThreadPoolExecutor
from contextlib import contextmanager
from pathlib import Path

import pytest

from hizmorke import errors
from hizmorke.device import Device, Route, TableFiles
from hizmorke.errors import ServiceEnded
from hizmorke.programs import Programs
from hizmorke.service import IN_FLIGHT, Edited, Service, ServiceState, _Pipes

SOURCE = Path(__file__).resolve().parents[1] / "src"
# So long something may take, in seconds: this machine may do something else too.
PATIENCE = 240.0


@pytest.fixture
def device(found: Programs, tmp_path: Path) -> Device:
    """Nine nodes."""
    made = Device(tmp_path / "net", found)
    made.format(9)
    return made


def served(device: Device, words: str = "draw:7", **how: int) -> Service:
    return Service(device.path, words, programs=device.programs, **how)


def test_a_conversation(device: Device, tmp_path: Path) -> None:
    with served(device) as service:
        assert service.edit(["add:0:1:5", ("add", 1, 2, 5)]) == Edited(0, 1, True, 1)
        assert service.wait() == 1
        assert service.state() == ServiceState(1, 1, 0)
        assert service.route(0, 2) == Route(1, (0, 1, 2), 10)
        assert service.route(0, 5) is None
        assert service.routes([(2, 0), (0, 5), (1, 1)]) == [Route(1, (2, 1, 0), 10), None, Route(1, (1,), 0)]
        with pytest.raises(errors.ChangeRefused) as refused:
            service.edit(["add:2:3:1", "add:0:1:5"])
        assert (refused.value.op, refused.value.code) == (1, 4)
        # The refused one has used up ticket 2.
        assert service.edit(["add:2:3:5"]) == Edited(0, 3, True, 2)
        assert service.edit(["add:3:4:5"], session=63, ticket=7) == Edited(63, 7, True, 3)
        assert (service.resume(0), service.resume(63), service.resume(5)) == (3, 7, 0)
        assert service.wait() == 3
        folder = tmp_path / "tables"
        folder.mkdir()
        sizes = lambda: [path.stat().st_size for path in folder.iterdir()]
        written = service.tables(folder)
        assert written == TableFiles(3, 9, sum(sizes()), max(sizes()))
        assert service.backup(tmp_path / "backup") == 3
        with pytest.raises(errors.FileExists):
            service.backup(tmp_path / "backup")
        with pytest.raises(errors.TableFileUnwritable, match="no: table file cannot be written"):
            service.tables(tmp_path / "no")
        told = service.metrics()
        assert (told["accepted"], told["refused"], told["count"]) == (3, 1, 3)
        with pytest.raises(errors.DeviceInUse):
            device.show()
    assert Device(tmp_path / "backup", device.programs).show() == device.show()
    assert device.info().tickets == {0: 3, 63: 7}


def test_a_packet(device: Device) -> None:
    with served(device, "at:2") as service:
        service.edit([f"add:{node}:{node + 1}:1" for node in range(4)])
        service.wait()
        address = service.address(4)
        # As docs/FORMATS.md has it for this path.
        assert (address.generation, address.node, address.landmark, address.label, address.ports) == (1, 4, 2, 4, (1,))
        packet, at, way = service.launch(0, address), 0, [0]
        while (hop := service.hop(at, packet)) is not None:
            _, at, packet = hop
            way.append(at)
        assert way == [0, 1, 2, 3, 4]
        with pytest.raises(errors.Unreachable):
            service.launch(7, address)
        with pytest.raises(errors.Stray):
            service.hop(8, packet)
        for call in (
            lambda: service.address(9),
            lambda: service.route(0, 9),
            lambda: service.launch(9, address),
            lambda: service.hop(9, packet),
        ):
            with pytest.raises(errors.NoNode):
                call()
        with pytest.raises(errors.BadLength):
            service.hop(0, b"short")
        with pytest.raises(errors.BadFlag):
            service.launch(0, address[:10] + b"\2" + address[11:])
        with pytest.raises(errors.GenerationGone):
            service.hop(0, bytes(7) + b"\x63" + packet[8:])


@pytest.mark.parametrize(
    ("ops", "how", "kind"),
    [
        (["add:0:1"], {}, errors.OperationNotUnderstood),
        (["add:0:1:1"] * 17, {}, errors.LineNotUnderstood),
        (["add:0:1:1\nstate"], {}, errors.LineNotUnderstood),
        (["add:0:1:1"], {"session": 64}, errors.NoSession),
        (["add:0:1:1"], {"session": 4, "ticket": 1}, errors.AlreadyIn),
        (["add:0:1:1"], {"session": 4, "ticket": 2**63}, errors.LineNotUnderstood),
    ],
)
def test_edits_that_are_not_made(
    device: Device, ops: list[str], how: dict[str, int], kind: type[errors.HizmorkeError]
) -> None:
    with served(device) as service:
        service.edit(["add:7:8:1"], session=4)
        with pytest.raises(kind):
            service.edit(ops, **how)
        assert service.state().count == 1


def test_an_old_ticket_and_a_session_that_is_worn_out(device: Device) -> None:
    with served(device) as service:
        with pytest.raises(errors.ChangeRefused):
            service.edit(["cut:0:1"], session=1, ticket=5)
        with pytest.raises(errors.OldTicket):
            service.edit(["add:0:1:1"], session=1, ticket=4)
        with pytest.raises(errors.ChangeRefused):
            service.edit(["cut:0:1"], session=1, ticket=5)
        service.edit(["add:0:1:1"], session=2, ticket=2**63 - 1)
        with pytest.raises(errors.WornOut):
            service.edit(["add:1:2:1"], session=2)
        with pytest.raises(errors.WornOut):
            list(service.edits([["add:1:2:1"]], session=2))


def test_a_row_of_edits(device: Device) -> None:
    with served(device) as service:
        changes = [["add:0:1:1"], ["add:0:1:1"], ["set:0:1:2"], ["cut:5:6"], ["add:5:6:7"]]
        made = list(service.edits(iter(changes), session=9))
        assert [(each.session, each.ticket, each.made, each.count) for each in made] == [
            (9, 1, True, 1),
            (9, 2, False, None),
            (9, 3, True, 2),
            (9, 4, False, None),
            (9, 5, True, 3),
        ]
        assert [each.refused and each.refused.code for each in made] == [None, 4, None, 5, None]
        with pytest.raises(errors.AlreadyIn):
            list(service.edits(changes, session=9, ticket=5))
        assert [each.ticket for each in service.edits([["set:0:1:3"]], session=9, ticket=70)] == [70]
        assert list(service.edits([])) == []
        # A row that isn't taken to its end gives its session back.
        row = service.edits(([f"set:0:1:{weight}"] for weight in range(1, 99)), session=9, in_flight=4)
        next(row)
        row.close()
        assert service.edit(["set:0:1:100"], session=9).made


@pytest.mark.parametrize(
    ("words", "how", "kind"),
    [("at:9", {}, errors.WordsNotUnderstood), ("none", {"editors": 65}, errors.UsageNotUnderstood)],
)
def test_words_that_are_not_understood(
    device: Device, words: str, how: dict[str, int], kind: type[errors.HizmorkeError]
) -> None:
    with pytest.raises(kind):
        served(device, words, **how)


def test_devices_that_cannot_be_served(device: Device, tmp_path: Path) -> None:
    with pytest.raises(errors.FileUnusable):
        served(Device(tmp_path / "no", device.programs))
    with served(device), pytest.raises(errors.DeviceInUse):
        served(device)
    device.path.write_bytes(b"no device")
    with pytest.raises(errors.NotFormatted, match="net: not formatted"):
        served(device)


def test_a_service_that_was_closed(device: Device) -> None:
    service = served(device)
    service.close()
    service.close()
    with pytest.raises(errors.ServiceEnded, match="the service was closed"):
        service.route(0, 1)
    with pytest.raises(errors.ServiceEnded):
        service.edit(["add:0:1:1"])
    assert device.state().count == 0


def test_what_was_sent_is_answered_before_the_end(device: Device) -> None:
    service = served(device)
    answers = [service.send(f"edit {session} 1 set:0:1:1") for session in range(64)]
    service.close()
    assert [answer.result() for answer in answers] == [f"{session} 1 refused op=0 code=5" for session in range(64)]


# Services that are killed.


@contextmanager
def killed_again_and_again(pid: Callable[[], int | None], seed: int, kills: int) -> Iterator[list[int]]:
    """Kills the process so often, after drawn pauses, while what is inside runs."""
    drawn, done, killed = random.Random(seed), threading.Event(), []

    def kill() -> None:
        while len(killed) < kills and not done.wait(drawn.uniform(0.002, 0.03)):
            process = pid()
            if process is not None and process not in killed:
                try:
                    os.kill(process, signal.SIGKILL)
                except ProcessLookupError:
                    continue
                killed.append(process)

    thread = threading.Thread(target=kill)
    thread.start()
    try:
        yield killed
    finally:
        done.set()
        thread.join()


def busy_process(service: Service) -> int | None:
    """The service's process, once it has answered some lines: one that is killed before tells nothing."""
    connection = service._connection
    return service.process_id if connection is not None and connection.answers > 2 else None


def accepted(device: Device) -> list[tuple[int, int, tuple[str, ...]]]:
    """The changes that the device has, by its journal, which has all of them here."""
    journal = device.journal()
    assert [entry.count for entry in journal] == list(range(1, len(journal) + 1))
    return [(entry.session, entry.ticket, entry.ops) for entry in journal]


@pytest.mark.parametrize("seed", range(3))
def test_each_edit_is_made_once_by_many_threads(device: Device, seed: int) -> None:
    threads, each = 6, 60
    with served(device) as service, killed_again_and_again(lambda: busy_process(service), seed, 12) as killed:
        service.edit([f"add:0:{thread + 1}:1" for thread in range(threads)])

        def edit(thread: int) -> list[Edited]:
            return [service.edit([f"set:0:{thread + 1}:{weight + 1}"]) for weight in range(each)]

        with ThreadPoolExecutor(threads) as pool:
            made = list(pool.map(edit, range(threads)))
    assert killed
    kept = accepted(device)[1:]
    # Each change stands there once, under the ticket that its call told, and those of a thread in its order.
    assert sorted((each.session, each.ticket) for row in made for each in row) == sorted(row[:2] for row in kept)
    for thread, row in enumerate(made):
        assert [ops for session, ticket, ops in kept if ops[0].startswith(f"set:0:{thread + 1}:")] == [
            (f"set:0:{thread + 1}:{weight + 1}",) for weight in range(each)
        ]
        assert all(edited.made for edited in row)


@pytest.mark.parametrize("seed", range(3))
def test_each_edit_of_a_row_is_made_once(device: Device, seed: int) -> None:
    changes = [["add:0:1:1"], *([f"set:0:1:{weight}"] for weight in range(1, 900))]
    with served(device) as service, killed_again_and_again(lambda: busy_process(service), seed, 10) as killed:
        made = list(service.edits(changes, session=5, in_flight=64))
    assert killed
    assert [edited.ticket for edited in made] == list(range(1, 901))
    assert [ops for _, _, ops in accepted(device)] == [tuple(change) for change in changes]
    assert all(edited.made is not False for edited in made)
    # Of what was answered the number is known, and it is right.
    assert all(edited.count in (None, edited.ticket) for edited in made)


@pytest.mark.parametrize("seed", range(2))
def test_refused_edits_of_a_row_stay_refused(device: Device, seed: int) -> None:
    changes = [["add:0:1:1"] if number % 3 else ["cut:0:1"] for number in range(600)]
    with served(device) as service, killed_again_and_again(lambda: busy_process(service), seed, 8):
        made = list(service.edits(changes, in_flight=1))
    # With one in flight it is always known what became of an edit.
    assert all(edited.made is not None for edited in made)
    assert [(edited.session, edited.ticket) for edited in made if edited.made] == [row[:2] for row in accepted(device)]
    assert [edited.made for edited in made] == [number > 0 and number % 3 != 2 for number in range(600)]


def test_questions_are_asked_again(device: Device) -> None:
    device.edit(["add:0:1:3", "add:1:2:4"])
    with served(device, "at:1") as service, killed_again_and_again(lambda: busy_process(service), 1, 6) as killed:
        until = time.monotonic() + PATIENCE
        while len(killed) < 6 and time.monotonic() < until:
            assert service.routes([(0, 2)] * 50) == [Route(1, (0, 1, 2), 7)] * 50
            assert service.wait() == 1 and service.resume(0) == 1 and service.metrics()["count"] == 1
    assert len(killed) == 6


def test_a_line_behind_a_failed_write_waits_for_the_end() -> None:
    """A process that doesn't listen any more may still speak. Who tries anew comes to another one then."""
    connection = _Pipes(["/bin/sh", "-c", "exec <&-; sleep 1"], "net")
    until = time.monotonic() + PATIENCE
    while not connection._closing and time.monotonic() < until:
        connection.send("state")
        time.sleep(0.01)
    assert connection._closing and not connection.is_lost
    with pytest.raises(ServiceEnded):
        connection.send("state")
    assert connection.is_lost


def test_an_interrupt_waits_for_no_tables(device: Device) -> None:
    with pytest.raises(KeyboardInterrupt), served(device) as service:
        assert service.edit(["add:0:1:1"]).count == 1
        connection = service._connection
        raise KeyboardInterrupt
    assert isinstance(connection, _Pipes)
    assert connection._process.returncode == -signal.SIGTERM
    assert device.state().count == 1


def test_what_is_no_file_is_told_by_name(device: Device, tmp_path: Path) -> None:
    with pytest.raises(errors.FileUnusable) as told:
        Service(tmp_path, "none", programs=device.programs)
    assert told.value.cause == "neither a regular file nor a block device"


def test_a_service_ends_with_whoever_started_it(device: Device) -> None:
    program = f"""
from hizmorke.service import Service
from hizmorke.programs import Programs
service = Service({str(device.path)!r}, "none", programs=Programs({str(device.programs.folder)!r}))
print(service.edit(["add:0:1:1"]).count, flush=True)
input()
"""
    call = [sys.executable, "-B", "-P", "-c", program]
    environment = {**os.environ, "PYTHONPATH": str(SOURCE)}
    with subprocess.Popen(call, stdin=subprocess.PIPE, stdout=subprocess.PIPE, env=environment) as starter:
        assert starter.stdout is not None and starter.stdout.readline() == b"1\n"
        with pytest.raises(errors.DeviceInUse):
            device.info()
        starter.kill()
    until = time.monotonic() + PATIENCE
    while True:
        try:
            assert device.info().count == 1
            break
        except errors.DeviceInUse:
            assert time.monotonic() < until
            time.sleep(0.02)


def test_nothing_stays_open(device: Device) -> None:
    before = len(os.listdir("/proc/self/fd"))
    for _ in range(3):
        with served(device) as service:
            process = service.process_id
            assert process is not None
            os.kill(process, signal.SIGKILL)
            assert service.resume(0) == 0 and service.process_id != process
    assert len(os.listdir("/proc/self/fd")) == before
    assert not [thread for thread in threading.enumerate() if thread.name == "hizmorke answers"]


# Services that a stand-in plays, for what the program doesn't do on demand.


def stand_in(folder: Path, program: str) -> Programs:
    """A folder with a `tznode` that runs this text of Python."""
    folder.mkdir(exist_ok=True)
    (folder / "tznode").write_text(f"#!{sys.executable}\nimport os, sys, time\n{program}")
    (folder / "tznode").chmod(0o755)
    return Programs(folder)


def test_a_fault_is_told(tmp_path: Path) -> None:
    programs = stand_in(
        tmp_path / "bin",
        """
for line in sys.stdin:
    if line.startswith("resume") and not os.path.exists("%s"):
        print("session=0 ticket=0", flush=True)
    else:
        open("%s", "w")
        sys.exit("tznode: device failed")
"""
        % (tmp_path / "failed", tmp_path / "failed"),
    )
    with Service(tmp_path / "net", "none", programs=programs) as service:
        with pytest.raises(errors.ServiceEnded) as ended:
            service.edit(["add:0:1:1"], session=3)
        assert (ended.value.session, ended.value.ticket, ended.value.exit_status) == (3, 1, 1)
        assert isinstance(ended.value.fault, errors.DeviceFailed)
        assert str(ended.value) == f"{tmp_path / 'net'}: the service has ended: device failed"
        with pytest.raises(errors.ServiceEnded, match="device failed"):
            service.route(0, 1)
        with pytest.raises(errors.ServiceEnded):
            list(service.edits([["add:0:1:1"]], session=3))
    with pytest.raises(errors.DeviceFailed):
        Service(tmp_path / "net", "none", programs=programs)


def test_a_service_that_falls_down_each_time_is_given_up(tmp_path: Path, monkeypatch: pytest.MonkeyPatch) -> None:
    monkeypatch.setattr("hizmorke.service.time.sleep", lambda seconds: None)
    programs = stand_in(
        tmp_path / "bin",
        """
for line in sys.stdin:
    if not line.startswith("resume"):
        os.kill(os.getpid(), 9)
    print("session=0 ticket=0", flush=True)
""",
    )
    with Service(tmp_path / "net", "none", programs=programs) as service:
        calls: list[Callable[[], object]] = [lambda: service.edit(["add:0:1:1"]), service.wait]
        for call in (*calls, lambda: list(service.edits([["cut:0:1"]]))):
            with pytest.raises(errors.ServiceEnded, match="ended by signal 9") as ended:
                call()
            assert ended.value.fault is None and ended.value.exit_status == -9


def test_an_answer_that_is_cut_is_none(tmp_path: Path) -> None:
    programs = stand_in(
        tmp_path / "bin",
        """
for line in sys.stdin:
    if line.startswith("resume"):
        print("session=0 ticket=%d" % os.path.exists("{0}"), flush=True)
    elif not os.path.exists("{0}"):
        open("{0}", "w")
        os.write(1, b"0 1 accepted count=1")
        sys.exit(1)
    else:
        print(" ".join(line.split()[1:3]) + " already in", flush=True)
""".replace("{0}", str(tmp_path / "made")),
    )
    with Service(tmp_path / "net", "none", programs=programs) as service:
        # It was new when it was sent first, so it is the one that is in.
        assert service.edit(["add:0:1:1"]) == Edited(0, 1, True, None)
        with pytest.raises(errors.AlreadyIn):
            service.edit(["add:0:1:1"])


def keeper(folder: Path, told: int, kept: int, read: int) -> Programs:
    """A `tznode` that keeps tickets in a file. Its first life reads so many edits, keeps the first of them, tells
    fewer, and ends."""
    return stand_in(
        folder / "bin",
        """
path, lives = "%s", "%s"
open(lives, "a").write("x")
first, count, lines = len(open(lives).read()) == 1, 0, []
open(path, "a").close()
for line in sys.stdin:
    words = line.split()
    kept = [int(each) for each in open(path).read().split()]
    if words[0] == "resume":
        print("session=%%s ticket=%%d" %% (words[1], max(kept, default=0)), flush=True)
        continue
    count += 1
    if not first or count <= %d:
        assert int(words[2]) > max(kept, default=0)
        open(path, "a").write(words[2] + "\\n")
    if not first or count <= %d:
        print(" ".join(words[1:3]) + " accepted count=%%d" %% (len(kept) + 1), flush=True)
    if first and count == %d:
        sys.exit(1)
"""
        % (folder / "kept", folder / "lives", kept, told, read),
    )


def test_later_edits_of_a_row_wait_for_those_whose_answers_were_lost(tmp_path: Path) -> None:
    programs = keeper(tmp_path, told=1, kept=1, read=4)
    with Service(tmp_path / "net", "none", programs=programs) as service:
        row = service.edits([["cut:0:1"]] * 12, in_flight=4)
        assert next(row) == Edited(0, 1, True, 1)
        # The end of the service is known before the next edits are sent.
        until, connection = time.monotonic() + PATIENCE, service._connection
        while connection is not None and not connection.is_lost:
            assert time.monotonic() < until
            time.sleep(0.01)
        assert list(row) == [Edited(0, ticket, True, ticket) for ticket in range(2, 13)]
    assert (tmp_path / "kept").read_text().split() == [str(ticket) for ticket in range(1, 13)]


def test_of_some_edits_it_is_not_known_whether_they_were_made(tmp_path: Path) -> None:
    programs = keeper(tmp_path, told=2, kept=5, read=7)
    with Service(tmp_path / "net", "none", programs=programs) as service:
        row = list(service.edits([["cut:0:1"]] * 9, in_flight=8))
    # Tickets 3 and 4 were made or refused, 5 was made, and those behind it weren't: they are sent again.
    assert [(edited.made, edited.count) for edited in row] == [
        *[(True, 1), (True, 2), (None, None), (None, None), (True, None)],
        *[(True, 6), (True, 7), (True, 8), (True, 9)],
    ]
    assert (tmp_path / "kept").read_text().split() == [str(ticket) for ticket in range(1, 10)]


def test_answers_that_are_not_understood(tmp_path: Path) -> None:
    programs = stand_in(
        tmp_path / "bin",
        """
for line in sys.stdin:
    print("session=0 ticket=0" if line.startswith("resume") else "what is that", flush=True)
""",
    )
    with Service(tmp_path / "net", "none", programs=programs) as service:
        calls: list[Callable[[], object]] = [service.wait, service.state, service.metrics]
        calls += [lambda: service.edit(["add:0:1:1"]), lambda: service.route(0, 1), lambda: service.address(0)]
        calls += [lambda: service.hop(0, bytes(43)), lambda: service.launch(0, bytes(42)), lambda: service.tables("t")]
        for call in calls:
            with pytest.raises(errors.AnswerNotUnderstood, match="what is that"):
                call()


def test_so_many_lines_at_most_are_in_flight(tmp_path: Path) -> None:
    # It reads lines and counts them, and answers once a file is there.
    programs = stand_in(
        tmp_path / "bin",
        """
print(sys.stdin.readline().replace("resume 0", "session=0 ticket=0"), end="", flush=True)
count, go = 0, "%s"
os.set_blocking(0, False)
while not os.path.exists(go):
    count += (os.read(0, 1 << 20) if __import__("select").select([0], [], [], 0.01)[0] else b"").count(b"\\n")
    open("%s", "w").write(str(count))
os.set_blocking(0, True)
for number in range(count):
    print("generation=7", flush=True)
for line in sys.stdin:
    print("generation=7", flush=True)
"""
        % (tmp_path / "go", tmp_path / "count"),
    )
    with Service(tmp_path / "net", "none", programs=programs) as service:
        with ThreadPoolExecutor(4) as pool:
            asked = [pool.submit(lambda: [service.send("wait") for _ in range(400)]) for _ in range(4)]
            deadline = time.monotonic() + PATIENCE
            while (tmp_path / "count").exists() is False or (tmp_path / "count").read_text() != str(IN_FLIGHT):
                assert time.monotonic() < deadline
                time.sleep(0.01)
            time.sleep(0.1)
            assert (tmp_path / "count").read_text() == str(IN_FLIGHT)
            assert not all(sent.done() for sent in asked)
            (tmp_path / "go").touch()
            answers = [answer.result(PATIENCE) for sent in asked for answer in sent.result(PATIENCE)]
    assert answers == ["generation=7"] * 1_600


# Gates.


@contextmanager
def gate(device: Device, *words: str) -> Iterator[tuple[Path, subprocess.Popen[bytes]]]:
    """A gate over the device, on a Unix socket."""
    path = device.path.with_name("socket")
    program = device.programs.path("tznode")
    call = [sys.executable, "-B", "-P", "-m", "hizmorke.gate", device.path, "--words", "at:1", "--program", program]
    process = subprocess.Popen([*call, "--socket", path, *words], env={**os.environ, "PYTHONPATH": str(SOURCE)})
    try:
        yield path, process
    finally:
        process.terminate()
        assert process.wait(PATIENCE) in (0, 1)


def service_of(gate_process: int) -> int | None:
    """The process of the service behind a gate."""
    told = Path(f"/proc/{gate_process}/task/{gate_process}/children").read_text().split()
    return int(told[0]) if told else None


def test_a_client_of_a_gate(device: Device) -> None:
    with gate(device) as (path, _), Service.connect(path, "north", timeout=PATIENCE) as north:
        assert north.session == 1
        assert north.edit(["add:0:1:5"]) == Edited(1, 1, True, 1)
        assert north.wait() == 1 and north.route(0, 1) == Route(1, (0, 1), 5)
        with pytest.raises(errors.NotYourSession):
            north.edit(["add:1:2:5"], session=2)
        with Service.connect(path) as nameless:
            assert nameless.session is None and nameless.route(1, 0) == Route(1, (1, 0), 5)
            with pytest.raises(errors.NotYourSession):
                nameless.edit(["add:1:2:5"])
        with pytest.raises(errors.NotAName):
            Service.connect(path, "no name")
        with pytest.raises(errors.TicketTooLarge):
            north.edit(["add:1:2:5"], ticket=2**62 + 1)
        with Service.connect(path, "south") as south:
            assert south.edit(["add:1:2:5"]) == Edited(2, 1, True, 2)
            assert south.edits([["add:2:3:5"], ["add:2:3:5"]]).__next__().made
        assert north.metrics()["count"] >= 0
    assert accepted(device)[:2] == [(1, 1, ("add:0:1:5",)), (2, 1, ("add:1:2:5",))]


def test_a_token(device: Device, tmp_path: Path) -> None:
    (tmp_path / "token").write_text("s3cret\n")
    with socket.socket() as free:
        free.bind(("127.0.0.1", 0))
        port = free.getsockname()[1]
    with gate(device, "--tcp", str(port), "--token", str(tmp_path / "token")) as (path, _):
        with Service.connect(("127.0.0.1", port), "north", token="s3cret", timeout=PATIENCE) as north:
            assert north.edit(["add:0:1:5"]).count == 1
        for token in ("other", None):
            with pytest.raises(errors.TokenRefused):
                Service.connect(path, "north", token=token)


@pytest.mark.parametrize("seed", range(2))
def test_each_edit_over_a_gate_is_made_once(device: Device, seed: int) -> None:
    names, each = ("north", "south", "west"), 40
    device.edit(["add:0:1:1", "add:0:2:1", "add:0:3:1"])
    with gate(device) as (path, process):

        def edit(number: int) -> list[Edited]:
            with Service.connect(path, names[number], timeout=PATIENCE) as client:
                one = [client.edit([f"set:0:{number + 1}:{weight}"]) for weight in range(1, each)]
                rows = ([f"set:0:{number + 1}:{weight}"] for weight in range(each, 9 * each))
                return [*one, *client.edits(rows, in_flight=40)]

        with killed_again_and_again(lambda: service_of(process.pid), seed, 4) as killed:
            with ThreadPoolExecutor(len(names)) as pool:
                made = list(pool.map(edit, range(len(names))))
    assert killed
    kept = accepted(device)[1:]
    for number, row in enumerate(made):
        assert [ops for _, _, ops in kept if ops[0].startswith(f"set:0:{number + 1}:")] == [
            (f"set:0:{number + 1}:{weight}",) for weight in range(1, 9 * each)
        ]
        assert all(edited.made is not False for edited in row)


def test_no_gate_is_there(tmp_path: Path) -> None:
    begun = time.monotonic()
    with pytest.raises(errors.ServiceEnded, match="no gate can be reached"):
        Service.connect(tmp_path / "no", timeout=0.2)
    assert time.monotonic() - begun < 5


def test_a_client_comes_back_to_a_gate_that_was_started_again(device: Device) -> None:
    with gate(device) as (path, _):
        client = Service.connect(path, "north", timeout=PATIENCE)
        assert client.edit(["add:0:1:5"]) == Edited(1, 1, True, 1)
    path.unlink(missing_ok=True)
    with gate(device), client:
        assert client.edit(["add:1:2:5"]) == Edited(1, 2, True, 2)
        assert client.session == 1
    assert [row[:2] for row in accepted(device)] == [(1, 1), (1, 2)]
