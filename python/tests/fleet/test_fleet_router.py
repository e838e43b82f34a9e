"""Routers over UDP: what they pass on, refuse, answer and count, under the sanitizers."""

from __future__ import annotations

import os
import random
import signal
import socket
import subprocess
import time
from pathlib import Path

import pytest
from fleet_running import NODES, PATIENCE, Net, Wired

from hizmorke.fleet import payloads
from hizmorke.fleet.counters import read_counters
from hizmorke.fleet.errors import WiresNotUnderstood
from hizmorke.fleet.payloads import MOST_PAYLOAD, answer_of, asking, data
from hizmorke.fleet.probes import Prober, ping, trace
from hizmorke.fleet.wires import Wires
from hizmorke.tables import PACKET_LENGTH, carry

DROPPED = [f"fleet_dropped_total.{reason}" for reason in payloads.REASONS]


def settled(counters: dict[str, float]) -> None:
    """What came in and what was launched here is passed on, has arrived or was dropped."""
    came = counters["fleet_received_total"] + counters["fleet_answers_total"]
    went = counters["fleet_passed_on_total"] + counters["fleet_delivered_total"] + sum(counters[name] for name in DROPPED)
    assert came == went, counters
    assert counters["fleet_dropped_total.queue_full"] == 0


def test_each_pair_has_its_payload_once(wired: Wired) -> None:
    pairs = [(a, b) for a in range(NODES - 1) for b in range(NODES - 1)]
    hops = 0
    for a, b in pairs:
        content = b"%d %d" % (a, b)
        wired.send(a, wired.tables[a].launch(wired.tables[b].address()) + data(wired.port, content.ljust(300)))
        found = wired.heard()
        assert found is not None
        datagram, node = found
        assert node == b and datagram[PACKET_LENGTH + 3:].rstrip() == content
        hops += len(list(carry(wired.tables, a, b))) - 1
    assert wired.heard(0.1) is None
    counters = wired.router.counters()
    assert counters["fleet_passed_on_total"] == hops
    assert counters["fleet_delivered_total"] == counters["fleet_handed_total"] == len(pairs)
    assert sum(counters[name] for name in DROPPED) == 0
    settled(counters)


def test_a_payload_of_the_greatest_length_arrives_whole_and_none_that_is_longer(wired: Wired) -> None:
    packet = wired.tables[0].launch(wired.tables[9].address())
    whole = data(wired.port, os.urandom(MOST_PAYLOAD - 3))
    wired.send(0, packet + whole)
    found = wired.heard()
    assert found is not None and found[0][PACKET_LENGTH:] == whole
    for length in (0, 1, PACKET_LENGTH - 1):
        wired.send(0, packet[:length])
    wired.send(0, packet + whole + b".")
    counters = wired.router.until("fleet_dropped_total.length", 4)
    wired.send(9, wired.tables[9].launch(wired.tables[9].address()))
    counters = wired.router.until("fleet_unclaimed_total", 1)
    assert counters["fleet_handed_total"] == 1
    settled(counters)


def test_ping_and_trace_tell_the_way(wired: Wired) -> None:
    for a, b in ((0, 22), (22, 0), (5, 5), (7, 8)):
        way = list(carry(wired.tables, a, b))
        back = list(carry(wired.tables, b, a))
        with Prober(wired.wires, wired.folder, a, b) as prober:
            echo = ping(prober, 1, 100, PATIENCE)
            assert (echo.node, echo.there, echo.back, echo.lost) == (b, len(way) - 1, len(back) - 1, None)
            stops = trace(prober, PATIENCE)
        assert [stop.node for stop in stops] == way
        assert [stop.end for stop in stops] == [None] * (len(way) - 1) + ["arrived"]
    counters = wired.router.counters()
    settled(counters)
    assert counters["fleet_answers_lost_total"] == 0


def test_an_answer_is_cut_to_the_greatest_length(wired: Wired) -> None:
    front = asking(payloads.ECHO, wired.port, wired.tables[0].address())
    content = os.urandom(MOST_PAYLOAD - len(front))
    wired.send(0, wired.tables[0].launch(wired.tables[3].address()) + front + content)
    found = wired.heard()
    assert found is not None and len(found[0]) == PACKET_LENGTH + MOST_PAYLOAD
    answer = answer_of(found[0])
    assert answer is not None and answer.content == content[:len(answer.content)]


def test_the_newest_four_generations_are_kept(wired: Wired) -> None:
    before = [wired.tables]
    for weight in range(1, 7):
        wired.net.device.edit([f"set:0:1:{weight}"])
        before.append(wired.net.tables("tables"))
        wired.router.until("fleet_generation_least", before[-1][0].info.generation)
    reasons = []
    for tables in before:
        wired.send(0, tables[0].launch(tables[9].address()) + asking(payloads.ECHO, wired.port, before[-1][0].address()))
        found = wired.heard()
        assert found is not None
        answer = answer_of(found[0])
        assert answer is not None
        reasons.append(answer.reason)
    assert reasons == ["generation_gone"] * 3 + [None] * 4
    # One that is to come.
    wired.net.device.edit(["set:0:1:9"])
    new = wired.net.tables("elsewhere")
    wired.send(0, new[0].launch(new[9].address()) + asking(payloads.ECHO, wired.port, before[-1][0].address()))
    found = wired.heard()
    assert found is not None
    answer = answer_of(found[0])
    assert answer is not None and (answer.kind, answer.node, answer.reason) == (payloads.LOST, 0, "generation_not_yet")
    counters = wired.router.counters()
    assert counters["fleet_dropped_total.generation_gone"] == 3
    assert counters["fleet_dropped_total.generation_not_yet"] == 1
    settled(counters)


def put(path: Path, content: bytes) -> None:
    new = path.with_suffix(".new")
    new.write_bytes(content)
    new.replace(path)


def test_tables_that_are_none_leave_those_that_are_there(wired: Wired) -> None:
    whole = (wired.folder / "4.table").read_bytes()
    wired.net.device.edit(["set:0:1:2"])
    newer = wired.net.tables("elsewhere")
    other = (wired.net.room / "elsewhere" / "4.table").read_bytes()
    cases: list[tuple[str, bytes]] = [
        ("no_table", b""),
        ("no_table", b"hello, this is none"),
        ("version", b"TZTABL02" + other[8:]),
        ("cut_short", other[:-1]),
        ("too_long", other + b"."),
        ("damaged", other[:30] + bytes([other[30] ^ 1]) + other[31:]),
        ("other_node", (wired.net.room / "elsewhere" / "5.table").read_bytes()),
        ("too_long", bytes(3_014_711)),
    ]
    sums: dict[str, int] = {}
    for reason, content in cases:
        sums[reason] = sums.get(reason, 0) + 1
        put(wired.folder / "4.table", content)
        wired.router.until(f"fleet_tables_refused_total.{reason}", sums[reason])
    (wired.folder / "4.table").unlink()
    os.mkfifo(wired.folder / "4.pipe")
    (wired.folder / "4.pipe").rename(wired.folder / "4.table")
    wired.router.until("fleet_tables_refused_total.unreadable", 1)
    (wired.folder / "4.table").unlink()
    for name in ("x.table", "4.tables", "04.table", "99999.table", "70000.table", "-1.table"):
        put(wired.folder / name, b"none")
    with Prober(wired.wires, wired.net.room / "tables", 3, 9) as prober:
        assert ping(prober, 1, 16, PATIENCE).node == 9
    put(wired.folder / "4.table", other)
    counters = wired.router.until("fleet_generation.4", newer[0].info.generation)
    assert counters["fleet_tables_loaded_total"] == NODES + 1
    put(wired.folder / "4.table", whole)
    time.sleep(0.2)
    counters = wired.router.counters()
    # The same bytes again are no news.
    assert counters["fleet_tables_loaded_total"] == NODES + 1
    assert sum(value for name, value in counters.items() if "refused" in name) == len(cases) + 1


def test_after_going_back_a_table_of_another_network_is_refused_until_it_starts_anew(wired: Wired) -> None:
    copy = wired.net.room / "copy"
    wired.net.device.copy(copy)
    wired.net.device.edit(["set:0:1:2"])
    wired.net.tables("tables")
    wired.router.until("fleet_generation_least", wired.tables[0].info.generation + 1)
    os.replace(copy, wired.net.room / "net")
    wired.net.device.edit(["set:0:1:999"])
    wired.net.tables("tables")
    wired.router.until("fleet_tables_refused_total.conflict", 1)
    wired.router.process.send_signal(signal.SIGHUP)
    wired.router.until("fleet_tables_loaded_total", 3 * NODES)
    with Prober(wired.wires, wired.folder, 0, 9) as prober:
        assert [stop.node for stop in trace(prober, PATIENCE)] == list(carry(wired.net.tables("again"), 0, 9))


def test_a_folder_that_goes_and_comes_again(wired: Wired) -> None:
    wired.folder.rename(wired.net.room / "away")
    for path in (wired.net.room / "away").iterdir():
        path.unlink()
    (wired.net.room / "away").rmdir()
    wired.send(0, wired.tables[0].launch(wired.tables[9].address()) + data(wired.port, b"on"))
    assert wired.heard() is not None
    wired.net.device.edit(["set:0:1:2"])
    tables = wired.net.tables("tables")
    wired.router.until("fleet_generation_least", tables[0].info.generation)


def test_datagrams_of_any_bytes(wired: Wired) -> None:
    drawn = random.Random(11)
    asked = asking(payloads.TRACE, wired.port, wired.tables[2].address(), b"own")
    whole = [
        wired.tables[a].launch(wired.tables[b].address()) + behind
        for a, b in ((0, 22), (4, 9), (11, 2))
        for behind in (b"", data(wired.port, b"here"), asked, asking(payloads.ECHO, wired.port, wired.tables[1].address()))
    ]
    sent = 0
    for turn in range(6_000):
        kind = drawn.randrange(4)
        datagram = bytearray(drawn.choice(whole))
        if kind == 0:
            datagram = bytearray(drawn.randbytes(drawn.randrange(0, 1_500)))
        elif kind == 1:
            for _ in range(drawn.randrange(1, 4)):
                datagram[drawn.randrange(len(datagram))] = drawn.randrange(256)
            # One of the generations about the one that is there.
            datagram[7] = drawn.choice((datagram[7], drawn.randrange(9)))
        elif kind == 2:
            # A generation that is there, and any bytes behind it.
            datagram[8:] = drawn.randbytes(drawn.randrange(0, 120))
        else:
            del datagram[drawn.randrange(len(datagram)):]
        wired.send(drawn.randrange(NODES), bytes(datagram))
        sent += 1
        if turn % 50 == 0:
            wired.router.until("fleet_received_total", sent)
            while wired.heard(0) is not None:
                pass
    time.sleep(0.3)
    counters = wired.router.counters()
    settled(counters)
    for reason in ("length", "generation_gone", "generation_not_yet", "stray", "bad_count", "bad_padding"):
        assert counters[f"fleet_dropped_total.{reason}"] > 0, (reason, counters)
    with Prober(wired.wires, wired.folder, 0, 22) as prober:
        assert ping(prober, 1, 16, PATIENCE).node == 22


def test_a_neighbour_without_a_wire(router_program: Path, net: Net) -> None:
    wired = Wired(router_program, net)
    way = list(carry(wired.tables, 0, 9))
    wires = Wires({node: wire for node, wire in wired.wires.items() if node != way[1]})
    # A line that isn't one leaves the wires that were known.
    wired.path.write_text("hello\n")
    wired.router.process.send_signal(signal.SIGHUP)
    wired.router.until("fleet_tables_loaded_total", 2 * NODES)
    with Prober(wired.wires, wired.folder, 0, 9) as prober:
        assert ping(prober, 1, 16, PATIENCE).node == 9
        wires.write(wired.path)
        wired.router.process.send_signal(signal.SIGHUP)
        wired.router.until("fleet_tables_loaded_total", 3 * NODES)
        echo = ping(prober, 2, 16, PATIENCE)
    assert (echo.node, echo.lost) == (0, "no_wire")
    settled(wired.router.counters())
    assert "hello" not in wired.router.end()
    wired.host.close()


@pytest.mark.parametrize(
    ("line", "is_right"),
    [
        ("0 127.0.0.1:7000", True),
        ("0\t127.0.0.1:7000   127.0.0.2  # a host", True),
        ("0 127.0.0.1:65535", True),
        ("0 127.0.0.1:0", False),
        ("0 127.0.0.1:65536", False),
        ("0 127.0.0.1:07000", False),
        ("00 127.0.0.1:7000", False),
        ("65536 127.0.0.1:7000", False),
        ("-1 127.0.0.1:7000", False),
        ("0 localhost:7000", False),
        ("0 127.0.0.1", False),
        ("0 127.0.0.1:7000 here", False),
        ("0 127.0.0.1:7000 127.0.0.1 more", False),
        ("0 :7000", False),
        ("0", False),
        ("0 127.0.0.1:7000\n0 127.0.0.1:7001", False),
    ],
)
def test_router_and_package_read_the_same_wires(router_program: Path, tmp_path: Path, line: str, is_right: bool) -> None:
    path = tmp_path / "wires"
    path.write_text(f"# wires\n\n{line}\n")
    if is_right:
        assert list(Wires.read(path)) == [0]
    else:
        with pytest.raises(WiresNotUnderstood):
            Wires.read(path)
    # Node 1 has no wire, so the router ends either way.
    done = subprocess.run(
        [router_program, "--nodes", "1", "--wires", path, "--tables", tmp_path], capture_output=True, text=True, check=False
    )
    assert done.returncode == 1
    assert ("it is no `NODE" in done.stderr) is not is_right, done.stderr
    assert ("it has no wire" in done.stderr) is is_right, done.stderr


def test_words_that_it_does_not_know(router_program: Path, tmp_path: Path) -> None:
    for words in ([], ["--nodes", "1"], ["--nodes", "2-1"], ["--nodes", "x"], ["--nodes", "1-2-3"], ["--nodes", "1", "--nodes", "1"]):
        more = ["--wires", "w", "--tables", "t"] if words else []
        if words[-1:] == ["1"] and len(words) == 2:
            more = []
        assert subprocess.run([router_program, *words, *more], capture_output=True, check=False).returncode == 2


def test_nobody_reads_what_it_says(wired: Wired) -> None:
    assert wired.router.process.stdout is not None and wired.router.process.stderr is not None
    wired.router.process.stdout.close()
    wired.router.process.stderr.close()
    for turn in range(1, 4):
        put(wired.folder / "4.table", b"none")
        wired.router.until("fleet_tables_refused_total.no_table", turn)
    wired.send(0, wired.tables[0].launch(wired.tables[9].address()) + data(wired.port, b"on"))
    assert wired.heard() is not None
    wired.router.process.send_signal(signal.SIGTERM)
    assert wired.router.process.wait(PATIENCE) == 0


def test_clients_of_the_counters_hold_nothing_up(wired: Wired) -> None:
    held = [socket.create_connection(("127.0.0.1", wired.router.port)) for _ in range(8)]
    for turn, each in enumerate(held):
        each.sendall([b"", b"GET / HTTP/1.0\r\n", b"\x00" * 100, b"GET"][turn % 4])
    flood = socket.create_connection(("127.0.0.1", wired.router.port))
    try:
        for _ in range(64):
            flood.sendall(b"x" * 1_000)
    except OSError:
        pass
    wired.send(0, wired.tables[0].launch(wired.tables[9].address()) + data(wired.port, b"on"))
    assert wired.heard() is not None
    assert wired.router.counters()["fleet_handed_total"] == 1
    # Who asks nothing for five seconds is gone.
    held[0].settimeout(PATIENCE)
    assert held[0].recv(1) == b""
    end = time.monotonic() + PATIENCE
    while read_counters(wired.router.counters_file)["fleet_handed_total"] < 1:
        assert time.monotonic() < end
        time.sleep(0.1)
    for each in (*held, flood):
        each.close()
