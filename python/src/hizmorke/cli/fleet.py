"""The commands ``hizmorke fleet ..``: a network of routers, and replicas of a device."""

from __future__ import annotations

import signal
import sys
import threading
import time
from collections.abc import Iterator
from contextlib import contextmanager
from typing import Any

import click

from hizmorke.cli import SETTINGS, printed, told
from hizmorke.cli.words import number, number_in, value
from hizmorke.errors import BadLength, Fault, FileUnusable, NotUnderstood, Refused

URLS = "Members of etcd: URLs with commas between them"
PREFIX = "What the log's keys begin with; without it /hizmorke/"


@click.group("fleet", context_settings=SETTINGS, subcommand_metavar="COMMAND WORD..")
def fleet() -> None:
    """Hand tables to routers, probe them, and keep replicas of a device over etcd.

    WIRES is a file that says where each node's router is, FOLDER the one where routers find their tables.
    """


@contextmanager
def until_ended() -> Iterator[threading.Event]:
    """An event that is set when an interrupt or SIGTERM comes."""
    ended = threading.Event()

    def end(*_: Any) -> None:
        ended.set()

    before = [(each, signal.signal(each, end)) for each in (signal.SIGINT, signal.SIGTERM)]
    try:
        yield ended
    finally:
        for each, handler in before:
            signal.signal(each, handler)


def _node(text: str) -> int:
    found = number(text, 65_535)
    if found is None:
        raise NotUnderstood(f"a node is a number up to 65535, and not {text}")
    return found


def _many(text: str | None) -> list[int | str]:
    """Where routers tell their counters: ports and files, with commas between them."""
    return [] if text is None else [int(each) if each.isdecimal() else each for each in text.split(",")]


def _seconds(text: str | None, otherwise: float) -> float:
    try:
        found = otherwise if text is None else float(text)
    except ValueError:
        found = -1.0
    if not 0 < found <= 86_400:
        raise NotUnderstood(f"a time is a number of seconds above 0, and not {text}")
    return found


@fleet.command("wires", context_settings=SETTINGS)
@click.argument("wires", metavar="WIRES")
@click.argument("nodes", metavar="N")
@value("--first-port", "P", "The port of node 0; without it 20000")
@value("--host", "HOST", "The machine of all routers; without it 127.0.0.1")
def wires_of(wires: str, nodes: str, first_port: str | None, host: str | None) -> int:
    """Write a file of wires for N routers of one machine, node K at port P+K."""
    from hizmorke.fleet.wires import Wires

    count = number_in(nodes, 1, 16_384, "N is 1 to 16384")
    port = number_in(first_port, 1, 65_535, "--first-port is 1 to 65535") or 20_000
    assert count is not None
    if port + count > 65_536:
        raise NotUnderstood("the last port would be above 65535")
    Wires.in_row(count, port, host or "127.0.0.1").write(wires)
    printed(f"wires={count} ports={port}-{port + count - 1}\n")
    return 0


@fleet.command("hand-out", context_settings=SETTINGS)
@click.argument("places", metavar="[DEVICE] FOLDER", nargs=-1, required=True)
@value("--words", "W", "The landmarks of a device at rest: none, at:2,5 or draw:7")
@value("--connect", "PLACE", "A gate, HOST:PORT or its Unix socket: each new generation is handed out")
@value("--token", "FILE", "The gate's token: the first line of this file")
@value("--as", "NAME", "The gate's name for FOLDER; without it FOLDER")
@value("--routers", "P,..", "Where the routers tell their counters: waits until the last one has its table")
@value("--every", "S", "So many seconds at least between two generations; without it 1")
def hand_out_of(
    places: tuple[str, ...],
    words: str | None,
    connect: str | None,
    token: str | None,
    routers: str | None,
    every: str | None,
    **rest: str | None,
) -> int:
    """Put each node's table into FOLDER, and tell when the last router has its own.

    Of a DEVICE at rest once; of a live service behind a gate after each generation, until it is interrupted.
    """
    from hizmorke.device import Device
    from hizmorke.fleet.handing import hand_out

    if len(places) != (2 if connect is None else 1):
        raise NotUnderstood("hand-out takes DEVICE and FOLDER, or --connect and FOLDER")
    folder, asked = places[-1], _many(routers)
    if connect is None:
        if words is None:
            raise NotUnderstood("a device at rest needs --words")
        at_rest, chosen = Device(places[0]), words
        printed(hand_out(lambda: at_rest.tables(folder, chosen), folder, asked).line() + "\n")
        return 0
    from hizmorke.cli.look import _place, _token
    from hizmorke.service import Service

    # (The word `as` is one of Python's own.)
    name, pause = rest["as"], _seconds(every, 1.0)
    secret = None if token is None else _token(token)
    with until_ended() as ended, Service.connect(_place(connect), token=secret) as service:
        _hand_out_all(service, (folder, name), asked, ended, pause)
    return 0


def _hand_out_all(
    service: Any, folder: tuple[str, str | None], routers: list[int | str], ended: threading.Event, pause: float = 1.0
) -> None:
    """Hands out each new generation until it is told to end. `folder` has the service's name for it, too."""
    from hizmorke.fleet.handing import HandingOut

    handing = HandingOut(service, folder[0], routers, folder[1], pause)
    while not ended.wait(0.05):
        try:
            done = handing.step()
            if done is not None:
                printed(done.line() + "\n")
        except Fault as error:
            if not ended.is_set():
                told(str(error))
            ended.wait(1.0)


def _prober(wires: str, folder: str, a: str, b: str) -> Any:
    from hizmorke.fleet.probes import Prober
    from hizmorke.fleet.wires import Wires
    from hizmorke.tables import Address

    try:
        to: Any = Address.from_hex(b) if len(b) == 84 else _node(b)
    except Refused as error:
        raise NotUnderstood(f"it is no address: {error}") from error
    try:
        return Prober(Wires.read(wires), folder, _node(a), to)
    except OSError as error:
        raise FileUnusable(f"a socket at the host of node {a}: {error.strerror}") from error


@fleet.command("send", context_settings=SETTINGS)
@click.argument("wires", metavar="WIRES")
@click.argument("folder", metavar="FOLDER")
@click.argument("a", metavar="A")
@click.argument("b", metavar="B")
@click.argument("port", metavar="PORT")
@click.argument("text", metavar="[TEXT]", required=False)
def send(wires: str, folder: str, a: str, b: str, port: str, text: str | None) -> int:
    """Send TEXT, or standard input, from node A to PORT of the host of node B.

    B is a node whose table is in FOLDER too, or an address of 84 hex digits. Nobody tells whether it arrives.
    """
    from hizmorke.fleet.payloads import MOST_PAYLOAD, data

    to = number_in(port, 1, 65_535, "PORT is 1 to 65535")
    assert to is not None
    content = sys.stdin.buffer.read(MOST_PAYLOAD + 1) if text is None else text.encode("utf-8", "surrogateescape")
    try:
        payload = data(to, content)
    except BadLength as error:
        raise NotUnderstood(str(error)) from error
    with _prober(wires, folder, a, b) as prober:
        printed(f"sent generation={prober.packet.generation} bytes={prober.send(payload)}\n")
    return 0


@fleet.command("ping", context_settings=SETTINGS)
@click.argument("wires", metavar="WIRES")
@click.argument("folder", metavar="FOLDER")
@click.argument("a", metavar="A")
@click.argument("b", metavar="B")
@value("--count", "N", "So many round trips; without it 4")
@value("--size", "BYTES", "So many bytes come back, 12 to 1351; without it 16")
@value("--every", "S", "Seconds between two; without it 0.2")
@value("--wait", "S", "So long is an answer waited for; without it 1")
def ping_of(
    wires: str,
    folder: str,
    a: str,
    b: str,
    count: str | None,
    size: str | None,
    every: str | None,
    wait: str | None,
) -> int:
    """Time round trips from node A to node B, with their hops.

    B is a node whose table is in FOLDER too, or an address of 84 hex digits. The status is 1 where none is answered.
    """
    from hizmorke.fleet.probes import ping

    rounds = number_in(count, 1, 1_000_000, "--count is 1 to 1000000") or 4
    length = number_in(size, 12, 1_351, "--size is 12 to 1351") or 16
    pause, timeout = _seconds(every, 0.2), _seconds(wait, 1.0)
    times = []
    for sequence in range(1, rounds + 1):
        # Each by the newest table, for the generation of the one before may be gone.
        with _prober(wires, folder, a, b) as prober:
            if sequence == 1:
                printed(f"ping {a} to {prober.to.node} generation={prober.packet.generation} bytes={length}\n")
            echo = ping(prober, sequence, length, timeout)
        if echo.seconds is not None and echo.lost is None:
            times.append(echo.seconds * 1e3)
        printed(echo.line() + "\n")
        if sequence < rounds:
            time.sleep(pause)
    tail = f" least={min(times):.3f} mean={sum(times) / len(times):.3f} greatest={max(times):.3f} ms" if times else ""
    printed(f"sent={rounds} answered={len(times)} lost={rounds - len(times)}{tail}\n")
    return 0 if times else 1


@fleet.command("trace", context_settings=SETTINGS)
@click.argument("wires", metavar="WIRES")
@click.argument("folder", metavar="FOLDER")
@click.argument("a", metavar="A")
@click.argument("b", metavar="B")
@value("--wait", "S", "So long are answers waited for; without it 1")
def trace_of(wires: str, folder: str, a: str, b: str, wait: str | None) -> int:
    """Print the way of a packet from node A to node B, a line for each router on it.

    The status is 1 where it didn't arrive.
    """
    from hizmorke.fleet.probes import trace

    with _prober(wires, folder, a, b) as prober:
        stops = trace(prober, _seconds(wait, 1.0))
    lines, due = [], 0
    for stop in stops:
        lines += [f"{hops} *\n" for hops in range(due, stop.hops)]
        lines.append(stop.line() + "\n")
        due = stop.hops + 1
    has_arrived = bool(stops) and stops[-1].end == "arrived"
    if not stops or stops[-1].end is None:
        lines.append(f"{due} *\n")
    printed("".join(lines))
    return 0 if has_arrived else 1


def _etcd(urls: str | None, user: str | None, authority: str | None) -> Any:
    from hizmorke.fleet.etcd import Etcd

    if user is not None:
        try:
            with open(user, encoding="utf-8") as file:
                user = file.readline(2_000).rstrip("\r\n")
        except (OSError, ValueError) as error:
            raise FileUnusable(getattr(error, "strerror", None), path=user) from error
    return Etcd((urls or "").split(","), user, authority)


@fleet.command("replica", context_settings=SETTINGS)
@click.argument("device", metavar="DEVICE")
@value("--etcd", "URL,..", URLS, needed=True)
@value("--words", "W", "The landmarks: at:2,5, the same on all replicas", needed=True)
@value("--prefix", "PREFIX", PREFIX)
@value("--user", "FILE", "A file whose first line is NAME:PASSWORD of etcd")
@value("--authority", "FILE", "The certificate of who signed those of the members, for https")
@value("--tables", "FOLDER", "Each new generation is handed out there")
@value("--routers", "P,..", "Where the routers tell their counters: waits until the last one has its table")
@value("--every", "S", "So many seconds at least between two generations; without it 1")
@value("--rounds", "R", "As tznode serve --live takes it")
def replica_of(
    device: str,
    etcd: str | None,
    words: str | None,
    prefix: str | None,
    user: str | None,
    authority: str | None,
    tables: str | None,
    routers: str | None,
    every: str | None,
    rounds: str | None,
) -> int:
    """Make each edit of the log in etcd on DEVICE, once, until it is interrupted.

    All replicas begin with copies of one device. Nobody else edits it.
    """
    from hizmorke.fleet.log import PREFIX as OTHERWISE
    from hizmorke.fleet.replica import Replica, follow, opened

    cluster, places, pause = _etcd(etcd, user, authority), _many(routers), _seconds(every, 1.0)
    most = number_in(rounds, 1, 65_535, "--rounds is 1 to 65535")
    assert words is not None
    service, made = opened(device, words, most)
    with until_ended() as ended, service:
        replica = Replica(cluster, service, prefix or OTHERWISE, made)
        printed(f"replica position={replica.position}\n")
        handing = threading.Thread(target=_hand_out_all, args=(service, (tables, None), places, ended, pause))
        handing.daemon = True
        if tables is not None:
            handing.start()
        try:
            follow(replica, ended, told)
        finally:
            ended.set()
            if tables is not None:
                handing.join()
            # What was accepted is on the device, so no build of tables is waited for.
            service.end_at_once()
        printed(f"replica position={replica.position} edits={replica.edits}\n")
    return 0


@fleet.command("edit", context_settings=SETTINGS)
@click.argument("ops", metavar="OP..", nargs=-1, required=True)
@value("--etcd", "URL,..", URLS, needed=True)
@value("--name", "NAME", "Who edits", needed=True)
@value("--number", "N", "The edit's number, of this name's own: sent again, it is told the same", needed=True)
@value("--prefix", "PREFIX", PREFIX)
@value("--user", "FILE", "A file whose first line is NAME:PASSWORD of etcd")
@value("--authority", "FILE", "The certificate of who signed those of the members, for https")
@value("--wait", "S", "So long is waited for what comes of it; without it 60")
def edit_of(
    ops: tuple[str, ...],
    etcd: str | None,
    name: str | None,
    number: str | None,
    prefix: str | None,
    user: str | None,
    authority: str | None,
    wait: str | None,
) -> int:
    """Put an edit into the log in etcd, once, and print what came of it on the replicas.

    OP is add:A:B:W, set:A:B:W or cut:A:B, nodes by their numbers.
    """
    from hizmorke.errors import ChangeTooLong, OperationNotUnderstood
    from hizmorke.fleet.log import PREFIX as OTHERWISE
    from hizmorke.fleet.log import VAGUE, Log, ops_of

    place = number_in(number, 0, 2**63 - 1, "--number is 0 to 9223372036854775807")
    assert place is not None and name is not None
    _, wrong = ops_of(" ".join(ops).encode("utf-8", "surrogateescape"))
    if wrong is not None:
        raise ChangeTooLong() if wrong == ChangeTooLong.default_text else OperationNotUnderstood()
    log = Log(_etcd(etcd, user, authority), prefix or OTHERWISE)
    settled = log.settle(name, place, ops, _seconds(wait, 60.0))
    printed(f"revision={settled.revision} {settled.text}\n")
    return 0 if settled.count is not None or settled.text == VAGUE else 1


@fleet.command("run", context_settings=SETTINGS)
@click.argument("router", metavar="ROUTER")
@click.argument("folder", metavar="FOLDER")
@value("--nodes", "N", "So many routers; without it 1024")
@value("--processes", "P", "In so many processes; without it 4")
@value("--seconds", "S", "So long is traffic sent; without it 60")
@value("--rate", "R", "So many datagrams a second; without it 1000")
@value("--edits", "E", "So many edits a second; without it 20")
@value("--kills", "S", "Ends a process by -9 every S seconds, and starts it again; without it none")
@value("--replicas", "K", "Edits go to K replicas over three members of etcd; without it to one service")
@value("--seed", "S", "What is drawn goes by this")
def run_of(router: str, folder: str, **rest: str | None) -> int:
    """Run a network of routers on this machine, and judge it: fleet/run.sh.

    ROUTER is the program that fleet/build makes, FOLDER an empty folder for all files.
    """
    from pathlib import Path

    from hizmorke.fleet.run import Plan, Run

    def whole(name: str, otherwise: int, most: int, least: int = 1) -> int:
        return number_in(rest[name] or str(otherwise), least, most, f"--{name} is {least} to {most}") or 0

    plan = Plan(
        Path(router),
        Path(folder),
        nodes=whole("nodes", 1_024, 4_096, 2),
        processes=whole("processes", 4, 64),
        seconds=_seconds(rest["seconds"], 60.0),
        rate=float(whole("rate", 1_000, 1_000_000)),
        edits=_seconds(rest["edits"], 20.0),
        kills=0.0 if rest["kills"] is None else _seconds(rest["kills"], 5.0),
        replicas=0 if rest["replicas"] is None else whole("replicas", 3, 9),
        seed=whole("seed", 7, 2**32, 0),
    )
    if plan.processes > plan.nodes:
        raise NotUnderstood("there are more processes than nodes")
    return Run(plan).run()


COMMANDS = {"fleet": fleet}
