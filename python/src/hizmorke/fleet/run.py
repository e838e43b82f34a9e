"""A network that runs, on one machine, and is judged: ``fleet/run.sh``.

Routers, a live service or replicas of it over etcd, tables that are handed out, traffic between drawn pairs and edits
all the time. At the end a second judge has its say: it follows the edits by rules of its own, and finds shortest ways
by SciPy.
"""

from __future__ import annotations

import contextlib
import os
import random
import select
import signal
import socket
import subprocess
import sys
import threading
import time
from collections import Counter
from collections.abc import Callable, Iterator, Sequence
from dataclasses import dataclass, field
from pathlib import Path
from typing import IO, Any

from hizmorke.device import Device
from hizmorke.errors import ChangeRefused, HizmorkeError, Unreachable
from hizmorke.fleet import payloads
from hizmorke.fleet.counters import read_counters, sum_of
from hizmorke.fleet.errors import CountersNotThere
from hizmorke.fleet.etcd import Etcd
from hizmorke.fleet.handing import READY, HandingOut
from hizmorke.fleet.log import Log
from hizmorke.fleet.replica import all_told
from hizmorke.fleet.wires import Wires
from hizmorke.network import Network
from hizmorke.service import Service
from hizmorke.tables import PACKET_LENGTH, Table, read_tables

Edge = tuple[int, int, int]
# The option of a socket that tells how many datagrams it had no place for, and their place in what it tells.
_MEMORY, _DROPS = 55, 8


@dataclass
class Plan:
    """What is run.

    Attributes
    ----------
    router : path
        The program of the routers.
    folder : path
        Where all files are put.
    nodes, processes : int
        So many routers, in so many processes.
    seconds : float
        So long is traffic sent.
    rate, edits : float
        So many datagrams and edits a second.
    kills : float
        Seconds between two processes that are ended by -9; 0 for none.
    replicas : int
        So many replicas over three members of etcd; 0 for one service and no etcd.
    seed : int
        What is drawn goes by this.
    """

    router: Path
    folder: Path
    nodes: int = 1_024
    processes: int = 4
    seconds: float = 60.0
    rate: float = 1_000.0
    edits: float = 20.0
    kills: float = 0.0
    replicas: int = 0
    seed: int = 7


# ---- the second judge


class Judge:
    """What a network is after each edit, and how far it is from node to node.

    Parameters
    ----------
    nodes : int
        How many nodes.
    edges : list
        The edges at the start.
    count : int
        How many changes had made them.
    """

    MOST_EDGES, MOST_WEIGHT = 65_536, 1_000_000

    def __init__(self, nodes: int, edges: Sequence[Edge], count: int) -> None:
        self.nodes = nodes
        self.count = count
        self._edges = {(min(a, b), max(a, b)): weight for a, b, weight in edges}
        self._weights: dict[int, dict[tuple[int, int], int]] = {count: dict(self._edges)}

    def edit(self, ops: Sequence[str]) -> str:
        """Makes a change, whole or not at all. It answers what a service has to answer.

        Parameters
        ----------
        ops : sequence of str
            The operations.
        """
        edges = dict(self._edges)
        for place, op in enumerate(ops):
            code = self._operation(edges, op.split(":"))
            if code:
                return f"refused op={place} code={code}"
        self._edges = edges
        self.count += 1
        self._weights[self.count] = edges
        return f"accepted count={self.count}"

    def _operation(self, edges: dict[tuple[int, int], int], words: list[str]) -> int:
        a, b = int(words[1]), int(words[2])
        pair = min(a, b), max(a, b)
        if a >= self.nodes or b >= self.nodes:
            return 1
        if a == b:
            return 2
        if words[0] != "cut" and not 1 <= int(words[3]) <= self.MOST_WEIGHT:
            return 3
        if (words[0] == "add") == (pair in edges):
            return 4 if words[0] == "add" else 5
        if words[0] == "add" and len(edges) == self.MOST_EDGES:
            return 6
        if words[0] == "cut":
            del edges[pair]
        else:
            edges[pair] = int(words[3])
        return 0

    def edges(self) -> list[Edge]:
        """The edges now, ascending."""
        return sorted((a, b, weight) for (a, b), weight in self._edges.items())

    def length(self, generation: int, way: Sequence[int]) -> int | None:
        """How long a way is in the network of a generation; None where an edge of it isn't there.

        Parameters
        ----------
        generation : int
            The number of changes that made it.
        way : sequence of int
            The nodes.
        """
        weights, sum_ = self._weights[generation], 0
        for a, b in zip(way, way[1:]):
            weight = weights.get((min(a, b), max(a, b)))
            if weight is None:
                return None
            sum_ += weight
        return sum_

    def least(self, generation: int, senders: Sequence[int]) -> dict[int, Any]:
        """How long the shortest ways are from some nodes to all, by SciPy; infinite where there is none.

        Parameters
        ----------
        generation : int
            The number of changes that made the network.
        senders : sequence of int
            The nodes.
        """
        import numpy
        from scipy.sparse import coo_matrix
        from scipy.sparse.csgraph import dijkstra

        weights = self._weights[generation]
        ends = numpy.array(list(weights), dtype=numpy.int64).reshape(-1, 2)
        values = numpy.array(list(weights.values()), dtype=float)
        matrix = coo_matrix((values, (ends[:, 0], ends[:, 1])), shape=(self.nodes, self.nodes)).tocsr()
        found = dijkstra(matrix, directed=False, indices=list(senders))
        return dict(zip(senders, found))


# ---- processes


class Process:
    """A program that is started, ended by -9 and started again, and said lines of which go to a file.

    Parameters
    ----------
    words : sequence
        The program and its words.
    log : path
        Its standard output and error are put behind what is there.
    """

    def __init__(self, words: Sequence[str | Path], log: Path) -> None:
        self.words = [str(word) for word in words]
        self.log = log
        self.process: subprocess.Popen[bytes] | None = None
        self.ends = 0

    def start(self) -> None:
        """Starts it."""
        with open(self.log, "ab") as file:
            self.process = subprocess.Popen(
                self.words, stdin=subprocess.DEVNULL, stdout=file, stderr=file, start_new_session=True
            )

    def kill(self) -> None:
        """Ends it by -9, and what it had started."""
        assert self.process is not None
        self.ends += 1
        with contextlib.suppress(ProcessLookupError):
            os.killpg(self.process.pid, signal.SIGKILL)
        self.process.wait()

    def end(self, seconds: float = 30.0) -> int:
        """Ends it in order, and answers its status. What doesn't end in time is ended by -9."""
        if self.process is None:
            return 0
        with contextlib.suppress(ProcessLookupError):
            self.process.terminate()
        try:
            return self.process.wait(seconds)
        except subprocess.TimeoutExpired:
            self.kill()
            return -9


class Routers:
    """The processes of the routers.

    Parameters
    ----------
    plan : Plan
        What is run.
    wires, tables : path
        Their wires, and the folder of their tables.
    """

    def __init__(self, plan: Plan, wires: Path, tables: Path) -> None:
        self.ports: list[int | str] = [*free_row(plan.processes, socket.SOCK_STREAM)]
        self.processes = []
        for k, port in enumerate(self.ports):
            first, last = (plan.nodes * each // plan.processes for each in (k, k + 1))
            words: list[str | Path] = [plan.router, "--nodes", f"{first}-{last - 1}", "--metrics", str(port)]
            words += ["--wires", wires, "--tables", tables]
            self.processes.append(Process(words, plan.folder / f"router-{k}.log"))

    def counters(self) -> Counter[str]:
        """The sums of their counters; of those that answer."""
        told = []
        for port in self.ports:
            with contextlib.suppress(CountersNotThere):
                told.append(read_counters(port))
        return sum_of(told)


def free_row(count: int, kind: int, first: int = 20_000, last: int = 31_000) -> range:
    """So many ports in a row of this machine that nobody has.

    Parameters
    ----------
    count : int
        How many.
    kind : int
        ``socket.SOCK_DGRAM`` or ``socket.SOCK_STREAM``.
    first, last : int
        They are among these.
    """
    drawn = random.SystemRandom()
    while True:
        port = drawn.randrange(first, last - count)
        with contextlib.ExitStack() as held:
            try:
                for each in range(port, port + count):
                    held.enter_context(socket.socket(socket.AF_INET, kind)).bind(("127.0.0.1", each))
            except OSError:
                continue
        return range(port, port + count)


# ---- traffic


@dataclass
class Sent:
    """A payload that was sent, and what came of it."""

    generation: int
    a: int
    b: int
    arrived: int = 0
    wrong: int = 0
    stops: dict[int, int] = field(default_factory=dict)
    end: int | None = None
    lost: str | None = None


class Traffic:
    """Payloads between drawn pairs, by the newest generation that all routers have. One of eight is a trace.

    Parameters
    ----------
    plan : Plan
        What is run.
    wires : Wires
        Where the routers are.
    tables : path
        Where their tables are.
    """

    def __init__(self, plan: Plan, wires: Wires, tables: Path) -> None:
        self.plan = plan
        self.wires = wires
        self.folder = tables
        self.node_of = {wire.router: node for node, wire in wires.items()}
        self.sent: list[Sent] = []
        self.unreachable = self.unknown = 0
        self.generations: list[int] = []
        self.counters = plan.folder / "traffic.counters"
        # The generation by which it sends, and the one that comes then, each with its tables. It is put in its place at
        # once: another thread sends by it.
        self._now: tuple[int, list[Table]] = (0, [])
        self._next = self._now
        self._drawn = random.Random(plan.seed)
        self.socket = socket.socket(socket.AF_INET, socket.SOCK_DGRAM)
        self.socket.bind(("127.0.0.1", 0))
        self.socket.setsockopt(socket.SOL_SOCKET, socket.SO_RCVBUF, 1 << 22)
        self.port: int = self.socket.getsockname()[1]
        self.heard = 0

    def look(self) -> bool:
        """Takes the tables of a newer generation, and sends by them once all routers have it. It answers whether there
        are some.

        As a router does, it tells which generation it has: tables are handed out no faster than they are read here.
        """
        try:
            if Table.open(self.folder / "0.table").info.generation > self._next[0]:
                tables = read_tables(self.folder)
                self._next = tables[0].info.generation, tables
                new = self.counters.with_suffix(".new")
                new.write_text(f"fleet_nodes_without_table 0\nfleet_generation_least {self._next[0]}\n")
                new.replace(self.counters)
            if self._next[0] > self._now[0] and int((self.folder / READY).read_text()) >= self._next[0]:
                self._now = self._next
                self.generations.append(self._now[0])
        except (OSError, ValueError, HizmorkeError):
            # Tables are handed out meanwhile.
            pass
        return bool(self.generations)

    def keep_looking(self, ended: threading.Event) -> None:
        """Takes newer tables until it is told to end."""
        while not ended.wait(0.05):
            self.look()

    def send(self) -> None:
        """Sends a payload from a drawn node to another."""
        a, b = self._drawn.randrange(self.plan.nodes), self._drawn.randrange(self.plan.nodes)
        place = len(self.sent)
        content = place.to_bytes(8, "big")
        generation, tables = self._now
        try:
            packet = tables[a].launch(tables[b].address())
        except Unreachable:
            self.unreachable += 1
            return
        if place % 8:
            payload = payloads.data(self.port, content.ljust(self._drawn.randrange(8, 1_398), b"."))
        else:
            payload = payloads.asking(payloads.TRACE, self.port, tables[a].address(), content)
        self.sent.append(Sent(generation, a, b))
        self.socket.sendto(packet + payload, self.wires[a].router)

    def hear(self, seconds: float) -> bool:
        """Takes what has come to the host. It answers whether something had within this time."""
        if not select.select([self.socket], [], [], seconds)[0]:
            return False
        for _ in range(256):
            try:
                datagram, place = self.socket.recvfrom(4_096, socket.MSG_DONTWAIT)
            except BlockingIOError:
                break
            self.heard += 1
            self._take(datagram, self.node_of.get(place))
        return True

    def _take(self, datagram: bytes, node: int | None) -> None:
        payload = datagram[PACKET_LENGTH:]
        answer = payloads.answer_of(datagram)
        content = payload[3:11] if answer is None else answer.content[:8]
        at = int.from_bytes(content, "big") if len(content) == 8 else len(self.sent)
        if at >= len(self.sent):
            self.unknown += 1
            return
        sent = self.sent[at]
        if answer is None:
            sent.arrived += 1
            sent.wrong += node != sent.b
            return
        sent.wrong += node != sent.a or answer.kind == payloads.ARRIVED and answer.node != sent.b
        hops = self.plan.nodes - 1 - answer.came.hops_left
        if answer.kind == payloads.LOST:
            sent.lost = answer.reason
        sent.stops[hops] = answer.node
        if answer.kind == payloads.ARRIVED:
            sent.arrived += 1
            sent.end = hops

    def overflows(self) -> int:
        """How many datagrams the host's socket had no place for."""
        figures = self.socket.getsockopt(socket.SOL_SOCKET, _MEMORY, 36)
        return int.from_bytes(figures[4 * _DROPS:4 * _DROPS + 4], sys.byteorder)

    def run(self, ended: threading.Event) -> None:
        """Sends and hears until it is told to end."""
        due = time.monotonic()
        while not ended.is_set():
            moment = time.monotonic()
            # What the machine had no time for isn't made up for all at once.
            due = max(due, moment - 0.05)
            while due <= moment:
                self.send()
                due += 1 / self.plan.rate
            self.hear(max(0.0, min(0.02, due - time.monotonic())))


# ---- edits


class Edits:
    """Edits all the time: mostly weights, and edges that come and go. Some are refused.

    Parameters
    ----------
    plan : Plan
        What is run.
    edges : list
        The edges at the start.
    name : str
        Who edits.
    """

    def __init__(self, plan: Plan, edges: Sequence[Edge], name: str) -> None:
        self.plan = plan
        self.name = name
        self.told: list[tuple[int, list[str], str]] = []
        self._drawn = random.Random(f"{plan.seed} {name}")
        self._pairs = [(a, b) for a, b, _ in edges]
        self.lost: str | None = None

    def draw(self) -> list[str]:
        """The operations of an edit."""
        ops = []
        for _ in range(self._drawn.choice((1, 1, 2, 4))):
            kind = self._drawn.random()
            if kind < 0.8:
                a, b = self._drawn.choice(self._pairs)
                ops.append(f"set:{a}:{b}:{self._drawn.randint(1, 100)}")
            elif kind < 0.95:
                a, b = (self._drawn.randrange(self.plan.nodes) for _ in range(2))
                ops.append(f"add:{a}:{b}:{self._drawn.randint(1, 100)}")
                if a != b:
                    self._pairs.append((a, b))
            else:
                a, b = self._drawn.choice(self._pairs)
                ops.append(f"cut:{a}:{b}")
        return ops

    def run(self, edit: Callable[[str, int, list[str]], tuple[int, str]], pause: float, ended: threading.Event) -> None:
        """Makes edits until it is told to end. `edit` makes one under a name and a number, and answers its place and
        what came of it."""
        number = 0
        try:
            while not ended.wait(pause):
                ops = self.draw()
                place, text = edit(self.name, number, ops)
                self.told.append((place, ops, text))
                number += 1
        except HizmorkeError as error:
            self.lost = str(error)


# ---- the whole


def drawn_network(nodes: int, seed: int) -> list[Edge]:
    """A connected network with four edges a node, and weights of 1 to 100.

    Parameters
    ----------
    nodes : int
        How many nodes.
    seed : int
        What is drawn goes by this.
    """
    drawn = random.Random(seed)
    weights: dict[tuple[int, int], int] = {}
    for b in range(1, nodes):
        weights[drawn.randrange(b), b] = drawn.randint(1, 100)
    while len(weights) < min(4 * nodes, nodes * (nodes - 1) // 2):
        a, b = sorted(drawn.sample(range(nodes), 2))
        weights.setdefault((a, b), drawn.randint(1, 100))
    return [(a, b, weight) for (a, b), weight in sorted(weights.items())]


class Run:
    """All of it, from the start to the verdict.

    Parameters
    ----------
    plan : Plan
        What is run.
    out : stream
        Where figures and faults are printed.
    """

    def __init__(self, plan: Plan, out: IO[str] = sys.stdout) -> None:
        self.plan = plan
        self.out = out
        self.faults: list[str] = []
        self.tables = plan.folder / "tables"
        self.tables.mkdir(parents=True, exist_ok=True)
        self.ended, self.all_ended = threading.Event(), threading.Event()
        self.downs: Counter[str] = Counter()

    def say(self, line: str) -> None:
        """Prints a line."""
        print(line, file=self.out, flush=True)

    def is_so(self, right: bool, what: str) -> None:
        """Notes a fault where something isn't so."""
        if not right:
            self.faults.append(what)
            self.say(f"WRONG: {what}")

    def run(self) -> int:
        """Runs it. The status is 0 where all was as it should be."""
        plan = self.plan
        edges = drawn_network(plan.nodes, plan.seed)
        device = Device(plan.folder / "network")
        device.load(Network(plan.nodes, edges))
        words = str(device.landmarks())
        judge = Judge(plan.nodes, edges, device.state().count)
        wires = Wires.in_row(plan.nodes, free_row(plan.nodes, socket.SOCK_DGRAM)[0])
        wires.write(plan.folder / "wires")
        routers = Routers(plan, plan.folder / "wires", self.tables)
        traffic = Traffic(plan, wires, self.tables)
        # One service takes a session's edits one behind the other; the log takes those of many.
        editors = [Edits(plan, edges, f"editor-{k}") for k in range(4 if plan.replicas else 1)]
        with contextlib.ExitStack() as running:
            for process in routers.processes:
                process.start()
                running.callback(process.end)
            takers = [*routers.ports, str(traffic.counters)]
            behind: _Behind = _Replicas(self, words, takers) if plan.replicas else _OneService(self, words, takers)
            running.enter_context(behind.started())
            self._wait_for_tables(traffic)
            begun = time.monotonic()
            threads = [
                threading.Thread(target=traffic.run, args=(self.ended,)),
                threading.Thread(target=traffic.keep_looking, args=(self.ended,)),
            ]
            pause = len(editors) / plan.edits
            threads += [threading.Thread(target=each.run, args=(behind.edit, pause, self.ended)) for each in editors]
            if plan.kills:
                threads.append(threading.Thread(target=self._kill, args=([*routers.processes, *behind.processes],)))
            for thread in threads:
                thread.start()
            time.sleep(plan.seconds)
            self.ended.set()
            for thread in threads:
                thread.join()
            seconds = time.monotonic() - begun
            # Until nothing is under way any more.
            while traffic.hear(0.5):
                pass
            told = routers.counters()
            devices = behind.settle()
            self.all_ended.set()
        self._judge_edits(judge, editors, devices)
        self._judge_traffic(judge, traffic, told, seconds)
        if self.downs:
            ends = ", ".join(f"{name} {count}" for name, count in sorted(self.downs.items()))
            self.say(f"ended by -9 and started again: {ends}")
        self.say(f"run seconds={seconds:.0f} faults={len(self.faults)}")
        return 1 if self.faults else 0

    def _wait_for_tables(self, traffic: Traffic) -> None:
        end = time.monotonic() + 120
        while not traffic.look():
            if time.monotonic() > end:
                raise HizmorkeError("no tables were handed out in two minutes")
            time.sleep(0.1)

    def _kill(self, processes: Sequence[Process]) -> None:
        drawn = random.Random(self.plan.seed + 2)
        while not self.ended.wait(self.plan.kills):
            process = drawn.choice(processes)
            process.kill()
            self.downs[process.log.stem.rpartition("-")[0]] += 1
            self.ended.wait(0.3)
            process.start()

    def _judge_edits(self, judge: Judge, editors: Sequence[Edits], devices: Sequence[Device]) -> None:
        outcomes: Counter[str] = Counter()
        for _, ops, text in sorted(row for each in editors for row in each.told):
            outcomes[text.split(" ")[0]] += 1
            should = judge.edit(ops)
            if text != should:
                self.is_so(False, f"an edit came to `{text}`, and the judge says `{should}`: {' '.join(ops)}")
                break
        for each in editors:
            self.is_so(each.lost is None, f"the edits of {each.name} ended: {each.lost}")
        self.is_so(outcomes["accepted"] > 0, "no edit was accepted")
        for device in devices:
            count, shown = device.state().count, device.show().ascending()
            self.is_so(count == judge.count, f"{device.path} has {count} changes, and the judge {judge.count}")
            self.is_so(shown == judge.edges(), f"{device.path} has other edges than the judge")
        self.say(f"edits accepted={outcomes['accepted']} refused={outcomes['refused']} devices={len(devices)}")

    def _judge_traffic(self, judge: Judge, traffic: Traffic, told: Counter[str], seconds: float) -> None:
        sent = traffic.sent
        arrived = sum(each.arrived > 0 for each in sent)
        wrong, twice = (sum(map(bool, each)) for each in zip(*[(one.wrong, one.arrived > 1) for one in sent]))
        drops = [(name, int(n)) for name, n in told.items() if name.startswith("fleet_dropped_total.") and n]
        lost = {name.partition(".")[2]: n for name, n in drops}
        overflows = traffic.overflows()
        self.is_so(wrong == 0, f"{wrong} payloads came to another node")
        self.is_so(twice == 0, f"{twice} payloads came twice")
        self.is_so(traffic.unknown == 0, f"{traffic.unknown} datagrams came that nobody had sent")
        self.is_so(arrived > 0, "nothing arrived")
        self.is_so(len(traffic.generations) > 1, "traffic went by one generation alone")
        stretches = list(self._stretches(judge, traffic))
        self.is_so(bool(stretches), "no way was judged")
        if not self.plan.kills:
            self._judge_sums(traffic, told, overflows)
        passed, processor = told["fleet_passed_on_total"], told["process_cpu_seconds_total"]
        self.say(
            f"traffic sent={len(sent)} arrived={arrived} wrong={wrong} twice={twice} lost={len(sent) - arrived}"
            f" unreachable={traffic.unreachable} generations={len(traffic.generations)}"
        )
        # What was sent to a router that was down, and what one had counted before it was ended.
        uncounted = max(0, len(sent) - arrived - sum(lost.values()) - overflows)
        counts = {**lost, "host_queue": overflows, "router_down_or_uncounted": uncounted}
        self.say("lost " + " ".join(f"{name}={n}" for name, n in sorted(counts.items())))
        self.say(
            f"ways judged={len(stretches)} stretch_mean={sum(stretches) / max(1, len(stretches)):.3f}"
            f" stretch_greatest={max(stretches, default=0):.3f}"
        )
        self.say(
            f"hops={passed:.0f} a_second={passed / seconds:.0f}"
            f" a_second_of_the_processor={passed / max(processor, 1e-9):.0f}"
            " (it waits between datagrams: fleet/measure has what a router can do)"
        )

    def _stretches(self, judge: Judge, traffic: Traffic) -> Iterator[float]:
        """How much longer than the shortest each way was of which all routers answered."""
        whole: dict[int, list[Sent]] = {}
        for each in traffic.sent:
            if each.end is not None and len(each.stops) == each.end + 1:
                whole.setdefault(each.generation, []).append(each)
        for generation, all_sent in whole.items():
            leasts = judge.least(generation, sorted({each.a for each in all_sent}))
            for each in all_sent:
                way = [each.stops[hops] for hops in range(len(each.stops))]
                length, least = judge.length(generation, way), float(leasts[each.a][each.b])
                is_way = length is not None and way[0] == each.a and way[-1] == each.b
                self.is_so(is_way, f"generation {generation} has no such way: {way}")
                if length is None:
                    continue
                what = f"a way of {length} in generation {generation}, where {least} is the least: {way}"
                self.is_so(length <= 3 * least, what)
                if least:
                    yield length / least

    def _judge_sums(self, traffic: Traffic, told: Counter[str], overflows: int) -> None:
        """Where nothing was ended, each datagram is counted where it came to."""
        dropped = sum(told[f"fleet_dropped_total.{reason}"] for reason in payloads.REASONS)
        received, passed = told["fleet_received_total"], told["fleet_passed_on_total"]
        on_wires = len(traffic.sent) + passed - received - told["fleet_dropped_total.queue_full"]
        self.is_so(on_wires == 0, f"{on_wires:.0f} datagrams were lost between routers, and none counted them")
        inside = received + told["fleet_answers_total"] - passed - told["fleet_delivered_total"] - dropped
        self.is_so(inside == 0, f"{inside:.0f} datagrams were lost in routers, and none counted them")
        missing = told["fleet_handed_total"] - traffic.heard - overflows
        self.is_so(missing == 0, f"{missing:.0f} datagrams were lost between routers and their host")


class _Behind:
    """What tables and edits come from."""

    processes: Sequence[Process] = ()

    def started(self) -> contextlib.AbstractContextManager[None]:
        raise NotImplementedError

    def edit(self, name: str, number: int, ops: list[str]) -> tuple[int, str]:
        raise NotImplementedError

    def settle(self) -> list[Device]:
        raise NotImplementedError


class _OneService(_Behind):
    """One live service, whose tables this process hands out."""

    def __init__(self, run: Run, words: str, routers: Sequence[int | str]) -> None:
        self._run = run
        self._path = run.plan.folder / "network"
        self._service = Service(self._path, words)
        self._handing = HandingOut(self._service, run.tables, routers)

    @contextlib.contextmanager
    def started(self) -> Iterator[None]:
        thread = threading.Thread(target=self._hand_out)
        thread.start()
        try:
            yield
        finally:
            self._run.all_ended.set()
            thread.join()
            self._service.close()

    def _hand_out(self) -> None:
        while not self._run.all_ended.wait(0.05):
            try:
                done = self._handing.step()
                if done is not None:
                    with open(self._run.plan.folder / "handed-out.log", "a", encoding="utf-8") as file:
                        print(done.line(), file=file)
            except HizmorkeError as error:
                self._run.say(f"hand-out: {error}")

    def edit(self, name: str, number: int, ops: list[str]) -> tuple[int, str]:
        try:
            return number, f"accepted count={self._service.edit(ops).count}"
        except ChangeRefused as refused:
            return number, refused.text

    def settle(self) -> list[Device]:
        self._run.all_ended.set()
        self._service.close()
        return [Device(self._path)]


class _Replicas(_Behind):
    """Three members of etcd, and replicas over them. The first replica hands out tables."""

    def __init__(self, run: Run, words: str, routers: Sequence[int | str]) -> None:
        plan = self._plan = run.plan
        self._run = run
        members = members_of(plan.folder, 3)
        self._members = [process for _, process in members]
        urls = [url for url, _ in members]
        self._etcd = Etcd(urls)
        self._log = Log(self._etcd)
        self._replicas = []
        self._devices = [Device(plan.folder / f"replica-{k}.device") for k in range(plan.replicas)]
        for k, device in enumerate(self._devices):
            Device(plan.folder / "network").copy(device.path)
            call: list[str | Path] = [sys.executable, "-m", "hizmorke", "fleet", "replica", Path(device.path)]
            call += ["--words", words, "--etcd", ",".join(urls)]
            if k == 0:
                call += ["--tables", run.tables, "--routers", ",".join(map(str, routers))]
            self._replicas.append(Process(call, plan.folder / f"replica-{k}.log"))
        self.processes = [*self._members, *self._replicas]

    @contextlib.contextmanager
    def started(self) -> Iterator[None]:
        with contextlib.ExitStack() as running:
            for process in self.processes:
                process.start()
                running.callback(process.end)
            yield

    def edit(self, name: str, number: int, ops: list[str]) -> tuple[int, str]:
        settled = self._log.settle(name, number, ops, 120.0)
        # Sent again, it is told the same.
        if number % 16 == 0:
            again = self._log.settle(name, number, ops, 120.0)
            self._run.is_so(again == settled, f"edit {number} of {name} was told otherwise when it was sent again")
        return settled.revision, settled.text

    def settle(self) -> list[Device]:
        self._run.is_so(all_told(self._etcd), "the log doesn't say of each edit what came of it")
        last = max((row.revision for row in self._etcd.range(self._log.places.edits)[0]), default=0)
        self._run.say(f"log last_revision={last}")
        # A replica tells what came of an edit behind the device, so the slower ones have a moment more.
        time.sleep(3.0)
        self._run.all_ended.set()
        for k, replica in enumerate(self._replicas):
            self._run.is_so(replica.end() == 0, f"replica {k} didn't end in order: {replica.log}")
        return self._devices


def members_of(folder: Path, count: int) -> list[tuple[str, Process]]:
    """Members of an etcd on loopback, which aren't started yet, each with its URL.

    Parameters
    ----------
    folder : path
        Where their files are.
    count : int
        How many.
    """
    ports = free_row(2 * count, socket.SOCK_STREAM)
    peers = [f"http://127.0.0.1:{ports[2 * k + 1]}" for k in range(count)]
    cluster = ",".join(f"m{k}={peer}" for k, peer in enumerate(peers))
    members = []
    for k, peer in enumerate(peers):
        url = f"http://127.0.0.1:{ports[2 * k]}"
        words = ["etcd", "--name", f"m{k}", "--data-dir", str(folder / f"etcd-{k}"), "--initial-cluster", cluster]
        words += ["--listen-client-urls", url, "--advertise-client-urls", url, "--listen-peer-urls", peer]
        words += ["--initial-advertise-peer-urls", peer, "--initial-cluster-token", f"run-{os.getpid()}"]
        words += ["--log-level", "warn"]
        members.append((url, Process(words, folder / f"etcd-{k}.log")))
    return members
