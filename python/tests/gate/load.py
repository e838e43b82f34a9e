#!/usr/bin/env python3
"""Many clients of one gate, each judged by a model: what the tests of the gate share.

`load.py --hour`, or `load.py --seconds N`, runs 500 clients for so long, each at its ease, over the program that TZNODE names, with `tzlab` beside it or in TZLAB,
else over a stand-in: see `Hour`. With `--waiter` one more client sends `wait` all the time; with `--nodes N` the network has so many nodes.
"""
import argparse
import copy
import fcntl
import heapq
import itertools
import json
import os
import random
import re
import selectors
import shutil
import signal
import socket
import statistics
import subprocess
import sys
import tempfile
import termios
import time
import traceback
from array import array
from collections import Counter, deque
from contextlib import suppress
from pathlib import Path

HERE = Path(__file__).resolve().parent
STAND_IN = HERE / "stand_in"
GATE = [sys.executable, "-m", "hizmorke.gate"]
SOURCES = {"PYTHONPATH": str(HERE.parents[1] / "src"), "PYTHONDONTWRITEBYTECODE": "1"}

NODES = 640
PATH = 64  # nodes 0 to 63 are a path whose edge from i to i + 1 has the weight i + 1; nobody edits it
EDITED = PATH + 8 * 63  # behind the nodes that are edited; those from here on are a network that nobody edits
SESSIONS = range(1, 64)


class Programs:
    """The program that the gate runs, and the one that tells of devices, which the stand-in does itself."""

    def __init__(self, node, lab=None):
        self.node = str(node)
        self.is_real = Path(self.node).name != "stand_in"
        labs = [Path(self.node).with_name("tzlab"), HERE.parents[2] / "crates/tzlab/out/tzlab"] if self.is_real else [self.node]
        self.lab = str(lab or next(filter(os.path.exists, labs), "tzlab"))

    def run(self, *words):
        return subprocess.run([self.node, *map(str, words)], capture_output=True, text=True, timeout=300)

    def tell(self, *words):
        return subprocess.run([self.lab, *map(str, words)], capture_output=True, text=True, timeout=300)


class Ground:
    """What stands on a device before anybody edits it: the path, and with more nodes than 640 a drawn network behind the nodes that are edited."""

    def __init__(self, nodes=NODES):
        self.nodes, draw = nodes, random.Random(nodes)
        self.edges = {(i, i + 1): i + 1 for i in range(min(PATH, nodes) - 1)}
        self.changes = [f"add:{a}:{b}:{w}" for (a, b), w in self.edges.items()]
        if nodes > NODES:
            more = {(draw.randrange(EDITED, node), node): draw.randint(1, 99) for node in range(EDITED + 1, nodes)}
            for _ in range(3 * (nodes - EDITED)):
                more.setdefault(tuple(sorted(draw.sample(range(EDITED, nodes), 2))), draw.randint(1, 99))
            ops = [f"add:{a}:{b}:{w}" for (a, b), w in more.items()]
            self.changes += [" ".join(ops[k : k + 16]) for k in range(0, len(ops), 16)]
            self.edges |= more


def eventually(what, seconds=300):
    """Waits for something to be there, and gives it."""
    until = time.monotonic() + seconds
    while time.monotonic() < until:
        found = what()
        if found:
            return found
        time.sleep(0.01)
    raise AssertionError(f"not within {seconds} seconds")


def a_device(folder, programs, ground=None):
    """A device with the ground on it."""
    device, ground = str(folder / "network"), ground or Ground()
    assert programs.run("format", device, ground.nodes).returncode == 0
    lines = "".join(f"edit 0 - {change}\n" for change in ground.changes)
    command = [programs.node, "serve", device, "--words", "none", "--live", "--editors", "1"]
    ran = subprocess.run(command, input=lines, capture_output=True, text=True, timeout=300)
    assert ran.returncode == 0 and ran.stdout.count("accepted") == len(ground.changes), ran
    return device


class Running:
    """A gate that runs."""

    def __init__(self, folder, device, programs, *words, listen=True, command=GATE, **more):
        self.path, self.log_path = str(folder / "gate"), folder / "log"
        words = ["--words", "none", "--program", programs.node, *(["--socket", self.path] if listen else []), *words]
        more.setdefault("env", {**os.environ, **SOURCES})
        with open(self.log_path, "ab") as log:
            self.before = log.tell()
            self.process = subprocess.Popen([*command, device, *map(str, words)], stdin=subprocess.DEVNULL, stderr=log, **more)

    def __enter__(self):
        return self

    def __exit__(self, *_):
        if self.process.poll() is None:
            service = self.service()
            self.process.kill()
            self.process.wait()
            # A service that hangs doesn't end with its input.
            if service is not None and not wait_gone(service, 5):
                os.kill(service, signal.SIGKILL)
                wait_gone(service, 5)

    def log(self):
        return self.log_path.read_bytes()[self.before :].decode(errors="replace")

    def said(self, text, times=1):
        eventually(lambda: self.log().count(text) >= times or self.process.poll() is not None)
        assert self.log().count(text) >= times, self.log()

    def up(self, times=1):
        self.said("the service is up", times)

    def service(self):
        """The process of the service."""
        for folder in Path("/proc").iterdir():
            if folder.name.isdigit():
                try:
                    fields = (folder / "stat").read_text().rpartition(")")[2].split()
                except (FileNotFoundError, ProcessLookupError):
                    continue
                if int(fields[1]) == self.process.pid and fields[0] != "Z":
                    return int(folder.name)
        return None

    def kill_service(self):
        pid = eventually(self.service)
        try:
            os.kill(pid, signal.SIGKILL)
        except ProcessLookupError:
            pass

    def memory(self, name="VmRSS", pid=None):
        """In kilobytes."""
        return int(re.search(rf"^{name}:\s+(\d+) kB", Path(f"/proc/{pid or self.process.pid}/status").read_text(), re.M)[1])

    def files(self):
        return len(os.listdir(f"/proc/{self.process.pid}/fd"))

    def stop(self, seconds=300):
        self.process.send_signal(signal.SIGTERM)
        return self.process.wait(seconds)


def wait_gone(pid, seconds):
    until = time.monotonic() + seconds
    while time.monotonic() < until:
        if not Path(f"/proc/{pid}").exists():
            return True
        time.sleep(0.01)
    return False


class Talk:
    """A client that waits for each answer."""

    def __init__(self, where):
        self.socket = socket.socket(socket.AF_UNIX if isinstance(where, str) else socket.AF_INET)
        self.socket.settimeout(300)
        try:
            self.socket.connect(where)
        except OSError:
            self.socket.close()
            raise
        self.rest = b""

    def __enter__(self):
        return self

    def __exit__(self, *_):
        self.socket.close()

    def send(self, data):
        self.socket.sendall(data)

    def taken(self):
        """Waits until the gate has read all that was sent to its Unix socket."""
        eventually(lambda: not int.from_bytes(fcntl.ioctl(self.socket, termios.TIOCOUTQ, bytes(4)), sys.byteorder))

    def read(self):
        """The next answer; None at the end."""
        while b"\n" not in self.rest:
            data = self.socket.recv(65_536)
            if not data:
                assert not self.rest, self.rest
                return None
            self.rest += data
        line, _, self.rest = self.rest.partition(b"\n")
        return line.decode()

    def ask(self, line):
        self.send((line if isinstance(line, bytes) else line.encode()) + b"\n")
        return self.read()

    def end(self):
        self.socket.shutdown(socket.SHUT_WR)


class Model:
    """The edges of one session's own nodes, its last ticket, and how many changes were made."""

    def __init__(self, nodes):
        self.nodes, self.edges, self.ticket, self.made = nodes, {}, 0, 0

    def verdict(self, ops, ticket):
        """What becomes of a change under a ticket: None where it is made, or the operation and the code. Without a ticket it is only asked."""
        edges = dict(self.edges)
        for place, (kind, a, b, w) in enumerate(ops):
            pair = (min(a, b), max(a, b))
            if b >= self.nodes:
                return place, 1
            if a == b:
                return place, 2
            if kind != "cut" and not 1 <= w <= 1_000_000:
                return place, 3
            if kind == "add" and pair in edges:
                return place, 4
            if kind != "add" and pair not in edges:
                return place, 5
            if kind == "cut":
                del edges[pair]
            else:
                edges[pair] = w
        if ticket is not None:
            self.edges, self.ticket, self.made = edges, ticket, self.made + 1
        return None

    def distance(self, start, goal):
        """The length of a shortest way, or None."""
        far = {start: 0}
        for _ in self.edges:
            for (a, b), w in self.edges.items():
                for a, b in ((a, b), (b, a)):
                    if a in far and far[a] + w < far.get(b, 1 << 62):
                        far[b] = far[a] + w
        return far.get(goal)


def op_text(op):
    kind, a, b, w = op
    return f"{kind}:{a}:{b}" + ("" if kind == "cut" else f":{w}")


class Talker:
    """A client that sends ahead, and judges each answer."""

    reads = True
    waited = 0.0  # when its last `wait` was answered: what it sent before stood behind that

    def __init__(self, load, seed):
        self.load, self.draw = load, random.Random(seed)
        self.window = self.draw.choice([1, 2, 8, 30, 100])
        self.piece = self.draw.choice([7, 60, 400, 1 << 16, 1 << 16])  # bytes at once
        self.goes_on = True
        self.connect()

    def connect(self):
        self.away = self.halves = False  # it has no connection; it has ended what it sends with half a line
        self.socket = socket.socket(socket.AF_UNIX)
        self.socket.connect(self.load.gate.path)
        self.socket.setblocking(False)
        self.out, self.rest = bytearray(), b""
        self.number, self.pending = 0, deque()
        self.load.watch(self)

    def push(self, line, judge, edit=None):
        self.number += 1
        self.pending.append([self.number, line, judge, edit, None])
        self.out += line + b"\n"

    def fill(self, most=1 << 30):
        while most > 0 and len(self.pending) < self.window and len(self.out) < 4_096:
            most -= 1
            made = self.next() if self.goes_on else self.last()
            if made is None:
                return
            self.push(*made)

    def last(self):
        return None

    def is_done(self):
        return not self.pending

    def send(self):
        while self.out:
            try:
                sent = self.socket.send(self.out[: self.draw.randint(1, self.piece)])
            except (BlockingIOError, BrokenPipeError):
                return
            del self.out[:sent]
            if self.piece < 100 and self.draw.random() < 0.5:
                return
        # From now on these wait for their answers.
        now = time.monotonic()
        for pending in reversed(self.pending):
            if pending[4]:
                break
            pending[4] = now

    def hear(self):
        try:
            data = self.socket.recv(65_536)
        except BlockingIOError:
            return
        except ConnectionResetError:
            data = b""
        if not data:
            return self.end()
        *lines, self.rest = (self.rest + data).split(b"\n")
        for answer in lines:
            number, line, judge, edit, sent = self.pending.popleft()
            if answer.startswith(b"no answer: "):
                assert self.load.kills and answer == b"no answer: %d" % number, (line, answer, number)
                self.load.lost += 1
                self.lose(line, edit)
            else:
                self.load.answered += 1
                judge(line, answer)
                self.load.hears(self, line, sent)

    def judge_wait(self, line, answer):
        assert re.fullmatch(rb"generation=\d+", answer), (line, answer)

    def lose(self, line, edit):
        pass

    def end(self):
        """The gate has ended the connection, as it may if it ends itself, or behind half a line."""
        assert self.load.ends or self.halves and not self.pending, f"the gate ended a connection: {self.load.gate.log()[-2000:]}"
        self.leave()
        if not self.load.ends:
            self.connect()

    def leave(self):
        """Ends the connection wherever it is."""
        with suppress(KeyError):
            self.load.loop.unregister(self.socket)
        self.socket.close()
        self.away = True
        self.load.given_up += len(self.pending) if self.reads else 0
        self.pending.clear()
        self.out.clear()

    def cut(self):
        """Ends the connection in the middle of a line, and begins a new one. A line that wasn't sent whole isn't made."""
        if self.load.pace:
            self.fill(self.draw.choice([1, 6]))
            with suppress(BlockingIOError):
                part = len(self.out) - self.draw.randint(1, max(1, len(self.pending[-1][1]))) if self.out else 0
                del self.out[: self.socket.send(self.out[: max(0, part)])]
        self.load.cuts += 1
        self.leave()
        self.connect()


class Reader(Talker):
    """Asks what it may ask without a session, and much that it may not."""

    seen = 0

    def next(self):
        kind = self.draw.randrange(10)
        if self.load.pace and self.draw.random() < 0.02:
            return b"wait", self.judge_wait
        if kind < 5:
            return b"route %d %d" % (self.draw.randrange(PATH), self.draw.randrange(PATH)), self.judge_route
        if kind == 5:
            return b"address %d" % self.draw.randrange(self.load.ground.nodes + 100), self.judge_address
        if kind == 6:
            return b"resume %d" % self.draw.randrange(70), self.judge_resume
        if kind == 7:
            return b"state", self.judge_state
        session = self.draw.randrange(64)
        session = session if session in self.load.owners and self.load.owners[session].holds else 0
        line, answer = self.draw.choice(
            [
                (b"hop 7 0" + b"0" * self.draw.randrange(40), b"bad length"),
                (b"route 1 %d" % self.draw.randrange(self.load.ground.nodes, 65_536), b"no node"),
                (b"route 1 %d" % self.draw.randrange(PATH, self.load.ground.nodes), b"unreachable"),
                (b"edit %d - add:1:2:3" % session, b"not your session"),
                (b"edit 0 1 cut:0:1", b"not your session"),
                (b"hello !%d" % self.draw.randrange(9), b"not a name"),
                (b"", b"not understood"),
                (b"state\0\r", b"not understood"),
                (b"hop 7 0\r", b"bad length"),
                (self.draw.randbytes(self.draw.randrange(1, 300)).replace(b"\n", b"\0"), b"not understood"),
                (b"\0" * self.draw.randrange(1, 50), b"not understood"),
            ]
        )
        return line, lambda line, said: self.judge_word(line, said, answer)

    def judge_word(self, line, said, answer):
        assert said == answer or answer == b"unreachable" and re.fullmatch(rb"generation=\d+ unreachable", said), (line, said)

    def judge_route(self, line, answer):
        a, b = map(int, line.split()[1:])
        way = range(a, b + 1) if a <= b else range(a, b - 1, -1)
        length = sum(range(min(a, b) + 1, max(a, b) + 1))
        assert re.fullmatch(rb"generation=\d+ route %s length %d" % (b" ".join(b"%d" % x for x in way), length), answer), (line, answer)

    def judge_address(self, line, answer):
        node = int(line.split()[1])
        if node >= self.load.ground.nodes:
            assert answer == b"no node", (line, answer)
        else:
            assert re.fullmatch(rb"generation=\d+ address=[0-9a-f]{16}%04x[0-9a-f]{64}" % node, answer), (line, answer)

    def judge_resume(self, line, answer):
        session = int(line.split()[1])
        good = rb"session=%d ticket=\d+" % session if session < 64 else rb"no session"
        assert re.fullmatch(good, answer), (line, answer)

    def judge_state(self, line, answer):
        found = re.fullmatch(rb"count=(\d+) generation=\d+ queue=\d+", answer)
        assert found and int(found[1]) >= self.seen, (line, answer, self.seen)
        self.seen = int(found[1])


class Deaf(Reader):
    """Asks for routes, and reads nothing before the end."""

    reads = False

    def __init__(self, load, seed):
        super().__init__(load, seed)
        self.window, self.piece = 1 << 30, 1 << 16

    def next(self):
        return b"route 0 %d" % self.draw.randrange(PATH), self.judge_route


class Waiter(Talker):
    """Sends `wait` all the time, as fast as it is answered."""

    def next(self):
        return b"wait", self.judge_wait

    def hear(self):
        super().hear()
        if not self.away and self.goes_on:
            self.fill()
            self.send()


class Editor(Talker):
    """Edits nodes of its own by a name of its own, so that it knows what becomes of each edit; what has no answer it sends again, under the same ticket."""

    def __init__(self, load, seed, place):
        self.name, self.base = b"editor.%d" % place, PATH + 8 * place
        self.model, self.session, self.sent_ticket, self.silent = Model(load.ground.nodes), None, 0, 0
        self.unsettled, self.again, self.holds, self.greets = [], deque(), False, False
        self.resent, self.has_news = set(), False  # tickets sent again since hello, and whether one of them got another answer than `already in` and `old ticket`
        self.changes, self.sent, self.counts = [], {}, {}  # what was made, in order; the text of each ticket's edit, and the count that it was answered
        self.asks = False  # it waits for a route of its own nodes, and sends no edit before
        super().__init__(load, seed)

    def connect(self):
        super().connect()
        self.holds = self.greets = False

    def next(self):
        if not self.holds:
            if not self.pending and not self.greets:
                self.greets = True
                return b"hello " + self.name, self.judge_hello
            return None
        if self.again:
            return self.line_of(self.again.popleft())
        if not self.goes_on or self.asks and self.pending:
            return None
        self.asks = self.load.pace and not self.pending and self.draw.random() < 0.2
        if self.asks:
            self.push(b"wait", self.judge_wait)
            return b"route %d %d" % tuple(self.base + self.draw.randrange(6) for _ in "ab"), self.judge_way
        # Most changes can be made.
        ops, model, sure = [], copy.copy(self.model), self.draw.random() < 0.7
        for _ in range(self.draw.choice([1, 1, 2, 5, 16])):
            a, b = self.draw.sample(range(self.base, self.base + 6), 2)
            if sure:
                kind = self.draw.choice(["set", "cut"]) if (min(a, b), max(a, b)) in model.edges else "add"
                ops.append((kind, a, b, self.draw.randint(1, 9)))
                model.verdict(ops[-1:], 0)
            else:
                odd = self.draw.random()
                b = a if odd < 0.05 else self.load.ground.nodes if odd < 0.1 else b
                ops.append((self.draw.choice(["add", "add", "set", "cut"]), a, b, 0 if odd > 0.95 else self.draw.randint(1, 1_000_000)))
        self.sent_ticket += self.draw.choice([1, 1, 1, 2, 5])
        return self.line_of((self.sent_ticket, ops))

    last = next

    def line_of(self, edit):
        ticket, ops = edit
        self.sent[ticket] = " ".join(map(op_text, ops))
        return f"edit {self.session} {ticket} {self.sent[ticket]}".encode(), lambda line, answer: self.judge_edit(edit, answer), edit

    def is_done(self):
        return not (self.pending or self.unsettled or self.again) and self.holds

    def judge_edit(self, edit, answer):
        ticket, ops = edit
        head = b"%d %d " % (self.session, ticket)
        # Behind a line without an answer it has to say hello first.
        assert self.holds == (answer != b"not your session"), (edit, answer)
        if answer == b"not your session":
            self.unsettled.append((ticket, ops, True))
        elif ticket <= self.model.ticket:
            assert answer == head + b"already in", (edit, answer)
            self.load.already += 1
        elif answer == head + b"old ticket":
            # While a service runs, a change that it refused has used its ticket. Of those that are sent again these come first.
            assert ticket in self.resent and not self.has_news and self.model.verdict(ops, None), (edit, answer)
            self.load.refused_before += 1
        else:
            self.has_news = True
            refused = self.model.verdict(ops, ticket)
            if refused:
                assert answer == head + b"refused op=%d code=%d" % refused, (edit, answer)
                self.load.refused += 1
            else:
                assert answer.startswith(head + b"accepted count="), (edit, answer)
                count = int(answer.rpartition(b"=")[2])
                assert count not in self.load.counts, (edit, answer)
                self.load.counts.add(count)
                self.changes.append(edit)
                self.counts[ticket] = count

    def judge_way(self, line, answer):
        """A route of its own nodes, behind a `wait` that is behind all its edits; without landmarks it is a shortest one."""
        a, b = map(int, line.split()[1:])
        length = self.model.distance(a, b)
        found = re.fullmatch(rb"generation=\d+ route ([\d ]+) length (\d+)", answer)
        if found is None:
            assert length is None and re.fullmatch(rb"generation=\d+ unreachable", answer), (line, answer, self.model.edges)
            return
        way = [int(x) for x in found[1].split()]
        steps = [self.model.edges[min(step), max(step)] for step in zip(way, way[1:])]
        assert (way[0], way[-1]) == (a, b) and sum(steps) == int(found[2]) == length, (line, answer, self.model.edges)

    def lose(self, line, edit):
        self.holds = False
        if line.startswith(b"hello"):
            self.greets = False
        elif edit:
            self.unsettled.append((*edit, False))

    def leave(self):
        whole = len(self.pending) - self.out.count(b"\n")
        for place, (_, _, _, edit, _) in enumerate(self.pending):
            if edit:
                # A gate that ends in order has answered whatever it took.
                self.unsettled.append((*edit, place >= whole or self.load.ends == signal.SIGTERM))
        super().leave()

    def hand_over(self, other):
        """Another client goes on with its connection, and it goes on with a new one: the session goes with the name, and not with the connection."""
        other.leave()
        for name in ("socket", "out", "rest", "number", "pending"):
            setattr(other, name, getattr(self, name))
        other.away = other.halves = False
        self.load.loop.modify(other.socket, selectors.EVENT_READ, other)
        self.connect()

    def at(self, ticket, mark):
        """Its nodes where this was its last ticket, from a model of an earlier moment on: with what was made since then, and with what may have been made."""
        whole = len(self.pending) - self.out.count(b"\n")
        may_be = [edit for _, _, _, edit, _ in list(self.pending)[:whole] if edit] + [edit[:2] for edit in self.unsettled if not edit[2]]
        model = copy.copy(mark)
        for edit_ticket, ops in self.changes[mark.made :] + sorted(may_be):
            if model.ticket < edit_ticket <= ticket:
                model.verdict(ops, edit_ticket)
        return model

    def judge_hello(self, line, answer):
        found = re.fullmatch(rb"session=(\d+) ticket=(\d+)", answer)
        assert found, (line, answer)
        session, ticket = map(int, found.groups())
        assert session in SESSIONS and self.session in (None, session), (line, answer)
        assert self.load.owners.setdefault(session, self) is self
        self.session = session
        made, known = [], self.model.ticket
        for edit_ticket, ops, is_not_asked in sorted(self.unsettled, key=lambda e: e[0]):
            if edit_ticket <= known:
                continue  # one that was made, and was sent again
            if edit_ticket > ticket:
                self.again.append((edit_ticket, ops))
                continue
            assert not is_not_asked, (line, answer, edit_ticket)
            if self.model.verdict(ops, edit_ticket) is None:
                self.silent += 1
                made.append((edit_ticket, ops))
                self.changes.append((edit_ticket, ops))
        assert self.model.ticket == ticket, (line, answer, self.model.ticket)
        self.again = deque(made[-2:] + sorted(self.again))
        self.resent, self.has_news = {edit_ticket for edit_ticket, _ in self.again}, False
        self.unsettled, self.holds, self.greets = [], True, False


class Load:
    """Talkers of one gate, until so many lines are answered."""

    pace = 0  # seconds between two moments of a talker; with 0 it sends what its window takes
    ends = 0  # the signal by which the gate is being ended

    def __init__(self, gate, device, programs, ground=None):
        self.gate, self.device, self.programs, self.ground = gate, device, programs, ground or Ground()
        self.loop, self.talkers = selectors.DefaultSelector(), []
        self.answered = self.lost = self.kills = self.cuts = self.given_up = self.already = self.refused = self.refused_before = 0
        self.counts, self.owners = set(), {}

    def watch(self, talker):
        self.loop.register(talker.socket, selectors.EVENT_READ, talker)

    def hears(self, talker, line, sent):
        pass

    def editors(self):
        return [talker for talker in self.talkers if isinstance(talker, Editor)]

    def add(self, kind, many, seed, *more):
        for k in range(many):
            self.talkers.append(kind(self, seed * 10_000 + k, *([k] if kind is Editor else []), *more))

    def kill_service(self):
        """Each second time it is stopped before, so that lines wait for it."""
        self.kills += 1
        pid = eventually(self.gate.service)
        if self.kills % 2:
            os.kill(pid, signal.SIGSTOP)
            for _ in range(40):
                self.turn()
            self.gate.kill_service()
        else:
            self.kill_in_rush(pid)

    def kill_in_rush(self, pid):
        """A process is killed a moment after all have begun to send at once."""
        killer = subprocess.Popen(["sh", "-c", f"sleep {random.uniform(0, 0.1)}; kill -9 {pid}"])
        for talker in self.talkers:
            if not talker.halves:
                talker.fill(3)
                talker.send()
        while killer.poll() is None:
            self.turn()

    def cut_some(self, many=5):
        for editor in self.editors()[:many]:
            editor.cut()

    def turn(self):
        for talker in self.talkers:
            if talker.reads or talker.number < 20_000:
                talker.fill()
            wanted = (selectors.EVENT_READ if talker.reads else 0) | (selectors.EVENT_WRITE if talker.out else 0)
            known = self.loop.get_map().get(talker.socket)
            if not wanted:
                if known:
                    self.loop.unregister(talker.socket)
            elif known is None:
                self.loop.register(talker.socket, wanted, talker)
            elif known.events != wanted:
                self.loop.modify(talker.socket, wanted, talker)
        for key, events in self.loop.select(0.05):
            if events & selectors.EVENT_WRITE:
                key.data.send()
            if events & selectors.EVENT_READ:
                key.data.hear()

    def run(self, lines, events=(), seconds=600):
        """Runs until so many lines are answered, with what happens on the way: (lines answered by then, call)."""
        events, until = deque(sorted(events, key=lambda e: e[0])), time.monotonic() + seconds
        while self.answered < lines or events:
            assert time.monotonic() < until, (self.answered, self.gate.log()[-2000:])
            self.turn()
            while events and self.answered >= events[0][0]:
                events.popleft()[1]()

    def finish(self, seconds=600):
        """No new lines: what is under way is answered, and what has no answer is sent again."""
        until = time.monotonic() + seconds
        for talker in self.talkers:
            talker.goes_on, talker.reads = False, True
        while not all(t.is_done() for t in self.talkers):
            assert time.monotonic() < until, ([t.__dict__ for t in self.talkers if not t.is_done()][:1], self.gate.log()[-2000:])
            self.turn()

    def close(self):
        for talker in self.talkers:
            talker.socket.close()
        self.loop.close()

    def marks(self):
        """What is acknowledged now: a model of each editor's, and the greatest count that was answered."""
        return {editor: copy.copy(editor.model) for editor in self.editors()}, max(self.counts, default=0)

    def judge_device(self, path=None, marks=None, count=None):
        """A device holds the path, each acknowledged change once, none in part, and nothing else but changes that have no answer yet, each editor's in its order.
        All changes that were acknowledged at the marks are there, and of later ones those up to the device's count, which may be known."""
        path, (models, least) = path or self.device, marks or self.marks()
        shown, said, journal = self.programs.run("show", path), self.programs.tell("info", path, "--json"), self.programs.tell("journal", path)
        assert not (shown.returncode or said.returncode or journal.returncode), (shown.stderr, said.stderr, journal.stderr)
        info = json.loads(said.stdout)
        tickets = {of["session"]: of["ticket"] for of in info["tickets"]}
        before = len(self.ground.changes)
        assert tickets.pop(0) == before and least <= info["count"] == (count or info["count"]), (info, least, count)
        made, want = before, dict(self.ground.edges)
        for editor, mark in models.items():
            ticket = tickets.pop(editor.session, 0)
            model = editor.at(ticket, mark)
            assert model.ticket == ticket, (editor.name, editor.session, ticket, mark.ticket, model.ticket)
            for later, _ in editor.changes[mark.made :]:
                if later in editor.counts:
                    assert (editor.counts[later] <= info["count"]) == (later <= ticket), (editor.name, later, ticket, editor.counts[later], info["count"])
            made += model.made
            want.update(model.edges)
        assert not tickets, tickets
        head, *edges = shown.stdout.splitlines()
        edges = {(a, b): w for a, b, w in (map(int, line.split()) for line in edges)}
        assert edges == want, set(edges.items()) ^ set(want.items())
        assert head == f"count={info['count']} edges={len(want)}" and (info["count"], info["edges"]) == (made, len(want)), (head, made, len(want), info)
        # Each change since the checkpoint is the one that was sent under its ticket, and has the count that it was answered.
        rows, last = journal.stdout.splitlines(), {}
        assert len(rows) == info["since_checkpoint"], (len(rows), info)
        for number, row in enumerate(rows, info["count"] - len(rows) + 1):
            count, session, ticket, ops = re.fullmatch(r"count=(\d+) session=(\d+) ticket=(\d+) (.+)", row).groups()
            session, ticket = int(session), int(ticket)
            assert int(count) == number and last.get(session, 0) < ticket, row
            last[session] = ticket
            if session:
                editor = self.owners[session]
                assert editor.sent[ticket] == ops and editor.counts.get(ticket, number) == number, (row, editor.sent[ticket], editor.counts.get(ticket))
            else:
                assert ops == self.ground.changes[number - 1], row
        return len(rows)


class Hour(Load):
    """Five hundred clients of a gate, at their ease, while the service is killed, the gate ended and begun anew, clients are cut off in the middle of a line, and
    backups are made, at drawn moments. Each backup, and the device after each kill and at the end, is judged by what was acknowledged."""

    pace = 4.0

    def __init__(self, seconds, seed, programs, nodes=NODES, waiter=False, calm=False):
        self.folder, ground = Path(tempfile.mkdtemp(prefix="tzgate-hour-")), Ground(nodes)
        super().__init__(None, a_device(self.folder, programs, ground), programs, ground)
        self.waiter, self.calm = waiter, calm
        self.seconds, self.draw, self.order = seconds, random.Random(seed), itertools.count()
        self.did, self.kinds, self.times, self.memories = Counter(), Counter(), {}, []
        self.due, self.asked = [], {}
        self.start()

    def start(self):
        # Some clients read nothing to the end, and aren't sent away for it.
        self.gate = Running(self.folder, self.device, self.programs, "--idle", 0)
        self.gate.up()
        self.did["starts of the gate"] += 1

    def watch(self, talker):
        if talker.reads:
            super().watch(talker)

    def hears(self, talker, line, sent):
        kind = line.split(b" ")[0].decode(errors="replace")
        kind = kind if kind in ("edit", "route", "wait", "state", "backup", "hello", "resume", "address") else "other"
        self.kinds[kind] += 1
        now = time.monotonic()
        if sent and not isinstance(talker, (Deaf, Waiter)):
            behind = " behind its own wait" if kind != "wait" and sent < talker.waited else ""
            self.times.setdefault(kind + behind, array("f")).append(now - sent)
        if kind == "wait":
            talker.waited = now

    def turn(self):
        now = time.monotonic()
        while self.due and self.due[0][0] <= now:
            talker = heapq.heappop(self.due)[2]
            if not talker.away:
                if not talker.halves:
                    talker.fill(self.draw.choice([1, 1, 1, 1, 2, 6]) if talker.reads else 100)
                talker.send()
                if talker.halves and not talker.out:
                    with suppress(OSError):
                        talker.socket.shutdown(socket.SHUT_WR)
            self.wake(talker)
        for key, _ in self.loop.select(max(0, min(self.due[0][0] - now, 0.05))):
            key.data.hear()

    def wake(self, talker):
        heapq.heappush(self.due, (time.monotonic() + self.draw.expovariate((3 if isinstance(talker, Editor) else 1) / self.pace), next(self.order), talker))

    def drawn(self, kind):
        return self.draw.choice([t for t in self.talkers if type(t) is kind and not (t.out or t.halves)])

    # What happens at drawn moments.

    def hand_over(self):
        editor = self.drawn(Editor)
        if not editor.pending:
            self.did["names handed over"] += 1
            editor.hand_over(self.drawn(Reader))

    def cut_one(self):
        self.drawn(self.draw.choice([Editor, Reader])).cut()

    def half_line(self):
        reader = self.drawn(Reader)
        reader.push(b"route 0 1", lambda line, answer: reader.judge_word(line, answer, b"line not ended"))
        del reader.out[-1:]
        reader.halves = True
        self.did["ended in half a line"] += 1

    def backup(self):
        path, marks = str(self.folder / f"backup.{next(self.order)}"), self.marks()
        self.asked[path] = marks
        reader = self.drawn(Reader)
        reader.push(b"backup " + path.encode(), self.judge_backup)
        reader.send()
        if self.draw.random() < 0.2:
            time.sleep(self.draw.uniform(0, 0.2))
            self.kills += 1
            self.gate.kill_service()
            self.judge_at_rest("devices judged behind a kill of the service while it made a backup")

    def judge_backup(self, line, answer):
        path = line.decode().split(" ")[1]
        found = re.fullmatch(rb"count=(\d+)", answer)
        assert found, (line, answer)
        rows = self.judge_device(path, self.asked.pop(path), int(found[1]))
        assert rows == 0 or not self.programs.is_real, "a backup has a journal"
        os.unlink(path)
        self.did["backups judged"] += 1

    def judge_lost_backups(self):
        """Of a backup without an answer there is nothing, no device, or a whole one."""
        waits = {line.decode().split(" ")[1] for talker in self.talkers if not talker.away for _, line, *_ in talker.pending if line.startswith(b"backup ")}
        for path in set(self.asked) - waits:
            marks, kind = self.asked.pop(path), "no file"
            if os.path.exists(path):
                shown = self.programs.run("show", path)
                kind = "whole" if shown.returncode == 0 else "no device"
                if shown.returncode == 0:
                    self.judge_device(path, marks)
                else:
                    assert re.fullmatch(r"tznode: (not formatted|damaged)\n", shown.stderr), shown
                os.unlink(path)
            self.did[f"backups without an answer: {kind}"] += 1

    def kill(self):
        self.kill_service()
        self.judge_at_rest("devices judged behind a kill of the service")

    def judge_at_rest(self, what, seconds=1):
        """The device as it is once nobody writes it: copied under a reader's lock, which keeps the next service out for that moment."""
        until, path = time.monotonic() + seconds, self.folder / "copy"
        with open(self.device, "rb") as device:
            while time.monotonic() < until:
                with suppress(BlockingIOError):
                    fcntl.flock(device, fcntl.LOCK_SH | fcntl.LOCK_NB)
                    shutil.copyfile(self.device, path)
                    break
                time.sleep(0.002)
            else:
                self.did["not judged, since the next service was there before"] += 1
                return
        self.did["changes of journals judged"] += self.judge_device(path)
        self.did[what] += 1

    def restart(self, number):
        self.ends, gate = number, self.gate
        if number == signal.SIGTERM:
            gate.process.send_signal(number)
        else:
            self.kill_in_rush(gate.process.pid)
        while gate.process.poll() is None or not all(t.away or not t.reads for t in self.talkers):
            self.turn()
        assert gate.process.returncode == (0 if number == signal.SIGTERM else -9), gate.log()[-2000:]
        for talker in self.talkers:
            if not talker.away:
                talker.leave()
        self.judge_at_rest(f"devices judged behind a gate ended by {number.name}", 60)
        self.ends = 0
        self.did[f"gates ended by {number.name}"] += 1
        self.start()
        for talker in self.talkers:
            talker.connect()

    def sample(self):
        service = self.gate.service()
        with suppress(FileNotFoundError, ProcessLookupError, TypeError):
            if service:
                self.memories.append((time.monotonic() - self.begun, self.gate.memory(), self.gate.memory(pid=service)))

    def progress(self):
        self.judge_lost_backups()
        figure(f"{(time.monotonic() - self.begun) / 60:.1f} minutes: {self.answered} lines, {len(self.counts)} accepted, {self.kinds['route']} routes, {self.did['backups judged']} backups, {self.kills} kills of the service, {self.did['starts of the gate'] - 1} of the gate, {self.cuts} cuts; kilobytes of gate and service {self.memories[-1][1:] if self.memories else '?'}")

    def go(self):
        begun, self.begun, self.pace = os.times(), time.monotonic(), 1.0
        for kind, many in ((Editor, 62), (Deaf, 4), (Reader, 434), (Waiter, int(self.waiter))):
            self.add(kind, many, self.draw.randrange(1 << 40))
        for talker in self.talkers:
            self.wake(talker)
        while not all(editor.session for editor in self.editors()):
            self.turn()
        self.begun, self.pace, at_all = time.monotonic(), Hour.pace, time.monotonic() - self.begun
        rows = [(1, self.hand_over), (2, self.cut_one), (5, self.half_line), (5, self.sample), (10, self.backup), (40, self.kill)]
        rows += [(500, lambda: self.restart(signal.SIGTERM)), (900, lambda: self.restart(signal.SIGKILL)), (60, self.progress)]
        rows = [row for row in rows if not self.calm or row[1] in (self.hand_over, self.sample, self.progress)]
        events = [(min(mean, self.seconds / 4), next(self.order), call) for mean, call in rows]
        events = [(self.begun + mean * self.draw.uniform(0.5, 1.5), mean, order, call) for mean, order, call in events]
        heapq.heapify(events)
        while time.monotonic() < self.begun + self.seconds:
            self.turn()
            while events[0][0] <= time.monotonic():
                _, mean, order, call = heapq.heappop(events)
                call()
                heapq.heappush(events, (time.monotonic() + mean * (1 if call == self.progress else self.draw.uniform(0.5, 1.5)), mean, order, call))
        self.pace = 0.2
        for talker in self.talkers:
            if not talker.reads:
                self.loop.register(talker.socket, selectors.EVENT_READ, talker)
            self.wake(talker)
        self.finish()
        self.judge_lost_backups()
        self.close()
        assert self.gate.stop() == 0, self.gate.log()[-2000:]
        self.did["changes of journals judged"] += self.judge_device()
        used = sum(os.times()[:4]) - sum(begun[:4])
        self.did["starts of the service"] = (self.folder / "log").read_text(errors="replace").count("the service is up")
        self.did["per cent of a processor, of all"] = round(100 * used / (time.monotonic() - self.begun + at_all))

    def figures(self, differences):
        silent = sum(editor.silent for editor in self.editors())
        figure(f"{len(self.talkers)} clients, 62 names, {self.ground.nodes} nodes, {self.seconds} seconds: {self.answered} lines answered, {self.lost} told that they have no answer, {self.given_up} under way where a connection ended, besides those of 4 clients that never read")
        figure(f"edits: {len(self.counts)} accepted, {silent} made without an answer, {self.refused} refused, {self.already} already in, {self.refused_before} old tickets")
        figure("lines: " + ", ".join(f"{kind} {many}" for kind, many in sorted(self.kinds.items())))
        figure(f"kills of the service: {self.kills}; connections cut in the middle of a line: {self.cuts}")
        for what, many in sorted(self.did.items()):
            figure(f"{what}: {many}")
        others = [time for kind, times in self.times.items() if "wait" not in kind for time in times]
        for kind, times in [*sorted(self.times.items()), ("all but those of and behind a wait", others)]:
            times = sorted(times) or [0]
            figure(f"milliseconds to an answer, {kind}: median {1e3 * times[len(times) // 2]:.1f}, 99 in 100 {1e3 * times[len(times) * 99 // 100]:.1f}, greatest {1e3 * times[-1]:.0f}")
        window, medians = min(600, self.seconds / 2), []
        for place in range(int(self.seconds / window)):
            rows = [row[1:] for row in self.memories if place * window <= row[0] < (place + 1) * window]
            if rows:
                gate, service = zip(*rows)
                medians.append((statistics.median(gate), statistics.median(service)))
                figure(f"kilobytes from minute {place * window / 60:g}: gate {min(gate)} {medians[-1][0]:.0f} {max(gate)}, service {min(service)} {medians[-1][1]:.0f} {max(service)} (least, median, greatest)")
        for first, last in zip(medians[0], medians[-1]) if medians else ():
            if last > 1.25 * first + 4_000:
                figure(f"WRONG: memory has grown from {first} to {last} kilobytes")
                differences += 1
        figure(f"differences: {differences}")
        return differences


def figure(text):
    print(f"    {text}", flush=True)


def main():
    parser = argparse.ArgumentParser(description=Hour.__doc__)
    parser.add_argument("--hour", dest="seconds", action="store_const", const=3_600)
    parser.add_argument("--seconds", type=int)
    parser.add_argument("--seed", type=int, default=1)
    parser.add_argument("--waiter", action="store_true", help="one more client sends wait all the time")
    parser.add_argument("--nodes", type=int, default=NODES, help="of the network, 640 or more")
    parser.add_argument("--calm", action="store_true", help="nothing is killed, cut or backed up")
    words = parser.parse_args()
    if not words.seconds:
        parser.error("--hour, or --seconds N")
    programs = Programs(os.environ.get("TZNODE") or STAND_IN, os.environ.get("TZLAB"))
    hour, differences = Hour(words.seconds, words.seed, programs, words.nodes, words.waiter, words.calm), 0
    try:
        hour.go()
    except Exception:
        traceback.print_exc()
        figure(f"WRONG: the files stay in {hour.folder}")
        differences = 1
    finally:
        hour.gate.__exit__()
    differences = hour.figures(differences)
    if not differences:
        shutil.rmtree(hour.folder)
    return 1 if differences else 0


if __name__ == "__main__":
    sys.exit(main())
