"""The gate: one loop that accepts connections, takes their lines in turn, and tells them what they are owed."""

from __future__ import annotations

import signal
import socket
import time
from collections import Counter
from contextlib import suppress
from functools import partial
from typing import NamedTuple, Optional, Sequence

from hizmorke.gate.bounds import (
    FIRST_SECONDS,
    GUEST_SECONDS,
    GUESTS,
    LONGEST_LINE,
    MONITORS,
    STOP_SECONDS,
    SWEEP_SECONDS,
    Ending,
    log,
)
from hizmorke.gate.connection import Connection, Kind
from hizmorke.gate.desk import Desk, Rules
from hizmorke.gate.doors import Door
from hizmorke.gate.figures import Figures
from hizmorke.gate.loop import READ, WRITE, Loop
from hizmorke.gate.pages import Row
from hizmorke.gate.service import Question, Service
from hizmorke.gate.sessions import Sessions
from hizmorke.gate.turns import Turns
from hizmorke.gate.waits import Waits


class Limits(NamedTuple):
    """How many clients there are at most, how many lines of each without an answer, and for how long one may be idle,
    where 0 is for ever.
    """

    clients: int
    unanswered: int
    idle: float


class Gate:
    """A gate over one service.

    Parameters
    ----------
    program, device, words
        What is run: ``PROGRAM serve DEVICE`` and these words.
    limits
        How many, and for how long.
    rules
        What clients may do.
    sessions
        Which name has which session.
    doors
        Where clients come in.
    """

    def __init__(
        self,
        program: str,
        device: str,
        words: Sequence[str],
        limits: Limits,
        rules: Rules,
        sessions: Sessions,
        doors: list[Door],
    ) -> None:
        self.limits, self.rules, self.doors = limits, rules, doors
        self.loop = Loop()
        self.connections: set[Connection] = set()
        self.places: Counter[Kind] = Counter()
        self.touched: set[Connection] = set()  # connections to look after
        self.service = Service(program, device, ["serve", device, *words], self.loop, self)
        self.figures = Figures(self.service)
        self.waits = Waits(self.service, self.touched.add)
        self.desk = Desk(rules, sessions, self.service, self.figures, self.waits, self.rows, self.touched)
        self.turns = Turns(self.service, self.desk, limits.unanswered)
        self.listen_from = self.sweep_at = 0.0
        self.signals: list[int] = []
        self.stop_by: Optional[float] = None  # a signal has come: the service has to have ended by then
        self.ending: Optional[int] = None  # the exit status, once only clients are waited for

    def rows(self) -> list[Row]:
        """The gate's own figures."""
        asked = len(self.service.asked)
        return [
            ("tzgate_service_up", "gauge", "whether the service takes lines", [("", int(self.service.is_open()))]),
            ("tzgate_clients", "gauge", "connections, monitors among them", [("", len(self.connections))]),
            ("tzgate_under_way", "gauge", "lines that the service was given and has not answered", [("", asked)]),
            ("tzgate_waiting", "gauge", "clients that wait for tables", [("", len(self.waits))]),
            ("tzgate_waits_total", "counter", "how often the gate answered wait", [("", self.waits.answered)]),
            ("tzgate_starts_total", "counter", "how often the service was started", [("", self.service.starts)]),
        ]

    # What the service tells.

    def service_is_up(self, now: float) -> None:
        """Lines are taken from now on."""
        self.figures.renew(now)

    def service_has_ended(self, asked: Sequence[Question]) -> int:
        """What it hasn't answered has no answer, and who asked has to say hello again before it edits."""
        self.figures.tell_all(time.monotonic())
        losers = [question.client for question in asked if question.client is not None] + self.waits.lose()
        for client in set(losers):
            self.desk.let_go(client)
            client.lose()
            self.touched.add(client)
        return len(losers)

    def end(self, status: int) -> None:
        """Only what clients are told is left to do."""
        self.ending = status
        self.close_doors()
        now = time.monotonic()
        for connection in self.connections:
            connection.leave(now)

    # Connections.

    def close_doors(self) -> None:
        """Nobody comes in any more."""
        for door in self.doors:
            self.loop.watch(door.listener, 0)
            door.close()
        self.doors = []

    def watch_doors(self, now: float) -> None:
        """Who comes in is heard, but for a moment without files, and for monitors while there are many."""
        for door in self.doors:
            may_come = now >= self.listen_from and not (door.is_for_monitors and self.places[Kind.MONITOR] >= MONITORS)
            self.loop.watch(door.listener, READ if may_come else 0, partial(self.accept, door))

    def accept(self, door: Door) -> None:
        """Whoever waits at a door comes in. Beyond all places one is a guest, and beyond these nobody."""
        while not (door.is_for_monitors and self.places[Kind.MONITOR] >= MONITORS):
            try:
                stream, _ = door.listener.accept()
            except (BlockingIOError, ConnectionAbortedError):
                return
            except OSError as e:
                log(f"no client can be taken for a second: {e.strerror}")
                self.listen_from = time.monotonic() + 1
                return
            stream.setblocking(False)
            if stream.family != socket.AF_UNIX:
                stream.setsockopt(socket.IPPROTO_TCP, socket.TCP_NODELAY, 1)
            kind = Kind.CLIENT if self.places[Kind.CLIENT] < self.limits.clients else Kind.GUEST
            kind = Kind.MONITOR if door.is_for_monitors else kind
            if kind is Kind.GUEST and self.places[kind] >= GUESTS:
                with suppress(OSError):
                    stream.send(b"busy\n")
                stream.close()
                continue
            needs_token = self.rules.token is not None and kind is not Kind.MONITOR
            connection = Connection(stream, kind, needs_token, time.monotonic())
            self.connections.add(connection)
            self.places[kind] += 1
            self.touched.add(connection)

    def move(self, connection: Connection) -> None:
        """A connection has sent something, or can be sent something."""
        self.touched.add(connection)
        if not connection.receive(time.monotonic()):
            self.drop(connection)
        elif connection.lines or connection.passing:
            self.turns.add(connection)

    def tend(self, connection: Connection, now: float) -> None:
        """Sends a connection what it is told, and waits for what it may do next."""
        if connection.gone:
            return
        if not connection.send(now) or connection.is_served() or not connection.may_stay(now):
            return self.drop(connection)
        if connection.lines or connection.passing:
            self.turns.add(connection)
        wanted = WRITE if connection.answers else 0
        if not connection.ended and len(connection.lines) <= LONGEST_LINE:
            wanted |= READ
        self.loop.watch(connection.stream, wanted, partial(self.move, connection))

    def sweep(self, now: float) -> None:
        """Ends what stands idle, and says so to whoever has no place or no token."""
        self.sweep_at = now + SWEEP_SECONDS
        for connection in list(self.connections):
            if connection.ending is not None:
                self.touched.add(connection)
            elif connection.kind is Kind.GUEST and now >= connection.begun + GUEST_SECONDS:
                self.part(connection, b"busy", now)
            elif connection.needs_token and now >= connection.begun + FIRST_SECONDS:
                self.part(connection, b"token refused", now)
            elif connection.kind is Kind.MONITOR and now >= connection.begun + FIRST_SECONDS:
                self.drop(connection)
            elif self.limits.idle and connection.is_idle(now, self.limits.idle):
                self.drop(connection)

    def part(self, connection: Connection, answer: bytes, now: float) -> None:
        """Says a last line to a connection."""
        if connection.request is None:
            connection.reply(answer)
        connection.leave(now)
        self.touched.add(connection)

    def drop(self, connection: Connection) -> None:
        """A connection has gone. What the service has of it goes on, and nobody hears the answers."""
        self.loop.watch(connection.stream, 0)
        connection.gone = True
        connection.answers.clear()
        connection.lines.clear()
        connection.stream.close()
        self.desk.let_go(connection)
        self.connections.discard(connection)
        self.places[connection.kind] -= 1
        self.turns.remove(connection)

    # The loop.

    def stop(self, now: float) -> None:
        """A signal: no more lines, the service's input ends, and the answers that come are delivered."""
        log("a signal has come: no more lines are taken")
        self.stop_by = now + STOP_SECONDS
        self.close_doors()
        self.service.stops = True
        if self.service.process is None:
            self.end(0)
        else:
            self.waits.ask_for_the_last()

    def waits_for(self, now: float) -> float:
        """How long nothing has to be done, unless something comes."""
        if self.touched or self.turns.is_due():
            return 0
        if self.ending is not None:
            return 0.1
        times = [self.turns.until(), self.waits.until(), self.figures.until(), self.stop_by]
        times += [self.sweep_at if self.connections else None, self.listen_from if self.listen_from > now else None]
        times += [self.service.start_at if self.service.process is None else None]
        return max(0.0, min((moment for moment in times if moment is not None), default=now + 60) - now)

    def step(self) -> bool:
        """One round of the loop. Says whether there is another one."""
        now = time.monotonic()
        if self.signals and self.stop_by is None and self.ending is None:
            self.stop(now)
        if len(self.signals) > 1:
            raise Ending("a second signal has come", 1)
        if self.stop_by is not None and now >= self.stop_by:
            if self.ending is None:
                raise Ending(f"not ended within {STOP_SECONDS} seconds", 1)
            # The service has ended. Whoever still has answers to read isn't waited for any longer.
            for connection in list(self.connections):
                self.drop(connection)
        if self.service.process is None and self.ending is None and now >= self.service.start_at:
            self.service.start()
        if self.stop_by is None and self.ending is None:
            if self.turns.ready or self.turns.parked:
                self.desk.refresh()
            self.turns.go_round(now)
            self.waits.step(now)
        else:
            self.turns.has_news = False
        self.figures.tell_the_patient(now)
        self.service.feed()
        if self.ending is not None:
            self.touched |= self.connections
        touched = list(self.touched)
        self.touched.clear()
        for connection in touched:
            self.tend(connection, now)
        if now >= self.sweep_at:
            self.sweep(now)
        if self.ending is not None and not self.connections:
            return False
        self.watch_doors(now)
        self.loop.turn(self.waits_for(now))
        return True

    def run(self) -> int:
        """Run until the end. Gives the exit status.

        Raises
        ------
        Ending
            Where it can't go on.
        """
        woken, waker = socket.socketpair()
        woken.setblocking(False)
        waker.setblocking(False)
        signal.set_wakeup_fd(waker.fileno())
        self.loop.watch(woken, READ, lambda: woken.recv(64))
        for number in (signal.SIGTERM, signal.SIGINT, signal.SIGHUP):
            if signal.getsignal(number) is not signal.SIG_IGN:
                signal.signal(number, lambda *_: self.signals.append(1))
        try:
            while self.step():
                pass
        finally:
            self.close_doors()
        log(f"has ended with status {self.ending}")
        assert self.ending is not None
        return self.ending
