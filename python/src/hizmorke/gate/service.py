"""The service's process: how it is started and started again, what it is asked, and what it says."""

from __future__ import annotations

import os
import subprocess
import time
from collections import deque
from contextlib import suppress
from typing import Callable, Optional, Protocol, Sequence

from hizmorke.gate.bounds import (
    BEHIND_THE_PIPE,
    CALM_SECONDS,
    LASTING,
    LONGEST_WAIT,
    METRICS,
    SESSIONS,
    SHORT,
    SHORTEST_WAIT,
    UNDER_WAY,
    Ending,
    log,
)
from hizmorke.gate.connection import Connection
from hizmorke.gate.loop import READ, WRITE, Loop

Hear = Callable[[bytes, float], None]


class Question:
    """A line that the service was given: what to do with its answer, and whose it is; None is the gate."""

    __slots__ = ("hear", "client", "holds_up")

    def __init__(self, hear: Hear, client: Optional[Connection], holds_up: bool) -> None:
        self.hear = hear
        self.client = client
        self.holds_up = holds_up


class Owner(Protocol):
    """Whoever has the service."""

    def service_is_up(self, now: float) -> None:
        """It has opened the device and built its first tables."""

    def service_has_ended(self, asked: Sequence[Question]) -> int:
        """These have no answer. Gives how many lines of clients have none."""
        ...

    def end(self, status: int) -> None:
        """There won't be another one."""


class Service:
    """One service after another, of the same device.

    Parameters
    ----------
    command
        The words that start one, behind the program.
    program
        The program `tznode`.
    device
        The network's file.
    loop
        Where its pipes are waited for.
    owner
        Who is told what becomes of it.
    """

    def __init__(self, program: str, device: str, command: Sequence[str], loop: Loop, owner: Owner) -> None:
        self.program, self.device, self.command = program, device, [program, *command]
        self.loop, self.owner = loop, owner
        self.process: Optional[subprocess.Popen[bytes]] = None
        self.starts = 0
        self.asked: deque[Question] = deque()  # lines without an answer, in the order of the answers
        self.unsent = bytearray()  # lines that its pipe hasn't taken
        self.cut = b""  # an answer that hasn't come whole
        self.said = b""  # the end of what it said on its standard error
        self.line = b""  # of that, what may be half a line
        self.up = False  # it has opened the device
        self.stops = False  # its input ends behind what it was asked
        self.held_up_since: Optional[float] = None  # when a line was passed on that takes long, and isn't answered
        self.held_up_for = 0.0  # how long the last one took
        self.free_since = 0.0  # when that was answered
        self.start_at, self.wait, self.started = 0.0, SHORTEST_WAIT, 0.0
        self.longest_route = SHORT

    def is_open(self) -> bool:
        """Whether it may be asked something."""
        return self.up and not self.stops

    def takes(self) -> bool:
        """Whether a client's line may go to it."""
        return self.is_open() and len(self.asked) < UNDER_WAY and len(self.unsent) < BEHIND_THE_PIPE

    def is_held_up(self) -> bool:
        """Whether it works at a line that takes long."""
        return self.held_up_since is not None

    def start(self) -> None:
        """Start one. It is up once it has answered a line of the gate's.

        Raises
        ------
        Ending
            Where the program can't be run the first time.
        """
        pipe, is_first, self.started = subprocess.PIPE, not self.starts and not self.started, time.monotonic()
        try:
            # In a session of its own, so that a key on a terminal ends the gate alone.
            process = subprocess.Popen(
                self.command, stdin=pipe, stdout=pipe, stderr=pipe, bufsize=0, start_new_session=True
            )
        except OSError as e:
            if is_first:
                raise Ending(f"{self.program}: {e.strerror}", 1) from e
            return self.again(f"{self.program}: {e.strerror}")
        assert process.stdin and process.stdout and process.stderr
        self.process, self.cut, self.said, self.line = process, b"", b"", b""
        self.starts += 1
        for file in (process.stdin, process.stdout, process.stderr):
            os.set_blocking(file.fileno(), False)
        self.loop.watch(process.stdout, READ, self.hear)
        self.loop.watch(process.stderr, READ, self.hear_fault)
        # A route passes each node once at most: `generation=G route A .. B length L`. No answer is longer.
        try:
            with open(self.device, "rb") as device:
                self.longest_route = METRICS + 6 * int.from_bytes(device.read(10)[8:], "big")
        except OSError:
            self.longest_route = METRICS + 6 * 65_535
        self.ask(b"state", self.hear_first)
        self.feed()

    def hear_first(self, answer: bytes, now: float) -> None:
        """It has answered the gate: clients' lines may come."""
        self.up = True
        log(f"the service is up: {answer.decode(errors='replace')}")
        self.owner.service_is_up(now)

    def ask(self, line: bytes, hear: Hear, client: Optional[Connection] = None, holds_up: bool = False) -> None:
        """Give it a line.

        Parameters
        ----------
        line
            The line, without its end.
        hear
            Gets the answer, without its end, and the time.
        client
            Whose line it is; None where it is the gate's own.
        holds_up
            Whether all answers behind it wait for long.
        """
        self.unsent += line
        self.unsent += b"\n"
        self.asked.append(Question(hear, client, holds_up))
        if holds_up:
            self.held_up_since = time.monotonic()

    def feed(self) -> None:
        """Give it as many bytes as its pipe takes; its input ends behind them where the gate stops."""
        if self.process is None or self.process.stdin is None or self.process.stdin.closed:
            return
        try:
            with suppress(BlockingIOError):
                if self.unsent:
                    del self.unsent[: os.write(self.process.stdin.fileno(), self.unsent)]
        except OSError:
            self.unsent.clear()  # it has ended: its output says so
        self.loop.watch(self.process.stdin, WRITE if self.unsent else 0, self.feed)
        if self.stops and not self.unsent:
            self.close_input()

    def close_input(self) -> None:
        """It gets no more lines."""
        self.up = False
        if self.process and self.process.stdin and not self.process.stdin.closed:
            self.loop.watch(self.process.stdin, 0)
            self.process.stdin.close()

    def hear(self) -> None:
        """Each answer goes to whom its line came from."""
        assert self.process and self.process.stdout
        data = os.read(self.process.stdout.fileno(), 65_536)
        if not data:
            return self.has_ended()
        now = time.monotonic()
        answers = (self.cut + data).split(b"\n")
        self.cut = answers.pop()
        for answer in answers:
            if not self.asked:
                return self.end_by_force()
            question = self.asked.popleft()
            if question.holds_up and self.held_up_since is not None:
                self.held_up_for, self.free_since, self.held_up_since = now - self.held_up_since, now, None
            question.hear(answer, now)
        if self.cut and not self.asked or len(self.cut) > self.longest_route:
            self.end_by_force()

    def end_by_force(self) -> None:
        """It says what it can't say."""
        log("the service says more than it was asked")
        self.up = False
        if self.process:
            self.process.kill()

    def hear_fault(self) -> bool:
        """What it says on its standard error. Says whether there may be more of it."""
        assert self.process and self.process.stderr
        try:
            data = os.read(self.process.stderr.fileno(), 4_096)
        except BlockingIOError:
            return False
        if not data:
            self.loop.watch(self.process.stderr, 0)
        self.say(data)
        self.said = (self.said + data)[-4_096:]
        # A fault is the end, but a service that waits for a line may need its input's end too.
        if b"tznode: " in self.said:
            self.close_input()
        return bool(data)

    def say(self, data: bytes, is_all: bool = False) -> None:
        """Says to the operator what the service said, line by line."""
        *lines, self.line = (self.line + data).split(b"\n")
        if self.line and (is_all or len(self.line) > 4_096):
            lines, self.line = [*lines, self.line], b""
        for line in lines:
            log(f"the service says: {line.decode(errors='replace').rstrip()}")

    def has_ended(self) -> None:
        """Its output has ended, and so has it: what it hasn't answered has no answer."""
        self.close_input()
        process = self.process
        assert process and process.stdout and process.stderr
        try:
            status = process.wait(2)
        except subprocess.TimeoutExpired:
            process.kill()
            status = process.wait()
        while self.hear_fault():
            pass
        self.say(b"", is_all=True)
        for pipe in (process.stdout, process.stderr):
            self.loop.watch(pipe, 0)
            pipe.close()
        asked = list(self.asked)
        self.asked.clear()
        self.unsent.clear()
        self.process, self.up, self.held_up_since = None, False, None
        lost = self.owner.service_has_ended(asked)
        fault = self.said.rpartition(b"tznode: ")[2].strip() if b"tznode: " in self.said else b""
        said = f"status {status}" if status >= 0 else f"signal {-status}"
        log(f"the service has ended with {said}; lines without an answer: {lost}")
        if self.stops:
            self.owner.end(0 if status == 0 and lost == 0 else 1)
        elif fault in LASTING:
            self.owner.end(max(status, 1))
        else:
            self.again(said)

    def again(self, why: str) -> None:
        """It is started again after a while, which grows."""
        now = time.monotonic()
        if now - self.started > CALM_SECONDS:
            self.wait = SHORTEST_WAIT
        log(f"{why}: the service starts again in {self.wait:.1f} seconds")
        self.start_at = now + self.wait
        self.wait = min(2 * self.wait, LONGEST_WAIT)
