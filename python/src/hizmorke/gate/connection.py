"""A connection: what it sent and nobody took yet, what it is owed, and what it hasn't read."""

from __future__ import annotations

import enum
import socket
import time
from collections import deque
from contextlib import suppress
from typing import TYPE_CHECKING, Optional

from hizmorke.gate.bounds import CHUNK, LEAVE_SECONDS, LONGEST_LINE, ROOM, STILL_SECONDS

if TYPE_CHECKING:
    from hizmorke.gate.pages import Request


class Kind(enum.Enum):
    """What a connection may do: a client sends lines; a guest, for whom no place is left, asks for figures; a monitor
    asks for the page.
    """

    CLIENT = "client"
    GUEST = "guest"
    MONITOR = "monitor"


class Owed:
    """A line that was taken and isn't answered yet: the bytes that are kept for its answer, and that, once it is
    there.
    """

    __slots__ = ("most", "answer")

    def __init__(self, most: int, answer: Optional[bytes] = None) -> None:
        self.most = most
        self.answer = answer


class Connection:
    """One connection, from its acceptance to its end.

    Parameters
    ----------
    stream
        Its socket, which doesn't block.
    kind
        What it may do.
    needs_token
        Whether its first line has to be a token.
    now
        The time.
    """

    def __init__(self, stream: socket.socket, kind: Kind, needs_token: bool, now: float) -> None:
        self.stream = stream
        self.kind = kind
        self.is_local = stream.family == socket.AF_UNIX
        self.needs_token = needs_token
        self.is_new = True  # none of its lines was taken
        self.request: Optional[Request] = None  # it speaks HTTP
        self.lines = bytearray()  # what it sent and nobody took yet
        self.passing = False  # its line is too long: the rest is passed over
        self.owed: deque[Owed] = deque()  # its lines without an answer, in order
        self.kept = 0  # the sum of the bytes kept for them
        self.answers = bytearray()  # what it hasn't read
        self.answered = 0  # how many of its lines have an answer
        self.is_held = False  # it waits for tables, and its later lines with it
        self.name: Optional[bytes] = None  # what it said hello by
        self.session: Optional[int] = None  # the one that it holds
        self.ended = False  # it sends no more
        self.gone = False  # it reads no more
        self.begun = now
        self.moved = now  # when it sent or read something, or was told something, last
        self.ending: Optional[float] = None  # since when no more lines of it are taken
        self.leaves: Optional[float] = None  # until when it may end its side, once the gate has ended its own

    def receive(self, now: float) -> bool:
        """Take what has come. Says whether the connection still stands."""
        if self.ended or len(self.lines) > LONGEST_LINE and self.ending is None:
            return True
        try:
            with suppress(BlockingIOError):
                data = self.stream.recv(CHUNK)
                self.ended = not data
                # At its end what it sends is passed over, and is no sign that it reads.
                if self.ending is None:
                    self.moved = now
                    self.lines += data
        except OSError:
            return False
        return True

    def send(self, now: float) -> bool:
        """Send what it is told, as far as it reads. Says whether the connection still stands."""
        try:
            with suppress(BlockingIOError):
                if self.answers:
                    del self.answers[: self.stream.send(self.answers)]
                    self.moved = now
        except OSError:
            return False
        return True

    def owe(self, most: int) -> Owed:
        """A line was taken, whose answer has at most so many bytes."""
        owed = Owed(most)
        self.owed.append(owed)
        self.kept += most
        return owed

    def settle(self, owed: Owed, answer: bytes) -> None:
        """The answer of a line, with its end. It is told behind those of the lines before."""
        owed.answer = answer
        self.moved = time.monotonic()
        while self.owed and self.owed[0].answer is not None:
            first = self.owed.popleft()
            self.kept -= first.most
            self.answered += 1
            if not self.gone:
                self.answers += first.answer or b""

    def reply(self, answer: bytes) -> None:
        """An answer of the gate's own, behind those that are owed."""
        self.settle(self.owe(len(answer) + 1), answer + b"\n")

    def lose(self) -> None:
        """The service is gone: what it owed has no answer."""
        self.is_held = False
        for number, owed in enumerate(list(self.owed), self.answered + 1):
            if owed.answer is None:
                self.settle(owed, b"no answer: %d\n" % number)

    def has_room(self, most: int, unanswered: int) -> bool:
        """Whether one more line may be taken, whose answer has at most so many bytes."""
        held = len(self.answers) + self.kept
        return len(self.owed) < unanswered and (held == 0 or held + most <= ROOM)

    def leave(self, now: float) -> None:
        """No more lines are taken, and what it was told is all."""
        if self.ending is None:
            self.ending = now
        self.lines.clear()
        self.passing = False

    def is_served(self) -> bool:
        """Whether it sent all that it will, and has read the answers."""
        return self.ended and not (self.lines or self.passing or self.owed or self.answers)

    def may_stay(self, now: float) -> bool:
        """At its end: it may read its answers while it reads on, and then has a moment to end its side."""
        if self.ending is None:
            return True
        if self.owed:
            return True
        if self.answers:
            return now < max(self.moved, self.ending) + STILL_SECONDS
        if self.leaves is None:
            self.leaves = now + LEAVE_SECONDS
            try:
                self.stream.shutdown(socket.SHUT_WR)
            except OSError:
                return False
        return not self.ended and now < self.leaves

    def is_idle(self, now: float, seconds: float) -> bool:
        """Whether it is owed nothing, and has neither sent nor read a byte for so long, nor been told anything. What it
        sent whole may wait for the service.
        """
        waits = self.owed or not self.answers and (self.is_held or b"\n" in self.lines)
        return not waits and now >= self.moved + seconds
