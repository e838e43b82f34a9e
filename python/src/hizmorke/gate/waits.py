"""`wait`, which the gate answers itself, so that nobody's answers stand behind it.

The service would answer a `wait` once its tables have every change that was accepted by then, and all answers behind it
would come later. The gate asks `state` in place of that. It asks once behind the lines that were passed on before: that
tells the count C that the tables have to come to. Then it asks again and again, in growing pauses, until the newest
generation is C or more. One question serves all who wait.
"""

from __future__ import annotations

import re
from typing import Callable, Optional

from hizmorke.gate.bounds import LONGEST_PAUSE, SHORTEST_PAUSE
from hizmorke.gate.connection import Connection, Owed
from hizmorke.gate.service import Service

STATE = re.compile(rb"count=(\d+) generation=(\d+) queue=\d+")
GENERATION = re.compile(rb"generation=(\d+)")


class Wait:
    """Somebody's `wait`, and the count that it waits for, once that is known."""

    __slots__ = ("client", "owed", "count")

    def __init__(self, client: Connection, owed: Owed) -> None:
        self.client = client
        self.owed = owed
        self.count: Optional[int] = None


class Waits:
    """All who wait for tables.

    Parameters
    ----------
    service
        Whom to ask.
    wake
        Is told each client whose `wait` was answered.
    """

    def __init__(self, service: Service, wake: Callable[[Connection], None]) -> None:
        self.service, self.wake = service, wake
        self.new: list[Wait] = []  # those that no question was asked for
        self.old: list[Wait] = []  # those that a question is under way for, or was answered
        self.is_asked = False
        self.pause, self.ask_at = SHORTEST_PAUSE, 0.0
        self.answered = 0

    def __len__(self) -> int:
        return len(self.new) + len(self.old)

    def join(self, client: Connection, owed: Owed) -> None:
        """One more client waits. Its later lines stay where they are."""
        client.is_held = True
        self.new.append(Wait(client, owed))
        self.pause = SHORTEST_PAUSE

    def step(self, now: float) -> None:
        """Ask, where it is time."""
        is_time = self.new or self.old and now >= self.ask_at
        if is_time and not self.is_asked and self.service.is_open():
            self.old += self.new
            self.new = []
            self.is_asked = True
            self.service.ask(b"state", self.hear)

    def hear(self, answer: bytes, now: float) -> None:
        """What the state is."""
        found = STATE.fullmatch(answer)
        if found is None:
            return self.service.end_by_force()
        self.is_asked = False
        count, generation = map(int, found.groups())
        for wait in self.old:
            if wait.count is None:
                wait.count = count
        self.settle([wait for wait in self.old if (wait.count or 0) <= generation], generation)
        self.old = [wait for wait in self.old if (wait.count or 0) > generation]
        self.ask_at = now + self.pause
        self.pause = min(1.5 * self.pause, LONGEST_PAUSE)

    def settle(self, waits: list[Wait], generation: int) -> None:
        """Tell these which generation has what they waited for."""
        self.answered += len(waits)
        for wait in waits:
            wait.client.is_held = False
            wait.client.settle(wait.owed, b"generation=%d\n" % generation)
            self.wake(wait.client)

    def ask_for_the_last(self) -> None:
        """The gate stops: one `wait` of the service's own, behind all lines, answers all who wait."""
        if len(self):
            self.service.ask(b"wait", self.hear_the_last)

    def hear_the_last(self, answer: bytes, now: float) -> None:
        """The answer to that."""
        found = GENERATION.fullmatch(answer)
        if found is None:
            return self.service.end_by_force()
        waits, self.old, self.new = self.old + self.new, [], []
        self.settle(waits, int(found[1]))

    def lose(self) -> list[Connection]:
        """The service has ended. Gives those who waited, who lose a line each."""
        lost = [wait.client for wait in self.old + self.new]
        self.old, self.new, self.is_asked = [], [], False
        return lost

    def until(self) -> Optional[float]:
        """When the next question is due."""
        return self.ask_at if self.old and not self.is_asked else None
