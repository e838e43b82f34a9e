"""Whose line goes to the service next.

Each client has `TURN` lines in turn, and at most so many with the service as `--unanswered` says. Lines that hold up
all answers behind them (`tables`, `backup`) go one at a time: the next one once the last was answered, every client
that has lines had a turn since then, and as much time has gone by as that one took. So nobody's line stands behind more
than one of them, and at most half of the time is theirs.
"""

from __future__ import annotations

from typing import Optional

from hizmorke.gate.bounds import TURN
from hizmorke.gate.connection import Connection
from hizmorke.gate.desk import Desk
from hizmorke.gate.service import Service


class Turns:
    """The clients that may have lines to take, in the order of their turns.

    Parameters
    ----------
    service
        Where lines go.
    desk
        Who takes them.
    unanswered
        How many lines of a client may be without an answer.
    """

    def __init__(self, service: Service, desk: Desk, unanswered: int) -> None:
        self.service, self.desk, self.unanswered = service, desk, unanswered
        self.ready: dict[Connection, None] = {}
        self.parked: dict[Connection, None] = {}  # their next line holds up all others
        self.chosen: Optional[Connection] = None  # the one of these whose turn it is
        self.has_news = False  # a client has come since the last round
        self.rounded_at = 0.0  # when every client had its turn last

    def add(self, client: Connection) -> None:
        """This client has sent something, or may have another line taken."""
        if not client.gone and client not in self.ready and client not in self.parked:
            self.ready[client] = None
            self.has_news = True

    def remove(self, client: Connection) -> None:
        """This client has gone."""
        self.ready.pop(client, None)
        self.parked.pop(client, None)

    def is_due(self) -> bool:
        """Whether there is something to do at once."""
        return self.has_news or bool(self.ready) and self.service.takes()

    def go_round(self, now: float) -> None:
        """A turn for each client, and then, where it may be, a line that holds up all others."""
        self.has_news = False
        for client in list(self.ready):
            self.ready.pop(client, None)
            if not client.gone and self.take(client, now):
                self.ready[client] = None
        if self.service.takes():
            self.rounded_at = now
            if self.parked and now >= self.free_at() and self.rounded_at >= self.service.free_since:
                self.chosen = next(iter(self.parked))
                del self.parked[self.chosen]
                client, goes_on = self.chosen, self.take(self.chosen, now)
                self.chosen = None
                if goes_on:
                    self.ready[client] = None

    def free_at(self) -> float:
        """When a line may hold up all others again, as far as that is known."""
        return float("inf") if self.service.is_held_up() else self.service.free_since + self.service.held_up_for

    def until(self) -> Optional[float]:
        """When the next line that holds up all others may go."""
        return self.free_at() if self.parked and self.service.takes() else None

    def take(self, client: Connection, now: float) -> bool:
        """One turn of a client. Says whether it may have another one; without, its next line or answer wakes it."""
        for _ in range(TURN):
            if client.is_held or client.ending is not None:
                return False
            end = client.lines.find(b"\n")
            if end < 0:
                self.desk.await_end(client, now)
                return False
            most = self.desk.room_for(client)
            if not client.has_room(most, self.unanswered):
                return False
            if not self.service.takes() and not self.desk.may_be_own(client):
                return True
            line = bytes(client.lines[:end]).removesuffix(b"\r")
            if not self.desk.is_own(client, line):
                if not self.service.takes():
                    return True
                if self.desk.holds_up(client, line):
                    if client is not self.chosen:
                        self.parked[client] = None
                        return False
                    self.chosen = None
            del client.lines[: end + 1]
            self.desk.take(client, line, most, now)
        return True
