"""The service's figures as the gate has them: asked for at most once a second, and told at once."""

from __future__ import annotations

import json
from typing import Callable, Optional

from hizmorke.gate.bounds import FIGURES_SECONDS, PATIENCE_SECONDS
from hizmorke.gate.service import Service

Told = Optional[dict[str, int]]
Hear = Callable[[Told, float], None]


class Figures:
    """What the service said last to `metrics`, and who waits a moment for newer figures.

    Parameters
    ----------
    service
        Whom to ask.
    """

    def __init__(self, service: Service) -> None:
        self.service = service
        self.told: Told = None
        self.at = 0.0  # when they were asked for: they are at most as old as that
        self.asked_at: Optional[float] = None  # when the question went that has no answer yet
        self.waiting: list[tuple[float, Hear]] = []

    def is_fresh(self, now: float) -> bool:
        """Whether the figures may be told as they are."""
        return self.told is not None and now <= self.at + FIGURES_SECONDS

    def ask(self, now: float) -> None:
        """Ask the service, unless it was asked less than a second ago or isn't up."""
        if self.asked_at is None and self.service.is_open() and not self.is_fresh(now):
            self.asked_at = now
            self.service.ask(b"metrics", self.hear)

    def renew(self, now: float) -> None:
        """Ask a service that has just come up: older figures are another one's."""
        self.asked_at = now
        self.service.ask(b"metrics", self.hear)

    def want(self, now: float, hear: Hear) -> None:
        """Tell figures: those that are there, or new ones where the service tells them within a moment.

        Parameters
        ----------
        now
            The time.
        hear
            Gets the figures and their age in seconds; None where none were told since the gate began.
        """
        if not self.is_fresh(now) and not self.service.is_held_up():
            self.ask(now)
        if self.is_fresh(now) or self.asked_at is None or self.service.is_held_up():
            hear(self.told, now - self.at)
        else:
            self.waiting.append((now + PATIENCE_SECONDS, hear))

    def hear(self, answer: bytes, now: float) -> None:
        """The service's answer."""
        try:
            told = json.loads(answer)
            if not isinstance(told, dict):
                raise ValueError(answer)
        except ValueError:
            return self.service.end_by_force()
        self.told, self.at = told, self.asked_at or now
        self.tell_all(now)

    def tell_all(self, now: float) -> None:
        """Nothing newer comes soon: whoever waits gets what there is. The next question may go."""
        self.asked_at = None
        waiting, self.waiting = self.waiting, []
        for _, hear in waiting:
            hear(self.told, now - self.at)

    def tell_the_patient(self, now: float) -> None:
        """Whoever has waited for a moment gets what there is."""
        while self.waiting and self.waiting[0][0] <= now:
            self.waiting.pop(0)[1](self.told, now - self.at)

    def until(self) -> Optional[float]:
        """When somebody has waited for long enough."""
        return self.waiting[0][0] if self.waiting else None
