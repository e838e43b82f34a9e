"""What a live service does, each second: its figures by the line ``metrics``, and the last tickets of its sessions by
``resume``. Neither changes anything.
"""

from __future__ import annotations

import http.client
import socket
import threading
import time
from collections import deque
from concurrent.futures import TimeoutError as Late
from contextlib import suppress
from typing import Any

from hizmorke.errors import HizmorkeError, ServiceEnded
from hizmorke.service import Service
from hizmorke.view.sources import Outcome, Place

SESSIONS = 64
"""A gate's service has so many sessions."""

# So many seconds are kept, and so many changes.
_SECONDS, _CHANGES = 120, 50
# A service that doesn't answer for so long is lost, in seconds.
_PATIENCE = 2.0
# Nobody has asked for so long: nothing is asked for then.
_UNWATCHED = 15.0
_COUNTED = ("accepted", "refused", "route")
_SHOWN = ("count", "generation", "lacks", "queue", "waiting", "commit_median_us", "build_us")


class Watch:
    """A service's figures, and the changes that it takes.

    Parameters
    ----------
    place : str or tuple
        The gate's Unix socket, or its host and port.
    token : str, optional
        The gate's token, where it asks for one.
    own : int, optional
        The session of the page itself, whose changes are told by `add`.
    """

    def __init__(self, place: Place, token: str | None = None, own: int | None = None) -> None:
        self._place, self._token, self._own = place, token, own
        self._lock = threading.Lock()
        self._rows: deque[dict[str, float | None]] = deque(maxlen=_SECONDS)
        self._changes: deque[dict[str, Any]] = deque(maxlen=_CHANGES)
        self._tickets: dict[int, int] = {}
        self._last: tuple[float, dict[str, int]] | None = None
        self._lost: str | None = "nothing is known yet"
        self._lost_since = time.time()
        self._asked = time.monotonic()
        self._is_closed = threading.Event()
        self._service: Service | None = None
        self._thread = threading.Thread(target=self._run, name="hizmorke view watch", daemon=True)
        self._thread.start()

    def told(self) -> dict[str, Any]:
        """What a page shows: whether the service answers, its figures of the last seconds, the last changes first."""
        with self._lock:
            self._asked = time.monotonic()
            return {
                "ready": True,
                "lost": self._lost,
                "lost_seconds": 0 if self._lost is None else round(time.time() - self._lost_since),
                "rows": list(self._rows),
                "changes": list(self._changes)[::-1],
            }

    def add(self, outcome: Outcome) -> None:
        """A change that the page has sent."""
        self._add(outcome.session, outcome.ticket, outcome.ticket, outcome.text, outcome.count)

    def close(self) -> None:
        """Ends it."""
        self._is_closed.set()
        self._thread.join(2 * _PATIENCE)

    def _add(self, session: int, first: int, last: int, text: str, count: int | None = None) -> None:
        with self._lock:
            self._changes.append(
                {"at": time.time(), "session": session, "first": first, "last": last, "text": text, "count": count}
            )

    def _run(self) -> None:
        while not self._is_closed.wait(1.0):
            if time.monotonic() - self._asked > _UNWATCHED:
                continue
            try:
                self._look()
            except Late:
                self._lose("it doesn't answer")
            except (HizmorkeError, OSError, ValueError) as error:
                self._drop()
                self._lose(error.whole_text if isinstance(error, HizmorkeError) else str(error))
        self._drop()

    def _drop(self) -> None:
        service, self._service = self._service, None
        if service is not None:
            with suppress(HizmorkeError, OSError):
                # What it was asked may have no answer, which isn't waited for.
                threading.Thread(target=service.close, daemon=True).start()

    def _lose(self, text: str) -> None:
        with self._lock:
            if self._lost is None:
                self._lost_since = time.time()
            self._lost = text
            self._last = None

    def _look(self) -> None:
        if self._service is None:
            self._service = Service.connect(self._place, token=self._token, timeout=1.0)
        service, now = self._service, time.monotonic()
        end = now + _PATIENCE
        try:
            told = _metrics(service, end)
            if told.get("age_ms", 0) > 1_000 * _PATIENCE:
                self._lose(f"it hasn't answered for {told['age_ms'] // 1_000} seconds")
                return
            asked = [service.send(f"resume {session}") for session in range(SESSIONS)]
            answers = [each.result(max(0.0, end - time.monotonic())) for each in asked]
        except Late:
            # Answers that are missing come behind others: a new connection has none of them.
            self._drop()
            raise
        clients = figure_of_gate(self._place, self._token, "tzgate_clients")
        self._keep(now, told, clients)
        self._compare(answers)

    def _keep(self, now: float, told: dict[str, int], clients: float | None) -> None:
        row: dict[str, float | None] = {name: told.get(name) for name in _SHOWN}
        row["at"], row["clients"] = time.time(), clients
        before, self._last = self._last, (now, told)
        for name, counted in (("edits", _COUNTED[:2]), ("routes", _COUNTED[2:])):
            row[f"{name}_a_second"] = None
            if before is not None and all(told[each] >= before[1][each] for each in counted):
                more = sum(told[each] - before[1][each] for each in counted)
                row[f"{name}_a_second"] = more / max(0.001, now - before[0])
        with self._lock:
            self._lost = None
            self._rows.append(row)

    def _compare(self, answers: list[str]) -> None:
        """Tickets that have risen are changes: the last of them was accepted, those before it accepted or refused."""
        is_first = not self._tickets
        for session, answer in enumerate(answers):
            front, _, number = answer.partition(" ticket=")
            if front != f"session={session}" or not number.isdecimal():
                continue
            before, last = self._tickets.get(session, 0), int(number)
            self._tickets[session] = last
            if not is_first and last > before and session != self._own:
                self._add(session, before + 1, last, "accepted" if last == before + 1 else "settled, the last accepted")


def _metrics(service: Service, end: float) -> dict[str, int]:
    import json

    answer = service.send("metrics").result(max(0.0, end - time.monotonic()))
    if not answer.startswith("{"):
        raise ServiceEnded(answer)
    told: dict[str, int] = json.loads(answer)
    return told


def figure_of_gate(place: Place, token: str | None, name: str) -> float | None:
    """A figure of the gate itself, by its page ``/metrics``; None where it tells none.

    Parameters
    ----------
    place : str or tuple
        The gate.
    token : str, optional
        Its token.
    name : str
        The figure's name.
    """
    connection = http.client.HTTPConnection("localhost", timeout=1.0)
    try:
        if isinstance(place, str):
            connection.sock = socket.socket(socket.AF_UNIX, socket.SOCK_STREAM)
            connection.sock.settimeout(1.0)
            connection.sock.connect(place)
        else:
            connection.sock = socket.create_connection(place, 1.0)
        connection.request("GET", "/metrics", headers={} if token is None else {"Authorization": f"Bearer {token}"})
        text = connection.getresponse().read(1_000_000).decode("utf-8", "replace")
        found = dict(line.split(" ", 1) for line in text.splitlines() if " " in line and not line.startswith("#"))
        return float(found[name]) if name in found else None
    except (OSError, ValueError, http.client.HTTPException):
        return None
    finally:
        connection.close()
