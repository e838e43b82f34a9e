"""A replica: a device of its own behind a live service, which makes each edit of the log once.

An edit's ticket is its revision in etcd, in session 63, so after any end the replica goes on behind ``resume 63``. What
came of an edit is put into the log by the first replica that knows; another one that comes to something else ends. Only
the replica edits its device.
"""

from __future__ import annotations

import threading
import time
from collections.abc import Callable, Sequence
from concurrent.futures import Future
from contextlib import suppress

from hizmorke.device import Device, pairs_of_text
from hizmorke.errors import AnswerNotUnderstood, DeviceInUse
from hizmorke.fleet.errors import EtcdRefused, EtcdUnreachable, ReplicasDiffer
from hizmorke.fleet.etcd import Etcd, KeyValue
from hizmorke.fleet.log import PREFIX, SHARED, VAGUE, Places, agrees, ops_of
from hizmorke.service import Service

SESSION = 63
"""The session of a replica's edits."""

BATCH = 512
"""So many edits are read at a time."""

OUTCOMES = 64
"""So many outcomes are put at a time; etcd takes 128 operations."""

# So far back outcomes may be missing after an end: more than were ever in flight.
_BACK = 4 * BATCH


class Replica:
    """Follows the log.

    Parameters
    ----------
    etcd : Etcd
        The cluster.
    service : Service
        The device's service. Where it ends, the replica has to be made anew.
    prefix : str
        What the log's keys begin with.
    made : dict
        Edits that the device's journal has: the count of each by its revision.

    Attributes
    ----------
    position : int
        The revision of the last edit that is settled here.
    edits : int
        How many were settled here since the start.
    """

    def __init__(
        self, etcd: Etcd, service: Service, prefix: str = PREFIX, made: dict[int, int] | None = None
    ) -> None:
        self.etcd = etcd
        self.places = Places(prefix)
        self.edits = 0
        self._made = {} if made is None else made
        # One connection for good: over a new one an edit could come before those whose answers were lost.
        self._connection = service._live()
        self.position = pairs_of_text(self._connection.ask(f"resume {SESSION}"))["ticket"]
        self._is_begun = False
        self._untold: list[tuple[KeyValue, str]] = []

    def begin(self) -> None:
        """Tells what came of edits that were settled before this start, and of which no replica had told.

        A second call does nothing.

        Raises
        ------
        ReplicasDiffer
            One was told otherwise.
        EtcdUnreachable, EtcdRefused
            Not all was told: call it again.
        """
        if not self._is_begun and self.position:
            rows, _ = self.etcd.range(self.places.edits, until=self.position, limit=_BACK, newest_first=True)
            oldest = min(self._made, default=self.position + 1)
            self._untold = []
            for row, shares in _in_order(rows):
                _, wrong = ops_of(row.value)
                if shares or wrong is not None:
                    text = SHARED if shares else wrong or ""
                elif row.revision in self._made:
                    text = f"accepted count={self._made[row.revision]}"
                else:
                    # The journal begins with a checkpoint: what is older may have been made.
                    text = "refused" if row.revision > oldest else VAGUE
                self._untold.append((row, text))
        self._is_begun = True
        self._tell()

    def step(self, seconds: float = 1.0) -> int:
        """Settles the next edits of the log. It answers how many; 0 where none has come in this time.

        Parameters
        ----------
        seconds : float
            So long is waited for one.

        Raises
        ------
        EtcdUnreachable, EtcdRefused
            Nothing was settled, or what was isn't told yet: the next call tells it.
        ServiceEnded, ReplicasDiffer, AnswerNotUnderstood
            The replica can't go on.
        """
        self.begin()
        rows, revision = self.etcd.range(self.places.edits, after=self.position, limit=BATCH)
        if not rows:
            self.etcd.wait(self.places.edits, revision, seconds)
            return 0
        if len(rows) == BATCH and rows[0].revision != rows[-1].revision:
            # What the last revision put may go on behind the limit.
            rows = [row for row in rows if row.revision < rows[-1].revision]
        asked: list[tuple[KeyValue, str | Future[str]]] = []
        for row, shares in _in_order(rows):
            ops, wrong = ops_of(row.value)
            if shares:
                asked.append((row, SHARED))
            elif wrong is not None:
                asked.append((row, wrong))
            else:
                asked.append((row, self._connection.send(f"edit {SESSION} {row.revision} {ops}")))
        self._untold = [(row, text if isinstance(text, str) else _outcome(row, text.result())) for row, text in asked]
        self.position = rows[-1].revision
        self.edits += len(rows)
        self._tell()
        return len(rows)

    def _tell(self) -> None:
        while self._untold:
            self._tell_some(self._untold[:OUTCOMES])
            del self._untold[:OUTCOMES]

    def _tell_some(self, settled: Sequence[tuple[KeyValue, str]]) -> None:
        """Puts outcomes, and compares those that are there."""
        left = list(settled)
        while left:
            rows = [(self.places.outcome_of(row.key), text.encode()) for row, text in left]
            _, there = self.etcd.put_all_if_absent(rows)
            if not there:
                return
            missing = []
            for (row, text), (key, value), found in zip(left, rows, there):
                if found is None:
                    missing.append((row, text))
                    continue
                told = found.value.decode("utf-8", "replace")
                if not agrees(text, told):
                    raise ReplicasDiffer(
                        f"the replicas differ: edit {row.key.decode('utf-8', 'replace')} at revision {row.revision}"
                        f" came to `{text}` here, and `{told}` was told before"
                    )
                if told != text and text != VAGUE and told in (VAGUE, "refused") and text != "refused":
                    self.etcd.put_if(key, value, found.value)
            left = missing


def _in_order(rows: Sequence[KeyValue]) -> list[tuple[KeyValue, bool]]:
    """The edits in the order of their revisions, and whether one before it was put by the same revision."""
    found: list[tuple[KeyValue, bool]] = []
    for row in sorted(rows, key=lambda row: (row.revision, row.key)):
        found.append((row, bool(found) and found[-1][0].revision == row.revision))
    return found


def _outcome(row: KeyValue, answer: str) -> str:
    front = f"{SESSION} {row.revision} "
    text = answer[len(front):]
    if not answer.startswith(front) or not text.startswith(("accepted count=", "refused op=")):
        raise AnswerNotUnderstood(f"the service said of the edit at revision {row.revision}: {answer}")
    return text


def made_of(device: Device) -> dict[int, int]:
    """The counts of the edits that a device's journal has, by their revisions.

    Parameters
    ----------
    device : Device
        The device, which no other command has open.
    """
    return {entry.ticket: entry.count for entry in device.journal() if entry.session == SESSION}


def opened(device: str, words: str, rounds: int | None = None, seconds: float = 30.0) -> tuple[Service, dict[int, int]]:
    """A service for a replica, and the edits that its device's journal had before.

    Where a replica was ended by -9, its service holds the device until it has seen that: so long this waits.

    Parameters
    ----------
    device : str
        The device's file.
    words : str
        Landmark words.
    rounds : int, optional
        As `Service` takes it.
    seconds : float
        So long is waited for the device.

    Raises
    ------
    DeviceInUse, NotFormatted, LayoutNotKnown, Damaged, DeviceFailed, FileUnusable
        The device can't be opened.
    """
    end = time.monotonic() + seconds
    while True:
        try:
            made = made_of(Device(device))
            return Service(device, words, editors=SESSION + 1, rounds=rounds), made
        except DeviceInUse:
            if time.monotonic() > end:
                raise
            time.sleep(0.1)


def follow(replica: Replica, ended: threading.Event, told: Callable[[str], None]) -> None:
    """Follows the log until it is told to end. While etcd is gone it waits, and says so.

    Parameters
    ----------
    replica : Replica
        Who follows.
    ended : Event
        When it is set, this ends within a second or two.
    told : callable
        What is to be told goes there, a line each.

    Raises
    ------
    ReplicasDiffer, ServiceEnded, AnswerNotUnderstood
        It can't go on.
    """
    is_gone = False
    while not ended.is_set():
        try:
            replica.step(0.5)
            if is_gone:
                told("etcd answers again")
            is_gone = False
        except (EtcdUnreachable, EtcdRefused) as error:
            if not is_gone:
                told(str(error))
            is_gone = True
            ended.wait(0.5)


def all_told(etcd: Etcd, prefix: str = PREFIX, seconds: float = 60.0) -> bool:
    """Waits until the log says of each edit what came of it, also where etcd doesn't answer meanwhile. It answers
    whether that is so.

    Parameters
    ----------
    etcd : Etcd
        The cluster.
    prefix : str
        What the log's keys begin with.
    seconds : float
        So long is waited.
    """
    places, end = Places(prefix), time.monotonic() + seconds
    while time.monotonic() < end:
        with suppress(EtcdUnreachable):
            edits = etcd.range(places.edits)[0]
            outcomes = {row.key for row in etcd.range(places.outcomes)[0]}
            if all(places.outcome_of(row.key) in outcomes for row in edits):
                return True
        time.sleep(0.2)
    return False
