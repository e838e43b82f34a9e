"""Where a picture's network comes from: a device at rest, of which a copy is read, or a live service behind a gate.

A service tells no list of its edges, and nothing is asked of it that writes. So its network is the one of a device that
is named beside it, a backup of it; or else the edges that packets use, as their ways show them. Each edge that a packet
uses is a shortest way between its ends, so its weight is the length of the way from one to the other.
"""

from __future__ import annotations

import tempfile
from abc import ABC, abstractmethod
from collections.abc import Sequence
from concurrent.futures import Future
from contextlib import suppress
from dataclasses import dataclass
from functools import cached_property
from itertools import islice
from pathlib import Path
from typing import Union

from hizmorke.device import MOST_NODES, Device, Route, Words
from hizmorke.errors import ChangeRefused, DeviceInUse, HizmorkeError, NoNode, Refused, ServiceEnded
from hizmorke.names import DeviceNames, settle
from hizmorke.network import Network
from hizmorke.programs import Programs
from hizmorke.service import Service
from hizmorke.tables import Address
from hizmorke.view.jobs import Job
from hizmorke.view.packets import Carrier, ServiceCarrier
from hizmorke.view.ways import Ways, pair_of
from hizmorke.words import LandmarkWords, drawn_pairs

Change = Union[tuple[str, int, int], tuple[str, int, int, int]]
"""An operation: ``("add", 0, 1, 5)``, ``("set", 0, 1, 5)`` or ``("cut", 0, 1)``."""

DRAWN = "draw:7"
"""The landmark words of the choice `draw`."""

# Of a service's network the ways of all pairs are asked for where they are no more than this, else of so
# many drawn ones.
_MOST_WAYS = 20_000
# So many lines are on their way at once, so that a gate's other clients have their turn.
_AT_ONCE = 256


@dataclass(frozen=True)
class Held:
    """A network as it was read at one moment.

    Attributes
    ----------
    network : Network
        Its nodes, edges and names.
    count : int
        How many changes made it.
    told : str
        Where its edges come from, in words; empty where they are all that there are.
    device : Device or None
        A private device that holds just this; None where there is none yet.
    landmarks : tuple of int or None
        The landmarks of the service behind it.
    """

    network: Network
    count: int
    told: str = ""
    device: Device | None = None
    landmarks: tuple[int, ...] | None = None

    @cached_property
    def ways(self) -> Ways:
        """Its distances."""
        return Ways(self.network)


@dataclass(frozen=True)
class Outcome:
    """What became of a change.

    Attributes
    ----------
    session, ticket : int
        The session and ticket that it was sent under.
    text : str
        ``accepted``, or why not.
    made : bool
        Whether it was made.
    count : int or None
        Its number, if it was made.
    """

    session: int
    ticket: int
    text: str
    made: bool
    count: int | None = None


class Source(ABC):
    """A network, and what may be done with it.

    Attributes
    ----------
    title : str
        What it is called.
    service : Service or None
        The live service.
    choices : tuple of str
        The landmarks that may be chosen.
    start : str
        The one that a page begins with.
    can_edit : bool
        Whether changes may be sent.
    """

    def __init__(self, title: str, programs: Programs, choices: tuple[str, ...], can_edit: bool) -> None:
        self.title, self.programs, self.choices, self.can_edit = title, programs, choices, can_edit
        self.start = "draw" if choices[0] == "none" else choices[0]
        self.service: Service | None = None
        self._room = tempfile.TemporaryDirectory(prefix="hizmorke-view-", ignore_cleanup_errors=True)
        self._made = 0

    @abstractmethod
    def read(self, job: Job) -> Held:
        """Reads the network anew."""

    @abstractmethod
    def edit(self, op: Change) -> Outcome:
        """Makes a change of one operation."""

    def carrier(self, choice: str) -> Carrier | None:
        """What carries packets under a choice without tables of its own; None where tables have to be built."""
        return None

    def words(self, choice: str, held: Held) -> LandmarkWords:
        """The landmark words of a choice.

        Parameters
        ----------
        choice : str
            One of `choices`.
        held : Held
            The network, of which `device` is there.
        """
        nodes = held.network.node_count
        if choice == "draw":
            return LandmarkWords.parse(DRAWN, nodes)
        if choice == "hubs":
            return LandmarkWords.of_nodes(held.ways.hubs(), nodes)
        if choice == "best":
            assert held.device is not None
            try:
                text = held.device.landmarks()
            except Refused as refused:
                # The limit wasn't kept: these are the best that were found.
                found = getattr(refused, "words", None)
                if not isinstance(found, str):
                    raise
                text = found
            return LandmarkWords.parse(text, nodes)
        return LandmarkWords.parse("none", nodes)

    def place(self, name: str) -> Path:
        """A path for a new file or folder, private to this process and gone at the end."""
        self._made += 1
        return Path(self._room.name) / f"{name}-{self._made}"

    def private(self, network: Network) -> Device:
        """A private device that holds a network."""
        device = Device(self.place("loaded"), self.programs)
        device.load(network)
        return device

    def close(self) -> None:
        """Ends what was begun, and deletes what was made."""
        self._room.cleanup()


class RestDevice(Source):
    """A device that no program has open. Only a copy of it is read, so its lock is held for a moment.

    Parameters
    ----------
    path : path
        The device's file.
    words : str or LandmarkWords, optional
        The landmark words that the page begins with.
    programs : Programs, optional
        Where the programs are.
    can_edit : bool
        Whether changes may be made: of the device itself.
    """

    def __init__(
        self, path: Path, words: Words | None = None, programs: Programs | None = None, can_edit: bool = False
    ) -> None:
        found = Programs() if programs is None else programs
        choices = ("none", "draw", "hubs", "best") if words is None else ("given", "none", "draw", "hubs", "best")
        super().__init__(path.name, found, choices, can_edit)
        self.device = Device(path, found)
        self._words = words

    def read(self, job: Job) -> Held:
        job.begin("copying the device")
        return _copied(self.device, Device(self.place("copy"), self.programs))

    def words(self, choice: str, held: Held) -> LandmarkWords:
        if choice == "given":
            return LandmarkWords.parse(str(self._words), held.network.node_count)
        return super().words(choice, held)

    def edit(self, op: Change) -> Outcome:
        kept = DeviceNames.read(self.device.path)
        if kept.is_laid:
            settle(self.device.path, kept)
        ticket = self.device.resume(0) + 1
        try:
            count = self.device.edit([op], session=0, ticket=ticket)
        except ChangeRefused as refused:
            return Outcome(0, ticket, f"refused: {refused.reason}", False)
        return Outcome(0, ticket, "accepted", True, count)


def _copied(device: Device, copy: Device) -> Held:
    """What a device holds, by a copy; it has its names beside it."""
    device.copy(copy.path)
    network, count = copy.show(), copy.info().count
    network.names = DeviceNames.read(device.path, network, count).names
    return Held(network, count, device=copy)


Place = Union[str, tuple[str, int]]
"""A gate's Unix socket, or its host and port."""


class LiveService(Source):
    """A live service behind a gate.

    Parameters
    ----------
    place : str or tuple
        The gate's Unix socket, or its host and port.
    token : str, optional
        The gate's token, where it asks for one.
    device : path, optional
        A backup of the network; or the device that is served, of which only the names are read then.
    programs : Programs, optional
        Where the programs are.
    name : str, optional
        The name by which changes are sent; without one none can be sent.
    """

    def __init__(
        self,
        place: Place,
        token: str | None = None,
        device: Path | None = None,
        programs: Programs | None = None,
        name: str | None = None,
    ) -> None:
        title = place if isinstance(place, str) else f"{place[0]}:{place[1]}"
        found = Programs() if programs is None else programs
        super().__init__(title, found, ("service", "none", "draw", "hubs", "best"), name is not None)
        self.device = None if device is None else Device(device, found)
        try:
            self.service = Service.connect(place, name, token=token, timeout=3.0)
        except BaseException:
            super().close()
            raise

    def carrier(self, choice: str) -> Carrier | None:
        return ServiceCarrier(self._service) if choice == "service" else None

    def words(self, choice: str, held: Held) -> LandmarkWords:
        if choice == "service":
            return LandmarkWords.of_nodes(held.landmarks or (), held.network.node_count)
        return super().words(choice, held)

    def read(self, job: Job) -> Held:
        names: list[str] | None = None
        copied: Held | None = None
        if self.device is not None:
            job.begin("copying the device")
            try:
                copied = _copied(self.device, Device(self.place("copy"), self.programs))
            except DeviceInUse:
                names = DeviceNames.read(self.device.path).names
        job.begin("asking for addresses")
        addresses = addresses_of(self._service)
        landmarks = tuple(sorted({each.landmark for each in addresses if each.landmark is not None}))
        if copied is not None and self.device is not None:
            return Held(copied.network, copied.count, f"edges of {self.device.path.name}", copied.device, landmarks)
        count = self._service.state().generation
        edges, ways = edges_of(self._service, len(addresses), job)
        network = Network(len(addresses), edges, None if names is None else names[: len(addresses)])
        return Held(network, count, f"edges that {ways:,} packets use", None, landmarks)

    @property
    def session(self) -> int | None:
        """The session in which changes are sent."""
        return self._service.session

    def edit(self, op: Change) -> Outcome:
        try:
            [edited] = self._service.edits([[op]], in_flight=1)
        except ServiceEnded as ended:
            # Before it is sent no ticket is known. Behind that it was made whole, or not at all.
            if ended.session is None or ended.ticket is None:
                raise
            return Outcome(ended.session, ended.ticket, "not known: the service was lost before it answered", False)
        if edited.refused is not None:
            return Outcome(edited.session, edited.ticket, f"refused: {edited.refused.reason}", False)
        return Outcome(edited.session, edited.ticket, "accepted", True, edited.count)

    @property
    def _service(self) -> Service:
        assert self.service is not None
        return self.service

    def close(self) -> None:
        with suppress(HizmorkeError, OSError):
            self._service.close()
        super().close()


def addresses_of(service: Service) -> list[Address]:
    """The address of each node of a service's network."""
    # The number of nodes isn't told: it is the first one that has no address.
    least, most = 1, MOST_NODES + 1
    while least < most:
        middle = (least + most) // 2
        try:
            service.address(middle - 1)
            least = middle + 1
        except NoNode:
            most = middle
    return [_address(answer) for answer in _answers(service, [f"address {node}" for node in range(least - 1)])]


def _address(answer: str) -> Address:
    return Address.from_hex(answer.partition(" address=")[2])


def _answers(service: Service, lines: Sequence[str]) -> list[str]:
    """The answers to lines that change nothing, some of them on their way at once."""
    asked: list[Future[str]] = []
    found: list[str] = []
    rest = iter(lines)
    while True:
        asked += [service.send(line) for line in islice(rest, _AT_ONCE - len(asked))]
        if not asked:
            return found
        found.append(asked.pop(0).result())


def edges_of(service: Service, node_count: int, job: Job) -> tuple[list[tuple[int, int, int]], int]:
    """The edges that packets of a service use, with their weights.

    Parameters
    ----------
    service : Service
        The service.
    node_count : int
        How many nodes there are.
    job : Job
        Is told how far it is.

    Returns
    -------
    tuple
        The edges, ascending, and how many packets' ways they come from.
    """
    if node_count * (node_count - 1) <= _MOST_WAYS:
        pairs = [(a, b) for a in range(node_count) for b in range(node_count) if a != b]
    else:
        pairs = drawn_pairs(1, node_count, _MOST_WAYS)
    done = 0
    job.begin("asking for the ways of packets", lambda: done / max(1, len(pairs)))
    seen: set[tuple[int, int]] = set()
    for at in range(0, len(pairs), _AT_ONCE):
        for route in service.routes(pairs[at:at + _AT_ONCE]):
            nodes = () if route is None else route.nodes
            seen.update(pair_of(a, b) for a, b in zip(nodes, nodes[1:]))
        done += _AT_ONCE
    ends = sorted(seen)
    job.begin("asking for weights")
    there, back = service.routes(ends), service.routes((b, a) for a, b in ends)
    return [(a, b, _shorter(one, other)) for (a, b), one, other in zip(ends, there, back)], len(pairs)


def _shorter(one: Route | None, other: Route | None) -> int:
    """The length of the shorter way; 1 where a change has cut both meanwhile."""
    return min((route.length for route in (one, other) if route is not None), default=1)
