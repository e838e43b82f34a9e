"""Packets on their way: by a network's tables and the C library, or by a live service's lines. Nothing of the rules by
which nodes forward is written here again.
"""

from __future__ import annotations

from abc import ABC, abstractmethod
from collections.abc import Collection, Sequence
from dataclasses import dataclass
from pathlib import Path
from typing import TYPE_CHECKING, Any

from hizmorke.errors import GenerationGone, Refused, Unreachable
from hizmorke.tables import PACKET_LENGTH, Address, Hop, Packet, Table, TableInfo, carry
from hizmorke.view.ways import Pair, pair_of

if TYPE_CHECKING:
    from hizmorke.service import Service

FIELDS = (
    ("generation", 0, 8),
    ("destination", 8, 10),
    ("root", 10, 12),
    ("label", 12, 14),
    ("hops left", 14, 16),
    ("ports", 16, PACKET_LENGTH),
)
"""The parts of a packet: name, first byte, and the byte behind the last one."""

# How often a packet is sent anew where a service has forgotten its generation meanwhile.
_TRIES = 3


@dataclass(frozen=True)
class Step:
    """A packet at a node.

    Attributes
    ----------
    node : int
        Where it is.
    packet : Packet
        Its bytes, as they come there.
    port : int or None
        The port over which it goes on; None where it has arrived.
    next : int or None
        The node behind that port.
    """

    node: int
    packet: Packet
    port: int | None
    next: int | None

    def told(self) -> dict[str, Any]:
        """What a page shows of it."""
        packet = self.packet
        return {
            "node": self.node,
            "port": self.port,
            "next": self.next,
            "generation": packet.generation,
            "destination": packet.destination,
            "root": packet.root,
            "label": packet.label,
            "hops_left": packet.hops_left,
            "ports": packet.ports,
            "fields": [[name, packet[first:end].hex()] for name, first, end in FIELDS],
        }


class Carrier(ABC):
    """What launches packets and carries them on."""

    @abstractmethod
    def address(self, node: int) -> Address:
        """A node's own address."""

    @abstractmethod
    def launch(self, node: int, address: Address) -> Packet:
        """What a node sends to an address."""

    @abstractmethod
    def hop(self, node: int, packet: Packet) -> Hop | None:
        """Where a packet goes from a node; None where it has arrived."""

    @abstractmethod
    def info(self, node: int) -> tuple[TableInfo, int] | None:
        """What a node's table holds, and its bytes; None where that isn't known."""

    @abstractmethod
    def ways(self, sender: int, destinations: Sequence[int]) -> list[tuple[int, ...] | None]:
        """The nodes of each packet's way from one sender; None where no way leads there."""

    def steps(self, sender: int, destination: int) -> list[Step]:
        """A packet's way, with its bytes at each node.

        Raises
        ------
        Unreachable
            No way leads there.
        """
        for left in reversed(range(_TRIES)):
            try:
                return self._steps(sender, destination)
            except GenerationGone:
                if not left:
                    raise
        raise AssertionError

    def _steps(self, sender: int, destination: int) -> list[Step]:
        packet, at = self.launch(sender, self.address(destination)), sender
        found = []
        while (hop := self.hop(at, packet)) is not None:
            found.append(Step(at, packet, hop.port, hop.next))
            at, packet = hop.next, hop.packet
        found.append(Step(at, packet, None, None))
        return found


class TableCarrier(Carrier):
    """Packets by the tables in a folder, as ``tznode tables`` writes them. Each is opened when it is needed.

    Parameters
    ----------
    folder : path
        The folder of all nodes' tables.
    node_count : int
        How many nodes there are.
    """

    def __init__(self, folder: Path, node_count: int) -> None:
        self._folder = folder
        self._tables: list[Table | None] = [None] * node_count

    def __getitem__(self, node: int) -> Table:
        found = self._tables[node]
        if found is None:
            found = self._tables[node] = Table.open(self._folder / f"{node}.table")
        return found

    def __len__(self) -> int:
        return len(self._tables)

    def address(self, node: int) -> Address:
        return self[node].address()

    def launch(self, node: int, address: Address) -> Packet:
        return self[node].launch(address)

    def hop(self, node: int, packet: Packet) -> Hop | None:
        return self[node].hop(packet)

    def info(self, node: int) -> tuple[TableInfo, int] | None:
        return self[node].info, (self._folder / f"{node}.table").stat().st_size

    def ways(self, sender: int, destinations: Sequence[int]) -> list[tuple[int, ...] | None]:
        found: list[tuple[int, ...] | None] = []
        for destination in destinations:
            try:
                found.append(tuple(carry(self, sender, destination)))  # type: ignore[arg-type]
            except Unreachable:
                found.append(None)
        return found


class ServiceCarrier(Carrier):
    """Packets by the lines of a live service, which goes by its newest tables. No line of these changes anything.

    Parameters
    ----------
    service : Service
        The service.
    """

    def __init__(self, service: Service) -> None:
        self._service = service

    def address(self, node: int) -> Address:
        return self._service.address(node)

    def launch(self, node: int, address: Address) -> Packet:
        return self._service.launch(node, address)

    def hop(self, node: int, packet: Packet) -> Hop | None:
        return self._service.hop(node, packet)

    def info(self, node: int) -> tuple[TableInfo, int] | None:
        # The line that tells it writes files.
        return None

    def ways(self, sender: int, destinations: Sequence[int]) -> list[tuple[int, ...] | None]:
        routes = self._service.routes((sender, destination) for destination in destinations)
        return [None if route is None else route.nodes for route in routes]


def breaks_at(way: Sequence[int], failed: Collection[Pair]) -> int | None:
    """The place in a way from which a packet can't go on, since that edge has failed; None where it arrives.

    Examples
    --------
    >>> breaks_at([0, 1, 2], {(1, 2)}), breaks_at([0, 1], {(1, 2)})
    (1, None)
    """
    for place, (a, b) in enumerate(zip(way, way[1:])):
        if pair_of(a, b) in failed:
            return place
    return None


def refused_text(refused: Refused) -> str:
    """Why a packet isn't carried, as a page tells it."""
    return refused.text or str(refused)
