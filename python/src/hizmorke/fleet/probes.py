"""Payloads from a node to a node: sent, asked back, and traced.

The sender is this machine: it has the node's own table, launches by it, and gives the datagram to the node's router.
Answers come to a UDP port of its own.
"""

from __future__ import annotations

import os
import socket
import time
from collections.abc import Iterator
from dataclasses import dataclass
from pathlib import Path

from hizmorke.fleet import payloads
from hizmorke.fleet.payloads import Answer
from hizmorke.fleet.wires import Wires
from hizmorke.tables import Address, Packet, Table

_TRIES = 50


def tables_of_pair(folder: str | os.PathLike[str], sender: int, destination: int) -> tuple[Table, Table]:
    """The tables of two nodes, of one generation. While tables are handed out it waits for that.

    Parameters
    ----------
    folder : path
        Where they are.
    sender, destination : int
        The nodes.

    Raises
    ------
    FileUnusable
        One isn't there.
    NoTable, VersionNotKnown, CutShort, TooLong, TableDamaged, NotInOrder
        One is none.
    """
    for _ in range(_TRIES):
        pair = tuple(Table.open(Path(folder) / f"{node}.table") for node in (sender, destination))
        if pair[0].info.generation == pair[1].info.generation:
            break
        time.sleep(0.05)
    return pair[0], pair[1]


class Prober:
    """Sends from one node to another, and hears answers.

    Parameters
    ----------
    wires : Wires
        Where the routers are.
    folder : path
        Where the tables are.
    sender : int
        The node that sends. Its host is this machine.
    destination : int or Address
        The node to which it sends, whose table is in the folder, or an address.

    Raises
    ------
    NoWire
        The sender has none.
    Unreachable, NoNode
        The address can't be sent to.
    """

    def __init__(
        self, wires: Wires, folder: str | os.PathLike[str], sender: int, destination: int | Address
    ) -> None:
        self.wire = wires.of(sender)
        if isinstance(destination, Address):
            self.table = Table.open(Path(folder) / f"{sender}.table")
            self.to = destination
        else:
            self.table, other = tables_of_pair(folder, sender, destination)
            self.to = other.address()
        self.own = self.table.address()
        self.packet: Packet = self.table.launch(self.to)
        self._socket = socket.socket(socket.AF_INET, socket.SOCK_DGRAM)
        self._socket.bind((self.wire.to, 0))
        self.port: int = self._socket.getsockname()[1]

    def __enter__(self) -> Prober:
        return self

    def __exit__(self, *_: object) -> None:
        self._socket.close()

    def send(self, payload: bytes) -> int:
        """Gives a datagram to the sender's router. It answers how many bytes it has.

        Parameters
        ----------
        payload : bytes
            What is behind the packet.
        """
        return self._socket.sendto(self.packet + payload, self.wire.router)

    def ask(self, kind: int, content: bytes) -> None:
        """Sends a payload that is answered.

        Parameters
        ----------
        kind : int
            `payloads.ECHO` or `payloads.TRACE`.
        content : bytes
            What comes back with each answer.
        """
        self.send(payloads.asking(kind, self.port, self.own, content))

    def hear(self, content: bytes, timeout: float) -> Iterator[tuple[float, Answer]]:
        """The answers to what was asked with this content, each with its moment, until the time is over.

        Parameters
        ----------
        content : bytes
            What was asked.
        timeout : float
            So many seconds are waited for answers.
        """
        end = time.monotonic() + timeout
        while (left := end - time.monotonic()) > 0:
            self._socket.settimeout(left)
            try:
                datagram = self._socket.recv(2_048)
            except OSError:
                return
            found = payloads.answer_of(datagram)
            if found is not None and found.content[:len(content)] == content[:len(found.content)]:
                yield time.monotonic(), found

    def hops(self, packet: Packet) -> int:
        """How many hops a packet of this network has made.

        Parameters
        ----------
        packet : Packet
            The packet as it came.
        """
        return self.table.info.nodes - 1 - packet.hops_left


@dataclass(frozen=True)
class Echo:
    """What came of a ping.

    Attributes
    ----------
    sequence : int
        Its number, from 1.
    node : int or None
        The node that answered, or that dropped it; None where nobody answered.
    seconds : float or None
        Its round trip.
    there, back : int or None
        The hops there, and of the answer.
    lost : str or None
        Why it was dropped, where a router says so.
    """

    sequence: int
    node: int | None = None
    seconds: float | None = None
    there: int | None = None
    back: int | None = None
    lost: str | None = None

    def line(self) -> str:
        """What `hizmorke fleet ping` prints of it."""
        if self.node is None or self.seconds is None:
            return f"sequence={self.sequence} no answer"
        if self.lost is not None:
            return f"from {self.node}: sequence={self.sequence} lost: {self.lost}"
        hops = f"hops={self.there}+{self.back}"
        return f"from {self.node}: sequence={self.sequence} {hops} time={self.seconds * 1e3:.3f} ms"


def ping(prober: Prober, sequence: int, size: int = 16, timeout: float = 1.0) -> Echo:
    """One round trip.

    Parameters
    ----------
    prober : Prober
        Who sends.
    sequence : int
        Its number.
    size : int
        So many bytes come back with the answer, 12 at least.
    timeout : float
        So many seconds are waited.
    """
    content = (os.urandom(8) + sequence.to_bytes(4, "big")).ljust(size, b".")
    begun = time.monotonic()
    prober.ask(payloads.ECHO, content)
    for moment, answer in prober.hear(content, timeout):
        if answer.kind == payloads.ARRIVED:
            there, back = prober.hops(answer.came), prober.hops(answer.packet)
            return Echo(sequence, answer.node, moment - begun, there, back)
        if answer.kind == payloads.LOST:
            return Echo(sequence, answer.node, moment - begun, lost=answer.reason)
    return Echo(sequence)


@dataclass(frozen=True)
class Stop:
    """A router on a packet's way.

    Attributes
    ----------
    hops : int
        How many hops the packet had made.
    node : int
        The router's node.
    seconds : float
        When its answer came.
    end : str or None
        ``arrived`` at the destination, or why it was dropped there; None where it went on.
    """

    hops: int
    node: int
    seconds: float
    end: str | None

    def line(self) -> str:
        """What `hizmorke fleet trace` prints of it."""
        end = "" if self.end is None else f" {self.end}"
        return f"{self.hops} node {self.node} {self.seconds * 1e3:.3f} ms{end}"


def trace(prober: Prober, timeout: float = 1.0) -> list[Stop]:
    """The way of a packet, by what its routers answer: those whose answers came, in the order of the way.

    Parameters
    ----------
    prober : Prober
        Who sends.
    timeout : float
        So many seconds are waited for answers; fewer where all have come.
    """
    content = os.urandom(12)
    begun = time.monotonic()
    stops: dict[int, Stop] = {}
    prober.ask(payloads.TRACE, content)
    for moment, answer in prober.hear(content, timeout):
        end = {payloads.ARRIVED: "arrived", payloads.LOST: f"lost: {answer.reason}"}.get(answer.kind)
        hops = prober.hops(answer.came)
        stops[hops] = Stop(hops, answer.node, moment - begun, end)
        last = max(stops)
        if stops[last].end is not None and len(stops) == last + 1:
            break
    return [stops[hops] for hops in sorted(stops)]
