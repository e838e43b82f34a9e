"""What stands behind a packet in a datagram.

A datagram is a packet of 43 bytes and a payload of up to 1,400 bytes. The payload's first byte says what it is, its
next two bytes are a UDP port of the destination's host, or, where it asks for an answer, of the sender's host:

====  =======  ==========================================================================================
Byte  Kind     Behind the port
====  =======  ==========================================================================================
0     DATA     anything: the destination's router gives the datagram to its host
1     ECHO     an address of 42 bytes, to which the destination's router answers ARRIVED; then anything
2     ARRIVED  the node that answers (2 bytes), a reason (1), the packet as it came (43), what was sent
3     TRACE    as ECHO; each router on the way answers PASSED, too
4     PASSED   as ARRIVED
5     LOST     as ARRIVED: the router that dropped an ECHO or a TRACE says why
====  =======  ==========================================================================================
"""

from __future__ import annotations

from dataclasses import dataclass

from hizmorke.errors import BadLength, Refused
from hizmorke.tables import ADDRESS_LENGTH, PACKET_LENGTH, Packet

MOST_PAYLOAD = 1_400
"""The most bytes behind a packet."""

DATA, ECHO, ARRIVED, TRACE, PASSED, LOST = range(6)

REASONS = (
    "length",
    "generation_gone",
    "generation_not_yet",
    "stray",
    "spent",
    "no_node",
    "bad_count",
    "bad_padding",
    "table",
    "no_wire",
    "busy",
    "failed",
)
"""Why routers drop datagrams, under the names of their counters. In LOST the reason is the place here, from 1 on."""

_ANSWER_FRONT = 6


def data(port: int, content: bytes) -> bytes:
    """A payload for a port of the destination's host.

    Parameters
    ----------
    port : int
        The port.
    content : bytes
        What is for it, 1,397 bytes at most.

    Raises
    ------
    BadLength
        It is longer.

    Examples
    --------
    >>> data(9000, b"hello").hex()
    '00232868656c6c6f'
    """
    return _fitting(bytes([DATA]) + port.to_bytes(2, "big") + content)


def asking(kind: int, port: int, address: bytes, content: bytes = b"") -> bytes:
    """A payload that is answered to an address.

    Parameters
    ----------
    kind : int
        `ECHO` or `TRACE`.
    port : int
        The port of the sender's host to which answers go.
    address : bytes
        The sender's address, 42 bytes.
    content : bytes
        What comes back with each answer.

    Raises
    ------
    BadLength
        It has more than 1,400 bytes, or the address not 42.
    """
    if len(address) != ADDRESS_LENGTH:
        raise BadLength()
    return _fitting(bytes([kind]) + port.to_bytes(2, "big") + address + content)


def _fitting(payload: bytes) -> bytes:
    if len(payload) > MOST_PAYLOAD:
        raise BadLength(f"a payload has {MOST_PAYLOAD} bytes at most")
    return payload


@dataclass(frozen=True)
class Answer:
    """What a router answered.

    Attributes
    ----------
    kind : int
        `ARRIVED`, `PASSED` or `LOST`.
    node : int
        Whose router it is.
    reason : str or None
        Why the packet was dropped, of `LOST`.
    came : Packet
        The packet as it came there.
    content : bytes
        What was sent to be given back.
    packet : Packet
        The packet of the answer itself, as it came here.
    """

    kind: int
    node: int
    reason: str | None
    came: Packet
    content: bytes
    packet: Packet


def answer_of(datagram: bytes) -> Answer | None:
    """The answer in a datagram, None where it holds none.

    Parameters
    ----------
    datagram : bytes
        What a host was given.
    """
    front, payload = datagram[:PACKET_LENGTH], datagram[PACKET_LENGTH:]
    end = _ANSWER_FRONT + PACKET_LENGTH
    if len(payload) < end or payload[0] not in (ARRIVED, PASSED, LOST):
        return None
    reason = payload[5]
    try:
        packet, came = Packet(front), Packet(payload[_ANSWER_FRONT:end])
    except Refused:
        return None
    why = REASONS[reason - 1] if payload[0] == LOST and 0 < reason <= len(REASONS) else None
    return Answer(payload[0], int.from_bytes(payload[3:5], "big"), why, came, payload[end:], packet)
