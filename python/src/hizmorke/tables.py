"""Tables, packets and addresses: a node's forwarding by the C library of ``include/tz.h``.

`Table` is a node's own table, as ``tznode tables`` writes it. It launches packets and says over which port each goes
on. `Packet` and `Address` are the bytes that go over the network, which say what is in them.

The library is looked for in this order:

1. the file that the argument `library` names,
2. the file that the environment variable ``HIZMORKE_LIBRARY`` names, and then ``TZ_LIBRARY``,
3. ``libtz.so`` in the loader's path; `./install` puts ``libtz.a`` below its prefix, of which
   ``cc -shared -o libtz.so -Wl,--whole-archive libtz.a -Wl,--no-whole-archive`` makes it,
4. if the package lies in a checkout, ``crates/tz_c/out``, where `./forward --library` leaves the proved library
   ``libtz_c.a``, and then ``crates/tznode/out/unproved``, where `./conform --quick` leaves ``libtz.a``, of which
   nothing is proved. ``libtz.so`` is made of the archive by ``cc`` beside it, once, and again where it is older.
"""

from __future__ import annotations

import ctypes
import os
import subprocess
import tempfile
from collections.abc import Iterator, Sequence
from functools import lru_cache
from pathlib import Path
from typing import Any, NamedTuple, Union

from hizmorke.errors import (
    BadCount,
    BadFlag,
    BadLength,
    BadPadding,
    FileUnusable,
    LibraryMissing,
    error_of_number,
)
from hizmorke.programs import checkout

ADDRESS_LENGTH = 42
"""The bytes of an address."""

PACKET_LENGTH = 43
"""The bytes of a packet."""

MOST_PORTS = 13
"""A label has at most so many ports."""

Content = Union[bytes, bytearray, memoryview, Any]
"""Bytes, or any object that gives its memory as a buffer: a bytearray, a memoryview, a map of a file, a NumPy array."""


def _number(content: bytes, at: int, end: int) -> int:
    return int.from_bytes(content[at:end], "big")


def _ports(content: bytes, at: int) -> tuple[int, ...]:
    """The ports behind their number, which is the byte in front of `at`."""
    count = content[at - 1]
    return tuple(_number(content, place, place + 2) for place in range(at, at + 2 * count, 2))


def _refuse_ports(content: bytes, at: int) -> None:
    if content[at - 1] > MOST_PORTS:
        raise BadCount()
    if any(content[at + 2 * content[at - 1]:]):
        raise BadPadding()


class Packet(bytes):
    """A packet: 43 bytes that say where they go.

    Parameters
    ----------
    content : bytes
        The 43 bytes.

    Raises
    ------
    BadLength, BadCount, BadPadding
        They are no packet.

    Examples
    --------
    >>> packet = Packet.from_hex("0000000000000007000400020004000401" + "0001" + 48 * "0")
    >>> packet.generation, packet.destination, packet.root, packet.label, packet.hops_left, packet.ports
    (7, 4, 2, 4, 4, (1,))
    """

    def __new__(cls, content: Content) -> Packet:
        packet = super().__new__(cls, content)
        if len(packet) != PACKET_LENGTH:
            raise BadLength()
        _refuse_ports(packet, 17)
        return packet

    @classmethod
    def from_hex(cls, digits: str) -> Packet:
        """A packet as services and routers print it: 86 hex digits."""
        return cls(_of_hex(digits))

    @property
    def generation(self) -> int:
        """The number of changes that made the network."""
        return _number(self, 0, 8)

    @property
    def destination(self) -> int:
        """The node that it goes to."""
        return _number(self, 8, 10)

    @property
    def root(self) -> int:
        """The root of the tree that it goes in."""
        return _number(self, 10, 12)

    @property
    def label(self) -> int:
        """The number of its label: the destination's in the tree."""
        return _number(self, 12, 14)

    @property
    def hops_left(self) -> int:
        """How many hops it may still make."""
        return _number(self, 14, 16)

    @property
    def ports(self) -> tuple[int, ...]:
        """The ports of its label, at most 13."""
        return _ports(self, 17)


class Address(bytes):
    """An address of a node: 42 bytes.

    Parameters
    ----------
    content : bytes
        The 42 bytes.

    Raises
    ------
    BadLength, BadFlag, BadCount, BadPadding
        They are no address.

    Examples
    --------
    >>> address = Address.from_hex("000000000000000100040100020004010001".ljust(84, "0"))
    >>> address.node, address.landmark, address.label, address.ports
    (4, 2, 4, (1,))
    """

    def __new__(cls, content: Content) -> Address:
        address = super().__new__(cls, content)
        if len(address) != ADDRESS_LENGTH:
            raise BadLength()
        if address[10] > 1 or (address[10] == 0 and any(address[11:])):
            raise BadFlag()
        _refuse_ports(address, 16)
        return address

    @classmethod
    def from_hex(cls, digits: str) -> Address:
        """An address as services and routers print it: 84 hex digits."""
        return cls(_of_hex(digits))

    @property
    def generation(self) -> int:
        """The number of changes that made the network."""
        return _number(self, 0, 8)

    @property
    def node(self) -> int:
        """The node that it is of."""
        return _number(self, 8, 10)

    @property
    def landmark(self) -> int | None:
        """The node's nearest landmark, or None where no landmark reaches it."""
        return _number(self, 11, 13) if self[10] else None

    @property
    def label(self) -> int | None:
        """The number of the node's label in the landmark's tree, or None where no landmark reaches it."""
        return _number(self, 13, 15) if self[10] else None

    @property
    def ports(self) -> tuple[int, ...]:
        """The ports of that label, at most 13."""
        return _ports(self, 16)


class Hop(NamedTuple):
    """A packet goes on.

    Attributes
    ----------
    port : int
        The port over which it goes.
    next : int
        The node behind that port.
    packet : Packet
        What goes there.
    """

    port: int
    next: int
    packet: Packet


class TableInfo(ctypes.Structure):
    """What a table's head and counts say.

    Attributes
    ----------
    generation : int
        The number of changes that made the network.
    nodes, node : int
        How many nodes the network has, and whose table it is.
    ports, entries, members : int
        How many neighbours the node has, how many trees it is in, and how many nodes its directory lists.
    """

    generation: int
    nodes: int
    node: int
    ports: int
    entries: int
    members: int

    _fields_ = [("generation", ctypes.c_uint64)] + [
        (name, ctypes.c_uint32) for name in ("nodes", "node", "ports", "entries", "members")
    ]

    def __repr__(self) -> str:
        return "TableInfo(" + ", ".join(f"{name}={getattr(self, name)}" for name, _ in self._fields_) + ")"


class Library:
    """The C library, loaded.

    Parameters
    ----------
    library : path, optional
        The shared object. Else it is looked for as this module's page says.

    Raises
    ------
    LibraryMissing
        It isn't there, or can't be loaded. The text lists where it was looked for.
    """

    def __init__(self, library: str | os.PathLike[str] | None = None) -> None:
        self._loaded = _load(library)
        buffer, number = (ctypes.c_void_p, ctypes.c_size_t), ctypes.POINTER(ctypes.c_uint32)
        for name, words in (
            ("tz_table_check", ()),
            ("tz_table_info", (ctypes.POINTER(TableInfo),)),
            ("tz_neighbour", (ctypes.c_uint32, number)),
            ("tz_address", buffer),
            ("tz_launch", buffer + buffer),
            ("tz_hop", buffer + buffer + (number, number)),
        ):
            function = getattr(self._loaded, name)
            function.argtypes = buffer + words
            function.restype = ctypes.c_int32
            setattr(self, name[3:], function)

    table_check: Any
    table_info: Any
    neighbour: Any
    address: Any
    launch: Any
    hop: Any


def _load(library: str | os.PathLike[str] | None) -> ctypes.CDLL:
    places = []
    named = [None if library is None else os.fspath(library)]
    named += [os.environ.get(variable) for variable in ("HIZMORKE_LIBRARY", "TZ_LIBRARY")]
    for place in (*(place for place in named if place), "libtz.so"):
        places.append("the loader's path" if place == "libtz.so" else place)
        try:
            return ctypes.CDLL(place)
        except OSError:
            continue
    top = checkout()
    if top is not None:
        for archive in ("tz_c/out/libtz_c.a", "tznode/out/unproved/libtz.a"):
            places.append(str(top / "crates" / archive))
            shared = _made_of(top / "crates" / archive)
            if shared is not None:
                return ctypes.CDLL(str(shared))
    raise LibraryMissing(tuple(places))


def _made_of(archive: Path) -> Path | None:
    """The shared object beside the archive, made of it where it isn't there or is older; None where that can't be."""
    shared = archive.with_name("libtz.so")
    try:
        made = archive.stat().st_mtime_ns
        if shared.exists() and shared.stat().st_mtime_ns >= made:
            return shared
        # It comes whole under its name, whoever else makes it meanwhile.
        with tempfile.TemporaryDirectory(dir=archive.parent) as room:
            new = Path(room) / "libtz.so"
            whole = ["-Wl,--whole-archive", str(archive), "-Wl,--no-whole-archive"]
            subprocess.run(["cc", "-shared", "-o", str(new), *whole], check=True, capture_output=True)
            new.replace(shared)
        return shared
    except (OSError, subprocess.CalledProcessError):
        return None


@lru_cache(maxsize=1)
def default_library() -> Library:
    """The library that is found without an argument. It is loaded once."""
    return Library()


class Table:
    """A node's table. It is tested once, when it is made; bytes that are no table are refused.

    The bytes aren't copied, so nobody may write them afterwards. Any threads may use one table at once. A call goes by
    this table whatever generation an address or a packet names: launch and hop by the table of the same one.

    Parameters
    ----------
    content : bytes or buffer
        The table's bytes: bytes, or an object with a buffer of bytes that lie one behind the other. One that may only
        be read, and isn't bytes, is copied once.
    library : Library, optional
        The C library, else the one that is found.

    Raises
    ------
    NoTable, VersionNotKnown, CutShort, TooLong, TableDamaged, NotInOrder
        The bytes are no table: the first of these that holds.
    LibraryMissing
        The library isn't there.

    Examples
    --------
    >>> tables = read_tables("tables")                          # doctest: +SKIP
    >>> packet = tables[0].launch(tables[4].address())          # doctest: +SKIP
    >>> tables[0].hop(packet)                                   # doctest: +SKIP
    Hop(port=0, next=1, packet=...)
    """

    __slots__ = ("_content", "_library", "_length", "_memory")

    def __init__(self, content: Content, library: Library | None = None) -> None:
        self._library = default_library() if library is None else library
        self._content = content
        if isinstance(content, bytes):
            self._memory: Any = content
            self._length = len(content)
        else:
            view = memoryview(content).cast("B")
            self._length = view.nbytes
            if view.readonly:
                self._memory = bytes(view)
            elif self._length == 0:
                self._memory = b""
            else:
                self._memory = (ctypes.c_ubyte * self._length).from_buffer(view)
        self._ask(self._library.table_check)

    @classmethod
    def open(cls, path: str | os.PathLike[str], library: Library | None = None) -> Table:
        """The table in a file, which is mapped and not read. A table's file is replaced by a rename, so the map keeps
        its bytes.

        Parameters
        ----------
        path : path
            The file.
        library : Library, optional
            The C library.

        Raises
        ------
        FileUnusable
            It can't be read.
        NoTable, VersionNotKnown, CutShort, TooLong, TableDamaged, NotInOrder
            It holds no table.
        """
        import mmap

        try:
            with open(path, "rb") as file:
                if os.fstat(file.fileno()).st_size == 0:
                    return cls(b"", library)
                # A private map that may be written: a pointer into it is had without a copy.
                return cls(mmap.mmap(file.fileno(), 0, access=mmap.ACCESS_COPY), library)
        except OSError as error:
            raise FileUnusable(error.strerror, path=os.fspath(path)) from error

    def _ask(self, function: Any, *words: Any) -> int:
        answer: int = function(self._memory, self._length, *words)
        if answer < 0:
            raise error_of_number(-answer)
        return answer

    @property
    def info(self) -> TableInfo:
        """Whose table it is, and how much it has."""
        info = TableInfo()
        self._ask(self._library.table_info, info)
        return info

    def neighbour(self, port: int) -> int:
        """The neighbour behind a port.

        Parameters
        ----------
        port : int
            The port, counted from 0.

        Raises
        ------
        NoPort
            The node has no such port.
        """
        node = ctypes.c_uint32()
        self._ask(self._library.neighbour, port, node)
        return node.value

    def address(self) -> Address:
        """The node's own address, by which others send to it."""
        room = (ctypes.c_ubyte * ADDRESS_LENGTH)()
        self._ask(self._library.address, room, ADDRESS_LENGTH)
        return bytes.__new__(Address, room)

    def launch(self, address: bytes) -> Packet:
        """The packet that the node sends to an address.

        Parameters
        ----------
        address : bytes
            The 42 bytes of the address.

        Returns
        -------
        Packet
            Its 43 bytes: give them to `hop` at the same node.

        Raises
        ------
        Unreachable
            No way leads there.
        NoNode
            The network has no such node.
        BadLength, BadFlag, BadCount, BadPadding
            It is no address.
        """
        room = (ctypes.c_ubyte * PACKET_LENGTH)()
        self._ask(self._library.launch, address, len(address), room, PACKET_LENGTH)
        return bytes.__new__(Packet, room)

    def hop(self, packet: bytes) -> Hop | None:
        """Where a packet goes from here.

        Parameters
        ----------
        packet : bytes
            The 43 bytes of the packet.

        Returns
        -------
        Hop or None
            The port, the node behind it and the packet that goes there; None where it has arrived.

        Raises
        ------
        Stray, Spent, NoNode
            The packet is dropped.
        BadLength, BadCount, BadPadding
            It is no packet.
        """
        room = (ctypes.c_ubyte * PACKET_LENGTH)()
        port, node = ctypes.c_uint32(), ctypes.c_uint32()
        if self._ask(self._library.hop, packet, len(packet), room, PACKET_LENGTH, port, node) == 0:
            return None
        return Hop(port.value, node.value, bytes.__new__(Packet, room))


def read_tables(folder: str | os.PathLike[str], library: Library | None = None) -> list[Table]:
    """The tables ``0.table``, ``1.table``, .. of a folder: of all nodes of one network and one generation.

    Parameters
    ----------
    folder : path
        The folder.
    library : Library, optional
        The C library.

    Returns
    -------
    list of Table
        Node v's at place v.

    Raises
    ------
    FileUnusable
        A file can't be read, or is of another node, network or generation than ``0.table`` says.
    """
    place = Path(folder)
    tables = [Table.open(place / "0.table", library)]
    first = tables[0].info
    for node in range(first.nodes):
        path = place / f"{node}.table"
        if node > 0:
            tables.append(Table.open(path, library))
        info = tables[node].info
        if (info.node, info.nodes, info.generation) != (node, first.nodes, first.generation):
            raise FileUnusable("it is of another node, network or generation", path=str(path))
    return tables


def carry(tables: Sequence[Table], sender: int, destination: int) -> Iterator[int]:
    """The nodes that a packet comes to.

    Parameters
    ----------
    tables : sequence of Table
        Node v's at place v, all of one generation.
    sender, destination : int
        Two nodes.

    Yields
    ------
    int
        The nodes, from the sender to the destination.

    Raises
    ------
    Unreachable
        No way leads there.
    """
    packet: Packet = tables[sender].launch(tables[destination].address())
    at = sender
    yield at
    while (hop := tables[at].hop(packet)) is not None:
        _, at, packet = hop
        yield at


def _of_hex(digits: str) -> bytes:
    try:
        return bytes.fromhex(digits)
    except ValueError:
        raise BadLength() from None
