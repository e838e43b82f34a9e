"""Tables, packets and addresses: over a stand-in of the C library that tells what it was given, and over the library
itself."""

from __future__ import annotations

import ctypes
import mmap
import os
import shutil
import subprocess
import threading
from collections.abc import Callable
from pathlib import Path

import pytest
from hypothesis import given
from hypothesis import strategies as some

from hizmorke import errors, tables
from hizmorke.device import Device
from hizmorke.programs import Programs
from hizmorke.tables import Address, Hop, Library, Packet, Table, carry, read_tables

TOP = Path(__file__).resolve().parents[2]

# It answers as the table's first byte says: 0 that all is well, else the refusal of this number. The table's place in
# memory is its generation, and the calls write what can be told from what they were given.
STAND_IN = """
#include <string.h>
#include <tz.h>
static int32_t told(const uint8_t *table, size_t table_len) { return table_len && table[0] < 0x80 ? -table[0] : 0; }
int32_t tz_table_check(const uint8_t *table, size_t table_len) {
    return table_len && table[0] > 6 ? 0 : told(table, table_len);
}
int32_t tz_table_info(const uint8_t *table, size_t table_len, struct tz_info *info) {
    *info = (struct tz_info){(uint64_t)(uintptr_t)table, (uint32_t)table_len, 1, 2, 3, 4};
    return told(table, table_len);
}
int32_t tz_neighbour(const uint8_t *table, size_t table_len, uint32_t port, uint32_t *node) {
    *node = port + 100;
    return told(table, table_len);
}
int32_t tz_address(const uint8_t *table, size_t table_len, uint8_t *address, size_t address_len) {
    if (address_len != TZ_ADDRESS_LENGTH) return TZ_NO_ROOM;
    memset(address, 0, address_len);
    address[9] = 7;
    return told(table, table_len);
}
int32_t tz_launch(const uint8_t *table, size_t table_len, const uint8_t *address, size_t address_len,
                  uint8_t *packet, size_t packet_len) {
    if (packet_len != TZ_PACKET_LENGTH) return TZ_NO_ROOM;
    if (address_len != TZ_ADDRESS_LENGTH) return TZ_BAD_LENGTH;
    memset(packet, 0, packet_len);
    memcpy(packet, address, 10);
    packet[15] = 2;
    return told(table, table_len);
}
int32_t tz_hop(const uint8_t *table, size_t table_len, const uint8_t *in, size_t in_len, uint8_t *out, size_t out_len,
               uint32_t *port,
               uint32_t *next) {
    if (out_len != TZ_PACKET_LENGTH) return TZ_NO_ROOM;
    if (in_len != TZ_PACKET_LENGTH) return TZ_BAD_LENGTH;
    if (told(table, table_len)) return told(table, table_len);
    if (in[15] == 0) return 0;
    memcpy(out, in, in_len);
    out[15]--;
    *port = 5;
    *next = 6;
    return 1;
}
"""


@pytest.fixture(scope="session")
def shared(tmp_path_factory: pytest.TempPathFactory) -> Path:
    """The stand-in."""
    if shutil.which("cc") is None:
        pytest.skip("there is no C compiler")
    folder = tmp_path_factory.mktemp("library")
    (folder / "tz.c").write_text(STAND_IN)
    call = ["cc", "-shared", "-fPIC", "-Wall", "-Werror", "-I", TOP / "include", "-o", folder / "libtz.so"]
    subprocess.run([*call, folder / "tz.c"], check=True)
    return folder / "libtz.so"


@pytest.fixture(scope="session")
def stand_in(shared: Path) -> Library:
    return Library(shared)


@pytest.fixture(scope="session")
def library() -> Library:
    """The library itself."""
    try:
        return Library()
    except errors.LibraryMissing as missing:
        pytest.skip(str(missing))


GOOD = bytes(9)


def test_what_is_given_and_what_comes_back(stand_in: Library) -> None:
    table = Table(GOOD, stand_in)
    info = table.info
    assert (info.nodes, info.node, info.ports, info.entries, info.members) == (9, 1, 2, 3, 4)
    assert repr(info) == f"TableInfo(generation={info.generation}, nodes=9, node=1, ports=2, entries=3, members=4)"
    assert table.neighbour(3) == 103
    address = table.address()
    assert type(address) is Address and address == bytes(9) + b"\7" + bytes(32) and address.node == 7
    packet = table.launch(address)
    assert type(packet) is Packet and (packet.destination, packet.hops_left) == (7, 2)
    hop = table.hop(packet)
    assert hop == Hop(5, 6, Packet(packet[:15] + b"\1" + packet[16:]))
    assert hop is not None and type(hop.packet) is Packet
    assert table.hop(Packet(packet[:15] + b"\0" + packet[16:])) is None
    for given in (address[:-1], address + b"\0", b""):
        with pytest.raises(errors.BadLength):
            table.launch(given)
    with pytest.raises(errors.BadLength):
        table.hop(packet[:-1])


@pytest.mark.parametrize("number", range(1, 7))
def test_bytes_that_are_no_table(stand_in: Library, number: int) -> None:
    with pytest.raises(errors.Refused) as refused:
        Table(bytes([number]), stand_in)
    assert refused.value.number == number and type(refused.value) is type(errors.error_of_number(number))


@pytest.mark.parametrize("number", [*range(7, 17), 99])
def test_refusals_of_calls(stand_in: Library, number: int) -> None:
    table = Table(bytes([number]), stand_in)
    calls: list[Callable[[], object]] = [lambda: table.info, lambda: table.neighbour(0), table.address]
    calls += [lambda: table.launch(bytes(42)), lambda: table.hop(bytes(43))]
    for call in calls:
        with pytest.raises(errors.Refused) as refused:
            call()
        assert refused.value.number == (number if number < 17 else 0)


def test_no_copy_is_made(stand_in: Library, tmp_path: Path) -> None:
    content = bytearray(GOOD)
    place = ctypes.addressof((ctypes.c_ubyte * 9).from_buffer(content))
    assert Table(content, stand_in).info.generation == place
    assert Table(memoryview(content), stand_in).info.generation == place
    fixed = bytes(100)
    assert Table(fixed, stand_in).info.generation == ctypes.cast(ctypes.c_char_p(fixed), ctypes.c_void_p).value
    (tmp_path / "file").write_bytes(GOOD)
    with open(tmp_path / "file", "r+b") as file:
        mapped = mmap.mmap(file.fileno(), 0)
    assert Table(mapped, stand_in).info.generation == ctypes.addressof((ctypes.c_ubyte * 9).from_buffer(mapped))
    # Bytes that may only be read, and aren't bytes, are copied.
    assert Table(memoryview(GOOD), stand_in).info.nodes == 9
    assert Table(b"", stand_in).info.nodes == 0 and Table(bytearray(), stand_in).info.nodes == 0


def test_a_table_in_a_file(stand_in: Library, tmp_path: Path) -> None:
    file = tmp_path / "0.table"
    with pytest.raises(errors.FileUnusable, match="0.table: No such file or directory"):
        Table.open(file, stand_in)
    file.write_bytes(b"")
    assert Table.open(file, stand_in).info.nodes == 0
    file.write_bytes(GOOD)
    table = Table.open(file, stand_in)
    # The file is replaced, and the map keeps its bytes.
    (tmp_path / "new").write_bytes(b"\7" + GOOD)
    os.replace(tmp_path / "new", file)
    assert table.info.nodes == 9
    file.write_bytes(b"\1")
    with pytest.raises(errors.NoTable):
        Table.open(file, stand_in)


def test_where_the_library_is_looked_for(shared: Path, monkeypatch: pytest.MonkeyPatch, tmp_path: Path) -> None:
    first, second = str(tmp_path / "first"), str(tmp_path / "second")
    with monkeypatch.context() as patch:
        patch.setattr(tables, "checkout", lambda: None)
        patch.setenv("HIZMORKE_LIBRARY", first)
        patch.setenv("TZ_LIBRARY", second)

        def missing_object(place: str) -> None:
            raise OSError(place)

        patch.setattr(tables.ctypes, "CDLL", missing_object)
        with pytest.raises(errors.LibraryMissing) as missing:
            Library(tmp_path / "given")
    assert missing.value.places == (str(tmp_path / "given"), first, second, "the loader's path")
    monkeypatch.setenv("HIZMORKE_LIBRARY", first)
    monkeypatch.setenv("TZ_LIBRARY", str(shared))
    assert Table(GOOD, Library()).info.nodes == 9


def test_a_shared_object_is_made_of_the_archive(shared: Path, tmp_path: Path) -> None:
    archive = tmp_path / "libtz.a"
    assert tables._made_of(archive) is None
    call = ["cc", "-c", "-fPIC", "-I", TOP / "include", "-o", tmp_path / "tz.o", shared.with_name("tz.c")]
    subprocess.run(call, check=True)
    subprocess.run(["ar", "rc", archive, tmp_path / "tz.o"], check=True)
    made = tables._made_of(archive)
    assert made == tmp_path / "libtz.so" and Table(GOOD, Library(made)).info.nodes == 9
    before = made.stat().st_mtime_ns
    assert tables._made_of(archive) == made and made.stat().st_mtime_ns == before
    os.utime(archive, ns=(before + 10**9, before + 10**9))
    tables._made_of(archive)
    assert made.stat().st_mtime_ns != before
    archive.write_bytes(b"no archive")
    os.utime(archive, ns=(before + 10**12, before + 10**12))
    assert tables._made_of(archive) is None
    assert sorted(path.name for path in tmp_path.iterdir()) == ["libtz.a", "libtz.so", "tz.o"]


# Packets and addresses, as docs/FORMATS.md has their bytes.


def test_a_packet_of_the_pages() -> None:
    content = (7).to_bytes(8, "big") + bytes([0, 4, 0, 2, 1, 3, 0, 9, 2, 0, 1, 1, 0]) + bytes(22)
    packet = Packet(content)
    assert (packet.generation, packet.destination, packet.root) == (7, 4, 2)
    assert (packet.label, packet.hops_left, packet.ports) == (259, 9, (1, 256))
    assert Packet.from_hex(content.hex().upper()) == content
    assert Packet(content[:16] + b"\x0d" + bytes(26)).ports == (0,) * 13


@pytest.mark.parametrize(
    ("content", "kind"),
    [
        (bytes(42), errors.BadLength),
        (bytes(44), errors.BadLength),
        (bytes(16) + b"\x0e" + bytes(26), errors.BadCount),
        (bytes(42) + b"\1", errors.BadPadding),
        (bytes(16) + b"\1\0\0\1" + bytes(23), errors.BadPadding),
    ],
)
def test_bytes_that_are_no_packet(content: bytes, kind: type[errors.Refused]) -> None:
    with pytest.raises(kind):
        Packet(content)


@given(some.binary(min_size=43, max_size=43), some.integers(0, 16), some.integers(0, 43))
def test_what_a_packet_is(content: bytes, count: int, zeros: int) -> None:
    content = (content[:16] + bytes([count]) + content[17:])[:43 - zeros] + bytes(zeros)
    count = content[16]
    is_packet = count <= 13 and not any(content[17 + 2 * count:])
    if is_packet:
        packet = Packet(content)
        assert packet.generation == int.from_bytes(content[:8], "big") and len(packet.ports) == count
        assert b"".join(port.to_bytes(2, "big") for port in packet.ports) == content[17:17 + 2 * count]
    else:
        with pytest.raises(errors.BadCount if count > 13 else errors.BadPadding):
            Packet(content)


def test_an_address_of_the_pages() -> None:
    # The path 0 1 2 3 4 with landmark 2: the address of 4 is landmark 2, number 4, and one light port, 1.
    address = Address((1).to_bytes(8, "big") + bytes([0, 4, 1, 0, 2, 0, 4, 1, 0, 1]) + bytes(24))
    assert (address.generation, address.node, address.landmark, address.label, address.ports) == (1, 4, 2, 4, (1,))
    bare = Address((1).to_bytes(8, "big") + bytes([0, 3]) + bytes(32))
    assert (bare.node, bare.landmark, bare.label, bare.ports) == (3, None, None, ())
    with pytest.raises(errors.BadLength):
        Address.from_hex("0g")


@pytest.mark.parametrize(
    ("content", "kind"),
    [
        (bytes(41), errors.BadLength),
        (bytes(10) + b"\2" + bytes(31), errors.BadFlag),
        (bytes(41) + b"\1", errors.BadFlag),
        (bytes(10) + b"\0\0\1" + bytes(29), errors.BadFlag),
        (bytes(10) + b"\1" + bytes(4) + b"\x0e" + bytes(26), errors.BadCount),
        (bytes(10) + b"\1" + bytes(30) + b"\1", errors.BadPadding),
    ],
)
def test_bytes_that_are_no_address(content: bytes, kind: type[errors.Refused]) -> None:
    with pytest.raises(kind):
        Address(content)


# The library itself.


@pytest.fixture(scope="session")
def folder(
    found: Programs,
    tmp_path_factory: pytest.TempPathFactory,
    drawn_edges: Callable[[int, int, int], list[tuple[int, int, int]]],
) -> Path:
    """The tables of 24 nodes, of which two have no edge, and their device."""
    place = tmp_path_factory.mktemp("tables")
    device = Device(place / "net", found)
    device.format(24)
    edges = drawn_edges(22, 48, 7)
    for at in range(0, len(edges), 16):
        device.edit([("add", *edge) for edge in edges[at:at + 16]])
    device.tables(place, "draw:7")
    return place


def test_ways_are_those_of_the_program(library: Library, folder: Path, found: Programs) -> None:
    nodes = range(24)
    own = read_tables(folder, library)
    assert [table.info.node for table in own] == list(nodes)
    pairs = [(a, b) for a in nodes for b in nodes]
    for (a, b), route in zip(pairs, Device(folder / "net", found).route(pairs, "draw:7")):
        if route is None:
            with pytest.raises(errors.Unreachable):
                list(carry(own, a, b))
        else:
            assert tuple(carry(own, a, b)) == route.nodes


def test_the_bytes_of_the_library(library: Library, folder: Path) -> None:
    content = (folder / "5.table").read_bytes()
    table = Table(content, library)
    assert table.address() == content[20:62] == Address(content[20:62])
    info = table.info
    assert (info.generation, info.nodes, info.node) == (3, 24, 5)
    assert [table.neighbour(port) for port in range(info.ports)] == [
        int.from_bytes(content[at:at + 2], "big") for at in range(64, 64 + 2 * info.ports, 2)
    ]
    with pytest.raises(errors.NoPort):
        table.neighbour(info.ports)
    with pytest.raises(errors.NoPort):
        table.neighbour(2**32 - 1)
    with pytest.raises(errors.NoNode):
        table.launch(content[20:28] + b"\0\x18" + bytes(32))
    with pytest.raises(errors.BadFlag):
        table.launch(content[20:30] + b"\2" + bytes(31))
    with pytest.raises(errors.Stray):
        table.hop(bytes(8) + b"\0\5\0\5\0\0\xff\xff" + bytes(27))


@pytest.mark.parametrize(
    ("change", "kind"),
    [
        (lambda content: content[:7], errors.NoTable),
        (lambda content: b"X" + content[1:], errors.NoTable),
        (lambda content: content[:7] + b"2" + content[8:], errors.VersionNotKnown),
        (lambda content: content[:-1], errors.CutShort),
        (lambda content: content + b"\0", errors.TooLong),
        (lambda content: content[:9] + b"\1" + content[10:], errors.TableDamaged),
    ],
)
def test_tables_that_are_refused(
    library: Library, folder: Path, change: Callable[[bytes], bytes], kind: type[errors.Refused]
) -> None:
    with pytest.raises(kind):
        Table(change((folder / "5.table").read_bytes()), library)


def test_a_folder_of_other_tables(library: Library, folder: Path, tmp_path: Path) -> None:
    for file in folder.glob("*.table"):
        shutil.copy(file, tmp_path)
    shutil.copy(folder / "5.table", tmp_path / "6.table")
    with pytest.raises(errors.FileUnusable, match="6.table: it is of another node, network or generation"):
        read_tables(tmp_path, library)


def test_many_threads_use_one_table(library: Library, folder: Path) -> None:
    own, wrong = read_tables(folder, library), []
    wanted = {(a, b): tuple(carry(own, a, b)) for a in range(6) for b in range(6)}

    def walk() -> None:
        for _ in range(30):
            wrong.extend(pair for pair, way in wanted.items() if tuple(carry(own, *pair)) != way)

    threads = [threading.Thread(target=walk) for _ in range(4)]
    for thread in threads:
        thread.start()
    for thread in threads:
        thread.join()
    assert wrong == []
