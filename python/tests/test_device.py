"""Devices: each command by a call, and each refusal as an exception."""

from __future__ import annotations

import os
from collections.abc import Callable
from pathlib import Path

import pytest

from hizmorke import errors
from hizmorke.device import (
    Check,
    Device,
    Entry,
    Holding,
    Info,
    Route,
    State,
    TableFiles,
    operation_text,
    pairs_of_text,
    route_of_text,
)
from hizmorke.network import Network
from hizmorke.programs import Completed, Programs, fault_of


@pytest.fixture
def device(found: Programs, tmp_path: Path) -> Device:
    """Five nodes."""
    made = Device(tmp_path / "net", found)
    made.format(5)
    return made


def test_a_first_tour(device: Device) -> None:
    # As in docs/OPERATING.md.
    assert device.edit(["add:0:1:1"]) == 1
    with pytest.raises(errors.ChangeRefused) as refused:
        device.edit([("add", 1, 2, 1), ("add", 1, 0, 2)])
    assert (refused.value.op, refused.value.code) == (1, 4)
    assert device.show() == Network(5, [(0, 1, 1)])
    assert device.edit([("add", 1, 2, 1)], session=3, ticket=1) == 2
    with pytest.raises(errors.AlreadyIn):
        device.edit([("add", 1, 2, 1)], session=3, ticket=1)
    assert (device.resume(3), device.resume(0), device.resume(9)) == (1, 1, 0)
    assert device.state() == State(2, 2)
    assert device.journal() == [Entry(1, 0, 1, ("add:0:1:1",)), Entry(2, 3, 1, ("add:1:2:1",))]
    assert device.journal(1) == [Entry(2, 3, 1, ("add:1:2:1",))]
    assert device.info() == Info(5, 2, 2, 2, 0, 1, 2, 1_048_575 - 52, {0: 1, 3: 1})
    assert device.route([(0, 2), (2, 0), (0, 4)], "at:1") == [Route(2, (0, 1, 2), 2), Route(2, (2, 1, 0), 2), None]
    assert device.route([(0, 4)], "at:1") == [None]
    assert device.route([], "at:1") == []
    assert device.check("at:1") == Check(2, 1)


def test_tables_and_copies(device: Device, tmp_path: Path) -> None:
    device.edit(["add:0:1:1", "add:1:2:1"])
    folder = tmp_path / "tables"
    folder.mkdir()
    written = device.tables(folder, "at:1")
    sizes = [(folder / f"{node}.table").stat().st_size for node in range(5)]
    assert written == TableFiles(1, 5, sum(sizes), max(sizes))
    assert device.tables(folder, "at:1", nodes=[4]).tables == 1
    with pytest.raises(errors.NoNode):
        device.tables(folder, "at:1", nodes=[5])
    with pytest.raises(errors.TableFileUnwritable):
        device.tables(tmp_path / "no", "at:1")
    assert device.copy(tmp_path / "copy") == State(1, 2)
    assert Device(tmp_path / "copy", device.programs).show() == device.show()
    with pytest.raises(errors.FileUnusable):
        device.copy(tmp_path / "copy")


def test_words_that_are_not_understood(device: Device) -> None:
    for words in ("every", "at:5", "draw:x"):
        for call in (device.check, lambda words: device.route([(0, 1)], words)):
            with pytest.raises(errors.WordsNotUnderstood, match="^words not understood$") as refused:
                call(words)
            assert refused.value.status == 2
    with pytest.raises(errors.NoNode, match="net: no node$"):
        device.route([(0, 5)], "none")


@pytest.mark.parametrize(
    ("ops", "how", "kind"),
    [
        (["add:0:1"], {}, errors.OperationNotUnderstood),
        (["add:0:1:1"] * 17, {}, errors.ChangeTooLong),
        (["add:0:1:1"], {"session": 64}, errors.UsageNotUnderstood),
        (["add:0:1:1"], {"ticket": 0}, errors.UsageNotUnderstood),
        ([], {}, errors.UsageNotUnderstood),
        (["add:0:0:1"], {}, errors.ChangeRefused),
    ],
)
def test_edits_that_are_not_made(
    device: Device, ops: list[str], how: dict[str, int], kind: type[errors.HizmorkeError]
) -> None:
    with pytest.raises(kind):
        device.edit(ops, **how)
    assert device.state() == State(0, 0)


def test_a_session_wears_out(device: Device) -> None:
    device.edit(["add:0:1:1"], session=1, ticket=2**63 - 1)
    with pytest.raises(errors.WornOut):
        device.edit(["add:1:2:1"], session=1)


def test_formats(found: Programs, tmp_path: Path) -> None:
    device = Device(tmp_path / "net", found)
    for nodes in (0, 16_385):
        with pytest.raises(errors.NodeCountOutOfRange):
            device.format(nodes, new=True)
        assert not device.path.exists()
    device.format(3, new=True)
    with pytest.raises(errors.FileExists, match="net: file exists"):
        device.format(4, new=True)
    assert device.info().nodes == 3
    device.format(4)
    assert device.info().nodes == 4
    with pytest.raises(errors.FileUnusable):
        Device(tmp_path / "no" / "net", found).format(3, new=True)


def test_what_is_wrong_with_a_file(device: Device, tmp_path: Path) -> None:
    content = device.path.read_bytes()
    other = Device(tmp_path / "other", device.programs)
    with pytest.raises(errors.FileUnusable, match="other: device file cannot be used"):
        other.info()
    for changed, kind in (
        (b"", errors.NotFormatted),
        (b"t" + content[1:], errors.NotFormatted),
        (content[:7] + b"1" + content[8:], errors.LayoutNotKnown),
        (content[:-1], errors.Damaged),
    ):
        other.path.write_bytes(changed)
        for call in (other.info, other.show, other.journal, other.landmarks, lambda: other.check("none")):
            with pytest.raises(kind) as refused:
                call()
            assert refused.value.path == str(other.path)
    with pytest.raises(errors.LayoutNotKnown):
        device.migrate(tmp_path / "new")


def test_a_device_in_use(device: Device) -> None:
    import fcntl

    with open(device.path, "rb") as file:
        fcntl.flock(file, fcntl.LOCK_EX)
        for call in (device.info, device.show, lambda: device.edit(["add:0:1:1"])):
            with pytest.raises(errors.DeviceInUse):
                call()
    device.edit(["add:0:1:1"])


def test_names_beside_a_device(device: Device) -> None:
    device.edit(["add:0:1:1"])
    Path(f"{device.path}.names").write_text("Bern\nThun\n")
    shown = device.show()
    assert shown.names == ["Bern", "Thun"] and shown.name_of(4) == "#4"


def test_a_path_that_looks_like_an_option(found: Programs, tmp_path: Path, monkeypatch: pytest.MonkeyPatch) -> None:
    monkeypatch.chdir(tmp_path)
    device = Device("--net", found)
    device.format(2)
    device.edit(["add:0:1:1"])
    assert device.copy("-copy") == State(1, 1)
    assert Device("-copy", found).info().edges == 1


def test_landmarks(device: Device) -> None:
    device.edit([f"add:{node}:{node + 1}:1" for node in range(4)])
    # As in conformance/landmarks.txt.
    assert device.landmarks(seed=2, start="draw") == "at:3"
    assert device.landmarks(seed=2, start="degree") == "at:1,3"
    with pytest.raises(errors.LimitNotKept) as refused:
        device.landmarks(seed=2, start="none", most=1, most_entries=3)
    assert refused.value.words == "at:2"
    assert str(refused.value) == f"{device.path}: the largest table has 4 entries and members, 1 more than 3"
    with pytest.raises(errors.NotUnderstood, match="--start takes best, none, draw or degree") as not_understood:
        device.landmarks(start="middle")
    assert not_understood.value.status == 2


def test_loads_a_file(loading: Programs, tmp_path: Path) -> None:
    rows, device = tmp_path / "rows", Device(tmp_path / "net", loading)
    rows.write_text("# a list\n\n0 1 5\n2\t1\t7\n")
    assert device.load(rows) == Holding(1, 2, 3)
    assert device.show().ascending() == [(0, 1, 5), (1, 2, 7)]
    with pytest.raises(errors.FileExists, match="net: file exists"):
        device.load(rows)
    rows.write_text("0 1 5\n1 2 0\n")
    wrong = Device(tmp_path / "wrong", loading)
    with pytest.raises(errors.HizmorkeError) as refused:
        wrong.load(rows)
    assert (refused.value.path, refused.value.line) == (str(rows), 2)
    assert not wrong.path.exists()


def test_loads_and_shows_a_network(
    loading: Programs, tmp_path: Path, drawn_edges: Callable[[int, int, int], list[tuple[int, int, int]]]
) -> None:
    network = Network(60, drawn_edges(55, 200, 3))
    device = Device(tmp_path / "net", loading)
    assert device.load(network) == Holding(13, 200, 60)
    assert device.show().edges == network.ascending()
    assert device.resume(0) == 13
    bare = Device(tmp_path / "bare", loading)
    assert bare.load(Network(3, [])) == Holding(0, 0, 3)
    assert Device(tmp_path / "more", loading).load(network, nodes=99).nodes == 99


def test_grows(loading: Programs, tmp_path: Path) -> None:
    device = Device(tmp_path / "net", loading)
    device.load(Network(3, [(0, 1, 5)]))
    try:
        grown = device.grow(tmp_path / "grown", 9)
    except errors.NotUnderstood:
        pytest.skip("tzlab has no command grow yet")
    assert grown == Holding(1, 1, 9)
    assert Device(tmp_path / "grown", loading).info().tickets == {0: 1}


def test_many_pairs_in_one_call(device: Device) -> None:
    device.edit(["add:0:1:1"])
    ways = device.route([(0, 1), (1, 0)] * 5_000, "none")
    assert len(ways) == 10_000 and {way.nodes for way in ways if way} == {(0, 1), (1, 0)}


def test_texts_of_programs() -> None:
    assert operation_text("cut:0:1") == "cut:0:1" == operation_text(("cut", 0, 1))
    assert pairs_of_text("ok generation=2 landmarks=x k=") == {"generation": 2}
    with pytest.raises(errors.NoNode):
        route_of_text("no node")
    with pytest.raises(errors.AnswerNotUnderstood, match="generation=2"):
        route_of_text("generation=2 walk 0 1")
    assert type(fault_of("tznode", 1, "tznode: device in use\n")) is errors.DeviceInUse
    assert str(fault_of("tzlab", 1, "tzlab: d: damaged\n", "d")) == "d: damaged"
    assert str(fault_of("tznode", -9, "")) == "tznode: it was ended by signal 9"
    assert str(fault_of("tznode", 3, "tznode: strange\n")) == "tznode: strange"
    assert str(Completed("tznode", 1, "", "warning\ntznode: worn out\nnote\n").fault("d")) == "d: worn out"


def test_where_programs_are_looked_for(tmp_path: Path, monkeypatch: pytest.MonkeyPatch) -> None:
    first, second, third = tmp_path / "first", tmp_path / "second", tmp_path / "third"
    for folder in (first, second, third):
        folder.mkdir()
    monkeypatch.setenv("HIZMORKE_PROGRAMS", str(second))
    monkeypatch.setenv("PATH", str(third))
    with pytest.raises(errors.ProgramMissing) as missing:
        Programs(first).path("no-such-program")
    assert missing.value.places[:3] == (str(first), str(second), "PATH")
    for folder in (third, second, first):
        program = folder / "no-such-program"
        program.write_text("#!/bin/sh\necho $0 $1; cat; echo said >&2; exit 3\n")
        with pytest.raises(errors.ProgramMissing) if folder is third else open(os.devnull):
            Programs(first).path("no-such-program")
        program.chmod(0o755)
        assert Programs(first).path("no-such-program") == program
    monkeypatch.setenv("PATH", f"{third}:/usr/bin:/bin")
    assert Programs(first).run("no-such-program", ["x"], "in\n") == Completed(
        "no-such-program", 3, f"{program} x\nin\n", "said\n"
    )
