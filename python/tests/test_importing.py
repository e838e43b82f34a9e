"""Imports: what is undone and gone on with, and imports that are killed."""

from __future__ import annotations

import fcntl
import json
import os
import random
import signal
import subprocess
import sys
import time
from pathlib import Path

import pytest
from hypothesis import given
from hypothesis import strategies as st

from hizmorke.errors import NotUnderstood
from hizmorke.importing import CHANGED, Begun, Operation, changes_of, digest_of, operations_of, pair

SOURCE = Path(__file__).resolve().parents[1] / "src"


Edges = dict[tuple[int, int], int]


def edges_drawn() -> st.SearchStrategy[Edges]:
    """Edges between few nodes, the smaller node first, with their weights."""
    both = st.tuples(st.integers(0, 9), st.integers(0, 9)).filter(lambda ends: ends[0] < ends[1])
    return st.dictionaries(both, st.integers(1, 5))


def made(edges: Edges, change: list[Operation]) -> Edges:
    """Edges after a change."""
    return {**edges, **{pair(op.a, op.b): op.weight for op in change}}


@given(before=edges_drawn(), coming=edges_drawn(), done=st.integers(0, 3))
def test_undoes_what_was_made(before: Edges, coming: Edges, done: int) -> None:
    changes = changes_of(operations_of([(b, a, weight) for (a, b), weight in coming.items()], before))
    begun = Begun("digest", 0, digest_of(before), None, changes)
    edges = before
    for change in changes[:done]:
        edges = made(edges, list(change))
    assert begun.undone(edges, done) == before


@given(before=edges_drawn(), coming=edges_drawn())
def test_says_and_reads_itself(tmp_path_factory: pytest.TempPathFactory, before: Edges, coming: Edges) -> None:
    changes = changes_of(operations_of([(a, b, weight) for (a, b), weight in coming.items()], before))
    begun = Begun("a", 7, digest_of(before), "b", [list(change) for change in changes])
    path = tmp_path_factory.mktemp("begun") / "net.import"
    path.write_text(begun.text())
    assert Begun.read(path) == begun


def test_finds_what_was_changed_meanwhile() -> None:
    begun = Begun("a", 0, digest_of({(0, 1): 5}), None, [[Operation(1, 0, 7, 5)], [Operation(1, 2, 3)]])
    assert begun.undone({(0, 1): 7}, 1) == {(0, 1): 5}
    assert begun.undone({(0, 1): 7, (1, 2): 3}, 2) == {(0, 1): 5}
    # Another weight, and an edge that is gone.
    assert begun.undone({(0, 1): 6}, 1) is None
    assert begun.undone({(0, 1): 7}, 2) is None


@pytest.mark.parametrize(
    "text",
    [
        "",
        "{}\n",
        "no json\nadd:0:1:5\n",
        '{"digest": "a", "session": 0, "base": 0, "before": "b", "names": null, "changes": 2}\nadd:0:1:5\n',
        '{"digest": "a", "session": 0, "base": 0, "before": "b", "names": null, "changes": 1}\ncut:0:1\n',
        '{"digest": "a", "session": 0, "base": 0, "before": "b", "names": null, "changes": 1}\nset:0:1:5\n',
        '{"digest": "a", "session": 1, "base": 0, "before": "b", "names": null, "changes": 0}\n',
    ],
)
def test_reads_no_other_file(tmp_path: Path, text: str) -> None:
    path = tmp_path / "net.import"
    path.write_text(text)
    with pytest.raises(NotUnderstood, match="it says no import"):
        Begun.read(path)


# ---- imports that are killed

EDGES = 2_000
NODES = 300


def command(programs: Path, *words: str) -> list[str]:
    return [sys.executable, "-P", "-m", "hizmorke", *words]


def environment(programs: Path) -> dict[str, str]:
    return {**os.environ, "PYTHONPATH": str(SOURCE), "HIZMORKE_PROGRAMS": str(programs)}


def run(programs: Path, *words: str) -> subprocess.CompletedProcess[str]:
    """Runs the command, again where the service of a killed one still ends."""
    for _ in range(200):
        done = subprocess.run(
            command(programs, *words), env=environment(programs), capture_output=True, text=True, check=False
        )
        if "device in use" not in done.stderr:
            return done
        time.sleep(0.05)
    raise AssertionError(done.stderr)


def tznode(programs: Path, *words: str) -> str:
    return subprocess.run([programs / "tznode", *words], capture_output=True, text=True, check=True).stdout


def networks(folder: Path) -> tuple[Path, Path]:
    """A list of edges with names, and a second one that changes weights and adds edges and names."""
    draw = random.Random(7)
    pairs: dict[tuple[int, int], int] = {}
    while len(pairs) < EDGES:
        a, b = draw.sample(range(NODES - 50), 2)
        pairs[min(a, b), max(a, b)] = draw.randint(1, 1000)
    first, second = folder / "first", folder / "second"
    first.write_text("".join(f"n{a} n{b} {weight}\n" for (a, b), weight in pairs.items()))
    rows = [f"n{a} n{b} {draw.randint(1, 1000)}\n" for a, b in draw.sample(list(pairs), EDGES // 2)]
    rows += [f"n{draw.randrange(NODES - 50)} new{number} {number + 1}\n" for number in range(50)]
    draw.shuffle(rows)
    second.write_text("".join(rows))
    return first, second


def held(programs: Path, device: Path) -> tuple[str, str, str, list[str]]:
    """What a device holds, with its names, and which files stand beside it."""
    names = Path(f"{device}.names").read_text()
    beside = sorted(path.name.removeprefix(device.name) for path in device.parent.glob(f"{device.name}*"))
    return tznode(programs, "show", str(device)), tznode(programs, "resume", str(device), "0"), names, beside


def started(programs: Path, *words: str) -> subprocess.Popen[bytes]:
    """The command in a group of processes of its own."""
    null = subprocess.DEVNULL
    return subprocess.Popen(
        command(programs, *words), env=environment(programs), stdout=null, stderr=null, start_new_session=True
    )


def killed(process: subprocess.Popen[bytes], device: Path, moment: str, whole: bool) -> bool:
    """Kills an import, alone or with its service, and tells whether it was still at work."""
    word, seconds = moment.split(" ")
    sign = {"begun": Path(f"{device}.import"), "laid": Path(f"{device}.names.new"), "start": device}[word]
    while not sign.exists() and process.poll() is None:
        time.sleep(0.0005)
    time.sleep(float(seconds))
    try:
        if whole:
            os.killpg(process.pid, signal.SIGKILL)
        else:
            process.kill()
    except ProcessLookupError:
        pass
    return process.wait() != 0


MOMENTS = ["laid 0", "begun 0", "begun 0.02", "begun 0.08"]
MORE_MOMENTS = ["start 0.1", "start 0.3", "begun 0.01", "begun 0.04", "begun 0.15"]
# All moments, which take a minute or two, are tried where this is set.
IS_LONG = bool(os.environ.get("HIZMORKE_KILLS"))


@pytest.mark.parametrize(
    ("moment", "whole"),
    [(moment, whole) for moment in MOMENTS + MORE_MOMENTS for whole in (False, True)]
    if IS_LONG
    else [(moment, number % 2 > 0) for number, moment in enumerate(MOMENTS)],
)
def test_a_killed_import_goes_on(programs: Path, tmp_path: Path, moment: str, whole: bool) -> None:
    """One that is killed, alone or with its service, ends as one that isn't."""
    first, second = networks(tmp_path)
    (tmp_path / "a").mkdir()
    (tmp_path / "b").mkdir()
    want, device = tmp_path / "a" / "net", tmp_path / "b" / "net"
    for each in (want, device):
        done = run(programs, "import", str(each), str(first), "--nodes", str(NODES))
        assert done.returncode == 0, done.stderr
    words = ("import", str(device), str(second), "--update")
    assert run(programs, "import", str(want), str(second), "--update").returncode == 0

    process = started(programs, *words)
    was_at_work = killed(process, device, moment, whole)
    is_begun = Path(f"{device}.import").exists()
    if not was_at_work or not is_begun and run(programs, "show", str(device)).stdout.startswith("count=191 "):
        pytest.skip("all was in already")
    if is_begun:
        # Another import, and the same one by other options, are refused by name.
        for other in ((str(first), "--update"), (str(second), "--update", "--least")):
            refused = run(programs, "import", str(device), *other)
            assert refused.returncode == 1
            assert refused.stderr.startswith(f"hizmorke: {device}.import: another import was begun")
    done = run(programs, *words)
    assert done.returncode == 0, done.stderr
    assert done.stdout.split()[1:] == ["edges=2050", f"nodes={NODES}"]
    assert held(programs, device) == held(programs, want)


def ends_of(line: str) -> list[str]:
    return sorted(line.split()[:2])


@pytest.mark.parametrize("seconds", [0.1, 0.2, 0.25, 0.3, 0.35, 0.4, 0.5] if IS_LONG else [0.25, 0.4])
def test_a_killed_import_makes_a_device_whole_or_not_at_all(programs: Path, tmp_path: Path, seconds: float) -> None:
    first, _ = networks(tmp_path)
    device = tmp_path / "net"
    words = ("import", str(device), str(first), "--nodes", str(NODES))
    process = started(programs, *words)
    time.sleep(seconds)
    os.killpg(process.pid, signal.SIGKILL)
    process.wait()
    beside = Path(f"{device}.new")
    if beside.exists():
        # The device was half written. Nobody takes a file away that may be another's: it is named.
        refused = run(programs, *words)
        assert refused.returncode == 1
        assert refused.stderr.endswith(f"hizmorke: {device}: a file of this name and .new exists\n")
        beside.unlink()
    if not device.exists():
        assert run(programs, *words).returncode == 0
    shown = tznode(programs, "show", str(device))
    assert shown.startswith(f"count={EDGES // 16} edges={EDGES}\n")
    # Names that were laid count, so that all edges are called as in the list.
    called = run(programs, "show", str(device)).stdout.splitlines()[1:]
    assert sorted(map(ends_of, called)) == sorted(map(ends_of, first.read_text().splitlines()))


def killing(programs: Path, folder: Path, when: str) -> Path:
    """Programs of which ``tzlab load`` kills who runs it, instead of its work or behind it."""
    folder.mkdir()
    (folder / "tznode").symlink_to(programs / "tznode")
    load = f'"{programs}/tzlab" "$@" || exit'
    steps = [load] if when == "behind" else []
    lines = ["#!/bin/sh", f'[ "$1" = load ] || exec "{programs}/tzlab" "$@"', *steps, "kill -9 $PPID"]
    (folder / "tzlab").write_text("\n".join(lines) + "\n")
    (folder / "tzlab").chmod(0o755)
    return folder


LISTS = {
    "names": "a b 1\nb c 2\n",
    "numbers": "0 1 5\n3 2 7\n",
    "changes": "".join(f"n{node} n{node + 1} 7\n" for node in range(40)),
    "nodes": "# nodes=3\n# a\n# b\n# c\n",
}


@pytest.mark.parametrize(("rows", "when"), [*((rows, "behind") for rows in LISTS), ("names", "before")])
def test_an_import_that_was_killed_around_its_load_ends(
    programs: Path, tmp_path: Path, rows: str, when: str
) -> None:
    """The device is whole, and its names aren't in their place; or the names are laid, and there is no device."""
    list_ = tmp_path / "rows"
    list_.write_text(LISTS[rows])
    for folder in ("want", "have"):
        (tmp_path / folder).mkdir()
    want, have = tmp_path / "want" / "net", tmp_path / "have" / "net"
    whole = run(programs, "import", str(want), str(list_))
    words = ("import", str(have), str(list_))
    assert run(killing(programs, tmp_path / "killing", when), *words).returncode == -signal.SIGKILL
    assert Path(f"{have}.names.new").exists() and have.exists() == (when == "behind")
    done = run(programs, *words)
    assert (done.returncode, done.stdout) == (whole.returncode, whole.stdout) == (0, done.stdout)
    assert ("goes on behind change" in done.stderr) == (when == "behind")
    assert held(programs, have) == held(programs, want)
    assert have.read_bytes() == want.read_bytes()
    # It is whole now, so that the list is refused as it is behind any other import.
    if rows != "nodes":
        assert run(programs, *words).stderr == f"hizmorke: {list_}:1: the edge is there already\n"


def loaded_by_hand(programs: Path, folder: Path, rows: str, names: str) -> Path:
    """What an import leaves that is killed behind the load."""
    (folder / "plain").write_text(rows)
    device = folder / "net"
    subprocess.run([programs / "tzlab", "load", device, folder / "plain"], check=True, stdout=subprocess.DEVNULL)
    Path(f"{device}.names.new").write_text(names)
    return device


@pytest.mark.parametrize(
    ("rows", "names", "ops"),
    [
        # Another weight, other names, another change behind them, and the same edges by more changes.
        ("0 1 1\n1 2 3\n", "a\nb\nc\n", []),
        ("0 1 1\n1 2 2\n", "a\nb\nd\n", []),
        ("0 1 1\n1 2 2\n", "a\nb\nc\n", ["set:0:1:9"]),
        ("0 1 1\n1 2 2\n", "a\nb\nc\n", ["set:0:1:1"]),
    ],
)
def test_an_import_ends_no_other_one(programs: Path, tmp_path: Path, rows: str, names: str, ops: list[str]) -> None:
    device, wanted = loaded_by_hand(programs, tmp_path, rows, names), tmp_path / "wanted"
    wanted.write_text("a b 1\nb c 2\n")
    if ops:
        tznode(programs, "edit", str(device), *ops)
    before = device.read_bytes()
    done = run(programs, "import", str(device), str(wanted))
    assert done.returncode == 1 and "hizmorke: " in done.stderr and "goes on" not in done.stderr
    assert device.read_bytes() == before and Path(f"{device}.names.new").read_text() == names


def test_an_import_that_is_still_at_work_is_not_ended_by_another(programs: Path, tmp_path: Path) -> None:
    device, wanted = loaded_by_hand(programs, tmp_path, "0 1 1\n", "a\nb\n"), tmp_path / "wanted"
    wanted.write_text("a b 1\n")
    with open(f"{device}.names.new", "rb") as file:
        fcntl.flock(file, fcntl.LOCK_EX)
        words = command(programs, "import", str(device), str(wanted))
        done = subprocess.run(words, env=environment(programs), capture_output=True, text=True, check=False)
    assert (done.returncode, done.stderr) == (1, f"hizmorke: {device}: device in use\n")
    assert run(programs, "import", str(device), str(wanted)).returncode == 0


def begun_import(programs: Path, folder: Path) -> tuple[Path, Path]:
    """A device with the first of two changes of an import that was begun, and the list."""
    device, rows = folder / "net", folder / "rows"
    tznode(programs, "format", str(device), "40")
    rows.write_text("".join(f"{node} {node + 1} 7\n" for node in range(20)))
    changes = changes_of(operations_of([(node, node + 1, 7) for node in range(20)], {}))
    assert run(programs, "import", str(device), str(rows)).returncode == 0
    # The device as it was behind the first change, and what the import wrote before it.
    digest = digest_in(programs, folder, rows)
    tznode(programs, "format", str(device), "40")
    tznode(programs, "edit", str(device), *map(str, changes[0]))
    Path(f"{device}.import").write_text(Begun(digest, 0, digest_of({}), None, changes).text())
    return device, rows


def digest_in(programs: Path, folder: Path, rows: Path) -> str:
    """The digest of an import of this list, as the command works it out."""
    from hizmorke.forms import read_rows
    from hizmorke.importing import Wanted

    return Wanted(folder / "net", read_rows(str(rows))).digest()


def test_goes_on_behind_the_last_change(programs: Path, tmp_path: Path) -> None:
    device, rows = begun_import(programs, tmp_path)
    done = run(programs, "import", str(device), str(rows))
    assert (done.returncode, done.stdout) == (0, "count=2 edges=20 nodes=40\n"), done.stderr
    assert "goes on behind change 1 of 2" in done.stderr
    assert not Path(f"{device}.import").exists()
    assert tznode(programs, "resume", str(device), "0") == "session=0 ticket=2\n"


@pytest.mark.parametrize("op", ["set:0:1:8", "cut:0:1", "add:30:31:1"])
def test_refuses_a_device_that_was_changed_meanwhile(programs: Path, tmp_path: Path, op: str) -> None:
    device, rows = begun_import(programs, tmp_path)
    tznode(programs, "edit", str(device), op, "--session", "3")
    before = device.read_bytes()
    done = run(programs, "import", str(device), str(rows))
    assert (done.returncode, done.stdout) == (1, "")
    assert done.stderr == f"hizmorke: {device}.import: {CHANGED}\n"
    assert device.read_bytes() == before
    os.unlink(f"{device}.import")
    assert run(programs, "import", str(device), str(rows), "--update").returncode == 0


def test_refuses_a_session_that_went_on(programs: Path, tmp_path: Path) -> None:
    device, rows = begun_import(programs, tmp_path)
    tznode(programs, "edit", str(device), "add:30:31:1")
    done = run(programs, "import", str(device), str(rows))
    assert done.returncode == 1 and "the device was changed" in done.stderr


def test_says_what_is_to_come(programs: Path, tmp_path: Path) -> None:
    """The first line of the file is JSON, for whoever looks."""
    device, _ = begun_import(programs, tmp_path)
    head, *rows = Path(f"{device}.import").read_text().splitlines()
    assert json.loads(head) | {"digest": ""} == {
        "digest": "", "session": 0, "base": 0, "before": digest_of({}), "names": None, "changes": 2,
    }
    assert rows[1] == "add:16:17:7 add:17:18:7 add:18:19:7 add:19:20:7"
