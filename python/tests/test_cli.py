"""The command: its help, its words, and what it does with its streams."""

from __future__ import annotations

import json
import os
import resource
import signal
import subprocess
import sys
import time
from pathlib import Path
from typing import Any

import pytest
from click.testing import CliRunner

from hizmorke import __version__
from hizmorke.cli import COMMANDS, program, run
from hizmorke.cli.words import number

SOURCE = Path(__file__).resolve().parents[1] / "src"


def called(*words: str, programs: Path | None = None, **how: object) -> subprocess.CompletedProcess[str]:
    environment = {**os.environ, "PYTHONPATH": str(SOURCE), "COLUMNS": "80"}
    if programs is not None:
        environment["HIZMORKE_PROGRAMS"] = str(programs)
    given: dict[str, Any] = {"capture_output": True, "text": True, "check": False, "env": environment, **how}
    return subprocess.run([sys.executable, "-P", "-m", "hizmorke", *words], **given)


def test_lists_its_commands() -> None:
    result = CliRunner().invoke(program, ["--help"])
    assert result.exit_code == 0
    for name in COMMANDS:
        assert f"  {name} " in result.output


@pytest.mark.parametrize("name", [name for name in COMMANDS if name != "gate"])
def test_tells_what_a_command_takes(name: str, capsys: pytest.CaptureFixture[str]) -> None:
    assert run(["help", name]) == 0
    told = capsys.readouterr().out
    assert told.startswith(f"Usage: hizmorke {name} ")
    assert run([name, "--help"]) == 0
    assert capsys.readouterr().out == told


def test_tells_what_the_gate_takes(capsys: pytest.CaptureFixture[str]) -> None:
    assert run(["help", "gate"]) == 0
    told = capsys.readouterr().out
    assert "hizmorke gate" in told and "--socket" in told
    assert run(["gate", "--help"]) == 0
    assert capsys.readouterr().out == told
    assert run(["gate"]) == 2


def test_tells_its_version(capsys: pytest.CaptureFixture[str]) -> None:
    assert run(["--version"]) == 0
    assert capsys.readouterr().out == f"hizmorke {__version__}\n"


@pytest.mark.parametrize(
    "words",
    [
        [], ["frob"], ["--frob"], ["help", "me"], ["import"], ["import", "d"], ["import", "d", "f", "g"],
        ["import", "d", "f", "--nodes"], ["import", "d", "f", "--nodes", "1", "--nodes", "1"],
        ["import", "d", "f", "--update", "--update"], ["import", "d", "f", "--update=1"], ["export"],
        ["export", "--as"], ["stats", "d"], ["time", "d"], ["edit", "d"], ["route", "d", "--words", "none"],
        ["plot", "network", "d"],
        ["show"], ["show", "d", "e"],
    ],
)  # fmt: skip
def test_does_not_understand(words: list[str], capsys: pytest.CaptureFixture[str]) -> None:
    assert run(words) == 2
    out, err = capsys.readouterr()
    assert out == ""
    assert err.startswith("hizmorke: ") and err.count("\n") == 1


def test_has_plain_numbers() -> None:
    assert [number(text, 63) for text in ("0", "63", "64", "07", "+1", "", "1.0", "１")] == [0, 63] + [None] * 6


def test_is_there_soon() -> None:
    """Only what a call needs is loaded. The time is the processor's, of the best of some calls: the machine may have
    other work, which makes them slower.
    """
    taken: list[float] = []
    while len(taken) < 5 or min(taken) >= 0.15 and len(taken) < 40:
        before = resource.getrusage(resource.RUSAGE_CHILDREN)
        assert called("--help").returncode == 0
        after = resource.getrusage(resource.RUSAGE_CHILDREN)
        taken.append(after.ru_utime + after.ru_stime - before.ru_utime - before.ru_stime)
    assert min(taken) < 0.15
    loaded = "import sys; from hizmorke.cli import run; run(['--help']); print(sorted(sys.modules))"
    words, environment = [sys.executable, "-P", "-c", loaded], {**os.environ, "PYTHONPATH": str(SOURCE)}
    out = subprocess.run(words, capture_output=True, text=True, check=True, env=environment).stdout
    for heavy in ("'numpy'", "'networkx'", "'scipy'", "'matplotlib'", "'rich'", "'hizmorke.importing'"):
        assert heavy not in out


def test_says_where_it_looked(tmp_path: Path) -> None:
    environment = {**os.environ, "PYTHONPATH": str(SOURCE), "HIZMORKE_PROGRAMS": str(tmp_path), "PATH": str(tmp_path)}
    # A copy of the package lies in no repository, so it finds no program there.
    (tmp_path / "src").symlink_to(SOURCE)
    copy = tmp_path / "copy"
    subprocess.run(["/bin/cp", "-r", str(SOURCE), str(copy)], check=True)
    environment["PYTHONPATH"] = str(copy)
    words = [sys.executable, "-P", "-m", "hizmorke", "show", "d"]
    done = subprocess.run(words, capture_output=True, text=True, check=False, env=environment)
    assert done.returncode == 1
    assert done.stderr.startswith("hizmorke: the program tz") and str(tmp_path) in done.stderr and "PATH" in done.stderr


def by_shell(programs: Path, folder: Path, script: str) -> subprocess.CompletedProcess[str]:
    """Runs a line of a shell, in which `hizmorke` is the command, in a folder with the device `net`."""
    subprocess.run([programs / "tznode", "format", folder / "net", "3"], check=True, stdout=subprocess.DEVNULL)
    environment = {**os.environ, "PYTHONPATH": str(SOURCE), "HIZMORKE_PROGRAMS": str(programs)}
    whole = f'hizmorke() {{ "$0" -P -m hizmorke "$@"; }}; {script}'
    words = ["/bin/bash", "-c", whole, sys.executable]
    return subprocess.run(words, capture_output=True, text=True, check=False, env=environment, cwd=folder)


@pytest.mark.parametrize(
    ("words", "streams", "status", "out", "err"),
    [
        ("show net", "<&-", 0, "count=0 edges=0\n", ""),
        ("show net", ">&-", 1, "", "hizmorke: output failed\n"),
        ("show net", "2>&-", 0, "count=0 edges=0\n", ""),
        ("show net", "<&- >&- 2>&-", 1, "", ""),
        ("show net", ">/dev/full", 1, "", "hizmorke: output failed\n"),
        # What went wrong is told, and not that there is no output, of which there would have been none.
        ("show nothing", ">&-", 1, "", "hizmorke: nothing: device file cannot be used\n"),
        ("show nothing", "2>&-", 1, "", ""),
        ("show nothing", "2>/dev/full", 1, "", ""),
        ("frob", "<&- 2>&-", 2, "", ""),
        # Help and the version are printed by click.
        ("--version", ">&-", 1, "", "hizmorke: output failed\n"),
        ("--help", ">/dev/full", 1, "", "hizmorke: output failed\n"),
        ("help show", ">&-", 1, "", "hizmorke: output failed\n"),
        ("help gate", ">&-", 1, "", "hizmorke: output failed\n"),
    ],
)
def test_streams_that_are_closed_or_full(
    programs: Path, tmp_path: Path, words: str, streams: str, status: int, out: str, err: str
) -> None:
    done = by_shell(programs, tmp_path, f"hizmorke {words} {streams}")
    assert (done.returncode, done.stdout, done.stderr) == (status, out, err)


def test_keeps_files_from_closed_streams(programs: Path, tmp_path: Path) -> None:
    """No file that a command opens gets the number of a stream that is closed."""
    (tmp_path / "rows").write_text("0 1 5\n")
    assert by_shell(programs, tmp_path, "hizmorke import net rows <&- >&- 2>&-").returncode == 1
    assert (tmp_path / "rows").read_text() == "0 1 5\n"
    assert called("show", str(tmp_path / "net"), programs=programs).stdout == "count=1 edges=1\n0 1 5\n"


@pytest.mark.parametrize("unbuffered", ["", "1"])
def test_ends_quietly_where_nobody_reads(programs: Path, tmp_path: Path, unbuffered: str) -> None:
    """As other commands do, by a signal. What is printed here is more than a pipe holds."""
    (tmp_path / "rows").write_text("".join(f"{a} {b} 1000000\n" for a in range(200) for b in range(a)))
    script = f"""
        export PYTHONUNBUFFERED={unbuffered}
        hizmorke import large rows 2>rows.told
        hizmorke export large | head -n 1
        echo "${{PIPESTATUS[@]}}"
        hizmorke --help | true
        echo "${{PIPESTATUS[@]}}"
    """
    done = by_shell(programs, tmp_path, script)
    assert done.stderr == ""
    assert done.stdout == "count=1244 edges=19900 nodes=200\n# nodes=200\n141 0\n141 0\n"


@pytest.mark.parametrize("words", ["show net", "stats net --words none", "time net --words none"])
def test_ends_quietly_by_an_interrupt(tmp_path: Path, words: str) -> None:
    """The program that the command runs has begun, and takes long."""
    for name in ("tznode", "tzlab"):
        (tmp_path / name).write_text("#!/bin/sh\n: >begun\nexec sleep 60\n")
        (tmp_path / name).chmod(0o755)
    environment = {**os.environ, "PYTHONPATH": str(SOURCE), "HIZMORKE_PROGRAMS": str(tmp_path)}
    process = subprocess.Popen(
        [sys.executable, "-P", "-m", "hizmorke", *words.split()],
        stdin=subprocess.DEVNULL,
        stdout=subprocess.PIPE,
        stderr=subprocess.PIPE,
        env=environment,
        cwd=tmp_path,
    )
    until = time.monotonic() + 60
    while not (tmp_path / "begun").exists() and time.monotonic() < until:
        time.sleep(0.01)
    process.send_signal(signal.SIGINT)
    assert process.communicate(timeout=50) == (b"", b"")
    assert process.returncode == -signal.SIGINT


def test_names_that_begin_with_a_dash(programs: Path, tmp_path: Path) -> None:
    (tmp_path / "-rows").write_text("a b 1\nb c 2\n")
    (tmp_path / "-more").write_text("a c 5\nc d 1\n")
    script = """
        hizmorke import -- -net -rows
        hizmorke import --grow -- -net -more
        hizmorke edit -- -net cut:a:c
        hizmorke show -- -net
        hizmorke export -- -net
        hizmorke route --words none -- -net a d
        hizmorke stats --words none -- -net | head -n 1
        hizmorke show -- -nothing
        hizmorke import -- -net -nothing
        hizmorke import -- -folder/net -rows
    """
    done = by_shell(programs, tmp_path, script)
    assert done.stdout.splitlines() == [
        "count=1 edges=2 nodes=3",
        "count=2 edges=4 nodes=4",
        "accepted count=3",
        *("count=3 edges=3", "a b 1", "b c 2", "c d 1"),
        *("# nodes=4", "# a", "# b", "# c", "# d", "a b 1", "b c 2", "c d 1"),
        "generation=3 route a b c d length 4",
        "nodes=4 unit=nodes",
    ]
    assert done.stderr.splitlines() == [
        "hizmorke: -rows: edges, header: no, names: yes",
        "hizmorke: -more: edges, header: no, names: yes",
        "hizmorke: -nothing: device file cannot be used",
        "hizmorke: -nothing: the file is not there",
        "hizmorke: -rows: edges, header: no, names: yes",
        "hizmorke: -folder/net: device file cannot be used",
    ]


def test_grows_a_device(programs: Path, tmp_path: Path) -> None:
    device, first, second = tmp_path / "net", tmp_path / "first", tmp_path / "second"
    first.write_text("a b 1\nb c 1\n")
    second.write_text("c d 2\nd e 3\n")
    assert called("import", str(device), str(first), programs=programs).returncode == 0
    refused = called("import", str(device), str(second), programs=programs)
    assert refused.returncode == 1 and "there are more names than nodes, which are 3" in refused.stderr
    refused = called("import", str(device), str(second), "--nodes", "9", programs=programs)
    assert (refused.returncode, refused.stderr) == (1, f"hizmorke: {device}: it has 3 nodes\n")
    done = called("import", str(device), str(second), "--grow", "--nodes", "9", programs=programs)
    assert (done.returncode, done.stdout) == (0, "count=2 edges=4 nodes=9\n"), done.stderr
    assert called("show", str(device), programs=programs).stdout == "count=2 edges=4\na b 1\nb c 1\nc d 2\nd e 3\n"
    resumed = subprocess.run([programs / "tznode", "resume", device, "0"], capture_output=True, text=True, check=True)
    assert resumed.stdout == "session=0 ticket=2\n"
    assert sorted(path.name for path in tmp_path.glob("net*")) == ["net", "net.names", "net.names.count"]
    # Without --nodes it has as many as the file names.
    second.write_text("e f\nf g\nx y\ny z\n")
    done = called("import", str(device), str(second), "--grow", programs=programs)
    assert (done.returncode, done.stdout) == (0, "count=3 edges=8 nodes=10\n"), done.stderr


def test_an_editor_is_kept_out_while_it_grows(programs: Path, tmp_path: Path) -> None:
    import fcntl

    device, rows = tmp_path / "net", tmp_path / "rows"
    rows.write_text("0 1 5\n5 6 7\n")
    subprocess.run([programs / "tznode", "format", device, "3"], check=True, stdout=subprocess.DEVNULL)
    with open(device, "rb") as file:
        fcntl.flock(file, fcntl.LOCK_EX)
        done = called("import", str(device), str(rows), "--grow", programs=programs)
        assert (done.returncode, done.stderr) == (1, f"hizmorke: {device}: device in use\n")
    assert sorted(path.name for path in tmp_path.iterdir()) == ["net", "rows"]


@pytest.mark.parametrize("kind", ["network", "stretch", "tables"])
def test_draws(programs: Path, tmp_path: Path, kind: str) -> None:
    pytest.importorskip("matplotlib")
    device, picture = tmp_path / "net", tmp_path / "picture.svg"
    subprocess.run([programs / "tznode", "format", device, "5"], check=True, stdout=subprocess.DEVNULL)
    ops = ["add:0:1:1", "add:1:2:1", "add:2:3:1"]
    subprocess.run([programs / "tznode", "edit", device, *ops], check=True, stdout=subprocess.DEVNULL)
    done = called("plot", kind, str(device), "--words", "at:1", "--out", str(picture), programs=programs)
    assert (done.returncode, done.stdout) == (0, f"{picture}\n"), done.stderr
    assert "<svg" in picture.read_text()


def test_draws_no_other_kind(tmp_path: Path) -> None:
    done = called("plot", "cloud", str(tmp_path / "net"), "--words", "none", "--out", "x.svg")
    assert (done.returncode, done.stderr) == (2, "hizmorke: KIND is network, stretch or tables\n")


@pytest.mark.parametrize("name", ["x.frob", "x", "x.svg.gz"])
def test_draws_into_no_other_form(tmp_path: Path, name: str) -> None:
    done = called("plot", "network", str(tmp_path / "net"), "--words", "none", "--out", name)
    assert done.returncode == 2
    assert done.stderr == f"hizmorke: {name}: the name of a picture ends with .svg, .png or .pdf\n"


def test_makes_the_notebook(programs: Path, tmp_path: Path) -> None:
    for package in ("networkx", "scipy", "matplotlib"):
        pytest.importorskip(package)
    make = SOURCE.parents[1] / "examples" / "notebook" / "make"
    environment = {**os.environ, "HIZMORKE_PROGRAMS": str(programs), "NOTEBOOK_NODES": "300", "PYTHON": sys.executable}
    words = [sys.executable, make, tmp_path]
    done = subprocess.run(words, capture_output=True, text=True, check=False, env=environment)
    assert done.returncode == 0, done.stderr
    whole = json.loads((tmp_path / "notebook.ipynb").read_text())
    outputs = [output for cell in whole["cells"] for output in cell.get("outputs", ())]
    assert sum("image/png" in output.get("data", {}) for output in outputs) == 2
    assert any("after:  Route(" in "".join(output.get("text", ())) for output in outputs)
    page = tmp_path / "notebook.html"
    assert not page.exists() or page.stat().st_size < 1_500_000
