"""What `./conform` tells of faults of the system: that they came, what they led to, and which lines name none."""

from __future__ import annotations

import subprocess
import sys
from pathlib import Path

import pytest

CONFORM = Path(__file__).resolve().parents[2] / "conform"
DEVICE = "$ tznode format d 5\nformatted nodes=5\n$ tznode edit d add:0:1:1\naccepted count=1\n"


def conform(programs: Path, folder: Path, text: str) -> subprocess.CompletedProcess[str]:
    """Runs a transcript in a file `t.txt` by these programs."""
    (folder / "t.txt").write_text(text)
    return subprocess.run([sys.executable, CONFORM, "--bin", programs, "t.txt"], cwd=folder, capture_output=True, text=True)


def test_faults_that_come(programs: Path, tmp_path: Path) -> None:
    text = DEVICE + "$ fail d write 1\n$ tznode edit d cut:0:1\n! tznode: device failed\n? 1\n"
    text += "$ fail d read 1..\n$ fail output 1\n$ tznode show nowhere\n! tznode: device file cannot be used\n? 1\n"
    ended = conform(programs, tmp_path, text.replace("$ fail d read 1..\n$ fail output 1\n", ""))
    assert (ended.returncode, ended.stdout, ended.stderr) == (0, "t.txt: 4 steps\n", "")
    # Both of these are vain, and each is told by its own line.
    ended = conform(programs, tmp_path, text)
    assert ended.returncode == 1
    assert "t.txt:11: $ tznode show nowhere\n" in ended.stdout
    assert "    t.txt:9: $ fail d read 1..: it never came: of these calls there were 0\n" in ended.stdout
    assert "    t.txt:10: $ fail output 1: it never came: of these calls there were 0\n" in ended.stdout


def test_a_vain_fault_differs(programs: Path, tmp_path: Path) -> None:
    ended = conform(programs, tmp_path, DEVICE + "$ fail d write 3\n$ tznode edit d cut:0:1\naccepted count=2\n")
    assert (ended.returncode, ended.stderr) == (1, "")
    assert ended.stdout.splitlines()[:2] == [
        "t.txt:6: $ tznode edit d cut:0:1",
        "    t.txt:5: $ fail d write 3: it never came: of these calls there were 2",
    ]


def test_a_fault_that_is_expected_wrongly_differs(programs: Path, tmp_path: Path) -> None:
    ended = conform(programs, tmp_path, DEVICE + "$ fail d sync 3\n$ tznode edit d cut:0:1\naccepted count=2\n")
    assert ended.returncode == 1
    assert "      came:   tznode: device failed\n" in ended.stdout
    assert "    status 1 came, and 0 should have\n" in ended.stdout
    assert "never came" not in ended.stdout


def test_a_process_that_is_killed_has_the_status_of_a_shell(programs: Path, tmp_path: Path) -> None:
    text = DEVICE + "$ fail d write 2 last\n$ tznode edit d cut:0:1\n? 137\n$ tznode show d\ncount=1 edges=1\n0 1 1\n"
    assert conform(programs, tmp_path, text).returncode == 0


def test_bytes_again_and_again(tmp_path: Path) -> None:
    text = "$ write f\n$ repeat f 1 3 0a # ff*2\n$ bytes f 0 34\n00 0a 0000000000000001 ffff 0a 0000000000000002 ffff 0a 0000000000000003 ffff\n"
    ended = conform(tmp_path, tmp_path, text)
    assert (ended.returncode, ended.stdout) == (0, "t.txt: 3 steps\n")


@pytest.mark.parametrize(
    "line",
    ["d write", "d write 0", "d write 1.", "d write x", "d seek 1", "d sync 1 half", "d write 1 twice", "d write 1 full 2", "threads", "threads 1 full", "memory 0", "output", "output 1 2", "write 1", ""],
)
def test_lines_of_no_form(tmp_path: Path, line: str) -> None:
    ended = conform(tmp_path, tmp_path, f"$ fail {line}\n$ tznode show d\n")
    assert (ended.returncode, ended.stdout) == (2, "")
    assert ended.stderr.startswith("conform: t.txt:1: its form is fail FILE CALL NUMBER [HOW]")


@pytest.mark.parametrize(
    ("text", "told"),
    [
        ("$ write d\n$ fail d read 1\n", "t.txt:2: no command is behind it"),
        ("$ fail d read 1\n$ text d\n", "t.txt:1: text has no such calls"),
        ("$ fail memory 1\n$ hizmorke show d\n", "t.txt:1: hizmorke has no such calls"),
        ("$ fail d read 1\nan answer\n$ tznode show d\n", "t.txt:2: it belongs to no command"),
        ("$ set-bytes d 0 #\n", "t.txt:1: no bytes in hex"),
        ("$ repeat d 0 2 0g\n", "t.txt:1: no bytes in hex"),
    ],
)
def test_lines_that_are_in_no_place(tmp_path: Path, text: str, told: str) -> None:
    ended = conform(tmp_path, tmp_path, text)
    assert (ended.returncode, ended.stdout, ended.stderr) == (2, "", f"conform: {told}\n")
