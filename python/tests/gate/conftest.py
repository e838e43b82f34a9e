"""The programs that the tests of the gate run over: the one that TZNODE names, as `./gate-tests` does it, first the stand-in for the service and then the program.

Without it each test runs once: over the program in the folder that HIZMORKE_PROGRAMS names, or over the stand-in, where no program is there or the test sends lines that
only the stand-in knows. What takes minutes, or waits for long, runs where TZGATE_LOADS is set.
"""

import os
import sys
from pathlib import Path

import pytest

sys.path.insert(0, str(Path(__file__).resolve().parent))
from load import STAND_IN, Programs


def pytest_generate_tests(metafunc):
    if "gate_programs" not in metafunc.fixturenames:
        return
    is_for_stand_in = metafunc.definition.get_closest_marker("needs_stand_in") is not None
    named, folder = os.environ.get("TZNODE"), os.environ.get("HIZMORKE_PROGRAMS")
    built = Path(folder or "/dev/null") / "tznode"
    marks = ()
    if named:
        program = Path(named)
        if is_for_stand_in and program.name != STAND_IN.name:
            marks = pytest.mark.skip(reason="by lines of the stand-in")
    else:
        program = built if built.exists() and not is_for_stand_in else STAND_IN
    metafunc.parametrize("gate_programs", [pytest.param(program, id=program.name, marks=marks)], indirect=True)


@pytest.fixture
def gate_programs(request):
    return Programs(request.param, os.environ.get("TZLAB"))
