"""What the tests of the fleet share: the router under the sanitizers, a network, and its tables."""

from __future__ import annotations

import shutil
import subprocess
import sys
from collections.abc import Callable, Iterator
from pathlib import Path

import pytest

from hizmorke.programs import Programs

sys.path.insert(0, str(Path(__file__).resolve().parent))
from fleet_running import NODES, TOP, Edges, Net, Wired


@pytest.fixture(scope="session")
def router_program(tmp_path_factory: pytest.TempPathFactory) -> Path:
    """The router, built with the sanitizers."""
    to = tmp_path_factory.mktemp("router") / "router"
    if shutil.which("cc") is None:
        pytest.skip("cc isn't there")
    done = subprocess.run([TOP / "fleet" / "build", "--sanitize", to], capture_output=True, text=True, check=False)
    if "there is no C library" in done.stderr:
        pytest.skip(done.stderr.strip())
    assert done.returncode == 0, done.stderr
    return to


@pytest.fixture
def net(
    tmp_path: Path, loading: Programs, drawn_edges: Callable[[int, int, int], Edges]
) -> Net:
    """A drawn network of 24 nodes, of which the last one has no edge."""
    edges = [(k, k + 1, 5) for k in range(NODES - 2)]
    edges += [each for each in drawn_edges(NODES - 1, 30, 7) if abs(each[0] - each[1]) > 1]
    return Net(tmp_path, loading, edges)


@pytest.fixture
def wired(router_program: Path, net: Net) -> Iterator[Wired]:
    made = Wired(router_program, net)
    yield made
    made.host.close()
    if made.router.process.poll() is None:
        made.router.end()
