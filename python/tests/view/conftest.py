"""Servers over a device, for the tests of the page."""

from __future__ import annotations

import os
import subprocess
import sys
from collections.abc import Iterator
from contextlib import ExitStack
from pathlib import Path

import pytest

from hizmorke.device import Device
from hizmorke.errors import LibraryMissing
from hizmorke.network import Network
from hizmorke.programs import Programs
from hizmorke.tables import default_library


@pytest.fixture
def serve(found: Programs, tmp_path: Path) -> Iterator[object]:
    """Starts a server over a device with this network."""
    pytest.importorskip("scipy")
    from view_running import Running

    from hizmorke.view.model import Model
    from hizmorke.view.sources import RestDevice

    with ExitStack() as stack:

        def start(network: Network, *, edit: bool = False, words: str | None = None, token: str | None = None) -> object:
            path = tmp_path / "net"
            Device(path, found).load(network)
            if network.names is not None:
                (tmp_path / "net.names").write_text("".join(f"{name}\n" for name in network.names))
            model = Model(RestDevice(path, words, found, can_edit=edit), cache=tmp_path / "cache")
            running = Running(model, token)
            stack.callback(running.close)
            return running

        yield start


@pytest.fixture
def start(programs: Path, tmp_path: Path) -> Iterator[object]:
    """Starts commands of the package, which end with the test. What they print goes into NAME.log."""
    from view_running import PATIENCE

    begun: list[subprocess.Popen[bytes]] = []

    def start(name: str, *words: str, **more: str) -> subprocess.Popen[bytes]:
        sources = str(Path(__file__).resolve().parents[2] / "src")
        around = {**os.environ, "HIZMORKE_PROGRAMS": str(programs), "PYTHONPATH": sources, "XDG_CACHE_HOME": str(tmp_path)}
        for screen in ("DISPLAY", "WAYLAND_DISPLAY", "BROWSER"):
            around.pop(screen, None)
        with open(tmp_path / f"{name}.log", "wb") as log:
            made = subprocess.Popen(
                [sys.executable, "-P", "-m", "hizmorke", name, *words], stdout=log, stderr=log, env={**around, **more}, cwd=tmp_path
            )
        begun.append(made)
        return made

    yield start
    for made in reversed(begun):
        made.terminate()
    for made in begun:
        made.wait(PATIENCE)


@pytest.fixture
def library() -> None:
    """Skips where the C library isn't there."""
    try:
        default_library()
    except LibraryMissing as missing:
        pytest.skip(str(missing))


@pytest.fixture
def path_network() -> Network:
    """Five nodes in a row."""
    return Network(5, [(0, 1, 1), (1, 2, 1), (2, 3, 1), (3, 4, 1)])
