"""What the tests share: the programs, and networks to try them with.

Tests that run a program are skipped with a word where it isn't built. HIZMORKE_PROGRAMS names another folder of
programs.
"""

from __future__ import annotations

import random
from collections.abc import Callable
from pathlib import Path

import pytest

from hizmorke.errors import ProgramMissing
from hizmorke.programs import Programs

Edges = list[tuple[int, int, int]]

try:
    import hypothesis
except ImportError:
    # The gate's tests need none.
    pass
else:
    # The machine may have other work: how long a case takes by the clock says nothing.
    slow = hypothesis.HealthCheck.too_slow
    hypothesis.settings.register_profile("package", deadline=None, suppress_health_check=[slow])
    hypothesis.settings.load_profile("package")


@pytest.fixture(scope="session")
def programs(tmp_path_factory: pytest.TempPathFactory) -> Path:
    """A folder with the programs that are found."""
    folder = tmp_path_factory.mktemp("programs")
    for name in ("tznode", "tzlab", "tzrouter"):
        try:
            (folder / name).symlink_to(Programs().path(name).resolve())
        except ProgramMissing as missing:
            if name != "tzrouter":
                pytest.skip(str(missing))
    return folder


@pytest.fixture(scope="session")
def found(programs: Path) -> Programs:
    """The same, as calls of the package take them."""
    return Programs(programs)


@pytest.fixture(scope="session")
def loading(found: Programs, tmp_path_factory: pytest.TempPathFactory) -> Programs:
    """Programs of which `tzlab` has its command `load`."""
    folder = tmp_path_factory.mktemp("loading")
    (folder / "rows").write_text("0 1 1\n")
    if found.run("tzlab", ["load", folder / "device", folder / "rows"]).status:
        pytest.skip("tzlab has no command load yet")
    return found


@pytest.fixture(scope="session")
def drawn_edges() -> Callable[[int, int, int], Edges]:
    """So many edges between so many nodes, by a seed, in a drawn order."""

    def draw(node_count: int, edge_count: int, seed: int) -> Edges:
        drawn = random.Random(seed)
        pairs = [(a, b) for a in range(node_count) for b in range(a)]
        return [(*pair, drawn.randint(1, 9)) for pair in drawn.sample(pairs, min(edge_count, len(pairs)))]

    return draw
