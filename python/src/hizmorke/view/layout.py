"""Where each node stands in a picture: found once by SciPy and kept in a cache folder.

Each connected part is laid out by itself, so that the distance of two nodes in the picture is about their distance in
the network: a stress over the nearest nodes and over some nodes far apart, made smaller step by step. Then nodes that
stand on one another are pushed apart, and the parts are put in rows, the largest first.
"""

from __future__ import annotations

import hashlib
import os
import tempfile
from contextlib import suppress
from pathlib import Path
from typing import TYPE_CHECKING

if TYPE_CHECKING:
    from typing import Any

    import numpy as np
    from numpy.typing import NDArray

    from hizmorke.network import Network

# Another one where nodes would stand elsewhere: what was kept before isn't taken then.
_VERSION = "1"
# So many layouts are kept; the oldest ones go.
_MOST_KEPT = 64
# So many nodes, far apart, say where the others stand.
_PIVOTS = 60
_STEPS = 80
# How far apart two nodes stay at least, as a part of an edge; and as a part of what each has where all share the room.
_LEAST_GAP, _LEAST_PART = 0.42, 0.7


def cache_folder() -> Path:
    """Where layouts are kept: ``hizmorke/layouts`` in the user's folder for caches."""
    named = os.environ.get("XDG_CACHE_HOME", "")
    top = Path(named) if os.path.isabs(named) else Path.home() / ".cache"
    return top / "hizmorke" / "layouts"


def positions(network: Network, by_weight: bool = False, cache: Path | None = None) -> NDArray[np.float64]:
    """Where each node stands, from the cache where the same network was laid out before.

    Parameters
    ----------
    network : Network
        The network.
    by_weight : bool
        Whether a heavier edge is longer; else all are about 1 long.
    cache : path, optional
        The folder where it is kept, else `cache_folder`. One that can't be written is left.

    Returns
    -------
    array of float64, shape (nodes, 2)
        The places; an edge is about 1 long.
    """
    import numpy as np

    edges = np.array(network.ascending(), dtype=np.int64).reshape(-1, 3)
    if not by_weight:
        edges = edges[:, :2]
    front = f"{_VERSION} {network.node_count} {by_weight} ".encode()
    folder = cache_folder() if cache is None else cache
    file = folder / f"{hashlib.sha256(front + edges.tobytes()).hexdigest()[:32]}.npy"
    with suppress(OSError, ValueError, EOFError):
        kept: NDArray[np.float64] = np.load(file, allow_pickle=False)
        if kept.shape == (network.node_count, 2) and kept.dtype == np.float64 and np.isfinite(kept).all():
            with suppress(OSError):
                os.utime(file)
            return kept
    found = laid_out(network, by_weight)
    with suppress(OSError):
        _keep(file, found)
    return found


def _keep(file: Path, found: NDArray[np.float64]) -> None:
    import numpy as np

    file.parent.mkdir(parents=True, exist_ok=True)
    # It comes whole under its name, whoever else writes it meanwhile.
    with tempfile.NamedTemporaryFile(dir=file.parent, suffix=".new", delete=False) as new:
        np.save(new, found, allow_pickle=False)
    os.replace(new.name, file)
    kept = sorted(file.parent.glob("*.npy"), key=lambda each: each.stat().st_mtime_ns)
    for old in kept[:-_MOST_KEPT]:
        old.unlink(missing_ok=True)


def laid_out(network: Network, by_weight: bool = False) -> NDArray[np.float64]:
    """Where each node stands, as `positions` has it, found anew. The same network gives the same places.

    Examples
    --------
    >>> from hizmorke.network import Network
    >>> laid_out(Network(2, [(0, 1, 5)])).shape
    (2, 2)
    """
    import numpy as np
    from scipy.sparse.csgraph import connected_components

    places = np.zeros((network.node_count, 2))
    matrix = _lengths(network, by_weight)
    _, part_of = connected_components(matrix, directed=False)
    parts = np.split(np.argsort(part_of, kind="stable"), np.cumsum(np.bincount(part_of))[:-1])
    parts.sort(key=len, reverse=True)
    sizes = []
    for part in parts:
        if len(part) > 1:
            places[part] = _upright(_part(matrix[part][:, part]))
        # A margin of an edge between the parts.
        sizes.append(np.ptp(places[part], axis=0) + 1.0)
    for part, corner in zip(parts, _in_rows(np.array(sizes))):
        places[part] += corner - places[part].min(axis=0)
    centred: NDArray[np.float64] = places - places.mean(axis=0)
    return centred


def _lengths(network: Network, by_weight: bool) -> Any:
    """How long each edge should be, as a symmetric matrix whose mean is 1."""
    import numpy as np

    matrix = network.matrix().astype(np.float64)
    if matrix.nnz == 0:
        return matrix
    if by_weight:
        # A very light edge stays visible.
        matrix.data = np.maximum(matrix.data / matrix.data.mean(), 0.25)
        return matrix
    # Around a node of many neighbours there has to be room for them.
    degrees = np.diff(matrix.indptr)
    first = np.repeat(np.arange(network.node_count), degrees)
    matrix.data = np.power(degrees[first] + degrees[matrix.indices], 0.3)
    matrix.data /= matrix.data.mean()
    return matrix


def _part(matrix: Any) -> NDArray[np.float64]:
    """A connected part of at least two nodes."""
    import numpy as np
    from scipy.sparse.csgraph import dijkstra
    from scipy.spatial import cKDTree

    count = matrix.shape[0]
    if count == 2:
        return np.array([[0.0, 0.0], [float(matrix.data[0]), 0.0]])
    # Each pivot is as far as can be from those before it.
    pivots = [int(np.argmax(np.diff(matrix.indptr)))]
    far = dijkstra(matrix, indices=pivots[0])
    rows = [far]
    while len(rows) < min(_PIVOTS, count):
        pivots.append(int(np.argmax(far)))
        rows.append(dijkstra(matrix, indices=pivots[-1]))
        far = np.minimum(far, rows[-1])
    distances = np.array(rows).T
    drawn = np.random.default_rng(1)
    places = _by_pivots(distances) + drawn.normal(scale=0.05, size=(count, 2))
    first, second = matrix.nonzero()
    length = np.asarray(matrix[first, second]).ravel()
    for step in range(_STEPS):
        places = _stress_step(places, np.array(pivots), distances, (first, second, length), count)
        if step % 4 == 3 or step > _STEPS - 10:
            places = _apart(places, _gap(places), drawn)
    places = _drawn_in(places)
    gap = _gap(places)
    for _ in range(_STEPS):
        if cKDTree(places).query(places, k=2)[0][:, 1].min() > gap / 2:
            break
        places = _apart(places, gap, drawn)
    return places


def _gap(places: NDArray[np.float64]) -> float:
    """How far apart two nodes stay at least."""
    import numpy as np

    return min(_LEAST_GAP, _LEAST_PART * float(np.sqrt(4 * np.prod(places.std(axis=0)) / len(places))))


def _drawn_in(places: NDArray[np.float64]) -> NDArray[np.float64]:
    """Where some nodes stand far outside, they come nearer, so that there is room for the others."""
    import numpy as np

    side = places - np.median(places, axis=0)
    far = np.maximum(np.sqrt((side**2).sum(axis=1)), 1e-9)
    middle = float(np.median(far))
    if len(places) <= 100 or far.max() <= 2.5 * middle:
        return places
    drawn_in: NDArray[np.float64] = side * np.power(far / middle, -0.4)[:, None]
    return drawn_in


def _by_pivots(distances: NDArray[np.float64]) -> NDArray[np.float64]:
    """The first places: the two directions in which the distances to the pivots differ most."""
    import numpy as np

    squares = distances**2
    centred = squares - squares.mean(axis=0) - squares.mean(axis=1, keepdims=True) + squares.mean()
    _, _, directions = np.linalg.svd(centred, full_matrices=False)
    found: NDArray[np.float64] = centred @ directions[:2].T
    if found.shape[1] < 2:
        found = np.pad(found, ((0, 0), (0, 2 - found.shape[1])))
    scale = np.abs(found).max()
    if scale > 0:
        found *= distances.max() / (2 * scale)
    return found


def _stress_step(
    places: NDArray[np.float64],
    pivots: NDArray[np.int64],
    distances: NDArray[np.float64],
    edges: tuple[NDArray[np.int64], NDArray[np.int64], NDArray[np.float64]],
    count: int,
) -> NDArray[np.float64]:
    """Each node goes to the mean of where its neighbours and the pivots want it, the near ones counting most."""
    import numpy as np

    gap = places[:, None, :] - places[None, pivots, :]
    long = np.maximum(np.sqrt((gap**2).sum(axis=2)), 1e-9)
    weight = np.divide(1.0, distances**2, out=np.zeros_like(distances), where=distances > 0)
    wanted = places[None, pivots, :] + gap * (distances / long)[:, :, None]
    total = weight.sum(axis=1)
    moved = (wanted * weight[:, :, None]).sum(axis=1)
    first, second, length = edges
    side = places[first] - places[second]
    near = np.maximum(np.sqrt((side**2).sum(axis=1)), 1e-9)
    pull = 1 / length**2 / np.maximum(1, np.bincount(first, minlength=count)[first] / 4)
    target = places[second] + side * (length / near)[:, None]
    total += np.bincount(first, pull, count)
    for axis in (0, 1):
        moved[:, axis] += np.bincount(first, pull * target[:, axis], count)
    found: NDArray[np.float64] = moved / total[:, None]
    return found


def _apart(places: NDArray[np.float64], least: float, drawn: np.random.Generator) -> NDArray[np.float64]:
    """Nodes that are nearer to one another than the least gap go half of what is missing."""
    import numpy as np
    from scipy.spatial import cKDTree

    count = len(places)
    near, other = cKDTree(places).query(places, k=min(count, 9), distance_upper_bound=least)
    first = np.repeat(np.arange(count), near.shape[1] - 1)
    second, gap = other[:, 1:].ravel(), near[:, 1:].ravel()
    is_near = np.isfinite(gap)
    first, second, gap = first[is_near], second[is_near], gap[is_near]
    side = places[first] - places[second]
    is_same = gap < 1e-6
    side[is_same] = drawn.normal(size=(int(is_same.sum()), 2))
    long = np.maximum(np.sqrt((side**2).sum(axis=1)), 1e-9)
    push = (least - gap) / 2
    moved = places.copy()
    for axis in (0, 1):
        moved[:, axis] += np.bincount(first, side[:, axis] / long * push, count)
    return moved


def _upright(places: NDArray[np.float64]) -> NDArray[np.float64]:
    """Turned so that it is widest from left to right."""
    import numpy as np

    centred = places - places.mean(axis=0)
    _, _, directions = np.linalg.svd(centred, full_matrices=False)
    turned: NDArray[np.float64] = centred @ directions.T
    return turned


def _in_rows(sizes: NDArray[np.float64]) -> NDArray[np.float64]:
    """The lower left corner of each box of these widths and heights, in rows that together are wider than high."""
    import numpy as np

    width = max(float(sizes[0, 0]), float(np.sqrt(1.5 * (sizes[:, 0] * sizes[:, 1]).sum())))
    corners = np.zeros_like(sizes)
    across, up, high = 0.0, 0.0, 0.0
    for place, (wide, tall) in enumerate(sizes.tolist()):
        if across > 0 and across + wide > width:
            across, up, high = 0.0, up + high, 0.0
        corners[place] = across, -up
        across, high = across + wide, max(high, tall)
    # Rows go down, and a box hangs from its row's upper end.
    corners[:, 1] -= sizes[:, 1]
    return corners
