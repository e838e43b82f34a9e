"""Pictures by matplotlib: a network with its landmarks, the stretch of ways, the bytes of tables.

Each function returns a `matplotlib.figure.Figure` that belongs to no window, and draws into the axes `ax` where they
are given. With `out` it writes the picture too; one call twice writes the same bytes.
"""

from __future__ import annotations

import os
from collections.abc import Iterable, Mapping, Sequence
from dataclasses import dataclass
from itertools import pairwise
from typing import TYPE_CHECKING, Any, Union

from hizmorke.device import Device, Words
from hizmorke.errors import FileUnusable, NotUnderstood, PackageMissing

if TYPE_CHECKING:
    from matplotlib.axes import Axes
    from matplotlib.figure import Figure
    from numpy.typing import NDArray

    from hizmorke.figures import Figures
    from hizmorke.network import Network

Source = Union["Network", Device, str, "os.PathLike[str]"]
"""A network, a device, or the path of a device."""

BLUE, RED, GREEN, PURPLE, GREY = "#1f77b4", "#d62728", "#2ca02c", "#9467bd", "#888888"
COLOURS = (BLUE, RED, GREEN, PURPLE, "#17becf", "#ff7f0e")
YELLOW_FILL, BLUE_FILL = "#ffdf80", "#cfe8ff"

SIZE = (7.2, 4.8)
"""Width and height of a picture, in inches."""

# With more nodes than this neither their names nor the weights are readable.
_MOST_LABELLED = 64
# The forms of pictures, and what isn't told in each.
_UNSAID = {".svg": ("Date", "Creator"), ".png": ("Software",), ".pdf": ("CreationDate", "Creator", "Producer")}


@dataclass(frozen=True)
class Curve:
    """A row of points, joined by a line.

    Attributes
    ----------
    x, y : sequence of float
        The points; arrays too.
    label : str
        What the key says; empty for no place in it.
    colour : str
        As matplotlib has it.
    is_dashed : bool
        Whether it is a thin dashed line.
    marker : str
        The sign at each point; empty for none.
    marker_size : float
        Its size, in points.
    """

    x: Sequence[float] | NDArray[Any]
    y: Sequence[float] | NDArray[Any]
    label: str = ""
    colour: str = BLUE
    is_dashed: bool = False
    marker: str = "o"
    marker_size: float = 4


def curves(
    rows: Iterable[Curve],
    *,
    title: str,
    x: str,
    y: str,
    log_x: bool = False,
    log_y: bool = False,
    out: str | os.PathLike[str] | None = None,
    ax: Axes | None = None,
) -> Figure:
    """Draws rows of points over one another.

    Parameters
    ----------
    rows : iterable of Curve
        The rows.
    title, x, y : str
        What stands above, below and beside.
    log_x, log_y : bool
        Whether the axis goes by powers of two.
    out : path, optional
        The picture's file.
    ax : Axes, optional
        Where to draw, else in a new figure.
    """
    ax = _axes() if ax is None else ax
    for row in rows:
        ax.plot(
            row.x,
            row.y,
            label=row.label or None,
            color=row.colour,
            linestyle="--" if row.is_dashed else "-",
            linewidth=1 if row.is_dashed else 2,
            marker=row.marker or None,
            markersize=row.marker_size,
        )
    ax.set_title(title)
    ax.set_xlabel(x)
    ax.set_ylabel(y)
    for is_log, axis, scale in ((log_x, ax.xaxis, ax.set_xscale), (log_y, ax.yaxis, ax.set_yscale)):
        if is_log:
            scale("log", base=2)
            axis.set_major_formatter(lambda value, _: f"{value:,.0f}")
    ax.grid(color="#dddddd")
    ax.spines[["top", "right"]].set_visible(False)
    if ax.get_legend_handles_labels()[0]:
        ax.legend(loc="upper center", bbox_to_anchor=(0.5, -0.14), ncol=3, frameon=False, fontsize="small")
    return _done(ax, out)


def stretch(
    source: Source | Figures | Mapping[str, Any],
    words: Words | None = None,
    out: str | os.PathLike[str] | None = None,
    *,
    pairs: int = 1_000,
    seed: int = 0,
    title: str = "Stretch of routes, sorted",
    ax: Axes | None = None,
) -> Figure:
    """Draws how much longer packets' ways are than the shortest ones, in ascending order, beside the proved bound.

    Parameters
    ----------
    source : Figures, network, device, path, or mapping
        What was measured, or what is measured now under `words`. A mapping has one for each word of the key: `Figures`,
        or an array of stretches.
    words : str or LandmarkWords, optional
        Landmark words, where something is measured now.
    out : path, optional
        The picture's file.
    pairs, seed : int
        As `hizmorke.figures` takes them.
    title : str
        What stands above.
    ax : Axes, optional
        Where to draw, else in a new figure.
    """
    import numpy as np

    from hizmorke.figures import PROVED_STRETCH

    rows = []
    for (label, found), colour in zip(_named(source, words, pairs, seed), COLOURS):
        values = np.asarray(found.stretch if hasattr(found, "stretch") else found, dtype=np.float64)
        ascending = np.sort(values[np.isfinite(values)])
        percent = 100 * np.arange(1, len(ascending) + 1) / max(1, len(ascending))
        rows.append(Curve(percent, ascending, label, colour, marker=""))
    rows.append(Curve([0, 100], [PROVED_STRETCH] * 2, "proved bound", GREY, is_dashed=True, marker=""))
    ax = _axes() if ax is None else ax
    ax.set_xlim(0, 100)
    ax.set_ylim(0.9, PROVED_STRETCH + 0.1)
    return curves(rows, title=title, x="pairs, percent", y="length over the shortest", out=out, ax=ax)


def tables(
    source: Source | Figures | Mapping[str, Any],
    words: Words | None = None,
    out: str | os.PathLike[str] | None = None,
    *,
    title: str = "Bytes of the nodes' tables, sorted",
    ax: Axes | None = None,
) -> Figure:
    """Draws the bytes of the nodes' tables in ascending order, beside a table that has a port for each other node.

    Parameters
    ----------
    source : Figures, network, device, path, or mapping
        What was measured, or what is measured now under `words`. A mapping has one `Figures` for each word of the key.
    words : str or LandmarkWords, optional
        Landmark words, where something is measured now.
    out : path, optional
        The picture's file.
    title : str
        What stands above.
    ax : Axes, optional
        Where to draw, else in a new figure.
    """
    import numpy as np

    rows, full = [], 0
    for (label, found), colour in zip(_named(source, words, 0, 0), COLOURS):
        ascending = np.sort(found.table_bytes)
        percent = 100 * np.arange(1, len(ascending) + 1) / len(ascending)
        rows.append(Curve(percent, ascending, label, colour, marker=""))
        full = max(full, found.full_table_bytes)
    rows.append(Curve([0, 100], [full] * 2, "full table, 2 bytes a node", GREY, is_dashed=True, marker=""))
    ax = _axes() if ax is None else ax
    ax.set_xlim(0, 100)
    return curves(rows, title=title, x="nodes, percent", y="bytes", out=out, ax=ax)


def network(
    source: Source,
    words: Words | None = None,
    out: str | os.PathLike[str] | None = None,
    *,
    route: Sequence[int] = (),
    cluster: int | None = None,
    positions: Any = None,
    ax: Axes | None = None,
) -> Figure:
    """Draws a network: landmarks in yellow, the cluster of a node in blue, a way in red.

    Parameters
    ----------
    source : Network, Device or path
        The network.
    words : str or LandmarkWords, optional
        Landmark words.
    out : path, optional
        The picture's file.
    route : sequence of int
        The nodes of a packet's way.
    cluster : int, optional
        A node whose cluster is shown: all nodes that are nearer to it than to each landmark.
    positions : array of float, shape (nodes, 2), optional
        Where each node stands. Else networkx lays them out.
    ax : Axes, optional
        Where to draw, else in a new figure.

    Raises
    ------
    WordsNotUnderstood
        As its text says.
    PackageMissing
        There are no positions, and networkx isn't there.
    """
    import numpy as np

    drawn = _network_of(source)
    nodes = drawn.node_count
    landmarks = _landmarks_of(drawn, words)
    members = _cluster_of(drawn, landmarks, cluster)
    places = _laid_out(drawn) if positions is None else np.asarray(positions, dtype=np.float64)
    steps = {frozenset(step) for step in pairwise(route)}
    is_labelled = nodes <= _MOST_LABELLED
    ax = _axes((7.2, 7.2)) if ax is None else ax
    _draw_edges(ax, drawn, places, steps, is_labelled)
    size = 420 if is_labelled else max(4, 12_000 / nodes)
    line = 1.0 if is_labelled else 0.3
    fill = np.full(nodes, "#ffffff", dtype=object)
    fill[members] = BLUE_FILL
    fill[landmarks] = YELLOW_FILL
    edge, width = np.full(nodes, "#000000", dtype=object), np.full(nodes, line)
    if cluster is not None:
        edge[cluster], width[cluster] = BLUE, 2.5 * line
    ax.scatter(*places.T, s=size, c=list(fill), edgecolors=list(edge), linewidths=width, zorder=2)
    # A landmark has a second ring.
    ax.scatter(*places[landmarks].T, s=1.45 * size, facecolors="none", edgecolors="#000000", linewidths=line, zorder=2)
    if is_labelled:
        for node, (x, y) in enumerate(places.tolist()):
            ax.text(x, y, drawn.name_of(node), ha="center", va="center", fontsize=9, zorder=3)
    ax.set_aspect("equal", "datalim")
    ax.margins(0.08)
    ax.set_axis_off()
    return _done(ax, out)


def save(figure: Figure, out: str | os.PathLike[str]) -> None:
    """Writes a picture, by the form that its name ends with. The same picture gives the same bytes: no date, no version
    stands in it.

    Parameters
    ----------
    figure : Figure
        The picture.
    out : path
        Its file: ``.svg``, ``.png`` or ``.pdf``.

    Raises
    ------
    NotUnderstood
        Its name ends with no form.
    FileUnusable
        It can't be written.
    """
    nothing = dict.fromkeys(_UNSAID[form_of(out)])
    import matplotlib

    try:
        # Texts stay texts, and names of parts go by the picture alone.
        with matplotlib.rc_context({"svg.hashsalt": "hizmorke", "svg.fonttype": "none"}):
            figure.savefig(out, metadata=nothing, bbox_inches="tight")
    except OSError as error:
        raise FileUnusable(error.strerror, path=os.fspath(out)) from error


def form_of(out: str | os.PathLike[str]) -> str:
    """The form of a picture, by what its file's name ends with.

    Raises
    ------
    NotUnderstood
        It ends with no form.

    Examples
    --------
    >>> form_of("stretch.SVG")
    '.svg'
    """
    form = os.path.splitext(os.fspath(out))[1].lower()
    if form not in _UNSAID:
        raise NotUnderstood("the name of a picture ends with .svg, .png or .pdf", path=os.fspath(out))
    return form


def _axes(size: tuple[float, float] = SIZE) -> Any:
    try:
        from matplotlib.backends.backend_agg import FigureCanvasAgg
        from matplotlib.figure import Figure
    except ImportError:
        raise PackageMissing("matplotlib") from None
    figure = Figure(figsize=size)
    FigureCanvasAgg(figure)
    return figure.add_subplot()


def _done(ax: Any, out: str | os.PathLike[str] | None) -> Any:
    if out is not None:
        save(ax.figure, out)
    return ax.figure


def _named(source: Any, words: Words | None, pairs: int, seed: int) -> Iterable[tuple[str, Any]]:
    """What was measured, each with its place in the key."""
    if isinstance(source, Mapping):
        return source.items()
    if hasattr(source, "table_bytes"):
        return [(str(source.words), source)]
    if words is None:
        raise TypeError("landmark words are needed where something is measured")
    from hizmorke.figures import figures

    measured = Device(source) if isinstance(source, (str, os.PathLike)) else source
    return [(str(words), figures(measured, words, pairs=pairs, seed=seed))]


def _network_of(source: Source) -> Network:
    if isinstance(source, (str, os.PathLike)):
        source = Device(source)
    return source.show() if isinstance(source, Device) else source


def _landmarks_of(drawn: Network, words: Words | None) -> list[int]:
    from hizmorke.words import LandmarkWords

    return [] if words is None else LandmarkWords.parse(str(words), drawn.node_count).landmarks()


def _cluster_of(drawn: Network, landmarks: list[int], center: int | None) -> list[int]:
    """The nodes that are nearer to the center than to each landmark."""
    if center is None or center in landmarks:
        return []
    import numpy as np
    from scipy.sparse.csgraph import dijkstra

    matrix = drawn.matrix()
    own = dijkstra(matrix, indices=center)
    nearest = dijkstra(matrix, indices=landmarks, min_only=True) if landmarks else np.full(drawn.node_count, np.inf)
    members: list[int] = np.flatnonzero(own < nearest).tolist()
    return members


def _laid_out(drawn: Network) -> Any:
    try:
        import networkx
    except ImportError:
        raise PackageMissing("networkx") from None
    import numpy as np

    graph = networkx.Graph()
    graph.add_nodes_from(range(drawn.node_count))
    graph.add_edges_from((a, b) for a, b, _ in drawn.edges)
    places = networkx.spring_layout(graph, seed=1)
    return np.array([places[node] for node in range(drawn.node_count)])


def _draw_edges(ax: Any, drawn: Network, places: Any, steps: set[frozenset[int]], is_labelled: bool) -> None:
    from matplotlib.collections import LineCollection

    on_way = [frozenset((a, b)) in steps for a, b, _ in drawn.edges]
    lines = LineCollection(
        [(places[a], places[b]) for a, b, _ in drawn.edges],
        colors=[RED if is_on else "#999999" for is_on in on_way],
        linewidths=[3 if is_on else 1 if is_labelled else 0.3 for is_on in on_way],
        zorder=1,
    )
    ax.add_collection(lines)
    if not is_labelled:
        return
    for a, b, weight in drawn.edges:
        (left, low), (right, high) = places[a], places[b]
        box = {"boxstyle": "round,pad=0.1", "facecolor": "#ffffff", "edgecolor": "none"}
        middle = ((left + right) / 2, (low + high) / 2)
        ax.text(*middle, str(weight), ha="center", va="center", fontsize=8, color="#555555", bbox=box, zorder=1.5)
