"""Graphs of networkx, the files that it reads, and MatrixMarket as SciPy reads it.

These readers say no lines, so an edge is told by its ends. Of Pajek, GEXF and a real matrix all weights are floats
there: whole ones count as whole numbers, others need ``--scale``.
"""

from __future__ import annotations

import io
import warnings
from collections.abc import Hashable
from typing import TYPE_CHECKING, Any

from hizmorke.errors import NotUnderstood, PackageMissing
from hizmorke.forms.reading import Options, Reading, check_directions
from hizmorke.forms.weights import Weights, weight_among
from hizmorke.names import MOST_NODES, is_label

if TYPE_CHECKING:
    from hizmorke.network import Network

# The attribute of a graph that says that its nodes are called by names, digits too.
CALLED = "called"

LABEL = "a node's name has no blank at its ends and no line break in it, and begins with no `#` and a blank"


def networkx_module() -> Any:
    """The package networkx, or `PackageMissing`."""
    try:
        import networkx
    except ImportError:
        raise PackageMissing("networkx") from None
    return networkx


def read_graph(content: bytes, path: str, form: str, options: Options) -> Reading:
    """Read GraphML, GML, Pajek or GEXF by networkx."""
    networkx = networkx_module()
    try:
        with warnings.catch_warnings():
            warnings.simplefilter("ignore")
            graph = _graph_of(networkx, content, form)
    except Exception as error:
        # networkx lets through what its parsers raise: of XML, of numbers, of names.
        raise NotUnderstood(f"networkx can't read it as {_TITLES[form]}: {_cause(error)}", path=path) from error
    return reading_of(graph, path, form, options, whole=form in ("pajek", "gexf"))


_TITLES = {"graphml": "GraphML", "gml": "GML", "pajek": "Pajek", "gexf": "GEXF"}


def _cause(error: Exception) -> str:
    text = " ".join(str(error).split())
    says_little = not text or isinstance(error, (KeyError, AttributeError, IndexError))
    return f"{type(error).__name__}: {text}" if says_little else text


def _graph_of(networkx: Any, content: bytes, form: str) -> Any:
    if form == "graphml":
        return networkx.read_graphml(io.BytesIO(content))
    if form == "gexf":
        return _by_labels(networkx, networkx.read_gexf(io.BytesIO(content)))
    lines = content.decode("utf-8").removeprefix("\ufeff")
    if form == "pajek":
        return networkx.parse_pajek(lines.replace("\r\n", "\n"))
    try:
        return networkx.parse_gml(lines)
    except networkx.NetworkXError as error:
        if "has no 'label' attribute" not in str(error):
            raise
        return networkx.parse_gml(lines, label="id")


def _by_labels(networkx: Any, graph: Any) -> Any:
    # GEXF calls nodes by ids; where each has a label of its own, that is its name.
    labels = dict(graph.nodes(data="label"))
    are_labels = all(isinstance(label, str) and is_label(label) for label in labels.values())
    if are_labels and len(set(labels.values())) == len(labels):
        return networkx.relabel_nodes(graph, labels)
    return graph


def reading_of(graph: Any, path: str, form: str, options: Options, whole: bool = False) -> Reading:
    """What a graph of networkx says, as a reading.

    Parameters
    ----------
    graph : networkx.Graph
        The graph, or one with directions, or with several edges between two nodes.
    whole : bool
        Whether whole floats are whole numbers without a scale.
    """
    weights = Weights(options.scale)
    labels: dict[Hashable, str] = {}
    for number, node in enumerate(graph.nodes, 1):
        label = str(node)
        if not is_label(label):
            raise _told(path, f"node {number}: {LABEL}")
        labels[node] = label
    if len(set(labels.values())) < len(labels):
        seen: dict[str, Hashable] = {}
        for node, label in labels.items():
            if label in seen:
                raise _told(path, f"{seen[label]!r} and {node!r} are two spellings of one name")
            seen[label] = node
    reading = Reading(path, form, [], [], [], [], place="edge", labels=list(labels.values()))
    if graph.graph.get(CALLED) == "names":
        reading.by_names = True
    for a, b, data in graph.edges(data=True):
        weight, wrong = weight_among(data, weights, options.weight, whole)
        if weight is None:
            raise _told(path, f"edge {labels[a]} {labels[b]}: {wrong}")
        reading.sources.append(labels[a])
        reading.targets.append(labels[b])
        reading.weights.append(weight)
    reading.numbers = range(1, len(reading.weights) + 1)
    weights.tell(reading)
    if graph.is_directed():
        check_directions(reading, options)
    return reading


def _told(path: str, text: str) -> NotUnderstood:
    return NotUnderstood(text, path=path or None)


def network_of_graph(graph: Any, *, weight: str | None, scale: int, undirected: str | None) -> Network:
    """The network that a graph of networkx is: see `hizmorke.network.Network.from_networkx`."""
    from hizmorke.names import assign_whole, judge

    key = "none" if weight is None else weight
    if weight is None:
        graph = _without_data(graph)
    options = Options(scale=scale, weight=None if key == "weight" else key, undirected=undirected)
    reading = reading_of(graph, "", "networkx", options)
    reading.least = undirected == "min"
    numbers = set(graph.nodes) == set(range(len(graph))) and all(_is_whole(node) for node in graph.nodes)
    assigned = assign_whole(reading, numbers)
    judge(reading, assigned)
    if reading.rounded:
        warnings.warn(f"{reading.rounded} weights rounded, by at most {reading.error:.3f}", stacklevel=3)
    return assigned.network


def _is_whole(node: Hashable) -> bool:
    return not isinstance(node, (bool, float)) and hasattr(node, "__index__")


def _without_data(graph: Any) -> Any:
    bare = graph.__class__()
    bare.add_nodes_from(graph.nodes)
    bare.add_edges_from(graph.edges())
    return bare


def _no_matrix(path: str, error: Exception) -> NotUnderstood:
    # SciPy lets through what its parser raises: of numbers, of indices, of memory.
    return NotUnderstood(f"SciPy can't read it as MatrixMarket: {_cause(error)}", path=path)


def read_matrix(content: bytes, path: str, options: Options) -> Reading:
    """Read a matrix of MatrixMarket by SciPy: entry (i, j) is the edge of the nodes i and j, which count from 1."""
    try:
        import scipy.io
        import scipy.sparse
    except ImportError:
        raise PackageMissing("scipy") from None
    try:
        rows, columns, entries, _, field, symmetry = scipy.io.mminfo(io.BytesIO(content))
    except Exception as error:
        raise _no_matrix(path, error) from error
    if rows != columns:
        raise NotUnderstood(f"the matrix isn't square: it has {rows} rows and {columns} columns", path=path)
    if not 1 <= rows <= MOST_NODES:
        raise NotUnderstood("a network has 1 to 16384 nodes", path=path)
    if field not in ("integer", "real", "pattern", "unsigned-integer") or symmetry not in ("general", "symmetric"):
        text = f"a network is an integer, real or pattern matrix, symmetric or general: this is {field} and {symmetry}"
        raise NotUnderstood(text, path=path)
    if 2 * entries > len(content):
        # SciPy would take memory for all of them first.
        raise NotUnderstood(f"it says {entries} entries, and there are fewer", path=path)
    try:
        matrix = scipy.sparse.coo_matrix(scipy.io.mmread(io.BytesIO(content)))
    except Exception as error:
        raise _no_matrix(path, error) from error
    weights = Weights(options.scale)
    reading = Reading(path, "mm", [], [], [], range(1, matrix.nnz + 1), place="entry", by_names=False, first=1)
    reading.node_count = int(rows)
    ones = field == "pattern" or options.weight == "none"
    for number, (a, b, value) in enumerate(zip(matrix.row.tolist(), matrix.col.tolist(), matrix.data.tolist()), 1):
        weight = weights.left_out() if ones else weights.of_number(value, whole=True)
        if weight is None:
            raise NotUnderstood(f"entry {number}: {weights.text}", path=path)
        reading.sources.append(str(a + 1))
        reading.targets.append(str(b + 1))
        reading.weights.append(weight)
    weights.tell(reading)
    if symmetry == "general":
        check_directions(reading, options)
    return reading
