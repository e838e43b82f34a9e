"""Networks as text, in each form that is written."""

from __future__ import annotations

import io
import json
import re
from collections.abc import Callable, Sequence
from typing import TYPE_CHECKING, Any

from hizmorke.errors import NetworkRefused

if TYPE_CHECKING:
    from hizmorke.network import Network

# For each node its nearest landmark, and that landmark's place among all, from 0; None where no landmark reaches it.
Marks = Sequence["tuple[int, int] | None"]

_COLOURS = 12
_SEPARATORS = re.compile("[\n\t\r ,]")
# A backslash that stands alone before a quotation mark, or at the end: in the language of graphviz it can't be written
# so.
_LONE_BACKSLASH = re.compile(r'(?<!\\)(?:\\\\)*\\(?="|\Z)')
_NOT_XML = re.compile("[^\t\x20-\ud7ff\ue000-\ufffd\U00010000-\U0010ffff]")


def _refused(name: str, form: str) -> NetworkRefused:
    return NetworkRefused(f"the name `{name}` can't stand in {form}")


def _needs_rows(network: Network) -> bool:
    # Whether lines of words can't say the edges: a name has a blank or a comma, or begins with `#`, or a line would
    # begin with `#3`.
    if network.names is None:
        return False
    for node, name in enumerate(network.names):
        if name != f"#{node}" and (name[0] == "#" or _SEPARATORS.search(name) is not None):
            return True
    named = {node for node, name in enumerate(network.names) if name != f"#{node}"}
    return any(min(a, b) not in named for a, b, _ in network.edges)


def edges_text(network: Network) -> str:
    """An edge list that keeps all nodes and their order; its lines are records of CSV where a name can't stand among
    words."""
    names = network.spelled()
    head = [f"# nodes={network.node_count}\n"]
    if network.names is not None:
        head += [f"# {name}\n" for name in names]
    if _needs_rows(network):
        return "".join(head) + csv_text(network)
    return "".join(head) + "".join([f"{names[a]} {names[b]} {weight}\n" for a, b, weight in network.ascending()])


def _field(name: str) -> str:
    if '"' in name:
        name = name.replace('"', '""')
        return f'"{name}"'
    return f'"{name}"' if "," in name or "#" in name or "\r" in name or "\n" in name else name


def csv_text(network: Network) -> str:
    """Records ``A,B,W`` under ``a,b,weight``."""
    fields = network.spelled() if network.names is None else [_field(name) for name in network.spelled()]
    return "a,b,weight\n" + "".join([f"{fields[a]},{fields[b]},{weight}\n" for a, b, weight in network.ascending()])


def dimacs_text(network: Network) -> str:
    """DIMACS: ``p sp N M``, and an arc each way for each edge. Nodes stand by number, from 1."""
    arcs = [f"a {a + 1} {b + 1} {weight}\na {b + 1} {a + 1} {weight}\n" for a, b, weight in network.ascending()]
    return f"p sp {network.node_count} {2 * len(arcs)}\n" + "".join(arcs)


def json_text(network: Network) -> str:
    """Node-link JSON in one line, as networkx has it: no blanks, keys ascending."""
    quoted = json.JSONEncoder(ensure_ascii=False).encode
    names = network.spelled() if network.names is None else [quoted(name) for name in network.spelled()]
    edges = network.ascending()
    links = ",".join([f'{{"source":{names[a]},"target":{names[b]},"weight":{weight}}}' for a, b, weight in edges])
    nodes = ",".join([f'{{"id":{name}}}' for name in names])
    return f'{{"directed":false,"edges":[{links}],"graph":{{}},"multigraph":false,"nodes":[{nodes}]}}\n'


def _dot_name(node: int, name: str) -> str:
    # Only a quotation mark needs a backslash: graphviz keeps all others.
    if name[0] == "%" or ("\\" in name and _LONE_BACKSLASH.search(name) is not None):
        return f'"#{node}"'
    quoted = name.replace('"', '\\"')
    return f'"{quoted}"'


def dot_text(network: Network, marks: Marks | None = None) -> str:
    """A network in the language of graphviz; with marks a picture of its landmarks and of the nodes that are nearest to
    each.

    A node is called by its number where graphviz can't read its name: with ``%`` in front, or with one backslash, or
    three, before a quotation mark or at its end.
    """
    names = [_dot_name(node, name) for node, name in enumerate(network.spelled())]
    lines = ["graph network {\n"]
    for node, mark in enumerate(marks or ()):
        if mark is None:
            lines.append(f"    {names[node]};\n")
            continue
        landmark, place = mark
        shape = "shape=doublecircle, " if landmark == node else ""
        colour = f'style=filled, fillcolor="/set312/{place % _COLOURS + 1}"'
        lines.append(f"    {names[node]} [{shape}{colour}, landmark={names[landmark]}];\n")
    lines += [f"    {names[a]} -- {names[b]} [label={weight}];\n" for a, b, weight in network.ascending()]
    lines.append("}\n")
    return "".join(lines)


def _graph_of(network: Network) -> Any:
    # The graph of networkx, its edges in ascending order; it says whether its nodes are called by names.
    from hizmorke.forms.graphs import CALLED, networkx_module

    graph = networkx_module().Graph()
    names = network.spelled()
    graph.graph[CALLED] = "numbers" if network.names is None else "names"
    graph.add_nodes_from(names)
    graph.add_weighted_edges_from((names[a], names[b], weight) for a, b, weight in network.ascending())
    return graph


def graphml_text(network: Network) -> str:
    """GraphML by networkx. The attribute ``called`` of the graph says whether nodes are called by names or by numbers.
    """
    from hizmorke.forms.graphs import networkx_module

    for name in network.names or ():
        if _NOT_XML.search(name) is not None:
            raise _refused(name, "GraphML")
    return "\n".join(networkx_module().generate_graphml(_graph_of(network))) + "\n"


def gml_text(network: Network) -> str:
    """GML by networkx; ``called`` as in GraphML."""
    from hizmorke.forms.graphs import networkx_module

    return "\n".join(networkx_module().generate_gml(_graph_of(network))) + "\n"


def pajek_text(network: Network) -> str:
    """Pajek: vertices in order, and edges. Nodes by number are called by their numbers."""
    names = network.spelled()
    for name in names:
        if any(sign in name for sign in "\"'\\"):
            raise _refused(name, "Pajek")
    vertices = "".join([f'{node} "{name}"\n' for node, name in enumerate(names, 1)])
    edges = "".join([f"{a + 1} {b + 1} {weight}\n" for a, b, weight in network.ascending()])
    return f"*vertices {network.node_count}\n{vertices}*edges\n{edges}"


def matrix_text(network: Network) -> str:
    """A symmetric integer matrix of MatrixMarket, by SciPy. Nodes stand by number, from 1."""
    from hizmorke.errors import PackageMissing

    try:
        import scipy.io
        import scipy.sparse
    except ImportError:
        raise PackageMissing("scipy") from None
    stream = io.BytesIO()
    scipy.io.mmwrite(stream, scipy.sparse.coo_matrix(network.matrix()), field="integer", symmetry="symmetric")
    return stream.getvalue().decode("ascii")


WRITERS: dict[str, Callable[[Network], str]] = {
    "edges": edges_text,
    "csv": csv_text,
    "dimacs": dimacs_text,
    "dot": dot_text,
    "json": json_text,
    "graphml": graphml_text,
    "gml": gml_text,
    "pajek": pajek_text,
    "mm": matrix_text,
}
