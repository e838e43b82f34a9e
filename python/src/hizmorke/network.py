"""`Network`: nodes, maybe with names, and edges with weights."""

from __future__ import annotations

import os
from collections.abc import Hashable
from dataclasses import dataclass, field
from typing import IO, Any

from hizmorke import names as node_names
from hizmorke.errors import NotUnderstood

Edge = tuple[int, int, int]

MOST_WEIGHT = 1_000_000


@dataclass
class Network:
    """An undirected network.

    Parameters
    ----------
    node_count : int
        The number of nodes, which are 0 to ``node_count - 1``. A device takes 1 to 16,384.
    edges : list of (int, int, int)
        The ends and the weight of each edge, 1 to 1,000,000; each pair of nodes once, no node joined to itself.
    names : list of str, optional
        ``names[i]`` is node i's name. The nodes behind the last name have none, nor has one whose place says ``#i``.
        None: nodes are called by their numbers.
    taken : str, optional
        What a reader took, in one line.

    Examples
    --------
    >>> network = Network(3, [(1, 0, 5), (1, 2, 7)], ["Bern", "Thun"])
    >>> network.name_of(0), network.name_of(2), network.node("Thun")
    ('Bern', '#2', 1)
    >>> network.ascending()
    [(0, 1, 5), (1, 2, 7)]
    """

    node_count: int
    edges: list[Edge]
    names: list[str] | None = None
    taken: str | None = field(default=None, compare=False)

    @classmethod
    def read(cls, path: str | os.PathLike[str], form: str | None = None, **options: Any) -> Network:
        """Read a network from a file, as `hizmorke.read` does.

        Parameters
        ----------
        path : str or path
            The file.
        form : str, optional
            One of `hizmorke.forms.FORMS_IN`; None: the file tells it.
        **options
            As `hizmorke.read` takes them.

        Raises
        ------
        NotUnderstood, NetworkRefused
            With the file, and the line where the form has lines.
        """
        from hizmorke.forms import read

        return read(path, form, **options)

    @classmethod
    def from_networkx(
        cls, graph: Any, *, weight: str | None = "weight", scale: int = 1, undirected: str | None = None
    ) -> Network:
        """Take a graph of networkx.

        Parameters
        ----------
        graph : networkx.Graph
            The graph. If its nodes are the numbers 0 to n - 1, they are these nodes; else their texts are names, in the
            graph's order.
        weight : str, optional
            The attribute that has the weight. An edge without any number among its attributes has the weight 1. None:
            all have.
        scale : int
            Weights are multiplied by this and rounded, a half up. One warning says how many were rounded.
        undirected : str, optional
            ``"min"`` takes the least weight of both ways of a directed graph, and of parallel edges; else these must be
            there and agree.

        Raises
        ------
        NotUnderstood
            If two nodes have one text, a text is no name, a weight is no number or is missing beside other numbers, or
            the graph is directed.
        NetworkRefused
            If a weight isn't 1 to 1,000,000 then, or an edge joins a node to itself.
        """
        from hizmorke.forms.graphs import network_of_graph

        return network_of_graph(graph, weight=weight, scale=scale, undirected=undirected)

    def to_networkx(self, *, scale: int = 1) -> Any:
        """This network as a `networkx.Graph`: nodes are numbers, or names in their order, edges have ``weight``.

        Parameters
        ----------
        scale : int
            Weights are divided by this, so `from_networkx` of the same scale takes them back. 1: they stay ints.
        """
        from hizmorke.forms.graphs import networkx_module

        graph = networkx_module().Graph()
        nodes: list[Hashable] = list(range(self.node_count)) if self.names is None else [*self.spelled()]
        graph.add_nodes_from(nodes)
        graph.add_weighted_edges_from((nodes[a], nodes[b], w if scale == 1 else w / scale) for a, b, w in self.edges)
        return graph

    def write(self, to: str | os.PathLike[str] | IO[str], form: str = "edges") -> None:
        """Write this network to a path or an open text stream; ``form`` is one of `hizmorke.forms.FORMS_OUT`."""
        from hizmorke.forms import write

        write(self, to, form)

    def arrays(self) -> tuple[Any, Any, Any]:
        """The ends and weights of the edges: three NumPy arrays of int64, each of shape ``(len(edges),)``."""
        import numpy

        if not self.edges:
            return numpy.zeros(0, numpy.int64), numpy.zeros(0, numpy.int64), numpy.zeros(0, numpy.int64)
        table = numpy.array(self.edges, dtype=numpy.int64)
        return table[:, 0].copy(), table[:, 1].copy(), table[:, 2].copy()

    def matrix(self) -> Any:
        """The weights as a symmetric `scipy.sparse.csr_matrix` of int64 and shape ``(node_count, node_count)``."""
        import numpy
        import scipy.sparse

        a, b, weight = self.arrays()
        rows, columns = numpy.concatenate((a, b)), numpy.concatenate((b, a))
        shape = (self.node_count, self.node_count)
        return scipy.sparse.csr_matrix((numpy.concatenate((weight, weight)), (rows, columns)), shape=shape)

    def ascending(self) -> list[Edge]:
        """The edges in ascending order, the smaller end of each first."""
        return sorted([(a, b, w) if a < b else (b, a, w) for a, b, w in self.edges])

    def spelled(self) -> list[str]:
        """What each node is called, in order: its name, ``#3`` where it has none, or numbers where nodes have none."""
        if self.names is None:
            return [str(node) for node in range(self.node_count)]
        return self.names[: self.node_count] + [f"#{node}" for node in range(len(self.names), self.node_count)]

    def name_of(self, node: int) -> str:
        """What a node is called: its name, ``#3`` where it has none, or its number where nodes have none."""
        if not 0 <= node < self.node_count:
            raise IndexError(f"there is no node {node}")
        if self.names is None:
            return str(node)
        return self.names[node] if node < len(self.names) else f"#{node}"

    def node(self, text: str) -> int:
        """The node that a text names: a name, maybe in quotation marks, ``#5``, or a number where nodes have no names.

        Raises
        ------
        NotUnderstood
            ``no node named X``.
        """
        node = node_names.parse_node(text, self.names)
        if node is None or node >= self.node_count:
            raise NotUnderstood(f"no node named {text}")
        return node
