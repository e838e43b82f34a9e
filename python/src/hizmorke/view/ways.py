"""What a picture shows of a network beside its packets: shortest ways, clusters, what is near, and what is joined."""

from __future__ import annotations

from collections.abc import Collection, Iterable, Sequence
from typing import TYPE_CHECKING

import numpy as np

from hizmorke.network import Network

if TYPE_CHECKING:
    from typing import Any

    from numpy.typing import NDArray

Pair = tuple[int, int]


def pair_of(a: int, b: int) -> Pair:
    """The two ends of an edge, the smaller one first."""
    return (a, b) if a < b else (b, a)


def without(network: Network, failed: Collection[Pair]) -> Network:
    """The network without some edges.

    Parameters
    ----------
    network : Network
        The network.
    failed : collection of (int, int)
        The ends of each, the smaller one first.
    """
    if not failed:
        return network
    edges = [edge for edge in network.edges if pair_of(edge[0], edge[1]) not in failed]
    return Network(network.node_count, edges, network.names)


class Ways:
    """Distances in a network, by SciPy.

    Parameters
    ----------
    network : Network
        The network.
    """

    def __init__(self, network: Network) -> None:
        self.network = network
        self.matrix: Any = network.matrix().astype(np.float64)

    def shortest(self, a: int, b: int) -> list[int] | None:
        """The nodes of a shortest way; None where no way leads there.

        Examples
        --------
        >>> Ways(Network(3, [(0, 1, 1), (1, 2, 1), (0, 2, 5)])).shortest(0, 2)
        [0, 1, 2]
        """
        from scipy.sparse.csgraph import dijkstra

        distances, before = dijkstra(self.matrix, indices=a, return_predecessors=True)
        if not np.isfinite(distances[b]):
            return None
        way = [b]
        while way[-1] != a:
            way.append(int(before[way[-1]]))
        return way[::-1]

    def length(self, way: Sequence[int]) -> int:
        """The sum of the weights on a way.

        Raises
        ------
        KeyError
            Two of its nodes that follow one another have no edge.
        """
        total = 0
        for a, b in zip(way, way[1:]):
            weight = int(self.matrix[a, b])
            if weight == 0:
                raise KeyError((a, b))
            total += weight
        return total

    def to_landmarks(self, landmarks: Sequence[int]) -> NDArray[np.float64]:
        """Each node's distance to its nearest landmark: shape (nodes,); infinite where none reaches it."""
        from scipy.sparse.csgraph import dijkstra

        if not landmarks:
            return np.full(self.network.node_count, np.inf)
        found: NDArray[np.float64] = dijkstra(self.matrix, indices=list(landmarks), min_only=True)
        return found

    def cluster(self, node: int, nearest: NDArray[np.float64]) -> tuple[list[int], list[int]]:
        """A node's cluster, and the nodes in whose clusters it is.

        Parameters
        ----------
        node : int
            The node. A landmark's cluster is told as itself alone: all nodes that it reaches are in its tree.
        nearest : array of float64, shape (nodes,)
            Each node's distance to its nearest landmark.

        Returns
        -------
        tuple of list of int
            Both ascending; the node itself is in both.

        Examples
        --------
        >>> ways = Ways(Network(5, [(0, 1, 1), (1, 2, 1), (2, 3, 1), (3, 4, 1)]))
        >>> ways.cluster(3, ways.to_landmarks([2]))
        ([3, 4], [3])
        """
        from scipy.sparse.csgraph import dijkstra

        own = dijkstra(self.matrix, indices=node)
        # Nodes that nothing reaches are nobody's: infinite isn't below infinite.
        members, holders = own < nearest, own < nearest[node]
        members[node] = holders[node] = True
        return np.flatnonzero(members).tolist(), np.flatnonzero(holders).tolist()

    def joined(self, node: int) -> NDArray[np.bool_]:
        """Which nodes some way joins to this one: shape (nodes,)."""
        from scipy.sparse.csgraph import connected_components

        _, part = connected_components(self.matrix, directed=False)
        found: NDArray[np.bool_] = part == part[node]
        return found

    def near(self, nodes: Iterable[int], most: int) -> list[int]:
        """Nodes near to some, by the number of edges and then of neighbours, these among them.

        Parameters
        ----------
        nodes : iterable of int
            The nodes.
        most : int
            How many are wanted; there are more where `nodes` are more.

        Returns
        -------
        list of int
            Ascending.
        """
        indptr, indices = self.matrix.indptr, self.matrix.indices
        degrees = np.diff(indptr)
        found = dict.fromkeys(nodes)
        layer = list(found)
        while layer and len(found) < most:
            beyond = {int(other) for node in layer for other in indices[indptr[node]:indptr[node + 1]]} - found.keys()
            # Of a layer that is too large those are taken that lead on to most others.
            layer = sorted(beyond, key=lambda other: (-int(degrees[other]), other))[: most - len(found)]
            found.update(dict.fromkeys(layer))
        return sorted(found)

    def hubs(self) -> list[int]:
        """The nodes with most neighbours, as many as the square root of the number of nodes: ascending."""
        degrees = np.diff(self.matrix.indptr)
        order = np.lexsort((np.arange(len(degrees)), -degrees))
        many = int(np.sqrt(self.network.node_count))
        return sorted(int(node) for node in order[:many])
