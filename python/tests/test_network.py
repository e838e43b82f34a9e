"""`Network`: what it says of itself, and its way from networkx and back."""

from __future__ import annotations

import warnings
from typing import Any

import pytest
from hypothesis import given, settings
from hypothesis import strategies as st

from hizmorke import Network
from hizmorke.errors import HizmorkeError, NetworkRefused, NotUnderstood

networkx = pytest.importorskip("networkx")

NAMED = Network(5, [(3, 0, 9), (0, 1, 5)], ["Bern", "#1", "Thun"])


def test_what_nodes_are_called() -> None:
    assert [NAMED.name_of(node) for node in range(5)] == ["Bern", "#1", "Thun", "#3", "#4"]
    assert list(NAMED.spelled()) == ["Bern", "#1", "Thun", "#3", "#4"]
    assert [NAMED.node(word) for word in ("Thun", '"Thun"', "#1", "#4")] == [2, 2, 1, 4]
    numbers = Network(2, [])
    assert (numbers.name_of(1), list(numbers.spelled())) == ("1", ["0", "1"])
    assert (numbers.node("1"), numbers.node("#0")) == (1, 0)
    for word in ("Genf", "3", "#5", ""):
        with pytest.raises(NotUnderstood, match=f"^no node named {word}$"):
            NAMED.node(word)
    with pytest.raises(IndexError):
        NAMED.name_of(5)


def test_edges_in_ascending_order() -> None:
    assert NAMED.ascending() == [(0, 1, 5), (0, 3, 9)]


def test_what_was_taken_makes_no_other_network() -> None:
    assert Network(1, [], None, "edges") == Network(1, [])


def test_arrays_and_matrix() -> None:
    numpy = pytest.importorskip("numpy")
    pytest.importorskip("scipy")
    a, b, weight = NAMED.arrays()
    assert (a.tolist(), b.tolist(), weight.tolist()) == ([3, 0], [0, 1], [9, 5])
    assert all(array.dtype == numpy.int64 and array.shape == (2,) for array in (a, b, weight))
    assert NAMED.matrix().toarray().tolist() == [[0, 5, 0, 9, 0], [5, 0, 0, 0, 0], [0] * 5, [9, 0, 0, 0, 0], [0] * 5]
    assert NAMED.matrix().dtype == numpy.int64
    assert [array.shape for array in Network(3, []).arrays()] == [(0,)] * 3
    assert Network(3, []).matrix().shape == (3, 3)


def test_from_networkx_keeps_order_and_names() -> None:
    graph = networkx.Graph([("Bern", "Thun", {"weight": 5}), ("Thun", "Spiez", {"road": "A8"})])
    graph.add_node("Chur")
    assert Network.from_networkx(graph) == Network(4, [(0, 1, 5), (1, 2, 1)], ["Bern", "Thun", "Spiez", "Chur"])
    graph = networkx.Graph([(2, 0, {"weight": 7}), (0, 1)])
    assert Network.from_networkx(graph) == Network(3, [(2, 0, 7), (0, 1, 1)])
    assert Network.from_networkx(networkx.Graph([(1, 2)])).names == ["1", "2"]
    assert Network.from_networkx(networkx.Graph([("0", "1")])).names == ["0", "1"]
    assert Network.from_networkx(networkx.Graph()) == Network(0, [])
    # More nodes than a device takes.
    assert Network.from_networkx(networkx.path_graph(20_000)).node_count == 20_000


def test_weights_are_scaled_with_one_warning() -> None:
    graph = networkx.Graph([(0, 1, {"km": 1.25}), (1, 2, {"km": 0.14}), (2, 3, {"km": 3}), (3, 4, {"km": 2.0})])
    with pytest.warns(UserWarning, match="^2 weights rounded, by at most 0.500$") as caught:
        network = Network.from_networkx(graph, weight="km", scale=10)
    assert len(caught) == 1
    assert network.edges == [(0, 1, 13), (1, 2, 1), (2, 3, 30), (3, 4, 20)]
    with warnings.catch_warnings():
        warnings.simplefilter("error")
        network = Network.from_networkx(graph, weight="km", scale=100)
        assert network.edges == [(0, 1, 125), (1, 2, 14), (2, 3, 300), (3, 4, 200)]
        assert Network.from_networkx(graph, weight=None).edges == [(0, 1, 1), (1, 2, 1), (2, 3, 1), (3, 4, 1)]


def test_numbers_of_numpy_are_weights() -> None:
    numpy = pytest.importorskip("numpy")
    weights = numpy.int64(5), numpy.float64(2.0), numpy.float32(0.5)
    graph = networkx.Graph()
    graph.add_weighted_edges_from((a, b, w) for (a, b), w in zip([(0, 1), (1, 2), (0, 2)], weights))
    assert Network.from_networkx(graph, scale=2).edges == [(0, 1, 10), (0, 2, 1), (1, 2, 4)]
    array = networkx.from_numpy_array(numpy.array([[0, 2.0], [2.0, 0]]))
    assert Network.from_networkx(array).edges == [(0, 1, 2)]


def refused(graph: Any, **options: Any) -> str:
    with pytest.raises(HizmorkeError) as caught:
        Network.from_networkx(graph, **options)
    assert isinstance(caught.value, (NotUnderstood, NetworkRefused))
    return f"{caught.value.status} {caught.value}"


WEIGHT = "the weight is a plain number below 4294967296"
ONE_WAY = (
    "the network is directed, and this way has none back of its weight: "
    "--undirected min takes the smaller weight of both"
)
LABEL = "a node's name has no blank at its ends and no line break in it, and begins with no `#` and a blank"
OTHERS = "it has no `weight`, but `cost`: --weight says which is the weight, or none"


@pytest.mark.parametrize(
    ("edges", "said"),
    [
        ([(1, "1", {})], "2 1 and '1' are two spellings of one name"),
        ([("a ", "b", {})], f"2 node 1: {LABEL}"),
        ([("a", "b", {"cost": 5})], f"2 edge a b: {OTHERS}"),
        ([("a", "b", {"weight": "5"})], f"2 edge a b: {WEIGHT}"),
        ([("a", "b", {"weight": -1})], f"2 edge a b: {WEIGHT}"),
        ([("a", "b", {"weight": float("nan")})], f"2 edge a b: {WEIGHT}"),
        ([("a", "b", {"weight": float("inf")})], f"2 edge a b: {WEIGHT}"),
        ([("a", "b", {"weight": None})], f"2 edge a b: {WEIGHT}"),
        ([("a", "b", {"weight": True})], f"2 edge a b: {WEIGHT}"),
        ([("a", "b", {"weight": 0})], "1 edge a b: the weight is out of range"),
        ([("a", "b", {"weight": 1_000_001})], "1 edge a b: the weight is out of range"),
        ([("a", "a", {})], "1 edge a a: both ends are one node"),
        ([("a", "#5", {})], "1 node 2: `#5` is no number of a node, 0 to 1"),
    ],
)
def test_what_a_graph_is_refused_for(edges: list[tuple[Any, Any, dict[str, Any]]], said: str) -> None:
    assert refused(networkx.Graph(edges)) == said


def test_directed_graphs_and_parallel_edges() -> None:
    graph = networkx.DiGraph([(0, 1, {"weight": 5}), (1, 0, {"weight": 5})])
    assert Network.from_networkx(graph).edges == [(0, 1, 5)]
    graph.add_edge(2, 1, weight=7)
    graph.add_edge(1, 2, weight=3)
    assert refused(graph) == f"2 edge 1 2: {ONE_WAY}"
    assert Network.from_networkx(graph, undirected="min").edges == [(0, 1, 5), (1, 2, 3)]
    assert refused(graph, undirected="max") == "2 --undirected takes min"
    many = networkx.MultiGraph([(0, 1, {"weight": 5}), (0, 1, {"weight": 5})])
    assert Network.from_networkx(many).edges == [(0, 1, 5)]
    many.add_edge(0, 1, weight=6)
    assert refused(many) == "2 edge 0 1: edge 0 1 has another weight for this edge; --least takes the smaller weight"
    assert Network.from_networkx(many, undirected="min").edges == [(0, 1, 5)]


def test_an_internet_graph_comes_in_by_numbers() -> None:
    graph = networkx.random_internet_as_graph(300, seed=1)
    network = Network.from_networkx(graph)
    assert (network.node_count, network.names) == (300, None)
    assert {frozenset(edge[:2]) for edge in network.edges} == {frozenset(edge) for edge in graph.edges}
    assert {edge[2] for edge in network.edges} == {1}


@settings(max_examples=50, deadline=None)
@given(st.integers(1, 12), st.data())
def test_there_and_back(nodes: int, data: st.DataObject) -> None:
    pairs = [(a, b) for a in range(nodes) for b in range(a + 1, nodes)]
    chosen = data.draw(st.lists(st.sampled_from(pairs), unique=True)) if pairs else []
    names = data.draw(st.none() | st.just([f"n{node}" for node in range(nodes // 2)]))
    network = Network(nodes, [(a, b, data.draw(st.integers(1, 1_000_000))) for a, b in chosen], names)
    graph = network.to_networkx()
    assert [str(node) for node in graph.nodes] == network.spelled()
    found = Network.from_networkx(graph)
    assert (found.node_count, found.ascending(), found.names) == (nodes, network.ascending(), network.names)
