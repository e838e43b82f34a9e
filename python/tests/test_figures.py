"""Figures of schemes: by hand, and beside a judge that follows the definitions of docs/FORMATS.md node by node."""

from __future__ import annotations

import json
import subprocess
import sys
from collections.abc import Callable
from pathlib import Path
from typing import Any

import numpy as np
import pytest

import hizmorke
from hizmorke import errors
from hizmorke.device import Device
from hizmorke.figures import Figures, figures, shortest_distances
from hizmorke.network import Network
from hizmorke.programs import Programs
from hizmorke.words import LandmarkWords, drawn_pairs

Edges = list[tuple[int, int, int]]
FAR = 10**9


def device_of(found: Programs, path: Path, nodes: int, edges: Edges) -> Device:
    device = Device(path, found)
    device.format(nodes)
    for at in range(0, len(edges), 16):
        device.edit([("add", *edge) for edge in edges[at:at + 16]])
    return device


class Judge:
    """Trees, tables and ways of a scheme, by the definitions and all distances."""

    def __init__(self, nodes: int, edges: Edges, words: str) -> None:
        self.nodes = range(nodes)
        self.weight = {(a, b): w for a, b, w in edges} | {(b, a): w for a, b, w in edges}
        self.far = [[0 if a == b else self.weight.get((a, b), FAR) for b in self.nodes] for a in self.nodes]
        for k in self.nodes:
            for a in self.nodes:
                for b in self.nodes:
                    self.far[a][b] = min(self.far[a][b], self.far[a][k] + self.far[k][b])
        self.landmarks = LandmarkWords.parse(words, nodes).landmarks()
        near = [min([self.far[a][v] for a in self.landmarks], default=FAR) for v in self.nodes]
        self.trees = [
            {v for v in self.nodes if v == r or self.far[r][v] < (FAR if r in self.landmarks else near[v])}
            for r in self.nodes
        ]

    def parent(self, root: int, node: int) -> int:
        far = self.far[root]
        return min(y for y in self.nodes if (y, node) in self.weight and far[y] + self.weight[y, node] == far[node])

    def way_up(self, root: int, node: int) -> list[int]:
        way = [node]
        while way[-1] != root:
            way.append(self.parent(root, way[-1]))
        return way

    def light_edges(self, root: int) -> int:
        """The light edges above all members of a tree."""
        sizes = dict.fromkeys(self.trees[root], 0)
        for member in self.trees[root]:
            for node in self.way_up(root, member):
                sizes[node] += 1
        heavy = {}
        for node in self.trees[root] - {root}:
            up = self.parent(root, node)
            if up not in heavy or (-sizes[node], node) < (-sizes[heavy[up]], heavy[up]):
                heavy[up] = node
        ways = [self.way_up(root, member)[:-1] for member in self.trees[root]]
        return sum(node != heavy[self.parent(root, node)] for way in ways for node in way)

    def table(self, node: int) -> tuple[int, int, int]:
        entries = sum(node in tree for tree in self.trees)
        if node in self.landmarks:
            return entries, 0, 13 * entries
        members = len(self.trees[node])
        return entries, members, 13 * entries + 8 * members + 2 * self.light_edges(node)

    def length(self, a: int, b: int) -> int:
        root = a
        if a in self.landmarks or b not in self.trees[a]:
            reaching = [landmark for landmark in self.landmarks if self.far[landmark][b] < FAR]
            if not reaching:
                return -1
            root = min(reaching, key=lambda landmark: (self.far[landmark][b], landmark))
            if a not in self.trees[root]:
                return -1
        up, down = self.way_up(root, a), self.way_up(root, b)
        top = next(node for node in up if node in down)
        return self.far[root][a] + self.far[root][b] - 2 * self.far[root][top]


@pytest.mark.parametrize("words", ["none", "at:0", "at:3,9,17", "draw:1", "draw:2", "draw:9"])
@pytest.mark.parametrize(("nodes", "edge_count"), [(18, 17), (20, 45), (24, 26)])
def test_as_the_definitions_say(
    found: Programs,
    tmp_path: Path,
    drawn_edges: Callable[[int, int, int], Edges],
    nodes: int,
    edge_count: int,
    words: str,
) -> None:
    edges = drawn_edges(nodes, edge_count, 5)
    measured = figures(device_of(found, tmp_path / "net", nodes, edges), words, pairs=150, seed=3)
    judge = Judge(nodes, edges, words)
    assert measured.landmarks.tolist() == judge.landmarks
    rows = np.stack([measured.entries, measured.members, measured.table_bytes], axis=1)
    assert [tuple(row) for row in rows.tolist()] == [judge.table(node) for node in range(nodes)]
    assert list(map(tuple, measured.pairs.tolist())) == drawn_pairs(3, nodes, 150)
    for (a, b), length, shortest in zip(measured.pairs.tolist(), measured.lengths.tolist(), measured.shortest.tolist()):
        assert length == judge.length(a, b)
        assert shortest == (judge.far[a][b] if judge.far[a][b] < FAR else -1)
    with_way = measured.stretch[measured.reached]
    assert np.all(with_way >= 1) and np.all(with_way <= 3)
    assert np.all(np.isnan(measured.stretch[~measured.reached]))
    assert measured.generation == -(-len(edges) // 16)


def test_a_device_is_only_read(found: Programs, tmp_path: Path) -> None:
    device = device_of(found, tmp_path / "net", 5, [(0, 1, 1)])
    content = device.path.read_bytes()
    device.path.chmod(0o400)
    figures(device, "draw:1", pairs=20)
    assert device.path.read_bytes() == content and list(tmp_path.iterdir()) == [device.path]


def test_a_network(loading: Programs) -> None:
    network = Network(4, [(0, 1, 1), (1, 2, 1), (2, 3, 1), (0, 3, 1)], ["a", "b", "c", "d"])
    measured = figures(network, "at:0", pairs=8, programs=loading)
    assert measured.entries.tolist() == [1, 2, 4, 2] and measured.members.tolist() == [0, 2, 1, 2]
    # By its name in the package too, which is the module's once that is loaded.
    again = hizmorke.figures(network, "at:0", 8, programs=loading)
    assert list(again.lines()) == list(measured.lines())


@pytest.mark.parametrize(
    ("nodes", "edges", "words", "wanted"),
    [
        # Pages of conformance/figures.txt: a node whose way is three times the shortest, two parts, one node, no edges.
        (
            4,
            [(0, 1, 1), (1, 2, 1), (2, 3, 1), (0, 3, 1)],
            ("at:0", 8, 0),
            "4 1 2.250 4 0 1 2 1 1.250 2 1 1 2 39.250 60 157 6 24 8 0 1.250 1.000 3.000 3.000 3.000 0.875",
        ),
        (
            4,
            [(0, 1, 5), (2, 3, 5)],
            ("at:1", 8, 1),
            "4 1 1.750 2 0 1 3 1.250 2 1 1 2 32.750 42 131 6 24 8 4 1.000 1.000 1.000 1.000 1.000 1.000",
        ),
        (1, [], ("none", 1_000, 0), "1 0 1.000 1 0 1 1.000 1 0 1 21.000 21 21 0 0 0 0 none none none none none none"),
        (1, [], ("at:0", 1_000, 0), "1 1 1.000 1 0 1 0.000 0 1 13.000 13 13 0 0 0 0 none none none none none none"),
        (3, [], ("at:1", 5, 0), "3 1 1.000 1 0 3 0.667 1 1 2 18.333 21 55 4 12 5 5 none none none none none none"),
    ],
)
def test_figures_of_small_networks(
    found: Programs, tmp_path: Path, nodes: int, edges: Edges, words: tuple[str, int, int], wanted: str
) -> None:
    measured = figures(device_of(found, tmp_path / "net", nodes, edges), words[0], words[1], words[2])
    assert [value for _, value, _ in measured.rows()] == wanted.split()


def by_hand(**changed: list[int] | list[list[int]]) -> Figures:
    """Figures of three nodes whose second is the landmark, of which the arrays may be changed."""
    arrays: dict[str, list[int] | list[list[int]]] = {
        "entries": [2, 1, 2],
        "members": [1, 0, 1],
        "table_bytes": [34, 13, 34],
        "pairs": [[0, 1], [0, 2], [2, 0], [1, 2]],
        "lengths": [5, 12, -1, 7],
        "shortest": [5, 8, -1, 7],
    } | changed
    made = {name: np.array(rows, dtype=np.int64) for name, rows in arrays.items()}
    return Figures(LandmarkWords.parse("at:1", 3), 4, **made)


def test_lines() -> None:
    wanted = """nodes=3 unit=nodes
landmarks=1 unit=nodes
entries_mean=1.667 unit=entries
entries_greatest=2 unit=entries
entries_of_0=0 unit=nodes
entries_of_1=1 unit=nodes
entries_of_2_to_3=2 unit=nodes
directory_mean=0.667 unit=members
directory_greatest=1 unit=members
directory_of_0=1 unit=nodes
directory_of_1=2 unit=nodes
table_mean=27.000 unit=bytes
table_greatest=34 unit=bytes
tables_all=81 unit=bytes
full_table=4 unit=bytes
full_tables_all=12 unit=bytes
pairs=4 unit=pairs
unreachable=1 unit=pairs
stretch_mean=1.167 unit=times
stretch_p50=1.000 unit=times
stretch_p95=1.500 unit=times
stretch_p99=1.500 unit=times
stretch_greatest=1.500 unit=times
exact_share=0.667 unit=share
""".splitlines()
    measured = by_hand()
    assert list(measured.lines()) == wanted
    pairs = [line.split(" unit=") for line in wanted]
    rows = [(*left.split("="), unit) for left, unit in pairs]
    assert list(measured.lines(form="csv")) == ["name,value,unit", *map(",".join, rows)]
    [line] = measured.lines(form="json")
    assert json.loads(line) == [{"name": name, "value": value, "unit": unit} for name, value, unit in rows]
    assert line.startswith('[{"name":"nodes","value":"3","unit":"nodes"},{"name":"landmarks",')


def test_lines_of_nodes() -> None:
    measured = by_hand()
    assert list(measured.lines(by_node=True)) == [
        "node=0 entries=2 members=1 bytes=34 sent=2 stretch_mean=1.250 stretch_greatest=1.500",
        "node=1 entries=1 members=0 bytes=13 sent=1 stretch_mean=1.000 stretch_greatest=1.000",
        "node=2 entries=2 members=1 bytes=34 sent=1 stretch_mean=none stretch_greatest=none",
    ]
    assert list(measured.lines(by_node=True, form="csv"))[:2] == [
        "node,entries,members,bytes,sent,stretch_mean,stretch_greatest",
        "0,2,1,34,2,1.250,1.500",
    ]
    [line] = measured.lines(by_node=True, form="json")
    first = '{"node":0,"entries":2,"members":1,"bytes":34,"sent":2,"stretch_mean":"1.250","stretch_greatest":"1.500"}'
    assert line.startswith(f"[{first},") and len(json.loads(line)) == 3


def test_roundings() -> None:
    # 2001 over 2000 and 2003 over 2000 are halves of a thousandth, and go up; 6668 over 5000 is 1.3336.
    measured = by_hand(
        pairs=[[0, 1]] * 3, lengths=[2001, 2003, 6668], shortest=[2000, 2000, 5000]
    )
    assert measured.thousandths.tolist() == [1001, 1002, 1334]
    values = {name: value for name, value, _ in measured.rows()}
    # The mean of the rounded ones: 3.337 over 3.
    assert values["stretch_mean"] == "1.112" and values["exact_share"] == "0.000"
    assert values["stretch_p50"] == "1.002" and values["stretch_p95"] == "1.334"


def test_places_of_a_hundred() -> None:
    many = by_hand(pairs=[[0, 1]] * 100, lengths=list(range(1001, 1101)), shortest=[1000] * 100)
    values = {name: value for name, value, _ in many.rows()}
    named = [values[f"stretch_{name}"] for name in ("p50", "p95", "p99", "greatest")]
    assert named == ["1.050", "1.095", "1.099", "1.100"]


@pytest.mark.parametrize(
    ("words", "pairs", "seed", "text"),
    [
        ("every", 1, 0, "words not understood"),
        ("at:5", 1, 0, "words not understood"),
        ("none", 32_768, 0, "pairs not understood"),
        ("none", -1, 0, "pairs not understood"),
        ("none", 1, 2**64, "seed not understood"),
    ],
)
def test_what_is_not_understood(found: Programs, tmp_path: Path, words: str, pairs: int, seed: int, text: str) -> None:
    device = device_of(found, tmp_path / "net", 5, [])
    with pytest.raises(errors.NotUnderstood, match=f"^{text}$"):
        figures(device, words, pairs, seed)


def test_words_are_judged_before_a_device_and_its_nodes_after_it(found: Programs, tmp_path: Path) -> None:
    device = Device(tmp_path / "no", found)
    with pytest.raises(errors.WordsNotUnderstood):
        figures(device, "every")
    with pytest.raises(errors.FileUnusable, match="no: device file cannot be used"):
        figures(device, "at:5")


def test_shortest_distances_by_all_distances(drawn_edges: Callable[[int, int, int], Edges]) -> None:
    for seed in range(12):
        nodes = 30
        edges = drawn_edges(nodes, 24 + 4 * seed, seed)
        judge, network = Judge(nodes, edges, "none"), Network(nodes, edges)
        pairs = np.array([(a, b) for a in range(nodes) for b in range(nodes) if a != b])
        exact = np.array([judge.far[a][b] if judge.far[a][b] < FAR else -1 for a, b in pairs.tolist()])
        # The length of some walk: the shortest, or up to three times as long.
        for times in (1, 1.5, 3):
            lengths = np.where(exact < 0, -1, np.floor(exact * times)).astype(np.int64)
            assert np.array_equal(shortest_distances(network, pairs, lengths), exact)


def test_ways_that_are_none_of_the_network() -> None:
    network = Network(4, [(0, 1, 4), (1, 2, 5)])
    pairs = np.array([(0, 2)])
    assert shortest_distances(network, pairs, np.array([9])).tolist() == [9]
    for length in (8, -1):
        with pytest.raises(errors.AnswerNotUnderstood):
            shortest_distances(network, pairs, np.array([length]))
    with pytest.raises(errors.AnswerNotUnderstood):
        shortest_distances(network, np.array([(0, 3)]), np.array([7]))
    assert len(shortest_distances(network, np.empty((0, 2), dtype=np.int64), np.empty(0, dtype=np.int64))) == 0


def test_another_folder_where_there_is_no_room(
    found: Programs, tmp_path: Path, monkeypatch: pytest.MonkeyPatch
) -> None:
    device = device_of(found, tmp_path / "net", 5, [(0, 1, 1)])
    asked: list[Path] = []
    measuring = sys.modules["hizmorke.figures"]
    whole = measuring._measured

    def no_room_at_first(source: Device, words: str, drawn: Any, programs: None, room: Path, progress: Any) -> Figures:
        asked.append(room)
        if len(asked) == 1:
            raise errors.TableFileUnwritable(path=str(room))
        measured: Figures = whole(source, words, drawn, programs, room, progress)
        return measured

    monkeypatch.setattr(measuring, "_folders", lambda: [tmp_path, None])
    monkeypatch.setattr(measuring, "_measured", no_room_at_first)
    assert figures(device, "none", 3).node_count == 5
    assert len(asked) == 2 and asked[0].parent == tmp_path and not any(room.exists() for room in asked)


def test_the_name_in_the_package_is_the_function() -> None:
    program = "import hizmorke.figures; import hizmorke; hizmorke.figures(None, 'every')"
    call = [sys.executable, "-B", "-c", program]
    done = subprocess.run(call, capture_output=True, text=True, check=False, env={"PYTHONPATH": ":".join(sys.path)})
    assert done.returncode == 1 and "WordsNotUnderstood: words not understood" in done.stderr


def test_progress_is_told(found: Programs, tmp_path: Path) -> None:
    told: list[tuple[str, float]] = []
    figures(device_of(found, tmp_path / "net", 5, [(0, 1, 1)]), "none", 3, progress=lambda *each: told.append(each))
    stages = [stage for stage, _ in told]
    assert stages == [
        "copying the network",
        "building tables",
        "writing tables",
        "sending packets",
        "searching shortest ways",
    ]
    assert all(0 <= share <= 1 for _, share in told)
