"""What the page is told: ways, clusters, tables, what still goes, figures, layouts."""

from __future__ import annotations

import random
from pathlib import Path

import pytest

np = pytest.importorskip("numpy")
pytest.importorskip("scipy")

from hizmorke.device import Device
from hizmorke.network import Network
from hizmorke.programs import Programs
from hizmorke.view.jobs import Job, Jobs
from hizmorke.view.layout import laid_out, positions
from hizmorke.view.model import CALLS, MOST_WHOLE
from hizmorke.view.ways import Ways

from view_running import Serve


def drawn(nodes: int, edges: int, seed: int) -> Network:
    numbers = random.Random(seed)
    pairs = numbers.sample([(a, b) for a in range(nodes) for b in range(a)], edges)
    return Network(nodes, [(a, b, numbers.randint(1, 9)) for a, b in pairs])


def test_a_packet_shows_its_way_and_bytes(serve: Serve, path_network: Network, library: None) -> None:
    running = serve(path_network, words="at:2")
    told = running.ask("packet", choice="given", **{"from": 0, "to": 4})
    assert [step["node"] for step in told["steps"]] == [0, 1, 2, 3, 4]
    assert [step["port"] for step in told["steps"]] == [0, 1, 1, 1, None]
    # docs/FORMATS.md: the address of 4 is landmark 2, number 4, and one light port: port 1 of node 2.
    assert [(step["root"], step["label"], step["ports"], step["hops_left"]) for step in told["steps"]] == [
        (2, 4, [1], left) for left in (4, 3, 2, 1, 0)
    ]
    assert "".join(digits for _, digits in told["steps"][0]["fields"]) == "0000000000000001" "0004" "0002" "0004" "0004" "010001" + 48 * "0"
    assert (told["length"], told["shortest_length"], told["shortest"], told["lost_at"]) == (4, 4, [0, 1, 2, 3, 4], None)


def test_ways_are_those_of_the_program(serve: Serve, found: Programs, tmp_path: Path, library: None) -> None:
    network = drawn(30, 50, 3)
    running = serve(network)
    device = Device(tmp_path / "net", found)
    numbers = random.Random(1)
    for choice, words in (("draw", "draw:7"), ("none", "none")):
        pairs = [(numbers.randrange(30), numbers.randrange(30)) for _ in range(20)]
        for (a, b), route in zip(pairs, device.route(pairs, words)):
            told = running.ask("packet", choice=choice, **{"from": a, "to": b})
            if route is None:
                assert told["refused"] == "no way leads there" and told["shortest"] is None
            else:
                assert (tuple(step["node"] for step in told["steps"]), told["length"]) == (route.nodes, route.length)
                assert told["shortest_length"] <= route.length <= 3 * told["shortest_length"]


@pytest.mark.parametrize("choice", ["none", "draw", "hubs", "best"])
def test_clusters_by_distances_are_those_of_the_tables(serve: Serve, library: None, choice: str) -> None:
    # Parts that aren't joined, and nodes without an edge.
    network = drawn(40, 44, 5)
    running = serve(network)
    scheme = running.ask("scheme", choice=choice)
    landmarks = set(scheme["landmarks"])
    ways = Ways(network)
    for node in range(network.node_count):
        told = running.ask("node", choice=choice, node=node)
        reaching = sum(bool(ways.joined(node)[landmark]) for landmark in landmarks)
        assert told["is_landmark"] == (node in landmarks)
        assert told["entries"] == reaching + len(told["holders"])
        assert told["members"] == (0 if told["is_landmark"] else len(told["cluster"]))
        assert told["bytes"] > 100
        assert [other for other, _ in told["ports"]] == sorted(
            {b if a == node else a for a, b, _ in network.edges if node in (a, b)}
        )


def test_edges_that_fail_say_what_still_goes(serve: Serve, library: None) -> None:
    # A ring of five with a tail: 0 1 2 3 4 and 5 behind 4.
    network = Network(6, [(0, 1, 1), (1, 2, 1), (2, 3, 1), (3, 4, 1), (0, 4, 1), (4, 5, 1)])
    running = serve(network, words="at:0")
    asked = {"choice": "given", "from": 0, "to": 1, "failed": [[1, 0]]}
    told = running.ask("packet", **asked)
    assert told["lost_at"] == 0 and [step["node"] for step in told["steps"]] == [0]
    assert told["shortest"] == [0, 4, 3, 2, 1] and told["shortest_length"] == 4
    anew = running.ask("packet", **asked, anew=True)
    assert [step["node"] for step in anew["steps"]] == [0, 4, 3, 2, 1] and anew["length"] == 4
    reached = running.ask("reach", **asked)
    assert 0 in reached["still"] and 4 in reached["still"] and 5 in reached["still"] and 1 in reached["anew"]
    assert reached["cut"] == []
    assert sorted(reached["still"] + reached["anew"]) == [0, 1, 2, 3, 4, 5]
    reached = running.ask("reach", **{**asked, "failed": [[4, 5]]})
    assert reached["cut"] == [5] and reached["anew"] == []


def test_figures_are_those_of_the_command(serve: Serve, found: Programs, tmp_path: Path) -> None:
    from hizmorke.figures import figures

    network = drawn(40, 80, 7)
    running = serve(network)
    told = running.ask("figures", choice="draw")
    expected = figures(Device(tmp_path / "net", found), "draw:7")
    assert [tuple(row) for row in told["rows"]] == expected.rows()
    assert sum(told["bytes"]["counts"]) == 40 and sum(told["stretch"]["counts"]) == int(expected.reached.sum())


def test_a_large_network_is_shown_in_parts(serve: Serve) -> None:
    count = MOST_WHOLE + 500
    running = serve(Network(count, [(node, node + 1, 1) for node in range(count - 1)]))
    told = running.ask("network")
    assert not told["is_whole"] and told["nodes"] == count
    part = running.ask("part", near=[2_000, 10])
    assert {2_000, 10} <= set(part["nodes"]) and len(part["nodes"]) < 600
    assert len(part["x"]) == len(part["nodes"])
    assert all(node in set(part["nodes"]) for at, node in enumerate(part["edges"]) if at % 3 < 2)


def test_a_device_that_changes_is_read_again(serve: Serve, found: Programs, tmp_path: Path, path_network: Network) -> None:
    running = serve(path_network)
    assert running.ask("network")["edges"] == 4
    Device(tmp_path / "net", found).edit([("add", 0, 4, 3)])
    assert running.ask("network")["edges"] == 4
    running.ask("again")
    told = running.ask("network")
    assert (told["edges"], told["count"], told["age"]) == (5, 2, 1)


def test_the_device_is_left_as_it_was(serve: Serve, tmp_path: Path, path_network: Network, library: None) -> None:
    running = serve(path_network)
    before = {file.name: file.read_bytes() for file in tmp_path.iterdir() if file.is_file()}
    for name in CALLS:
        if name not in ("service", "edit"):
            running.ask(name, choice="draw", node=1, near=[], failed=[[0, 1]], **{"from": 0, "to": 4})
    assert {file.name: file.read_bytes() for file in tmp_path.iterdir() if file.is_file()} == before


def test_what_was_made_is_gone_at_the_end(serve: Serve, path_network: Network, library: None) -> None:
    running = serve(path_network)
    running.ask("scheme", choice="draw")
    room = running.model.source.place("x").parent
    assert any(room.iterdir())
    running.model.source.close()
    assert not room.exists()


def test_a_layout_is_kept_and_is_of_its_network(tmp_path: Path) -> None:
    network = drawn(60, 90, 1)
    first = positions(network, cache=tmp_path)
    assert np.array_equal(first, laid_out(network)) and np.isfinite(first).all() and first.shape == (60, 2)
    [kept] = tmp_path.glob("*.npy")
    before = kept.stat().st_ino
    assert np.array_equal(positions(network, cache=tmp_path), first) and kept.stat().st_ino == before
    # What was damaged, or is of another shape, is made anew.
    kept.write_bytes(b"nothing")
    assert np.array_equal(positions(network, cache=tmp_path), first)
    np.save(kept, first[:5])
    assert np.array_equal(positions(network, cache=tmp_path), first)
    assert len(positions(Network(61, network.edges), cache=tmp_path)) == 61
    assert len(list(tmp_path.glob("*.npy"))) == 2


@pytest.mark.parametrize(
    "network",
    [Network(1, []), Network(7, []), Network(2, [(0, 1, 1)]), Network(3, [(0, 1, 1), (1, 2, 9)]), Network(200, [(0, node, 5) for node in range(1, 200)])],
    ids=["one", "no edges", "two", "three", "star"],
)
@pytest.mark.parametrize("by_weight", [False, True])
def test_nodes_stand_apart(network: Network, by_weight: bool) -> None:
    places = laid_out(network, by_weight)
    assert places.shape == (network.node_count, 2) and np.isfinite(places).all()
    gaps = np.linalg.norm(places[:, None] - places[None], axis=2) + 9 * np.eye(network.node_count)
    assert gaps.min() > 0.02


def test_jobs_are_made_once_and_their_errors_told() -> None:
    from hizmorke.errors import Refused

    jobs, made = Jobs(2), []

    def make(job: Job) -> int:
        made.append(1)
        return len(made)

    def fails(job: Job) -> None:
        raise Refused("no")

    assert jobs.wait("a", make) == 1 and jobs.wait("a", make) == 1
    for _ in range(2):
        with pytest.raises(Refused):
            jobs.wait("b", fails)
    assert [jobs.wait(key, make) for key in "cde"] == [2, 3, 4]
    # Two are kept, and what is asked for goes last.
    assert [jobs.wait(key, make) for key in "da"] == [3, 5]
    jobs.forget()
    assert jobs.wait("a", make) == 6
    jobs.close()
