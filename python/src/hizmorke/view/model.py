"""What a page asks for: each method of `Model` that `CALLS` names takes what the page has sent, and gives what it
shows.

An answer that takes long says ``ready: false``, its stage and the share that is done; the page asks again.
"""

from __future__ import annotations

import os
import shutil
import threading
import weakref
from collections.abc import Callable, Mapping
from dataclasses import dataclass
from functools import partial
from pathlib import Path
from typing import Any

import numpy as np
from numpy.typing import NDArray

from hizmorke.errors import NotUnderstood, Unreachable
from hizmorke.network import MOST_WEIGHT, Network
from hizmorke.view.jobs import Job, Jobs
from hizmorke.view.layout import positions
from hizmorke.view.packets import Carrier, TableCarrier, breaks_at
from hizmorke.view.sources import Change, Held, Source
from hizmorke.view.watch import Watch
from hizmorke.view.ways import Pair, Ways, pair_of, without
from hizmorke.words import LandmarkWords

MOST_WHOLE = 3_000
"""A network of more nodes is shown in parts: what is near to the chosen nodes."""

NEAR = 400
"""Such a part has about so many nodes."""

PAIRS = 1_000
"""So many drawn pairs have their stretch measured."""

_MOST_FAILED = 64
_BARS = 24
Body = Mapping[str, Any]


@dataclass(frozen=True, eq=False)
class Scheme:
    """Landmarks, and what carries packets under them.

    Attributes
    ----------
    words : LandmarkWords
        The landmark words.
    landmarks : list of int
        The landmarks, ascending.
    carrier : Carrier
        Carries packets.
    ways : Ways
        Distances in its network.
    nearest : array of float64, shape (nodes,)
        Each node's distance to its nearest landmark.
    """

    words: LandmarkWords
    landmarks: list[int]
    carrier: Carrier
    ways: Ways
    nearest: NDArray[np.float64]


class Model:
    """A network for pages to look at.

    Parameters
    ----------
    source : Source
        Where it comes from.
    watch : Watch, optional
        A live service's figures.
    cache : path, optional
        The folder where layouts are kept, else the user's.
    """

    def __init__(self, source: Source, watch: Watch | None = None, cache: Path | None = None) -> None:
        self.source, self.watch, self._cache = source, watch, cache
        # What is seen doesn't wait for tables.
        self._jobs, self._builds = Jobs(), Jobs()
        self._age = 0
        self._editing = threading.Lock()

    def close(self) -> None:
        """Ends what was begun."""
        self._jobs.close()
        self._builds.close()
        if self.watch is not None:
            self.watch.close()
        self.source.close()

    # What pages ask for.

    def network(self, body: Body) -> dict[str, Any]:
        """The network without its edges: how many nodes and edges it has, and its names."""
        job = self._held()
        if not job.is_done.is_set():
            return job.told()
        held: Held = job.result
        network = held.network
        degrees = np.diff(held.ways.matrix.indptr)
        return {
            "ready": True,
            "age": self._age,
            "title": self.source.title,
            "is_service": self.source.service is not None,
            "can_edit": self.source.can_edit,
            "choices": self.source.choices,
            "start": self.source.start,
            "nodes": network.node_count,
            "edges": len(network.edges),
            "count": held.count,
            "told": held.told,
            "names": None if network.names is None else network.spelled(),
            "most_neighbours": int(np.argmax(degrees)),
            "is_whole": network.node_count <= MOST_WHOLE,
        }

    def part(self, body: Body) -> dict[str, Any]:
        """The nodes to show, where they stand, and the edges between them: all, or what is near to some."""
        by_weight = body.get("by") == "weight"
        near = tuple(sorted(set(_nodes(body, "near"))))
        job = self._held()
        if not job.is_done.is_set():
            return job.told()
        held: Held = job.result
        _below(held.network.node_count, near)
        if held.network.node_count <= MOST_WHOLE:
            near = ()
        job = self._jobs.get(("part", self._age, near, by_weight), partial(self._part, held, near, by_weight))
        return {"ready": True, **job.result} if job.is_done.is_set() else job.told()

    def scheme(self, body: Body) -> dict[str, Any]:
        """The landmarks of a choice, once packets can be sent under it."""
        job = self._scheme(body)
        if not job.is_done.is_set():
            return job.told()
        scheme: Scheme = job.result
        return {"ready": True, "words": scheme.words.text, "landmarks": scheme.landmarks}

    def node(self, body: Body) -> dict[str, Any]:
        """A node: its neighbours by port, its table, its cluster, and whose clusters it is in."""
        job = self._scheme(body)
        if not job.is_done.is_set():
            return job.told()
        scheme: Scheme = job.result
        node = _node(body, "node", len(scheme.nearest))
        row = scheme.ways.matrix[node].tocoo()
        order = np.argsort(row.col)
        ports = [[int(row.col[at]), int(row.data[at])] for at in order]
        cluster, holders = scheme.ways.cluster(node, scheme.nearest)
        is_landmark = node in scheme.landmarks
        told = scheme.carrier.info(node)
        reaching = sum(bool(each) for each in scheme.ways.joined(node)[scheme.landmarks])
        return {
            "ready": True,
            "node": node,
            "is_landmark": is_landmark,
            "ports": ports,
            "cluster": cluster,
            "holders": [] if is_landmark else holders,
            "to_landmark": None if np.isinf(scheme.nearest[node]) else int(scheme.nearest[node]),
            # Without its table both numbers are those that it has by the distances.
            "entries": reaching + (0 if is_landmark else len(holders)) if told is None else told[0].entries,
            "members": (0 if is_landmark else len(cluster)) if told is None else told[0].members,
            "bytes": None if told is None else told[1],
        }

    def packet(self, body: Body) -> dict[str, Any]:
        """A packet's way, hop by hop, beside the shortest one."""
        job = self._scheme(body)
        if not job.is_done.is_set():
            return job.told()
        scheme: Scheme = job.result
        count = len(scheme.nearest)
        sender, destination = _node(body, "from", count), _node(body, "to", count)
        failed = frozenset() if body.get("anew") is True else _edges(body, "failed", count)
        found = _beside(scheme, sender, destination, _edges(body, "failed", count))
        try:
            steps = scheme.carrier.steps(sender, destination)
        except Unreachable:
            return {**found, "steps": [], "refused": "no way leads there", "lost_at": None, "length": None}
        way = [step.node for step in steps]
        lost = breaks_at(way, failed)
        try:
            length = scheme.ways.length(way if lost is None else way[: lost + 1])
        except KeyError:
            # A service has built other tables since its edges were asked for.
            length = None
        shown = steps if lost is None else steps[: lost + 1]
        return {**found, "steps": [step.told() for step in shown], "refused": None, "lost_at": lost, "length": length}

    def reach(self, body: Body) -> dict[str, Any]:
        """To which nodes packets of one still come where edges have failed: by the tables that are there, by new
        ones, or not at all.
        """
        job = self._scheme({**body, "anew": False})
        if not job.is_done.is_set():
            return job.told()
        scheme: Scheme = job.result
        count = len(scheme.nearest)
        sender, failed = _node(body, "from", count), _edges(body, "failed", count)
        nodes = _below(count, _nodes(body, "nodes")) or tuple(range(count) if count <= MOST_WHOLE else ())
        joined = _without(scheme.ways, failed).joined(sender)
        found: dict[str, list[int]] = {"still": [], "anew": [], "cut": []}
        for node, way in zip(nodes, scheme.carrier.ways(sender, nodes)):
            if way is not None and breaks_at(way, failed) is None:
                found["still"].append(node)
            else:
                found["anew" if joined[node] else "cut"].append(node)
        return {"ready": True, **found}

    def figures(self, body: Body) -> dict[str, Any]:
        """The tables' sizes, and the stretch of drawn pairs."""
        choice = self._choice(body)
        job = self._held()
        if not job.is_done.is_set():
            return job.told()
        held: Held = job.result
        job = self._builds.get(("figures", self._age, choice), partial(self._figures, held, choice))
        return {"ready": True, **job.result} if job.is_done.is_set() else job.told()

    def service(self, body: Body) -> dict[str, Any]:
        """A live service's figures."""
        if self.watch is None:
            raise NotUnderstood("no service was named")
        return self.watch.told()

    def again(self, body: Body) -> dict[str, Any]:
        """Reads the network anew."""
        self._anew()
        return {"ready": True}

    def edit(self, body: Body) -> dict[str, Any]:
        """Makes a change of one operation, and reads the network anew. The server has tested that it may."""
        job = self._held()
        if not job.is_done.is_set():
            return job.told()
        count = job.result.network.node_count
        kind, a, b = body.get("kind"), _node(body, "a", count), _node(body, "b", count)
        op: Change
        if kind == "cut":
            op = ("cut", a, b)
        elif kind in ("add", "set"):
            op = (str(kind), a, b, _number(body, "weight", 1, MOST_WEIGHT))
        else:
            raise NotUnderstood("a change is add, set or cut")
        with self._editing:
            outcome = self.source.edit(op)
        if self.watch is not None:
            self.watch.add(outcome)
        if outcome.made:
            self._anew()
        return {
            "ready": True,
            "session": outcome.session,
            "ticket": outcome.ticket,
            "text": outcome.text,
            "made": outcome.made,
            "count": outcome.count,
        }

    # What takes long.

    def _anew(self) -> None:
        self._jobs.forget()
        self._builds.forget()
        self._age += 1

    def _held(self) -> Job:
        return self._jobs.get(("network", self._age), self.source.read)

    def _choice(self, body: Body) -> str:
        choice = body.get("choice")
        if choice not in self.source.choices:
            raise NotUnderstood("there is no such choice of landmarks")
        return str(choice)

    def _scheme(self, body: Body) -> Job:
        """The scheme of a choice; with ``anew`` the one that is built without the failed edges."""
        choice = self._choice(body)
        job = self._held()
        if not job.is_done.is_set():
            return job
        held: Held = job.result
        failed: frozenset[Pair] = frozenset()
        if body.get("anew") is True:
            failed = _edges(body, "failed", held.network.node_count)
        return self._builds.get(("scheme", self._age, choice, failed), partial(self._built, held, choice, failed))

    def _with_device(self, held: Held, job: Job) -> Held:
        """The same with a private device, which is made where a service's network has none."""
        if held.device is not None:
            return held
        job.begin("loading the network")
        device = self.source.private(held.network)
        return Held(held.network, held.count, held.told, device, held.landmarks)

    def _built(self, held: Held, choice: str, failed: frozenset[Pair], job: Job) -> Scheme:
        job.begin("choosing landmarks")
        carrier = None if failed else self.source.carrier(choice)
        if carrier is None:
            held = self._with_device(held, job)
        words = self.source.words(choice, held)
        if carrier is not None:
            return _scheme_of(words, carrier, held.ways)
        device = held.device
        if failed:
            job.begin("loading the network")
            held = Held(without(held.network, failed), held.count)
            device = self.source.private(held.network)
        assert device is not None
        folder = self.source.place("tables")
        folder.mkdir()
        count = held.network.node_count
        job.begin("building tables", lambda: len(os.listdir(folder)) / count)
        device.tables(folder, words)
        scheme = _scheme_of(words, TableCarrier(folder, count), held.ways)
        # The tables go once nobody needs them.
        weakref.finalize(scheme, shutil.rmtree, folder, True)
        return scheme

    def _figures(self, held: Held, choice: str, job: Job) -> dict[str, Any]:
        from hizmorke.figures import figures

        job.begin("choosing landmarks")
        held = self._with_device(held, job)
        words = self.source.words(choice, held)
        assert held.device is not None
        done = 0.0

        def tell(stage: str, share: float) -> None:
            nonlocal done
            done = share
            job.begin(stage, lambda: done)

        found = figures(held.device, words, pairs=PAIRS, progress=tell)
        counts, ends = np.histogram(found.table_bytes, bins=_BARS)
        stretch = found.stretch[found.reached]
        share, places = np.histogram(stretch, bins=_BARS, range=(1.0, 3.0))
        return {
            "words": words.text,
            "rows": found.rows(),
            "bytes": {"counts": counts.tolist(), "ends": ends.tolist()},
            "stretch": {"counts": share.tolist(), "ends": places.tolist()},
        }

    def _part(self, held: Held, near: tuple[int, ...], by_weight: bool, job: Job) -> dict[str, Any]:
        job.begin("laying out")
        network = held.network
        nodes = list(range(network.node_count))
        if network.node_count > MOST_WHOLE:
            nodes = held.ways.near(near or (int(np.argmax(np.diff(held.ways.matrix.indptr))),), NEAR)
        place_of = {node: place for place, node in enumerate(nodes)}
        edges = [edge for edge in network.edges if edge[0] in place_of and edge[1] in place_of]
        part = Network(len(nodes), [(place_of[a], place_of[b], weight) for a, b, weight in edges])
        places = positions(part, by_weight, self._cache)
        return {
            "nodes": nodes,
            "x": np.round(places[:, 0], 3).tolist(),
            "y": np.round(places[:, 1], 3).tolist(),
            "edges": [number for edge in edges for number in edge],
        }


def _scheme_of(words: LandmarkWords, carrier: Carrier, ways: Ways) -> Scheme:
    landmarks = words.landmarks()
    return Scheme(words, landmarks, carrier, ways, ways.to_landmarks(landmarks))


def _without(ways: Ways, failed: frozenset[Pair]) -> Ways:
    return Ways(without(ways.network, failed)) if failed else ways


def _beside(scheme: Scheme, sender: int, destination: int, failed: frozenset[Pair]) -> dict[str, Any]:
    """The shortest way without the failed edges."""
    ways = _without(scheme.ways, failed)
    shortest = ways.shortest(sender, destination)
    return {
        "ready": True,
        "words": scheme.words.text,
        "shortest": shortest,
        "shortest_length": None if shortest is None else ways.length(shortest),
    }


CALLS: dict[str, Callable[[Model, Body], dict[str, Any]]] = {
    "network": Model.network,
    "part": Model.part,
    "scheme": Model.scheme,
    "node": Model.node,
    "packet": Model.packet,
    "reach": Model.reach,
    "figures": Model.figures,
    "service": Model.service,
    "again": Model.again,
    "edit": Model.edit,
}
"""What a page may ask for, by name."""


# What a page has sent.


def _number(body: Body, name: str, least: int, most: int) -> int:
    found = body.get(name)
    if type(found) is not int or not least <= found <= most:
        raise NotUnderstood(f"{name} is a number from {least:,} to {most:,}")
    return found


def _node(body: Body, name: str, count: int) -> int:
    return _number(body, name, 0, count - 1)


def _nodes(body: Body, name: str) -> tuple[int, ...]:
    found = body.get(name, [])
    if not isinstance(found, list) or any(type(node) is not int or node < 0 for node in found):
        raise NotUnderstood(f"{name} is a list of nodes")
    return tuple(found)


def _below(count: int, nodes: tuple[int, ...]) -> tuple[int, ...]:
    if any(node >= count for node in nodes):
        raise NotUnderstood("there is no such node")
    return nodes


def _edges(body: Body, name: str, count: int) -> frozenset[Pair]:
    found = body.get(name, [])
    if not isinstance(found, list) or len(found) > _MOST_FAILED:
        raise NotUnderstood(f"{name} is a list of at most {_MOST_FAILED} edges")
    pairs = set()
    for each in found:
        if not isinstance(each, list) or len(each) != 2:
            raise NotUnderstood("an edge has two nodes")
        a, b = _below(count, _nodes({"ends": each}, "ends"))
        pairs.add(pair_of(a, b))
    return frozenset(pairs)
