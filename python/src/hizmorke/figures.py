"""Figures of a scheme: how much each node's table holds, and how long the ways of packets are beside the shortest ones.

Tables and ways come from the program `tznode`: a live service builds the tables, writes them into a folder for a while
and says the ways. The shortest distances come from SciPy. docs/FORMATS-FIGURES.md says what each figure is.
"""

from __future__ import annotations

import json
import os
import shutil
import sys
import tempfile
from collections.abc import Callable, Iterator
from dataclasses import dataclass
from functools import cached_property
from importlib.util import find_spec
from pathlib import Path
from types import ModuleType
from typing import TYPE_CHECKING, Literal

from hizmorke.device import MOST_NODES, Device, Route, Words
from hizmorke.errors import AnswerNotUnderstood, NumberNotUnderstood, PackageMissing, TableFileUnwritable
from hizmorke.programs import Programs
from hizmorke.service import Service
from hizmorke.words import GREATEST, MOST_PAIRS, LandmarkWords, drawn_pairs

if TYPE_CHECKING:
    from numpy.typing import NDArray

    from hizmorke.network import Network

# Said before tables are built, which takes a while.
for _package in ("numpy", "scipy"):
    if find_spec(_package) is None:
        raise PackageMissing(_package)

import numpy as np  # noqa: E402

ENTRY_BYTES = 13
"""The bytes of an entry in a table."""

MEMBER_BYTES = 8
"""What a member of a directory counts in a table, without its label's ports."""

PORT_BYTES = 2
"""The bytes of a port."""

PROVED_STRETCH = 3
"""No packet's way is longer than so many times the shortest one."""

# A folder in memory is taken for the tables where so many bytes are free.
_MEMORY_FOLDER = Path("/dev/shm")
_ROOM_WANTED = 4 * 1024**3
# So many pairs share a call of SciPy: it takes two rows of all nodes for each.
_SEARCHED_AT_ONCE = 16
# So many ways are asked for at once.
_ASKED_AT_ONCE = 1_024

Form = Literal["text", "csv", "json"]
"""How figures are printed: ``name=value`` pairs, rows of CSV, or one line of JSON."""


@dataclass(frozen=True, eq=False)
class Figures:
    """Figures of a scheme.

    Attributes
    ----------
    words : LandmarkWords
        The landmark words, with the number of nodes.
    generation : int
        The number of changes that made the network.
    entries : array of int64, shape (nodes,)
        The entries of each node's table: its own tree's, each landmark's that reaches it, each cluster's that it is in.
    members : array of int64, shape (nodes,)
        The members of each node's directory; a landmark has none.
    table_bytes : array of int64, shape (nodes,)
        The bytes of each node's table: 13 an entry, 8 a member, and 2 for each port of that member's label.
    pairs : array of int64, shape (pairs, 2)
        The pairs that were drawn: sender and destination.
    lengths : array of int64, shape (pairs,)
        The length of each packet's way, as a sum of weights; -1 where no way leads there.
    shortest : array of int64, shape (pairs,)
        The shortest distance of each pair; -1 where no way leads there.
    """

    words: LandmarkWords
    generation: int
    entries: NDArray[np.int64]
    members: NDArray[np.int64]
    table_bytes: NDArray[np.int64]
    pairs: NDArray[np.int64]
    lengths: NDArray[np.int64]
    shortest: NDArray[np.int64]

    @property
    def node_count(self) -> int:
        """The number of nodes."""
        return len(self.entries)

    @cached_property
    def landmarks(self) -> NDArray[np.int64]:
        """The landmarks, ascending: shape (landmarks,)."""
        return np.array(self.words.landmarks(), dtype=np.int64)

    @property
    def full_table_bytes(self) -> int:
        """The bytes of a node's table that keeps a port for each other node."""
        return PORT_BYTES * (self.node_count - 1)

    @cached_property
    def reached(self) -> NDArray[np.bool_]:
        """Which pairs a walk joins: shape (pairs,)."""
        return self.shortest >= 0

    @cached_property
    def stretch(self) -> NDArray[np.float64]:
        """The length of each packet's way over the shortest distance: shape (pairs,), NaN where no way leads there."""
        found = np.full(len(self.pairs), np.nan)
        np.divide(self.lengths, self.shortest, out=found, where=self.reached)
        return found

    @cached_property
    def thousandths(self) -> NDArray[np.int64]:
        """The stretch of each pair that a walk joins, in thousandths, a half rounded up: shape (reached pairs,)."""
        length, shortest = self.lengths[self.reached], self.shortest[self.reached]
        return _rounded(1000 * length, shortest)

    def rows(self) -> list[tuple[str, str, str]]:
        """The figures of the whole scheme.

        Returns
        -------
        list of tuple of str
            Name, value and unit of each, in the order of docs/FORMATS-FIGURES.md.
        """
        nodes, reached = self.node_count, int(self.reached.sum())
        rows = [("nodes", str(nodes), "nodes"), ("landmarks", str(len(self.landmarks)), "nodes")]
        for name, unit, sizes in (("entries", "entries", self.entries), ("directory", "members", self.members)):
            rows.append((f"{name}_mean", _ratio(int(sizes.sum()), nodes), unit))
            rows.append((f"{name}_greatest", str(sizes.max()), unit))
            rows += [(f"{name}_of_{which}", str(count), "nodes") for which, count in _counted(sizes)]
        rows.append(("table_mean", _ratio(int(self.table_bytes.sum()), nodes), "bytes"))
        rows.append(("table_greatest", str(self.table_bytes.max()), "bytes"))
        rows.append(("tables_all", str(self.table_bytes.sum()), "bytes"))
        rows.append(("full_table", str(self.full_table_bytes), "bytes"))
        rows.append(("full_tables_all", str(nodes * self.full_table_bytes), "bytes"))
        rows.append(("pairs", str(len(self.pairs)), "pairs"))
        rows.append(("unreachable", str(len(self.pairs) - reached), "pairs"))
        rows.append(("stretch_mean", _mean(self.thousandths), "times"))
        ascending = np.sort(self.thousandths)
        for name, percent in (("p50", 50), ("p95", 95), ("p99", 99), ("greatest", 100)):
            value = _decimal(int(ascending[-(-reached * percent // 100) - 1])) if reached else "none"
            rows.append((f"stretch_{name}", value, "times"))
        exact = int((self.lengths == self.shortest)[self.reached].sum())
        rows.append(("exact_share", _ratio(exact, reached), "share"))
        return rows

    def node_rows(self) -> Iterator[tuple[int, int, int, int, int, str, str]]:
        """The figures of each node.

        Yields
        ------
        tuple
            The node, its entries, members and bytes, how many drawn pairs it sends, and of those that arrive the mean
            and the greatest stretch.
        """
        sent = np.bincount(self.pairs[:, 0], minlength=self.node_count)
        senders = self.pairs[self.reached, 0]
        order = np.argsort(senders, kind="stable")
        ends = np.searchsorted(senders[order], np.arange(self.node_count + 1))
        of_sender = self.thousandths[order]
        for node in range(self.node_count):
            own = of_sender[ends[node]:ends[node + 1]]
            yield (
                node,
                int(self.entries[node]),
                int(self.members[node]),
                int(self.table_bytes[node]),
                int(sent[node]),
                _mean(own),
                _decimal(int(own.max())) if len(own) else "none",
            )

    def lines(self, by_node: bool = False, form: Form = "text") -> Iterator[str]:
        """The figures as lines.

        Parameters
        ----------
        by_node : bool
            A line for each node, else a line for each figure of the whole scheme.
        form : str
            ``text``, ``csv``, or ``json``, which is one line.

        Yields
        ------
        str
            Lines without a line feed.
        """
        names: tuple[str, ...] = ("name", "value", "unit")
        rows: Iterator[tuple[object, ...]] = iter(self.rows())
        if by_node:
            names = ("node", "entries", "members", "bytes", "sent", "stretch_mean", "stretch_greatest")
            rows = iter(self.node_rows())
        if form == "json":
            yield json.dumps([dict(zip(names, row)) for row in rows], separators=(",", ":"))
            return
        if form == "csv":
            yield ",".join(names)
        for row in rows:
            if form == "csv":
                yield ",".join(map(str, row))
            elif by_node:
                yield " ".join(f"{name}={value}" for name, value in zip(names, row))
            else:
                name, value, unit = row
                yield f"{name}={value} unit={unit}"


def figures(
    source: Network | Device,
    words: Words,
    pairs: int = 1_000,
    seed: int = 0,
    *,
    programs: Programs | None = None,
    progress: Callable[[str, float], object] = lambda stage, share: None,
) -> Figures:
    """Measures the tables of a scheme, and the stretch of drawn pairs.

    A device is only read: its lock is held while it is copied. The tables are built over the copy.

    Parameters
    ----------
    source : Network or Device
        What is measured.
    words : str or LandmarkWords
        Landmark words.
    pairs : int
        How many pairs are drawn, 0 to 32,767.
    seed : int
        The seed by which they are drawn, a number of 64 bits.
    programs : Programs, optional
        Where the programs are; for a device its own.
    progress : callable, optional
        Is told what is done now, and the share of it that is done, 0 to 1.

    Returns
    -------
    Figures
        Arrays over the nodes and over the pairs.

    Raises
    ------
    WordsNotUnderstood, NumberNotUnderstood
        As their texts say.
    Fault
        The device can't be read, or the tables have no room.

    Examples
    --------
    >>> found = figures(Network(3, [(0, 1, 1), (1, 2, 1)]), "at:1")      # doctest: +SKIP
    >>> found.entries, found.stretch.max()                              # doctest: +SKIP
    (array([2, 1, 2]), 1.0)
    """
    # The words' form and the numbers are judged before a device is opened, the words' nodes after it.
    LandmarkWords.parse(str(words), MOST_NODES)
    if not 0 <= pairs <= MOST_PAIRS:
        raise NumberNotUnderstood("pairs not understood")
    if not 0 <= seed <= GREATEST:
        raise NumberNotUnderstood("seed not understood")
    for folder in _folders():
        with tempfile.TemporaryDirectory(prefix="hizmorke-", dir=folder) as room:
            try:
                return _measured(source, str(words), (pairs, seed), programs, Path(room), progress)
            except TableFileUnwritable:
                if folder is None:
                    raise
    raise AssertionError


def _folders() -> list[Path | None]:
    """Where the tables may be put: in memory where there is room, else where temporary files are."""
    try:
        has_room = shutil.disk_usage(_MEMORY_FOLDER).free >= _ROOM_WANTED and os.access(_MEMORY_FOLDER, os.W_OK)
    except OSError:
        has_room = False
    return [_MEMORY_FOLDER, None] if has_room else [None]


def _measured(
    source: Network | Device,
    text: str,
    drawn: tuple[int, int],
    programs: Programs | None,
    room: Path,
    progress: Callable[[str, float], object],
) -> Figures:
    progress("copying the network", 0.0)
    if isinstance(source, Device):
        device = Device(room / "network", source.programs)
        source.copy(device.path)
        network = device.show()
    else:
        device = Device(room / "network", programs)
        device.load(source)
        network = source
    words = LandmarkWords.parse(text, network.node_count)
    count, seed = drawn
    pairs = np.array(drawn_pairs(seed, network.node_count, count), dtype=np.int64).reshape(-1, 2)
    tables = room / "tables"
    tables.mkdir()
    progress("building tables", 0.0)
    with Service(device.path, words, programs=device.programs) as service:
        service.wait()
        progress("writing tables", 0.0)
        written = service.tables(tables)
        routes: list[Route | None] = []
        for at in range(0, len(pairs), _ASKED_AT_ONCE):
            progress("sending packets", at / len(pairs))
            routes += service.routes((a, b) for a, b in pairs[at:at + _ASKED_AT_ONCE].tolist())
    progress("searching shortest ways", 0.0)
    sizes = np.array([_sizes(tables, node, written.generation) for node in range(network.node_count)], dtype=np.int64)
    lengths = np.array([-1 if route is None else route.length for route in routes], dtype=np.int64)
    shortest = shortest_distances(network, pairs, lengths)
    return Figures(words, written.generation, sizes[:, 0], sizes[:, 1], sizes[:, 2], pairs, lengths, shortest)


def shortest_distances(network: Network, pairs: NDArray[np.int64], lengths: NDArray[np.int64]) -> NDArray[np.int64]:
    """The shortest distance of each pair, by SciPy's Dijkstra, where the length of a way is known.

    Two searches, one from each end, go half the length of the way. On a shortest walk the last node that the first one
    comes to and the next one, which the second comes to, are neighbours. So the distance is the least sum over an edge,
    and the searches look at a small part of the network.

    Parameters
    ----------
    network : Network
        The network.
    pairs : array of int64, shape (pairs, 2)
        Two nodes each.
    lengths : array of int64, shape (pairs,)
        The length of some walk between them; -1 where none joins them.

    Returns
    -------
    array of int64, shape (pairs,)
        The distances; -1 where no walk joins them.

    Raises
    ------
    AnswerNotUnderstood
        A pair is joined that has no length, or isn't joined in this length.
    """
    from scipy.sparse.csgraph import connected_components, dijkstra

    found = np.full(len(pairs), -1, dtype=np.int64)
    if len(pairs) == 0:
        return found
    matrix = network.matrix().astype(np.float64)
    _, part = connected_components(matrix, directed=False)
    if np.any((part[pairs[:, 0]] == part[pairs[:, 1]]) != (lengths >= 0)):
        raise AnswerNotUnderstood("the ways aren't those of the network")
    source, target = np.repeat(np.arange(network.node_count), np.diff(matrix.indptr)), matrix.indices
    # Pairs of about one length are searched together.
    order = np.argsort(lengths, kind="stable")[int((lengths < 0).sum()):]
    for at in range(0, len(order), _SEARCHED_AT_ONCE):
        here = order[at:at + _SEARCHED_AT_ONCE]
        near = dijkstra(matrix, indices=pairs[here].T.ravel(), limit=lengths[here].max() / 2)
        for place, pair in enumerate(here):
            distance = (near[place, source] + matrix.data + near[place + len(here), target]).min()
            if distance > lengths[pair]:
                raise AnswerNotUnderstood("a way isn't one of the network")
            found[pair] = distance
    return found


def _sizes(folder: Path, node: int, generation: int) -> tuple[int, int, int]:
    """The entries, the members and the bytes of a node's table, by its counts and its length."""
    file = os.open(folder / f"{node}.table", os.O_RDONLY)
    try:
        length = os.fstat(file).st_size
        front = os.pread(file, 64, 0)
        if front[:8] != b"TZTABL01" or int.from_bytes(front[8:16], "big") != generation:
            raise AnswerNotUnderstood("a table is of another version or generation", path=str(folder / f"{node}.table"))
        neighbours = int.from_bytes(front[62:64], "big")
        at = 64 + 2 * neighbours
        entries = int.from_bytes(os.pread(file, 2, at), "big")
        at += 2 + ENTRY_BYTES * entries
        members = int.from_bytes(os.pread(file, 2, at), "big")
    finally:
        os.close(file)
    # Behind the members' count stand their nodes, numbers and counts of ports, 5 bytes each, all their ports, and the
    # digest.
    ports = length - (at + 2) - 5 * members - 32
    return entries, members, ENTRY_BYTES * entries + MEMBER_BYTES * members + ports


def _counted(sizes: NDArray[np.int64]) -> Iterator[tuple[str, int]]:
    """How many nodes have a size of 0, 1, 2 to 3, 4 to 7 and so on, to the greatest."""
    greatest = int(sizes.max())
    yield "0", int((sizes == 0).sum())
    least = 1
    while least <= greatest:
        most = 2 * least - 1
        yield ("1" if least == 1 else f"{least}_to_{most}"), int(((sizes >= least) & (sizes <= most)).sum())
        least = most + 1


def _rounded(numerator: NDArray[np.int64], denominator: NDArray[np.int64]) -> NDArray[np.int64]:
    """Ratios as whole numbers, a half rounded up."""
    found: NDArray[np.int64] = (2 * numerator + denominator) // (2 * denominator)
    return found


def _decimal(thousandths: int) -> str:
    return f"{thousandths // 1000}.{thousandths % 1000:03}"


def _ratio(numerator: int, denominator: int) -> str:
    """A ratio with three digits behind the point, a half rounded up; `none` of nothing."""
    return _decimal((2000 * numerator + denominator) // (2 * denominator)) if denominator else "none"


def _mean(thousandths: NDArray[np.int64]) -> str:
    """The mean of numbers that are in thousandths, so rounded."""
    count = len(thousandths)
    return _decimal((2 * int(thousandths.sum()) + count) // (2 * count)) if count else "none"


class _Figures(ModuleType):
    """The package's name `figures` is the function, and once this module is loaded the module. So it is called as the
    function."""

    __call__ = staticmethod(figures)


sys.modules[__name__].__class__ = _Figures
