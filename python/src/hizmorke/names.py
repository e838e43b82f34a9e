"""What nodes are called: the names beside a device, and what the words of a file stand for.

``DEVICE.names`` has a line for each name, in the order of the nodes. A node without a name is called ``#3`` by its
number: nothing else is called so. In the file such a line stands for a node without a name in front of others. The one
line ``# nodes are numbers`` says that nodes are called by their numbers. ``DEVICE.names.new`` is what an import has
laid that was cut off; `DeviceNames.read` tells which of both counts.

``DEVICE.names.count`` says at which count of the device the names were written, in one line:
``count=5 crc32=8d4c52ab edges=1b2f9d04``, with the sums of ``DEVICE.names`` and, maybe, of the edges at that count. It
is a file of its own, since a line ``# ..`` in ``DEVICE.names`` is no name for any program, and a list of names made by
hand has no count: where the sum of the names is another one, the file says nothing. A device with a lower count, or
with other edges at that count, is another network, or an older one, so its names are refused. Write it by
`write_count`, when the device is whole, and only where an import changes ``DEVICE.names``.
"""

from __future__ import annotations

import os
import re
from collections.abc import Callable, Collection, Iterable, Mapping, Sequence
from dataclasses import dataclass, field
from itertools import chain
from typing import TYPE_CHECKING

from hizmorke.errors import Fault, NetworkRefused, NotUnderstood, OperationNotUnderstood

if TYPE_CHECKING:
    from hizmorke.forms.reading import Reading
    from hizmorke.network import Network

MOST_NODES = 16_384
MOST_WEIGHT = 1_000_000
NUMBERS = "# nodes are numbers"

NO_LABEL = "a name has no blank at its ends, and begins with no `#` and a blank"
OTHER_NUMBER = "a node without a name is called by `#` and its own number"
TWICE = "the name stands there twice"
TOO_MANY = "there are more names than nodes"

_BLANKS = " \t\n\x0c\r"
_SURROGATE = re.compile("[\ud800-\udfff]")


def is_label(text: str) -> bool:
    """Whether a text may call a node: no blank at its ends, no line break, no ``# `` in front. `is_name` says no to
    ``#3``."""
    return (
        text != ""
        and text[0] not in _BLANKS
        and text[-1] not in _BLANKS
        and "\n" not in text
        and "\r" not in text
        and text[:2] != "# "
        and (text.isascii() or _SURROGATE.search(text) is None)
    )


def plain_number(word: str, most: int) -> int | None:
    """The number that a plain decimal is, without a sign or zeros in front, up to ``most``; None if it is none.

    Examples
    --------
    >>> plain_number("17", 20), plain_number("07", 20), plain_number("+7", 20), plain_number("21", 20)
    (17, None, None, None)
    """
    if not (word.isascii() and word.isdigit()) or (word[0] == "0" and word != "0") or len(word) > 20:
        return None
    number = int(word)
    return number if number <= most else None


def number_sign(text: str) -> int | None:
    """The number of a node that is called ``#3``, since it has no name; None if a text is none of this form."""
    return plain_number(text[1:], 10**20) if text[:1] == "#" else None


def is_name(text: str) -> bool:
    """Whether a text may be the name of a node: no blank at its ends, no line break, no ``# `` in front, and it isn't
    ``#`` and a number."""
    return is_label(text) and number_sign(text) is None


def names_text(names: Iterable[str]) -> str:
    """What ``DEVICE.names`` says for these names."""
    return "".join(f"{name}\n" for name in names)


def trimmed(names: Sequence[str]) -> list[str]:
    """Names without those at the end that are ``#3`` at place 3: nodes behind the last name have none anyway."""
    end = len(names)
    while end and names[end - 1] == f"#{end - 1}":
        end -= 1
    return list(names[:end])


# ---- the files beside a device


def _beside(device: str | os.PathLike[str], ending: str) -> str:
    return os.fspath(device) + ending


def text_of_file(path: str) -> str | None:
    """The text of a file; None if it isn't there.

    Raises
    ------
    NotUnderstood
        ``FILE:LINE: the text is not UTF-8``.
    Fault
        If the file can't be read.
    """
    try:
        with open(path, "rb") as file:
            content = file.read()
    except FileNotFoundError:
        return None
    except OSError as error:
        raise Fault(error.strerror or str(error), path=path) from error
    return decoded(content, path)


def decoded(content: bytes, path: str) -> str:
    """The text that bytes of UTF-8 are, or a refusal by the line of the first that aren't."""
    try:
        return content.decode("utf-8")
    except UnicodeDecodeError as error:
        line = content.count(b"\n", 0, error.start) + 1
        raise NotUnderstood("the text is not UTF-8", path=path, line=line) from None


def _names_in(text: str, path: str, most: int) -> list[str] | None:
    # The names that a text lists; None if it says that nodes are numbers.
    if text in (NUMBERS, NUMBERS + "\n"):
        return None
    lines = text.split("\n")
    if not lines[-1]:
        lines.pop()
    seen: set[str] = set()
    for index, line in enumerate(lines):
        said = number_sign(line)
        wrong = (
            NO_LABEL if not is_label(line)
            else TWICE if line in seen
            else TOO_MANY if index >= most
            else OTHER_NUMBER if said is not None and said != index
            else None
        )  # fmt: skip
        if wrong is not None:
            raise NotUnderstood(wrong, path=path, line=index + 1)
        seen.add(line)
    return lines


@dataclass
class DeviceNames:
    """How the nodes of a device are called, by the files beside it.

    Parameters
    ----------
    names : list of str, optional
        The names, in order; ``#i`` at place i is a node without one. None: nodes are called by numbers, or nothing is
        said.
    numbers : bool
        Whether the file says that nodes are called by their numbers.
    is_laid : bool
        Whether the names are those of ``DEVICE.names.new``: a change of the device, and an import, puts them in their
        place first (`settle`).
    """

    names: list[str] | None = None
    numbers: bool = False
    is_laid: bool = False

    @classmethod
    def read(
        cls,
        device: str | os.PathLike[str],
        network: Network | None = None,
        count: int | None = None,
        most: int | None = None,
    ) -> DeviceNames:
        """Read what is beside a device.

        Parameters
        ----------
        device : str or path
            The device's path. The files are ``DEVICE.names``, ``DEVICE.names.new`` and ``DEVICE.names.count``.
        network : Network, optional
            The device's nodes and edges; None if the device isn't there.
        count : int, optional
            The device's count of changes, to be compared with the one at which the names were written.
        most : int, optional
            How many nodes may have names: the network's node count, or 16,384 where there is none.

        Returns
        -------
        DeviceNames

        Raises
        ------
        NotUnderstood
            ``DEVICE.names:LINE: ..`` if a line is no name, or a name stands there twice, or there are more names than
            nodes.
        NetworkRefused
            If the names were written at a higher count than the device has.
        """
        names_path = _beside(device, ".names")
        text = text_of_file(names_path)
        if network is None:
            return cls._of_text(text, names_path, MOST_NODES if most is None else most, False)
        ends = {node for edge in network.edges for node in edge[:2]}
        if cls._leaves_out(text, names_path, ends):
            laid_path = _beside(device, ".names.new")
            laid = text_of_file(laid_path)
            if laid is not None:
                return cls._of_text(laid, laid_path, network.node_count if most is None else most, True)
        found = cls._of_text(text, names_path, network.node_count if most is None else most, False)
        if found.names is not None and text is not None and count is not None:
            _check_count(device, text, count, network)
        return found

    @classmethod
    def _of_text(cls, text: str | None, path: str, most: int, is_laid: bool) -> DeviceNames:
        if text is None:
            return cls()
        names = _names_in(text, path, most)
        return cls(names, names is None, is_laid)

    @staticmethod
    def _leaves_out(text: str | None, path: str, ends: Collection[int]) -> bool:
        # Whether there are edges at nodes that a text doesn't name, though it names nodes.
        if text is None:
            return bool(ends)
        names = _names_in(text, path, MOST_NODES)
        return names is not None and any(end >= len(names) or names[end] == f"#{end}" for end in ends)

    @property
    def are_there(self) -> bool:
        """Whether it is said how nodes are called."""
        return self.numbers or self.names is not None


@dataclass
class Target:
    """To what a reading goes: a device that is there, one that is to be made, or none.

    Parameters
    ----------
    path : str, optional
        The device's path, as refusals name it. None: there is no device.
    nodes : int, optional
        The device's number of nodes; of one that isn't there what ``--nodes`` says.
    is_there : bool
        Whether the device is there.
    has_edges : callable
        Whether a node has an edge on the device.
    has_any_edge : bool
        Whether the device has an edge at all.
    names : DeviceNames
        What is beside it.
    grow : bool
        Whether there may be more nodes than the device has (``--grow``): up to 16,384.
    """

    path: str | None = None
    nodes: int | None = None
    is_there: bool = False
    has_edges: Callable[[int], bool] = lambda node: False
    has_any_edge: bool = False
    names: DeviceNames = field(default_factory=DeviceNames)
    grow: bool = False

    @classmethod
    def of_device(cls, path: str, network: Network, names: DeviceNames, grow: bool = False) -> Target:
        """The target that is a device with this network and these names."""
        ends = {node for edge in network.edges for node in edge[:2]}
        return cls(path, network.node_count, True, ends.__contains__, bool(ends), names, grow)


@dataclass
class Assigned:
    """A network by the numbers of its nodes, as a reading says it.

    Parameters
    ----------
    network : Network
        Its edges in the order of the file. Its names are those of the device with the new ones, or None where nodes are
        called by numbers. Its node count is that of the device, or what a device that is made has to have: 0 if the
        file says no node.
    lines : list of int
        What says each edge: the number of its line, or of its link or entry.
    text : str, optional
        What ``DEVICE.names`` is to say; None if it stays as it is.
    places : list of int
        The index of each edge in the reading, for `Reading.refusal`.
    """

    network: Network
    lines: list[int]
    text: str | None
    places: list[int]


def assign(
    reading: Reading, target: Target | None = None, *, names: bool = False, least: bool = False, update: bool = False
) -> Assigned:
    """Decide what the words of a reading stand for, by numbers or by names as a whole.

    Parameters
    ----------
    reading : Reading
        What was read.
    target : Target, optional
        To what it goes; None: to no device.
    names : bool
        ``--names``: all ends are names.
    least : bool
        ``--least``: of lines with the same edge the least weight counts.
    update : bool
        ``--update``: in an edge list, too, lines with the same edge and weight are one.

    Raises
    ------
    NotUnderstood
        If two lines have two weights for one edge; ``--names does not go with DIMACS``.
    NetworkRefused
        If an end is no number, a name is one too many, or the device calls its nodes in another way.
    """
    if target is None:
        target = Target()
    if names and reading.by_names is False:
        raise NotUnderstood(f"--names does not go with {_TITLES.get(reading.form, reading.form)}")
    most = _most_nodes(reading, target)
    kept = target.names
    if kept.names is not None:
        if reading.by_names is False:
            text = f"its nodes are called by names, and those of {_TITLES.get(reading.form, reading.form)} by numbers"
            raise NetworkRefused(text, path=target.path)
        found = _named(reading, target, kept.names, most)
    elif kept.numbers or target.has_any_edge:
        why = "the device calls its nodes by numbers" if kept.numbers else "the device has edges and no names beside it"
        _see_numbers(reading, target, names)
        found = _numbered(reading, most, why, None)
    elif reading.by_names or (reading.by_names is None and (names or not _call_numbers(reading))):
        found = _named(reading, target, [], most)
    else:
        found = _numbered(reading, most, "with --names all ends are names", NUMBERS + "\n")
    _take_once(reading, found, least, update)
    network = found.network
    if target.is_there:
        network.node_count = max(network.node_count, target.nodes or 0)
    elif target.nodes is not None:
        network.node_count = target.nodes
    if network.node_count == 0:
        raise NetworkRefused("it says no node: --nodes says how many there are", path=reading.path)
    return found


def assign_whole(reading: Reading, numbers: bool) -> Assigned:
    """Decide what the words of a graph stand for that lists all its nodes, of which there may be any number.

    Parameters
    ----------
    reading : Reading
        What was read, with a label for each node.
    numbers : bool
        Whether the labels are the numbers from 0 on, in any order; else they are names.
    """
    most = len(reading.labels)
    found = _numbered(reading, most, "", None) if numbers else _named(reading, Target(), [], most)
    _take_once(reading, found, False, False)
    return found


# The forms that call nodes by numbers always, as refusals name them.
_TITLES = {"dimacs": "DIMACS", "konect": "KONECT", "mm": "MatrixMarket"}


def _most_nodes(reading: Reading, target: Target) -> int:
    # How many nodes there may be.
    said = reading.node_count or 0
    if target.is_there and not target.grow:
        most = MOST_NODES if target.nodes is None else target.nodes
        if said > most:
            raise NetworkRefused(f"it has {most} nodes, and {reading.path} {said}", path=target.path)
        return most
    most = MOST_NODES if target.is_there or target.nodes is None else target.nodes
    if said > most:
        raise NetworkRefused(f"it has {said} nodes, and --nodes {most}", path=reading.path)
    return most


def _see_numbers(reading: Reading, target: Target, names: bool) -> None:
    # Refuses names for a device that calls its nodes by numbers.
    if names:
        raise NetworkRefused("its nodes are called by numbers, and --names does not change that", path=target.path)
    if reading.by_names:
        what = {"edges": "the list", "as-rel": "relations", "json": "the JSON"}.get(reading.form, "the file")
        raise NetworkRefused(f"its nodes are called by numbers, and those of {what} by names", path=target.path)


def _call_numbers(reading: Reading) -> bool:
    return all(word.isascii() and word.isdigit() for word in chain(reading.ends, reading.labels))


def _numbered(reading: Reading, most: int, why: str, text: str | None) -> Assigned:
    # The edges of words that are numbers of nodes.
    from hizmorke.network import Network

    first = reading.first
    last = max((reading.node_count or most) - 1, 0)
    nodes = 0
    for index, label in enumerate(reading.labels):
        node = plain_number(label, last)
        if node is None:
            raise reading.label_refusal(NetworkRefused, index, f"`{label}` is no number of a node, 0 to {last}: {why}")
        nodes = max(nodes, node + 1)
    nodes = reading.node_count or nodes
    known: dict[str, int] = {}
    for word in reading.ends:
        number = plain_number(word, last + first)
        if number is None or number < first:
            behind = "" if first else f": {why}"
            wrong = f"`{word}` is no number of a node, {first} to {last + first}{behind}"
            raise reading.refusal(NetworkRefused, _index_of(reading, word), wrong)
        known[word] = number - first
    nodes = max(nodes, max(known.values(), default=-1) + 1)
    edges = _edges(reading, known)
    return Assigned(Network(nodes, edges), list(reading.numbers), text, list(range(len(edges))))


def _index_of(reading: Reading, word: str) -> int:
    # The first edge with this end.
    return next(index for index, ends in enumerate(zip(reading.sources, reading.targets)) if word in ends)


def _edges(reading: Reading, known: dict[str, int]) -> list[tuple[int, int, int]]:
    node_of = known.__getitem__
    return list(zip(map(node_of, reading.sources), map(node_of, reading.targets), reading.weights))


class _Giver:
    """Gives names to nodes. A new name goes to the next node that has neither a name nor an edge, and that isn't called
    by its number."""

    def __init__(self, reading: Reading, target: Target, names: Sequence[str], most: int) -> None:
        self.target = target
        self.most = most
        self.names = list(names)
        self.known = {name: node for node, name in enumerate(names) if name != f"#{node}"}
        self.next = 0
        self.ends = reading.ends
        # The nodes that the file calls by their numbers.
        self.called = {node for word in chain(self.ends, reading.labels) if (node := number_sign(word)) is not None}
        self.labels = reading.labels if reading.form == "edges" else []

    def node_of(self, word: str) -> int | str:
        """The node of a word, which gets one if it is a new name. Or why there is none."""
        node = self.known.get(word)
        if node is not None:
            return node
        said = number_sign(word)
        if said is None:
            return self._give(word)
        if said >= self.most:
            return f"`{word}` is no number of a node, 0 to {self.most - 1}"
        name = self.names[said] if said < len(self.names) else word
        name = self.labels[said] if name == word and said < len(self.labels) else name
        if name != word:
            return f"`{word}` is a node without a name, and node {said} is called `{name}`"
        self.known[word] = said
        return said

    def _give(self, name: str) -> int | str:
        names, busy = self.names, False
        while self.next < self.most:
            node = self.next
            self.next += 1
            if (node < len(names) and names[node] != f"#{node}") or node in self.called:
                continue
            if self.target.has_edges(node):
                busy = True
                continue
            names.extend(f"#{gap}" for gap in range(len(names), node + 1))
            names[node] = name
            self.known[name] = node
            return node
        if busy or any(self.target.has_edges(node) and self._has_none(node) for node in range(self.most)):
            why = "those without a name have edges, and a new name goes to none of these"
            return f"there is no node for the name `{name}`: {why}"
        return f"{TOO_MANY}, which are {self.most}"

    def _has_none(self, node: int) -> bool:
        return node >= len(self.names) or self.names[node] == f"#{node}"


def _named(reading: Reading, target: Target, names: Sequence[str], most: int) -> Assigned:
    # The edges of words that are names.
    from hizmorke.network import Network

    giver = _Giver(reading, target, names, most)
    for index, label in enumerate(reading.labels):
        node = giver.node_of(label)
        if isinstance(node, str):
            raise reading.label_refusal(NetworkRefused, index, node)
    for word in giver.ends:
        node = giver.node_of(word)
        if isinstance(node, str):
            raise reading.refusal(NetworkRefused, _index_of(reading, word), node)
    edges = _edges(reading, giver.known)
    named = trimmed(giver.names)
    nodes = max(len(named), max(giver.called, default=-1) + 1, reading.node_count or 0)
    return Assigned(Network(nodes, edges, named), list(reading.numbers), names_text(named), list(range(len(edges))))


def _take_once(reading: Reading, assigned: Assigned, least: bool, update: bool) -> None:
    # One edge for each two nodes, where lines with the same edge are taken as one: an edge list says each edge once.
    by_least = least or reading.least
    if not (reading.repeats or by_least or update):
        return
    edges = assigned.network.edges
    pairs = _pair_numbers(edges)
    # The first place of each pair.
    kept = dict(zip(reversed(pairs), range(len(pairs) - 1, -1, -1)))
    if len(kept) == len(edges):
        return
    if len(set(zip(pairs, (edge[2] for edge in edges)))) == len(kept):
        places = sorted(kept.values())
    else:
        places = _chosen(reading, edges, pairs, by_least)
    assigned.places = places
    assigned.network.edges = [edges[place] for place in places]
    assigned.lines = [assigned.lines[place] for place in places]


def _chosen(reading: Reading, edges: Sequence[tuple[int, int, int]], pairs: Sequence[int], by_least: bool) -> list[int]:
    # The place of each pair's least weight, where the least counts; pairs in the order in which they come.
    kept: dict[int, int] = {}
    for place, (pair, (_, _, weight)) in enumerate(zip(pairs, edges)):
        other = kept.setdefault(pair, place)
        if other == place or edges[other][2] == weight:
            continue
        if not by_least:
            text = f"{reading.place_of(other)} has another weight for this edge; --least takes the smaller weight"
            raise reading.refusal(NotUnderstood, place, text)
        if weight < edges[other][2]:
            kept[pair] = place
    return list(kept.values())


def _pair_numbers(edges: Iterable[tuple[int, int, int]]) -> list[int]:
    # A number for the two nodes of each edge, the same one both ways.
    return [(a << 32) + b if a < b else (b << 32) + a for a, b, _ in edges]


def judge(
    reading: Reading,
    assigned: Assigned,
    there: Collection[tuple[int, int]] = (),
    update: bool = False,
    most_edges: int | None = None,
) -> None:
    """See whether edges can be in a network, in order.

    Parameters
    ----------
    there : collection of (int, int)
        The edges that are there, the smaller node first.
    update : bool
        Whether an edge that is there may get a new weight.
    most_edges : int, optional
        How many edges there may be: 65,536 on a device.

    Raises
    ------
    NetworkRefused
        The first edge that can't: ``both ends are one node``, ``the weight is out of range``, ``the edge is there
        already, by line 3``.
    """
    edges = assigned.network.edges
    before = set(there)
    count = len(before)
    if edges and not before and _are_plain(edges) and (most_edges is None or len(edges) <= most_edges):
        return
    seen: dict[tuple[int, int], int] = {}
    for place, (a, b, weight) in zip(assigned.places, edges):
        pair = (a, b) if a < b else (b, a)
        first = seen.setdefault(pair, place)
        is_there = pair in before
        count += not is_there
        text = None
        if a == b:
            text = "both ends are one node"
        elif not 1 <= weight <= MOST_WEIGHT:
            text = "the weight is out of range"
        elif first != place:
            text = f"the edge is there already, by {reading.place_of(first)}"
        elif is_there and not update:
            text = "the edge is there already"
        elif most_edges is not None and count > most_edges:
            text = "the graph has as many edges as it may have"
        if text is not None:
            raise reading.refusal(NetworkRefused, place, text)


def _are_plain(edges: Sequence[tuple[int, int, int]]) -> bool:
    # Whether all edges can be in an empty network, as a fast way.
    weights = [edge[2] for edge in edges]
    if min(weights) < 1 or max(weights) > MOST_WEIGHT or any(a == b for a, b, _ in edges):
        return False
    return len(set(_pair_numbers(edges))) == len(edges)


# ---- nodes as they are printed and asked for


def spelled(node: int, names: Sequence[str] | None) -> str:
    """A node as ``hizmorke show`` and ``route`` print it, and as `parse_node` takes it.

    Examples
    --------
    >>> names = ["Bern", "San Juan", "-a", 'say "hi"']
    >>> [spelled(node, names) for node in range(5)]
    ['Bern', '"San Juan"', '"-a"', '#3', '#4']
    >>> spelled(3, None)
    '3'
    """
    if names is None:
        return str(node)
    if node >= len(names) or '"' in names[node] or names[node] == f"#{node}":
        return f"#{node}"
    name = names[node]
    if name[0] in "#-" or " " in name or "\t" in name or ":" in name:
        return f'"{name}"'
    return name


MOST_NUMBER = 65_535


def parse_node(text: str, names: Sequence[str] | Mapping[str, int] | None) -> int | None:
    """The node that a word stands for, up to 65,535, or None: ``Bern``, ``"San Juan"``, ``#5``, or ``5`` where nodes
    have no names.

    Parameters
    ----------
    text : str
        The word.
    names : sequence of str, or mapping from str to int, optional
        The names, or the node of each: that is faster for many words. None: nodes are called by numbers.

    Examples
    --------
    >>> parse_node("Bern", ["Thun", "Bern"]), parse_node("#7", ["Thun"]), parse_node("7", ["Thun"])
    (1, 7, None)
    >>> parse_node("7", None)
    7
    """
    if text[:1] == "#":
        return plain_number(text[1:], MOST_NUMBER)
    if text[:1] == '"':
        inner = text[1:-1]
        return None if len(text) < 2 or text[-1] != '"' or '"' in inner else _node_named(inner, names)
    return plain_number(text, MOST_NUMBER) if names is None else _node_named(text, names)


def _node_named(name: str, names: Sequence[str] | Mapping[str, int] | None) -> int | None:
    if isinstance(names, Mapping):
        return names.get(name)
    if names is None or name not in names:
        return None
    return names.index(name)


def parse_op(text: str, names: Sequence[str] | Mapping[str, int] | None) -> tuple[str, int, int, int | None]:
    """An operation by names: ``add:A:B:W``, ``set:A:B:W`` or ``cut:A:B`` as ``(kind, a, b, weight)``; None is the
    weight of a ``cut``.

    Raises
    ------
    OperationNotUnderstood
        ``op not understood``.
    NotUnderstood
        ``no node named X``.

    Examples
    --------
    >>> parse_op('add:"a:b":Bern:5', ["Bern", "a:b"]), parse_op("cut:Bern:a:b", ["Bern", "a:b"])
    (('add', 1, 0, 5), ('cut', 0, 1, None))
    """
    kind, _, rest = text.partition(":")
    if kind not in ("add", "set", "cut") or ":" not in text:
        raise OperationNotUnderstood()
    a, rest = _leading_node(rest, names)
    if kind == "cut":
        return kind, a, _asked(rest, names), None
    b, word = _leading_node(rest, names)
    weight = plain_number(word, 4_294_967_295)
    if weight is None:
        raise OperationNotUnderstood()
    return kind, a, b, weight


def _leading_node(text: str, names: Sequence[str] | Mapping[str, int] | None) -> tuple[int, str]:
    # The node in front of the first colon, or in quotation marks, and the text behind it.
    if text[:1] == '"':
        name, mark, behind = text[1:].partition('"')
        if not mark or behind[:1] != ":":
            raise OperationNotUnderstood()
        node = _node_named(name, names)
        if node is None:
            raise NotUnderstood(f"no node named {name}")
        return node, behind[1:]
    word, colon, rest = text.partition(":")
    if not colon:
        raise OperationNotUnderstood()
    return _asked(word, names), rest


def _asked(word: str, names: Sequence[str] | Mapping[str, int] | None) -> int:
    node = parse_node(word, names)
    if node is None:
        raise NotUnderstood(f"no node named {word}")
    return node


# ---- writing beside a device


def _sync_folder(path: str) -> None:
    folder = os.open(os.path.dirname(path) or ".", os.O_RDONLY)
    try:
        os.fsync(folder)
    finally:
        os.close(folder)


def _write(path: str, text: str) -> None:
    try:
        with open(path, "wb") as file:
            file.write(text.encode("utf-8"))
            file.flush()
            os.fsync(file.fileno())
        _sync_folder(path)
    except OSError as error:
        raise Fault(error.strerror or str(error), path=path) from error


def _rename(path: str, to: str) -> None:
    try:
        os.rename(path, to)
        _sync_folder(to)
    except OSError as error:
        raise Fault(error.strerror or str(error), path=to) from error


def lay(device: str | os.PathLike[str], text: str) -> None:
    """Write ``DEVICE.names.new`` and sync it and its folder."""
    _write(_beside(device, ".names.new"), text)


def put(device: str | os.PathLike[str]) -> None:
    """Rename ``DEVICE.names.new`` to ``DEVICE.names`` and sync the folder."""
    _rename(_beside(device, ".names.new"), _beside(device, ".names"))


def settle(device: str | os.PathLike[str], names: DeviceNames) -> None:
    """Put ``DEVICE.names.new`` in its place where it is what counts; else take it away."""
    if names.is_laid:
        put(device)
        return
    path = _beside(device, ".names.new")
    try:
        os.remove(path)
    except FileNotFoundError:
        pass
    except OSError as error:
        raise Fault(error.strerror or str(error), path=path) from error


def _sum_of(text: str) -> str:
    import zlib

    return f"{zlib.crc32(text.encode('utf-8')):08x}"


def _sum_of_edges(network: Network) -> str:
    return _sum_of("".join([f"{a} {b} {weight}\n" for a, b, weight in network.ascending()]))


def write_count(
    device: str | os.PathLike[str], count: int, network: Network | None = None, *, names: str | None = None
) -> None:
    """Say in ``DEVICE.names.count`` that ``DEVICE.names`` was written at this count.

    Parameters
    ----------
    device : str or path
        The device's path.
    count : int
        The device's count of changes.
    network : Network, optional
        What the device holds at this count.
    names : str, optional
        What ``DEVICE.names`` is to say, where that isn't in its place yet.
    """
    text = text_of_file(_beside(device, ".names")) if names is None else names
    if text is None:
        return
    path = _beside(device, ".names.count")
    edges = "" if network is None else f" edges={_sum_of_edges(network)}"
    _write(path + ".new", f"count={count} crc32={_sum_of(text)}{edges}\n")
    _rename(path + ".new", path)


def _check_count(device: str | os.PathLike[str], text: str, count: int, network: Network) -> None:
    # Refuses names that were written at a higher count than the device has, or at this count of other edges. Where no
    # edge is given they aren't compared: who asks may not have read them.
    path = _beside(device, ".names.count")
    said = text_of_file(path)
    if said is None:
        return
    found = re.fullmatch(r"count=([0-9]{1,20}) crc32=([0-9a-f]{8})(?: edges=([0-9a-f]{8}))?\n?", said)
    if found is None:
        what = "a line is `count=C crc32=X edges=Y`; without this file the names count as they are"
        raise NotUnderstood(what, path=path, line=1)
    if found[2] != _sum_of(text):
        return
    written = int(found[1])
    has_others = written == count and bool(network.edges) and found[3] not in (None, _sum_of_edges(network))
    if written > count or has_others:
        has = "other edges then" if has_others else f"count={count}"
        what = f"the names were written at count={written}, and the device has {has}"
        help_ = f"they are another network's, or newer. Remove {path} if they are right, else both files"
        raise NetworkRefused(f"{what}: {help_}", path=_beside(device, ".names"))
