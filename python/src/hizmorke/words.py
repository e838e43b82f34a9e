"""Landmark words: which nodes are landmarks, and which pairs a measurement draws.

Landmark words give each node a number of 64 bits. A node is a landmark if its number is below a `bound`, which comes
from the number of nodes alone. ``none`` gives the greatest number to all nodes, ``at:2,5`` gives 0 to these nodes and
the greatest to the others, and ``draw:S`` takes the numbers in order from a xoshiro256++ that is seeded by S.
"""

from __future__ import annotations

import heapq
from collections.abc import Iterable, Iterator, Sequence
from dataclasses import dataclass
from itertools import islice
from math import isqrt

from hizmorke.errors import NumberNotUnderstood, WordsNotUnderstood

GREATEST = 2**64 - 1
"""The greatest number of 64 bits."""

MOST_PAIRS = 32_767
"""So many pairs can be drawn at most."""


def bound(node_count: int) -> int:
    """The bound of a network: a node is a landmark if its number is below it.

    Parameters
    ----------
    node_count : int
        The number of nodes, at least 1.

    Returns
    -------
    int
        The greatest number of 64 bits over the least whole number whose square is at least `node_count`, rounded down.
        So about one node of the square root of `node_count` is a landmark.

    Examples
    --------
    >>> bound(5)
    6148914691236517205
    """
    if node_count < 1:
        raise ValueError("a network has at least one node")
    return GREATEST // (isqrt(node_count - 1) + 1)


def split_mix(seed: int) -> Iterator[int]:
    """The outputs of a SplitMix64 that begins at `seed`, without an end.

    Parameters
    ----------
    seed : int
        A number of 64 bits.

    Yields
    ------
    int
        Numbers of 64 bits.
    """
    while True:
        seed = (seed + 0x9E3779B97F4A7C15) & GREATEST
        mixed = ((seed ^ (seed >> 30)) * 0xBF58476D1CE4E5B9) & GREATEST
        mixed = ((mixed ^ (mixed >> 27)) * 0x94D049BB133111EB) & GREATEST
        yield mixed ^ (mixed >> 31)


def xoshiro(state: Iterable[int]) -> Iterator[int]:
    """The outputs of a xoshiro256++, without an end.

    Parameters
    ----------
    state : iterable of int
        Four numbers of 64 bits, of which one isn't 0.

    Yields
    ------
    int
        Numbers of 64 bits.
    """
    s0, s1, s2, s3 = state
    while True:
        total = (s0 + s3) & GREATEST
        yield ((((total << 23) | (total >> 41)) & GREATEST) + s0) & GREATEST
        shifted = (s1 << 17) & GREATEST
        s2 ^= s0
        s3 ^= s1
        s1 ^= s2
        s0 ^= s3
        s2 ^= shifted
        s3 = ((s3 << 45) | (s3 >> 19)) & GREATEST


def drawn_numbers(seed: int) -> Iterator[int]:
    """The row of numbers of ``draw:SEED``, without an end.

    They come from a xoshiro256++ whose state is the first four outputs of a SplitMix64 that begins at `seed`.

    Parameters
    ----------
    seed : int
        A number of 64 bits.

    Returns
    -------
    iterator of int
        Numbers of 64 bits.

    Examples
    --------
    >>> next(drawn_numbers(0))
    5987356902031041503
    """
    if not 0 <= seed <= GREATEST:
        raise ValueError("a seed is a number of 64 bits")
    return xoshiro(islice(split_mix(seed), 4))


def drawn_pairs(seed: int, node_count: int, count: int) -> list[tuple[int, int]]:
    """The pairs of nodes that a measurement of `count` pairs draws.

    Pair k, from 0, comes from the numbers 2k and 2k + 1 of `drawn_numbers`: the first modulo the number of nodes is the
    sender, the second modulo the number of the others is the place of its destination among them, in ascending order.

    Parameters
    ----------
    seed : int
        A number of 64 bits.
    node_count : int
        The number of nodes.
    count : int
        How many pairs.

    Returns
    -------
    list of tuple
        Sender and destination of each pair, which are two nodes. It is empty for one node.

    Examples
    --------
    >>> drawn_pairs(0, 4, 3)
    [(3, 1), (0, 2), (2, 0)]
    """
    if node_count < 2:
        return []
    numbers = drawn_numbers(seed)
    pairs = []
    for _ in range(count):
        sender = next(numbers) % node_count
        place = next(numbers) % (node_count - 1)
        pairs.append((sender, place + 1 if place >= sender else place))
    return pairs


def plain_number(text: str, greatest: int, least: int = 0) -> int | None:
    """A decimal number without sign and leading zeros, or None if `text` is none between `least` and `greatest`.

    Examples
    --------
    >>> plain_number("7", 9), plain_number("07", 9), plain_number("10", 9)
    (7, None, None)
    """
    if not (text.isascii() and text.isdigit()) or len(text) > 20 or (len(text) > 1 and text[0] == "0"):
        return None
    number = int(text)
    return number if least <= number <= greatest else None


def parse_seed(text: str) -> int:
    """The seed of a measurement: a number of 64 bits.

    Raises
    ------
    NumberNotUnderstood
        It is none: ``seed not understood``.
    """
    seed = plain_number(text, GREATEST)
    if seed is None:
        raise NumberNotUnderstood("seed not understood")
    return seed


def parse_pairs(text: str) -> int:
    """How many pairs a measurement draws: 0 to 32,767.

    Raises
    ------
    NumberNotUnderstood
        It is no such number: ``pairs not understood``.
    """
    pairs = plain_number(text, MOST_PAIRS)
    if pairs is None:
        raise NumberNotUnderstood("pairs not understood")
    return pairs


@dataclass(frozen=True)
class LandmarkWords:
    """Landmark words for a network of so many nodes.

    Attributes
    ----------
    text : str
        The words, as a program takes them.
    node_count : int
        The number of nodes.
    nodes : tuple of int or None
        The nodes of ``at:..``, as they stand there; of ``none`` they are none, of ``draw:S`` it is None.
    seed : int or None
        The seed of ``draw:S``, else None.

    Examples
    --------
    >>> LandmarkWords.parse("at:2,5", 9).landmarks()
    [2, 5]
    >>> LandmarkWords.parse("draw:7", 9).landmarks()
    [0, 1, 7]
    """

    text: str
    node_count: int
    nodes: tuple[int, ...] | None
    seed: int | None

    @classmethod
    def parse(cls, text: str, node_count: int) -> LandmarkWords:
        """Reads landmark words.

        Parameters
        ----------
        text : str
            ``none``, ``at:A,B`` or ``draw:S``.
        node_count : int
            The number of nodes of the network.

        Raises
        ------
        WordsNotUnderstood
            They have another form, or name a node that isn't in the network.
        """
        if text == "none":
            return cls(text, node_count, (), None)
        if text.startswith("at:"):
            nodes = []
            for word in text[3:].split(","):
                node = plain_number(word, node_count - 1)
                if node is None:
                    raise WordsNotUnderstood()
                nodes.append(node)
            return cls(text, node_count, tuple(nodes), None)
        if text.startswith("draw:"):
            seed = plain_number(text[5:], GREATEST)
            if seed is not None:
                return cls(text, node_count, None, seed)
        raise WordsNotUnderstood()

    @classmethod
    def of_nodes(cls, nodes: Iterable[int], node_count: int) -> LandmarkWords:
        """The words under which just these nodes are landmarks.

        Examples
        --------
        >>> LandmarkWords.of_nodes([5, 2], 9).text
        'at:2,5'
        """
        ascending = sorted(set(nodes))
        return cls.parse("at:" + ",".join(map(str, ascending)) if ascending else "none", node_count)

    def __str__(self) -> str:
        return self.text

    def numbers(self) -> list[int]:
        """The number of each node.

        Returns
        -------
        list of int
            `node_count` numbers of 64 bits.
        """
        if self.seed is not None:
            return list(islice(drawn_numbers(self.seed), self.node_count))
        numbers = [GREATEST] * self.node_count
        for node in self.nodes or ():
            numbers[node] = 0
        return numbers

    def landmarks(self) -> list[int]:
        """The landmarks, ascending.

        A live service under ``draw:S`` has them in its first tables; for each later build it takes the next numbers of
        the row.
        """
        limit = bound(self.node_count)
        return [node for node, number in enumerate(self.numbers()) if number < limit]


def nearest_landmarks(
    node_count: int, edges: Iterable[tuple[int, int, int]], landmarks: Sequence[int]
) -> list[int | None]:
    """The nearest landmark of each node.

    Parameters
    ----------
    node_count : int
        The number of nodes.
    edges : iterable of tuple
        Edges ``(a, b, weight)``, each of which joins its nodes both ways.
    landmarks : sequence of int
        The landmarks.

    Returns
    -------
    list of int or None
        For each node its nearest landmark, the smaller one of two at one distance; None for a node that no landmark
        reaches.

    Examples
    --------
    >>> nearest_landmarks(5, [(0, 1, 1), (1, 2, 1), (2, 3, 1)], [0, 2])
    [0, 0, 2, 2, None]
    """
    neighbours: list[list[tuple[int, int]]] = [[] for _ in range(node_count)]
    for a, b, weight in edges:
        neighbours[a].append((b, weight))
        neighbours[b].append((a, weight))
    nearest: list[int | None] = [None] * node_count
    # The order by distance and then by landmark settles each node by its nearest landmark, and of two by the smaller.
    waiting = [(0, landmark, landmark) for landmark in sorted(set(landmarks))]
    while waiting:
        distance, landmark, node = heapq.heappop(waiting)
        if nearest[node] is not None:
            continue
        nearest[node] = landmark
        for other, weight in neighbours[node]:
            if nearest[other] is None:
                heapq.heappush(waiting, (distance + weight, landmark, other))
    return nearest
