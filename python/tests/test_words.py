"""Landmark words: their forms, the two generators, the bound, drawn pairs, nearest landmarks."""

from __future__ import annotations

import random
from itertools import islice
from pathlib import Path

import pytest
from hypothesis import given
from hypothesis import strategies as some

from hizmorke.device import Device
from hizmorke.errors import NumberNotUnderstood, WordsNotUnderstood
from hizmorke.programs import Programs
from hizmorke.words import (
    GREATEST,
    LandmarkWords,
    bound,
    drawn_numbers,
    drawn_pairs,
    nearest_landmarks,
    parse_pairs,
    parse_seed,
    plain_number,
    split_mix,
    xoshiro,
)


def test_split_mix_by_the_outputs_of_its_authors() -> None:
    assert list(islice(split_mix(1477776061723855037), 5)) == [
        1985237415132408290,
        2979275885539914483,
        13511426838097143398,
        8488337342461049707,
        15141737807933549159,
    ]


def test_xoshiro_by_the_outputs_of_its_authors() -> None:
    assert list(islice(xoshiro([1, 2, 3, 4]), 10)) == [
        41943041,
        58720359,
        3588806011781223,
        3591011842654386,
        9228616714210784205,
        9973669472204895162,
        14011001112246962877,
        12406186145184390807,
        15849039046786891736,
        10450023813501588000,
    ]


def test_a_seed_has_64_bits() -> None:
    assert next(drawn_numbers(GREATEST)) <= GREATEST
    for seed in (-1, GREATEST + 1):
        with pytest.raises(ValueError):
            drawn_numbers(seed)


@pytest.mark.parametrize(
    ("nodes", "least"),
    [
        (1, GREATEST),
        (2, 9223372036854775807),
        (4, 9223372036854775807),
        (5, 6148914691236517205),
        (10, 4611686018427387903),
    ],
)
def test_the_bound_by_hand(nodes: int, least: int) -> None:
    assert bound(nodes) == least


@given(some.integers(1, 16_384))
def test_the_bound_by_its_definition(nodes: int) -> None:
    root = next(q for q in range(1, 129) if q * q >= nodes)
    assert bound(nodes) == (2**64 - 1) // root


def test_there_is_no_bound_without_nodes() -> None:
    with pytest.raises(ValueError):
        bound(0)


@pytest.mark.parametrize(
    ("seed", "pairs"),
    [
        # By another program of the two generators, as in conformance/figures.txt.
        (0, [(3, 1), (0, 2), (2, 0), (2, 1), (3, 1), (0, 1), (1, 0), (2, 3)]),
        (5, [(2, 0), (3, 2), (3, 0), (1, 0), (2, 0), (1, 2), (3, 0), (1, 0)]),
        (1, [(3, 2), (0, 1), (0, 3), (3, 2), (0, 3), (1, 0), (2, 0), (2, 1)]),
        (10157, [(2, 3), (1, 2), (0, 2), (3, 1)]),
    ],
)
def test_drawn_pairs(seed: int, pairs: list[tuple[int, int]]) -> None:
    assert drawn_pairs(seed, 4, len(pairs)) == pairs


@given(some.integers(0, GREATEST), some.integers(2, 50))
def test_a_pair_is_two_nodes(seed: int, nodes: int) -> None:
    pairs = drawn_pairs(seed, nodes, 40)
    assert len(pairs) == 40
    assert all(a != b and 0 <= a < nodes and 0 <= b < nodes for a, b in pairs)


def test_one_node_has_no_pairs() -> None:
    assert drawn_pairs(0, 1, 7) == []


@pytest.mark.parametrize(
    "text", ["none", "at:0", "at:8", "at:2,5", "at:5,2", "at:2,2", "draw:0", "draw:7", f"draw:{GREATEST}"]
)
def test_words_that_are_understood(text: str) -> None:
    assert str(LandmarkWords.parse(text, 9)) == text


@pytest.mark.parametrize(
    "text",
    [
        *("", "None", " none", "at:", "at:9", "at:02", "at:2,", "at:,2", "at: 2", "at:+2", "at:-1", "at:²", "at:2;5"),
        *("draw:", "draw:07", "draw:x", "draw:7 ", "draw:-1", f"draw:{GREATEST + 1}"),
        *("at:" + "0" * 30, "at:" + "9" * 5_000),
    ],
)
def test_words_that_are_not(text: str) -> None:
    with pytest.raises(WordsNotUnderstood, match="words not understood"):
        LandmarkWords.parse(text, 9)


def test_landmarks_of_words() -> None:
    assert LandmarkWords.parse("none", 9).landmarks() == []
    assert LandmarkWords.parse("at:5,2,5", 9).landmarks() == [2, 5]
    # One node is below its bound whatever is drawn, but for the greatest number.
    assert LandmarkWords.parse("draw:18446744073709551615", 1).landmarks() == [0]
    assert LandmarkWords.of_nodes([5, 2, 5], 9).text == "at:2,5"
    assert LandmarkWords.of_nodes([], 9).text == "none"


@pytest.mark.parametrize(
    "words", ["none", "at:0,3", "at:11", f"draw:{GREATEST}", *(f"draw:{seed}" for seed in range(12))]
)
def test_as_many_landmarks_as_the_program_has(words: str, found: Programs, tmp_path: Path) -> None:
    device = Device(tmp_path / "net", found)
    device.format(12)
    assert device.check(words).landmarks == len(LandmarkWords.parse(words, 12).landmarks())


@pytest.mark.parametrize("seed", range(6))
def test_the_landmarks_that_the_program_has(seed: int, found: Programs, tmp_path: Path) -> None:
    # Without edges each node is in its own tree alone. A landmark has no directory, so its table is shorter.
    device, nodes = Device(tmp_path / "net", found), 40
    device.format(nodes)
    device.tables(tmp_path, f"draw:{seed}")
    sizes = [(tmp_path / f"{node}.table").stat().st_size for node in range(nodes)]
    landmarks = LandmarkWords.parse(f"draw:{seed}", nodes).landmarks()
    assert [node for node in range(nodes) if sizes[node] == 100 + 13] == landmarks
    assert all(sizes[node] == 100 + 13 + 5 for node in range(nodes) if node not in landmarks)


def test_plain_numbers() -> None:
    assert (plain_number("0", 9), plain_number("9", 9)) == (0, 9)
    assert [text for text in ("10", "", "00", "+1", "1 ", "x") if plain_number(text, 9) is not None] == []


def test_options_that_are_no_numbers() -> None:
    assert parse_pairs("32767") == 32767 and parse_seed("18446744073709551615") == GREATEST
    for text in ("32768", "x", "01", ""):
        with pytest.raises(NumberNotUnderstood, match="pairs not understood"):
            parse_pairs(text)
    for text in ("18446744073709551616", "+1", "", "1.0"):
        with pytest.raises(NumberNotUnderstood, match="seed not understood"):
            parse_seed(text)


def test_nearest_landmarks_by_hand() -> None:
    path = [(node, node + 1, 1) for node in range(4)]
    # Node 2 is as near to 0 as to 4, and takes the smaller one.
    assert nearest_landmarks(6, path, [4, 0]) == [0, 0, 0, 4, 4, None]
    assert nearest_landmarks(3, [], []) == [None, None, None]


def test_nearest_landmarks_by_all_distances() -> None:
    drawn = random.Random(2)
    for _ in range(60):
        nodes = drawn.randint(1, 9)
        pairs = [(a, b) for a in range(nodes) for b in range(a)]
        edges = [(*pair, drawn.randint(1, 3)) for pair in drawn.sample(pairs, drawn.randint(0, len(pairs)))]
        landmarks = drawn.sample(range(nodes), drawn.randint(0, nodes))
        far = [[0 if a == b else 1_000 for b in range(nodes)] for a in range(nodes)]
        for a, b, weight in edges:
            far[a][b] = far[b][a] = weight
        for k in range(nodes):
            for a in range(nodes):
                for b in range(nodes):
                    far[a][b] = min(far[a][b], far[a][k] + far[k][b])
        reaching = [
            [(far[landmark][node], landmark) for landmark in landmarks if far[landmark][node] < 1_000]
            for node in range(nodes)
        ]
        assert nearest_landmarks(nodes, edges, landmarks) == [min(each)[1] if each else None for each in reaching]
