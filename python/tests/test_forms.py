"""What each form says of a network, what is refused with which words, and that what was written is read as the same
network."""

from __future__ import annotations

import io
import json
import shutil
import string
import subprocess
from pathlib import Path
from typing import Any

import pytest
from hypothesis import given, settings
from hypothesis import strategies as st

from hizmorke import Network, forms
from hizmorke.errors import FileUnusable, HizmorkeError, NetworkRefused, NotUnderstood
from hizmorke.forms import Options, read_bytes, taken_line
from hizmorke.names import MOST_NODES, Target, assign, is_name, judge


def network_in(text: str | bytes, path: str = "f", form: str | None = None, **options: Any) -> Network:
    """The network that a text says, as `hizmorke.read` gives it."""
    content = text.encode("utf-8") if isinstance(text, str) else text
    nodes, names, least = options.pop("nodes", None), options.pop("names", False), options.pop("least", False)
    reading = read_bytes(content, path, form, Options(**options))
    assigned = assign(reading, Target(nodes=nodes), names=names, least=least)
    judge(reading, assigned)
    assigned.network.taken = taken_line(reading, assigned.network.names is not None)
    return assigned.network


def refusal(text: str | bytes, path: str = "f", form: str | None = None, **options: Any) -> str:
    """With which words, and which status in front, a text is refused."""
    with pytest.raises(HizmorkeError) as caught:
        network_in(text, path, form, **options)
    return f"{caught.value.status} {caught.value}"


FIELDS = "a line is `A B W` or `A,B,W`, where W may be left out"
RECORD = "a line with commas is one record of CSV: no blank stands before a quoted field, which ends in the line"
NAME = "a name has no line break in it, and begins with no `#` and a blank"
WEIGHT = "the weight is a plain number below 4294967296"
ARC = "a line is `c TEXT`, `p sp N M` or `a U V W`"
RELATION = "a line is `A|B|R`, where R is -1, 0, 1 or 2"
NODES = "a network has 1 to 16384 nodes"
HEAD = "behind `# nodes=N` stand N lines `# NAME`, or none"
BLANK = "a name has no blank at its ends, and begins with no `#` and a blank"
TWICE = "the name stands there twice"
JSON = "the text is no JSON"
ARRAYS = "the text has no array `nodes`, or no array `links` or `edges`"
NODE = "a node has an `id` that is a name or a whole number"
LINK = "a link has a `source` and a `target` that are names or whole numbers"

READ = [
    # Edge lists: words, records, comments, weights that are left out.
    ("0 1 5\n2 1 3\n", None, [(0, 1, 5), (2, 1, 3)], 3),
    ("0 1 5", None, [(0, 1, 5)], 2),
    ("  0\t1   5 \r\n2\t3\r\n4,5\n6,7,7\n 8 , 9 , 1000000 ", None,
     [(0, 1, 5), (2, 3, 1), (4, 5, 1), (6, 7, 7), (8, 9, 1000000)], 10),
    ("# a, b\n#\n\n  # more\n0 1 5", None, [(0, 1, 5)], 2),
    ("\ufeff0 1 5\n", None, [(0, 1, 5)], 2),
    ("Bern Thun 31\nThun,Spiez,10\nBern Spiez\n", ["Bern", "Thun", "Spiez"], [(0, 1, 31), (1, 2, 10), (0, 2, 1)], 3),
    ("7 Thun 1\n0 7 2\n", ["7", "Thun", "0"], [(0, 1, 1), (2, 0, 2)], 3),
    ("00 +1 5\n00 16384 6\n", ["00", "+1", "16384"], [(0, 1, 5), (0, 2, 6)], 3),
    ('"a, ""b""","c,d",7', ['a, "b"', "c,d"], [(0, 1, 7)], 2),
    ('" A " ,B', ["A", "B"], [(0, 1, 1)], 2),
    ('a"b,c', ['a"b', "c"], [(0, 1, 1)], 2),
    ('"a"b,c', ["ab", "c"], [(0, 1, 1)], 2),
    ('"#a",b\n#c,d', ["#a", "b"], [(0, 1, 1)], 2),
    ("a,\ufeffb", ["a", "\ufeffb"], [(0, 1, 1)], 2),
    ('"A" B 5', ['"A"', "B"], [(0, 1, 5)], 2),
    ("New York,Boston,300", ["New York", "Boston"], [(0, 1, 300)], 2),
    ("a\xa0b c 5", ["a\xa0b", "c"], [(0, 1, 5)], 2),
    ("a\x0bb c 5", ["a\x0bb", "c"], [(0, 1, 5)], 2),
    ("a;b,c;d,5", ["a;b", "c;d"], [(0, 1, 5)], 2),
    ("# nodes=6\r\n4 1 7\n", None, [(4, 1, 7)], 6),
    ('# nodes=3\n# Bern\n# San Juan, north\n# 3\n3,"San Juan, north",5', ["Bern", "San Juan, north", "3"],
     [(2, 1, 5)], 3),
    ("\n# nodes=6\n0 1", None, [(0, 1, 1)], 2),
    ("#nodes=6\n0 1", None, [(0, 1, 1)], 2),
    ("# nodes = 6\n# Bern\n0 1", None, [(0, 1, 1)], 2),
    # Headers by their words.
    ("source target\n0 1", None, [(0, 1, 1)], 2),
    ("Source,TARGET\n1,2,7", None, [(1, 2, 7)], 3),
    ("From To km\n0 2 4", None, [(0, 2, 4)], 3),
    ('# roads\n\nfrom,to,"km"\nx,y,3', ["x", "y"], [(0, 1, 3)], 2),
    ("a,b,weight\n0,1,2", None, [(0, 1, 2)], 2),
    ("source,target,5\nx,y", ["source", "target", "x", "y"], [(0, 1, 5), (2, 3, 1)], 4),
    ("to,from\nx,y", ["to", "from", "x", "y"], [(0, 1, 1), (2, 3, 1)], 4),
    ("x,y\nfrom,to", ["x", "y", "from", "to"], [(0, 1, 1), (2, 3, 1)], 4),
    # DIMACS, relations, and what stays an edge list.
    ("c x\np sp 6 2\na 1 2 7\nc\n\na 2 1 7\r\n", None, [(0, 1, 7)], 6),
    ("a 1 4 2\n", None, [(0, 3, 2)], 4),
    ("# r\n174|3356|0\n3356|2914|-1|bgp\n3356|174|0", ["174", "3356", "2914"], [(0, 1, 1), (1, 2, 1)], 3),
    ("#1|2|0\n3 4 5", None, [(3, 4, 5)], 5),
    ("c d 5\np sp 3", ["c", "d", "p", "sp"], [(0, 1, 5), (2, 3, 3)], 4),
    # JSON: order of nodes, `links` before `edges`, parallel edges of one weight, digits in a text.
    ('{"nodes": [{"id": "B"}, {"id": "A"}], "edges": [{"source": "A", "target": "B"}]}', ["B", "A"], [(1, 0, 1)], 2),
    ('{"nodes": [{"id": 4}, {"id": 0}], "links": [{"source": 0, "target": 4, "weight": 3}], "edges": []}', None,
     [(0, 4, 3)], 5),
    ('{"nodes": [{"id": "7"}, {"id": "3"}], "links": [{"source": "3", "target": "7", "weight": 5}]}', ["7", "3"],
     [(1, 0, 5)], 2),
    ('{"nodes": [], "links": [{"source": 0, "target": 1}, {"source": 1, "target": 0}]}', None, [(0, 1, 1)], 2),
]  # fmt: skip


@pytest.mark.parametrize(("text", "names", "edges", "nodes"), READ)
def test_reads(text: str, names: list[str] | None, edges: list[tuple[int, int, int]], nodes: int) -> None:
    network = network_in(text)
    assert (network.names, network.edges, network.node_count) == (names, edges, nodes)


REFUSED: list[tuple[str | bytes, dict[str, Any], str]] = [
    ("0", {}, f"2 f:1: {FIELDS}"),
    ("0 1 2 3", {}, f"2 f:1: {FIELDS}"),
    ("New York Boston 300", {}, f"2 f:1: {FIELDS}"),
    ("0,,5", {}, f"2 f:1: {FIELDS}"),
    ("0,1,5,", {}, f"2 f:1: {FIELDS}"),
    (",", {}, f"2 f:1: {FIELDS}"),
    ('"",b', {}, f"2 f:1: {FIELDS}"),
    ('a," ",5', {}, f"2 f:1: {FIELDS}"),
    ("source target weight x\n0 1", {}, f"2 f:1: {FIELDS}"),
    ("0 1 5\n0 2 x", {}, f"2 f:2: {WEIGHT}"),
    ("0 1 5\n\n# x\n0 1 -5\n0", {}, f"2 f:4: {WEIGHT}"),
    ("0 1 05", {}, f"2 f:1: {WEIGHT}"),
    ("0 1 5.0", {}, f"2 f:1: {WEIGHT}"),
    ("0 1 5_0", {}, f"2 f:1: {WEIGHT}"),
    ("0 1 \u0665", {}, f"2 f:1: {WEIGHT}"),
    ("0 1 4294967296", {}, f"2 f:1: {WEIGHT}"),
    ("0,1,", {}, f"2 f:1: {WEIGHT}"),
    ("a b weight\n0 1 2", {}, f"2 f:1: {WEIGHT}"),
    ("a,b,weight\nc,d,weight", {}, f"2 f:2: {WEIGHT}"),
    ("a,b,weight\n0,1,2", {"header": False}, f"2 f:1: {WEIGHT}"),
    ('0,1\n"a,b\nc",d', {}, f"2 f:2: {RECORD}"),
    ("0,1,5\r2,3", {}, f"2 f:1: {RECORD}"),
    ('"a", "b",5', {}, f"2 f:1: {RECORD}"),
    (' "a",b', {}, f"2 f:1: {RECORD}"),
    ("a,# b,5", {}, f"2 f:1: {NAME}"),
    ('"a\rb",c', {}, f"2 f:1: {NAME}"),
    (b"0 1\n0 1\xff", {}, "2 f:2: the text is not UTF-8"),
    ("# nodes=0\n", {}, f"2 f:1: {NODES}"),
    ("# nodes=six\n0 1", {}, f"2 f:1: {NODES}"),
    ("# nodes=3\n# Bern\n# Thun\nBern Thun 5", {}, f"2 f:1: {HEAD}"),
    ("# nodes=3\n# Bern\n# Thun\n# Bern\n", {}, f"2 f:4: {TWICE}"),
    ("# nodes=2\n# Bern\n#  Thun\n", {}, f"2 f:3: {BLANK}"),
    ("0 1 5\n1 2 5\n1 0 7", {}, "1 f:3: the edge is there already, by line 1"),
    ("0 1 5\n2 2 5", {}, "1 f:2: both ends are one node"),
    ("0 1 0", {}, "1 f:1: the weight is out of range"),
    ("0 1 1000001", {}, "1 f:1: the weight is out of range"),
    ("0 1 4294967295", {}, "1 f:1: the weight is out of range"),
    ("0 1\n70000 3 9", {}, "1 f:2: `70000` is no number of a node, 0 to 16383: with --names all ends are names"),
    ("0 1\n00 1 5", {}, "1 f:2: `00` is no number of a node, 0 to 16383: with --names all ends are names"),
    ("# nodes=2\n0 2 5", {}, "1 f:2: `2` is no number of a node, 0 to 1: with --names all ends are names"),
    ("# nodes=6\n0 1", {"nodes": 5}, "1 f: it has 6 nodes, and --nodes 5"),
    ("a b\n\nb c\nc a", {"nodes": 2}, "1 f:3: there are more names than nodes, which are 2"),
    ("# nodes=3\n# a\n# b\n# c\n", {"nodes": 4, "form": "dimacs"}, f"2 f:1: {ARC}"),
    # Other forms of lines.
    ("p sp 3 1\na 1 2", {}, f"2 f:2: {ARC}"),
    ("p sp 3 1\na 1 2 5\ne 1 2 5", {}, f"2 f:3: {ARC}"),
    ("p sp 3 1\na 1,2 3 4", {}, f"2 f:2: {ARC}"),
    ("p sp 3 one\na 1 2 5", {}, f"2 f:1: {ARC}"),
    ("p sp 3 1\np sp 4 1", {}, f"2 f:2: {ARC}"),
    ("p sp 3 1\na 1 2 05", {}, f"2 f:2: {WEIGHT}"),
    ("p sp 3 1\na 0 1 5", {}, "1 f:2: `0` is no number of a node, 1 to 3"),
    ("p sp 3 1\na 1 3 5\na 2 4 5", {}, "1 f:3: `4` is no number of a node, 1 to 3"),
    ("p sp 3 1\na 1 2 5\na 3 3 5", {}, "1 f:3: both ends are one node"),
    ("c\np sp 16385 1\na 1 2 5", {}, f"2 f:2: {NODES}"),
    ("p sp 2 2\na 1 2 7\na 2 1 6", {},
     "2 f:3: line 2 has another weight for this edge; --least takes the smaller weight"),
    ("1|2|0\n1|2", {}, f"2 f:2: {RELATION}"),
    ("1|2|0\n1|2|5", {}, f"2 f:2: {RELATION}"),
    ("2 3", {"form": "as-rel"}, f"2 f:1: {RELATION}"),
    ("1|2|0\n|2|0", {}, f"2 f:2: {RELATION}"),
    # JSON.
    ('{"nodes": [],\n"links": [\n', {}, f"2 f:3: {JSON}"),
    ('{"nodes": [],\n"links": [],}\n', {}, f"2 f:2: {JSON}"),
    ("0 1 5", {"form": "json"}, f"2 f:1: {JSON}"),
    ('{"nodes": [],\n\n"links": [NaN], "x": "NaN"}', {}, f"2 f:3: {JSON}"),
    ('{"nodes": ' + "[" * 100_000, {}, f"2 f:1: {JSON}"),
    ('{"nodes": [{"id": 0}]}', {}, f"2 f:1: {ARRAYS}"),
    ('{"nodes": {}, "links": []}', {}, f"2 f:1: {ARRAYS}"),
    ("[1]", {"form": "json"}, f"2 f:1: {ARRAYS}"),
    ('{"nodes": [{"id": 0}, {"name": 1}], "links": []}', {}, f"2 f: node 2: {NODE}"),
    ('{"nodes": [{"id": "a "}], "links": []}', {}, f"2 f: node 1: {NODE}"),
    ('{"nodes": [{"id": -1}], "links": []}', {}, f"2 f: node 1: {NODE}"),
    ('{"nodes": [{"id": true}], "links": []}', {}, f"2 f: node 1: {NODE}"),
    ('{"nodes": [{"id": "\\ud800"}], "links": []}', {}, f"2 f: node 1: {NODE}"),
    ('{"nodes": [], "links": [{"source": 0, "target": 1}, {"source": 0}]}', {}, f"2 f: link 2: {LINK}"),
    ('{"nodes": [], "links": [{"source": 0, "target": 1, "weight": 2.5}]}', {}, f"2 f: link 1: {WEIGHT}"),
    ('{"nodes": [], "links": [{"source": 0, "target": 1, "weight": "5"}]}', {}, f"2 f: link 1: {WEIGHT}"),
    ('{"nodes": [], "links": [{"source": 0, "target": 1, "weight": 4294967296}]}', {}, f"2 f: link 1: {WEIGHT}"),
    ('{"nodes": [{"id": 0}, {"id": 16384}], "links": []}', {},
     "1 f: node 2: `16384` is no number of a node, 0 to 16383: with --names all ends are names"),
    ('{"nodes": [], "links": [{"source": 0, "target": 1}, {"source": 2, "target": 2}]}', {},
     "1 f: link 2: both ends are one node"),
    ('{"nodes": [], "links": [{"source": 0, "target": 1, "weight": 1000001}]}', {},
     "1 f: link 1: the weight is out of range"),
    ('{"nodes": [], "links": [{"source": 0, "target": 1, "weight": 4}, {"source": 1, "target": 0, "weight": 9}]}', {},
     "2 f: link 2: link 1 has another weight for this edge; --least takes the smaller weight"),
    # Words that aren't understood.
    ("0 1", {"scale": 0}, "2 --scale takes 1 to 1000000"),
    ("0 1", {"scale": 1000001}, "2 --scale takes 1 to 1000000"),
    ("a 1 2 3", {"form": "dimacs", "header": True}, "2 --header and --no-header go with edge lists"),
    ("a 1 2 3", {"form": "dimacs", "scale": 10}, "2 --scale goes with edge lists"),
    ("p sp 2 1\na 1 2 3", {"scale": 10}, "2 --scale goes with edge lists"),
    ("p sp 2 1\na 1 2 3", {"names": True}, "2 --names does not go with DIMACS"),
    ("a 1 2 3", {"form": "dimacs", "delimiter": ";"}, "2 --delimiter goes with edge lists"),
    ("a 1 2 3", {"form": "dimacs", "columns": ("1", "2")}, "2 --columns goes with edge lists"),
    ("1|2|0", {"weight": "w"}, "2 --weight goes with edge lists, JSON and graphs"),
    ("0 1", {"undirected": "max"}, "2 --undirected takes min"),
    ("0 1", {"delimiter": "ab"}, '2 --delimiter takes one character, no letter or digit, and none of `"` and `#`'),
    ("0 1", {"columns": ("1",)}, "2 --columns takes A,B or A,B,W"),
    ("0 1", {"columns": ("1", "2", "3"), "weight": "w"}, "2 either --weight or a third column in --columns"),
]  # fmt: skip


@pytest.mark.parametrize(("text", "options", "said"), REFUSED)
def test_refuses_with_file_and_place(text: str | bytes, options: dict[str, Any], said: str) -> None:
    assert refusal(text, **options) == said


def test_asked_form_that_is_none_lists_all() -> None:
    said = "2 --as takes edges, gephi, konect, networkx, dimacs, as-rel, json, graphml, gml, pajek, gexf or mm"
    assert refusal("0 1", form="gr") == said


def test_a_file_that_is_not_there_has_status_1(tmp_path: Path) -> None:
    with pytest.raises(FileUnusable, match="no: the file is not there") as caught:
        forms.read(tmp_path / "no")
    assert caught.value.status == 1
    with pytest.raises(FileUnusable):
        forms.read(tmp_path)


def weighted(*edges: tuple[int, int, float], **more: object) -> str:
    """Node-link JSON without nodes."""
    keys = "source", "target", "weight"
    return json.dumps({"nodes": [], "links": [dict(zip(keys, edge)) for edge in edges], **more})


def test_least_takes_the_smaller_weight_in_each_form() -> None:
    assert network_in("0 1 9\n1 0 8", least=True).edges == [(1, 0, 8)]
    assert network_in("p sp 2 4\na 1 2 7\na 2 1 6\na 1 2 8\na 2 1 6", least=True).edges == [(1, 0, 6)]
    parallel = weighted((0, 1, 4), (1, 0, 9))
    assert network_in(parallel, least=True).edges == [(0, 1, 4)]


# ---- weights that are multiplied


def test_scale_rounds_a_half_up_and_tells_the_error() -> None:
    text = '0 1 1.25\n1 2 0.0149\n2,3,"0.015"\n3 4\n4 5 3.\n5 6 007\n'
    reading = read_bytes(text.encode(), "km", None, Options(scale=100))
    assert reading.weights == [125, 1, 2, 100, 300, 700]
    assert reading.notes == ["km: weights are multiplied by 100, with an error of at most 0.500"]
    assert (reading.rounded, reading.left_out, reading.error) == (2, 1, 0.5)
    text = "source,target,cost\n0,1,0.000001\n1,2,0.9999996\n"
    reading = read_bytes(text.encode(), "micro", None, Options(scale=1_000_000))
    assert reading.weights == [1, 1_000_000]
    assert reading.notes == ["micro: weights are multiplied by 1000000, with an error of at most 0.400"]


@pytest.mark.parametrize("word", [".5", "1e3", "-1", "1.2.3", "1.234567890123456789", "4294967.2955", "1,5", ""])
def test_scale_refuses_what_is_no_decimal(word: str) -> None:
    assert refusal(f'0,1,"0.5"\n1,2,"{word}"', scale=1000) == f"2 f:2: {WEIGHT}"


def test_an_error_that_is_out_of_range_is_not_told() -> None:
    reading = read_bytes(b"0 1 123456789.123456789", "long", None, Options(scale=10))
    assert (reading.weights, reading.notes) == ([1234567891], [])


@settings(deadline=None)
@given(st.integers(0, 10**6), st.integers(0, 9), st.integers(1, 1000))
def test_scaled_weight_is_the_nearest(units: int, places: int, scale: int) -> None:
    digits = str(units).rjust(places + 1, "0")
    word = digits[: len(digits) - places] + ("." + digits[len(digits) - places :] if places else "")
    reading = read_bytes(f"0 1 {word}".encode(), "f", None, Options(scale=scale))
    # Twice the distance from the exact product is at most one unit, and a half counts up.
    unit = 10**places
    twice = 2 * (reading.weights[0] * unit - units * scale)
    assert -unit < twice <= unit


# ---- what was silent: findings of a new user's trial


@pytest.mark.parametrize(
    "line", ["Bern;Genf;2,5", "a b 2,5", "a\tb\t2,5", "New York 5,7", "a b 1.000,5", "Bern;Genf,5"]
)
def test_a_decimal_comma_or_another_delimiter_is_refused(line: str) -> None:
    text = "the line has a decimal comma, or another delimiter than commas: --delimiter says which"
    assert refusal(f"x y 1\n{line}\n") == f"2 f:2: {text}"


def test_the_delimiter_that_it_asks_for_helps() -> None:
    assert network_in("Bern;Genf;2,5\n", delimiter=";", scale=10).edges == [(0, 1, 25)]
    assert network_in("Bern;Genf;2,5\n", delimiter=";", scale=10).names == ["Bern", "Genf"]
    assert network_in("a b 2,5\n", delimiter=" ", scale=10).edges == [(0, 1, 25)]
    assert network_in("a b\tc\t7\n", delimiter="tab").names == ["a b", "c"]
    assert network_in("New York 5,7\n", delimiter=",").names == ["New York 5", "7"]
    assert refusal("a;b;2,5", delimiter=";") == f"2 f:1: {WEIGHT}"
    assert network_in("San Juan,7\n").names == ["San Juan", "7"]
    assert network_in("a,\tb\n").names == ["a", "b"]
    assert refusal("Bern;Genf;2,5", columns=("1", "2")).startswith("2 f:1: the line has a decimal comma")


@pytest.mark.parametrize(
    "head", ["node1,node2", "id1,id2", "nodeA,nodeB", "node1 node2", "source target", "Src,Dst", "FromNodeId\tToNodeId"]
)
def test_a_header_of_two_known_words(head: str) -> None:
    network = network_in(f"{head}\n0 1\n1 2\n")
    assert (network.names, network.node_count) == (None, 3)
    assert network.taken == "edges, header: yes, names: no, 2 weights left out"


@pytest.mark.parametrize("head", ["a b", "x,y", "left,right"])
def test_two_names_above_numbers_are_refused(head: str) -> None:
    assert refusal(f"# x\n{head}\n0 1\n1 2\n") == "2 f:2: the line may be a header: --header or --no-header says it"
    assert network_in(f"{head}\n0 1\n1 2\n", header=True).names is None
    assert network_in(f"{head}\n0 1\n1 2\n", header=False).node_count == 5
    assert network_in(f"{head}\nb c\n1 2\n").names is not None


@pytest.mark.parametrize("word", ["NaN", "N/A", "inf", "unknown", "$5", "?", "x"])
def test_a_weight_that_is_none_makes_no_header(word: str) -> None:
    assert refusal(f"a,b,{word}\nb,c,5\n") == f"2 f:1: {WEIGHT}"
    assert refusal(f"b,c,5\na,b,{word}\n") == f"2 f:2: {WEIGHT}"


@pytest.mark.parametrize("word", ["weight", "Weight", "W", "cost", "distance", "km", "latency", "ms"])
def test_a_known_word_for_the_weight_makes_a_header(word: str) -> None:
    assert network_in(f"left,right,{word}\nb,c,5\n").edges == [(0, 1, 5)]


def links(*ends: tuple[object, object], **more: object) -> str:
    return json.dumps({"nodes": [], "links": [{"source": a, "target": b} for a, b in ends], **more})


def test_two_spellings_of_one_name_are_refused() -> None:
    said = '1 and "1" are two spellings of one name'
    assert refusal('{"nodes": [{"id": 1}, {"id": "1"}], "links": []}') == f"2 f: node 2: {said}"
    assert refusal('{"nodes": [{"id": "1"}], "links": [{"source": 1, "target": "2"}]}') == f"2 f: link 1: {said}"
    assert refusal(links((1, 2), ("1", 3))) == f"2 f: link 2: {said}"
    assert network_in(links((9, "x"))).names == ["9", "x"]


def test_repeated_ids_are_refused() -> None:
    assert refusal('{"nodes": [{"id": 1}, {"id": 2}, {"id": 1}], "links": []}') == f"2 f: node 3: {TWICE}"
    assert refusal('{"nodes": [{"id": "a"}, {"id": "a"}], "links": []}') == f"2 f: node 2: {TWICE}"


ONE_WAY = (
    "the network is directed, and this way has none back of its weight: "
    "--undirected min takes the smaller weight of both"
)


def test_directed_json_needs_both_ways() -> None:
    assert refusal(links((0, 1), (1, 0), (1, 2), directed=True)) == f"2 f: link 3: {ONE_WAY}"
    assert network_in(links((0, 1), (1, 0), directed=True)).edges == [(0, 1, 1)]
    taken = network_in(links((0, 1), (1, 0), (1, 2), directed=True), undirected="min")
    assert taken.edges == [(0, 1, 1), (1, 2, 1)]
    assert taken.taken == "json, names: no, directed: the least weight of both ways, 3 weights left out"
    unlike = weighted((0, 1, 4), (1, 0, 9), directed=True)
    assert refusal(unlike) == f"2 f: link 1: {ONE_WAY}"
    assert network_in(unlike, undirected="min").edges == [(0, 1, 4)]


def test_a_weight_under_another_key_is_asked_for() -> None:
    link = {"source": 0, "target": 1, "key": 0, "id": 3, "type": "road", "cost": 5, "distance": 2.5}
    text = json.dumps({"nodes": [], "links": [link]})
    assert refusal(text) == (
        "2 f: link 1: it has no `weight`, but `cost`, `distance`: --weight says which is the weight, or none"
    )
    assert network_in(text, weight="cost").edges == [(0, 1, 5)]
    assert network_in(text, weight="distance", scale=10).edges == [(0, 1, 25)]
    assert network_in(text, weight="none").edges == [(0, 1, 1)]
    assert refusal(text, weight="length") == (
        "2 f: link 1: it has no `length`, but `cost`, `distance`: --weight says which is the weight, or none"
    )


def test_floats_in_json_go_by_scale_alone() -> None:
    text = weighted((0, 1, 2.0), (1, 2, 0.125))
    assert refusal(text) == f"2 f: link 1: {WEIGHT}"
    network = network_in(text, scale=100)
    assert (network.edges, network.taken) == ([(0, 1, 200), (1, 2, 13)], "json, names: no, 1 weight rounded")
    assert network_in(weighted((0, 1, 2.0)), scale=1).edges == [(0, 1, 2)]
    for word in ("1e-999999999", "0e-999999999", "1e-30", "0.4"):
        tiny = '{"nodes": [], "links": [{"source": 0, "target": 1, "weight": ' + word + "}]}"
        assert refusal(tiny, scale=1) == "1 f: link 1: the weight is out of range"
    huge = '{"nodes": [], "links": [{"source": 0, "target": 1, "weight": 1e999999999}]}'
    assert refusal(huge, scale=1) == f"2 f: link 1: {WEIGHT}"


def test_a_cut_dimacs_file_is_refused() -> None:
    assert refusal("c x\np sp 3 99\na 1 2 5\n") == "2 f:2: it says 99 arcs, and there are 1"
    assert network_in("p sp 3 1\na 1 2 5\na 2 1 5\n").edges == [(0, 1, 5)]


def test_a_file_that_says_no_node_is_named() -> None:
    assert refusal("# nothing\n") == "1 f: it says no node: --nodes says how many there are"
    assert network_in("# nothing\n", nodes=4).node_count == 4


def test_one_line_says_what_was_taken() -> None:
    text = "Bern Thun 3.14\nThun Chur 2.72\nChur Bern 1.4\n"
    assert network_in(text, scale=1).taken == "edges, header: no, names: yes, 3 weights rounded"
    assert network_in("from,to\n0,1\n").taken == "edges, header: yes, names: no, 1 weight left out"
    assert network_in("1|2|0").taken == "as-rel, names: yes"


# ---- columns and delimiters


def test_columns_by_name_and_by_number() -> None:
    text = "city,other,road,km,ms\nBern,Thun,A6,31,2\nThun,Spiez,A8,10,1\n"
    assert network_in(text, weight="km").edges == [(0, 1, 31), (1, 2, 10)]
    assert network_in(text, weight="km").names == ["Bern", "Thun", "Spiez"]
    assert network_in(text, columns=("other", "city", "ms")).edges == [(0, 1, 2), (2, 0, 1)]
    assert network_in(text, columns=("2", "1"), header=True).edges == [(0, 1, 1), (2, 0, 1)]
    assert network_in("A6 0 1 31\nA8 1 2 10\n", columns=("2", "3", "4")).edges == [(0, 1, 31), (1, 2, 10)]
    assert network_in("0 1 31\n", weight="none").edges == [(0, 1, 1)]
    assert refusal(text, weight="miles") == "2 f:1: there is no column `miles`, but `city`, `other`, `road`, `km`, `ms`"
    assert refusal("0 1 31\n", columns=("1", "2", "4")) == "2 f:1: the line has no column 4"
    assert refusal(text, weight="km", header=False) == "2 --weight, and --columns by name, need a header"
    assert refusal("city,other,km\nBern,Thun,\n", weight="km") == f"2 f:2: {WEIGHT}"


def test_semicolons_and_tabs_have_quoted_fields() -> None:
    assert network_in('"a;b";c;5\n', delimiter=";").names == ["a;b", "c"]
    assert network_in("from;to;km\na, x;c;5\n", delimiter=";").names == ["a, x", "c"]
    assert network_in("# roads\n\nSan Juan\tNew York\t5\n", delimiter="\\t").names == ["San Juan", "New York"]


GEPHI = "Source,Target,Type,Id,Label,timeset,Weight\n"


def test_gephi() -> None:
    text = GEPHI + 'Bern,Thun,Undirected,0,,,31\n"San Juan, n",Thun,Undirected,1,"a ""b""",,2\n'
    network = network_in(text)
    assert (network.names, network.edges) == (["Bern", "Thun", "San Juan, n"], [(0, 1, 31), (2, 1, 2)])
    assert network.taken == "gephi, header: yes, names: yes"
    assert network_in(text.replace(",", ";").replace("Juan; n", "Juan, n")).edges == network.edges
    assert network_in("Id\tSource\tTarget\tWeight\n7\t0\t1\t5\n").edges == [(0, 1, 5)]
    assert network_in("Source,Target,Type\n0,1,Undirected\n").edges == [(0, 1, 1)]
    assert refusal(GEPHI + "a,b,Undirected,0,,,1.5\n") == f"2 f:2: {WEIGHT}"
    assert network_in(GEPHI + "a,b,Undirected,0,,,1.5\n", scale=2).edges == [(0, 1, 3)]
    assert refusal(GEPHI + "a,b,Undirected\n") == "2 f:2: the line has no column 7"


def test_gephi_directed() -> None:
    text = GEPHI + "a,b,Directed,0,,,5\nb,a,directed,1,,,5\n"
    assert network_in(text).edges == [(0, 1, 5)]
    assert refusal(text + "b,c,Directed,2,,,7\n") == f"2 f:4: {ONE_WAY}"
    assert network_in(text + "b,c,Directed,2,,,7\n", undirected="min").edges == [(0, 1, 5), (1, 2, 7)]
    assert network_in(GEPHI + "a,b,Undirected,0,,,5\nb,a,Directed,1,,,5\n").edges == [(0, 1, 5)]


def test_konect() -> None:
    text = "% sym positive\n% 3 4 4\n1 2 5\n2\t3 7 1284\n3 4\n"
    network = network_in(text)
    assert (network.edges, network.node_count) == ([(0, 1, 5), (1, 2, 7), (2, 3, 1)], 4)
    assert refusal("% sym\n% 4 4 4\n1 2\n") == "2 f:2: it says 4 edges, and there are 1"
    assert refusal("% bip unweighted\n1 2\n") == "2 f:1: a bipartite list has two sets of nodes with the same numbers"
    assert refusal("% asym unweighted\n1 2\n2 1\n2 3\n") == f"2 f:4: {ONE_WAY}"
    assert network_in("% asym unweighted\n1 2\n2 3\n", undirected="min").edges == [(0, 1, 1), (1, 2, 1)]
    assert refusal("% sym\n0 1\n") == "1 f:2: `0` is no number of a node, 1 to 16384"
    assert refusal("% sym\n1 2 3 4 5\n").startswith("2 f:2: a line is `A B`, `A B W` or `A B W TIME`")
    assert refusal("% sym\n1 2 -3\n") == f"2 f:2: {WEIGHT}"
    assert refusal("% sym\n1 2\n", names=True) == "2 --names does not go with KONECT"


def test_networkx_lists() -> None:
    networkx = pytest.importorskip("networkx")
    graph = networkx.Graph([("a", "b", {"weight": 80}), ("b", "c", {}), ("c", "a", {"weight": 3, "type": "x, y"})])
    stream = io.BytesIO()
    networkx.write_edgelist(graph, stream)
    network = network_in(stream.getvalue())
    assert {frozenset((network.name_of(a), network.name_of(b))): w for a, b, w in network.edges} == {
        frozenset("ab"): 80,
        frozenset("bc"): 1,
        frozenset("ca"): 3,
    }
    assert network_in("a 6 {'weight': 80}\n").names == ["a", "6"]
    text = "0,6,{'cost': 2.5}\n"
    assert network_in(text, form="networkx", delimiter=",", weight="cost", scale=2).edges == [(0, 6, 5)]
    assert refusal("0 6 {'weight': 80}\n0 6\n") == "2 f:2: a line is `A B {..}`, as networkx writes it"
    assert refusal("0 6 {'weight': x}\n") == "2 f:1: a line is `A B {..}`, as networkx writes it"
    said = "2 f:1: it has no `weight`, but `cost`: --weight says which is the weight, or none"
    assert refusal("0 6 {'cost': 8}\n") == said


# ---- graphs by networkx and SciPy


GRAPH_FORMS = [("graphml", ".graphml"), ("gml", ".gml"), ("pajek", ".net"), ("gexf", ".gexf")]


@pytest.mark.parametrize(("form", "suffix"), GRAPH_FORMS)
def test_what_networkx_writes_is_read_as_networkx_reads_it(form: str, suffix: str, tmp_path: Path) -> None:
    networkx = pytest.importorskip("networkx")
    graph = networkx.Graph([("Bern", "Thun", {"weight": 31}), ("Thun", "Zürich West", {"weight": 2})])
    graph.add_node("Chur")
    path = tmp_path / f"graph{suffix}"
    getattr(networkx, f"write_{form}")(graph, path)
    network = forms.read(path)
    assert network.names == ["Bern", "Thun", "Zürich West", "Chur"]
    assert network.edges == [(0, 1, 31), (1, 2, 2)]
    assert network.taken == f"{form}, names: yes"
    digraph = networkx.DiGraph([("a", "b", {"weight": 5}), ("b", "a", {"weight": 5})])
    getattr(networkx, f"write_{form}")(digraph, path)
    assert forms.read(path).edges == [(0, 1, 5)]
    digraph.add_edge("b", "c", weight=2)
    getattr(networkx, f"write_{form}")(digraph, path)
    with pytest.raises(NotUnderstood, match=f"{path.name}: edge b c: {ONE_WAY}"):
        forms.read(path)
    assert forms.read(path, undirected="min").edges == [(0, 1, 5), (1, 2, 2)]


@pytest.mark.parametrize(("form", "suffix"), GRAPH_FORMS[:2])
def test_floats_and_other_keys_of_graphs(form: str, suffix: str, tmp_path: Path) -> None:
    networkx = pytest.importorskip("networkx")
    path = tmp_path / f"graph{suffix}"
    getattr(networkx, f"write_{form}")(networkx.Graph([(0, 1, {"weight": 2.5}), (1, 2, {"weight": 2.0})]), path)
    with pytest.raises(NotUnderstood, match=WEIGHT):
        forms.read(path)
    assert forms.read(path, scale=10).edges == [(0, 1, 25), (1, 2, 20)]
    assert forms.read(path, scale=10).names is None
    getattr(networkx, f"write_{form}")(networkx.Graph([(0, 1, {"cost": 2})]), path)
    with pytest.raises(NotUnderstood, match="edge 0 1: it has no `weight`, but `cost`"):
        forms.read(path)
    assert forms.read(path, weight="cost").edges == [(0, 1, 2)]


MATRIX = "%%MatrixMarket matrix coordinate "


@pytest.mark.parametrize(
    ("name", "text", "said"),
    [
        ("x.graphml", "<graphml><graph>", "x.graphml: networkx can't read it as GraphML: "),
        ("x", "<?xml version='1.0'?><gexf>", "x: networkx can't read it as GEXF: "),
        ("x.gml", "graph [ node", "x.gml: networkx can't read it as GML: "),
        ("x.net", "*vertices x", "x.net: networkx can't read it as Pajek: "),
        ("x.net", b"\xff", "x.net: networkx can't read it as Pajek: "),
        ("x.mtx", MATRIX + "integer general\n2 2 1\n", "x.mtx: SciPy can't read it as MatrixMarket: "),
        ("x", MATRIX + "integer general\n2 3 1\n1 2 5\n", "x: the matrix isn't square: it has 2 rows and 3 column"),
        ("x.mtx", MATRIX + "complex general\n2 2 1\n1 2 5 1\n", "x.mtx: a network is an integer, real or pattern"),
    ],
)
def test_what_networkx_and_scipy_cannot_read_is_told_with_cause(name: str, text: str | bytes, said: str) -> None:
    pytest.importorskip("networkx")
    pytest.importorskip("scipy")
    told = refusal(text, name)
    assert told.startswith("2 " + said) and len(told) > len(said)


def test_matrix_market() -> None:
    pytest.importorskip("scipy")
    head = MATRIX
    network = network_in(head + "integer symmetric\n% c\n4 4 2\n2 1 5\n3 2 7\n")
    assert (network.edges, network.node_count, network.names) == ([(1, 0, 5), (2, 1, 7)], 4, None)
    assert network_in(head + "pattern symmetric\n3 3 1\n2 1\n").edges == [(1, 0, 1)]
    assert network_in(head + "real symmetric\n3 3 1\n2 1 5.0\n").edges == [(1, 0, 5)]
    assert refusal(head + "real symmetric\n3 3 1\n2 1 5.5\n") == f"2 f: entry 1: {WEIGHT}"
    assert network_in(head + "real symmetric\n3 3 1\n2 1 5.5\n", scale=2).edges == [(1, 0, 11)]
    assert refusal(head + "integer general\n3 3 1\n2 1 5\n") == f"2 f: entry 1: {ONE_WAY}"
    assert network_in(head + "integer general\n3 3 1\n2 1 5\n", undirected="min").edges == [(1, 0, 5)]
    assert network_in(head + "integer general\n3 3 2\n2 1 5\n1 2 5\n").edges == [(1, 0, 5)]
    assert refusal(head + "integer symmetric\n3 3 1\n2 2 5\n") == "1 f: entry 1: both ends are one node"
    assert refusal(head + "integer symmetric\n3 3 1\n2 1 0\n") == "1 f: entry 1: the weight is out of range"
    said = "2 f: it says 1000000000 entries, and there are fewer"
    assert refusal(head + "integer symmetric\n9 9 1000000000\n2 1 5\n") == said
    said = "2 --weight goes with edge lists, JSON and graphs"
    assert refusal(head + "integer symmetric\n3 3 1\n2 1 5\n", weight="km") == said
    assert refusal(head + "pattern symmetric\n16385 16385 1\n2 1\n") == f"2 f: {NODES}"


# ---- writing


SMALL = Network(5, [(3, 0, 1_000_000), (0, 1, 5), (2, 1, 7)], ["Bern", "a,b", 'c"d'])


def test_edges_and_csv_quote_what_has_to_be() -> None:
    rows = 'a,b,weight\nBern,"a,b",5\nBern,"#3",1000000\n"a,b","c""d",7\n'
    assert forms.text_of(SMALL, "csv") == rows
    assert forms.text_of(SMALL) == '# nodes=5\n# Bern\n# a,b\n# c"d\n# #3\n# #4\n' + rows
    plain = Network(4, [(1, 0, 5), (3, 0, 2)], ["Bern", "Thun"])
    assert forms.text_of(plain) == "# nodes=4\n# Bern\n# Thun\n# #2\n# #3\nBern Thun 5\nBern #3 2\n"
    assert forms.text_of(Network(3, [(2, 1, 4)])) == "# nodes=3\n1 2 4\n"
    assert forms.text_of(Network(2, [], [])) == "# nodes=2\n# #0\n# #1\n"


@pytest.mark.parametrize("name", ["%", "x;source;target;type", "{'a':1}", "1|2|0", "a", "p"])
def test_what_is_written_is_never_taken_for_another_form(name: str) -> None:
    network = Network(3, [(0, 1, 5), (0, 2, 4)], [name, "1", "2"])
    same(network, forms.text_of(network), "f")


def test_dimacs_and_json() -> None:
    network = Network(3, [(1, 0, 7), (1, 2, 5)])
    assert forms.text_of(network, "dimacs") == "p sp 3 4\na 1 2 7\na 2 1 7\na 2 3 5\na 3 2 5\n"
    assert forms.text_of(network, "json") == (
        '{"directed":false,"edges":[{"source":0,"target":1,"weight":7},{"source":1,"target":2,"weight":5}],'
        '"graph":{},"multigraph":false,"nodes":[{"id":0},{"id":1},{"id":2}]}\n'
    )
    assert '"source":"Bern","target":"#3"' in forms.text_of(SMALL, "json")
    assert json.loads(forms.text_of(SMALL, "json"))["nodes"][2:] == [{"id": 'c"d'}, {"id": "#3"}, {"id": "#4"}]


def test_dot_with_landmarks() -> None:
    network = Network(4, [(0, 1, 1), (1, 2, 2)], ["Bern", 'a"b'])
    marks = [(0, 0), (0, 0), (2, 12), None]
    assert forms.text_of(network, "dot", marks) == (
        "graph network {\n"
        '    "Bern" [shape=doublecircle, style=filled, fillcolor="/set312/1", landmark="Bern"];\n'
        '    "a\\"b" [style=filled, fillcolor="/set312/1", landmark="Bern"];\n'
        '    "#2" [shape=doublecircle, style=filled, fillcolor="/set312/1", landmark="#2"];\n'
        '    "#3";\n'
        '    "Bern" -- "a\\"b" [label=1];\n'
        '    "a\\"b" -- "#2" [label=2];\n'
        "}\n"
    )
    assert forms.text_of(Network(1, []), "dot") == "graph network {\n}\n"


def test_what_is_not_written() -> None:
    with pytest.raises(NotUnderstood, match="--as takes edges, csv, dimacs, dot, json, graphml, gml, pajek or mm"):
        forms.text_of(SMALL, "gr")
    with pytest.raises(NotUnderstood, match="--words goes with --as dot"):
        forms.text_of(SMALL, "csv", [])
    with pytest.raises(NetworkRefused, match="the name `c\"d` can't stand in Pajek"):
        forms.text_of(SMALL, "pajek")
    with pytest.raises(NetworkRefused, match="can't stand in GraphML"):
        forms.text_of(Network(1, [], ["a\x01b"]), "graphml")


NASTY = [
    "a", "#", "#x", "#1x", '"', '"a"', 'a"b', "a,b", "a b", "a\tb", "a:b", "-a", "a;b", "\\", "a\\", '\\"', "\\\\",
    "\\N", "'", "&amp;", "<b>", "{", "}", "%", "|", "1|2|0", "nodes=3", "source", "target", "weight", "7", "07", "+1",
    "2,5",
    "a 2,5", "é", "\u2028", "\ufeff", "\x00", "\x7f", "\x0b", "\xa0", "\U0001f600", "none", "NaN", "p", "c", "sp",
]  # fmt: skip


@pytest.mark.skipif(shutil.which("dot") is None, reason="graphviz isn't there")
def test_names_come_back_through_graphviz() -> None:
    names = [name for name in NASTY if is_name(name) and name not in ("\x00", "\ufeff")]
    network = Network(len(names), [(node, node + 1, 1) for node in range(len(names) - 1)], names)
    text = forms.text_of(network, "dot").encode()
    drawn = subprocess.run(["dot", "-Tjson0"], input=text, capture_output=True, check=True)
    found = [thing["name"] for thing in json.loads(drawn.stdout, strict=False)["objects"]]
    # graphviz has no spelling for one backslash before a quotation mark, or at the end, or for `%` in front: such a
    # node stands by its number.
    wanted = [f"#{node}" if name in ("\\", "a\\", '\\"', "%") else name for node, name in enumerate(names)]
    assert found == wanted


# ---- what was written is read as the same network


def names_of(alphabet: st.SearchStrategy[str]) -> st.SearchStrategy[str]:
    return (st.sampled_from(NASTY) | st.text(alphabet, min_size=1, max_size=6)).filter(is_name)


ANY = st.characters(blacklist_categories=("Cs",), blacklist_characters="\n\r")
XML = st.characters(blacklist_categories=("Cs", "Cc"))
SAFE = st.sampled_from(string.ascii_letters + string.digits + " ,;:#-+|é")


@st.composite
def networks(draw: st.DrawFn, alphabet: st.SearchStrategy[str] = ANY, named: bool | None = None) -> Network:
    nodes = draw(st.integers(1, 12))
    names = None
    if named or (named is None and draw(st.booleans())):
        names = draw(st.lists(names_of(alphabet), max_size=nodes, unique=True))
        # Nodes without a name in front of others.
        for node in range(len(names) - 1):
            if draw(st.integers(0, 5)) == 0:
                names[node] = f"#{node}"
    pairs = [(a, b) for a in range(nodes) for b in range(a + 1, nodes)]
    chosen = draw(st.lists(st.sampled_from(pairs), unique=True)) if pairs else []
    ends = [pair[::-1] if draw(st.booleans()) else pair for pair in chosen]
    edges = [(a, b, draw(st.integers(1, 1_000_000))) for a, b in ends]
    return Network(nodes, edges, names)


def same(network: Network, text: str, path: str) -> None:
    found = network_in(text, path)
    assert (found.node_count, found.names) == (network.node_count, network.names)
    assert found.ascending() == network.ascending()


@settings(deadline=None)
@given(networks())
def test_edges_come_back_as_the_same_network(network: Network) -> None:
    same(network, forms.text_of(network), "f")


@settings(deadline=None)
@given(networks())
def test_json_comes_back_as_the_same_network(network: Network) -> None:
    same(network, forms.text_of(network, "json"), "f")


@settings(max_examples=50, deadline=None)
@given(networks(XML))
def test_graphml_comes_back_as_the_same_network(network: Network) -> None:
    pytest.importorskip("networkx")
    if any(ord(sign) < 32 and sign != "\t" for name in network.names or () for sign in name):
        with pytest.raises(NetworkRefused):
            forms.text_of(network, "graphml")
        return
    same(network, forms.text_of(network, "graphml"), "f.graphml")


@settings(max_examples=50, deadline=None)
@given(networks())
def test_gml_comes_back_as_the_same_network(network: Network) -> None:
    pytest.importorskip("networkx")
    same(network, forms.text_of(network, "gml"), "f.gml")


@settings(max_examples=50, deadline=None)
@given(networks(SAFE))
def test_pajek_keeps_edges_and_names(network: Network) -> None:
    pytest.importorskip("networkx")
    if any(sign in name for name in network.names or () for sign in "\"'\\"):
        with pytest.raises(NetworkRefused):
            forms.text_of(network, "pajek")
        return
    found = network_in(forms.text_of(network, "pajek"), "f.net", names=network.names is not None)
    assert (found.node_count, found.ascending(), list(found.spelled())) == (
        network.node_count, network.ascending(), list(network.spelled()))  # fmt: skip


@settings(max_examples=50, deadline=None)
@given(networks(named=False))
def test_numbers_come_back_from_dimacs_and_matrix_market(network: Network) -> None:
    pytest.importorskip("scipy")
    same(network, forms.text_of(network, "dimacs"), "f")
    same(network, forms.text_of(network, "mm"), "f")


@settings(deadline=None)
@given(networks())
def test_csv_keeps_edges_by_what_nodes_are_called(network: Network) -> None:
    if not network.edges:
        return
    found = network_in(forms.text_of(network, "csv"), names=network.names is not None)
    called = {frozenset((found.name_of(a), found.name_of(b))): w for a, b, w in found.edges}
    assert called == {frozenset((network.name_of(a), network.name_of(b))): w for a, b, w in network.edges}


@settings(max_examples=50, deadline=None)
@given(networks(named=False))
def test_networkx_reads_the_same_from_what_is_written(network: Network) -> None:
    networkx = pytest.importorskip("networkx")
    edges = {(a, b): w for a, b, w in network.ascending()}
    linked = networkx.node_link_graph(json.loads(forms.text_of(network, "json")), link="edges")
    listed = networkx.parse_edgelist(forms.text_of(network).splitlines(), nodetype=int, data=[("weight", int)])
    for graph in (linked, listed):
        assert {tuple(sorted(pair)): w for *pair, w in graph.edges(data="weight")} == edges
    assert set(linked) == set(range(network.node_count))


@settings(deadline=None)
@given(st.binary(max_size=60))
def test_any_bytes_are_a_network_or_refused(content: bytes) -> None:
    for form in ("edges", "gephi", "konect", "networkx", "dimacs", "as-rel", "json", None):
        try:
            network_in(content, form=form)
        except HizmorkeError as error:
            assert error.status in (1, 2)


VALUES = st.recursive(
    st.none() | st.booleans() | st.integers(-2, 3) | st.floats() | st.sampled_from(["a", "1", "#1", "id", " "]),
    lambda values: st.lists(values, max_size=3)
    | st.dictionaries(st.sampled_from(["nodes", "links", "id", "source", "target", "weight", "cost"]), values),
    max_leaves=12,
)


@settings(deadline=None)
@given(st.fixed_dictionaries({"nodes": st.lists(VALUES, max_size=3), "links": st.lists(VALUES, max_size=3)}) | VALUES)
def test_any_json_is_a_network_or_refused(value: Any) -> None:
    asked: list[dict[str, Any]] = [{}, {"scale": 10, "weight": "cost", "undirected": "min"}]
    for options in asked:
        try:
            network_in(json.dumps(value), form="json", **options)
        except HizmorkeError as error:
            assert error.status in (1, 2)


LINES = st.lists(st.text("0123456789ab#,; |\"'{}:%.\t\r-", max_size=12), max_size=5).map("\n".join)


ASKED: list[dict[str, Any]] = [
    {}, {"scale": 10}, {"delimiter": ";"}, {"columns": ("1", "2")}, {"header": True}, {"names": True},
]  # fmt: skip


@settings(deadline=None)
@given(LINES, st.sampled_from(ASKED))
def test_any_lines_are_a_network_or_refused(text: str, options: dict[str, Any]) -> None:
    try:
        network = network_in(text, **options)
    except HizmorkeError:
        return
    assert 1 <= network.node_count <= MOST_NODES
    assert all(a != b and 1 <= w <= 1_000_000 for a, b, w in network.edges)
    same(network, forms.text_of(network), "again")


def test_a_path_and_a_stream_are_written_alike(tmp_path: Path) -> None:
    stream = io.StringIO()
    SMALL.write(stream, "json")
    SMALL.write(tmp_path / "f.json", "json")
    assert (tmp_path / "f.json").read_text("utf-8") == stream.getvalue() == forms.text_of(SMALL, "json")
    with pytest.raises(FileUnusable):
        SMALL.write(tmp_path / "no" / "f")
