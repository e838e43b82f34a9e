"""The names beside a device, what words stand for, and how nodes are spelled."""

from __future__ import annotations

from pathlib import Path

import pytest
from hypothesis import given, settings
from hypothesis import strategies as st

from hizmorke import Network
from hizmorke.errors import HizmorkeError, NetworkRefused, NotUnderstood, OperationNotUnderstood
from hizmorke.forms import Options, read_bytes, text_of
from hizmorke.names import (
    Assigned,
    DeviceNames,
    Target,
    assign,
    is_name,
    judge,
    lay,
    names_text,
    parse_node,
    parse_op,
    put,
    settle,
    spelled,
    trimmed,
    write_count,
)

BLANK = "a name has no blank at its ends, and begins with no `#` and a blank"
TWICE = "the name stands there twice"
TOO_MANY = "there are more names than nodes"
OTHER_NUMBER = "a node without a name is called by `#` and its own number"


@pytest.fixture
def device(tmp_path: Path) -> str:
    return str(tmp_path / "d")


def beside(device: str, ending: str, text: str) -> None:
    Path(device + ending).write_bytes(text.encode("utf-8"))


def taken(text: str, target: Target | None = None, **options: bool) -> Assigned:
    reading = read_bytes(text.encode("utf-8"), "f", None, Options())
    return assign(reading, target, **options)


def refused(text: str, target: Target | None = None, **options: bool) -> str:
    with pytest.raises(HizmorkeError) as caught:
        taken(text, target, **options)
    return f"{caught.value.status} {caught.value}"


def on(network: Network, names: DeviceNames | None = None, grow: bool = False) -> Target:
    return Target.of_device("d", network, names or DeviceNames(), grow)


# ---- the files beside a device


@pytest.mark.parametrize(
    ("text", "names", "numbers"),
    [
        (None, None, False),
        ("", [], False),
        ("# nodes are numbers\n", None, True),
        ("# nodes are numbers", None, True),
        ("Bern\nNew York\n", ["Bern", "New York"], False),
        ("Bern\nThun", ["Bern", "Thun"], False),
        ('Zürich\n#1\na,b\n#numbers\n"a" b', ["Zürich", "#1", "a,b", "#numbers", '"a" b'], False),
    ],
)
def test_reads_what_is_beside_a_device(device: str, text: str | None, names: list[str] | None, numbers: bool) -> None:
    if text is not None:
        beside(device, ".names", text)
    for network in (None, Network(9, [])):
        found = DeviceNames.read(device, network)
        assert (found.names, found.numbers, found.is_laid) == (names, numbers, False)
    assert found.are_there == (text is not None)


@pytest.mark.parametrize(
    ("text", "line", "said"),
    [
        ("a\n\nb", 2, BLANK),
        ("a\nb ", 2, BLANK),
        (" a", 1, BLANK),
        ("a\r\nb", 1, BLANK),
        ("a\x0c\nb", 1, BLANK),
        ("a\n# b", 2, BLANK),
        ("# nodes are numbers\na", 1, BLANK),
        ("a\nb\na", 3, TWICE),
        ("a\nb\nc\nd", 4, TOO_MANY),
        ("a\n#3\n", 2, OTHER_NUMBER),
    ],
)
def test_a_line_that_is_no_name_is_told(device: str, text: str, line: int, said: str) -> None:
    beside(device, ".names", text)
    with pytest.raises(NotUnderstood) as caught:
        DeviceNames.read(device, Network(3, []))
    assert str(caught.value) == f"{device}.names:{line}: {said}"


def test_names_that_are_no_utf8_are_told(device: str) -> None:
    Path(device + ".names").write_bytes(b"a\nb\n\xff")
    with pytest.raises(NotUnderstood, match=":3: the text is not UTF-8"):
        DeviceNames.read(device)


def test_laid_names_count_while_an_edge_needs_them(device: str) -> None:
    beside(device, ".names", "u\nv\n")
    beside(device, ".names.new", "u\nv\nw\n")
    needs, needs_none = Network(4, [(1, 2, 1)]), Network(4, [(0, 1, 1)])
    assert DeviceNames.read(device, needs) == DeviceNames(["u", "v", "w"], False, True)
    assert DeviceNames.read(device, needs_none) == DeviceNames(["u", "v"], False, False)
    assert DeviceNames.read(device, None) == DeviceNames(["u", "v"], False, False)
    # A node that DEVICE.names has by its number isn't named there.
    beside(device, ".names", "u\n#1\nx\n")
    assert DeviceNames.read(device, needs_none).is_laid
    beside(device, ".names", "# nodes are numbers\n")
    assert DeviceNames.read(device, needs) == DeviceNames(None, True, False)
    Path(device + ".names").unlink()
    assert DeviceNames.read(device, needs).is_laid
    assert DeviceNames.read(device, Network(4, [])) == DeviceNames()
    beside(device, ".names.new", "u\nv\nw\nx\ny\n")
    with pytest.raises(NotUnderstood, match=f"d.names.new:5: {TOO_MANY}"):
        DeviceNames.read(device, needs)


def test_laid_names_are_put_in_their_place_or_taken_away(device: str) -> None:
    beside(device, ".names", "u\n")
    lay(device, "u\nv\n")
    settle(device, DeviceNames(["u"], False, False))
    assert not Path(device + ".names.new").exists()
    settle(device, DeviceNames(["u"], False, False))
    lay(device, "u\nv\n")
    settle(device, DeviceNames(["u", "v"], False, True))
    assert Path(device + ".names").read_text() == "u\nv\n"
    assert not Path(device + ".names.new").exists()
    with pytest.raises(HizmorkeError, match=r"d\.names: No such file"):
        put(device)
    with pytest.raises(HizmorkeError, match=r"x\.names\.new: No such file"):
        lay(str(Path(device) / "x"), "")


def test_names_of_a_higher_count_are_refused(device: str) -> None:
    beside(device, ".names", "Bern\nGenf\n")
    write_count(device, 5)
    assert Path(device + ".names.count").read_text() == "count=5 crc32=8c46b94e\n"
    network = Network(3, [(0, 1, 1)])
    assert DeviceNames.read(device, network, 5).names == ["Bern", "Genf"]
    assert DeviceNames.read(device, network, 6).names == ["Bern", "Genf"]
    assert DeviceNames.read(device, network).names == ["Bern", "Genf"]
    with pytest.raises(NetworkRefused) as caught:
        DeviceNames.read(device, network, 4)
    assert caught.value.path == f"{device}.names"
    said = "the names were written at count=5, and the device has count=4: they are another network's, or newer. "
    assert str(caught.value).startswith(f"{device}.names: {said}")
    # A list of names that was made by hand has no count.
    beside(device, ".names", "Bern\nChur\n")
    assert DeviceNames.read(device, network, 0).names == ["Bern", "Chur"]
    beside(device, ".names", "# nodes are numbers\n")
    assert DeviceNames.read(device, network, 0).numbers
    beside(device, ".names", "Bern\n")
    beside(device, ".names.count", "count=x")
    with pytest.raises(NotUnderstood, match=r"d\.names\.count:1: a line is `count=C crc32=X edges=Y`"):
        DeviceNames.read(device, network, 0)


def test_names_of_another_network_at_the_same_count_are_refused(device: str) -> None:
    # Bern, Genf and Basel; then the device is made anew and has one change again.
    beside(device, ".names", "Bern\nGenf\nBasel\n")
    write_count(device, 1, Network(3, [(1, 0, 5), (1, 2, 7)]))
    assert Path(device + ".names.count").read_text() == "count=1 crc32=37de7b49 edges=99a7d2a2\n"
    same = Network(3, [(2, 1, 7), (0, 1, 5)])
    other = Network(3, [(0, 2, 5)])
    assert DeviceNames.read(device, same, 1).names == ["Bern", "Genf", "Basel"]
    with pytest.raises(NetworkRefused, match="written at count=1, and the device has other edges then: "):
        DeviceNames.read(device, other, 1)
    # Behind that count edges may be others, and who hasn't read them isn't asked.
    assert DeviceNames.read(device, other, 2).names == ["Bern", "Genf", "Basel"]
    assert DeviceNames.read(device, Network(3, []), 1).names == ["Bern", "Genf", "Basel"]


def test_a_count_is_written_of_names_that_are_there_alone(device: str) -> None:
    write_count(device, 5)
    assert not Path(device + ".names.count").exists()


# ---- numbers or names


def test_names_keep_their_numbers_and_new_ones_get_the_next() -> None:
    target = on(Network(9, [(0, 1, 1)]), DeviceNames(["Spiez", "Thun"]))
    found = taken("Bern Thun 31\nThun,Chur,2\n", target)
    assert (found.network.names, found.network.edges) == (["Spiez", "Thun", "Bern", "Chur"], [(2, 1, 31), (1, 3, 2)])
    assert (found.network.node_count, found.text, found.lines) == (9, "Spiez\nThun\nBern\nChur\n", [1, 2])
    few = on(Network(3, []), DeviceNames(["x"]))
    assert refused("a b\nc d", few) == "1 f:2: there are more names than nodes, which are 3"


def test_a_new_device_takes_numbers_or_names_as_a_whole() -> None:
    found = taken("0 9 5\n9 8", Target("d"))
    assert (found.network.node_count, found.network.names, found.text) == (10, None, "# nodes are numbers\n")
    assert taken("0 9 5", Target("d", 20)).network.node_count == 20
    found = taken("0 9 5", Target("d"), names=True)
    assert (found.network.node_count, found.network.names, found.text) == (2, ["0", "9"], "0\n9\n")
    said = "1 f:1: `9` is no number of a node, 0 to 8: with --names all ends are names"
    assert refused("0 9 5", Target("d", 9)) == said
    assert taken("a b", Target("d", names=DeviceNames(["b"]))).network.names == ["b", "a"]
    # A device without an edge is as one that is to be made.
    assert taken("a b", on(Network(4, []))).network.names == ["a", "b"]


def test_a_device_by_numbers_takes_numbers() -> None:
    numbers, edges = on(Network(9, []), DeviceNames(None, True)), on(Network(9, [(0, 1, 1)]))
    assert taken("3 4", numbers).text is None
    assert refused("p q", numbers) == "1 f:1: `p` is no number of a node, 0 to 8: the device calls its nodes by numbers"
    said = "1 f:1: `q` is no number of a node, 0 to 8: the device has edges and no names beside it"
    assert refused("3 q", edges) == said
    said = "1 d: its nodes are called by numbers, and --names does not change that"
    assert refused("3 4", numbers, names=True) == said
    assert refused("1|2|0", numbers) == "1 d: its nodes are called by numbers, and those of relations by names"
    assert refused("# nodes=1\n# a\n", edges) == "1 d: its nodes are called by numbers, and those of the list by names"
    json = '{"nodes": [{"id": "7"}], "links": []}'
    assert refused(json, numbers) == "1 d: its nodes are called by numbers, and those of the JSON by names"


def test_numbers_of_nodes_do_not_go_with_names() -> None:
    named = on(Network(9, []), DeviceNames(["Bern"]))
    assert refused("a 1 2 3", named) == "1 d: its nodes are called by names, and those of DIMACS by numbers"
    assert refused("% sym\n1 2", named) == "1 d: its nodes are called by names, and those of KONECT by numbers"
    assert refused("a 1 2 3", named, names=True) == "2 --names does not go with DIMACS"


def test_how_many_nodes_there_may_be() -> None:
    assert refused("# nodes=6\n0 1", on(Network(5, []))) == "1 d: it has 5 nodes, and f 6"
    assert taken("# nodes=6\n0 5", on(Network(5, []), grow=True)).network.node_count == 6
    assert taken("a b\nb c", on(Network(2, [(0, 1, 1)]), DeviceNames(["a", "b"]), grow=True)).network.node_count == 3
    assert taken("0 1", on(Network(5, []), grow=True)).network.node_count == 5
    assert refused("# x\n", Target("d")) == "1 f: it says no node: --nodes says how many there are"


# ---- findings of a new user's trial


def test_an_unnamed_node_keeps_its_number() -> None:
    # AS numbers are names; node 3 has none, and node 0 is called "3".
    network = Network(4, [(0, 1, 1), (1, 2, 1), (3, 0, 9)], ["3", "2", "4"])
    text = text_of(network)
    assert text == "# nodes=4\n# 3\n# 2\n# 4\n# #3\n3 2 1\n3 #3 9\n2 4 1\n"
    found = taken(text).network
    assert (found.node_count, found.ascending(), found.names) == (4, network.ascending(), network.names)
    assert taken(text_of(Network(6, [(0, 1, 1)], ["3", "2"]))).network.node_count == 6


@pytest.mark.parametrize(
    ("text", "names", "edges", "nodes"),
    [
        ('a,"#2",9', ["a"], [(0, 2, 9)], 3),
        ('"#0",a,9', ["#0", "a"], [(0, 1, 9)], 2),
        ('"#1","#0",9', [], [(1, 0, 9)], 2),
        ("a #1 2\nb a 3", ["a", "#1", "b"], [(0, 1, 2), (2, 0, 3)], 3),
        ("a #07 2", ["a", "#07"], [(0, 1, 2)], 2),
    ],
)
def test_number_signs_are_nodes_without_a_name(
    text: str, names: list[str], edges: list[tuple[int, int, int]], nodes: int
) -> None:
    network = taken(text).network
    assert (network.names, network.edges, network.node_count) == (names, edges, nodes)


def test_number_signs_that_are_no_such_node() -> None:
    assert refused("a #16384 2") == "1 f:1: `#16384` is no number of a node, 0 to 16383"
    named = on(Network(3, []), DeviceNames(["u", "v"]))
    assert refused("u #1 2", named) == "1 f:1: `#1` is a node without a name, and node 1 is called `v`"
    assert taken("u #2 2", named).network.edges == [(0, 2, 2)]
    assert refused("# nodes=2\n# a\n# b\na #1 2\n") == "1 f:4: `#1` is a node without a name, and node 1 is called `b`"
    assert refused("# nodes=2\n# a\n# #0\n") == f"2 f:3: {OTHER_NUMBER}"
    numbers = on(Network(3, []), DeviceNames(None, True))
    said = "1 f:1: `#1` is no number of a node, 0 to 2: the device calls its nodes by numbers"
    assert refused("0 #1", numbers) == said


def test_a_name_goes_to_no_node_with_edges() -> None:
    network = Network(4, [(0, 1, 1), (1, 2, 1), (3, 0, 9)])
    full = on(network, DeviceNames(["a", "b", "c"]))
    text = "there is no node for the name `new`: those without a name have edges, and a new name goes to none of these"
    assert refused("b c 5\nnew c 5", full) == f"1 f:2: {text}"
    # The next one without an edge gets it, and the one between has its number.
    network.node_count = 6
    found = taken("new c 5", on(network, DeviceNames(["a", "b", "c"])))
    assert (found.network.names, found.network.edges) == (["a", "b", "c", "#3", "new"], [(4, 2, 5)])
    assert found.text == "a\nb\nc\n#3\nnew\n"
    again = taken("new2 new 1", on(network, DeviceNames(found.network.names)))
    assert again.network.names == ["a", "b", "c", "#3", "new", "new2"]
    # The same where the names were lost.
    lost = on(Network(3, [(0, 1, 1), (1, 2, 1)]), DeviceNames([]))
    assert refused("a b 1", lost).startswith("1 f:1: there is no node for the name `a`")


# ---- one edge for two nodes, and what a network refuses


def test_edges_are_judged_in_order() -> None:
    def judged(
        text: str, there: tuple[tuple[int, int], ...] = (), update: bool = False, most: int | None = None
    ) -> str:
        reading = read_bytes(text.encode(), "f", None, Options())
        assigned = assign(reading, Target(nodes=9), update=update)
        try:
            judge(reading, assigned, there, update, most)
        except NetworkRefused as error:
            return str(error)
        return "taken"

    assert judged("0 1 5\n1 2 5") == "taken"
    assert judged("0 1 5\n2 1 5", ((1, 2),)) == "f:2: the edge is there already"
    assert judged("0 1 5\n2 1 5", ((1, 2),), True) == "taken"
    assert judged("0 1 5\n2 1 0", ((1, 2),)) == "f:2: the weight is out of range"
    assert judged("2 2 0") == "f:1: both ends are one node"
    assert judged("0 1 5\n1 2 5", ((3, 4),), most=2) == "f:2: the graph has as many edges as it may have"
    assert judged("0 1 5\n1 2 5", ((0, 1), (1, 2)), True, most=2) == "taken"


def test_update_takes_lines_with_one_edge_and_weight_as_one() -> None:
    found = taken("2 1 9\n0 3 4\n1 2 9", update=True)
    assert (found.network.edges, found.lines, found.places) == ([(2, 1, 9), (0, 3, 4)], [1, 2], [0, 1])
    said = "2 f:2: line 1 has another weight for this edge; --least takes the smaller weight"
    assert refused("0 1 7\n1 0 8", update=True) == said
    found = taken("0 1 7\n2 3 1\n1 0 6", update=True, least=True)
    assert (found.network.edges, found.lines, found.places) == ([(1, 0, 6), (2, 3, 1)], [3, 2], [2, 1])


# ---- nodes as they are spelled

NAMES = ["Bern", "San Juan", "a:b", 'say "hi"', "#x", "#5", "a\tb", "-a", "--", "a-b"]


def test_nodes_are_spelled_so_that_they_can_be_given_back() -> None:
    assert [spelled(node, NAMES) for node in range(12)] == [
        "Bern", '"San Juan"', '"a:b"', "#3", '"#x"', "#5", '"a\tb"', '"-a"', '"--"', "a-b", "#10", "#11",
    ]  # fmt: skip
    assert [spelled(node, None) for node in (0, 7)] == ["0", "7"]


@settings(deadline=None)
@given(st.lists(st.text(min_size=1, max_size=5).filter(is_name), max_size=6, unique=True), st.integers(0, 8))
def test_what_is_spelled_stands_for_its_node(names: list[str], node: int) -> None:
    word = spelled(node, names)
    assert parse_node(word, names) == node
    assert word[0] != "-"
    assert parse_op(f"cut:{word}:{word}", names) == ("cut", node, node, None)
    assert parse_op(f"add:{word}:{word}:7", names) == ("add", node, node, 7)


@pytest.mark.parametrize(
    ("word", "node"),
    [("Bern", 0), ('"Bern"', 0), ("San Juan", 1), ('say "hi"', 3), ('"#x"', 4), ("#65535", 65535), ("bern", None),
     ("0", None), ("#x", None), ('"Bern', None), ('"', None), ('"say "hi""', None), ("#65536", None), ("#07", None),
     ("#", None), ("", None)],
)  # fmt: skip
def test_words_of_nodes(word: str, node: int | None) -> None:
    assert parse_node(word, NAMES) == node
    assert parse_node(word, {name: number for number, name in enumerate(NAMES)}) == node


def test_words_of_nodes_by_numbers() -> None:
    words = ("0", "#2", "65535", "65536", "00", '"0"', "u")
    assert [parse_node(word, None) for word in words] == [0, 2, 65535, None, None, None, None]


@pytest.mark.parametrize(
    ("text", "op"),
    [("set:Bern:San Juan:30", ("set", 0, 1, 30)), ('add:"a:b":"#x":9', ("add", 2, 4, 9)),
     ("cut:Bern:a:b", ("cut", 0, 2, None)), ("add:#7:Bern:0", ("add", 7, 0, 0)),
     ("add:#5:#6:4294967295", ("add", 5, 6, 4294967295))],
)  # fmt: skip
def test_operations_by_names(text: str, op: tuple[str, int, int, int | None]) -> None:
    assert parse_op(text, NAMES) == op


@pytest.mark.parametrize(
    ("text", "said"),
    [("add:Bern:Genf:3", "no node named Genf"), ("add:Bern:a:b:3", "no node named a"),
     ('add:Bern:"a:c":3', "no node named a:c"), ('cut:"Genf":Bern', "no node named Genf"),
     ('add:Bern:"a:b:3', "op not understood"), ('add:Bern:"a:b"3', "op not understood"),
     ("add:Bern:Bern", "op not understood"), ("set:Bern:Bern:x", "op not understood"),
     ("set:Bern:Bern:4294967296", "op not understood"), ("move:Bern:Bern:1", "op not understood"),
     ("cut", "op not understood"), ("", "op not understood")],
)  # fmt: skip
def test_operations_that_are_none(text: str, said: str) -> None:
    with pytest.raises(NotUnderstood) as caught:
        parse_op(text, NAMES)
    assert (str(caught.value), caught.value.status) == (said, 2)
    assert isinstance(caught.value, OperationNotUnderstood) == (said == "op not understood")


def test_names_at_the_end_that_are_numbers_are_none() -> None:
    assert trimmed(["a", "#1", "b", "#3", "#4"]) == ["a", "#1", "b"]
    assert trimmed(["#0"]) == []
    assert names_text(["a", "#1"]) == "a\n#1\n"
    assert [is_name(text) for text in ("a", "#x", "#1", "# a", "#", " a", "", "#01", "\ud800")] == [
        True, True, False, False, True, False, False, True, False]  # fmt: skip
