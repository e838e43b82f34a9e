"""Forms that other programs write come in as the network that was written, what a form can't read is refused by its
place, and all of it works without the packages that it doesn't need.

A form that `hizmorke.forms.write` writes has its way there and back in test_forms.py. The texts here are written by the
`csv` of Python, by networkx and SciPy, or a line at a time as each form's page has it.
"""

from __future__ import annotations

import csv
import io
import json
import re
import string
import subprocess
import sys
import warnings
from collections.abc import Callable, Sequence
from decimal import Decimal
from pathlib import Path
from typing import Any

import pytest
from hypothesis import HealthCheck, given, settings
from hypothesis import strategies as st
from test_forms import network_in, networks, same

from hizmorke import Network, forms
from hizmorke.errors import HizmorkeError, NetworkRefused
from hizmorke.names import is_name

SOURCE = Path(__file__).resolve().parents[1] / "src"
LETTERS = string.ascii_letters + string.digits + "é._-+;:"
EASY = settings(max_examples=50, deadline=None, suppress_health_check=[HealthCheck.too_slow])


@st.composite
def named_networks(draw: st.DrawFn, letters: str = LETTERS, least: int = 2) -> Network:
    """A network of which each node has a name of these letters."""
    names = st.text(st.sampled_from(letters), min_size=1, max_size=5).filter(is_name)
    called = draw(st.lists(names, min_size=least, max_size=10, unique=True))
    pairs = [(a, b) for a in range(len(called)) for b in range(a)]
    chosen = draw(st.lists(st.sampled_from(pairs), min_size=1, unique=True))
    return Network(len(called), [(a, b, draw(st.integers(1, 1_000_000))) for a, b in chosen], called)


def joined(network: Network) -> dict[frozenset[str], int]:
    """The weights by what both ends are called, for forms that keep no order of nodes."""
    return {frozenset((network.name_of(a), network.name_of(b))): weight for a, b, weight in network.edges}


def records(rows: Sequence[Sequence[object]], delimiter: str = ",") -> str:
    """Rows as CSV, each field quoted."""
    stream = io.StringIO()
    csv.writer(stream, delimiter=delimiter, quoting=csv.QUOTE_ALL, lineterminator="\n").writerows(rows)
    return stream.getvalue()


# ---- what others write


@EASY
@given(networks(), st.sampled_from([",", ";", "\t"]))
def test_gephi(network: Network, delimiter: str) -> None:
    names = network.spelled()
    rows = [(names[a], names[b], "Undirected", id, "", weight) for id, (a, b, weight) in enumerate(network.edges)]
    text = records([("Source", "Target", "Type", "Id", "Label", "Weight"), *rows], delimiter)
    if not rows:
        return
    found = network_in(text, names=network.names is not None)
    assert (found.taken or "").startswith("gephi, header: yes")
    assert joined(found) == joined(network)


@EASY
@given(networks(named=False))
def test_konect(network: Network) -> None:
    head = f"% sym positive\n% {len(network.edges)} {network.node_count} {network.node_count}\n"
    same(network, head + "".join(f"{a + 1}\t{b + 1} {weight} 1284\n" for a, b, weight in network.edges), "f")


@EASY
@given(named_networks(LETTERS.replace(";", "")))
def test_relations(network: Network) -> None:
    ends = [(network.name_of(a), network.name_of(b)) for a, b, _ in network.edges]
    found = network_in("# relations\n" + "".join(f"{a}|{b}|-1\n" for a, b in ends))
    assert joined(found) == dict.fromkeys(map(frozenset, ends), 1)


@EASY
@given(named_networks())
def test_lists_by_networkx(network: Network) -> None:
    networkx = pytest.importorskip("networkx")
    graph = network.to_networkx()
    listed = "".join(f"{line}\n" for line in networkx.generate_edgelist(graph))
    assert joined(network_in(listed, names=True)) == joined(network)
    weighted = "".join(f"{line}\n" for line in networkx.generate_edgelist(graph, data=["weight"]))
    assert joined(network_in(weighted, form="edges", names=True, header=False)) == joined(network)


@EASY
@given(named_networks(), st.sampled_from(["gexf", "graphml", "gml", "pajek"]))
def test_graphs_by_networkx(network: Network, form: str) -> None:
    networkx = pytest.importorskip("networkx")
    lines = getattr(networkx, f"generate_{form}")(network.to_networkx())
    found = network_in("".join(f"{line}\n" for line in lines), form=form, names=True)
    assert (found.node_count, found.names, found.ascending()) == (
        network.node_count, network.names, network.ascending())  # fmt: skip


@EASY
@given(networks())
def test_node_link_data_by_networkx(network: Network) -> None:
    networkx = pytest.importorskip("networkx")
    same(network, json.dumps(networkx.node_link_data(network.to_networkx())), "f")


@EASY
@given(networks(named=False), st.sampled_from(["integer", "real"]), st.sampled_from(["symmetric", "general"]))
def test_matrices_by_scipy(network: Network, field: str, symmetry: str) -> None:
    scipy_io = pytest.importorskip("scipy.io")
    stream = io.BytesIO()
    scipy_io.mmwrite(stream, network.matrix().tocoo(), field=field, precision=17, symmetry=symmetry)
    found = network_in(stream.getvalue(), "f.mtx")
    assert (found.node_count, found.names, found.ascending()) == (network.node_count, None, network.ascending())


@EASY
@given(networks(), st.sampled_from([",", ";", "\t", "|"]), st.sampled_from([1, 10, 1000]))
def test_records_by_columns_and_scale(network: Network, delimiter: str, scale: int) -> None:
    names = network.spelled()
    rows = [("road", Decimal(weight) / scale, names[b], names[a]) for a, b, weight in network.edges]
    if not rows:
        return
    text = records([("kind", "km", "to", "from"), *[(k, f"{w:f}", b, a) for k, w, b, a in rows]], delimiter)
    asked: dict[str, Any] = {"delimiter": delimiter, "scale": scale, "names": network.names is not None}
    assert joined(network_in(text, columns=("from", "to", "km"), **asked)) == joined(network)
    assert joined(network_in(text, columns=("4", "3", "2"), header=True, **asked)) == joined(network)
    assert joined(network_in(text, weight="km", **asked)) == joined(network)


@EASY
@given(named_networks(), st.sampled_from([1, 10, 1000]))
def test_graphs_of_a_scale(network: Network, scale: int) -> None:
    pytest.importorskip("networkx")
    with warnings.catch_warnings():
        warnings.simplefilter("error")
        found = Network.from_networkx(network.to_networkx(scale=scale), scale=scale)
    assert (found.names, found.ascending()) == (network.names, network.ascending())
    whole = network.to_networkx()
    assert all(isinstance(weight, int) for _, _, weight in whole.edges(data="weight"))


# In the language of graphviz a quoted name ends before a quotation mark, but for one behind a backslash; two backslashes
# are kept as they are.
DOT_NAME = re.compile(r'"((?:\\\\|\\"|[^"])*)"')


def of_dot(quoted: str) -> str:
    return re.sub(r'\\\\|\\"', lambda found: '"' if found[0] == '\\"' else found[0], quoted)


@EASY
@given(networks())
def test_dot_is_read_by_its_own_rules(network: Network) -> None:
    text = forms.text_of(network, "dot")
    read, by_number = {}, {f"#{node}": name for node, name in enumerate(network.spelled())}
    body = text.removeprefix("graph network {\n").removesuffix("}\n")
    # A name may have signs in it that end a line elsewhere.
    for line in body.split("\n")[:-1]:
        first, second = DOT_NAME.findall(line)
        ends = [by_number.get(of_dot(end), of_dot(end)) for end in (first, second)]
        read[frozenset(ends)] = int(line.rpartition("=")[2].removesuffix("];"))
    assert read == joined(network)


def test_a_network_reads_a_file(tmp_path: Path) -> None:
    network = Network(3, [(0, 1, 5)], ["Bern", "Thun"])
    network.write(tmp_path / "roads")
    assert Network.read(tmp_path / "roads") == network
    (tmp_path / "km.csv").write_text("from,to,km\nBern,Thun,0.5\n")
    assert Network.read(tmp_path / "km.csv", scale=10) == Network(2, [(0, 1, 5)], ["Bern", "Thun"])


# ---- what is refused, by its place


# Lines of each form, and one that is none of it.
LISTED: list[tuple[str, Callable[[int, int, int], str], str]] = [
    ("edges", lambda a, b, w: f"{a} {b} {w}", "1 2 3 4 5"),
    ("edges", lambda a, b, w: f"{a},{b},{w}", "1,2,3,4"),
    ("edges", lambda a, b, w: f"n{a} n{b} {w}", "n1 n2 -3"),
    ("dimacs", lambda a, b, w: f"a {a + 1} {b + 1} {w}", "a 1 2"),
    ("dimacs", lambda a, b, w: f"a {a + 1} {b + 1} {w}", "a 1 2 05"),
    ("dimacs", lambda a, b, w: f"a {a + 1} {b + 1} {w}", "e 1 2 5"),
    ("as-rel", lambda a, b, w: f"{a}|{b}|0", "1|2"),
    ("konect", lambda a, b, w: f"{a + 1} {b + 1} {w}", "1 2 3 4 5"),
    ("networkx", lambda a, b, w: f"{a} {b} {{'weight': {w}}}", "0 6"),
    ("networkx", lambda a, b, w: f"{a} {b} {{'weight': {w}}}", "0 6 {'weight': 05}"),
    ("networkx", lambda a, b, w: f"{a} {b} {{'weight': {w}}}", "0 6 {'weight': 1.5}"),
    ("gephi", lambda a, b, w: f"{a},{b},{w},", "1,2"),
]


@settings(max_examples=20, deadline=None)
@pytest.mark.parametrize(("form", "line", "wrong"), LISTED)
@given(networks(named=False), st.data())
def test_a_refusal_names_file_and_line(form: str, line: Any, wrong: str, network: Network, data: st.DataObject) -> None:
    head = ["Source,Target,Weight,Type"] if form == "gephi" else []
    lines = [*head, *(line(a, b, weight) for a, b, weight in network.edges)]
    place = data.draw(st.integers(len(head), len(lines)))
    lines.insert(place, wrong)
    with pytest.raises(HizmorkeError) as caught:
        network_in("\n".join(lines) + "\n", "roads", form)
    assert (caught.value.path, caught.value.line) == ("roads", place + 1)
    assert str(caught.value).startswith(f"roads:{place + 1}: ")


@settings(max_examples=30, deadline=None)
@given(networks(named=False), st.data())
def test_an_edge_that_comes_again_is_named_with_both_lines(network: Network, data: st.DataObject) -> None:
    if not network.edges:
        return
    first = data.draw(st.integers(0, len(network.edges) - 1))
    a, b, weight = network.edges[first]
    again = (b, a, weight % 1_000_000 + 1)
    edges = [*network.edges, again]
    place = len(network.edges)
    with pytest.raises(NetworkRefused) as listed:
        network_in("".join(f"{a} {b} {weight}\n" for a, b, weight in edges))
    assert str(listed.value) == f"f:{place + 1}: the edge is there already, by line {first + 1}"
    arcs = "".join(f"a {a + 1} {b + 1} {weight}\n" for a, b, weight in edges)
    with pytest.raises(HizmorkeError) as other:
        network_in(arcs)
    assert str(other.value).startswith(f"f:{place + 1}: line {first + 1} has another weight for this edge")
    least = network_in(arcs, least=True)
    assert {(min(a, b), max(a, b)): w for a, b, w in least.edges} == {
        (min(a, b), max(a, b)): min(w, again[2]) if place == first else w
        for place, (a, b, w) in enumerate(network.edges)
    }


# ---- Python alone


ALONE = """
import io, sys
for name in ("click", "matplotlib", "networkx", "numpy", "rich", "scipy"):
    sys.modules[name] = None
import hizmorke
from hizmorke import Device, Network, Packet, Service, Table, errors, forms, words
texts = {
    "edges": "Bern Thun 5", "gephi": "Source,Target,Type\\nBern,Thun,Undirected", "konect": "% sym\\n1 2 5",
    "networkx": "Bern Thun {'weight': 5}", "dimacs": "a 1 2 5", "as-rel": "Bern|Thun|0",
    "json": '{"nodes": [{"id": "Bern"}], "links": [{"source": "Bern", "target": "Thun", "weight": 5}]}',
}
for form, text in texts.items():
    assert forms.read_bytes(text.encode(), "f").form == form, form
network = Network(3, [(0, 1, 5)], ["Bern", "Thun"])
for form in ("edges", "csv", "dimacs", "dot", "json"):
    network.write(io.StringIO(), form)
lacking = {
    "networkx": [lambda: network.to_networkx(), lambda: forms.read_bytes(b"graph [ ]", "f.gml"),
                 lambda: network.write(io.StringIO(), "graphml")],
    "scipy": [lambda: forms.read_bytes(b"%%MatrixMarket", "f"), lambda: network.write(io.StringIO(), "mm")],
    "numpy": [lambda: hizmorke.figures(network, "none")],
}
for name, calls in lacking.items():
    for call in calls:
        try:
            call()
        except errors.PackageMissing as missing:
            assert missing.name == name, missing
        else:
            raise AssertionError(name)
print("whole")
"""


def test_python_alone_is_enough_for_all_that_needs_no_other_package() -> None:
    words = [sys.executable, "-P", "-c", ALONE]
    done = subprocess.run(words, capture_output=True, text=True, check=False, env={"PYTHONPATH": str(SOURCE)})
    assert (done.stdout, done.stderr) == ("whole\n", "")
