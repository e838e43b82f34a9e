"""Pictures: what they show, that they are written as the same bytes, and the pictures of docs/plots."""

from __future__ import annotations

import re
import subprocess
import sys
from pathlib import Path

import numpy as np
import pytest

from hizmorke import errors
from hizmorke.device import Device
from hizmorke.figures import Figures
from hizmorke.network import Network
from hizmorke.programs import Programs
from hizmorke.words import LandmarkWords

matplotlib = pytest.importorskip("matplotlib")
pytest.importorskip("scipy")

from hizmorke import plot  # noqa: E402

TOP = Path(__file__).resolve().parents[2]
PICTURES = TOP / "docs" / "plots"
PATH = Network(5, [(0, 1, 1), (1, 2, 7), (2, 3, 1), (3, 4, 1)])
PLACES = [(node, node % 2) for node in range(5)]
MEASURED = Figures(
    LandmarkWords.parse("at:1", 3),
    1,
    *(np.array(row) for row in ([2, 1, 2], [1, 0, 1], [34, 13, 40])),
    np.array([[0, 1], [0, 2], [2, 0], [1, 2]]),
    np.array([5, 12, -1, 7]),
    np.array([5, 8, -1, 7]),
)


def test_stretches_ascend_beside_the_bound() -> None:
    figure = plot.stretch(MEASURED)
    own, proved = figure.axes[0].lines
    assert own.get_label() == "at:1" and own.get_ydata().tolist() == [1.0, 1.0, 1.5]
    assert own.get_xdata()[-1] == 100
    assert list(proved.get_ydata()) == [3, 3] and proved.get_label() == "proved bound"
    several = plot.stretch({"one": MEASURED, "two": np.array([2.0, np.nan, 1.0]), "three": [1.25]}).axes[0].lines
    assert [line.get_label() for line in several] == ["one", "two", "three", "proved bound"]
    assert several[1].get_ydata().tolist() == [1.0, 2.0]
    assert len(plot.stretch({"none": []}).axes[0].lines[0].get_xdata()) == 0


def test_tables_ascend_beside_the_full_one() -> None:
    own, full = plot.tables(MEASURED).axes[0].lines
    assert own.get_ydata().tolist() == [13, 34, 40] and list(full.get_ydata()) == [4, 4]


def test_draws_into_given_axes() -> None:
    figure = matplotlib.figure.Figure()
    left, right = figure.subplots(1, 2)
    assert plot.stretch(MEASURED, ax=left) is figure and plot.tables(MEASURED, ax=right) is figure
    assert (left.get_xlabel(), right.get_xlabel()) == ("pairs, percent", "nodes, percent")
    assert plot.network(PATH, positions=PLACES, ax=figure.add_subplot()) is figure


def test_a_network_with_its_landmarks_a_cluster_and_a_way() -> None:
    axes = plot.network(PATH, "at:2", route=[0, 1, 2], cluster=0, positions=PLACES).axes[0]
    nodes, rings = axes.collections[1:]
    # Node 1 is nearer to 0 than to 2, so it is in the cluster.
    fill = [matplotlib.colors.to_hex(colour) for colour in nodes.get_facecolors()]
    assert fill == [plot.BLUE_FILL, plot.BLUE_FILL, plot.YELLOW_FILL, "#ffffff", "#ffffff"]
    assert rings.get_offsets().tolist() == [[2, 0]]
    edges = [matplotlib.colors.to_hex(colour) for colour in axes.collections[0].get_colors()]
    assert edges == [plot.RED, plot.RED, "#999999", "#999999"]
    assert {text.get_text() for text in axes.texts} == {"0", "1", "2", "3", "4", "7"}
    named = plot.network(Network(2, [(0, 1, 3)], ["a", "b"]), positions=[(0, 0), (1, 1)]).axes[0]
    assert {text.get_text() for text in named.texts} == {"a", "b", "3"}


def test_a_landmark_has_no_cluster() -> None:
    nodes = plot.network(PATH, "at:2", cluster=2, positions=PLACES).axes[0].collections[1]
    assert plot.BLUE_FILL not in [matplotlib.colors.to_hex(colour) for colour in nodes.get_facecolors()]
    whole = plot.network(PATH, cluster=2, positions=PLACES).axes[0].collections[1]
    assert {matplotlib.colors.to_hex(colour) for colour in whole.get_facecolors()} == {plot.BLUE_FILL}
    with pytest.raises(errors.WordsNotUnderstood):
        plot.network(PATH, "at:5", positions=PLACES)


def test_networkx_lays_out(monkeypatch: pytest.MonkeyPatch) -> None:
    pytest.importorskip("networkx")
    large = Network(80, [(node, node + 1, 1) for node in range(79)])
    axes = plot.network(large, "draw:1").axes[0]
    assert len(axes.collections[1].get_offsets()) == 80 and not axes.texts
    monkeypatch.setitem(sys.modules, "networkx", None)
    with pytest.raises(errors.PackageMissing, match="networkx"):
        plot.network(PATH)


@pytest.mark.parametrize("form", ["svg", "png", "pdf"])
def test_one_picture_is_written_as_the_same_bytes(form: str, tmp_path: Path) -> None:
    written = []
    for name in ("first", "second"):
        plot.stretch(MEASURED, out=tmp_path / f"{name}.{form}")
        plot.network(PATH, "at:2", tmp_path / f"{name}-network.{form}", positions=PLACES)
        written.append([(tmp_path / f"{name}{which}.{form}").read_bytes() for which in ("", "-network")])
    assert written[0] == written[1]
    assert not re.search(rb"20\d\d-\d\d-\d\d|D:20\d\d|[Mm]atplotlib v", b"".join(written[0]))


def test_files_that_cannot_be_written(tmp_path: Path) -> None:
    with pytest.raises(errors.FileUnusable, match="No such file or directory"):
        plot.tables(MEASURED, out=tmp_path / "no" / "tables.svg")
    for name in ("tables.odd", "tables", "tables.svg.gz"):
        with pytest.raises(errors.NotUnderstood, match=f"{name}: the name of a picture ends with .svg, .png or .pdf"):
            plot.tables(MEASURED, out=tmp_path / name)
    assert list(tmp_path.iterdir()) == []


def test_a_device_by_its_path(found: Programs, tmp_path: Path, monkeypatch: pytest.MonkeyPatch) -> None:
    monkeypatch.setenv("HIZMORKE_PROGRAMS", str(found.folder))
    device = Device(tmp_path / "net", found)
    device.format(5)
    device.edit([("add", *edge) for edge in PATH.edges])
    for source in (device, str(device.path), device.path):
        assert len(plot.network(source, "at:2", positions=PLACES).axes[0].collections[1].get_offsets()) == 5
    # 0 and 1 are in the trees of both and of 2, and in the directories of both: 3 entries and 2 members. 3 has 2 and 2,
    # and 4 has 3 and 1.
    assert plot.tables(device, "at:2").axes[0].lines[0].get_ydata().tolist() == [13, 42, 47, 55, 55]
    assert plot.stretch(device, "at:2", pairs=10).axes[0].lines[0].get_ydata().tolist() == [1.0] * 10
    with pytest.raises(TypeError):
        plot.tables(device)


def test_the_pictures_of_the_pages(tmp_path: Path) -> None:
    call = [PICTURES / "draw", tmp_path]
    subprocess.run(call, check=True, env={"PYTHON": sys.executable, "PATH": "/usr/bin:/bin"})
    names = sorted(path.name for path in tmp_path.iterdir())
    assert names == ["builds.svg", "commits.svg", "landmarks.svg", "stretch.svg", "tables.svg"]
    if matplotlib.__version__ != "3.6.3":
        pytest.skip("the pictures were drawn by matplotlib 3.6.3")
    assert [name for name in names if (tmp_path / name).read_bytes() != (PICTURES / name).read_bytes()] == []


def test_the_small_network_of_the_pages(loading: Programs, tmp_path: Path) -> None:
    environment = {"PYTHON": sys.executable, "PATH": "/usr/bin:/bin", "HIZMORKE_PROGRAMS": str(loading.folder)}
    subprocess.run([PICTURES / "picture", tmp_path / "small.svg"], check=True, env=environment)
    if matplotlib.__version__ != "3.6.3":
        pytest.skip("the picture was drawn by matplotlib 3.6.3")
    assert (tmp_path / "small.svg").read_bytes() == (PICTURES / "small.svg").read_bytes()
