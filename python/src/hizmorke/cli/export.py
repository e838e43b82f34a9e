"""The command ``hizmorke export``."""

from __future__ import annotations

import click

from hizmorke.cli import SETTINGS, collect_seldom, printed
from hizmorke.cli.words import value
from hizmorke.errors import NotUnderstood


@click.command("export", context_settings=SETTINGS)
@click.argument("device", metavar="DEVICE")
@value("--as", "FORM", "edges (an edge list, as without it), csv, dimacs, dot, json, graphml, gml, pajek or mm")
@value("--words", "W", "With dot: mark the landmarks none, at:2,5 or draw:7, and the nodes that are nearest to each")
def export(device: str, words: str | None, **rest: str | None) -> int:
    """Print the network of a device."""
    from hizmorke.cli.called import Looked, words_of_form
    from hizmorke.forms import FORMS_OUT, text_of
    from hizmorke.network import Network
    from hizmorke.words import LandmarkWords, nearest_landmarks

    form = rest["as"] or "edges"
    if form not in FORMS_OUT:
        raise NotUnderstood(f"--as takes {', '.join(FORMS_OUT[:-1])} or {FORMS_OUT[-1]}")
    if words is not None:
        if form != "dot":
            raise NotUnderstood("--words goes with --as dot")
        words_of_form(words)
    collect_seldom()
    looked = Looked(device, whole=True)
    network = Network(looked.info.nodes, looked.edges, looked.names)
    marks = None
    if words is not None:
        landmarks = LandmarkWords.parse(words, network.node_count).landmarks()
        places = {landmark: place for place, landmark in enumerate(landmarks)}
        nearest = nearest_landmarks(network.node_count, network.edges, landmarks)
        marks = [None if landmark is None else (landmark, places[landmark]) for landmark in nearest]
    printed(text_of(network, form, marks))
    return 0


COMMANDS = {"export": export}
