"""The command ``hizmorke plot``."""

from __future__ import annotations

import click

from hizmorke.cli import SETTINGS, printed
from hizmorke.cli.words import value
from hizmorke.errors import NotUnderstood

KINDS = ("network", "stretch", "tables")


@click.command("plot", context_settings=SETTINGS)
@click.argument("kind", metavar="KIND")
@click.argument("device", metavar="DEVICE")
@value("--words", "W", "The landmarks: none, at:2,5 or draw:7", needed=True)
@value("--out", "FILE", "The picture that is made: its name ends with .svg, .png or .pdf", needed=True)
def plot(kind: str, device: str, words: str, out: str) -> int:
    """Draw a network, the stretches of drawn pairs, or the tables of its nodes into a file.

    KIND is network, stretch or tables.
    """
    if kind not in KINDS:
        raise NotUnderstood("KIND is network, stretch or tables")
    from hizmorke.cli.called import words_of_form

    words_of_form(words)
    from hizmorke import plot as plots

    plots.form_of(out)
    getattr(plots, kind)(device, words, out)
    printed(f"{out}\n")
    return 0


COMMANDS = {"plot": plot}
