"""The command ``hizmorke stats``."""

from __future__ import annotations

import click

from hizmorke.cli import SETTINGS, printed
from hizmorke.cli.words import flag, value
from hizmorke.errors import NotUnderstood


@click.command("stats", context_settings=SETTINGS)
@click.argument("device", metavar="DEVICE")
@value("--words", "W", "The landmarks: none, at:2,5 or draw:7", needed=True)
@value("--pairs", "N", "How many pairs are measured, 1000 where none is named, at most 32767")
@value("--seed", "S", "The seed that draws them, 0 where none is named")
@flag("--by-node", "Print a line for each node: its entries, members and bytes, and the stretch of what it sends")
@flag("--csv", "Print CSV")
@flag("--json", "Print an array of JSON")
def stats(device: str, words: str, pairs: str | None, seed: str | None, by_node: bool, csv: bool, json: bool) -> int:
    """Build the tables of a device, and print how large they and how long the ways in them are."""
    from hizmorke.cli.called import words_of_form
    from hizmorke.words import parse_pairs, parse_seed

    words_of_form(words)
    count = 1000 if pairs is None else parse_pairs(pairs)
    drawn = 0 if seed is None else parse_seed(seed)
    if csv and json:
        raise NotUnderstood("either --csv or --json")

    from hizmorke.device import Device
    from hizmorke.figures import figures

    found = figures(Device(device), words, pairs=count, seed=drawn)
    printed("".join(f"{line}\n" for line in found.lines(by_node, "csv" if csv else "json" if json else "text")))
    return 0


COMMANDS = {"stats": stats}
