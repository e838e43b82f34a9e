"""The command ``hizmorke gate``: its words and its help are those of `hizmorke.gate`."""

from __future__ import annotations

import click

from hizmorke.cli import gate_of


@click.command(
    "gate",
    context_settings={"ignore_unknown_options": True, "allow_extra_args": True, "help_option_names": []},
    add_help_option=False,
)
@click.argument("words", nargs=-1, type=click.UNPROCESSED)
def gate(words: tuple[str, ...]) -> int:
    """Give one live service many clients, over a socket."""
    return gate_of(list(words))


COMMANDS = {"gate": gate}
