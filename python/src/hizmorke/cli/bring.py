"""The command ``hizmorke import``."""

from __future__ import annotations

import sys
from collections.abc import Callable, Iterator
from contextlib import contextmanager
from importlib.util import find_spec
from pathlib import Path

import click

from hizmorke.cli import SETTINGS, collect_seldom, printed, told
from hizmorke.cli.words import flag, number_in, value
from hizmorke.errors import HizmorkeError, NotUnderstood

FORMS = (
    "The form of FILE, else its name and its lines tell: edges, gephi, konect, networkx, dimacs, as-rel, json, "
    "graphml, gml, pajek, gexf or mm"
)
# So many edges take long enough to be watched.
LONG = 2_048


@click.command("import", context_settings=SETTINGS)
@click.argument("device", metavar="DEVICE")
@click.argument("file", metavar="FILE")
@value("--as", "FORM", FORMS)
@flag("--update", "Give edges that are there their weights in FILE; else they are refused")
@flag("--least", "Take lines with the same edge as one, of the least weight")
@value("--scale", "K", "Multiply weights, which may be decimal, and round them")
@value("--weight", "KEY", "The column, key or attribute that has the weight; none gives each edge the weight 1")
@value("--columns", "A,B[,W]", "The columns of both ends and of the weight: names of the header, or numbers from 1")
@value("--delimiter", "C", "What stands between two fields: ; or tab or another character")
@value("--undirected", "min", "Take a directed network: of both ways between two nodes the least weight counts")
@flag("--names", "Take all ends of edges for names, numbers too")
@flag("--header", "Take the first line for a header")
@flag("--no-header", "Take no line for a header")
@value("--nodes", "N", "How many nodes a device has that is made, or that grows; else as many as FILE names")
@flag("--grow", "Make a device that is there larger, where it has fewer nodes")
def bring(
    device: str,
    file: str,
    update: bool,
    least: bool,
    scale: str | None,
    weight: str | None,
    columns: str | None,
    delimiter: str | None,
    undirected: str | None,
    names: bool,
    header: bool,
    no_header: bool,
    nodes: str | None,
    grow: bool,
    **rest: str | None,
) -> int:
    """Bring a network to a device, which is made where it isn't there.

    How nodes are called is kept beside it, in DEVICE.names. A device that isn't there is made whole or not at all. One
    that is there gets changes; an import that was cut off goes on by the same command.
    """
    from hizmorke.forms import Options, check_words, read_rows

    if header and no_header:
        raise NotUnderstood("either --header or --no-header")
    options = Options(
        header=True if header else False if no_header else None,
        scale=number_in(scale, 1, 1_000_000, "--scale takes 1 to 1000000"),
        delimiter=delimiter,
        columns=None if columns is None else tuple(columns.split(",")),
        weight=weight,
        undirected=undirected,
    )
    form = rest["as"]
    check_words(form, options)
    node_count = number_in(nodes, 1, 16_384, "--nodes takes 1 to 16384")
    collect_seldom()
    reading = read_rows(file, form, options)
    for note in reading.notes:
        told(note)

    from hizmorke.importing import Wanted

    with watched() as came_to:
        wanted = Wanted(Path(device), reading, names, least, update, node_count, grow, tell=told, came_to=came_to)
        try:
            holding = wanted.run()
        except HizmorkeError:
            if wanted.held is not None:
                held = wanted.held
                printed(f"count={held.count} edges={len(held.edges)} nodes={held.nodes}\n")
            raise
    printed(f"count={holding.count} edges={holding.edges} nodes={holding.nodes}\n")
    return 0


@contextmanager
def watched() -> Iterator[Callable[[int, int], None]]:
    """What is told how far an import has come: a terminal sees it, where the import is long."""
    if sys.stderr is None or not sys.stderr.isatty() or find_spec("rich") is None:
        yield lambda done, of: None
        return
    from rich.console import Console
    from rich.progress import BarColumn, MofNCompleteColumn, Progress, TextColumn, TimeRemainingColumn

    columns = (TextColumn("edges"), BarColumn(), MofNCompleteColumn(), TimeRemainingColumn())
    with Progress(*columns, console=Console(stderr=True), transient=True) as progress:
        task = None

        def came_to(done: int, of: int) -> None:
            nonlocal task
            if of < LONG:
                return
            task = progress.add_task("edges", total=of) if task is None else task
            progress.update(task, completed=done)

        yield came_to


COMMANDS = {"import": bring}
