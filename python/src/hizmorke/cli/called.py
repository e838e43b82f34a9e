"""The commands that call nodes by the names beside a device: ``hizmorke show``, ``edit`` and ``route``."""

from __future__ import annotations

from collections.abc import Iterator
from contextlib import contextmanager
from pathlib import Path

import click

from hizmorke.cli import SETTINGS, printed
from hizmorke.cli.words import number_in, value
from hizmorke.device import GREATEST_TICKET, Device
from hizmorke.errors import ChangeRefused, ChangeTooLong, NoNode, NotUnderstood, Refused, UsageNotUnderstood
from hizmorke.names import DeviceNames, parse_node, parse_op, settle, spelled
from hizmorke.network import Network
from hizmorke.words import LandmarkWords

# The most nodes that a word names: those of a network are fewer.
MOST_NAMED = 65_536


class Looked:
    """A device as a command finds it, and how its nodes are called.

    Parameters
    ----------
    path : str
        The device's file.
    whole : bool
        Whether its edges are read; else they are only where names were laid beside it by an import that was cut off.
    """

    def __init__(self, path: str, *, whole: bool) -> None:
        self.device = Device(path)
        self.edges: list[tuple[int, int, int]] = []
        is_whole = whole or Path(f"{path}.names.new").exists()
        if is_whole:
            self.edges = self._shown(path)
        self.info = self.device.info()
        if not is_whole:
            self.count = self.info.count
        network = Network(self.info.nodes, self.edges)
        self.kept = DeviceNames.read(path, network, self.info.count)
        self.names = self.kept.names

    def _shown(self, path: str) -> list[tuple[int, int, int]]:
        done = self.device.programs.run("tznode", ["show", self.device.word])
        if done.status:
            raise done.fault(path)
        head, _, rest = done.out.partition("\n")
        self.count = int(head.split(" ")[0].removeprefix("count="))
        numbers = list(map(int, rest.split()))
        return list(zip(numbers[0::3], numbers[1::3], numbers[2::3]))


@contextmanager
def of_no_file() -> Iterator[None]:
    """What a program refuses isn't told with the device: the answer is no."""
    try:
        yield
    except Refused as refused:
        refused.path = None
        raise


def words_of_form(text: str) -> None:
    """Sees whether landmark words have their form, whatever nodes they name.

    Raises
    ------
    WordsNotUnderstood
        They don't.
    """
    LandmarkWords.parse(text, MOST_NAMED)


@click.command("show", context_settings=SETTINGS)
@click.argument("device", metavar="DEVICE")
def show(device: str) -> int:
    """Print how many changes and edges a device has, and its edges, nodes by their names."""
    looked = Looked(device, whole=True)
    called = [spelled(node, looked.names) for node in range(looked.info.nodes)]
    lines = [f"{called[a]} {called[b]} {weight}\n" for a, b, weight in looked.edges]
    printed(f"count={looked.count} edges={len(lines)}\n" + "".join(lines))
    return 0


@click.command("edit", context_settings=SETTINGS)
@click.argument("device", metavar="DEVICE")
@click.argument("ops", metavar="OP..", nargs=-1, required=True)
@value("--session", "S", "The session, 0 to 63; 0 where it is left out")
@value("--ticket", "T", "The ticket; the next one where it is left out")
def edit(device: str, ops: tuple[str, ...], session: str | None, ticket: str | None) -> int:
    """Make one change of a device, all operations or none.

    OP is add:A:B:W, set:A:B:W or cut:A:B. A node is a name, or #5. A name with a colon, or with # or a dash at its
    front, stands in quotation marks.
    """
    try:
        numbers = number_in(session, 0, 63, "usage"), number_in(ticket, 1, GREATEST_TICKET, "usage")
    except NotUnderstood as error:
        raise UsageNotUnderstood from error
    looked = Looked(device, whole=False)
    texts = []
    for op in ops:
        kind, a, b, weight = parse_op(op, looked.names)
        texts.append(f"{kind}:{a}:{b}" if weight is None else f"{kind}:{a}:{b}:{weight}")
    if len(texts) > 16:
        raise ChangeTooLong
    if looked.kept.is_laid:
        settle(device, looked.kept)
    try:
        with of_no_file():
            count = looked.device.edit(texts, session=numbers[0] or 0, ticket=numbers[1])
    except ChangeRefused as refused:
        printed(f"{refused.text}\n")
        return 1
    printed(f"accepted count={count}\n")
    return 0


@click.command("route", context_settings=SETTINGS)
@click.argument("device", metavar="DEVICE")
@click.argument("nodes", metavar="A B..", nargs=-1, required=True)
@value("--words", "W", "The landmarks: none, at:2,5 or draw:7", needed=True)
def route(device: str, nodes: tuple[str, ...], words: str) -> int:
    """Print the way of a packet, a line for each two nodes: the one that sends, and the one that it sends to.

    A node is a name, or #5.
    """
    if len(nodes) % 2:
        raise UsageNotUnderstood
    words_of_form(words)
    looked = Looked(device, whole=False)
    found = []
    for word in nodes:
        node = parse_node(word, looked.names)
        if node is None:
            raise NotUnderstood(f"no node named {word}")
        found.append(node)
    if max(found) >= looked.info.nodes:
        # The words are judged against the network before the nodes are.
        LandmarkWords.parse(words, looked.info.nodes)
        raise NoNode
    with of_no_file():
        routes = looked.device.route(list(zip(found[0::2], found[1::2])), words)
    lines = []
    for way in routes:
        if way is None:
            lines.append(f"generation={looked.count} unreachable\n")
        else:
            stops = " ".join(spelled(node, looked.names) for node in way.nodes)
            lines.append(f"generation={way.generation} route {stops} length {way.length}\n")
    printed("".join(lines))
    return 1 if None in routes else 0


COMMANDS = {"show": show, "edit": edit, "route": route}
