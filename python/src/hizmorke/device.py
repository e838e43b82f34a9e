"""A device: one file that holds a network. Each command of the programs is a call here.

Each call runs `tznode` or `tzlab` once, so it opens the device, locks it and closes it again. A `hizmorke.Service`
keeps it open.
"""

from __future__ import annotations

import json
import os
from collections.abc import Iterable, Sequence
from dataclasses import dataclass
from pathlib import Path
from typing import TYPE_CHECKING, Union

from hizmorke.errors import (
    AnswerNotUnderstood,
    FileExists,
    FileUnusable,
    HizmorkeError,
    LimitNotKept,
    NotUnderstood,
    Refused,
    error_of_text,
)
from hizmorke.programs import Completed, Programs, as_word

if TYPE_CHECKING:
    from hizmorke.network import Network
    from hizmorke.words import LandmarkWords

Operation = Union[str, tuple[str, int, int], tuple[str, int, int, int]]
"""An operation of a change: ``"add:0:1:5"``, or ``("add", 0, 1, 5)``; so too ``set``, and ``cut`` without a weight."""

Words = Union[str, "LandmarkWords"]
"""Landmark words: ``none``, ``at:2,5``, ``draw:7``, or `hizmorke.words.LandmarkWords`."""

MOST_OPERATIONS = 16
"""A change has at most so many operations."""

MOST_NODES = 16_384
"""A device has at most so many nodes."""

MOST_EDGES = 65_536
"""A device has at most so many edges."""

GREATEST_TICKET = 2**63 - 1
"""The last ticket of a session."""

# So many pairs go into one call of `tznode route`: its words fit into what Linux hands over.
_PAIRS_A_CALL = 8_192


@dataclass(frozen=True)
class Route:
    """A packet's way.

    Attributes
    ----------
    generation : int
        The number of changes that made the network.
    nodes : tuple of int
        The nodes that the packet comes to, from the sender to the destination.
    length : int
        The sum of the weights on the way.
    """

    generation: int
    nodes: tuple[int, ...]
    length: int


@dataclass(frozen=True)
class Check:
    """All rules of the tables hold.

    Attributes
    ----------
    generation : int
        The number of changes that made the network.
    landmarks : int
        How many landmarks there are.
    """

    generation: int
    landmarks: int


@dataclass(frozen=True)
class TableFiles:
    """Files of tables that were written.

    Attributes
    ----------
    generation : int
        The number of changes that made the network.
    tables : int
        How many files.
    bytes : int
        The bytes of all of them.
    greatest : int
        The bytes of the largest one.
    """

    generation: int
    tables: int
    bytes: int
    greatest: int


@dataclass(frozen=True)
class State:
    """How much a device holds.

    Attributes
    ----------
    count : int
        How many changes were accepted.
    edges : int
        How many edges it has.
    """

    count: int
    edges: int


@dataclass(frozen=True)
class Holding:
    """What a device holds that was just made.

    Attributes
    ----------
    count : int
        How many changes were accepted.
    edges : int
        How many edges it has.
    nodes : int
        How many nodes it has.
    """

    count: int
    edges: int
    nodes: int


@dataclass(frozen=True)
class Info:
    """What a device holds, as ``tzlab info`` tells it.

    Attributes
    ----------
    nodes, edges, count : int
        The nodes, the edges and the accepted changes.
    layout : int
        The layout of its bytes.
    slot, epoch : int
        The slot in use, 0 or 1, and the epoch of its checkpoint.
    since_checkpoint : int
        The accepted changes in the journal after that checkpoint.
    journal_room_left : int
        The bytes of the journal that are free.
    tickets : dict of int to int
        The last ticket of each session that has one.
    """

    nodes: int
    edges: int
    count: int
    layout: int
    slot: int
    epoch: int
    since_checkpoint: int
    journal_room_left: int
    tickets: dict[int, int]


@dataclass(frozen=True)
class Entry:
    """A change of the journal.

    Attributes
    ----------
    count : int
        The number of accepted changes with this one.
    session, ticket : int
        Its session and ticket.
    ops : tuple of str
        Its operations.
    """

    count: int
    session: int
    ticket: int
    ops: tuple[str, ...]


def operation_text(op: Operation) -> str:
    """An operation as the programs take it.

    Parameters
    ----------
    op : str or tuple
        ``"add:0:1:5"``, or ``("add", 0, 1, 5)``. A text stays as it is.

    Examples
    --------
    >>> operation_text(("cut", 0, 1))
    'cut:0:1'
    """
    return op if isinstance(op, str) else ":".join(map(str, op))


def route_of_text(text: str) -> Route | None:
    """A way as the programs print it: ``generation=2 route 0 1 2 length 2``.

    Returns
    -------
    Route or None
        The way, or None for ``generation=2 unreachable``.

    Raises
    ------
    HizmorkeError
        It is neither: the exception of this text.

    Examples
    --------
    >>> route_of_text("generation=2 route 0 1 2 length 5")
    Route(generation=2, nodes=(0, 1, 2), length=5)
    """
    words = text.split(" ")
    if words[0].startswith("generation=") and len(words) > 1:
        if words[1] == "unreachable":
            return None
        if words[1] == "route":
            return Route(int(words[0][11:]), tuple(map(int, words[2:-2])), int(words[-1]))
    raise error_of_text(text) or AnswerNotUnderstood(text)


def pairs_of_text(text: str) -> dict[str, int]:
    """The numbers of a line of ``name=number`` pairs; other words are left out.

    Examples
    --------
    >>> pairs_of_text("ok generation=2 landmarks=1")
    {'generation': 2, 'landmarks': 1}
    """
    found = {}
    for word in text.split():
        name, equals, number = word.partition("=")
        if equals and number.isdecimal():
            found[name] = int(number)
    return found


class Device:
    """A device, by its file.

    Nothing is opened before a call. Each call raises `hizmorke.errors.DeviceInUse` if another program has the device
    open in a way that excludes it, and `FileUnusable`, `NotFormatted`, `LayoutNotKnown`, `Damaged`, `DeviceFailed` or
    `OutOfMemory` for what is wrong with the file or the machine.

    Parameters
    ----------
    path : path
        The device's file.
    programs : Programs, optional
        Where the programs are.

    Examples
    --------
    >>> device = Device("net")                                  # doctest: +SKIP
    >>> device.format(5)                                        # doctest: +SKIP
    >>> device.edit(["add:0:1:1", "add:1:2:1"])                 # doctest: +SKIP
    1
    >>> device.route([(0, 2)], "at:1")                          # doctest: +SKIP
    [Route(generation=1, nodes=(0, 1, 2), length=2)]
    """

    def __init__(self, path: str | os.PathLike[str], programs: Programs | None = None) -> None:
        self.path = Path(path)
        self.programs = Programs() if programs is None else programs

    def __repr__(self) -> str:
        return f"Device({str(self.path)!r})"

    def format(self, nodes: int, new: bool = False) -> None:
        """Makes the device, with so many nodes and no edges. A file of that name is replaced.

        Parameters
        ----------
        nodes : int
            1 to 16,384.
        new : bool
            Whether the file must not be there.

        Raises
        ------
        NodeCountOutOfRange
            The file was made, and holds zeros.
        FileExists
            With `new` the file is there already.
        """
        if new:
            try:
                os.close(os.open(self.path, os.O_CREAT | os.O_EXCL | os.O_WRONLY, 0o666))
            except FileExistsError:
                raise FileExists(path=str(self.path)) from None
            except OSError as error:
                raise FileUnusable(path=str(self.path)) from error
        try:
            self._run("tznode", ["format", self.word, str(nodes)])
        except HizmorkeError:
            if new:
                self.path.unlink(missing_ok=True)
            raise

    def edit(self, ops: Sequence[Operation], session: int = 0, ticket: int | None = None) -> int:
        """Makes a change of 1 to 16 operations, whole or not at all.

        Parameters
        ----------
        ops : sequence of str or tuple
            The operations: ``"add:0:1:5"`` or ``("add", 0, 1, 5)``.
        session : int
            0 to 63.
        ticket : int, optional
            The ticket, else the one after the session's last.

        Returns
        -------
        int
            The change's number: how many changes were accepted with it.

        Raises
        ------
        ChangeRefused
            An operation can't be made.
        AlreadyIn
            The session has used this ticket or a later one.
        OperationNotUnderstood, ChangeTooLong, WornOut
            As their texts say.
        """
        words = ["edit", self.word, *map(operation_text, ops), "--session", str(session)]
        if ticket is not None:
            words += ["--ticket", str(ticket)]
        return pairs_of_text(self._run("tznode", words))["count"]

    def show(self) -> Network:
        """The network: its edges ascending, and its names where ``DEVICE.names`` is there."""
        from hizmorke.names import DeviceNames
        from hizmorke.network import Network

        lines = self._run("tznode", ["show", self.word]).splitlines()
        edges = [(int(a), int(b), int(weight)) for a, b, weight in (line.split(" ") for line in lines[1:])]
        return Network(self.info().nodes, edges, DeviceNames.read(self.path).names)

    def state(self) -> State:
        """How many changes were accepted, and how many edges there are."""
        held = self.info()
        return State(held.count, held.edges)

    def resume(self, session: int) -> int:
        """The last ticket of a session, 0 to 63; 0 if it has none."""
        return pairs_of_text(self._run("tznode", ["resume", self.word, str(session)]))["ticket"]

    def route(self, pairs: Iterable[tuple[int, int]], words: Words) -> list[Route | None]:
        """The way of a packet for each pair of nodes.

        Parameters
        ----------
        pairs : iterable of tuple
            Senders and destinations.
        words : str or LandmarkWords
            Landmark words.

        Returns
        -------
        list of Route or None
            A way for each pair, in order; None where no way leads there.

        Raises
        ------
        NoNode
            A node isn't in the network.
        WordsNotUnderstood
            As its text says.
        """
        nodes = [str(node) for pair in pairs for node in pair]
        found: list[Route | None] = []
        for at in range(0, len(nodes), 2 * _PAIRS_A_CALL):
            done = self.programs.run(
                "tznode", ["route", self.word, *nodes[at:at + 2 * _PAIRS_A_CALL], "--words", str(words)]
            )
            # The status is 1 where a way isn't there, which is an answer.
            if not done.out:
                raise done.fault(str(self.path))
            found += map(route_of_text, done.out.splitlines())
        return found

    def check(self, words: Words) -> Check:
        """Builds the tables and checks them.

        Parameters
        ----------
        words : str or LandmarkWords
            Landmark words.

        Returns
        -------
        Check
            All checks hold.

        Raises
        ------
        SchemeFault
            One doesn't.
        WordsNotUnderstood
            As its text says.
        """
        found = pairs_of_text(self._run("tznode", ["check", self.word, "--words", str(words)]))
        return Check(found["generation"], found["landmarks"])

    def tables(self, folder: str | os.PathLike[str], words: Words, nodes: Sequence[int] | None = None) -> TableFiles:
        """Writes nodes' tables into a folder, ``N.table`` each.

        Parameters
        ----------
        folder : path
            The folder, which is there.
        words : str or LandmarkWords
            Landmark words.
        nodes : sequence of int, optional
            The nodes, else all.

        Returns
        -------
        TableFiles
            How many, and how large they are.

        Raises
        ------
        NoNode
            A node isn't in the network. No file was written.
        TableFileUnwritable
            A file can't be written. The files before it stay.
        WordsNotUnderstood
            As its text says.
        """
        call = ["tables", self.word, as_word(folder), "--words", str(words)]
        for node in () if nodes is None else nodes:
            call += ["--node", str(node)]
        found = pairs_of_text(self._run("tznode", call))
        return TableFiles(found["generation"], found["tables"], found["bytes"], found["greatest"])

    def info(self) -> Info:
        """What the device holds."""
        told = json.loads(self._run("tzlab", ["info", self.word, "--json"]))
        tickets = {each["session"]: each["ticket"] for each in told.pop("tickets")}
        return Info(**told, tickets=tickets)

    def journal(self, last: int | None = None) -> list[Entry]:
        """The changes since the checkpoint.

        Parameters
        ----------
        last : int, optional
            So many at the end, else all.

        Returns
        -------
        list of Entry
            The changes, in order.
        """
        call = ["journal", self.word] + ([] if last is None else ["--last", str(last)])
        entries = []
        for line in self._run("tzlab", call).splitlines():
            numbers, words = pairs_of_text(line), line.split(" ")
            entries.append(Entry(numbers["count"], numbers["session"], numbers["ticket"], tuple(words[3:])))
        return entries

    def landmarks(
        self,
        *,
        seed: int | None = None,
        start: str | None = None,
        most_entries: int | None = None,
        most: int | None = None,
    ) -> str:
        """Chooses landmarks under which no table is large, as docs/FORMATS-FIGURES.md says.

        Parameters
        ----------
        seed : int, optional
            The seed of what is drawn, else 0.
        start : str, optional
            ``none``, ``draw``, ``degree`` or ``best``, the best of the three, which it is without this.
        most_entries : int, optional
            No table has more entries and members than this, else than four times the square root of the number of
            nodes.
        most : int, optional
            There are no more landmarks than this, else than that number too.

        Returns
        -------
        str
            Landmark words.

        Raises
        ------
        LimitNotKept
            The largest table is larger than the limit. Its ``words`` are the best that were found.
        NotUnderstood
            A number is out of its range, or there is no such start.
        """
        call = ["landmarks", self.word]
        for name, value in (("seed", seed), ("start", start), ("most-entries", most_entries), ("most", most)):
            if value is not None:
                call += [f"--{name}", str(value)]
        done = self.programs.run("tzlab", call)
        if done.status == 0:
            return done.out.strip()
        said = done.err.splitlines()[-1] if done.err else ""
        if done.status == 1 and done.out and said.startswith("tzlab: the largest table has "):
            raise LimitNotKept(said.removeprefix("tzlab: "), done.out.strip(), path=str(self.path))
        raise self._fault(done)

    def load(self, source: str | os.PathLike[str] | Network, nodes: int | None = None) -> Holding:
        """Makes the device, which must not be there, whole or not at all.

        Parameters
        ----------
        source : path or Network
            A file with a line ``A B W`` for each edge, or a network, of which the edges are taken and no names.
        nodes : int, optional
            The number of nodes, else that of the network, or one more than the greatest in the file.

        Returns
        -------
        Holding
            What it holds.

        Raises
        ------
        FileExists
            The device is there.
        NotUnderstood, Refused
            A line says no edge, or one that can't be made: ``path`` and ``line`` say which. Of a network the lines are
            its edges.
        """
        if isinstance(source, (str, os.PathLike)):
            file, content = as_word(source), None
        else:
            file, nodes = "/dev/stdin", source.node_count if nodes is None else nodes
            content = "".join(f"{a} {b} {weight}\n" for a, b, weight in source.edges)
        call = ["load", self.word, file] + ([] if nodes is None else ["--nodes", str(nodes)])
        return _holding(self._run("tzlab", call, content, file))

    def grow(self, new: str | os.PathLike[str], nodes: int) -> Holding:
        """Makes a larger device of the same count, edges and tickets.

        Parameters
        ----------
        new : path
            The new file, which must not be there.
        nodes : int
            Its number of nodes.

        Returns
        -------
        Holding
            What it holds.

        Raises
        ------
        FileExists
            The new file is there.
        """
        return _holding(self._run("tzlab", ["grow", self.word, as_word(new), "--nodes", str(nodes)], file=str(new)))

    def copy(self, new: str | os.PathLike[str]) -> State:
        """Makes a new file with what the device holds: the count, the network and the tickets, but no history.

        Parameters
        ----------
        new : path
            The new file, which must not be there.

        Returns
        -------
        State
            What it holds.

        Raises
        ------
        FileUnusable
            One of the files can't be opened, or the new one is there.
        """
        found = pairs_of_text(self._run("tznode", ["copy", self.word, as_word(new)]))
        return State(found["count"], found["edges"])

    def migrate(self, new: str | os.PathLike[str]) -> State:
        """Brings a device of layout 1 to a new file of today's layout.

        Parameters
        ----------
        new : path
            The new file, which must not be there.

        Returns
        -------
        State
            What it holds.

        Raises
        ------
        LayoutNotKnown
            The device isn't of layout 1.
        """
        found = pairs_of_text(self._run("tznode", ["migrate", self.word, as_word(new)]))
        return State(found["count"], found["edges"])

    @property
    def word(self) -> str:
        """The device's path as a program's word."""
        return as_word(self.path)

    def _run(self, name: str, words: Sequence[str], content: str | None = None, file: str | None = None) -> str:
        """What a program printed, where its status is 0."""
        done = self.programs.run(name, words, content)
        if done.status != 0:
            raise self._fault(done, file)
        return done.out

    def _fault(self, done: Completed, file: str | None = None) -> HizmorkeError:
        # What is no on standard output: `refused op=0 code=4`, `fault K4`, `no node`.
        answer = error_of_text(done.out.strip(), str(self.path)) if done.status == 1 else None
        if answer is not None:
            return answer
        said = done.err.strip().removeprefix(f"{done.name}: ")
        for place in () if file is None else (file, str(Path(file))):
            if said.startswith(f"{place}: ") or said.startswith(f"{place}:"):
                return _error_of_file(place, said[len(place) + 1:], done.status)
        return done.fault(str(self.path))


def _holding(text: str) -> Holding:
    found = pairs_of_text(text)
    return Holding(found["count"], found["edges"], found["nodes"])


def _error_of_file(path: str, said: str, status: int) -> HizmorkeError:
    """The exception for what is said behind ``FILE:``, as ``LINE: TEXT`` or as a text alone."""
    number, colon, text = said.partition(": ")
    line = int(number) if colon and number.isdecimal() else None
    text = text if line is not None else said.strip()
    known = error_of_text(text)
    if known is not None:
        known.path, known.line = path, line
        return known
    return (NotUnderstood if status == 2 else Refused)(text, path=path, line=line)
