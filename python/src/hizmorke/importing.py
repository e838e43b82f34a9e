"""Networks that come to a device: a new one whole or not at all, one that is there by changes that can be gone on with.

Nothing is put before all is understood and judged. A device that isn't there is made by ``tzlab load``. One that is
there gets changes of 16 operations each, of session 0 under the tickets behind its last one, by a service that holds
the device's lock. Before the first of them ``DEVICE.import`` says what is to come, so that the same import goes on
after it was killed.
"""

from __future__ import annotations

import fcntl
import hashlib
import json
import os
from collections.abc import Callable, Iterable, Iterator, Sequence
from contextlib import contextmanager, suppress
from dataclasses import dataclass, field
from pathlib import Path
from typing import BinaryIO, Literal

from hizmorke.device import GREATEST_TICKET, MOST_EDGES, MOST_OPERATIONS, Device, Holding
from hizmorke.errors import (
    AnswerNotUnderstood,
    DeviceInUse,
    Fault,
    FileExists,
    FileUnusable,
    HizmorkeError,
    NotUnderstood,
    Refused,
    ServiceEnded,
    WornOut,
)
from hizmorke.forms import Reading, taken_line
from hizmorke.names import NUMBERS, Assigned, DeviceNames, Target, assign, judge, lay, put, settle, write_count
from hizmorke.network import Network
from hizmorke.programs import Programs
from hizmorke.service import Service

Edge = tuple[int, int, int]
Pair = tuple[int, int]

# The landmarks of a service that only takes edits: its tables are built beside them, and nobody asks for them.
WORDS = "draw:1"
# All sessions of a device.
SESSIONS = 64


ANOTHER = (
    "another import was begun and isn't whole: its command goes on with it; "
    "without this file the device stays as it is"
)
CHANGED = "the device was changed since this import was cut off; without this file it stays as it is"


class UnfinishedImport(Refused):
    """An import was begun on this device and was cut off, and this call can't go on with it."""


# ---- what is to come


@dataclass(frozen=True)
class Operation:
    """An edge that is added, or whose weight is set; then with the weight that it had."""

    a: int
    b: int
    weight: int
    before: int = 0

    def __str__(self) -> str:
        """The operation as ``tznode`` takes it."""
        return f"{'set' if self.before else 'add'}:{self.a}:{self.b}:{self.weight}"


def pair(a: int, b: int) -> Pair:
    """Two nodes, the smaller one first."""
    return (a, b) if a < b else (b, a)


def operations_of(edges: Iterable[Edge], before: dict[Pair, int]) -> list[Operation]:
    """The operations that bring edges to a network: an edge that is there gets its weight, the others are added.

    Parameters
    ----------
    edges : iterable of (int, int, int)
        Both ends and the weight of each.
    before : dict of (int, int) to int
        The weights of the edges that are there, the smaller node first.

    Examples
    --------
    >>> [str(op) for op in operations_of([(0, 1, 5), (2, 1, 3)], {(1, 2): 4})]
    ['add:0:1:5', 'set:2:1:3']
    """
    return [Operation(a, b, weight, before.get((a, b) if a < b else (b, a), 0)) for a, b, weight in edges]


def changes_of(operations: Sequence[Operation]) -> list[Sequence[Operation]]:
    """The operations by changes, of 16 each; the last one may have fewer."""
    return [operations[at : at + MOST_OPERATIONS] for at in range(0, len(operations), MOST_OPERATIONS)]


# ---- what a device holds


@dataclass
class Held:
    """What a device holds: as one moment had it."""

    count: int
    nodes: int
    edges: dict[Pair, int]
    tickets: dict[int, int]

    def digest(self) -> str:
        """The checksum of the edges."""
        return digest_of(self.edges)

    def holding(self) -> Holding:
        return Holding(self.count, len(self.edges), self.nodes)


def digest_of(edges: dict[Pair, int]) -> str:
    """The checksum of edges: of lines ``A B W``, ascending, as ``tznode show`` prints them.

    Examples
    --------
    >>> digest_of({(0, 1): 5})[:16] == hashlib.sha256(b"0 1 5" + bytes([10])).hexdigest()[:16]
    True
    """
    text = "".join(f"{a} {b} {weight}\n" for (a, b), weight in sorted(edges.items()))
    return hashlib.sha256(text.encode()).hexdigest()


def held_by(device: Device) -> Held:
    """What a device holds.

    Raises
    ------
    Fault
        As `Device.show` and `Device.info` do.
    """
    path = str(device.path)
    while True:
        info = device.info()
        shown = device.programs.run("tznode", ["show", device.word])
        if shown.status:
            raise shown.fault(path)
        head, _, rest = shown.out.partition("\n")
        if head == f"count={info.count} edges={info.edges}":
            numbers = list(map(int, rest.split()))
            edges = dict(zip(zip(numbers[0::3], numbers[1::3]), numbers[2::3]))
            return Held(info.count, info.nodes, edges, dict(info.tickets))
        if not head.startswith("count="):
            raise AnswerNotUnderstood(f"tznode show: {head}")


# ---- files beside a device


@contextmanager
def speaking_of(path: Path | str) -> Iterator[None]:
    """Tells what the system refuses as a fault of this file."""
    try:
        yield
    except OSError as error:
        raise Fault(error.strerror or str(error), path=str(path)) from error


def sync_folder(path: Path) -> None:
    """Syncs the folder of a file, so that its name is kept."""
    folder = os.open(path.parent, os.O_RDONLY)
    try:
        os.fsync(folder)
    finally:
        os.close(folder)


def remove(path: Path) -> None:
    """Takes a file away, if it is there."""
    with speaking_of(path), suppress(FileNotFoundError):
        os.unlink(path)
        sync_folder(path)


def text_at(path: Path) -> str | None:
    """The text of a file, None where it isn't there."""
    with speaking_of(path), suppress(FileNotFoundError):
        return path.read_text(encoding="utf-8", errors="surrogateescape")
    return None


def beside(device: Path, ending: str) -> Path:
    """The file of this ending beside a device."""
    return Path(f"{device}{ending}")


@contextmanager
def locked(path: Path, *, alone: bool) -> Iterator[None]:
    """Holds a device's lock, alone or with others that only read.

    Raises
    ------
    DeviceInUse
        Another program holds it.
    FileUnusable
        The file can't be opened.
    """
    try:
        file = os.open(path, os.O_RDONLY)
    except OSError as error:
        raise FileUnusable(path=str(path)) from error
    try:
        fcntl.flock(file, (fcntl.LOCK_EX if alone else fcntl.LOCK_SH) | fcntl.LOCK_NB)
        yield
    except BlockingIOError as error:
        raise DeviceInUse(path=str(path)) from error
    finally:
        os.close(file)


# ---- an import that was begun


@dataclass
class Begun:
    """An import into a device that is there: what ``DEVICE.import`` says of it.

    Attributes
    ----------
    digest : str
        Of the file's bytes and the options.
    base : int
        The last ticket of session 0 before it.
    before : str
        The checksum of the edges before it.
    names : str or None
        The checksum of what ``DEVICE.names`` is to say, None where it stays.
    changes : list
        Its changes, each a row of operations.
    """

    digest: str
    base: int
    before: str
    names: str | None
    changes: list[Sequence[Operation]] = field(default_factory=list)

    def text(self) -> str:
        """A line of JSON, and a line for each change: its operations, a ``set`` with the weight before it."""
        head = {
            "digest": self.digest,
            "session": 0,
            "base": self.base,
            "before": self.before,
            "names": self.names,
            "changes": len(self.changes),
        }
        rows = [json.dumps(head)]
        for change in self.changes:
            rows.append(" ".join(f"{op}:{op.before}" if op.before else str(op) for op in change))
        return "\n".join(rows) + "\n"

    @classmethod
    def read(cls, path: Path) -> Begun | None:
        """What a file says, None where it isn't there.

        Raises
        ------
        NotUnderstood
            It says no import.
        """
        text = text_at(path)
        if text is None:
            return None
        try:
            head, *rows = text.splitlines()
            said = json.loads(head)
            begun = cls(str(said["digest"]), int(said["base"]), str(said["before"]), said["names"])
            begun.changes = [[_operation(word) for word in row.split(" ")] for row in rows]
            if len(begun.changes) != said["changes"] or said["session"] != 0:
                raise ValueError("it isn't whole")
        except (ValueError, KeyError, TypeError) as error:
            text = "it says no import that was begun; without this file the device stays as it is"
            raise NotUnderstood(text, path=str(path)) from error
        return begun

    def undone(self, edges: dict[Pair, int], done: int) -> dict[Pair, int] | None:
        """The edges before so many of its changes were made; None where these aren't in them."""
        left = dict(edges)
        for change in self.changes[:done]:
            for op in change:
                both = pair(op.a, op.b)
                if left.pop(both, None) != op.weight:
                    return None
                if op.before:
                    left[both] = op.before
        return left


def _operation(word: str) -> Operation:
    kind, *numbers = word.split(":")
    if (kind, len(numbers)) not in (("add", 3), ("set", 4)):
        raise ValueError(f"no operation: {word}")
    return Operation(*map(int, numbers))


# ---- imports


@dataclass
class Wanted:
    """An import that is asked for.

    Parameters
    ----------
    device : path
        The device's file. It is made where it isn't there.
    reading : Reading
        What the file says.
    by_names, least, updates : bool
        ``--names``, ``--least`` and ``--update``.
    node_count : int, optional
        How many nodes the device is to have: ``--nodes``.
    grows : bool
        Whether a device with fewer nodes is made larger: ``--grow``.
    programs : Programs, optional
        Where the programs are.
    tell : callable, optional
        Is given each line that says what was taken, once it is sure that it will be put.
    came_to : callable, optional
        Is given how many edges of how many are put.

    Examples
    --------
    >>> reading = hizmorke.forms.read_rows("roads.txt")                        # doctest: +SKIP
    >>> Wanted(Path("net"), reading).run()                                     # doctest: +SKIP
    Holding(count=4, edges=64, nodes=46)
    """

    device: Path
    reading: Reading
    by_names: bool = False
    least: bool = False
    updates: bool = False
    node_count: int | None = None
    grows: bool = False
    programs: Programs | None = None
    tell: Callable[[str], None] = lambda line: None
    came_to: Callable[[int, int], None] = lambda done, of: None
    # What the device held when it was looked at; None where it isn't there.
    held: Held | None = None

    def run(self) -> Holding:
        """Brings the network to the device.

        Returns
        -------
        Holding
            What the device holds then.

        Raises
        ------
        NetworkRefused
            The network can't come to this device; nothing was put. Where an edge of it can't, `held` is what the
            device holds.
        UnfinishedImport
            Another import was begun and cut off.
        HizmorkeError
            Words aren't understood, or something failed.
        """
        begun = Begun.read(self._begun)
        if begun is not None and (begun.digest != self.digest() or not self.device.exists()):
            raise UnfinishedImport(ANOTHER, path=str(self._begun))
        if begun is not None:
            return self._go_on(begun)
        if self.device.exists():
            return self._end_making() or self._bring()
        return self._make()

    def digest(self) -> str:
        """The checksum of what the file says, and of how it is taken."""
        said = self.reading
        head = [said.form, said.node_count, said.by_names, said.first, said.repeats, said.least]
        options = [self.by_names, self.least, self.updates, self.node_count, self.grows]
        sum_of = hashlib.sha256(json.dumps([head, options, said.labels]).encode())
        for words in (said.sources, said.targets, map(str, said.weights)):
            sum_of.update("\n".join(words).encode("utf-8", "surrogatepass") + b"\n\n")
        return sum_of.hexdigest()

    @property
    def _begun(self) -> Path:
        return beside(self.device, ".import")

    @property
    def _names(self) -> Path:
        return beside(self.device, ".names")

    @property
    def _laid(self) -> Path:
        return beside(self.device, ".names.new")

    def _device(self) -> Device:
        return Device(self.device, self.programs)

    def _assigned(self, target: Target) -> Assigned:
        return assign(self.reading, target, names=self.by_names, least=self.least, update=self.updates)

    def _tell_of(self, assigned: Assigned) -> None:
        self.tell(f"{self.reading.path}: {taken_line(self.reading, assigned.network.names is not None)}")

    # ---- a device that isn't there

    def _made(self) -> Assigned:
        """What a device is to hold that is made."""
        target = Target(str(self.device), self.node_count, names=DeviceNames.read(self.device))
        assigned = self._assigned(target)
        judge(self.reading, assigned, (), self.updates, MOST_EDGES)
        return assigned

    def _make(self) -> Holding:
        assigned = self._made()
        node_count = assigned.network.node_count
        self._tell_of(assigned)
        rows = "".join([f"{a} {b} {weight}\n" for a, b, weight in assigned.network.edges])
        if assigned.text is None:
            remove(self._laid)
            made = loaded(self._device(), rows, node_count)
        else:
            made = self._make_named(assigned.text, rows, node_count)
        self.came_to(made.edges, made.edges)
        return made

    def _end_making(self) -> Holding | None:
        """Ends this import where it has made the device, and was cut off before its names were in their place. None
        where the device holds anything else.
        """
        laid = text_at(self._laid)
        if laid is None:
            return None
        try:
            assigned = self._made()
        except HizmorkeError:
            return None
        held = held_by(self._device())
        edges = {pair(a, b): weight for a, b, weight in assigned.network.edges}
        changes = -(-len(edges) // MOST_OPERATIONS)
        tickets = {0: changes} if changes else {}
        whole = Held(changes, assigned.network.node_count, edges, tickets)
        if laid != assigned.text or held != whole:
            return None
        with self._laying("rb"):
            self.tell(f"{self.reading.path}: goes on behind change {changes} of {changes}")
            self._place(laid, changes)
        return held.holding()

    def _make_named(self, text: str, rows: str, node_count: int) -> Holding:
        """Makes a device with names beside it. Of two that do so at a time one is refused. Where none is made its names
        go again.
        """
        with self._laying() as file:
            with speaking_of(self._laid):
                file.truncate(0)
                file.write(text.encode())
                file.flush()
                os.fsync(file.fileno())
                sync_folder(self._laid)
            try:
                made = loaded(self._device(), rows, node_count)
            except FileExists:
                remove(self._laid)
                raise
            except BaseException:
                if not self.device.exists():
                    remove(self._laid)
                raise
            self._place(text, made.count)
        return made

    def _place(self, text: str, count: int) -> None:
        """Puts the names of a device that was made in their place, which ends its making. Their count is noted before."""
        if text != f"{NUMBERS}\n":
            write_count(self.device, count, names=text)
        put(self.device)

    @contextmanager
    def _laying(self, mode: Literal["ab", "rb"] = "ab") -> Iterator[BinaryIO]:
        """The file of names that are being laid, which nobody else lays meanwhile."""
        try:
            file = open(self._laid, mode)
        except OSError as error:
            raise FileUnusable(path=str(self.device)) from error
        with file:
            try:
                fcntl.flock(file, fcntl.LOCK_EX | fcntl.LOCK_NB)
                is_it = os.fstat(file.fileno()).st_ino == os.stat(self._laid).st_ino
            except (BlockingIOError, FileNotFoundError) as error:
                raise DeviceInUse(path=str(self.device)) from error
            if not is_it:
                raise DeviceInUse(path=str(self.device))
            yield file

    # ---- a device that is there

    def _bring(self) -> Holding:
        while True:
            held = held_by(self._device())
            most = self._nodes_of(held)
            network = Network(held.nodes, [(a, b, weight) for (a, b), weight in held.edges.items()])
            names = DeviceNames.read(self.device, network, held.count)
            target = Target.of_device(str(self.device), network, names, self.grows and self.node_count is None)
            target.nodes = most
            assigned = self._assigned(target)
            self.held = held
            judge(self.reading, assigned, held.edges, self.updates, MOST_EDGES)
            self.held = None
            changes = changes_of(operations_of(assigned.network.edges, held.edges if self.updates else {}))
            base = held.tickets.get(0, 0)
            if base + len(changes) > GREATEST_TICKET:
                raise WornOut(path=str(self.device))
            if self.grows:
                self._grow(held, self.node_count or assigned.network.node_count)
            # Names that stay as they are need not be written again.
            kept = text_at(self._laid if names.is_laid else self._names)
            text = None if assigned.text == kept else assigned.text
            digest = None if text is None else digest_of_text(text)
            begun = Begun(self.digest(), base, held.digest(), digest, changes)
            if not changes:
                self._tell_of(assigned)
                with locked(self.device, alone=True):
                    self._lay(names, text)
                    self._put(begun, held.count)
                return held.holding()
            with self._service() as service:
                if tickets_in(service) != held.tickets:
                    continue
                self._tell_of(assigned)
                self._lay(names, text)
                self._write(begun)
                return self._send(service, begun, held, 0)

    def _nodes_of(self, held: Held) -> int:
        """How many nodes the device has, or is to have where that is said."""
        if self.node_count is None:
            return held.nodes
        if self.node_count == held.nodes or self.grows and self.node_count > held.nodes:
            return self.node_count
        raise Refused(f"it has {held.nodes} nodes", path=str(self.device))

    def _grow(self, held: Held, node_count: int) -> None:
        """Makes the device larger. Who edits is kept out until the larger one is in its place."""
        if node_count <= held.nodes:
            return
        new = beside(self.device, ".grown")
        with locked(self.device, alone=False):
            remove(new)
            grown = self._device().grow(new, node_count)
            if (grown.count, grown.edges) != (held.count, len(held.edges)):
                remove(new)
                raise DeviceInUse(path=str(self.device))
            with speaking_of(self.device):
                os.rename(new, self.device)
                sync_folder(self.device)
        held.nodes = node_count

    def _go_on(self, begun: Begun) -> Holding:
        held = held_by(self._device())
        done = held.tickets.get(0, 0) - begun.base
        before = begun.undone(held.edges, done) if 0 <= done <= len(begun.changes) else None
        if before is None or digest_of(before) != begun.before or not self._has_names(begun):
            raise UnfinishedImport(CHANGED, path=str(self._begun))
        self.tell(f"{self.reading.path}: goes on behind change {done} of {len(begun.changes)}")
        if done == len(begun.changes):
            with locked(self.device, alone=True):
                self._put(begun, held.count)
            return held.holding()
        with self._service() as service:
            if tickets_in(service) != held.tickets:
                raise DeviceInUse(path=str(self.device))
            return self._send(service, begun, held, done)

    def _has_names(self, begun: Begun) -> bool:
        """Whether the names of an import that was begun are still laid, or in their place already."""
        texts = [text for text in (text_at(self._laid), text_at(self._names)) if text is not None]
        return begun.names is None or begun.names in map(digest_of_text, texts)

    @contextmanager
    def _service(self) -> Iterator[Service]:
        try:
            with Service(self.device, WORDS, editors=SESSIONS, programs=self.programs) as service:
                yield service
        except ServiceEnded as ended:
            if ended.fault is None:
                raise
            ended.fault.path = str(self.device)
            raise ended.fault from ended

    def _send(self, service: Service, begun: Begun, held: Held, done: int) -> Holding:
        """Makes the changes that are left, and puts the names in their place."""
        count, edges = held.count, len(held.edges)
        of = sum(map(len, begun.changes))
        came = sum(map(len, begun.changes[:done]))
        left = begun.changes[done:]
        words = ([str(op) for op in change] for change in left)
        for change, edited in zip(left, service.edits(words, session=0, ticket=begun.base + done + 1), strict=True):
            if edited.made is False:
                raise AnswerNotUnderstood(f"{self.device}: the change of ticket {edited.ticket} was refused")
            count = edited.count or count + 1
            edges += sum(1 for op in change if not op.before)
            came += len(change)
            self.came_to(came, of)
        self._put(begun, count)
        # Its tables are for nobody.
        service.end_at_once()
        return Holding(count, edges, held.nodes)

    # ---- what stands beside it

    def _lay(self, names: DeviceNames, text: str | None) -> None:
        settle(self.device, names)
        if text is not None:
            lay(self.device, text)

    def _write(self, begun: Begun) -> None:
        new = beside(self.device, ".import.new")
        with speaking_of(new):
            with open(new, "w", encoding="utf-8") as file:
                file.write(begun.text())
                file.flush()
                os.fsync(file.fileno())
            os.rename(new, self._begun)
            sync_folder(self._begun)

    def _put(self, begun: Begun, count: int) -> None:
        if begun.names is not None:
            if self._laid.exists():
                put(self.device)
            self._note(count)
        remove(self._begun)

    def _note(self, count: int) -> None:
        """Notes at which count names were written."""
        if text_at(self._names) != f"{NUMBERS}\n":
            write_count(self.device, count)


def tickets_in(service: Service) -> dict[int, int]:
    """The last tickets of a service's sessions, of those that have one."""
    asked = [service.send(f"resume {session}") for session in range(SESSIONS)]
    found = {}
    for session, answer in enumerate(asked):
        name, _, ticket = answer.result().rpartition(" ticket=")
        if name != f"session={session}":
            raise AnswerNotUnderstood(f"resume {session}: {answer.result()}")
        if ticket != "0":
            found[session] = int(ticket)
    return found


def loaded(device: Device, rows: str, node_count: int) -> Holding:
    """Makes a device of lines ``A B W``, whole or not at all.

    Raises
    ------
    FileExists
        The device is there already.
    """
    words = ["load", device.word, "/dev/stdin", "--nodes", str(node_count)]
    done = device.programs.run("tzlab", words, input=rows)
    if done.status:
        raise done.fault(str(device.path))
    found = dict(word.partition("=")[::2] for word in done.out.split())
    try:
        return Holding(int(found["count"]), int(found["edges"]), int(found["nodes"]))
    except (KeyError, ValueError) as error:
        raise AnswerNotUnderstood(f"tzlab load: {done.out.strip()}") from error


def digest_of_text(text: str) -> str:
    """The checksum of a text."""
    return hashlib.sha256(text.encode("utf-8", "surrogateescape")).hexdigest()
