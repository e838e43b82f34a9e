"""A live service: edits, routes, addresses and packets, from many threads, over its pipes or over a gate's socket.

A `Service` starts ``tznode serve DEVICE --words W --live`` and keeps it running; `Service.connect` talks to a gate
instead, which serves many clients. Both send lines and read one answer for each, in order, as docs/FORMATS.md has them.
Any threads may call at once: their lines go out one behind the other, and a thread of its own hands out the answers.

A service that has ended is started anew by the next call, and a connection that was lost is made anew. A question whose
answer was lost is asked again. An edit is sent again under the same ticket, so it is made once.
"""

from __future__ import annotations

import json
import os
import socket
import subprocess
import tempfile
import threading
import time
from abc import ABC, abstractmethod
from collections import deque
from collections.abc import Callable, Iterable, Iterator, Sequence
from concurrent.futures import Future
from contextlib import contextmanager
from dataclasses import dataclass
from pathlib import Path
from types import TracebackType
from typing import IO

from hizmorke.device import (
    GREATEST_TICKET,
    Operation,
    Route,
    TableFiles,
    Words,
    operation_text,
    pairs_of_text,
    route_of_text,
)
from hizmorke.errors import (
    AlreadyIn,
    AnswerNotUnderstood,
    ChangeRefused,
    DeviceInUse,
    GateBusy,
    HizmorkeError,
    LineNotUnderstood,
    NotYourSession,
    OldTicket,
    ServiceEnded,
    TokenRefused,
    WornOut,
    error_of_text,
)
from hizmorke.programs import Programs, fault_of
from hizmorke.tables import Address, Hop, Packet

IN_FLIGHT = 1_024
"""So many lines at most have been sent and not answered."""

# How often a call starts a service anew or connects anew before it gives up.
_TRIES = 8
# How long a service that has closed its answers may take to end, in seconds.
_ENDING = 10.0
# So much of a service's standard error is kept.
_SAID = 65_536


@dataclass(frozen=True)
class Edited:
    """What became of a change.

    Attributes
    ----------
    session, ticket : int
        The session and ticket of the change.
    made : bool or None
        Whether it was made. It is None where the answer was lost and a later change of the session was made: then this
        one was made or refused.
    count : int or None
        Its number, if it was made: how many changes were accepted with it. It is None where the answer was lost.
    refused : ChangeRefused or None
        Why it wasn't made. It is None where the answer was lost.
    """

    session: int
    ticket: int
    made: bool | None
    count: int | None = None
    refused: ChangeRefused | None = None


@dataclass(frozen=True)
class ServiceState:
    """How far a service is.

    Attributes
    ----------
    count : int
        How many changes were accepted.
    generation : int
        The newest tables have so many of them.
    queue : int
        How many changes wait.
    """

    count: int
    generation: int
    queue: int


class _Connection(ABC):
    """Lines out, and an answer for each, until it is lost or closed. It is never used again then."""

    def __init__(self) -> None:
        self._writing = threading.Lock()
        self._asked: deque[Future[str]] = deque()
        self._room = threading.BoundedSemaphore(IN_FLIGHT)
        self._lost: Callable[[], ServiceEnded] | None = None
        self._closing = False
        self.answers = 0
        self._reader = threading.Thread(target=self._read, name="hizmorke answers", daemon=True)

    @abstractmethod
    def _lines(self) -> IO[bytes]:
        """What is read."""

    @abstractmethod
    def _end_lines(self) -> None:
        """No more lines come."""

    @abstractmethod
    def _end(self) -> Callable[[], ServiceEnded]:
        """Ends all, so that a write that waits ends too, and says why no answers come any more."""

    @abstractmethod
    def _out(self) -> IO[bytes]:
        """What is written."""

    @property
    def is_lost(self) -> bool:
        return self._lost is not None

    def send(self, line: str) -> Future[str]:
        content = line.encode("utf-8", "surrogateescape") + b"\n"
        if content.count(b"\n") != 1:
            raise LineNotUnderstood()
        answer: Future[str] = Future()
        answer.set_running_or_notify_cancel()
        self._room.acquire()
        with self._writing:
            if self._lost is None and not self._closing:
                self._asked.append(answer)
                try:
                    # What an interrupt keeps back stands in the buffer, and goes out with the next line.
                    self._out().write(content)
                    self._out().flush()
                except OSError:
                    # What was sent may be answered still. Then the reader tells all that have no answer.
                    self._closing = True
                return answer
        self._room.release()
        if threading.current_thread() is not self._reader:
            # A write may fail before all answers are read. Who tries anew at once would come to this connection again.
            self._reader.join()
        raise ServiceEnded() if self._lost is None else self._lost()

    def ask(self, line: str) -> str:
        return self.send(line).result()

    def close(self) -> None:
        """No more lines: waits until those that were sent are answered, and the end is there."""
        with self._writing:
            self._closing = True
            try:
                self._end_lines()
            except OSError:
                pass
        self._reader.join()

    def _read(self) -> None:
        try:
            for content in self._lines():
                text = content[:-1].decode("utf-8", "surrogateescape")
                # A gate says so where the service ended before it answered; who wants to edit again says `hello` first.
                if content[-1:] != b"\n" or text.startswith("no answer: ") or not self._asked:
                    break
                self.answers += 1
                self._asked.popleft().set_result(text)
                self._room.release()
        except (OSError, ValueError):
            pass
        lost = self._end()
        with self._writing:
            self._lost = lost
            left = list(self._asked)
            self._asked.clear()
            try:
                self._out().close()
            except OSError:
                pass
        for answer in left:
            answer.set_exception(lost())
            self._room.release()


class _Pipes(_Connection):
    """A service that was started here."""

    def __init__(self, words: Sequence[str], path: str) -> None:
        super().__init__()
        self._path = path
        self._said = tempfile.TemporaryFile()
        # A session of its own keeps an interrupt from the keyboard away: it would lose answers.
        self._process = subprocess.Popen(
            words, stdin=subprocess.PIPE, stdout=subprocess.PIPE, stderr=self._said, start_new_session=True, bufsize=-1
        )
        self.process_id = self._process.pid
        self._reader.start()

    def terminate(self) -> None:
        self._process.terminate()

    def _out(self) -> IO[bytes]:
        assert self._process.stdin is not None
        return self._process.stdin

    def _lines(self) -> IO[bytes]:
        assert self._process.stdout is not None
        return self._process.stdout

    def _end_lines(self) -> None:
        self._out().close()

    def _end(self) -> Callable[[], ServiceEnded]:
        try:
            status = self._process.wait(_ENDING)
        except subprocess.TimeoutExpired:
            self._process.kill()
            status = self._process.wait()
        self._lines().close()
        self._said.seek(0)
        said = self._said.read(_SAID).decode("utf-8", "surrogateescape")
        self._said.close()
        if status == 0:
            return lambda: ServiceEnded(path=self._path, exit_status=0)
        fault = fault_of("tznode", status, said, self._path)
        text = f"{ServiceEnded.default_text}: {fault.whole_text}"
        known = None if isinstance(fault, AnswerNotUnderstood) else fault
        return lambda: ServiceEnded(text, path=self._path, exit_status=status, fault=known)


class _Socket(_Connection):
    """A gate's client."""

    def __init__(self, place: str | tuple[str, int], timeout: float) -> None:
        super().__init__()
        self._name = place if isinstance(place, str) else f"{place[0]}:{place[1]}"
        if isinstance(place, str):
            self._socket = socket.socket(socket.AF_UNIX, socket.SOCK_STREAM)
            try:
                self._socket.settimeout(timeout)
                self._socket.connect(place)
            except OSError:
                self._socket.close()
                raise
        else:
            self._socket = socket.create_connection(place, timeout)
            self._socket.setsockopt(socket.IPPROTO_TCP, socket.TCP_NODELAY, 1)
        self._socket.settimeout(None)
        self._to = self._socket.makefile("wb")
        self._from = self._socket.makefile("rb")
        self._reader.start()

    def _out(self) -> IO[bytes]:
        return self._to

    def _lines(self) -> IO[bytes]:
        return self._from

    def _end_lines(self) -> None:
        self._socket.shutdown(socket.SHUT_WR)

    def _end(self) -> Callable[[], ServiceEnded]:
        try:
            self._socket.shutdown(socket.SHUT_RDWR)
        except OSError:
            pass
        self._from.close()
        self._socket.close()
        return lambda: ServiceEnded("the connection was lost, or the service behind it has ended", path=self._name)


# Ticket, line and answer of each change that is in flight.
_Flight = deque[tuple[int, str, "Future[str]"]]


def _sent(connection: _Connection, line: str) -> Future[str]:
    """A line's answer. It is lost too if the line can't be sent."""
    try:
        return connection.send(line)
    except ServiceEnded as ended:
        lost: Future[str] = Future()
        lost.set_exception(ended)
        return lost


class _Sessions:
    """Sessions are held by one edit, or one row of edits, at a time."""

    def __init__(self) -> None:
        self._changed = threading.Condition()
        self._held: set[int] = set()
        # What `edit` takes where no session is named.
        self.free: Sequence[int] = ()
        # The last ticket of each, of those that were sent and those that the service knows.
        self.tickets: dict[int, int] = {}

    @contextmanager
    def hold(self, session: int | None) -> Iterator[int]:
        with self._changed:
            if session is None:
                if not self.free:
                    raise NotYourSession()
                while (found := next((each for each in self.free if each not in self._held), None)) is None:
                    self._changed.wait()
                session = found
            else:
                while session in self._held:
                    self._changed.wait()
            self._held.add(session)
        try:
            yield session
        finally:
            with self._changed:
                self._held.discard(session)
                self._changed.notify_all()


class Service:
    """A live service over a device.

    It holds the device's lock, so no other command has the device meanwhile. Leaving its ``with`` block, or `close`,
    ends it: it answers first what it was sent.

    Parameters
    ----------
    path : path
        The device's file.
    words : str or LandmarkWords
        Landmark words. Under ``draw:S`` each build of the tables takes the next numbers of the row.
    editors : int
        The number of sessions, 1 to 64.
    forwarders, queue, rounds : int, optional
        As docs/OPERATING.md has them.
    programs : Programs, optional
        Where the programs are.

    Raises
    ------
    DeviceInUse, NotFormatted, LayoutNotKnown, Damaged, DeviceFailed, FileUnusable, OutOfMemory
        The device can't be opened.
    WordsNotUnderstood, UsageNotUnderstood
        As their texts say.

    Examples
    --------
    >>> with Service("net", words="draw:7") as service:         # doctest: +SKIP
    ...     service.edit(["add:0:1:5", "add:1:2:5"])
    ...     service.wait()
    ...     service.route(0, 2).nodes
    (0, 1, 2)
    """

    def __init__(
        self,
        path: str | os.PathLike[str],
        words: Words,
        *,
        editors: int = 64,
        forwarders: int | None = None,
        queue: int | None = None,
        rounds: int | None = None,
        programs: Programs | None = None,
    ) -> None:
        device = os.path.abspath(path)
        call = [str((Programs() if programs is None else programs).path("tznode")), "serve", device, "--live"]
        call += ["--words", str(words), "--editors", str(editors)]
        for name, value in (("forwarders", forwarders), ("queue", queue), ("rounds", rounds)):
            if value is not None:
                call += [f"--{name}", str(value)]
        self._prepare(lambda: _Pipes(call, os.fspath(path)), is_gate=False)
        self._sessions.free = range(editors)
        try:
            self._live()
        except ServiceEnded as ended:
            raise (ended if ended.fault is None else ended.fault) from None

    @classmethod
    def connect(
        cls,
        address: str | os.PathLike[str] | tuple[str, int],
        name: str | None = None,
        *,
        token: str | None = None,
        timeout: float = 10.0,
    ) -> Service:
        """A client of a gate.

        Parameters
        ----------
        address : path or tuple
            The gate's Unix socket, or its host and port.
        name : str, optional
            The client's name, which holds a session. Without one it can't edit. Who connects last by a name holds its
            session, so each client has a name of its own.
        token : str, optional
            The gate's token, where it asks for one.
        timeout : float
            So many seconds a call tries to connect, at the start and after the connection was lost.

        Raises
        ------
        ServiceEnded
            There is no gate.
        NotAName, NameNotListed, NoSessionLeft, SessionCannotBeKept, TokenRefused, GateBusy
            As their texts say.
        """
        place: str | tuple[str, int] = address if isinstance(address, tuple) else os.fspath(address)
        service = cls.__new__(cls)
        service._prepare(lambda: _Socket(place, timeout), is_gate=True)
        service._name, service._token, service._timeout = name, token, timeout
        service._live()
        return service

    def _prepare(self, start: Callable[[], _Connection], is_gate: bool) -> None:
        self._start = start
        self._is_gate = is_gate
        self._name: str | None = None
        self._token: str | None = None
        self._timeout = 0.0
        self._sessions = _Sessions()
        self._starting = threading.Lock()
        self._connection: _Connection | None = None
        self._closed = False

    def __enter__(self) -> Service:
        return self

    def __exit__(
        self, kind: type[BaseException] | None, error: BaseException | None, trace: TracebackType | None
    ) -> None:
        if isinstance(error, KeyboardInterrupt):
            self.end_at_once()
        self.close()

    def close(self) -> None:
        """Ends the service, or the connection to the gate, once what was sent is answered.

        A build of tables that runs is waited for. A second call does nothing.
        """
        with self._starting:
            self._closed = True
            connection = self._connection
        if connection is not None:
            connection.close()

    def end_at_once(self) -> None:
        """Ends a service that was started here without its last tables. What was accepted is on the device."""
        if isinstance(self._connection, _Pipes):
            self._connection.terminate()

    @property
    def process_id(self) -> int | None:
        """The process of a service that was started here; it is another one after a restart."""
        return self._connection.process_id if isinstance(self._connection, _Pipes) else None

    @property
    def session(self) -> int | None:
        """The session of a gate's client with a name, else None."""
        return self._sessions.free[0] if self._is_gate and self._sessions.free else None

    # The connection.

    def _live(self) -> _Connection:
        """A connection that isn't lost as far as is known: the one that is there, or a new one."""
        with self._starting:
            if self._closed:
                raise ServiceEnded("the service was closed")
            if self._connection is not None and not self._connection.is_lost:
                return self._connection
            self._connection = self._new_gate() if self._is_gate else self._new_process()
            return self._connection

    def _new_process(self) -> _Connection:
        is_first, pause = self._connection is None, 0.05
        for tries in range(_TRIES):
            connection = self._start()
            try:
                # It answers this before it has tables, so what is wrong with the device shows here.
                connection.ask("resume 0")
                return connection
            except ServiceEnded as ended:
                # What is wrong with the device stays wrong. But another command may have taken the lock for a moment.
                passes = ended.fault is None or isinstance(ended.fault, DeviceInUse) and not is_first
                if not passes or tries == _TRIES - 1:
                    raise
            time.sleep(pause)
            pause *= 2
        raise AssertionError

    def _new_gate(self) -> _Connection:
        end = time.monotonic() + self._timeout
        pause = 0.02
        while True:
            try:
                connection = self._start()
            except OSError as error:
                if time.monotonic() + pause > end:
                    place = getattr(self._connection, "_name", None)
                    raise ServiceEnded(f"no gate can be reached: {error.strerror or error}", path=place) from error
            else:
                try:
                    self._greet(connection)
                    return connection
                except (ServiceEnded, GateBusy):
                    if time.monotonic() + pause > end:
                        raise
                except HizmorkeError:
                    connection.close()
                    raise
            time.sleep(pause)
            pause = min(1.0, 2 * pause)

    def _greet(self, connection: _Connection) -> None:
        if self._token is not None and connection.ask(f"token {self._token}") != "token taken":
            raise TokenRefused()
        if self._name is None:
            _numbers_of(connection.ask("resume 0"), "ticket")
            return
        answer = connection.ask(f"hello {self._name}")
        found = pairs_of_text(answer)
        if "session" not in found or "ticket" not in found:
            raise error_of_text(answer) or AnswerNotUnderstood(answer)
        session, before = found["session"], self.session
        if before not in (None, session):
            raise AnswerNotUnderstood(f"the name {self._name} had session {before}, and has {session} now")
        self._sessions.free = (session,)
        self._sessions.tickets[session] = max(found["ticket"], self._sessions.tickets.get(session, 0))

    # Lines.

    def send(self, line: str) -> Future[str]:
        """Sends a line, and doesn't wait for its answer.

        It waits where 1,024 lines have no answer. The line isn't sent again if the answer is lost.

        Parameters
        ----------
        line : str
            The line, without a line feed.

        Returns
        -------
        Future of str
            Its answer, as the service gives it; `ServiceEnded` where there is none.
        """
        return self._live().send(line)

    def ask(self, line: str) -> str:
        """The answer to a line, as the service gives it. The line isn't sent again if the answer is lost.

        Raises
        ------
        ServiceEnded
            There is no answer.
        """
        return self.send(line).result()

    def _asked(self, line: str) -> str:
        """The answer to a line that changes nothing, so that it may be asked again."""
        for tries in range(_TRIES):
            connection = self._live()
            try:
                return connection.ask(line)
            except ServiceEnded:
                if self._closed or tries == _TRIES - 1:
                    raise
        raise AssertionError

    def _numbers(self, line: str, *names: str, path: str | None = None) -> list[int]:
        return _numbers_of(self._asked(line), *names, path=path)

    # Edits.

    def edit(self, ops: Sequence[Operation], session: int | None = None, ticket: int | None = None) -> Edited:
        """Makes a change of 1 to 16 operations, whole or not at all, and once.

        If the service is lost before it answers, the change is sent again under the same ticket.

        Parameters
        ----------
        ops : sequence of str or tuple
            The operations: ``"add:0:1:5"`` or ``("add", 0, 1, 5)``.
        session : int, optional
            The session, else any that no other thread edits in, the smallest first. Calls in one session come one
            behind the other, those in several are committed together.
        ticket : int, optional
            The ticket, else the session's next one.

        Returns
        -------
        Edited
            Its number; None where the change was made and the answer was lost.

        Raises
        ------
        ChangeRefused
            An operation can't be made. The ticket is used up.
        AlreadyIn
            The session has used this ticket or a later one, before this call.
        OldTicket
            The session has sent a later ticket; nothing was made.
        OperationNotUnderstood, LineNotUnderstood, NoSession, NotYourSession, TicketTooLarge, WornOut
            As their texts say.
        ServiceEnded
            The service ended and can't be started again. The change was made whole, or not at all: ``session`` and
            ``ticket`` say under which ticket to send it again.
        """
        text = " ".join(map(operation_text, ops))
        with self._sessions.hold(session) as held:
            last = self._last_ticket(held)
            given = self._next_ticket(held) if ticket is None else ticket
            self._sessions.tickets[held] = max(last, given)
            lost = 0
            try:
                while True:
                    connection = self._live()
                    try:
                        answer = connection.ask(f"edit {held} {given} {text}")
                        break
                    except ServiceEnded:
                        lost += 1
                        if self._closed or lost == _TRIES:
                            raise
            except ServiceEnded as ended:
                raise _unanswered(ended, held, given) from None
            edited = _edited_of(answer, held, given)
            if edited.refused is not None:
                raise edited.refused
            if edited.made is False:
                raise OldTicket()
            # The ticket was new when it was sent first, so the change that it is used for is this one.
            if edited.made and edited.count is None and not (lost and given > last):
                raise AlreadyIn()
            return edited

    def edits(
        self,
        changes: Iterable[Sequence[Operation]],
        session: int | None = None,
        ticket: int | None = None,
        in_flight: int = 256,
    ) -> Iterator[Edited]:
        """Makes a row of changes in one session, in order, each once, with many in flight.

        A change that is refused is told, and the next ones are made. If the service is lost, those without an answer
        whose tickets are after the session's last one are sent again.

        Parameters
        ----------
        changes : iterable
            The operations of each change, as `edit` takes them.
        session : int, optional
            The session, else any that no other thread edits in. It is held until the row ends or its iterator is
            closed.
        ticket : int, optional
            The ticket of the first change, else the session's next one; the others have the tickets behind it.
        in_flight : int
            So many changes at most have no answer. With 1 it is always known whether a change was made.

        Yields
        ------
        Edited
            What became of each change, in order.

        Raises
        ------
        AlreadyIn
            The session had used a ticket of these or a later one before this call.
        OperationNotUnderstood, LineNotUnderstood, NoSession, NotYourSession, TicketTooLarge, WornOut
            As their texts say.
        ServiceEnded
            The service ended and can't be started again; ``session`` and ``ticket`` are those of the first change of
            which nothing is known.
        """
        row = iter(changes)
        with self._sessions.hold(session) as held:
            if ticket is not None and ticket <= self._last_ticket(held):
                raise AlreadyIn()
            given = (self._next_ticket(held) if ticket is None else ticket) - 1
            connection, flight = self._live(), _Flight()
            is_more, lost = True, 0
            while True:
                while is_more and len(flight) < max(1, min(in_flight, IN_FLIGHT)):
                    ops = next(row, None)
                    if ops is None:
                        is_more = False
                        break
                    given += 1
                    if given > GREATEST_TICKET:
                        raise WornOut()
                    self._sessions.tickets[held] = max(self._sessions.tickets.get(held, 0), given)
                    line = f"edit {held} {given} " + " ".join(map(operation_text, ops))
                    # On another connection it would use up the tickets of those before it, whose answers may be lost.
                    flight.append((given, line, _sent(connection, line)))
                if not flight:
                    return
                first, _, coming = flight[0]
                try:
                    answer = coming.result()
                except ServiceEnded as ended:
                    lost += 1
                    if self._closed or lost == _TRIES:
                        raise _unanswered(ended, held, first) from None
                    try:
                        connection = self._live()
                    except ServiceEnded as ended:
                        raise _unanswered(ended, held, first) from None
                    try:
                        # Over a gate this comes behind all edits that the session's holder had sent before.
                        last = _numbers_of(connection.ask(f"resume {held}"), "ticket")[0]
                    except ServiceEnded:
                        continue
                    settled = [each for each, _, _ in flight if each <= last]
                    flight = _Flight((each, line, _sent(connection, line)) for each, line, _ in flight if each > last)
                    for each in settled:
                        yield Edited(held, each, True if each == last else None)
                    continue
                lost = 0
                flight.popleft()
                edited = _edited_of(answer, held, first)
                # What was made before an answer was lost isn't sent again, so somebody else has used this ticket.
                if edited.made and edited.count is None:
                    raise AlreadyIn()
                yield edited

    def _last_ticket(self, session: int) -> int:
        """The last ticket of a session that this service or the one before has seen."""
        if session not in self._sessions.tickets:
            self._sessions.tickets[session] = self._numbers(f"resume {session}", "ticket")[0]
        return self._sessions.tickets[session]

    def _next_ticket(self, session: int) -> int:
        last = self._last_ticket(session)
        if last >= GREATEST_TICKET:
            raise WornOut()
        return last + 1

    def resume(self, session: int) -> int:
        """The last ticket of a session that a change was made under; 0 if it has none.

        Raises
        ------
        NoSession
            It isn't below the number of editors.
        """
        return self._numbers(f"resume {session}", "ticket")[0]

    # Routes and packets.

    def route(self, a: int, b: int) -> Route | None:
        """The way of a packet from node `a` to node `b`, by the newest tables; None where no way leads there.

        Raises
        ------
        NoNode
            A node isn't in the network.
        """
        return route_of_text(self._asked(f"route {a} {b}"))

    def routes(self, pairs: Iterable[tuple[int, int]]) -> list[Route | None]:
        """The ways of packets between so many pairs of nodes, many of them asked for at once.

        Parameters
        ----------
        pairs : iterable of tuple
            Senders and destinations.

        Returns
        -------
        list of Route or None
            A way for each pair, in order.

        Raises
        ------
        NoNode
            A node isn't in the network.
        """
        asked: deque[tuple[str, Future[str]]] = deque()
        found: list[Route | None] = []

        def take() -> None:
            line, coming = asked.popleft()
            try:
                answer = coming.result()
            except ServiceEnded:
                answer = self._asked(line)
            found.append(route_of_text(answer))

        for a, b in pairs:
            line = f"route {a} {b}"
            asked.append((line, _sent(self._live(), line)))
            if len(asked) >= IN_FLIGHT // 2:
                take()
        while asked:
            take()
        return found

    def address(self, node: int) -> Address:
        """A node's address in the newest generation.

        Raises
        ------
        NoNode
            The node isn't in the network.
        """
        front, _, digits = self._asked(f"address {node}").partition(" address=")
        if not digits:
            raise error_of_text(front) or AnswerNotUnderstood(front)
        return Address.from_hex(digits)

    def launch(self, node: int, address: bytes) -> Packet:
        """What a node sends to an address.

        Raises
        ------
        Unreachable, NoNode, GenerationGone
            It can't be sent.
        BadLength, BadFlag, BadCount, BadPadding
            It is no address.
        """
        front, _, digits = self._asked(f"launch {node} {address.hex()}").partition("packet=")
        if not digits:
            raise error_of_text(front) or AnswerNotUnderstood(front)
        return Packet.from_hex(digits)

    def hop(self, node: int, packet: bytes) -> Hop | None:
        """Where a packet goes from a node; None where it has arrived.

        Raises
        ------
        Stray, Spent, NoNode, GenerationGone
            It isn't carried on.
        BadLength, BadCount, BadPadding
            It is no packet.
        """
        answer = self._asked(f"hop {node} {packet.hex()}")
        if answer == "delivered":
            return None
        front, _, digits = answer.partition(" packet=")
        if not digits:
            raise error_of_text(answer) or AnswerNotUnderstood(answer)
        found = pairs_of_text(front)
        return Hop(found["port"], found["next"], Packet.from_hex(digits))

    # The service itself.

    def state(self) -> ServiceState:
        """How far the service is, once all that was sent before is answered."""
        return ServiceState(*self._numbers("state", "count", "generation", "queue"))

    def wait(self) -> int:
        """Waits until the tables have each change that was accepted by now.

        Returns
        -------
        int
            Their generation.
        """
        return self._numbers("wait", "generation")[0]

    def tables(self, folder: str | os.PathLike[str]) -> TableFiles:
        """Writes each node's newest table into a folder that is there.

        Parameters
        ----------
        folder : path
            The folder; over a gate one that doesn't begin with ``/`` begins in the gate's folder. A service takes no
            blank in it.

        Raises
        ------
        GenerationGone, TableFileUnwritable
            Some files weren't written.
        LineNotUnderstood
            There is a blank in it.
        """
        path = self._place(folder)
        return TableFiles(*self._numbers(f"tables {path}", "generation", "tables", "bytes", "greatest", path=path))

    def backup(self, file: str | os.PathLike[str]) -> int:
        """Makes a new device of the accepted changes and their tickets. Edits wait meanwhile.

        Parameters
        ----------
        file : path
            The new file. A service takes no blank in it.

        Returns
        -------
        int
            How many changes it has.

        Raises
        ------
        FileExists, FileUnusable, DeviceFailed, OutOfMemory
            It wasn't made.
        LineNotUnderstood
            There is a blank in it.
        ServiceEnded
            There is no answer. It isn't asked for again, as the file may be there.
        """
        path = self._place(file)
        return _numbers_of(self.ask(f"backup {path}"), "count", path=path)[0]

    def metrics(self) -> dict[str, int]:
        """Counts and times of the service, as docs/FORMATS.md lists them."""
        answer = self._asked("metrics")
        if not answer.startswith("{"):
            raise error_of_text(answer) or AnswerNotUnderstood(answer)
        told: dict[str, int] = json.loads(answer)
        return told

    def _place(self, path: str | os.PathLike[str]) -> str:
        return os.fspath(path) if self._is_gate else os.path.abspath(path)


def _numbers_of(answer: str, *names: str, path: str | None = None) -> list[int]:
    found = pairs_of_text(answer)
    if any(name not in found for name in names):
        raise error_of_text(answer, path) or AnswerNotUnderstood(answer)
    return [found[name] for name in names]


def _edited_of(answer: str, session: int, ticket: int) -> Edited:
    """What an answer to an edit says. `already in` is an edit that was made, without its number."""
    front = f"{session} {ticket} "
    if not answer.startswith(front):
        raise error_of_text(answer) or AnswerNotUnderstood(answer)
    said = answer[len(front):]
    if said.startswith("accepted count="):
        return Edited(session, ticket, True, int(said[15:]))
    if said == AlreadyIn.default_text:
        return Edited(session, ticket, True)
    if said == OldTicket.default_text:
        return Edited(session, ticket, False)
    error = error_of_text(said)
    if isinstance(error, ChangeRefused):
        return Edited(session, ticket, False, refused=error)
    raise error or AnswerNotUnderstood(answer)


def _unanswered(ended: ServiceEnded, session: int, ticket: int) -> ServiceEnded:
    return ServiceEnded(
        ended.text, path=ended.path, exit_status=ended.exit_status, fault=ended.fault, session=session, ticket=ticket
    )
