"""What becomes of each line: an answer of the gate's own, or the service's."""

from __future__ import annotations

import hmac
import json
import os
import re
from typing import Callable, Optional, Sequence

from hizmorke.gate.bounds import HIGHEST_TICKET, LONGEST_LINE, METRICS, NAME, SHORT, Ending, log
from hizmorke.gate.connection import Connection, Kind
from hizmorke.gate.figures import Figures
from hizmorke.gate.pages import Request, Row, is_http, page_of
from hizmorke.gate.service import Service
from hizmorke.gate.sessions import Names, Sessions, sync
from hizmorke.gate.waits import Waits

PLAIN = re.compile(rb"[ -~]*")
FILE_NAME = re.compile(rb"[A-Za-z0-9_-][A-Za-z0-9_.-]{0,199}")
METRICS_LINES = (b"metrics\n", b"metrics\r\n")


class Rules:
    """What clients may do, as the words of the gate say.

    Parameters
    ----------
    token
        What each connection has to say first, if anything.
    backups, tables
        The folders that `backup` and `tables` write in. Without one they write anywhere, for clients of a Unix socket
        alone.
    names
        Who may have a session; None for everybody.
    """

    def __init__(
        self, token: Optional[bytes], backups: Optional[bytes], tables: Optional[bytes], names: Optional[Names]
    ) -> None:
        self.token = token
        self.names = names
        self.folders = {b"backup": backups, b"tables": tables}


def is_too_large(ticket: list[bytes]) -> bool:
    """Whether a line names a ticket that would use up all others."""
    return bool(ticket) and ticket[0].isdigit() and (len(ticket[0]) > 19 or int(ticket[0]) > HIGHEST_TICKET)


class Desk:
    """Takes lines.

    Parameters
    ----------
    rules
        What clients may do.
    sessions
        Which name has which session.
    service, figures, waits
        Who answers.
    rows_of_the_gate
        Gives the figures of the gate itself.
    touched
        Where clients are put that have news.
    """

    def __init__(
        self,
        rules: Rules,
        sessions: Sessions,
        service: Service,
        figures: Figures,
        waits: Waits,
        rows_of_the_gate: Callable[[], Sequence[Row]],
        touched: set[Connection],
    ) -> None:
        self.rules, self.sessions = rules, sessions
        self.service, self.figures, self.waits = service, figures, waits
        self.rows_of_the_gate, self.touched = rows_of_the_gate, touched
        self.holders: dict[int, Connection] = {}  # which client holds a session

    # What a line needs.

    def room_for(self, client: Connection) -> int:
        """The bytes that the answer to a client's next line may have."""
        if client.lines.startswith(b"route "):
            return self.service.longest_route
        return METRICS if client.kind is not Kind.CLIENT or client.lines.startswith(METRICS_LINES) else SHORT

    def may_be_own(self, client: Connection) -> bool:
        """Whether the gate may answer a client's next line without the service."""
        is_special = client.request or client.needs_token or client.kind is not Kind.CLIENT or client.is_new
        return bool(is_special) or client.lines.startswith(METRICS_LINES)

    def is_own(self, client: Connection, line: bytes) -> bool:
        """Whether the gate answers a line without the service, also while there is none."""
        if client.request or client.needs_token or client.kind is not Kind.CLIENT or line == b"metrics":
            return True
        is_plain = client.is_local or not client.passing and PLAIN.fullmatch(line)
        return client.is_new and (is_http(line) or not is_plain)

    def holds_up(self, client: Connection, line: bytes) -> bool:
        """Whether a line goes to the service and holds up all answers behind it."""
        writes = line.startswith((b"tables ", b"backup ")) and not client.passing
        return writes and self.place_of(client, line) is not None

    def place_of(self, client: Connection, line: bytes) -> Optional[bytes]:
        """The line `backup FILE` or `tables FOLDER` as it goes to the service; None where it isn't allowed."""
        word, _, place = line.partition(b" ")
        folder = self.rules.folders[word]
        if folder is None:
            return line if client.is_local else None
        return b"%s %s/%s" % (word, folder, place) if FILE_NAME.fullmatch(place) else None

    # Lines of any connection.

    def take(self, client: Connection, line: bytes, most: int, now: float) -> None:
        """Take a line, without its end. What is left of one that is too long is one too."""
        is_too_long, client.passing = client.passing or len(line) > LONGEST_LINE, False
        is_new, client.is_new = client.is_new, False
        self.touched.add(client)
        if client.request is not None:
            if client.request.is_whole(line):
                self.show(client, client.request, now)
        elif client.kind is Kind.MONITOR or is_new and not is_too_long and is_http(line):
            client.request = Request(line)
            if is_too_long or not is_http(line):
                self.show(client, client.request, now)
        elif is_new and not client.is_local and (is_too_long or not PLAIN.fullmatch(line)):
            # Some program takes the gate for something else: what comes behind is no line either.
            client.leave(now)
        elif client.needs_token:
            self.check(client, b"" if is_too_long else line, now)
        elif is_too_long:
            client.reply(b"line too long")
        elif line == b"metrics":
            self.tell_figures(client, now)
        elif client.kind is Kind.GUEST:
            client.reply(b"busy")
            client.leave(now)
        else:
            self.pass_on(client, line, most, now)

    def await_end(self, client: Connection, now: float) -> None:
        """Of a line that is too long nothing is kept. One that its client didn't end isn't passed on, since it may be
        half of one.
        """
        if client.lines and (client.passing or len(client.lines) > LONGEST_LINE):
            client.passing = True
            client.lines.clear()
            self.touched.add(client)  # it may have been too full to be read
        if client.ended and (client.passing or client.lines):
            client.passing = False
            client.lines.clear()
            if client.request or client.kind is Kind.MONITOR:
                client.leave(now)
            else:
                client.reply(b"line not ended")
            self.touched.add(client)

    def check(self, client: Connection, line: bytes, now: float) -> None:
        """The first line, where a token is asked for."""
        if hmac.compare_digest(line, b"token " + (self.rules.token or b"")):
            client.needs_token = False
            client.reply(b"token taken")
        else:
            client.reply(b"token refused")
            client.leave(now)

    def show(self, client: Connection, request: Request, now: float) -> None:
        """A request that is whole: it gets the page, or why not."""
        token = None if client.kind is Kind.MONITOR else self.rules.token
        refused = request.refusal(token)
        owed = client.owe(METRICS)
        if refused is not None:
            client.settle(owed, refused)
            return client.leave(now)

        def hear(told: Optional[dict[str, int]], age: float) -> None:
            if told is None:
                answer = request.answer("503 Service Unavailable", b"no figures yet\n")
            else:
                answer = request.answer("200 OK", page_of(told, age, self.rows_of_the_gate()))
            client.settle(owed, answer)
            self.touched.add(client)

        client.leave(now)
        self.figures.want(now, hear)

    def tell_figures(self, client: Connection, now: float) -> None:
        """The line `metrics`."""
        owed = client.owe(METRICS)

        def hear(told: Optional[dict[str, int]], age: float) -> None:
            answer = "no figures yet" if told is None else json.dumps({**told, "age_ms": round(1_000 * age)})
            client.settle(owed, answer.encode() + b"\n")
            self.touched.add(client)

        if client.kind is Kind.GUEST:
            client.leave(now)
        self.figures.want(now, hear)

    # Lines of clients.

    def pass_on(self, client: Connection, line: bytes, most: int, now: float) -> None:
        """A line of a client that may send lines."""
        words = line.split(b" ", 3)
        if words[0] == b"hello":
            self.hello(client, line[6:])
        elif words[0] == b"edit" and (client.session is None or words[1:2] != [b"%d" % client.session]):
            client.reply(b"not your session")
        elif words[0] == b"edit" and is_too_large(words[2:3]):
            client.reply(b"ticket too large")
        elif line == b"wait":
            self.waits.join(client, client.owe(SHORT))
        elif line.startswith((b"tables ", b"backup ")):
            self.write(client, line, now)
        else:
            self.ask(client, line, most)

    def ask(self, client: Connection, line: bytes, most: int, holds_up: bool = False) -> None:
        """The service answers this one."""
        owed = client.owe(most)

        def hear(answer: bytes, now: float) -> None:
            client.settle(owed, answer + b"\n")
            self.touched.add(client)

        self.service.ask(line, hear, client, holds_up)

    def write(self, client: Connection, line: bytes, now: float) -> None:
        """`backup FILE` and `tables FOLDER`. Figures are asked for before, and are told while nothing is answered."""
        place = self.place_of(client, line)
        word, _, path = (place or line).partition(b" ")
        if place is None:
            return client.reply(word + b" not allowed")
        if word == b"tables" and self.rules.folders[word] is not None:
            try:
                os.mkdir(path)
                sync(os.fsdecode(os.path.dirname(path)))
            except FileExistsError:
                pass
            except OSError as e:
                log(f"{os.fsdecode(path)}: {e.strerror}")
                return client.reply(b"table file cannot be written")
        self.figures.ask(now)
        self.ask(client, place, SHORT, holds_up=True)

    # Sessions.

    def hello(self, client: Connection, name: bytes) -> None:
        """A name's session goes to who says hello last. The answer is that of `resume`, which comes behind all edits of
        who held it before.
        """
        refused = self.refusal_of(client, name)
        if refused is not None:
            return client.reply(refused)
        try:
            session = self.sessions.session_of(name)
        except (OSError, Ending) as e:
            log(f"{self.sessions.path}: {e.strerror}" if isinstance(e, OSError) else e.text)
            return client.reply(b"session cannot be kept")
        if session is None:
            return client.reply(b"no session left")
        self.let_go(client)
        if session in self.holders:
            self.let_go(self.holders[session])
        client.name, client.session = name, session
        self.holders[session] = client
        self.ask(client, b"resume %d" % session, SHORT)

    def refusal_of(self, client: Connection, name: bytes) -> Optional[bytes]:
        """Why a connection can't have this name."""
        if not NAME.fullmatch(name):
            return b"not a name"
        if client.name not in (None, name):
            return b"one name a connection"
        names = self.rules.names
        if names is not None:
            try:
                names.refresh()
            except Ending as e:
                log(e.text)
                return b"names cannot be read"
            if name not in names.listed:
                return b"name not listed"
        return None

    def let_go(self, client: Connection) -> None:
        """A client holds its session no more."""
        if client.session is not None:
            del self.holders[client.session]
            client.session = None

    def refresh(self) -> None:
        """Somebody may have given a name's session back: who holds it loses it."""
        if self.sessions.refresh():
            for session, client in list(self.holders.items()):
                if client.name is None or self.sessions.of.get(client.name) != session:
                    self.let_go(client)
