"""Which name has which session, which names may have one, and how one is given back."""

from __future__ import annotations

import fcntl
import os
import re
import time
from contextlib import contextmanager, suppress
from typing import Iterator, Optional

from hizmorke.gate.bounds import LOCK_SECONDS, NAME, SESSIONS, Ending, log

Seen = Optional[tuple[int, int, int]]


def seen_of(path: str) -> Seen:
    """What tells one state of a file from another one; None where it isn't there."""
    try:
        found = os.stat(path)
    except OSError:
        return None
    return found.st_ino, found.st_mtime_ns, found.st_size


def rows_of(path: str) -> dict[bytes, int]:
    """The names of a file of lines ``S NAME``, each with its session. A file that isn't there has none.

    Raises
    ------
    Ending
        Where a line is something else, or says a name or a session again.
    OSError
        Where the file can't be read.
    """
    try:
        with open(path, "rb") as file:
            lines = file.read().splitlines()
    except FileNotFoundError:
        return {}
    sessions: dict[bytes, int] = {}
    for number, line in enumerate(lines, 1):
        session, _, name = line.partition(b" ")
        if not (re.fullmatch(rb"[1-9][0-9]?", session) and int(session) < SESSIONS and NAME.fullmatch(name)):
            raise Ending(f"{path}:{number}: a line is a session from 1 to {SESSIONS - 1} and a name", 2)
        if name in sessions or int(session) in sessions.values():
            raise Ending(f"{path}:{number}: a name or a session that stands above", 2)
        sessions[name] = int(session)
    return sessions


def sync(folder: str) -> None:
    """What stands in a folder stays there after a power cut."""
    number = os.open(folder or ".", os.O_RDONLY)
    try:
        os.fsync(number)
    finally:
        os.close(number)


def put(path: str, sessions: dict[bytes, int]) -> None:
    """Put these names in the file's place: all or nothing, also after a power cut. Its owner and mode stay."""
    rows = sorted((session, name) for name, session in sessions.items())
    with open(path + ".new", "wb") as file:
        with suppress(OSError):
            before = os.stat(path)
            os.fchmod(file.fileno(), before.st_mode & 0o777)
            os.fchown(file.fileno(), before.st_uid, before.st_gid)
        file.write(b"".join(b"%d %s\n" % row for row in rows))
        file.flush()
        os.fsync(file.fileno())
    os.rename(path + ".new", path)
    sync(os.path.dirname(path))


@contextmanager
def locked(path: str) -> Iterator[None]:
    """Hold the lock under which the file is read and put anew: that of PATH.lock. Nobody else may open that, since who
    holds it keeps all others out; where root makes it, it belongs to the device's owner.

    Raises
    ------
    OSError
        Where it can't be had within a moment.
    """
    lock = os.open(path + ".lock", os.O_RDONLY | os.O_CREAT | os.O_CLOEXEC, 0o600)
    try:
        with suppress(OSError):
            owner = os.stat(path.removesuffix(".sessions"))
            os.fchown(lock, owner.st_uid, owner.st_gid)
        until = time.monotonic() + LOCK_SECONDS
        while True:
            try:
                fcntl.flock(lock, fcntl.LOCK_EX | fcntl.LOCK_NB)
                break
            except BlockingIOError:
                if time.monotonic() >= until:
                    raise
                time.sleep(0.005)
        yield
    finally:
        os.close(lock)


class Sessions:
    """The names of the file DEVICE.sessions, as it is now."""

    def __init__(self, device: str) -> None:
        self.path = device + ".sessions"
        self.seen = seen_of(self.path)
        self.of = rows_of(self.path)

    def refresh(self) -> bool:
        """Read the file again if another program has put it anew. Says whether it did."""
        seen = seen_of(self.path)
        if seen == self.seen:
            return False
        self.seen = seen
        try:
            self.of = rows_of(self.path)
        except (Ending, OSError) as e:
            log(f"{e}: the sessions stay as they were")
            return False
        return True

    def session_of(self, name: bytes) -> Optional[int]:
        """A name's session. A new name gets the lowest that is free, or None; it is in the file then.

        Raises
        ------
        OSError
            Where the file can't be put anew.
        Ending
            Where it can't be understood.
        """
        if name in self.of:
            return self.of[name]
        with locked(self.path):
            sessions = rows_of(self.path)
            session = sessions.get(name)
            if session is None:
                session = min(set(range(1, SESSIONS)) - set(sessions.values()), default=None)
                if session is None:
                    return None
                put(self.path, {**sessions, name: session})
            self.seen = seen_of(self.path)
            self.of = {**sessions, name: session}
        return session


def forget(device: str, name: bytes) -> int:
    """Give a name's session back, also while a gate runs, which sees it before it takes another line.

    Parameters
    ----------
    device
        The network's file.
    name
        The name.

    Returns
    -------
    int
        The session, which is free now.

    Raises
    ------
    Ending
        Where the name has none, or the file can't be understood or put anew.
    """
    path = device + ".sessions"
    try:
        if not os.path.exists(path):
            raise Ending(f"{path}: {name.decode(errors='replace')} has no session", 1)
        with locked(path):
            sessions = rows_of(path)
            session = sessions.pop(name, None)
            if session is None:
                raise Ending(f"{path}: {name.decode(errors='replace')} has no session", 1)
            put(path, sessions)
    except OSError as e:
        raise Ending(f"{path}: {e.strerror}", 1) from e
    return session


class Names:
    """The names that may have a session: a file of a name a line. What stands behind a ``#`` is nothing."""

    def __init__(self, path: str) -> None:
        self.path = path
        self.seen: Seen = None
        self.listed: set[bytes] = set()
        self.refresh()

    def refresh(self) -> None:
        """Read the file if it is another one than before.

        Raises
        ------
        Ending
            Where it can't be read, or a line is no name. It is read again the next time.
        """
        seen = seen_of(self.path)
        if seen is not None and seen == self.seen:
            return
        self.seen, listed = None, set()
        try:
            with open(self.path, "rb") as file:
                lines = file.read().splitlines()
        except OSError as e:
            raise Ending(f"{self.path}: {e.strerror}", 2) from e
        for number, line in enumerate(lines, 1):
            name = line.partition(b"#")[0].strip()
            if name and not NAME.fullmatch(name):
                raise Ending(f"{self.path}:{number}: a name has 1 to 64 letters, digits, _, . and -", 2)
            listed.add(name)
        self.seen, self.listed = seen, listed - {b""}
