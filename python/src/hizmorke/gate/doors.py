"""The sockets that the gate listens on."""

from __future__ import annotations

import errno
import os
import socket
import stat
from contextlib import suppress
from typing import NamedTuple, Optional

from hizmorke.gate.bounds import BACKLOG, Ending, log


class Door(NamedTuple):
    """A socket that listens, whether it is for monitors, and the path that was made for it."""

    listener: socket.socket
    is_for_monitors: bool
    path: Optional[str]

    def close(self) -> None:
        """Whoever connects now is refused, or waits for the next gate where systemd listens too."""
        if self.path is not None:
            with suppress(FileNotFoundError):
                os.unlink(self.path)
        self.listener.close()


def unix_listener(path: str, mode: int) -> socket.socket:
    """A socket at this path. One that a gate which was killed left there is replaced.

    Raises
    ------
    Ending
        Where something else is there.
    """
    listener = socket.socket(socket.AF_UNIX)
    if os.path.lexists(path):
        if not stat.S_ISSOCK(os.lstat(path).st_mode):
            raise Ending(f"{path} is there already, and is no socket", 1)
        with socket.socket(socket.AF_UNIX) as other:
            other.setblocking(False)
            if other.connect_ex(path) != errno.ECONNREFUSED:
                raise Ending(f"{path}: another program listens there", 1)
        os.unlink(path)
    before = os.umask(0o777 & ~mode)
    try:
        listener.bind(path)
    finally:
        os.umask(before)
    return listener


def tcp_listener(port: int) -> socket.socket:
    """A socket of this machine alone."""
    listener = socket.socket(socket.AF_INET)
    listener.setsockopt(socket.SOL_SOCKET, socket.SO_REUSEADDR, 1)
    listener.bind(("127.0.0.1", port))
    return listener


def doors_of(path: Optional[str], mode: int, tcp: Optional[int], metrics: Optional[int], clients: int) -> list[Door]:
    """The sockets of systemd (from fd 3 on, where it names this process), or those that the words name.

    Parameters
    ----------
    path, mode
        Of a Unix socket.
    tcp, metrics
        Ports of 127.0.0.1, for clients and for monitors.
    clients
        So many may wait.

    Raises
    ------
    Ending
        Where there are none, or one can't be.
    OSError
        Where one can't be had.
    """
    count = os.environ.get("LISTEN_FDS", "")
    doors: list[Door] = []
    if os.environ.get("LISTEN_PID") == str(os.getpid()) and count.isdigit() and int(count) > 0:
        doors = [Door(socket.socket(fileno=3 + k), False, None) for k in range(int(count))]
    else:
        if path is not None:
            doors.append(Door(unix_listener(path, mode), False, path))
        if tcp is not None:
            doors.append(Door(tcp_listener(tcp), False, None))
        if not doors:
            raise Ending("nothing to listen on: --socket PATH, --tcp PORT, or a socket of systemd", 2)
        for door in doors:
            door.listener.listen(max(clients, BACKLOG))
    if metrics is not None:
        doors.append(Door(tcp_listener(metrics), True, None))
        doors[-1].listener.listen(BACKLOG)
    for name in ("LISTEN_FDS", "LISTEN_PID", "LISTEN_FDNAMES"):
        os.environ.pop(name, None)
    for door in doors:
        door.listener.setblocking(False)
        where = door.listener.getsockname()
        log(f"listens on {where if isinstance(where, str) else ':'.join(map(str, where))}")
    return doors
