"""The files that the gate waits for, each with what to do when something comes."""

from __future__ import annotations

import selectors
from typing import IO, Callable, Optional, Protocol, Union

READ, WRITE = selectors.EVENT_READ, selectors.EVENT_WRITE


class HasFileno(Protocol):
    """A socket or a pipe."""

    def fileno(self) -> int:
        """Its number."""
        ...


File = Union[HasFileno, IO[bytes]]


class Loop:
    """A selector whose entries are calls."""

    def __init__(self) -> None:
        self.selector = selectors.DefaultSelector()

    def watch(self, file: File, events: int, call: Optional[Callable[[], object]] = None) -> None:
        """Wait for these events of a file, or for none. The call is the one of its first events."""
        known = self.selector.get_map().get(file)
        if known is None and events:
            self.selector.register(file, events, call)
        elif known is not None and not events:
            self.selector.unregister(file)
        elif known is not None and known.events != events:
            self.selector.modify(file, events, call or known.data)

    def turn(self, seconds: float) -> None:
        """Wait at most so long, and make the calls of what has come."""
        for key, _ in self.selector.select(seconds):
            # One call may end what another one of the same round was for.
            if self.selector.get_map().get(key.fd) is key:
                key.data()
