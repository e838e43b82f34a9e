"""What the gate keeps at most, how long it waits, and how it speaks and ends."""

from __future__ import annotations

import re
import sys
from contextlib import suppress

SESSIONS = 64  # editors of the service; session 0 stays for commands by hand
LONGEST_LINE = 65_536  # bytes of a line without its end, as the service has it
HIGHEST_TICKET = 2**62  # a session whose tickets have come to 2^63 - 1 stops the service
UNDER_WAY = 2_048  # lines that the service was given and hasn't answered: its window, and some for its pipe
BEHIND_THE_PIPE = 65_536  # bytes for the service that its pipe hasn't taken yet, where one more line is taken
ROOM = 262_144  # bytes of answers that a client is owed or hasn't read, where one more line is taken
SHORT = 256  # bytes of any answer but a route and what `metrics` tells
METRICS = 1_536  # bytes of that
UNANSWERED = 16  # lines of a client without an answer
TURN = 16  # lines of a client before it is another one's turn
CHUNK = 16_384  # bytes of a client at once
GUESTS = 16  # connections beyond all places, which may ask for figures
MONITORS = 16  # connections of `--metrics` at once
BACKLOG = 128  # connections that the gate hasn't seen yet
HEAD_LINES = 100  # lines of a request of HTTP

STOP_SECONDS = 30  # from the first signal to the end with status 1
STILL_SECONDS = 5  # at the end: for a client that doesn't read
LEAVE_SECONDS = 1  # for a client to end its side, once all is said
GUEST_SECONDS = 1  # for a guest to say what it wants
FIRST_SECONDS = 10  # for a token, where one is asked for, and for a monitor's request
FIGURES_SECONDS = 1.0  # so old may figures be that are told without asking the service
PATIENCE_SECONDS = 0.05  # so long whoever asks for figures waits for new ones
SHORTEST_PAUSE, LONGEST_PAUSE = 0.001, 0.05  # between two looks at the tables that clients wait for
SWEEP_SECONDS = 0.25  # between two looks for connections that are idle
LOCK_SECONDS = 0.2  # for the lock of DEVICE.sessions
# Before the service is started again: the waits grow until it has run for a while.
SHORTEST_WAIT, LONGEST_WAIT, CALM_SECONDS = 0.1, 10, 10

# Faults that are the same at the next start.
LASTING = {b"not formatted", b"damaged", b"layout not known", b"usage", b"words not understood"}

NAME = re.compile(rb"[A-Za-z0-9_.-]{1,64}")


class Ending(Exception):
    """The gate can't go on, or not begin.

    Parameters
    ----------
    text
        What it says.
    status
        Its exit status.
    """

    def __init__(self, text: str, status: int) -> None:
        super().__init__(text)
        self.text = text
        self.status = status


def log(text: str) -> None:
    """Say something to the operator. Standard error may be closed."""
    with suppress(OSError, ValueError):
        print(f"tzgate: {text}", file=sys.stderr, flush=True)
