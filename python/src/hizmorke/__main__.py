"""The command ``hizmorke``, also as ``python3 -m hizmorke``."""

from __future__ import annotations

import os
import signal
import sys

# The status of a command that was interrupted, and of one whose output nobody reads any more, as a shell tells both.
ENDINGS = {130: signal.SIGINT, 141: signal.SIGPIPE}


def hold_streams() -> None:
    """Gives each standard stream that is closed ``/dev/null`` for reading: no file that is opened later gets its
    number, and a write to it fails. What is printed is UTF-8, and all of it is written, also where Python is told to
    keep no buffers: else it takes a part for the whole.
    """
    for number in range(3):
        try:
            os.fstat(number)
        except OSError:
            os.open(os.devnull, os.O_RDONLY)
    sys.stdout = open(1, "w", encoding="utf-8", errors="surrogateescape", closefd=False)
    sys.stderr = open(2, "w", buffering=1, encoding="utf-8", errors="backslashreplace", closefd=False)


def end_as_others(status: int) -> None:
    """Ends the process by the signal that the status stands for, so that whoever started it sees what happened."""
    if status in ENDINGS:
        signal.signal(ENDINGS[status], signal.SIG_DFL)
        os.kill(os.getpid(), ENDINGS[status])


def main() -> int:
    """Runs the command of the words that the program was called with.

    Returns
    -------
    int
        The exit status: 0 done, 1 the answer is no or a fault, 2 not understood.
    """
    try:
        hold_streams()
        try:
            import click  # noqa: F401
        except ImportError:
            print(f"hizmorke: the command needs click, which {sys.executable} has not", file=sys.stderr)
            return 2
        from hizmorke.cli import run

        status = run(sys.argv[1:])
    except KeyboardInterrupt:
        status = 130
    end_as_others(status)
    return status


if __name__ == "__main__":
    sys.exit(main())
