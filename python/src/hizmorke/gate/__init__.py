"""Many clients of one ``tznode serve --live``: what ``hizmorke gate`` and ``python3 -m hizmorke.gate`` run.

``examples/live/README.md`` has what clients and the gate say to each other. The standard library is all that it needs.

One thread, one loop. A client's lines go to the service in turn with those of the others, and the service answers in
the order of all lines: so the gate keeps one queue of who asked (`service.Service.asked`), and each client one of what
it is owed (`connection.Connection.owed`). Everything that is kept has a bound.
"""

from __future__ import annotations

from typing import Optional, Sequence

__all__ = ["main"]


def main(argv: Optional[Sequence[str]] = None) -> int:
    """Run a gate until it ends.

    Parameters
    ----------
    argv
        The words behind ``hizmorke gate``; without them those of the process.

    Returns
    -------
    int
        The exit status: 0 in order, 1 after a fault, 2 where words or files of words can't be used.
    """
    from hizmorke.gate.command import run

    return run(argv)
