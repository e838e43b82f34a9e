"""Tables are handed out: each node's into the folder where its router finds it."""

from __future__ import annotations

import os
import time
from collections.abc import Callable, Sequence
from dataclasses import dataclass
from pathlib import Path
from typing import Protocol

from hizmorke.device import TableFiles
from hizmorke.errors import GenerationGone
from hizmorke.fleet.counters import read_counters
from hizmorke.fleet.errors import CountersNotThere, TablesNotTaken
from hizmorke.service import ServiceState

READY = "generation"
"""The file of a folder that says which generation all routers have."""


class HasTables(Protocol):
    """What tables come from: a live service, or a client of its gate."""

    def state(self) -> ServiceState: ...

    def tables(self, folder: str | os.PathLike[str]) -> TableFiles: ...


@dataclass(frozen=True)
class HandedOut:
    """A generation that was handed out.

    Attributes
    ----------
    files : TableFiles
        Its number, how many tables, their bytes and those of the largest.
    written, taken : float
        The seconds until all files were there, and until the last router had its own. The second is None where no
        router was asked.
    """

    files: TableFiles
    written: float
    taken: float | None

    def line(self) -> str:
        """What `hizmorke fleet hand-out` prints of it."""
        taken = "" if self.taken is None else f" taken_ms={self.taken * 1e3:.0f}"
        files = self.files
        return (
            f"generation={files.generation} tables={files.tables} bytes={files.bytes} greatest={files.greatest}"
            f" written_ms={self.written * 1e3:.0f}{taken}"
        )


def wait_until_taken(routers: Sequence[int | str], generation: int, timeout: float = 30.0) -> None:
    """Waits until each router has a table of this generation or a newer one.

    Parameters
    ----------
    routers : sequence
        Where the router processes tell their counters: ports of this machine, or files.
    generation : int
        The generation.
    timeout : float
        After so many seconds it gives up.

    Raises
    ------
    TablesNotTaken
        One hasn't, or doesn't tell its counters.
    """
    end = time.monotonic() + timeout
    for place in routers:
        while True:
            try:
                told = read_counters(place, max(0.1, end - time.monotonic()))
            except CountersNotThere:
                told = {}
            lacks = told.get("fleet_nodes_without_table", 1)
            if lacks == 0 and told.get("fleet_generation_least", -1) >= generation:
                break
            if time.monotonic() > end:
                raise TablesNotTaken(path=str(place))
            time.sleep(0.01)


def say_ready(folder: str | os.PathLike[str], generation: int) -> None:
    """Puts into the folder which generation all routers have.

    Parameters
    ----------
    folder : path
        The folder.
    generation : int
        The generation.
    """
    new = Path(folder) / f"{READY}.new"
    new.write_text(f"{generation}\n", "ascii")
    new.replace(Path(folder) / READY)


def hand_out(
    source: Callable[[], TableFiles], folder: str | os.PathLike[str], routers: Sequence[int | str] = ()
) -> HandedOut:
    """Writes tables into a folder, and waits until the last router has its own.

    Parameters
    ----------
    source : callable
        It writes them, and says how many.
    folder : path
        The folder.
    routers : sequence
        Where the routers tell their counters; where there are none, nothing is waited for.

    Raises
    ------
    GenerationGone, TableFileUnwritable
        Not all were written.
    TablesNotTaken
        A router hasn't taken its own in time.
    """
    begun = time.monotonic()
    files = source()
    written = time.monotonic() - begun
    if routers:
        wait_until_taken(routers, files.generation)
        say_ready(folder, files.generation)
    return HandedOut(files, written, time.monotonic() - begun if routers else None)


class HandingOut:
    """Hands out a service's newest generation, again and again, one a second at most.

    Parameters
    ----------
    service : HasTables
        The service, or a client of its gate.
    folder : path
        Where the routers find their tables.
    routers : sequence
        Where the routers tell their counters.
    name : path, optional
        The folder as the service calls it, where that is another name: over a gate.
    every : float
        So many seconds at least are between the end of one and the next.
    """

    def __init__(
        self,
        service: HasTables,
        folder: str | os.PathLike[str],
        routers: Sequence[int | str] = (),
        name: str | os.PathLike[str] | None = None,
        every: float = 1.0,
    ) -> None:
        self.service = service
        self.folder = folder
        self.routers = routers
        self.name = folder if name is None else name
        self.every = every
        self.generation: int | None = None
        self._next = 0.0

    def step(self) -> HandedOut | None:
        """Hands out the newest generation, if there is one that wasn't, and its time has come; else None.

        Raises
        ------
        TableFileUnwritable
            A file can't be written.
        TablesNotTaken
            A router hasn't taken its own in time. The next step tries the newest generation then.
        """
        if time.monotonic() < self._next or self.service.state().generation == self.generation:
            return None
        try:
            done = hand_out(lambda: self.service.tables(self.name), self.folder, self.routers)
        except GenerationGone:
            # Four newer ones came meanwhile.
            return None
        finally:
            # From here on the files stay for so long: who reads all of them has that time.
            self._next = time.monotonic() + self.every
        self.generation = done.files.generation
        return done
