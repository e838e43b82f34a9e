"""What takes long is done in a thread of its own, one thing after the other, while a page asks how far it is."""

from __future__ import annotations

import threading
from collections import OrderedDict
from collections.abc import Callable, Hashable
from typing import Any

from hizmorke.errors import HizmorkeError, Refused

# So many results are kept.
_MOST_KEPT = 12
# So many may wait to be made.
_MOST_WAITING = 8


class Job:
    """Something that is being made.

    Attributes
    ----------
    stage : str
        What it does now.
    """

    def __init__(self) -> None:
        self.stage = "waiting"
        self._measure: Callable[[], float] = lambda: 0.0
        self.result: Any = None
        self.error: BaseException | None = None
        self.is_done = threading.Event()

    def begin(self, stage: str, measure: Callable[[], float] = lambda: 0.0) -> None:
        """A stage begins.

        Parameters
        ----------
        stage : str
            What is done.
        measure : callable, optional
            How much of it is done, 0 to 1, whenever somebody asks.
        """
        self._measure = measure
        self.stage = stage

    def told(self) -> dict[str, Any]:
        """How far it is."""
        return {"ready": False, "stage": self.stage, "share": min(1.0, max(0.0, self._measure()))}


class Jobs:
    """Results by their keys, each made once.

    Parameters
    ----------
    most : int
        So many results are kept; the one that nobody asked for the longest goes.
    """

    def __init__(self, most: int = _MOST_KEPT) -> None:
        self._most = most
        self._lock = threading.Lock()
        self._wanted = threading.Condition(self._lock)
        self._jobs: OrderedDict[Hashable, Job] = OrderedDict()
        self._waiting: list[tuple[Job, Callable[[Job], Any]]] = []
        self._thread: threading.Thread | None = None
        self._is_closed = False

    def get(self, key: Hashable, make: Callable[[Job], Any]) -> Job:
        """The job of a key, begun where there is none.

        Parameters
        ----------
        key : hashable
            What is wanted.
        make : callable
            Makes it, and says to its job how far it is.

        Raises
        ------
        HizmorkeError
            It was made, and failed with this: told once, then it is made anew. Or too much was begun.
        """
        with self._lock:
            job = self._jobs.get(key)
            if job is None:
                if len(self._waiting) >= _MOST_WAITING:
                    raise Refused("so much was begun that nothing more is taken now")
                job = self._jobs[key] = Job()
                self._waiting.append((job, make))
                if self._thread is None:
                    self._thread = threading.Thread(target=self._run, name="hizmorke view jobs", daemon=True)
                    self._thread.start()
                self._wanted.notify()
            self._jobs.move_to_end(key)
            for old in [each for each, kept in self._jobs.items() if kept.is_done.is_set()][: -self._most]:
                del self._jobs[old]
            if job.is_done.is_set() and job.error is not None:
                del self._jobs[key]
                raise job.error
            return job

    def wait(self, key: Hashable, make: Callable[[Job], Any]) -> Any:
        """The result of a key, once it is there."""
        job = self.get(key, make)
        job.is_done.wait()
        if job.error is not None:
            with self._lock:
                self._jobs.pop(key, None)
            raise job.error
        return job.result

    def forget(self) -> None:
        """No result is kept, as what they were made of has changed."""
        with self._lock:
            for key in [each for each, job in self._jobs.items() if job.is_done.is_set()]:
                del self._jobs[key]

    def close(self) -> None:
        """Begins nothing more."""
        with self._lock:
            self._is_closed = True
            self._wanted.notify()

    def _run(self) -> None:
        while True:
            with self._lock:
                while not self._waiting and not self._is_closed:
                    self._wanted.wait()
                if self._is_closed:
                    return
                job, make = self._waiting.pop(0)
            try:
                job.begin("begun")
                job.result = make(job)
            except (HizmorkeError, OSError, MemoryError, ValueError) as error:
                job.error = error
            except BaseException as error:
                job.error = error
                raise
            finally:
                job.is_done.set()
