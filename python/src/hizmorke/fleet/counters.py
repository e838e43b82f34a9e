"""What routers tell: the text of their counters, over HTTP or from a file."""

from __future__ import annotations

import http.client
import os
import re
from collections import Counter
from pathlib import Path

from hizmorke.fleet.errors import CountersNotThere

_ROW = re.compile(r'([a-z_]+)(?:\{[a-z]+="([^"]*)"\})? ([0-9.]+)')


def counters_of_text(text: str) -> dict[str, float]:
    """The figures of a text of counters: a label stands behind its name and a dot.

    Parameters
    ----------
    text : str
        The text.

    Examples
    --------
    >>> counters_of_text('# TYPE a counter\\na 3\\nb{reason="stray"} 4\\n')
    {'a': 3.0, 'b.stray': 4.0}
    """
    found = {}
    for line in text.split("\n"):
        row = _ROW.fullmatch(line)
        if row:
            found[row[1] if row[2] is None else f"{row[1]}.{row[2]}"] = float(row[3])
    return found


def read_counters(place: str | int | os.PathLike[str], timeout: float = 5.0) -> dict[str, float]:
    """The counters of a router process.

    Parameters
    ----------
    place : int, str or path
        The port of this machine at which it tells them, or the file into which it puts them.
    timeout : float
        So many seconds are waited for an answer.

    Raises
    ------
    CountersNotThere
        They can't be read.
    """
    try:
        if not isinstance(place, int):
            return counters_of_text(Path(place).read_text("utf-8"))
        connection = http.client.HTTPConnection("127.0.0.1", place, timeout=timeout)
        try:
            connection.request("GET", "/metrics")
            return counters_of_text(connection.getresponse().read().decode("utf-8"))
        finally:
            connection.close()
    except (OSError, ValueError, http.client.HTTPException) as error:
        raise CountersNotThere(f"{CountersNotThere.default_text}: {error}", path=str(place)) from error


def sum_of(all_counters: list[dict[str, float]]) -> Counter[str]:
    """The sums of several processes' counters.

    Parameters
    ----------
    all_counters : list of dict
        What `read_counters` gave of each.
    """
    sums: Counter[str] = Counter()
    for each in all_counters:
        for name, value in each.items():
            sums[name] += value  # type: ignore[assignment]
    return sums
