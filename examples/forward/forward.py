#!/usr/bin/env python3
"""forward.py FOLDER FROM TO: carries a packet over the tables 0.table, 1.table, .. of FOLDER, and prints its way.
It prints that as `tznode route` does, without the length.
forward.py FOLDER ROUTES: takes the way of each line `FROM TO` and what `tznode route` prints of this pair, and compares the two.

It needs the package hizmorke (python/src in PYTHONPATH, or installed), which says where the library is looked for.
"""
from __future__ import annotations

import sys
from collections.abc import Sequence

from hizmorke.errors import HizmorkeError, Unreachable
from hizmorke.tables import Table, carry, read_tables


def way(tables: Sequence[Table], start: int, end: int) -> str:
    """A packet's way, as `tznode route` prints it, without the length."""
    generation = f"generation={tables[start].info.generation}"
    try:
        return f"{generation} route {' '.join(map(str, carry(tables, start, end)))}"
    except Unreachable:
        return f"{generation} unreachable"


def compare(tables: Sequence[Table], path: str) -> bool:
    """Prints the lines whose way is another one, and how many there are. A table has no weights, so the length isn't compared."""
    with open(path) as file:
        lines = [line.split(" length ")[0].rstrip("\n") for line in file]
    wrong = 0
    for line in lines:
        start, end, _ = line.split(" ", 2)
        found = f"{start} {end} {way(tables, int(start), int(end))}"
        if found != line:
            print(f"differs: {line}: {found}")
            wrong += 1
    print(f"ways={len(lines)} different={wrong}")
    return bool(lines) and not wrong


def main() -> int:
    """The program."""
    words = sys.argv[1:]
    if len(words) not in (2, 3) or len(words) == 3 and not all(word.isdecimal() for word in words[1:]):
        print("usage: forward.py FOLDER FROM TO, or forward.py FOLDER ROUTES", file=sys.stderr)
        return 2
    try:
        tables = read_tables(words[0])
        if len(words) == 2:
            return 0 if compare(tables, words[1]) else 1
        start, end = int(words[1]), int(words[2])
        if not max(start, end) < len(tables):
            print("forward.py: no node", file=sys.stderr)
            return 1
        print(way(tables, start, end))
        return 0
    except (HizmorkeError, OSError) as error:
        print(f"forward.py: {error}", file=sys.stderr)
        return 1


if __name__ == "__main__":
    sys.exit(main())
