"""Where each node's router and host are: a plain file, a line a node.

A line is ``NODE HOST:PORT [HOST]``: the node, the IPv4 address and the UDP port of its router, and the address of the
host to which the router gives what has arrived; where that is left out, it is the router's. ``#`` begins a comment.
"""

from __future__ import annotations

import os
import re
from dataclasses import dataclass
from ipaddress import IPv4Address
from pathlib import Path

from hizmorke.errors import FileUnusable
from hizmorke.fleet.errors import NoWire, WiresNotUnderstood

MOST_NODE = 65_535
"""The greatest number of a node."""


def _number(text: str, most: int) -> int | None:
    """A plain number up to the most, without sign and leading zero; None where the text is none."""
    if not re.fullmatch("0|[1-9][0-9]{0,9}", text, re.ASCII):
        return None
    return int(text) if int(text) <= most else None


@dataclass(frozen=True)
class Wire:
    """Where a node is.

    Attributes
    ----------
    host : str
        The address of its router.
    port : int
        The port of its router.
    to : str
        The address of its host.
    """

    host: str
    port: int
    to: str

    @property
    def router(self) -> tuple[str, int]:
        """The router's place, as sockets take it."""
        return self.host, self.port


def wire_of_line(line: str) -> tuple[int, Wire] | None:
    """The node and the wire of a line, None where it is neither.

    Parameters
    ----------
    line : str
        The line, without comment and line feed.

    Examples
    --------
    >>> wire_of_line("3 127.0.0.1:7003")
    (3, Wire(host='127.0.0.1', port=7003, to='127.0.0.1'))
    >>> wire_of_line("3 localhost:7003") is None
    True
    """
    words = re.split("[ \t]+", line.strip(" \t"))
    if len(words) not in (2, 3):
        return None
    host, _, behind = words[1].rpartition(":")
    node, port = _number(words[0], MOST_NODE), _number(behind, 65_535)
    to = words[2] if len(words) == 3 else host
    try:
        IPv4Address(host), IPv4Address(to)
    except ValueError:
        return None
    return None if node is None or not port else (node, Wire(host, port, to))


class Wires(dict[int, Wire]):
    """The wires of nodes, by their numbers."""

    @classmethod
    def read(cls, path: str | os.PathLike[str]) -> Wires:
        """The wires of a file.

        Parameters
        ----------
        path : path
            The file.

        Raises
        ------
        FileUnusable
            It can't be read.
        WiresNotUnderstood
            A line of it isn't one.
        """
        wires = cls()
        try:
            lines = Path(path).read_text("utf-8").split("\n")
        except OSError as error:
            raise FileUnusable(error.strerror, path=os.fspath(path)) from error
        except ValueError:
            raise WiresNotUnderstood("it is no text", path=os.fspath(path)) from None
        for place, line in enumerate(lines, 1):
            text = re.split("[#\r]", line)[0].strip(" \t")
            if not text:
                continue
            found = wire_of_line(text)
            if found is None or found[0] in wires:
                raise WiresNotUnderstood(path=os.fspath(path), line=place)
            wires[found[0]] = found[1]
        return wires

    @classmethod
    def in_row(cls, nodes: int, first_port: int, host: str = "127.0.0.1") -> Wires:
        """Wires of one machine, where node k's router has the port `first_port` + k.

        Parameters
        ----------
        nodes : int
            How many nodes.
        first_port : int
            The port of node 0.
        host : str
            The machine's address.

        Raises
        ------
        WiresNotUnderstood
            That is no IPv4 address.
        """
        if wire_of_line(f"0 {host}:{first_port}") is None:
            raise WiresNotUnderstood(f"{host} is no IPv4 address")
        return cls({node: Wire(host, first_port + node, host) for node in range(nodes)})

    def write(self, path: str | os.PathLike[str]) -> None:
        """Writes them into a file, which is replaced whole.

        Parameters
        ----------
        path : path
            The file.
        """
        new = Path(f"{os.fspath(path)}.new")
        rows = []
        for node, wire in sorted(self.items()):
            host = "" if wire.to == wire.host else f" {wire.to}"
            rows.append(f"{node} {wire.host}:{wire.port}{host}\n")
        new.write_text("".join(rows), "utf-8")
        new.replace(os.fspath(path))

    def of(self, node: int) -> Wire:
        """The wire of a node.

        Raises
        ------
        NoWire
            It has none.
        """
        if node not in self:
            raise NoWire(f"node {node} has no wire")
        return self[node]
