"""Networks whose routers run, for the tests of the fleet."""

from __future__ import annotations

import os
import random
import select
import signal
import socket
import subprocess
import time
from pathlib import Path

from hizmorke.device import Device
from hizmorke.fleet.counters import counters_of_text, read_counters
from hizmorke.fleet.wires import Wires
from hizmorke.network import Network
from hizmorke.programs import Programs
from hizmorke.tables import Table, read_tables

TOP = Path(__file__).resolve().parents[3]
# So long something may take, in seconds: this machine may do something else too.
PATIENCE = 240.0
NODES = 24
WORDS = "at:3,11,17"
Edges = list[tuple[int, int, int]]


class Net:
    """A network, its device, and folders of tables."""

    def __init__(self, room: Path, found: Programs, edges: Edges) -> None:
        self.room = room
        self.device = Device(room / "net", found)
        self.device.load(Network(NODES, edges))
        self.edges = edges

    def tables(self, name: str) -> list[Table]:
        """The tables of what the device holds now, put into a folder of this name."""
        folder = self.room / name
        folder.mkdir(exist_ok=True)
        self.device.tables(folder, WORDS)
        return read_tables(folder)


def free_row(count: int) -> int:
    """The first of so many UDP ports in a row that nobody has."""
    drawn = random.Random(os.getpid() + time.monotonic_ns())
    while True:
        first = drawn.randrange(20_000, 31_000)
        held = []
        try:
            for port in range(first, first + count):
                held.append(socket.socket(socket.AF_INET, socket.SOCK_DGRAM))
                held[-1].bind(("127.0.0.1", port))
            return first
        except OSError:
            continue
        finally:
            for each in held:
                each.close()


class Router:
    """A process of routers that runs, and has to end in order."""

    def __init__(self, program: Path, wires: Path, tables: Path, nodes: str) -> None:
        words = [program, "--nodes", nodes, "--wires", wires, "--tables", tables, "--metrics", "0"]
        self.counters_file = wires.with_suffix(".counters")
        self.process = subprocess.Popen(
            [*map(str, words), "--counters", str(self.counters_file)],
            stdout=subprocess.PIPE,
            stderr=subprocess.PIPE,
            text=True,
        )
        assert self.process.stdout is not None
        self.said = self.process.stdout.readline()
        assert "metrics=" in self.said, self.process.communicate()[1]
        self.port = int(self.said.rsplit("metrics=", 1)[1])

    def counters(self) -> dict[str, float]:
        return read_counters(self.port)

    def until(self, name: str, least: float, seconds: float = PATIENCE) -> dict[str, float]:
        """The counters, once this one is so large."""
        end = time.monotonic() + seconds
        while True:
            told = self.counters()
            if told.get(name, -1) >= least:
                return told
            assert time.monotonic() < end, (name, least, told)
            time.sleep(0.02)

    def end(self) -> str:
        """Ends it in order, and gives what it said on standard error."""
        self.process.send_signal(signal.SIGTERM)
        err = self.process.communicate(timeout=PATIENCE)[1]
        assert self.process.returncode == 0 and "Sanitizer" not in err and "runtime error" not in err, err
        assert counters_of_text(self.counters_file.read_text())["fleet_nodes"] > 0
        return err


class Wired:
    """A network whose routers run, in one process."""

    def __init__(self, program: Path, net: Net, folder: str = "tables") -> None:
        self.net = net
        self.tables = net.tables(folder)
        self.folder = net.room / folder
        self.path = net.room / "wires"
        self.wires = Wires.in_row(NODES, free_row(NODES))
        self.wires.write(self.path)
        self.router = Router(program, self.path, self.folder, f"0-{NODES - 1}")
        self.node_of = {wire.router: node for node, wire in self.wires.items()}
        self.host = socket.socket(socket.AF_INET, socket.SOCK_DGRAM)
        self.host.bind(("127.0.0.1", 0))
        self.host.setsockopt(socket.SOL_SOCKET, socket.SO_RCVBUF, 1 << 21)
        self.port: int = self.host.getsockname()[1]

    def send(self, node: int, datagram: bytes) -> None:
        self.host.sendto(datagram, self.wires[node].router)

    def heard(self, seconds: float = PATIENCE) -> tuple[bytes, int] | None:
        """What the host is given next, and by which node's router; None where nothing comes."""
        if not select.select([self.host], [], [], seconds)[0]:
            return None
        datagram, place = self.host.recvfrom(4_096)
        return datagram, self.node_of[place]
