"""The command ``hizmorke time``: what commands and the lines of a live service take, as one sees them from outside."""

from __future__ import annotations

import json as json_text
import os
import time
from collections.abc import Callable, Iterator
from contextlib import contextmanager
from pathlib import Path
from typing import Any

import click

from hizmorke.cli import SETTINGS, printed
from hizmorke.cli.words import flag, number_in, value
from hizmorke.device import Device
from hizmorke.errors import FileExists
from hizmorke.service import Service

# So many pairs are drawn for packets.
PAIRS = 1_000
# How often a group of changes is sent in a run.
GROUPS = 8


@click.command("time", context_settings=SETTINGS)
@click.argument("device", metavar="DEVICE")
@value("--words", "W", "The landmarks: none, at:2,5 or draw:7", needed=True)
@value("--runs", "R", "How often each is run; 5 where it is left out")
@flag("--json", "Print an object of JSON, at the end")
def time_all(device: str, words: str, runs: str | None, json: bool) -> int:
    """Time commands, and lines of a live service, and say on what machine.

    DEVICE.time is made beside the device, and removed. What is timed is what a caller waits for: a process from its
    start to its end, or a line to a service until its answer.
    """
    from hizmorke.cli.called import words_of_form

    count = number_in(runs, 1, 65_535, "runs is a number from 1 to 65535") or 5
    words_of_form(words)
    Times(device, words, count, json).run()
    return 0


class Times:
    """What is timed, and how it is told.

    Parameters
    ----------
    path : str
        The device's file.
    words : str
        The landmark words.
    runs : int
        How often each is run.
    is_json : bool
        Whether all is told at the end, as an object of JSON.
    """

    def __init__(self, path: str, words: str, runs: int, is_json: bool) -> None:
        self.path, self.words, self.runs, self.is_json = path, words, runs, is_json
        self.device = Device(path)
        self.nodes = self.device.info().nodes
        self.rows: list[dict[str, Any]] = []

    def run(self) -> None:
        """Times one thing after the other, and tells each as soon as it is known."""
        self.tell("resume", [self.took("resume", self.device.word, "0") for _ in range(self.runs)])
        self.time_builds()
        self.tell("route", [self.took("route", self.device.word, *pair, "--words", self.words) for pair in self.apart()])
        with Service(self.path, self.words) as service:
            self.time_packets(service)
        self.time_edits()
        self.end()

    def took(self, *words: str) -> int:
        """How many nanoseconds a command takes, from its start to its end."""
        begun = time.perf_counter_ns()
        done = self.device.programs.run("tznode", words)
        passed = time.perf_counter_ns() - begun
        # That no way leads there is an answer.
        if done.status and not (words[0] == "route" and done.out):
            raise done.fault(self.path)
        return passed

    def apart(self) -> Iterator[tuple[str, str]]:
        """Pairs of nodes that lie apart, one for each run."""
        step = max(1, self.nodes // self.runs)
        for number in range(self.runs):
            yield str(number * step % self.nodes), str((number * step + self.nodes // 2) % self.nodes)

    def time_builds(self) -> None:
        """All tables, built and checked by a command, and built by a service: on one processor, and on all."""
        widths = (1, len(os.sched_getaffinity(0)))
        for width in widths:
            with on_processors(width):
                took = [self.took("check", self.device.word, "--words", self.words) for _ in range(self.runs)]
            self.tell(f"check processors={width}", took)
        for width in widths:
            with on_processors(width):
                self.tell(f"first_tables processors={width}", [self.first_tables() for _ in range(self.runs)])

    def first_tables(self) -> int:
        """From the start of a service until its first tables are there."""
        begun = time.perf_counter_ns()
        with Service(self.path, self.words) as service:
            service.state()
            return time.perf_counter_ns() - begun

    def time_packets(self, service: Service) -> None:
        """A line `launch` and a line `hop`, each until its answer: means over drawn pairs, and their packets' steps."""
        from hizmorke.words import drawn_pairs

        service.wait()
        pairs = drawn_pairs(0, self.nodes, PAIRS) if self.nodes > 1 else [(0, 0)]
        addresses = {b: service.ask(f"address {b}").rpartition("=")[2] for b in {b for _, b in pairs}}
        packets: list[tuple[int, str]] = []

        def launch() -> int:
            packets.clear()
            for a, b in pairs:
                name, _, digits = service.ask(f"launch {a} {addresses[b]}").partition("=")
                if name == "packet":
                    packets.append((a, digits))
            return len(pairs)

        def hop() -> int:
            steps = 0
            for a, packet in packets:
                at, digits = str(a), packet
                while True:
                    steps += 1
                    words = service.ask(f"hop {at} {digits}").split(" ")
                    if len(words) != 3:
                        break
                    at, digits = words[1].removeprefix("next="), words[2].removeprefix("packet=")
            return steps

        self.tell("launch", [mean_of(launch) for _ in range(self.runs)])
        if packets:
            self.tell("hop", [mean_of(hop) for _ in range(self.runs)])

    def time_edits(self) -> None:
        """Lines `edit` to a service of two nodes, one in each session, until all are accepted."""
        scratch = Path(f"{self.path}.time")
        if scratch.exists():
            raise FileExists(path=str(scratch))
        try:
            Device(scratch).format(2)
            with Service(scratch, "none") as service:
                service.edit(["add:0:1:1"], session=0)
                for changes in (1, 64):
                    took = []
                    for _ in range(GROUPS * self.runs):
                        lines = [f"edit {session} - set:0:1:{1 + session}" for session in range(changes)]
                        begun = time.perf_counter_ns()
                        answers = [service.send(line) for line in lines]
                        for answer in answers:
                            answer.result()
                        took.append(time.perf_counter_ns() - begun)
                    self.tell(f"edit changes={changes}", took)
        finally:
            scratch.unlink(missing_ok=True)

    # ---- what is told

    def tell(self, what: str, took: list[int]) -> None:
        """Tells the least of these times and the median."""
        took.sort()
        row = {"what": what, "runs": len(took), "least": took[0], "median": took[len(took) // 2], "unit": "ns"}
        if self.is_json:
            self.rows.append(row)
        else:
            printed(f"{what} runs={len(took)} least={row['least']} median={row['median']} unit=ns\n")

    def end(self) -> None:
        """Tells on what machine it was timed, and all that isn't told yet."""
        threads, processor = len(os.sched_getaffinity(0)), processor_here()
        if self.is_json:
            whole = {"machine": {"threads": threads, "processor": processor}, "times": self.rows}
            printed(json_text.dumps(whole, ensure_ascii=False, separators=(",", ":")) + "\n")
        else:
            printed(f"machine threads={threads} processor={processor}\n")


def mean_of(what: Callable[[], int]) -> int:
    """How many nanoseconds a part takes, of those that a call has made."""
    begun = time.perf_counter_ns()
    parts = what()
    return (time.perf_counter_ns() - begun) // max(1, parts)


@contextmanager
def on_processors(count: int) -> Iterator[None]:
    """What is started here runs on so many processors."""
    before = os.sched_getaffinity(0)
    os.sched_setaffinity(0, sorted(before)[:count])
    try:
        yield
    finally:
        os.sched_setaffinity(0, before)


def processor_here() -> str:
    """What Linux calls the first processor, or `unknown`."""
    try:
        text = Path("/proc/cpuinfo").read_text(encoding="utf-8", errors="replace")
    except OSError:
        return "unknown"
    for line in text.splitlines():
        name, colon, said = line.partition(":")
        if colon and name.strip() == "model name":
            return said.strip()
    return "unknown"


COMMANDS = {"time": time_all}
