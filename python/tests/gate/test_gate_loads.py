"""Many clients, for long: where TZGATE_LOADS is set."""

import os
import time

import pytest
from gate_test import GateTest, for_long
from load import Deaf, Editor, Load, Reader, eventually, figure

CLIENTS, LINES = 500, 100_000
MINUTES = float(os.environ.get("TZGATE_MINUTES", "0"))


@for_long
class TestLoads(GateTest):
    def load(self, gate):
        load = Load(gate, self.device, self.programs)
        self.stack.callback(load.close)
        return load

    def ended(self, load, gate):
        """All is answered, the gate ends in order, and the device holds what the models hold."""
        load.finish()
        assert gate.stop() == 0, gate.log()[-2000:]
        load.judge_device()

    def test_five_hundred_clients(self):
        gate = self.up()
        load = self.load(gate)
        load.add(Editor, 62, 1)
        load.add(Deaf, 4, 2)
        load.add(Reader, CLIENTS - 66, 3)
        begun, memory = time.monotonic(), []
        events = [(LINES * k // 10, lambda: memory.append(gate.memory())) for k in range(1, 11)]
        events += [(LINES * k // 10 + 1_000, load.kill_service) for k in (3, 6)]
        events += [(LINES * k // 10 + 2_000, load.cut_some) for k in (2, 4, 6, 8)]
        load.run(LINES, events)
        seconds, restarts = time.monotonic() - begun, gate.log().count("the service is up") - 1
        load.finish()
        peak = gate.memory("VmHWM")
        self.ended(load, gate)
        figure(f"{CLIENTS} clients, {load.answered} lines in {time.monotonic() - begun:.1f} seconds ({LINES / seconds:.0f} a second)")
        figure(f"edits accepted {len(load.counts)}, made without an answer {sum(getattr(t, 'silent', 0) for t in load.talkers)}, already in {load.already}, refused before {load.refused_before}")
        figure(f"service killed {load.kills} times, lines without an answer {load.lost}; {load.cuts} connections cut, with {load.given_up} lines under way")
        figure(f"kilobytes of the gate at each tenth: {' '.join(map(str, memory))}; at most {peak}")
        assert restarts == 2
        assert load.lost > 0
        assert len(load.counts) > LINES // 100
        assert memory[-1] < memory[1] + 20_000

    def test_service_killed_again_and_again(self):
        gate = self.up()
        load = self.load(gate)
        load.add(Editor, 63, 4)
        load.add(Reader, 10, 5)
        load.run(10_000, [(1_000 * k, load.kill_service) for k in range(1, 9)])
        # Some kill has to come between a change and its answer.
        while not load.already and load.kills < 60:
            load.run(load.answered + 1_000, [(load.answered + 500, load.kill_service)])
        load.finish()
        files = gate.files()
        self.ended(load, gate)
        figure(f"service killed {load.kills} times: edits accepted {len(load.counts)}, made without an answer {sum(getattr(t, 'silent', 0) for t in load.talkers)}, already in {load.already}, refused before {load.refused_before}, lines without an answer {load.lost}")
        assert load.lost > 0
        assert load.already > 0
        # 73 clients, and some of the gate's own.
        assert files < 73 + 20

    def test_a_client_that_never_reads(self):
        gate = self.up()
        load = self.load(gate)
        load.add(Deaf, 10, 6)
        load.run(0)
        for _ in range(200):
            load.turn()
        eventually(lambda: all(t.out for t in load.talkers) or load.turn())
        before = gate.memory()
        talk = self.talk(gate)
        begun = time.monotonic()
        for _ in range(2_000):
            self.says(talk, ("route 0 1", "generation=63 route 0 1 length 1"))
        figure(f"beside 10 clients that read nothing: an answer in {(time.monotonic() - begun) / 2_000 * 1e6:.0f} microseconds, {gate.memory() - before} more kilobytes; {before} in all")
        assert gate.memory() < before + 4_000
        assert gate.memory() < 60_000
        # In the end they read all, in order.
        load.finish()
        figure(f"then they read {load.answered} answers")
        assert load.answered > 10 * 1_000
        assert gate.stop() == 0

    def test_memory_does_not_grow_with_lines(self):
        held = []
        for lines in (5_000, 50_000):
            gate = self.up()
            load = self.load(gate)
            load.add(Reader, 50, 7)
            load.run(lines)
            load.finish()
            held.append(gate.memory("VmHWM"))
            assert gate.stop() == 0
        figure(f"kilobytes of the gate at most, of 5,000 and of 50,000 lines: {held[0]} {held[1]}")
        assert held[1] < held[0] + 4_000

    @pytest.mark.skipif(not MINUTES, reason="gate-tests --long MINUTES runs it")
    def test_for_long(self):
        gate = self.up("--idle", 0)  # some clients read nothing to the end
        load = self.load(gate)
        load.add(Editor, 62, 8)
        load.add(Deaf, 4, 9)
        load.add(Reader, CLIENTS - 66, 10)
        begun, turns, memory = time.monotonic(), 0, []
        while time.monotonic() < begun + 60 * MINUTES:
            turns += 1
            lines = load.answered + 40_000
            load.run(lines, [(lines - 30_000, load.cut_some), (lines - 20_000, load.kill_service)])
            memory.append(gate.memory())
            figure(f"{(time.monotonic() - begun) / 60:.1f} minutes: {load.answered} lines, {load.kills} kills, {load.lost} without an answer, {len(load.counts)} accepted, {memory[-1]} kilobytes")
        self.ended(load, gate)
        assert memory[-1] < memory[0] + 40_000
