"""Whose line goes next: one client's lines, and lines that take long, don't hold everybody up."""

import os
import re
import signal
import socket
import threading
import time

from gate_test import LATE, GateTest, by_the_clock, needs_stand_in
from load import PATH, eventually, figure


class Asking(threading.Thread):
    """Asks `state` again and again, and keeps how long each answer took."""

    def __init__(self, talk):
        super().__init__(daemon=True)
        self.talk, self.times, self.goes_on = talk, [], True

    def run(self):
        while self.goes_on:
            begun = time.monotonic()
            assert re.fullmatch(r"count=\d+ generation=\d+ queue=\d+", self.talk.ask("state"))
            self.times.append(time.monotonic() - begun)
            time.sleep(0.005)

    def end(self):
        self.goes_on = False
        self.join()
        return sorted(self.times)


class TestTurns(GateTest):
    def asking(self, gate):
        asking = Asking(self.talk(gate))
        asking.start()
        return asking

    def figures(self, port):
        with socket.create_connection(("127.0.0.1", port), 60) as one:
            one.sendall(b"GET /metrics HTTP/1.1\r\n\r\n")
            text = b"".join(iter(lambda: one.recv(65_536), b"")).decode().partition("\r\n\r\n")[2]
        return {name: float(value) for name, value in (row.rsplit(" ", 1) for row in text.splitlines() if not row.startswith("#"))}

    def monitored(self, *words):
        gate = self.up("--metrics", "0", *words)
        return gate, int(re.search(r"listens on 127\.0\.0\.1:(\d+)", gate.log())[1])

    @needs_stand_in
    def test_a_client_that_waits_holds_nobody_up(self):
        gate, port = self.monitored()
        talk, other = self.talk(gate), self.talk(gate)
        self.says(talk, ("hello one", "session=1 ticket=0"), ("lag 1000", "lag 1000"))
        asking, begun = self.asking(gate), time.monotonic()
        talk.send(b"edit 1 1 add:70:71:1\nwait\nroute 70 71\n" + b"wait\n" * 50)
        assert talk.read() == "1 1 accepted count=64"
        # Who comes later waits for what was accepted by then, and not for more.
        self.says(other, ("hello two", "session=2 ticket=0"), ("wait", "generation=64"))
        assert 0.9 < time.monotonic() - begun < 1 + LATE
        assert [talk.read(), talk.read()] == ["generation=64", "generation=64 route 70 71 length 1"]
        for _ in range(50):
            assert talk.read() == "generation=64"
        times = asking.end()
        figure(f"beside a client that waits for tables: {len(times)} answers, the longest after {1e3 * times[-1]:.0f} milliseconds")
        assert len(times) > 50 / LATE and times[-1] < 0.5 * LATE
        # One question serves all who wait: not many more than one in 50 milliseconds.
        assert self.figures(port)['tz_answers_total{kind="wait"}'] == 0
        assert self.figures(port)["tzgate_waits_total"] == 52

    @needs_stand_in
    def test_many_wait_for_tables_that_come_late(self):
        gate, port = self.monitored()
        talks = [self.talk(gate) for _ in range(40)]
        self.says(talks[0], ("hello one", "session=1 ticket=0"), ("lag 500", "lag 500"), ("edit 1 1 add:70:71:1", "1 1 accepted count=64"))
        before = self.figures(port)['tz_answers_total{kind="state"}']
        for talk in talks:
            talk.send(b"wait\n")
        eventually(lambda: self.figures(port)["tzgate_waiting"] == 40)
        assert [talk.read() for talk in talks] == ["generation=64"] * 40
        time.sleep(1.1)
        assert self.figures(port)['tz_answers_total{kind="state"}'] - before < 80

    def test_a_wait_behind_edits_has_them(self):
        gate = self.up()
        talk, other = self.talk(gate), self.talk(gate)
        self.says(talk, ("hello one", "session=1 ticket=0"))
        self.says(other, ("hello two", "session=2 ticket=0"))
        for k in range(1, 30):
            talk.send(b"edit 1 %d %s:70:71:%d\nwait\nroute 70 71\n" % (k, b"add" if k == 1 else b"set", k))
            other.send(b"edit 2 %d %s:80:81:%d\nwait\n" % (k, b"add" if k == 1 else b"set", k))
            count = int(re.fullmatch(rf"1 {k} accepted count=(\d+)", talk.read())[1])
            assert int(talk.read().removeprefix("generation=")) >= count
            generation, length = re.fullmatch(r"generation=(\d+) route 70 71 length (\d+)", talk.read()).groups()
            assert int(generation) >= count and int(length) == k
            count = int(re.fullmatch(rf"2 {k} accepted count=(\d+)", other.read())[1])
            assert int(other.read().removeprefix("generation=")) >= count

    def test_a_wait_under_way_at_the_end(self):
        gate = self.up()
        talk = self.talk(gate)
        self.says(talk, ("hello one", "session=1 ticket=0"))
        if not self.programs.is_real:
            self.says(talk, ("lag 1000", "lag 1000"))
        talk.send(b"edit 1 1 add:70:71:1\nwait\nstate\n")
        assert talk.read() == "1 1 accepted count=64"
        gate.process.send_signal(signal.SIGTERM)
        # What was taken is answered. A line behind it may have been taken or not.
        assert talk.read() == "generation=64"
        assert talk.read() in (None, "count=64 generation=64 queue=0")
        assert gate.process.wait(300) == 0
        assert "lines without an answer: 0" in gate.log()

    @needs_stand_in
    def test_a_wait_without_an_answer(self):
        gate = self.up()
        talk, other = self.talk(gate), self.talk(gate)
        self.says(talk, ("hello one", "session=1 ticket=0"), ("lag 60000", "lag 60000"), ("edit 1 1 add:70:71:1", "1 1 accepted count=64"))
        talk.send(b"wait\nroute 70 71\n")
        talk.taken()
        time.sleep(0.5)
        gate.kill_service()
        assert talk.read() == "no answer: 4"
        assert talk.read() == "generation=64 route 70 71 length 1"
        self.says(talk, ("edit 1 2 set:70:71:2", "not your session"), ("hello one", "session=1 ticket=1"), ("edit 1 2 set:70:71:2", "1 2 accepted count=65"))
        self.says(other, ("wait", "generation=65"))

    @needs_stand_in
    @by_the_clock
    def test_lines_that_hold_up_go_one_at_a_time(self):
        gate = self.up()
        talks = [self.talk(gate) for _ in range(4)]
        self.says(talks[0], ("slow 200", "slow 200"))
        asking, begun = self.asking(gate), time.monotonic()
        for k, talk in enumerate(talks):
            talk.send(b"tables %s\nbackup %s.%d\n" % (bytes(self.folder), bytes(self.folder / "backup"), k))
        for talk in talks:
            assert [talk.read(), talk.read()] == [f"generation=63 tables=640 bytes=1 greatest=1", "count=63"]
        seconds, times = time.monotonic() - begun, asking.end()
        # Eight lines of 0.2 seconds, and as much time between them.
        assert 8 * 0.2 + 7 * 0.2 <= seconds < 2 * (8 * 0.2 + 7 * 0.2)
        held = sum(t for t in times if t > 0.05)
        figure(f"beside 4 clients with lines that take 0.2 seconds: {len(times)} answers, half of them within {1e3 * times[len(times) // 2]:.1f} milliseconds, the longest after {1e3 * times[-1]:.0f}; held up for {100 * held / seconds:.0f} % of the time")
        assert times[-1] < 0.4 and held < 0.65 * seconds and len(times) > 50

    def test_sixteen_lines_of_a_client(self):
        gate, port = self.monitored()
        talk, other = self.talk(gate), self.talk(gate)
        self.says(other, ("state", "count=63 generation=63 queue=0"))
        assert self.figures(port)["tzgate_clients"] == 3
        pid = gate.service()
        os.kill(pid, signal.SIGSTOP)
        talk.send(b"route 0 1\n" * 3_000)
        other.send(b"route 0 2\n")
        eventually(lambda: self.figures(port)["tzgate_under_way"] >= 17)
        other.taken()
        time.sleep(0.3)
        # Those of two clients, and one of the gate's own.
        assert 17 <= self.figures(port)["tzgate_under_way"] <= 18
        os.kill(pid, signal.SIGCONT)
        assert other.read() == "generation=63 route 0 1 2 length 3"
        assert [talk.read() for _ in range(3_000)] == ["generation=63 route 0 1 length 1"] * 3_000

    @needs_stand_in
    @by_the_clock
    def test_figures_beside_a_line_that_takes_long(self):
        gate, port = self.monitored()
        talk, other, asks = self.talk(gate), self.talk(gate), self.talk(gate)
        self.says(talk, ("hello one", "session=1 ticket=0"), ("slow 2500", "slow 2500"))
        time.sleep(1.1)
        for k in range(1, 4):
            self.says(talk, (f"edit 1 {k} {'add' if k == 1 else 'set'}:70:71:{k}", f"1 {k} accepted count={PATH - 1 + k}"))
        talk.send(b"tables %s\n" % bytes(self.folder))
        time.sleep(0.2)
        other.send(b"state\n")
        sent, longest = time.monotonic(), 0.0
        while time.monotonic() < sent + 2:
            begun = time.monotonic()
            said = asks.ask("metrics")
            longest = max(longest, time.monotonic() - begun)
            # These are the figures from when the line was passed on.
            assert re.search(r'"accepted": 3, .*, "waiting": 0, "age_ms": (\d+)}$', said), said
            assert 0 <= int(said.rpartition(" ")[2][:-1]) / 1e3 - (begun - sent) < 1.3, said
            begun = time.monotonic()
            rows = self.figures(port)
            longest = max(longest, time.monotonic() - begun)
            assert rows['tz_answers_total{kind="accepted"}'] == 3 and rows["tzgate_under_way"] == 2
            assert -0.1 < rows["tzgate_figures_age_seconds"] - (begun - sent) < 1.3
        figure(f"figures beside a line that takes long: within {1e3 * longest:.0f} milliseconds")
        assert longest < 0.1
        assert other.read().startswith("count=66 ")
        assert talk.read().startswith("generation=66 tables=")

    @by_the_clock
    def test_figures_are_a_second_old_at_most(self):
        gate, port = self.monitored()
        talk, asks = self.talk(gate), self.talk(gate)
        self.says(talk, ("hello one", "session=1 ticket=0"))
        ages = []
        for k in range(1, 41):
            self.says(talk, (f"edit 1 {k} {'add' if k == 1 else 'set'}:70:71:{k}", f"1 {k} accepted count={PATH - 1 + k}"))
            ages.append(int(asks.ask("metrics").rpartition(" ")[2][:-1]))
            assert self.figures(port)["tzgate_figures_age_seconds"] <= 1.2
            time.sleep(0.05)
        assert max(ages) <= 1_200 and min(ages) < 200
        # And the service isn't asked more often than that.
        time.sleep(1.1)
        assert self.figures(port)['tz_answers_total{kind="metrics"}'] <= 8

    def test_figures_without_a_service(self):
        gate, port = self.monitored()
        talk, asks = self.talk(gate), self.talk(gate)
        self.says(talk, ("state", "count=63 generation=63 queue=0"))
        pid = gate.service()
        os.kill(pid, signal.SIGSTOP)
        talk.send(b"state\n")
        talk.taken()
        time.sleep(1.5)
        begun = time.monotonic()
        assert self.figures(port)["tz_changes"] == 63
        assert 1_000 < int(asks.ask("metrics").rpartition(" ")[2][:-1]) < 10_000 * LATE
        assert time.monotonic() - begun < 0.2 * LATE
        device = open(self.device, "rb")
        self.stack.callback(device.close)
        os.rename(self.device, self.device + ".away")
        os.kill(pid, signal.SIGKILL)
        gate.said("starts again in 0.4 seconds")
        begun = time.monotonic()
        rows = self.figures(port)
        assert time.monotonic() - begun < 0.1 * LATE
        assert (rows["tzgate_service_up"], rows["tz_changes"]) == (0, 63) and rows["tzgate_figures_age_seconds"] > 1
        os.rename(self.device + ".away", self.device)
        assert talk.read() == "no answer: 2"
        self.says(talk, ("state", "count=63 generation=63 queue=0"))
        assert self.figures(port)["tzgate_service_up"] == 1
