"""How the gate ends."""

import os
import signal
import sys
import threading
import time
from contextlib import suppress

import pytest
from gate_test import GateTest, for_long
from load import GATE, PATH, figure, wait_gone


class TestEnds(GateTest):
    def test_stop_in_order(self):
        gate = self.up("--unanswered", 64)
        talks = [self.talk(gate) for _ in range(30)]
        for k, talk in enumerate(talks):
            self.says(talk, (f"hello n{k}", f"session={k + 1} ticket=0"))
        pid = gate.service()
        os.kill(pid, signal.SIGSTOP)
        # More bytes than the service's pipe takes, 65,536, and fewer than the gate keeps behind it.
        sent = 0
        for k, talk in enumerate(talks):
            node = PATH + 8 * k
            lines = [b"edit %d 1 add:%d:%d:1" % (k + 1, node, node + 1)] + [b"edit %d %d" % (k + 1, t) + b" set:%d:%d:%d" % (node, node + 1, t) * 10 for t in range(2, 21)]
            talk.send(b"\n".join(lines) + b"\n")
            sent += sum(map(len, lines)) + len(lines)
        assert 75_000 < sent < 110_000, sent
        for talk in talks:
            talk.taken()
        time.sleep(1)
        gate.process.send_signal(signal.SIGTERM)
        gate.said("a signal has come")
        assert not (self.folder / "gate").exists()
        os.kill(pid, signal.SIGCONT)
        counts = set()
        for k, talk in enumerate(talks):
            for t in range(1, 21):
                answer = talk.read()
                assert answer.startswith(f"{k + 1} {t} accepted count="), answer
                counts.add(answer.rpartition("=")[2])
            assert talk.read() is None
        assert gate.process.wait(300) == 0, gate.log()
        assert len(counts) == 600
        assert self.shown()[0] == "count=663 edges=93"
        assert "lines without an answer: 0" in gate.log()
        assert wait_gone(pid, 10)

    def test_stop_with_a_client_that_does_not_read(self):
        gate = self.up()
        deaf = self.talk(gate)
        deaf.socket.setblocking(False)
        lines = b"route 0 63\n" * 20_000
        try:
            while lines:
                lines = lines[deaf.socket.send(lines) :]
                time.sleep(0.01)
        except BlockingIOError:
            pass
        time.sleep(1)
        begun = time.monotonic()
        assert gate.stop() == 0, gate.log()
        figure(f"a stop with a client that doesn't read: {time.monotonic() - begun:.1f} seconds")
        assert time.monotonic() - begun < 20

    def test_stop_with_a_client_that_sends_on_and_does_not_read(self):
        gate = self.up()
        deaf = self.talk(gate)
        deaf.socket.setblocking(False)
        ended = threading.Event()

        def send_on():
            while not ended.is_set():
                try:
                    deaf.socket.send(b"route 0 63\n" * 1_000)
                except BlockingIOError:
                    time.sleep(0.01)
                except OSError:
                    return

        sender = threading.Thread(target=send_on)
        sender.start()
        try:
            time.sleep(1)
            begun = time.monotonic()
            assert gate.stop() == 0, gate.log()
            assert time.monotonic() - begun < 20
        finally:
            ended.set()
            sender.join()

    # A gate that waits two seconds for its clients once the service has ended.
    def test_stop_with_a_client_that_reads_slowly(self):
        shorter = "import sys; from hizmorke.gate import gate, main; gate.STOP_SECONDS = 2; sys.exit(main())"
        gate = self.up(command=[sys.executable, "-c", shorter])
        slow = self.talk(gate)
        slow.socket.setblocking(False)
        with suppress(BlockingIOError):
            for _ in range(200):
                slow.socket.send(b"route 0 63\n" * 100)
                time.sleep(0.01)
        time.sleep(0.5)
        gate.process.send_signal(signal.SIGTERM)
        begun = time.monotonic()
        while gate.process.poll() is None and time.monotonic() - begun < 20:
            with suppress(BlockingIOError):
                slow.socket.recv(1_000)
            time.sleep(0.1)
        assert gate.process.wait(1) == 0, gate.log()
        assert "has ended with status 0" in gate.log()

    def test_stop_without_clients_and_twice(self):
        def heeds():
            for number in (signal.SIGINT, signal.SIGHUP):
                signal.signal(number, signal.SIG_DFL)

        for number in (signal.SIGTERM, signal.SIGINT, signal.SIGHUP):
            gate = self.up(preexec_fn=heeds)
            gate.process.send_signal(number)
            assert gate.process.wait(300) == 0, gate.log()
        # As under nohup.
        gate = self.up(preexec_fn=lambda: signal.signal(signal.SIGHUP, signal.SIG_IGN))
        gate.process.send_signal(signal.SIGHUP)
        self.says(self.talk(gate), ("route 0 1", "generation=63 route 0 1 length 1"))
        gate.stop()
        gate = self.up()
        pid = gate.service()
        os.kill(pid, signal.SIGSTOP)
        gate.process.send_signal(signal.SIGTERM)
        gate.said("a signal has come")
        gate.process.send_signal(signal.SIGTERM)
        assert gate.process.wait(300) == 1, gate.log()
        os.kill(pid, signal.SIGCONT)
        # Its input has ended, so the service ends by itself.
        assert wait_gone(pid, 30)

    # The gate gives a service 30 seconds. What comes then is seen without them, too.
    @pytest.mark.parametrize("seconds", [2, pytest.param(30, marks=for_long)])
    def test_a_service_that_does_not_end(self, seconds):
        shorter = f"import sys; from hizmorke.gate import gate, main; gate.STOP_SECONDS = {seconds}; sys.exit(main())"
        gate = self.up(command=GATE if seconds == 30 else [sys.executable, "-c", shorter])
        talk = self.talk(gate)
        self.says(talk, ("hello n", "session=1 ticket=0"))
        pid = gate.service()
        os.kill(pid, signal.SIGSTOP)
        talk.send(b"edit 1 1 add:70:71:1\n")
        time.sleep(0.5)
        begun = time.monotonic()
        gate.process.send_signal(signal.SIGTERM)
        assert gate.process.wait(300) == 1, gate.log()
        assert seconds - 1 < time.monotonic() - begun < seconds + 30
        assert talk.read() is None
        os.kill(pid, signal.SIGCONT)
        assert wait_gone(pid, 30)
