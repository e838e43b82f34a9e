"""Services that end, clients that end, and lines without an answer."""

import fcntl
import os
import re
import signal
import socket
import subprocess
import sys
import threading
import time
from pathlib import Path

from gate_test import CLEAN, GateTest, needs_stand_in
from load import GATE, PATH, eventually, figure


class TestFaults(GateTest):
    def test_a_lasting_fault_is_the_end(self):
        assert self.programs.run("format", self.folder / "other", 5).returncode == 0
        Path(self.folder / "no").write_bytes(b"nothing")
        Path(self.folder / "older").write_bytes(b"TZNODE01" + b"\0" * 2_371_576)
        self.ends(1, text="tznode: not formatted", device=str(self.folder / "no"))
        self.ends(1, text="tznode: layout not known", device=str(self.folder / "older"))
        self.ends(2, "--words", "some", text="tznode: words not understood")
        self.ends(2, "--rounds", "0", text="tznode: usage")
        # A device that is cut; the stand-in's is one with an edge that is there already.
        broken, whole = Path(self.device), Path(self.device).read_bytes()
        broken.write_bytes(whole[:9_000] if self.programs.is_real else whole + b"1 1 add:0:1:1\n")
        self.ends(1, text="tznode: damaged")

    def test_words_of_its_own_command_line(self):
        for words, text in (((), "the following arguments are required"), (("d",), "--words"), (("d", "--words", "none"), "nothing to listen on"), (("d", "--words", "none", "--tcp", "x"), "invalid number value: 'x'"), (("d", "--words", "none", "--tcp", "65536"), "not from 0 to 65535")):
            ran = subprocess.run([*GATE, *words], capture_output=True, text=True, timeout=300, env=CLEAN)
            assert ran.returncode == 2, ran
            assert text in ran.stderr
        self.ends(1, "--program", "/nowhere/tznode", text="/nowhere/tznode: No such file")
        assert not (self.folder / "gate").exists()

    def test_a_fault_that_passes(self):
        gate = self.up()
        talk, idle = self.talk(gate), self.talk(gate)
        self.says(talk, ("hello one", "session=1 ticket=0"), ("edit 1 1 add:70:71:1", "1 1 accepted count=64"))
        self.says(idle, ("hello two", "session=2 ticket=0"))
        os.kill(gate.service(), signal.SIGKILL)
        gate.up(2)
        # Nothing of these two was lost, so they go on.
        self.says(talk, ("edit 1 2 add:71:72:1", "1 2 accepted count=65"))
        self.says(idle, ("edit 2 1 add:72:73:1", "2 1 accepted count=66"))
        assert "ended with signal 9; lines without an answer: 0" in gate.log()
        # While the device is held by another program the gate tries again, and takes no line. It is stopped until the program holds it.
        held = open(self.device, "rb")
        self.stack.callback(held.close)
        gate.process.send_signal(signal.SIGSTOP)
        gate.kill_service()
        fcntl.flock(held, fcntl.LOCK_EX)
        gate.process.send_signal(signal.SIGCONT)
        gate.said("the service has ended with signal 9", 2)
        talk.send(b"route 0 1\nedit 1 3 add:73:74:1\n")
        long = self.talk(gate)
        sender = threading.Thread(target=long.send, args=(b"x" * 300_000 + b"\n" + b"route 0 1\n" * 20_000,))
        sender.start()
        gate.said("device in use", 3)
        waits = [float(w) for w in re.findall(r"starts again in ([0-9.]+) seconds", gate.log())][1:4]
        assert waits == sorted(waits)
        assert waits[-1] > waits[0]
        held.close()
        assert re.search("^generation=6[0-9] route 0 1 length 1$", talk.read())
        assert talk.read() == "1 3 accepted count=67"
        assert long.read() == "line too long"
        for _ in range(20_000):
            assert re.search("^generation=6[0-9] route 0 1 length 1$", long.read())
        sender.join()
        assert gate.stop() == 0

    def test_what_has_no_answer(self):
        gate = self.up()
        talk, other = self.talk(gate), self.talk(gate)
        self.says(other, ("hello other", "session=1 ticket=0"))
        self.says(talk, ("hello one", "session=2 ticket=0"))
        # The service is stopped, so that it answers nothing; then it is killed.
        pid = gate.service()
        os.kill(pid, signal.SIGSTOP)
        talk.send(b"edit 2 1 add:70:71:1\nedit 9 1 add:70:71:1\nroute 0 1\nhello !\nedit 2 2 add:71:72:1\n")
        talk.taken()
        time.sleep(0.5)
        talk.send(b"x" * 300_000)  # and a line that isn't whole yet
        talk.taken()
        time.sleep(0.2)
        os.kill(pid, signal.SIGKILL)
        assert [talk.read() for _ in range(5)] == ["no answer: 2", "not your session", "no answer: 4", "not a name", "no answer: 6"]
        talk.send(b"\nedit 2 3 add:72:73:1\nroute 0 1\n")
        # A later ticket can't be used before the client knows what has no answer.
        assert [talk.read() for _ in range(2)] == ["line too long", "not your session"]
        assert talk.read() == "generation=63 route 0 1 length 1"
        self.says(talk, ("hello one", "session=2 ticket=0"), ("edit 2 1 add:70:71:1", "2 1 accepted count=64"), ("edit 2 1 add:70:71:1", "2 1 already in"))
        self.says(other, ("edit 1 1 add:74:75:1", "1 1 accepted count=65"))

    @needs_stand_in
    def test_an_answer_that_is_cut(self):
        gate = self.up()
        talk = self.talk(gate)
        talk.send(b"route 0 1\nhalf\n")
        assert [talk.read() for _ in range(2)] == ["generation=63 route 0 1 length 1", "no answer: 2"]
        self.says(talk, ("route 0 1", "generation=63 route 0 1 length 1"))

    @needs_stand_in
    def test_a_fault_between_lines(self):
        gate = self.up()
        talk = self.talk(gate)
        talk.send(b"route 0 1\nfault device failed\nroute 0 2\nstate\n")
        assert [talk.read() for _ in range(3)] == ["generation=63 route 0 1 length 1", "no answer: 2", "no answer: 3"]
        assert talk.read() in ("no answer: 4", "count=63 generation=63 queue=0")
        assert "device failed" in gate.log()
        gate.up(2)
        talk.send(b"route 0 1\nfault damaged\nroute 0 2\n")
        assert [talk.read() for _ in range(4)] == ["generation=63 route 0 1 length 1", "no answer: 6", "no answer: 7", None]
        assert gate.process.wait(300) == 1

    def test_answers_to_a_client_that_has_gone(self):
        gate = self.up()
        talk, gone = self.talk(gate), self.talk(gate)
        self.says(gone, ("hello gone", "session=1 ticket=0"))
        pid = gate.service()
        os.kill(pid, signal.SIGSTOP)
        talk.send(b"route 0 1\n")
        talk.taken()
        time.sleep(0.3)
        gone.send(b"edit 1 1 add:70:71:1\n" + b"edit 1 2 set:70:71:2\nroute 9 9\n" * 50)
        gone.taken()
        time.sleep(0.3)
        talk.send(b"route 0 2\nroute 0 3\n")
        talk.taken()
        time.sleep(0.3)
        gone.socket.close()
        time.sleep(0.3)
        os.kill(pid, signal.SIGCONT)
        for line in ("route 0 1 length 1", "route 0 1 2 length 3", "route 0 1 2 3 length 6"):
            assert re.search(f"^generation=6[0-9] {line}$", talk.read())
        # What it had sent whole is made.
        self.says(talk, ("hello gone", "session=1 ticket=2"))
        assert gate.stop() == 0
        assert "70 71 2" in self.shown()

    def test_a_client_that_is_killed(self):
        gate = self.up()
        # It sends edits under the tickets 1, 2, .. without end, and reads nothing.
        code = """
import socket, sys
s = socket.socket(socket.AF_UNIX)
s.connect(sys.argv[1])
s.sendall(b"hello victim\\nedit 1 1 add:70:71:1\\n")
k = 2
while True:
    s.sendall(b"edit 1 %d set:70:71:%d\\n" % (k, k))
    k += 1
"""
        other = self.talk(gate)
        for after in (0.1, 0.3, 0.5):
            before = int(self.talk(gate).ask("resume 1").rpartition("=")[2])
            victim = subprocess.Popen([sys.executable, "-c", code, gate.path])
            eventually(lambda: self.talk(gate).ask("resume 1") != f"session=1 ticket={before}" or before)
            time.sleep(after)
            victim.kill()
            victim.wait()
            assert re.search("^generation=[0-9]+ route 0 1 length 1$", other.ask("route 0 1"))
        heir = self.talk(gate)
        ticket = int(heir.ask("hello victim").removeprefix("session=1 ticket="))
        assert ticket > 0
        self.says(heir, (f"edit 1 {ticket} cut:70:71", f"1 {ticket} already in"))
        assert gate.stop() == 0
        # Each ticket up to the last one was made once, in order: the weight is the last one's.
        assert self.shown()[0] == f"count={PATH - 1 + ticket} edges={PATH}"
        assert f"70 71 {ticket}" in self.shown()
        figure(f"a client killed three times: {ticket} edits made, each once")
