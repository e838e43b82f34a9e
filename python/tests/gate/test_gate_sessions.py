"""Which name has which session."""

import time
from pathlib import Path

from gate_test import GateTest


class TestSessions(GateTest):
    def test_a_name_keeps_its_session(self):
        gate = self.up()
        first, second = self.talk(gate), self.talk(gate)
        self.says(first, ("hello one", "session=1 ticket=0"), ("edit 1 7 add:70:71:1", "1 7 accepted count=64"))
        self.says(second, ("hello two", "session=2 ticket=0"))
        kept = Path(self.device + ".sessions")
        assert kept.read_text() == "1 one\n2 two\n"
        # Whoever says hello last holds the session, and hears the tickets of who held it before.
        third = self.talk(gate)
        first.send(b"".join(b"edit 1 %d set:70:71:%d\n" % (k, k) for k in range(8, 108)))
        time.sleep(0.2)
        third.send(b"hello one\n")
        ticket = int(third.read().removeprefix("session=1 ticket="))
        answers = [first.read() for _ in range(100)]
        made = [a for a in answers if a != "not your session"]
        assert made == [f"1 {k} accepted count={57 + k}" for k in range(8, 8 + len(made))]
        assert ticket == 7 + len(made)
        self.says(first, ("edit 1 200 cut:70:71", "not your session"))
        self.says(third, ("edit 1 200 cut:70:71", f"1 200 accepted count={64 + len(made) + 1}"))
        # Also behind a restart of the gate, in order or not.
        assert gate.stop() == 0
        gate = self.up()
        self.says(self.talk(gate), ("hello three", "session=3 ticket=0"))
        self.says(self.talk(gate), ("hello one", "session=1 ticket=200"))
        gate.process.kill()
        gate.process.wait()
        gate = self.up()
        for name, answer in (("three", "session=3 ticket=0"), ("two", "session=2 ticket=0"), ("one", "session=1 ticket=200")):
            self.says(self.talk(gate), (f"hello {name}", answer))
        assert kept.read_text() == "1 one\n2 two\n3 three\n"

    def test_sixty_three_names(self):
        gate = self.up()
        for k in range(1, 64):
            talk = self.talk(gate)
            self.says(talk, (f"hello n{k}", f"session={k} ticket=0"))
        self.says(talk, ("edit 63 1 add:70:71:1", "63 1 accepted count=64"))
        talk = self.talk(gate)
        self.says(talk, ("hello other", "no session left"), ("hello n5", "session=5 ticket=0"))
        gate.stop()
        kept = Path(self.device + ".sessions")
        lines = kept.read_text().splitlines()
        assert lines == [f"{k} n{k}" for k in range(1, 64)]
        # A line that somebody takes out is a session for another name.
        kept.write_text("\n".join(lines[:62]) + "\n")
        gate = self.up()
        self.says(self.talk(gate), ("hello other", "session=63 ticket=1"))
        self.says(self.talk(gate), ("hello n63", "no session left"))

    def test_a_file_of_sessions_that_cannot_be_used(self):
        kept = Path(self.device + ".sessions")
        for text, row in (("0 a\n", 1), ("64 a\n", 1), ("1 a\nb\n", 2), ("1 a\n01 b\n", 2), ("1 a\n2 a\n", 2), ("1 a\n1 b\n", 2), ("1 a b\n", 1), ("\n", 1), ("1 \n", 1)):
            kept.write_text(text)
            self.ends(2, text=f"{kept}:{row}: ")
            assert not (self.folder / "gate").exists()
        kept.unlink()
        # Where it can't be written nobody gets a session.
        Path(f"{kept}.new").mkdir()
        gate = self.up()
        talk = self.talk(gate)
        self.says(talk, ("hello a", "session cannot be kept"), ("edit 1 1 add:70:71:1", "not your session"))
        Path(f"{kept}.new").rmdir()
        self.says(talk, ("hello b", "session=1 ticket=0"), ("edit 1 1 add:70:71:1", "1 1 accepted count=64"))

    def test_it_is_kept_before_it_is_answered(self):
        gate = self.up()
        kept = Path(self.device + ".sessions")
        for k in range(1, 30):
            talk = self.talk(gate)
            self.says(talk, (f"hello n{k}", f"session={k} ticket=0"))
            assert kept.read_text().splitlines()[-1] == f"{k} n{k}"
            gate.process.kill()
            gate.process.wait()
            gate = self.up()
