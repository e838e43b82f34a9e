"""Lines, and words of the gate."""


from gate_test import GateTest


class TestWords(GateTest):
    def test_words_of_the_gate_and_lines_of_the_service(self):
        talk = self.talk(self.up())
        self.says(
            talk,
            ("edit 1 1 add:70:71:5", "not your session"),
            ("edit", "not your session"),
            ("hello north", "session=1 ticket=0"),
            ("edit 1 1 add:70:71:5", "1 1 accepted count=64"),
            ("edit 1 1 add:70:71:5", "1 1 already in"),
            ("edit 1 2 add:70:71:5", "1 2 refused op=0 code=4"),
            ("edit 1 2 add:71:72:5", "1 2 refused op=0 code=4"),
            ("resume 1", "session=1 ticket=1"),
            ("edit 1 - add:71:72:5", "1 3 accepted count=65"),
            ("edit 0 1 add:72:73:5", "not your session"),
            ("edit 2 1 add:72:73:5", "not your session"),
            ("edit 01 3 add:72:73:5", "not your session"),
            ("edit  1 3 add:72:73:5", "not your session"),
            ("edit 1 4611686018427387905 add:72:73:5", "ticket too large"),
            ("edit 1 " + "9" * 60_000 + " add:72:73:5", "ticket too large"),
            ("edit 1 4 x", "op not understood"),
            ("edit 1", "not understood"),
            ("hello", "not a name"),
            ("hello a b", "not a name"),
            ("hello " + "n" * 65, "not a name"),
            ("hello ä", "not a name"),
            ("Hello north", "not understood"),
            ("edit 1 4 add:72:73:5", "1 4 accepted count=66"),
            ("hello " + "n" * 64, "one name a connection"),
            ("hello north", "session=1 ticket=4"),
            ("edit 1 5 add:73:74:5", "1 5 accepted count=67"),
            ("resume 1", "session=1 ticket=5"),
            ("wait", "generation=67"),
            ("state", "count=67 generation=67 queue=0"),
            ("route 70 74", "generation=67 route 70 71 72 73 74 length 20"),
            ("route 70 75", "generation=67 unreachable"),
        )

    def test_bytes_that_are_no_text_and_lines_that_are_too_long(self):
        gate = self.up()
        talk, other = self.talk(gate), self.talk(gate)
        rows = [
            (b"", "not understood"),
            (b"\0", "not understood"),
            (b"state\0", "not understood"),
            (b"\xff\xfe" * 1_000, "not understood"),
            (b"\r", "not understood"),
            (b"hello \r", "not a name"),
            (b"state\r", "count=63 generation=63 queue=0"),
            (b"wait\r", "generation=63"),
            (b"x" * 65_536, "not understood"),
            (b"x" * 65_537, "line too long"),
            (b"x" * 65_537 + b"\r", "line too long"),
            (b"state\0" * 500_000, "line too long"),
            (b"edit " * 20_000, "line too long"),
            (b"route 0 1", "generation=63 route 0 1 length 1"),
        ]
        for line, answer in rows:
            # A half line of another client stands in no line's way.
            other.send(b"rou")
            assert talk.ask(line) == answer, line[:20]
            other.send(b"te 1 2\n")
            assert other.read() == "generation=63 route 1 2 length 2"
        assert gate.memory("VmHWM") < 60_000

    def test_half_lines(self):
        gate = self.up()
        talks = [self.talk(gate) for _ in range(20)]
        lines = [b"route %d %d\n" % (k, k + 1) for k in range(20)]
        # A byte of each client in turn.
        for place in range(max(map(len, lines))):
            for talk, line in zip(talks, lines):
                talk.send(line[place : place + 1])
        for k, talk in enumerate(talks):
            assert talk.read() == f"generation=63 route {k} {k + 1} length {k + 1}"
        # A line without its end is answered by the gate, and isn't passed on: this one would be an edit, and another one than was meant.
        half = self.talk(gate)
        self.says(half, ("hello half", "session=1 ticket=0"))
        half.send(b"edit 1 1 add:70:7")
        half.end()
        assert [half.read(), half.read()] == ["line not ended", None]
        long = self.talk(gate)
        long.send(b"x" * 70_000)
        long.end()
        assert [long.read(), long.read()] == ["line not ended", None]
        # What came whole before the end of the input is answered.
        ended = self.talk(gate)
        ended.send(b"hello half\nstate\nroute 0 2\n")
        ended.end()
        assert [ended.read() for _ in range(4)] == ["session=1 ticket=0", "count=63 generation=63 queue=0", "generation=63 route 0 1 2 length 3", None]
        assert gate.stop() == 0
        assert self.shown()[0] == "count=63 edges=63"

    def test_a_backup(self):
        gate = self.up()
        talk, other, file = self.talk(gate), self.talk(gate), self.folder / "backup"
        self.says(talk, ("hello one", "session=1 ticket=0"))
        # Its answer stands where its line does. A copy has all that was told before its line, and may have more: the change behind it too.
        talk.send(b"edit 1 1 add:70:71:1\nbackup %s\nedit 1 2 set:70:71:2\n" % bytes(file))
        first, copied, second = (talk.read() for _ in range(3))
        assert (first, second) == ("1 1 accepted count=64", "1 2 accepted count=65")
        assert copied in ("count=64", "count=65")
        made = int(copied.removeprefix("count="))
        self.says(other, (f"backup {file}", "file exists"), (f"backup {file}/none", "device file cannot be used"), ("backup", "not understood"), (f"backup {file}.2", "count=65"))
        for name, count in ((file, made), (f"{file}.2", 65)):
            weight = ticket = count - 63
            lines = self.programs.run("show", name).stdout.splitlines()
            assert (lines[0], lines[-1]) == (f"count={count} edges=64", f"70 71 {weight}")
            assert self.programs.run("resume", name, 1).stdout == f"session=1 ticket={ticket}\n"
