"""What the tests of the gate share: a device, gates that end with the test, and clients."""

import os
from contextlib import ExitStack

import pytest
from load import SOURCES, Programs, Running, Talk, a_device

CLEAN = {**os.environ, **SOURCES}
# A test that sends lines which only the stand-in knows.
needs_stand_in = pytest.mark.needs_stand_in
# One that takes long.
for_long = pytest.mark.skipif(not os.environ.get("TZGATE_LOADS"), reason="TZGATE_LOADS runs them")
# A limit by the clock says something only on a machine that does nothing else.
by_the_clock = pytest.mark.skipif(not os.environ.get("TZGATE_LOADS"), reason="a limit by the clock: TZGATE_LOADS runs it")
# On a machine that does other work all may take so many times as long, and that much less may be done in a time; else the limits are those that are promised.
LATE = int(os.environ.get("TZGATE_LATE", "1"))


class GateTest:
    programs: Programs

    @pytest.fixture(autouse=True)
    def stage(self, tmp_path_factory, gate_programs):
        # A short path, since a Unix socket's has at most 107 bytes.
        self.folder, self.programs = tmp_path_factory.mktemp("gate"), gate_programs
        with ExitStack() as self.stack:
            self.device = a_device(self.folder, self.programs)
            yield

    def running(self, *words, **more):
        return self.stack.enter_context(Running(self.folder, self.device, self.programs, *words, **more))

    def up(self, *words, **more):
        gate = self.running(*words, **more)
        gate.up()
        return gate

    def talk(self, gate):
        return self.stack.enter_context(Talk(gate if isinstance(gate, (tuple, str)) else gate.path))

    def says(self, talk, *rows):
        for line, answer in rows:
            assert talk.ask(line) == answer, line

    def ends(self, status, *words, text, device=None):
        """A gate that ends by itself, with this status and this text."""
        gate = self.stack.enter_context(Running(self.folder, device or self.device, self.programs, *words))
        assert gate.process.wait(300) == status, gate.log()
        assert text in gate.log()
        return gate

    def shown(self):
        """The lines of `show`, once no service runs."""
        return self.programs.run("show", self.device).stdout.splitlines()
