"""The sockets that the gate listens on."""

import fcntl
import os
import re
import resource
import shutil
import signal
import socket
import stat
import subprocess
import time
from contextlib import suppress
from pathlib import Path

import pytest
from gate_test import LATE, GateTest
from load import GATE, HERE, eventually


class TestListening(GateTest):
    def test_the_socket_file(self):
        gate = self.up()
        assert stat.S_IMODE(os.stat(gate.path).st_mode) == 0o600
        # Another gate doesn't take it away, nor one that was given a file.
        self.ends(1, text="another program listens there")
        self.says(self.talk(gate), ("route 0 1", "generation=63 route 0 1 length 1"))
        gate.process.kill()
        gate.process.wait()
        assert os.path.exists(gate.path)
        gate = self.up("--mode", "0660")
        assert stat.S_IMODE(os.stat(gate.path).st_mode) == 0o660
        self.says(self.talk(gate), ("route 0 1", "generation=63 route 0 1 length 1"))
        assert gate.stop() == 0
        assert not os.path.exists(gate.path)
        Path(gate.path).write_text("a file")
        self.ends(1, text="is no socket")
        assert Path(gate.path).read_text() == "a file"

    def test_loopback(self):
        gate = self.up("--tcp", "0")
        port = int(re.search(r"listens on 127\.0\.0\.1:(\d+)", gate.log())[1])
        talk, other = self.talk(("127.0.0.1", port)), self.talk(gate)
        self.says(talk, ("hello tcp", "session=1 ticket=0"), ("edit 1 1 add:70:71:1", "1 1 accepted count=64"))
        self.says(other, ("wait", "generation=64"), ("route 0 1", "generation=64 route 0 1 length 1"))
        talk.send(b"route 0 1\n" * 1_000)
        talk.end()
        assert [talk.read() for _ in range(1_001)] == ["generation=64 route 0 1 length 1"] * 1_000 + [None]

    def activated(self, sockets, *words):
        """A gate that is given these sockets as systemd gives them: from fd 3 on."""
        files = [fcntl.fcntl(one, fcntl.F_DUPFD, 100) for one in sockets]
        copies = "; ".join(f"exec {3 + k}<&{file} {file}<&-" for k, file in enumerate(files))
        shell = f'{copies}; LISTEN_PID=$$ LISTEN_FDS={len(files)} exec "$0" "$@"'
        gate = self.running(*words, listen=False, command=["bash", "-c", shell, *GATE], pass_fds=files)
        for file in files:
            os.close(file)
        gate.up()
        return gate

    def test_sockets_of_systemd(self):
        one, two = socket.socket(socket.AF_UNIX), socket.socket()
        self.stack.callback(one.close)
        self.stack.callback(two.close)
        one.bind(str(self.folder / "gate"))
        two.bind(("127.0.0.1", 0))
        one.listen(8)
        two.listen(8)
        gate = self.activated([one, two])
        talk = self.talk(two.getsockname())
        self.says(self.talk(gate), ("hello a", "session=1 ticket=0"))
        self.says(talk, ("hello b", "session=2 ticket=0"))
        assert "LISTEN" not in Path(f"/proc/{gate.service()}/environ").read_text()
        assert gate.stop() == 0
        # The file is systemd's, and who connects now waits for the next gate.
        waiting = self.talk(gate)
        waiting.send(b"hello b\n")
        self.activated([one])
        assert waiting.read() == "session=2 ticket=0"

    @pytest.mark.skipif(not shutil.which("systemd-socket-activate"), reason="no systemd-socket-activate")
    def test_by_socket_activate(self):
        path = str(self.folder / "gate")
        tool = ["systemd-socket-activate", "-l", path, "-E", "PATH", "-E", "PYTHONPATH", *GATE]
        gate = self.running(listen=False, command=tool)

        def connected():
            # The file is there a moment before anybody listens.
            with suppress(FileNotFoundError, ConnectionRefusedError):
                return self.talk(path)

        talk = eventually(connected)
        self.says(talk, ("hello a", "session=1 ticket=0"), ("edit 1 1 add:70:71:1", "1 1 accepted count=64"))
        assert gate.stop() == 0

    @pytest.mark.skipif(not shutil.which("systemd-analyze"), reason="no systemd-analyze")
    def test_units(self):
        # The units name programs and a user that aren't here: these words are put in their place.
        units = HERE.parents[2] / "examples/live"
        for name in ("tzgate.service", "tzgate.socket"):
            text = (units / name).read_text()
            text = text.replace("/usr/local/bin/hizmorke", "/bin/true").replace("/usr/local/bin/tznode", "/bin/true").replace("=tznode\n", "=root\n")
            (self.folder / name).write_text(text)
        ran = subprocess.run(["systemd-analyze", "verify", self.folder / "tzgate.service", self.folder / "tzgate.socket"], capture_output=True, text=True, timeout=300)
        said = [line for line in ran.stderr.splitlines() if "tzgate" in line]
        assert (ran.returncode, said) == (0, []), ran.stderr

    def gets_in(self, gate):
        """Whether a new client is taken. The gate may not know yet that another one has gone."""
        with suppress(BrokenPipeError, ConnectionResetError):
            return self.talk(gate).ask("route 0 1") == "generation=63 route 0 1 length 1"

    def test_so_many_clients_at_once(self):
        gate = self.up("--clients", "3")
        talks = [self.talk(gate) for _ in range(3)]
        for talk in talks:
            self.says(talk, ("route 0 1", "generation=63 route 0 1 length 1"))
        # The next one is told, at its first line or after a second, and may ask for figures.
        more, silent, asks = self.talk(gate), self.talk(gate), self.talk(gate)
        more.send(b"route 0 1\nroute 0 1\n")
        assert [more.read(), more.read()] == ["busy", None]
        assert asks.ask("metrics").startswith('{"answers": ') and asks.read() is None
        assert [silent.read(), silent.read()] == ["busy", None]
        talks[1].socket.close()
        eventually(lambda: self.gets_in(gate))

    def test_many_more_clients_than_places(self):
        gate = self.up("--clients", "1", "--metrics", "0")
        port = int(re.search(r"listens on 127\.0\.0\.1:(\d+)", gate.log())[1])
        talk = self.talk(gate)
        self.says(talk, ("route 0 1", "generation=63 route 0 1 length 1"))
        for one in [self.talk(gate) for _ in range(100)]:
            assert [one.read(), one.read()] == ["busy", None]
        many = [self.talk(gate) for _ in range(100)]
        begun = time.monotonic()
        with socket.create_connection(("127.0.0.1", port), 60) as one:
            one.sendall(b"GET /metrics HTTP/1.1\r\n\r\n")
            assert b"".join(iter(lambda: one.recv(65_536), b"")).startswith(b"HTTP/1.1 200 OK\r\n")
        assert time.monotonic() - begun < 0.5 * LATE
        self.says(talk, ("route 0 1", "generation=63 route 0 1 length 1"))
        assert len(many) == 100

    def test_so_few_files(self):
        def few():
            resource.setrlimit(resource.RLIMIT_NOFILE, (80, 80))

        gate = self.up("--metrics", "0", preexec_fn=few)
        talks = [self.talk(gate) for _ in range(16)]
        for talk in talks:
            self.says(talk, ("route 0 1", "generation=63 route 0 1 length 1"))
        more = [self.talk(gate) for _ in range(40)]
        assert [(one.read(), one.read()) for one in more] == [("busy", None)] * 40
        talks[0].socket.close()
        eventually(lambda: self.gets_in(gate))
        assert "no client can be taken" not in gate.log()

    def test_idle_clients(self):
        # A busy client's lines come in time also where the machine has other work.
        seconds = min(LATE, 3)
        gate = self.up("--idle", seconds)
        busy, idle, half, waits = (self.talk(gate) for _ in range(4))
        self.says(idle, ("hello idle", "session=1 ticket=0"))
        half.send(b"route 0")
        begun, pid = time.monotonic(), gate.service()
        while time.monotonic() < begun + 2 * seconds:
            self.says(busy, ("route 0 1", "generation=63 route 0 1 length 1"))
            time.sleep(0.1)
        assert [idle.read(), half.read()] == [None, None]
        # Who is owed an answer isn't idle.
        os.kill(pid, signal.SIGSTOP)
        waits.socket.close()
        waits = self.talk(gate)
        waits.send(b"route 0 1\n")
        waits.taken()
        time.sleep(2 * seconds)
        os.kill(pid, signal.SIGCONT)
        assert waits.read() == "generation=63 route 0 1 length 1"
        # Who doesn't read is, once what it read last is long ago.
        deaf = self.talk(gate)
        deaf.socket.setblocking(False)
        with suppress(BlockingIOError):
            while True:
                deaf.socket.send(b"route 0 63\n" * 1_000)
                time.sleep(0.01)
        eventually(lambda: gate.files() < 15)
        assert gate.stop() == 0

    def test_for_ever_idle(self):
        gate = self.up("--idle", "0")
        talk = self.talk(gate)
        time.sleep(1.5)
        self.says(talk, ("route 0 1", "generation=63 route 0 1 length 1"))
