"""Who may do what: names, tokens, places to write, and what HTTP may ask for."""

import os
import re
import shutil
import socket
import stat
import subprocess
import time
from pathlib import Path

import pytest
from gate_test import CLEAN, LATE, GateTest
from load import GATE, eventually

ROUTE = ("route 0 1", "generation=63 route 0 1 length 1")


class TestNames(GateTest):
    def forget(self, name, device=None):
        return subprocess.run([*GATE, "--forget", name, device or self.device], capture_output=True, text=True, timeout=300, env=CLEAN)

    def test_one_name_a_connection(self):
        gate = self.up()
        talk, other = self.talk(gate), self.talk(gate)
        self.says(talk, ("hello one", "session=1 ticket=0"), ("hello two", "one name a connection"), ("hello !", "not a name"))
        self.says(talk, ("edit 1 1 add:70:71:1", "1 1 accepted count=64"))
        # Also where another connection has taken the session; and the name may be said again.
        self.says(other, ("hello one", "session=1 ticket=1"))
        self.says(talk, ("hello two", "one name a connection"), ("hello one", "session=1 ticket=1"), ("edit 1 2 set:70:71:2", "1 2 accepted count=65"))
        assert Path(self.device + ".sessions").read_text() == "1 one\n"

    def test_names_that_are_listed(self):
        names = self.folder / "names"
        names.write_text("# who edits\nnorth\n\n  south  # since May\n")
        gate = self.up("--names", names)
        self.says(self.talk(gate), ("hello north", "session=1 ticket=0"))
        talk = self.talk(gate)
        self.says(talk, ("hello since", "name not listed"), ("hello east", "name not listed"), ROUTE, ("edit 1 1 add:70:71:1", "not your session"))
        names.write_text("north\neast\n")
        self.says(talk, ("hello south", "name not listed"), ("hello east", "session=2 ticket=0"))
        names.write_text("north\nnot a name\n")
        self.says(self.talk(gate), ("hello north", "names cannot be read"))
        assert f"{names}:2: a name has 1 to 64" in gate.log()
        names.unlink()
        self.says(self.talk(gate), ("hello north", "names cannot be read"))
        names.write_text("north\n")
        self.says(self.talk(gate), ("hello north", "session=1 ticket=0"))
        assert gate.stop() == 0
        names.write_text("a b\n")
        self.ends(2, "--names", names, text=f"{names}:1: a name has 1 to 64")
        self.ends(2, "--names", self.folder / "none", text="none: No such file")
        assert not (self.folder / "gate").exists()

    def test_a_name_is_forgotten(self):
        gate, kept = self.up(), Path(self.device + ".sessions")
        one, two = self.talk(gate), self.talk(gate)
        self.says(one, ("hello one", "session=1 ticket=0"), ("edit 1 1 add:70:71:1", "1 1 accepted count=64"))
        self.says(two, ("hello two", "session=2 ticket=0"))
        os.chmod(kept, 0o640)
        ran = self.forget("one")
        assert (ran.returncode, ran.stdout, ran.stderr) == (0, "forgotten session=1\n", "")
        assert kept.read_text() == "2 two\n" and stat.S_IMODE(kept.stat().st_mode) == 0o640
        # Who had it is told, others go on, and the place is for another name. Its tickets stay.
        self.says(one, ("edit 1 2 set:70:71:2", "not your session"))
        self.says(two, ("edit 2 1 add:72:73:1", "2 1 accepted count=65"))
        three = self.talk(gate)
        self.says(three, ("hello three", "session=1 ticket=1"), ("edit 1 2 set:70:71:2", "1 2 accepted count=66"))
        self.says(one, ("edit 1 3 set:70:71:3", "not your session"), ("hello one", "session=3 ticket=0"))
        assert kept.read_text() == "1 three\n2 two\n3 one\n"
        for name, status, text in (("one", 0, ""), ("one", 1, "one has no session"), ("a b", 2, "--forget is given a name")):
            ran = self.forget(name)
            assert (ran.returncode, text in ran.stderr) == (status, True), ran
        assert gate.stop() == 0
        assert self.forget("two").stdout == "forgotten session=2\n"
        assert self.forget("x", self.folder / "none").returncode == 1
        kept.write_text("x\n")
        ran = self.forget("three")
        assert (ran.returncode, kept.read_text()) == (2, "x\n") and f"{kept}:1: " in ran.stderr

    def test_all_places_are_given_back(self):
        gate = self.up()
        for k in range(1, 64):
            self.says(self.talk(gate), (f"hello x{k}", f"session={k} ticket=0"))
        talk = self.talk(gate)
        self.says(talk, ("hello new", "no session left"))
        assert self.forget("x17").returncode == 0
        self.says(talk, ("hello new", "session=17 ticket=0"))

    def test_another_program_has_the_sessions(self):
        gate, kept = self.up(), Path(self.device + ".sessions")
        talk = self.talk(gate)
        self.says(talk, ("hello one", "session=1 ticket=0"))
        # Nothing is lost that another program put there meanwhile, and what can't be understood isn't put anew.
        kept.write_text("1 one\n2 two\n")
        self.says(self.talk(gate), ("hello three", "session=3 ticket=0"), ("hello three", "session=3 ticket=0"))
        assert kept.read_text() == "1 one\n2 two\n3 three\n"
        kept.write_text("1 one\nx\n")
        self.says(self.talk(gate), ("hello four", "session cannot be kept"))
        self.says(talk, ("edit 1 1 add:70:71:1", "1 1 accepted count=64"))
        assert kept.read_text() == "1 one\nx\n"
        assert f"{kept}:2: a line is a session" in gate.log()
        # Somebody holds the lock.
        kept.write_text("1 one\n")
        code = "import fcntl, sys, time; f = open(sys.argv[1]); fcntl.flock(f, fcntl.LOCK_EX); print('has', flush=True); time.sleep(300)"
        holder = subprocess.Popen(["python3", "-c", code, f"{kept}.lock"], stdout=subprocess.PIPE)
        self.stack.callback(holder.wait)
        self.stack.callback(holder.kill)
        assert holder.stdout.readline() == b"has\n"
        begun = time.monotonic()
        self.says(self.talk(gate), ("hello four", "session cannot be kept"))
        assert time.monotonic() - begun < LATE
        assert self.forget("one").returncode == 1


class TestTcp(GateTest):
    def port(self, gate):
        return int(eventually(lambda: re.findall(r"listens on 127\.0\.0\.1:(\d+)", gate.log()))[-1])

    def tcp(self, *words):
        gate = self.up("--tcp", "0", *words)
        return gate, self.port(gate)

    def sent(self, port, data):
        """All that is answered to these bytes."""
        with socket.create_connection(("127.0.0.1", port), 60) as one:
            one.sendall(data)
            return b"".join(iter(lambda: one.recv(65_536), b""))

    def page(self, port, request):
        head, _, text = self.sent(port, request).decode().partition("\r\n\r\n")
        if not request.startswith(b"HEAD"):
            assert f"\r\nContent-Length: {len(text)}\r\nConnection: close" in head
        return head.split("\r\n")[0], text

    def test_places_to_write(self):
        backups, tables = self.folder / "backups", self.folder / "tables"
        backups.mkdir()
        tables.mkdir()
        gate, port = self.tcp()
        assert "warning: without --token everybody on this machine is a client" in gate.log()
        local, far = self.talk(gate), self.talk(("127.0.0.1", port))
        self.says(far, ("state", "count=63 generation=63 queue=0"), (f"backup {backups}/far", "backup not allowed"), ("backup far", "backup not allowed"))
        self.says(far, (f"tables {tables}", "tables not allowed"), ("backup", "not understood"), ("tables", "not understood"))
        self.says(local, (f"backup {backups}/one", "count=63"), (f"backup {backups}/one", "file exists"))
        assert local.ask(f"tables {tables}").startswith("generation=63 tables=640 ")
        assert sorted(os.listdir(backups)) == ["one"]
        assert gate.stop() == 0
        gate, port = self.tcp("--backups", backups, "--tables", tables)
        for talk, name in ((self.talk(gate), "local"), (self.talk(("127.0.0.1", port)), "far")):
            self.says(talk, ("state", "count=63 generation=63 queue=0"), (f"backup {name}", "count=63"), (f"backup {name}", "file exists"))
            for place in (f"{backups}/more", "../more", ".", "..", ".more", "a/b", "/", "", "a b", "ä", "n" * 201, str(self.device)):
                self.says(talk, (f"backup {place}", "backup not allowed"), (f"tables {place}", "tables not allowed"))
            assert talk.ask(f"tables {name}").startswith("generation=63 tables=640 ")
            assert (tables / name / "0.table").exists()
        (tables / "file").write_text("x")
        self.says(talk, ("tables file", "table file cannot be written"))
        assert sorted(os.listdir(backups)) == ["far", "local", "one"]
        assert self.programs.run("show", backups / "far").stdout.startswith("count=63 edges=63\n")
        gate.stop()
        self.ends(2, "--backups", self.folder / "none", text="is no folder")

    def test_a_token(self):
        file = self.folder / "token"
        file.write_text("Open.Sesame/1\n")
        gate, port = self.tcp("--token", file)
        assert "may be read by others" in gate.log() and "everybody" not in gate.log()
        for where in (gate, ("127.0.0.1", port)):
            talk = self.talk(where)
            self.says(talk, ("token Open.Sesame/1", "token taken"), ROUTE, ("token Open.Sesame/1", "not understood"))
            for first in (b"token open.sesame/1", b"token ", b"token", b"", b"state", b"hello one", b"metrics", b"token Open.Sesame/1 ", b" token Open.Sesame/1", b"x" * 70_000):
                talk = self.talk(where)
                talk.send(first + b"\nhello one\nedit 1 1 add:70:71:1\n")
                if isinstance(where, tuple) and len(first) > 65_536:
                    assert talk.read() is None
                else:
                    assert [talk.read(), talk.read()] == ["token refused", None], first
        # A monitor brings it too, but where it has a port of its own.
        asked = b"GET /metrics HTTP/1.1\r\n"
        assert self.page(port, asked + b"\r\n")[0] == "HTTP/1.1 401 Unauthorized"
        assert self.page(port, asked + b"Authorization: Bearer Open\r\n\r\n")[0] == "HTTP/1.1 401 Unauthorized"
        assert self.page(port, asked + b"authorization: Bearer Open.Sesame/1\r\n\r\n")[0] == "HTTP/1.1 200 OK"
        silent = self.talk(gate)
        begun = time.monotonic()
        assert [silent.read(), silent.read()] == ["token refused", None]
        assert 9 < time.monotonic() - begun < 10 + 5 * LATE
        assert not Path(self.device + ".sessions").exists()
        assert gate.stop() == 0
        for text in ("", "\n", "a b\n", "ä\n", "x" * 1_025):
            file.write_text(text)
            self.ends(2, "--token", file, text=f"{file}:1: a token has")
        self.ends(2, "--token", self.folder / "none", text="No such file")

    def test_a_page_of_a_browser_does_nothing(self):
        gate, port = self.tcp()
        talk = self.talk(gate)
        self.says(talk, ("hello one", "session=1 ticket=0"))
        body = b"hello evil\nedit 2 1 add:70:71:1\nbackup %s\nstate\n" % bytes(self.folder / "evil")
        length = b"Content-Length: %d\r\n\r\n" % len(body)
        rows = [
            (b"POST / HTTP/1.1\r\nHost: 127.0.0.1\r\n" + length + body, "404 Not Found"),
            (b"POST /metrics HTTP/1.1\r\nHost: 127.0.0.1\r\n" + length + body, "405 Method Not Allowed"),
            (b"PUT /metrics HTTP/1.1\r\n" + length + body, "405 Method Not Allowed"),
            (b"OPTIONS /metrics HTTP/1.1\r\nOrigin: http://evil\r\n\r\n" + body, "405 Method Not Allowed"),
            (b"GET /metrics HTTP/1.1\r\nOrigin: http://evil\r\n\r\n" + body, "403 Forbidden"),
            (b"GET /metrics HTTP/1.1\r\nHost: evil.example:80\r\n\r\n" + body, "403 Forbidden"),
            (b"GET /\r\n\r\n" + body, "404 Not Found"),
            (b"GET\r\n\r\n" + body, "404 Not Found"),
            (b"PRI * HTTP/2.0\r\n\r\nSM\r\n\r\n" + body, "404 Not Found"),
            (b"BREW /pot HTTP/1.1\r\n\r\n" + body, "404 Not Found"),
            (b"GET /metrics HTTP/1.1\r\n" + b"x: y\r\n" * 101 + body, "431 Request Header Fields Too Large"),
        ]
        for request, status in rows:
            assert self.page(port, request)[0] == f"HTTP/1.1 {status}", request
        # What is neither HTTP nor text, and what is too long, ends the connection.
        for data in (b"\x16\x03\x01\x02\x00\x01\x00\n" + body, b"POST /" + b"x" * 70_000 + b" HTTP/1.1\r\n\r\n" + body, b"\xff\n" + body, b"\0\n" + body):
            assert self.sent(port, data) == b""
        assert self.programs.is_real or 'kind="not_understood"} 0\n' in self.page(port, b"GET /metrics HTTP/1.1\r\n\r\n")[1]
        self.says(talk, ("edit 1 1 add:72:73:1", "1 1 accepted count=64"))
        assert Path(self.device + ".sessions").read_text() == "1 one\n" and not (self.folder / "evil").exists()

    @pytest.mark.parametrize("option", ["--metrics", "--tcp"])
    def test_a_page_for_a_monitor(self, option):
        gate = self.up(option, "0")
        port = self.port(gate)
        talk = self.talk(gate)
        self.says(talk, ("hello north", "session=1 ticket=0"), ("edit 1 1 add:70:71:5", "1 1 accepted count=64"), ("edit 1 1 add:70:71:5", "1 1 already in"))
        self.says(talk, ("wait", "generation=64"), ("route 0 1", "generation=64 route 0 1 length 1"), ("hello", "not a name"))
        time.sleep(1.1)
        asked = b"GET /metrics HTTP/1.1\r\nHost: 127.0.0.1:%d\r\n\r\n" % port
        pages = []

        def fresh():
            # Figures that the service doesn't tell within a moment are told as they were.
            pages.append(self.page(port, asked))
            assert pages[-1][0] == "HTTP/1.1 200 OK"
            rows = dict(row.rsplit(" ", 1) for row in pages[-1][1].splitlines() if not row.startswith("#"))
            return rows if rows['tz_answers_total{kind="accepted"}'] == "1" else None

        rows = eventually(fresh)
        # The gate has asked for figures once itself, and for the state at the start and for `wait`.
        assert 1 <= int(rows['tz_answers_total{kind="metrics"}']) <= len(pages)
        counted = {"accepted": 1, "already_in": 1, "resume": 1, "wait": 0, "route": 1, "not_understood": 0}
        for kind, count in counted.items():
            assert rows[f'tz_answers_total{{kind="{kind}"}}'] == str(count), kind
        some = {"tz_changes": "64", "tz_generation": "64", "tz_generation_lacks": "0", "tz_queue": "0", "tz_commits_total": "1", "tzgate_starts_total": "1"}
        some |= {"tzgate_waits_total": "1", "tzgate_waiting": "0", "tzgate_service_up": "1"}
        assert {name: rows[name] for name in some} == some
        assert float(rows['tz_commit_seconds{of="least"}']) <= float(rows['tz_commit_seconds{of="greatest"}'])
        assert float(rows["tzgate_figures_age_seconds"]) < 0.5 * LATE
        # Bytes behind a request count for nothing, and a request may come in parts, with a query, or for the head alone.
        assert self.page(port, asked + asked)[0] == "HTTP/1.1 200 OK"
        assert self.page(port, asked.replace(b"/metrics", b"/metrics?x=1"))[0] == "HTTP/1.1 200 OK"
        status, text = self.page(port, asked.replace(b"GET", b"HEAD"))
        assert (status, text) == ("HTTP/1.1 200 OK", "")
        with socket.create_connection(("127.0.0.1", port), 60) as one:
            for k in range(len(asked)):
                one.sendall(asked[k : k + 1])
                time.sleep(0.002)
            assert b"".join(iter(lambda: one.recv(65_536), b"")).startswith(b"HTTP/1.1 200 OK\r\n")
        assert self.page(port, b"GET / HTTP/1.1\r\n\r\n") == ("HTTP/1.1 404 Not Found", "GET /metrics is all that there is\n")
        if option == "--metrics":
            assert self.page(port, b"x" * 70_000 + b"\r\n\r\n\r\n")[0] == "HTTP/1.1 404 Not Found"
            assert self.page(port, b"state\n")[0] == "HTTP/1.1 404 Not Found"
        # A client may ask for the line itself; a service that is killed is counted anew.
        assert re.match(r'\{"answers": \d+, "accepted": 1, .*"age_ms": \d+\}$', talk.ask("metrics"))
        gate.kill_service()
        gate.up(times=2)
        text = eventually(lambda: (lambda text: text if 'kind="accepted"} 0\n' in text else None)(self.page(port, asked)[1]))
        assert "tzgate_starts_total 2\n" in text

    @pytest.mark.skipif(not shutil.which("curl"), reason="no curl")
    def test_curl_over_a_unix_socket(self):
        gate = self.up()
        ran = subprocess.run(["curl", "-s", "-i", "--unix-socket", gate.path, "http://localhost/metrics?x=1"], capture_output=True, text=True, timeout=60)
        assert ran.stdout.startswith("HTTP/1.1 200 OK\n") and "tzgate_clients 1\n" in ran.stdout
        ran = subprocess.run(["curl", "-s", "-i", "-d", "edit", "--unix-socket", gate.path, "http://localhost/metrics"], capture_output=True, text=True, timeout=60)
        assert ran.stdout.startswith("HTTP/1.1 405 Method Not Allowed\n")
