"""HTTP, as far as the gate speaks it: GET and HEAD of /metrics, in the text format of Prometheus, and refusals."""

from __future__ import annotations

import hmac
import re
from typing import Mapping, Optional, Sequence

from hizmorke.gate.bounds import HEAD_LINES

# What `metrics` counts by the kind of an answer.
KINDS = (
    "accepted refused already_in refused_before old_ticket resume route address launch hop not_carried gone "
    "state wait tables backup metrics unread not_understood"
).split()
METHODS = rb"(?:GET|HEAD|POST|PUT|DELETE|OPTIONS|PATCH|CONNECT|TRACE|PRI)"
FIRST_LINE = re.compile(rb"%s(?:[ \t].*)?|.*[ \t]HTTP/[0-9].*" % METHODS, re.DOTALL)
# A page of another machine reaches this one by a name that it owns, never by an address.
ADDRESS = re.compile(rb"(?:localhost|[0-9]{1,3}(?:\.[0-9]{1,3}){3}|\[[0-9A-Fa-f:.]+\])?(?::[0-9]*)?", re.IGNORECASE)
HEARD = (b"host", b"origin", b"authorization")

Row = tuple[str, str, str, Sequence[tuple[str, object]]]


def is_http(line: bytes) -> bool:
    """Whether a first line is one of HTTP. None of the service's lines is."""
    return FIRST_LINE.fullmatch(line) is not None


class Request:
    """A request, line by line.

    Parameters
    ----------
    line
        Its first line, without its end.
    """

    def __init__(self, line: bytes) -> None:
        self.line = line
        self.count = 0
        self.headers: dict[bytes, bytes] = {}

    def is_whole(self, line: bytes) -> bool:
        """Take one more line. Says whether the request is whole with it: the blank one, or one too many."""
        self.count += 1
        name, _, value = line.partition(b":")
        if name.lower() in HEARD:
            self.headers[name.lower()] = value.strip()
        return not line or self.count > HEAD_LINES

    def is_head(self) -> bool:
        """Whether only the head of the answer is asked for."""
        return self.line.startswith(b"HEAD ")

    def refusal(self, token: Optional[bytes]) -> Optional[bytes]:
        """Why the page isn't shown; None where it is.

        Parameters
        ----------
        token
            What the request has to bring, if anything.
        """
        method, _, rest = self.line.partition(b" ")
        target, _, version = rest.partition(b" ")
        if self.count > HEAD_LINES:
            return self.answer("431 Request Header Fields Too Large", b"so many lines are no request\n")
        if target.partition(b"?")[0] != b"/metrics" or not version.startswith(b"HTTP/"):
            return self.answer("404 Not Found", b"GET /metrics is all that there is\n")
        if method not in (b"GET", b"HEAD"):
            return self.answer("405 Method Not Allowed", b"GET /metrics is all that there is\n", "Allow: GET, HEAD")
        if b"origin" in self.headers or not ADDRESS.fullmatch(self.headers.get(b"host", b"")):
            return self.answer("403 Forbidden", b"figures are for this machine, by its address\n")
        if token is not None and not hmac.compare_digest(self.headers.get(b"authorization", b""), b"Bearer " + token):
            return self.answer("401 Unauthorized", b"a token is asked for\n", "WWW-Authenticate: Bearer")
        return None

    def answer(self, status: str, text: bytes, *more: str) -> bytes:
        """What is sent: the head, and the text where it is asked for."""
        kind = "Content-Type: text/plain; version=0.0.4"
        rows = [f"HTTP/1.1 {status}", kind, f"Content-Length: {len(text)}", "Connection: close", *more, "", ""]
        return "\r\n".join(rows).encode() + (b"" if self.is_head() else text)


def page_of(told: Mapping[str, int], age: float, of_the_gate: Sequence[Row]) -> bytes:
    """What a monitor reads.

    Parameters
    ----------
    told
        The service's figures, by the keys of its line `metrics`.
    age
        How old they are, in seconds.
    of_the_gate
        Families of the gate's own: name, kind, text, and values by label.
    """
    kinds = [(f'{{kind="{kind}"}}', told[kind]) for kind in KINDS]
    times = [(f'{{of="{which}"}}', told[f"commit_{which}_us"] / 1e6) for which in ("least", "median", "greatest")]
    families: list[Row] = [
        ("tz_answers_total", "counter", "answers of the service that runs, by kind", kinds),
        ("tz_changes", "gauge", "accepted changes", [("", told["count"])]),
        ("tz_generation", "gauge", "the newest tables have so many of them", [("", told["generation"])]),
        ("tz_generation_lacks", "gauge", "and lack so many", [("", told["lacks"])]),
        ("tz_queue", "gauge", "changes that wait", [("", told["queue"])]),
        ("tz_commits_total", "counter", "commits of the service that runs", [("", told["commits"])]),
        ("tz_commit_seconds", "gauge", "how long one of the last 1,000 took", times),
        ("tz_build_seconds", "gauge", "how long the last build of tables took", [("", told["build_us"] / 1e6)]),
        ("tz_waiting", "gauge", "lines that the service has read and not answered", [("", told["waiting"])]),
        ("tzgate_figures_age_seconds", "gauge", "how old the figures above are", [("", round(age, 3))]),
        *of_the_gate,
    ]
    lines: list[str] = []
    for name, kind, text, values in families:
        lines += [f"# HELP {name} {text}", f"# TYPE {name} {kind}"]
        lines += [f"{name}{label} {value}" for label, value in values]
    return "".join(f"{line}\n" for line in lines).encode()
