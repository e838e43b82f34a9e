"""A client of etcd 3.4 by its JSON gateway, with Python's own HTTP.

It reads linearizably, and tries a member after the other. Threads have connections of their own.
"""

from __future__ import annotations

import base64
import http.client
import json
import ssl
import threading
import time
from collections.abc import Sequence
from dataclasses import dataclass
from typing import Any
from urllib.parse import urlsplit

from hizmorke.errors import NotUnderstood
from hizmorke.fleet.errors import EtcdRefused, EtcdUnreachable

# The codes by which a member says that another one may do better: it was too slow, has no leader, or is about to end.
_TRY_ANOTHER = (4, 14)


@dataclass(frozen=True)
class KeyValue:
    """A key with its value.

    Attributes
    ----------
    key, value : bytes
        The two.
    revision : int
        The revision that put the value.
    """

    key: bytes
    value: bytes
    revision: int


def _text(content: bytes) -> str:
    return base64.b64encode(content).decode("ascii")


def _bytes(text: str) -> bytes:
    return base64.b64decode(text)


def behind(prefix: bytes) -> bytes:
    """The first key that doesn't begin with a prefix, and stands behind all that do.

    Parameters
    ----------
    prefix : bytes
        The prefix.

    Examples
    --------
    >>> behind(b"a/"), behind(b"a\\xff")
    (b'a0', b'b')
    """
    cut = prefix.rstrip(b"\xff")
    return cut[:-1] + bytes([cut[-1] + 1]) if cut else b"\0"


def key_values(rows: Sequence[dict[str, str]]) -> list[KeyValue]:
    """The keys of an answer.

    Parameters
    ----------
    rows : sequence of dict
        Its ``kvs``.
    """
    return [KeyValue(_bytes(row["key"]), _bytes(row.get("value", "")), int(row["mod_revision"])) for row in rows]


class Etcd:
    """A cluster of etcd.

    Parameters
    ----------
    urls : sequence of str
        Its members: ``http://HOST:PORT`` or ``https://HOST:PORT``.
    user : str, optional
        ``NAME:PASSWORD``, where the cluster asks for one.
    authority : path, optional
        The certificate of who signed the members' ones, for https.
    timeout : float
        So many seconds a member has for an answer.

    Raises
    ------
    NotUnderstood
        A URL isn't one.
    """

    def __init__(
        self, urls: Sequence[str], user: str | None = None, authority: str | None = None, timeout: float = 3.0
    ) -> None:
        self._members = [urlsplit(url) for url in urls]
        for url, member in zip(urls, self._members):
            if member.scheme not in ("http", "https") or not member.hostname:
                raise NotUnderstood(f"a member of etcd is http://HOST:PORT or https://HOST:PORT, and not {url}")
        if not urls:
            raise NotUnderstood("no member of etcd is named")
        self._user = user
        self._trust = ssl.create_default_context(cafile=authority)
        self._timeout = timeout
        self._own = threading.local()

    def _connection(self, place: int, timeout: float) -> http.client.HTTPConnection:
        member = self._members[place]
        host, port = member.hostname or "", member.port or 2379
        if member.scheme == "https":
            return http.client.HTTPSConnection(host, port, timeout=timeout, context=self._trust)
        return http.client.HTTPConnection(host, port, timeout=timeout)

    def _headers(self) -> dict[str, str]:
        token = getattr(self._own, "token", None)
        return {"Content-Type": "application/json"} | ({"Authorization": token} if token else {})

    def _enter(self, connection: http.client.HTTPConnection) -> None:
        """Has the member give a token, where there is a user."""
        if self._user is None:
            return
        name, _, password = self._user.partition(":")
        body = json.dumps({"name": name, "password": password})
        connection.request("POST", "/v3/auth/authenticate", body, {"Content-Type": "application/json"})
        self._own.token = _answer(connection.getresponse())["token"]

    def call(self, path: str, body: dict[str, Any]) -> dict[str, Any]:
        """Asks a member, and where it doesn't answer the next one, each once.

        Parameters
        ----------
        path : str
            What is asked for: ``kv/range``.
        body : dict
            With which words.

        Raises
        ------
        EtcdUnreachable
            None answered. What was asked for may be done.
        EtcdRefused
            One says no.
        """
        content = json.dumps(body)
        last: Exception | None = None
        for _ in range(len(self._members) + 1):
            place = getattr(self._own, "place", 0)
            try:
                connection = getattr(self._own, "connection", None)
                if connection is None:
                    connection = self._own.connection = self._connection(place, self._timeout)
                    self._enter(connection)
                connection.request("POST", f"/v3/{path}", content, self._headers())
                return _answer(connection.getresponse())
            except (OSError, ValueError, KeyError, http.client.HTTPException, _Elsewhere) as error:
                last = error
                self.turn_away()
        raise EtcdUnreachable(f"{EtcdUnreachable.default_text}: {last}")

    def turn_away(self) -> None:
        """Closes this thread's connection: the next call asks the next member."""
        connection = getattr(self._own, "connection", None)
        if connection is not None:
            connection.close()
        self._own.connection = None
        self._own.place = (getattr(self._own, "place", 0) + 1) % len(self._members)

    def range(
        self,
        prefix: bytes,
        *,
        after: int = 0,
        until: int = 0,
        limit: int = 0,
        newest_first: bool = False,
        single: bool = False,
    ) -> tuple[list[KeyValue], int]:
        """Keys that begin with a prefix, in the order of the revisions that put them; and the revision of the answer.

        Parameters
        ----------
        prefix : bytes
            The prefix.
        after, until : int
            Only those that were put behind this revision, and up to that one; 0 for all.
        limit : int
            So many at most; 0 for all.
        newest_first : bool
            In the other order.
        single : bool
            Only the key itself.
        """
        body: dict[str, Any] = {"key": _text(prefix)}
        if not single:
            body |= {"range_end": _text(behind(prefix)), "sort_target": "MOD"}
            body |= {"sort_order": "DESCEND" if newest_first else "ASCEND", "limit": str(limit)}
            body |= {"min_mod_revision": str(after + 1)} if after else {}
            body |= {"max_mod_revision": str(until)} if until else {}
        answer = self.call("kv/range", body)
        return key_values(answer.get("kvs", [])), int(answer["header"]["revision"])

    def put_all_if_absent(self, rows: Sequence[tuple[bytes, bytes]]) -> tuple[int, list[KeyValue | None]]:
        """Puts all of these keys if none of them is there.

        Parameters
        ----------
        rows : sequence of tuple
            Keys and values, 100 at most.

        Returns
        -------
        tuple
            The revision and an empty list where they were put; else the revision and what is there of each.
        """
        body = {
            "compare": [{"key": _text(key), "target": "CREATE", "create_revision": "0"} for key, _ in rows],
            "success": [{"request_put": {"key": _text(key), "value": _text(value)}} for key, value in rows],
            "failure": [{"request_range": {"key": _text(key)}} for key, _ in rows],
        }
        answer = self.call("kv/txn", body)
        revision = int(answer["header"]["revision"])
        if answer.get("succeeded"):
            return revision, []
        there: list[KeyValue | None] = []
        for each in answer["responses"]:
            found = key_values(each["response_range"].get("kvs", []))
            there.append(found[0] if found else None)
        return revision, there

    def put_if(self, key: bytes, value: bytes, before: bytes) -> bool:
        """Puts a value in the place of this one.

        Parameters
        ----------
        key, value : bytes
            What is put.
        before : bytes
            What has to be there.
        """
        body = {
            "compare": [{"key": _text(key), "target": "VALUE", "value": _text(before)}],
            "success": [{"request_put": {"key": _text(key), "value": _text(value)}}],
        }
        return bool(self.call("kv/txn", body).get("succeeded"))

    def wait(self, prefix: bytes, after: int, seconds: float, single: bool = False) -> None:
        """Waits until a key that begins with a prefix is put behind this revision, or the time is over, or the
        connection is lost: who waits looks again then.

        Parameters
        ----------
        prefix : bytes
            The prefix.
        after : int
            The revision.
        seconds : float
            How long at most.
        single : bool
            Only the key itself.
        """
        words = {"key": _text(prefix), "start_revision": str(after + 1)}
        if not single:
            words["range_end"] = _text(behind(prefix))
        place = getattr(self._own, "place", 0)
        connection = self._connection(place, seconds)
        end = time.monotonic() + seconds
        try:
            connection.request("POST", "/v3/watch", json.dumps({"create_request": words}), self._headers())
            answer = connection.getresponse()
            while (left := end - time.monotonic()) > 0:
                if connection.sock is not None:
                    connection.sock.settimeout(left)
                line = answer.readline()
                if not line or "error" in (told := json.loads(line)):
                    # So that a cluster that is gone isn't asked without a pause.
                    time.sleep(min(0.05, max(0.0, left)))
                    return
                if told["result"].get("events") or told["result"].get("canceled"):
                    return
        except (OSError, ValueError, KeyError, http.client.HTTPException):
            time.sleep(min(0.05, max(0.0, end - time.monotonic())))
        finally:
            connection.close()


class _Elsewhere(Exception):
    """A member says that another one may do better."""


def _answer(response: http.client.HTTPResponse) -> dict[str, Any]:
    content = response.read()
    told: dict[str, Any] = json.loads(content)
    if response.status == 200:
        return told
    text = str(told.get("message") or told.get("error") or response.reason)
    is_away = response.status in (502, 503, 504) or int(told.get("code", 0)) in _TRY_ANOTHER
    if is_away or "invalid auth token" in text:
        raise _Elsewhere(text)
    raise EtcdRefused(f"{EtcdRefused.default_text}: {text}")
