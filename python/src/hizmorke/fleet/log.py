"""The log of edits in etcd: who edits puts a key, and reads beside it what came of it.

An edit is the key ``PREFIXedits/NAME/NUMBER`` with its operations, put once. Its place in the log is the revision that
put it, and that is its ticket on every replica's device. What came of it is the key ``PREFIXoutcomes/NAME/NUMBER``.
"""

from __future__ import annotations

import re
import time
from collections.abc import Sequence
from dataclasses import dataclass

from hizmorke.device import Operation, operation_text
from hizmorke.errors import (
    AnswerNotUnderstood,
    ChangeTooLong,
    NotUnderstood,
    OperationNotUnderstood,
    error_of_text,
)
from hizmorke.fleet.errors import EtcdUnreachable, NoAnswer, NumberTaken
from hizmorke.fleet.etcd import Etcd

PREFIX = "/hizmorke/"
"""What all keys begin with, where nobody says otherwise."""

VAGUE = "settled"
"""What came of an edit where it isn't known any more: it was made or refused, and no replica had told before all were
ended."""

NOT_UNDERSTOOD = OperationNotUnderstood.default_text
TOO_LONG = ChangeTooLong.default_text
SHARED = "revision shared"
"""What comes of all but the first of several edits that one revision put."""

_NODE = "(?:0|[1-9][0-9]{0,4})"
_OPERATION = re.compile(f"(?:add|set):{_NODE}:{_NODE}:(?:0|[1-9][0-9]{{0,8}})|cut:{_NODE}:{_NODE}", re.ASCII)
_MOST_OPERATIONS = 16
_NAME = re.compile("[A-Za-z0-9_.-]{1,64}", re.ASCII)


@dataclass(frozen=True)
class Places:
    """Where the log is.

    Attributes
    ----------
    prefix : str
        What all its keys begin with.
    """

    prefix: str = PREFIX

    @property
    def edits(self) -> bytes:
        """What the keys of edits begin with."""
        return f"{self.prefix}edits/".encode()

    @property
    def outcomes(self) -> bytes:
        """What the keys of outcomes begin with."""
        return f"{self.prefix}outcomes/".encode()

    def outcome_of(self, edit: bytes) -> bytes:
        """The key of what came of an edit.

        Parameters
        ----------
        edit : bytes
            The edit's key.
        """
        return self.outcomes + edit[len(self.edits):]


def ops_of(value: bytes) -> tuple[str, str | None]:
    """The operations of an edit, as a live service takes them, and what comes of it where they aren't some.

    Parameters
    ----------
    value : bytes
        What the log has.

    Examples
    --------
    >>> ops_of(b"add:0:1:5 cut:2:3")
    ('add:0:1:5 cut:2:3', None)
    >>> ops_of(b"hello")
    ('', 'op not understood')
    """
    try:
        words = value.decode("ascii").split(" ")
    except ValueError:
        return "", NOT_UNDERSTOOD
    for word in words:
        if not _OPERATION.fullmatch(word) or any(int(part) > 65_535 for part in word.split(":")[1:3]):
            return "", NOT_UNDERSTOOD
    return ("", TOO_LONG) if len(words) > _MOST_OPERATIONS else (" ".join(words), None)


def agrees(mine: str, told: str) -> bool:
    """Whether two outcomes don't contradict each other. A vague one agrees with all, `refused` with any refusal.

    Parameters
    ----------
    mine, told : str
        The outcomes.

    Examples
    --------
    >>> agrees("refused op=0 code=4", "refused"), agrees("accepted count=3", "accepted count=4")
    (True, False)
    """
    if mine == told or VAGUE in (mine, told):
        return True
    refusals = [each.split(" ")[0] == "refused" for each in (mine, told)]
    return all(refusals) and "refused" in (mine, told)


@dataclass(frozen=True)
class Settled:
    """What came of an edit.

    Attributes
    ----------
    revision : int
        Its place in the log.
    text : str
        What the log says: ``accepted count=C``, ``refused op=I code=K``, ``op not understood``, ..
    """

    revision: int
    text: str

    @property
    def count(self) -> int | None:
        """Its number, if it was made."""
        return int(self.text[15:]) if self.text.startswith("accepted count=") else None


class Log:
    """Edits by way of the log.

    Parameters
    ----------
    etcd : Etcd
        The cluster.
    prefix : str
        What its keys begin with.
    """

    def __init__(self, etcd: Etcd, prefix: str = PREFIX) -> None:
        self.etcd = etcd
        self.places = Places(prefix)

    def put(self, name: str, number: int, ops: Sequence[Operation]) -> int:
        """Puts an edit into the log, once.

        Parameters
        ----------
        name : str
            Who edits: 1 to 64 letters, digits, ``_``, ``.`` and ``-``.
        number : int
            The edit's number, of this name's own.
        ops : sequence of str or tuple
            The operations.

        Returns
        -------
        int
            Its revision; that of the first time, where it is there already.

        Raises
        ------
        NumberTaken
            Another edit has this number.
        EtcdUnreachable
            It may be in the log: put it again.
        """
        if not _NAME.fullmatch(name) or name in (".", ".."):
            raise NotUnderstood("a name has 1 to 64 letters, digits, _, . and -")
        key = self.places.edits + f"{name}/{number:020}".encode()
        value = " ".join(map(operation_text, ops)).encode()
        revision, there = self.etcd.put_all_if_absent([(key, value)])
        if not there:
            return revision
        if there[0] is None or there[0].value != value:
            raise NumberTaken()
        return there[0].revision

    def outcome(self, name: str, number: int, revision: int, seconds: float) -> Settled:
        """What came of an edit that is in the log.

        Parameters
        ----------
        name, number : str, int
            As it was put.
        revision : int
            Its revision.
        seconds : float
            So long is waited.

        Raises
        ------
        NoAnswer
            No replica has told in time.
        """
        key = self.places.outcomes + f"{name}/{number:020}".encode()
        end = time.monotonic() + seconds
        while True:
            try:
                found, at = self.etcd.range(key, single=True)
                if found:
                    return Settled(revision, found[0].value.decode("utf-8", "replace"))
            except EtcdUnreachable:
                at = revision
                time.sleep(0.1)
            left = end - time.monotonic()
            if left <= 0:
                raise NoAnswer("no replica has told in time what came of the edit")
            self.etcd.wait(key, at, min(left, 5.0), single=True)

    def settle(self, name: str, number: int, ops: Sequence[Operation], seconds: float = 60.0) -> Settled:
        """Puts an edit into the log, and waits for what comes of it. Sent again, it is told the same.

        Parameters
        ----------
        name, number, ops
            As `put` takes them.
        seconds : float
            So long is waited.

        Raises
        ------
        NumberTaken, EtcdUnreachable, NoAnswer
            As their texts say.
        """
        end = time.monotonic() + seconds
        while True:
            try:
                revision = self.put(name, number, ops)
                break
            except EtcdUnreachable:
                if time.monotonic() > end:
                    raise
                time.sleep(0.2)
        return self.outcome(name, number, revision, max(0.0, end - time.monotonic()))

    def edit(self, name: str, number: int, ops: Sequence[Operation], seconds: float = 60.0) -> Settled:
        """As `settle`; what wasn't made raises an exception.

        Parameters
        ----------
        name, number, ops, seconds
            As `settle` takes them.

        Raises
        ------
        ChangeRefused, OperationNotUnderstood, ChangeTooLong
            It was not made.
        NumberTaken, EtcdUnreachable, NoAnswer
            As their texts say.
        """
        settled = self.settle(name, number, ops, seconds)
        if settled.count is None and settled.text != VAGUE:
            raise error_of_text(settled.text) or AnswerNotUnderstood(settled.text)
        return settled
