"""Everything that a call of this package raises on purpose: one tree below `HizmorkeError`.

There are three kinds. `NotUnderstood` is for words, lines and files that can't be read as what they should be,
`Refused` for an answer that is no, and `Fault` for a device, memory, a file, a service or a program that failed. Each
refusal of the programs is a class of its own with the program's text for it. Each has a ``status``: the exit status
that a command ends with.

Examples
--------
>>> try:
...     raise DeviceInUse(path="net")
... except Fault as fault:
...     print(fault, fault.status)
net: device in use 1
"""

from __future__ import annotations

from typing import ClassVar


class HizmorkeError(Exception):
    """What all of this package's exceptions are.

    Parameters
    ----------
    text : str, optional
        What happened, in a line. A class of a program's refusal knows the program's text for it.
    path : str, optional
        The file that it speaks of.
    line : int, optional
        The line of that file, counted from 1.

    Attributes
    ----------
    status : int
        The exit status of a command that ends with this: 2 if something wasn't understood, else 1.
    cause : str or None
        What a program told behind the text, in a second line: why a file can't be used.
    """

    status: ClassVar[int] = 1
    default_text: ClassVar[str] = ""

    def __init__(self, text: str | None = None, *, path: str | None = None, line: int | None = None) -> None:
        self.text: str = type(self).default_text if text is None else text
        self.path: str | None = path
        self.line: int | None = line
        self.cause: str | None = None
        super().__init__(self.text)

    @property
    def whole_text(self) -> str:
        """The text, and its cause where that is known."""
        return self.text if self.cause is None else f"{self.text}: {self.cause}"

    def __str__(self) -> str:
        if self.path is None:
            return self.whole_text
        if self.line is None:
            return f"{self.path}: {self.whole_text}"
        return f"{self.path}:{self.line}: {self.whole_text}"


class NotUnderstood(HizmorkeError):
    """Words, a line or a file that can't be read as what they should be."""

    status = 2


class Refused(HizmorkeError):
    """The answer is no.

    Attributes
    ----------
    number : int
        The C library's number for this refusal, as docs/FORMATS.md lists them; 0 where it has none.
    """

    number: ClassVar[int] = 0


class Fault(HizmorkeError):
    """A device, memory, a file, a service or a program failed."""


# What the programs don't understand.


class UsageNotUnderstood(NotUnderstood):
    """It is no command, or a number of it is out of range."""

    default_text = "usage"


class OperationNotUnderstood(NotUnderstood):
    """An operation isn't ``add:A:B:W``, ``set:A:B:W`` or ``cut:A:B``."""

    default_text = "op not understood"


class WordsNotUnderstood(NotUnderstood):
    """The landmark words aren't ``none``, ``at:A,B`` or ``draw:N``, or name a node that isn't in the network."""

    default_text = "words not understood"


class ScriptNotUnderstood(NotUnderstood):
    """A line of a script isn't ``S OP..`` or ``route A B``."""

    default_text = "script not understood"


class LineNotUnderstood(NotUnderstood):
    """A live service doesn't know this line."""

    default_text = "not understood"


class NumberNotUnderstood(NotUnderstood):
    """A number of an option is no number, or is out of its range."""


# Edits.


class ChangeRefused(Refused):
    """An operation of a change can't be made, so nothing of the change was made.

    Parameters
    ----------
    op : int
        The first operation that can't be made, counted from 0.
    code : int
        Why: one of `ChangeRefused.REASONS`.

    Attributes
    ----------
    reason : str
        What the code means, in words.
    """

    REASONS: ClassVar[dict[int, str]] = {
        1: "a node isn't below the number of nodes",
        2: "both nodes are the same",
        3: "the weight isn't 1 to 1,000,000",
        4: "the edge is there already",
        5: "there is no such edge",
        6: "the network has 65,536 edges",
    }

    def __init__(self, op: int, code: int, *, path: str | None = None) -> None:
        super().__init__(f"refused op={op} code={code}", path=path)
        self.op = op
        self.code = code

    @property
    def reason(self) -> str:
        return self.REASONS.get(self.code, f"code {self.code}")


class ChangeTooLong(Refused):
    """A change has more than 16 operations."""

    default_text = "change too long"


class AlreadyIn(Refused):
    """The session has used this ticket, or a later one, for a change that was made."""

    default_text = "already in"


class OldTicket(Refused):
    """The session has sent a later ticket to this service, and nothing was made under this one."""

    default_text = "old ticket"


class NoSession(Refused):
    """The session isn't below the service's number of editors."""

    default_text = "no session"


class NodeCountOutOfRange(Refused):
    """A device has 1 to 16,384 nodes."""

    default_text = "node count out of range"


# Routes, packets, tables.


class SchemeFault(Refused):
    """A check of the tables doesn't hold.

    Attributes
    ----------
    check : str
        The first check that doesn't: ``K1`` to ``K8``.
    """

    def __init__(self, check: str, *, path: str | None = None) -> None:
        super().__init__(f"fault {check}", path=path)
        self.check = check


class LimitNotKept(Refused):
    """The landmarks that were found leave a table larger than the limit.

    Attributes
    ----------
    words : str
        The best landmarks that were found, as landmark words.
    """

    def __init__(self, text: str, words: str, *, path: str | None = None) -> None:
        super().__init__(text, path=path)
        self.words = words


class GenerationGone(Refused):
    """There are no tables of this generation any more."""

    default_text = "generation gone"


class NoTable(Refused):
    """The bytes don't begin as a table does."""

    default_text = "no table"
    number = 1


class VersionNotKnown(Refused):
    """The table is of another version."""

    default_text = "version not known"
    number = 2


class CutShort(Refused):
    """The table has fewer bytes than its counts say."""

    default_text = "cut short"
    number = 3


class TooLong(Refused):
    """The table has more bytes than its counts say."""

    default_text = "too long"
    number = 4


class TableDamaged(Refused):
    """The table's digest isn't that of its bytes."""

    default_text = "damaged"
    number = 5


class NotInOrder(Refused):
    """No table in order has these bytes."""

    default_text = "not in order"
    number = 6


class NoNode(Refused):
    """A node isn't in the network."""

    default_text = "no node"
    number = 7


class Unreachable(Refused):
    """No way leads to the destination."""

    default_text = "unreachable"
    number = 8


class Stray(Refused):
    """The packet isn't one that this node can carry on."""

    default_text = "stray"
    number = 9


class Spent(Refused):
    """The packet has no hop left."""

    default_text = "spent"
    number = 10


class BadLength(Refused):
    """A packet isn't 43 bytes long, or an address not 42."""

    default_text = "bad length"
    number = 11


class BadFlag(Refused):
    """An address's flag is neither 0 nor 1, or it is 0 and a byte behind it isn't."""

    default_text = "bad flag"
    number = 12


class BadCount(Refused):
    """A packet or an address has more than 13 ports."""

    default_text = "bad count"
    number = 13


class BadPadding(Refused):
    """A place for a port that isn't used isn't 0."""

    default_text = "bad padding"
    number = 14


class NoRoom(Refused):
    """The place for the answer hasn't just the answer's length."""

    default_text = "no room"
    number = 15


class NoPort(Refused):
    """The node has no such port."""

    default_text = "no port"
    number = 16


# The gate.


class NotAName(Refused):
    """A client's name has 1 to 64 letters, digits, ``_``, ``.`` and ``-``."""

    default_text = "not a name"


class NoSessionLeft(Refused):
    """63 names have a session already."""

    default_text = "no session left"


class SessionCannotBeKept(Refused):
    """The gate can't write which name has the session."""

    default_text = "session cannot be kept"


class NotYourSession(Refused):
    """The client doesn't hold this session."""

    default_text = "not your session"


class TicketTooLarge(Refused):
    """A gate takes tickets up to 4,611,686,018,427,387,904."""

    default_text = "ticket too large"


class TokenRefused(Refused):
    """The gate asks for a token, and this isn't it."""

    default_text = "token refused"


class NameNotListed(Refused):
    """The gate has a list of names, and this one isn't there."""

    default_text = "name not listed"


class GateBusy(Refused):
    """The gate has as many clients as it takes."""

    default_text = "busy"


class PlaceNotAllowed(Refused):
    """The gate lets nobody write there: ``tables not allowed``, ``backup not allowed``."""


class NoFiguresYet(Refused):
    """The service behind the gate hasn't told its figures yet."""

    default_text = "no figures yet"


# Devices, files, memory.


class FileUnusable(Fault):
    """A file can't be made, filled, synced, opened, locked or read. ``cause`` says why, where that is known."""

    default_text = "device file cannot be used"


class FileExists(Fault):
    """A file that was to be made is there already, or the one of its name and ``.new`` is, as which it is made."""

    default_text = "file exists"


class DeviceInUse(Fault):
    """Another program holds the device's lock."""

    default_text = "device in use"


class NotFormatted(Fault):
    """The file is no device."""

    default_text = "not formatted"


class LayoutNotKnown(Fault):
    """The device is of another layout."""

    default_text = "layout not known"


class Damaged(Fault):
    """The device has another length, or bytes that break its format."""

    default_text = "damaged"


class DeviceFailed(Fault):
    """The system refused a read, a write or a sync of the device."""

    default_text = "device failed"


class DeviceLengthWrong(Fault):
    """The new file hasn't a device's length."""

    default_text = "device length is wrong"


class OutOfMemory(Fault):
    """The system refused memory."""

    default_text = "out of memory"


class WornOut(Fault):
    """A count, an epoch or a ticket has reached its limit."""

    default_text = "worn out"


class TableFileUnwritable(Fault):
    """A table's file, or its folder, can't be written, renamed or synced."""

    default_text = "table file cannot be written"


class StreamsFailed(Fault):
    """Standard input or output failed or was closed. An edit may be in effect."""

    default_text = "input or output failed"


# Services, programs, libraries.


class ServiceEnded(Fault):
    """The service ended, or its connection was lost, before it answered.

    Attributes
    ----------
    exit_status : int or None
        The exit status of a service that was started here, below 0 for a signal; None over a socket.
    fault : HizmorkeError or None
        What the service said on its standard error, where that is a text of the program.
    session, ticket : int or None
        The session and ticket of an edit without an answer. It was made whole, or not at all.
    """

    default_text = "the service has ended"

    def __init__(
        self,
        text: str | None = None,
        *,
        path: str | None = None,
        exit_status: int | None = None,
        fault: HizmorkeError | None = None,
        session: int | None = None,
        ticket: int | None = None,
    ) -> None:
        super().__init__(text, path=path)
        self.exit_status = exit_status
        self.fault = fault
        self.session = session
        self.ticket = ticket


class AnswerNotUnderstood(Fault):
    """A program or a service answered what this package doesn't know."""


class ProgramMissing(Fault):
    """A program isn't there.

    Attributes
    ----------
    places : tuple of str
        Where it was looked for, in this order.
    """

    def __init__(self, name: str, places: tuple[str, ...]) -> None:
        super().__init__(f"the program {name} isn't there: it was looked for in {', '.join(places)}")
        self.name = name
        self.places = places


class LibraryMissing(Fault):
    """The C library isn't there.

    Attributes
    ----------
    places : tuple of str
        Where it was looked for, in this order.
    """

    def __init__(self, places: tuple[str, ...]) -> None:
        super().__init__(f"the library libtz.so isn't there: it was looked for in {', '.join(places)}")
        self.places = places


class PackageMissing(Fault):
    """A Python package that this call needs isn't there.

    Parameters
    ----------
    name : str
        The package, as it is imported.
    """

    def __init__(self, name: str) -> None:
        super().__init__(f"the Python package {name} isn't there: on Debian it is python3-{name}")
        self.name = name


def _subclasses(kind: type[HizmorkeError]) -> list[type[HizmorkeError]]:
    found = [kind]
    for below in kind.__subclasses__():
        found += _subclasses(below)
    return found


# Which class a program's text is. In `_BY_TEXT` the text "damaged" is a device's: a table's is in `_BY_NUMBER`.
_BY_TEXT: dict[str, type[HizmorkeError]] = {
    kind.default_text: kind
    for kind in _subclasses(HizmorkeError)
    if kind.default_text and kind not in (TableDamaged, ServiceEnded)
}
_BY_NUMBER: dict[int, type[Refused]] = {
    kind.number: kind for kind in _subclasses(Refused) if issubclass(kind, Refused) and kind.number
}
# Other texts of a class: why a file can't be used, the router's words for packets that a node drops, and the gate's.
_OTHER_TEXTS: dict[str, type[HizmorkeError]] = {
    "a file of this name and .new exists": FileExists,
    "neither a regular file nor a block device": FileUnusable,
    "no space left": FileUnusable,
    "the file is not there": FileUnusable,
    "stray packet": Stray,
    "no hop left": Spent,
    "tables not allowed": PlaceNotAllowed,
    "backup not allowed": PlaceNotAllowed,
    "names cannot be read": SessionCannotBeKept,
}


def error_of_text(text: str, path: str | None = None) -> HizmorkeError | None:
    """The exception for a text of the programs.

    Parameters
    ----------
    text : str
        The text, without the program's name: ``device in use``, ``refused op=0 code=4``, ``fault K4``.
    path : str, optional
        The file that it speaks of.

    Returns
    -------
    HizmorkeError or None
        The exception, or None if the programs have no such text.

    Examples
    --------
    >>> error_of_text("already in")
    AlreadyIn('already in')
    >>> error_of_text("refused op=1 code=4").code
    4
    >>> error_of_text("hello") is None
    True
    """
    kind = _BY_TEXT.get(text) or _OTHER_TEXTS.get(text)
    if kind is not None:
        # Words speak of no file.
        return kind(text, path=None if issubclass(kind, NotUnderstood) else path)
    words = text.split(" ")
    if len(words) == 3 and words[0] == "refused" and words[1][:3] == "op=" and words[2][:5] == "code=":
        op, code = words[1][3:], words[2][5:]
        if op.isdecimal() and code.isdecimal():
            return ChangeRefused(int(op), int(code), path=path)
    if len(words) == 2 and words[0] == "fault":
        return SchemeFault(words[1], path=path)
    return None


def error_of_number(number: int) -> Refused:
    """The exception for a refusal of the C library.

    Parameters
    ----------
    number : int
        The refusal's number, 1 to 16.

    Examples
    --------
    >>> error_of_number(8)
    Unreachable('unreachable')
    """
    kind = _BY_NUMBER.get(number)
    return Refused(f"refusal {number} of the library") if kind is None else kind()


# What the readers and writers of networks add stands below this line.


class NetworkRefused(Refused):
    """A file was understood, and what it says can't be in the network: an end is no number of a node, a name is one too
    many, an edge is there already, joins a node to itself, or has a weight out of range."""
