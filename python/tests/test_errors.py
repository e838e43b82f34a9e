"""The tree of exceptions: texts, statuses, and which text is which class."""

from __future__ import annotations

import inspect
import re
from pathlib import Path

import pytest

from hizmorke import errors
from hizmorke.errors import HizmorkeError, NotUnderstood, Refused, error_of_number, error_of_text
from hizmorke.programs import fault_of

TOP = Path(__file__).resolve().parents[2]
CLASSES = [kind for _, kind in inspect.getmembers(errors, inspect.isclass) if issubclass(kind, HizmorkeError)]


@pytest.mark.parametrize(
    ("text", "kind"),
    [
        ("usage", errors.UsageNotUnderstood),
        ("op not understood", errors.OperationNotUnderstood),
        ("words not understood", errors.WordsNotUnderstood),
        ("script not understood", errors.ScriptNotUnderstood),
        ("change too long", errors.ChangeTooLong),
        ("node count out of range", errors.NodeCountOutOfRange),
        ("device length is wrong", errors.DeviceLengthWrong),
        ("device file cannot be used", errors.FileUnusable),
        ("device in use", errors.DeviceInUse),
        ("not formatted", errors.NotFormatted),
        ("layout not known", errors.LayoutNotKnown),
        ("damaged", errors.Damaged),
        ("device failed", errors.DeviceFailed),
        ("out of memory", errors.OutOfMemory),
        ("worn out", errors.WornOut),
        ("already in", errors.AlreadyIn),
        ("no node", errors.NoNode),
        ("table file cannot be written", errors.TableFileUnwritable),
        ("input or output failed", errors.StreamsFailed),
    ],
)
def test_each_message_of_the_program_is_a_class(text: str, kind: type[HizmorkeError]) -> None:
    # These are the rows of the table of messages in docs/OPERATING.md.
    error = error_of_text(text, "net")
    assert type(error) is kind
    assert error.text == text
    assert str(error) == (text if issubclass(kind, NotUnderstood) else f"net: {text}")


def test_the_table_of_messages_is_known() -> None:
    page = (TOP / "docs" / "OPERATING.md").read_text()
    rows = page[page.index("| Text | What happened"):].split("\n\n")[0].splitlines()[2:]
    texts = [re.match(r"\| `([^`]+)` \|", row)[1] for row in rows]  # type: ignore[index]
    assert len(texts) > 15
    assert [text for text in texts if error_of_text(text) is None] == []


def test_only_what_is_not_understood_has_status_two() -> None:
    assert {kind.status for kind in CLASSES if issubclass(kind, NotUnderstood)} == {2}
    assert {kind.status for kind in CLASSES if not issubclass(kind, NotUnderstood)} == {1}


def test_no_two_classes_have_one_text() -> None:
    texts = [kind.default_text for kind in CLASSES if kind.default_text]
    # A device's, and a table's.
    assert [text for text in texts if texts.count(text) > 1] == ["damaged", "damaged"]


def test_the_numbers_of_the_library_are_those_of_the_header() -> None:
    header = (TOP / "include" / "tz.h").read_text()
    rows = re.findall(r"^    TZ_([A-Z_]+) = -(\d+)", header, re.MULTILINE)
    assert len(rows) == 16
    for name, number in rows:
        kind = type(error_of_number(int(number)))
        assert kind.__name__.removeprefix("Table").lower() == name.replace("_", "").lower()
        assert kind.number == int(number)
    assert type(error_of_number(99)) is Refused


def test_refusals_of_changes_and_schemes() -> None:
    refused = error_of_text("refused op=15 code=6")
    assert isinstance(refused, errors.ChangeRefused)
    assert (refused.op, refused.code, refused.reason) == (15, 6, "the network has 65,536 edges")
    fault = error_of_text("fault K4")
    assert isinstance(fault, errors.SchemeFault) and fault.check == "K4"
    for text in ("", "refused", "refused op= code=", "refused op=x code=1", "faults K4", "Device in use", "fault"):
        assert error_of_text(text) is None


def test_says_the_place() -> None:
    assert str(NotUnderstood("no", path="f")) == "f: no"
    assert str(NotUnderstood("no", path="f", line=3)) == "f:3: no"
    assert str(NotUnderstood("no")) == "no"
    assert "looked for in a, PATH" in str(errors.ProgramMissing("tznode", ("a", "PATH")))


@pytest.mark.parametrize(
    ("said", "kind", "told"),
    [
        # `tznode` says first what happened, and then of which file and why, where it knows that.
        (["device file cannot be used"], errors.FileUnusable, "net: device file cannot be used"),
        (
            ["device file cannot be used", "net: neither a regular file nor a block device"],
            errors.FileUnusable,
            "net: device file cannot be used: neither a regular file nor a block device",
        ),
        (
            ["device file cannot be used", "new: no space left"],
            errors.FileUnusable,
            "net: device file cannot be used: new: no space left",
        ),
        (
            ["device file cannot be used", "new.new: file exists"],
            errors.FileUnusable,
            "net: device file cannot be used: new.new: file exists",
        ),
        # `tzlab` says it in one line.
        (["net: device in use"], errors.DeviceInUse, "net: device in use"),
        (["net: no space left"], errors.FileUnusable, "net: no space left"),
        (
            ["net: neither a regular file nor a block device"],
            errors.FileUnusable,
            "net: neither a regular file nor a block device",
        ),
        (
            ["net: a file of this name and .new exists"],
            errors.FileExists,
            "net: a file of this name and .new exists",
        ),
        (["net: the file is not there"], errors.FileUnusable, "net: the file is not there"),
        # What was told before doesn't count.
        (["some words", "device failed"], errors.DeviceFailed, "net: device failed"),
        (["device in use", "device file cannot be used"], errors.FileUnusable, "net: device file cannot be used"),
        (["hello"], errors.AnswerNotUnderstood, "tznode: hello"),
    ],
)
def test_a_cause_stands_behind_the_text(said: list[str], kind: type[HizmorkeError], told: str) -> None:
    error = fault_of("tznode", 1, "".join(f"tznode: {line}\n" for line in said), "net")
    assert type(error) is kind
    assert str(error) == told
    if "device file cannot be used" in said:
        assert error.text == "device file cannot be used"
        assert error.cause == (told.removeprefix(f"net: {error.text}: ") if len(told.split(": ")) > 2 else None)


def test_a_program_names_a_file_in_its_own_way() -> None:
    """A path that begins with a dash, and the whole path of a service's device."""
    for word in ("-net", "./-net", str(Path("-net").absolute())):
        err = f"tznode: device file cannot be used\ntznode: {word}: neither a regular file nor a block device\n"
        assert fault_of("tznode", 1, err, "-net").cause == "neither a regular file nor a block device"
