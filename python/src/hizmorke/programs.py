"""Where the programs `tznode`, `tzlab` and `tzrouter` are, and how they are run."""

from __future__ import annotations

import os
import shutil
import subprocess
from collections.abc import Sequence
from dataclasses import dataclass
from pathlib import Path

from hizmorke.errors import (
    AnswerNotUnderstood,
    FileUnusable,
    HizmorkeError,
    NotUnderstood,
    ProgramMissing,
    error_of_text,
)

VARIABLE = "HIZMORKE_PROGRAMS"


@dataclass(frozen=True)
class Completed:
    """What a program that has ended left.

    Attributes
    ----------
    name : str
        The program's name.
    status : int
        Its exit status, below 0 for a signal.
    out, err : str
        What it printed. Bytes that are no UTF-8 are kept as surrogates.
    """

    name: str
    status: int
    out: str
    err: str

    def fault(self, path: str | None = None) -> HizmorkeError:
        """The exception for a program that failed, by the last line of its standard error that says what happened.

        Parameters
        ----------
        path : str, optional
            The file that it worked on.
        """
        return fault_of(self.name, self.status, self.err, path)


def fault_of(name: str, status: int, err: str, path: str | None = None) -> HizmorkeError:
    """The exception for what a program said on its standard error.

    Parameters
    ----------
    name : str
        The program's name.
    status : int
        Its exit status, below 0 for a signal.
    err : str
        All of its standard error.
    path : str, optional
        The file that it worked on.

    Returns
    -------
    HizmorkeError
        The class of the program's text. For a text that isn't known it is `NotUnderstood` if the status is 2, else
        `AnswerNotUnderstood`.
    """
    front = f"{name}: "
    texts = [line[len(front):] for line in err.splitlines() if line.startswith(front)]
    for place in reversed(range(len(texts))):
        if place and texts[place - 1] == FileUnusable.default_text:
            # Why a file can't be used stands behind that: `/dev/null: neither a regular file nor a block device`.
            continue
        found = _said_of(texts[place], path)
        if found is not None:
            if texts[place] == FileUnusable.default_text and place + 1 < len(texts):
                found.cause = _behind(texts[place + 1], path) or texts[place + 1]
            return found
    if status == 2 and err.strip():
        return NotUnderstood(err.strip().removeprefix(front))
    said = err.strip() or (f"it was ended by signal {-status}" if status < 0 else f"it ended with status {status}")
    return AnswerNotUnderstood(f"{name}: {said.removeprefix(front)}")


def _said_of(text: str, path: str | None) -> HizmorkeError | None:
    """The exception for a text, in front of which `tzlab` says of which file it speaks."""
    behind = _behind(text, path)
    return error_of_text(text, path) or (None if behind is None else error_of_text(behind, path))


def _behind(text: str, path: str | None) -> str | None:
    """What stands behind ``PATH: ``, None where the text doesn't begin so."""
    for word in () if path is None else (path, as_word(path), os.path.abspath(path)):
        if text.startswith(f"{word}: "):
            return text[len(word) + 2:]
    return None


def as_word(path: str | os.PathLike[str]) -> str:
    """A path as a program's word: one that begins with a dash is no option.

    Examples
    --------
    >>> as_word("net"), as_word("-net")
    ('net', './-net')
    """
    word = os.fspath(path)
    return f"./{word}" if word.startswith("-") else word


def checkout() -> Path | None:
    """The top folder of the repository that this package lies in, or None if it is installed elsewhere."""
    top = Path(__file__).resolve().parents[3]
    return top if (top / "crates" / "tznode").is_dir() and (top / "crates.txt").is_file() else None


class Programs:
    """Finds and runs the programs.

    A program is looked for in `folder`, then in the folder that the environment variable ``HIZMORKE_PROGRAMS`` names,
    then in ``PATH``. If the package lies in a checkout of the repository, what was built there comes last: the proved
    program, and then the one of which nothing is proved.

    Parameters
    ----------
    folder : path, optional
        A folder with the programs.

    Examples
    --------
    >>> Programs("/usr/bin").path("no-such-program")
    Traceback (most recent call last):
    ...
    hizmorke.errors.ProgramMissing: the program no-such-program isn't there: it was looked for in /usr/bin, ...
    """

    def __init__(self, folder: str | os.PathLike[str] | None = None) -> None:
        self.folder: Path | None = None if folder is None else Path(folder)

    def path(self, name: str) -> Path:
        """The program's file.

        Parameters
        ----------
        name : str
            ``tznode``, ``tzlab`` or ``tzrouter``.

        Raises
        ------
        ProgramMissing
            It isn't there. The text lists where it was looked for.
        """
        places: list[str] = []
        named = os.environ.get(VARIABLE)
        folders = [] if self.folder is None else [self.folder]
        folders += [Path(named)] if named else []
        for folder in folders:
            places.append(str(folder))
            if _runs(folder / name):
                return folder / name
        places.append("PATH")
        found = shutil.which(name)
        if found is not None:
            return Path(found)
        top = checkout()
        if top is not None:
            for folder in (top / "crates" / name / "out", top / "crates" / "tznode" / "out" / "unproved"):
                places.append(str(folder))
                if _runs(folder / name):
                    return folder / name
        raise ProgramMissing(name, tuple(places))

    def run(self, name: str, words: Sequence[str | os.PathLike[str]], input: str | bytes | None = None) -> Completed:
        """Runs a program to its end.

        Parameters
        ----------
        name : str
            ``tznode``, ``tzlab`` or ``tzrouter``.
        words : sequence of str
            Its words.
        input : str or bytes, optional
            Its standard input, else none.

        Returns
        -------
        Completed
            Its status and what it printed. A status that isn't 0 raises nothing here.

        Raises
        ------
        ProgramMissing
            It isn't there.
        """
        given = input.encode("utf-8", "surrogateescape") if isinstance(input, str) else input
        done = subprocess.run(
            [self.path(name), *words],
            input=given,
            stdin=subprocess.DEVNULL if given is None else None,
            stdout=subprocess.PIPE,
            stderr=subprocess.PIPE,
            check=False,
        )
        return Completed(name, done.returncode, _text(done.stdout), _text(done.stderr))


def _runs(path: Path) -> bool:
    return path.is_file() and os.access(path, os.X_OK)


def _text(content: bytes) -> str:
    return content.decode("utf-8", "surrogateescape")
