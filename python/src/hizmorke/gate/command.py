"""The words of ``hizmorke gate``."""

from __future__ import annotations

import argparse
import os
import resource
import socket
import stat
from typing import Callable, Optional, Sequence

from hizmorke.gate.bounds import NAME, SESSIONS, UNANSWERED, UNDER_WAY, Ending, log
from hizmorke.gate.desk import Rules
from hizmorke.gate.doors import doors_of
from hizmorke.gate.gate import Gate, Limits
from hizmorke.gate.sessions import Names, Sessions, forget
from hizmorke.programs import as_word

OTHER_FILES = 64  # of the gate's own, of guests and of monitors


def between(least: int, most: int, base: int = 10) -> Callable[[str], int]:
    """A word that is a number from the least to the most."""

    def number(text: str) -> int:
        value = int(text, base)
        if not least <= value <= most:
            raise argparse.ArgumentTypeError(f"not from {least} to {most}")
        return value

    return number


def folder(text: str) -> str:
    """A word that is a folder, as lines of the service can name it."""
    path = os.path.abspath(text)
    if not os.path.isdir(path):
        raise argparse.ArgumentTypeError(f"{text} is no folder")
    if any(byte <= 32 for byte in os.fsencode(path)):
        raise argparse.ArgumentTypeError("there is a blank in the folder's path")
    return path


def parser() -> argparse.ArgumentParser:
    """What the words are."""
    about = "Many clients of one tznode serve --live, which is given all other options."
    words = argparse.ArgumentParser(prog="hizmorke gate", allow_abbrev=False, description=about)
    words.add_argument("device", metavar="DEVICE", help="the network's file")
    words.add_argument("--words", metavar="W", help="which nodes are landmarks, as for tznode")
    words.add_argument("--program", metavar="PROGRAM", help="the program tznode (else the one that is found)")
    words.add_argument("--socket", metavar="PATH", help="listen on a Unix socket")
    mode, port, seconds = between(0, 0o777, 8), between(0, 65_535), between(0, 86_400 * 365)
    words.add_argument("--mode", metavar="M", type=mode, default=0o600, help="of that socket (else 0600)")
    words.add_argument("--tcp", metavar="PORT", type=port, help="listen on 127.0.0.1")
    words.add_argument("--metrics", metavar="PORT", type=port, help="figures: http://127.0.0.1:PORT/metrics")
    words.add_argument("--token", metavar="FILE", help="each connection has to say what stands in its first line")
    words.add_argument("--names", metavar="FILE", help="who may have a session, a name a line (else everybody)")
    words.add_argument("--backups", metavar="DIR", type=folder, help="backup NAME writes there, and nowhere else")
    words.add_argument("--tables", metavar="DIR", type=folder, help="tables NAME writes there, and nowhere else")
    many, few = between(1, 65_536), between(1, UNDER_WAY)
    words.add_argument("--clients", metavar="N", type=many, default=1_024, help="so many at once (else 1024)")
    about = f"so many lines of a client at once (else {UNANSWERED})"
    words.add_argument("--unanswered", metavar="N", type=few, default=UNANSWERED, help=about)
    about = "so long a client may do nothing (else 300; 0: for ever)"
    words.add_argument("--idle", metavar="SECONDS", type=seconds, default=300, help=about)
    words.add_argument("--forget", metavar="NAME", help="give this name's session back, and end; the gate may run")
    return words


def token_of(path: Optional[str]) -> Optional[bytes]:
    """The first line of the file of the token.

    Raises
    ------
    Ending
        Where it has none.
    """
    if path is None:
        return None
    try:
        with open(path, "rb") as file:
            mode = os.fstat(file.fileno()).st_mode
            token = file.read(4_096).splitlines()[:1]
    except OSError as e:
        raise Ending(f"{path}: {e.strerror}", 2) from e
    if not token or not token[0] or len(token[0]) > 1_024 or any(not 32 < byte < 127 for byte in token[0]):
        raise Ending(f"{path}:1: a token has 1 to 1024 letters, digits and signs, and no blank", 2)
    if mode & (stat.S_IRWXG | stat.S_IRWXO):
        log(f"warning: {path} may be read by others")
    return token[0]


def program_of(name: Optional[str]) -> str:
    """The program that is run.

    Raises
    ------
    Ending
        Where none is found.
    """
    if name is not None:
        return name
    from hizmorke.errors import HizmorkeError
    from hizmorke.programs import Programs

    try:
        return str(Programs().path("tznode"))
    except HizmorkeError as e:
        raise Ending(str(e), e.status) from e


def gate_of(words: argparse.Namespace, others: Sequence[str]) -> Gate:
    """The gate that the words ask for, with its sockets.

    Raises
    ------
    Ending
        Where one of them can't be used.
    OSError
        Where a socket can't be had.
    """
    # A connection takes a file each; some are the gate's own.
    soft, hard = resource.getrlimit(resource.RLIMIT_NOFILE)
    clients, enough = words.clients, words.clients + OTHER_FILES
    if soft != resource.RLIM_INFINITY and soft < enough:
        soft = enough if hard == resource.RLIM_INFINITY else min(enough, hard)
        resource.setrlimit(resource.RLIMIT_NOFILE, (soft, hard))
        clients = max(1, soft - OTHER_FILES)
    backups, tables = (os.fsencode(path) if path else None for path in (words.backups, words.tables))
    token = token_of(words.token)
    rules = Rules(token, backups, tables, Names(words.names) if words.names else None)
    sessions = Sessions(words.device)
    doors = doors_of(words.socket, words.mode, words.tcp, words.metrics, clients)
    if token is None and any(door.listener.family != socket.AF_UNIX and not door.is_for_monitors for door in doors):
        log("warning: without --token everybody on this machine is a client over TCP")
    try:
        program = program_of(words.program)
    except Ending:
        for door in doors:
            door.close()
        raise
    command = ["--words", words.words, "--live", "--editors", str(SESSIONS), *others]
    return Gate(program, as_word(words.device), command, Limits(clients, words.unanswered, words.idle), rules, sessions, doors)


def run(argv: Optional[Sequence[str]] = None) -> int:
    """Run a gate, or give a name's session back.

    Parameters
    ----------
    argv
        The words; without them those of the process.

    Returns
    -------
    int
        The exit status.
    """
    known = parser()
    try:
        words, others = known.parse_known_args(argv)
        if words.forget is None and words.words is None:
            known.error("the following arguments are required: --words")
        if words.forget is not None and (others or not NAME.fullmatch(os.fsencode(words.forget))):
            known.error("--forget is given a name, and goes with DEVICE alone")
    except SystemExit as e:
        return int(e.code or 0)
    try:
        if words.forget is not None:
            session = forget(words.device, os.fsencode(words.forget))
            print(f"forgotten session={session}")
            return 0
        return gate_of(words, others).run()
    except Ending as e:
        log(e.text)
        return e.status
    except OSError as e:
        log(f"{e.filename or 'a socket'}: {e.strerror}")
        return 1
