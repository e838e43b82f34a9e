"""The command ``hizmorke``: one module a command, each loaded when it is called."""

from __future__ import annotations

import gc
import os
import sys
from contextlib import suppress
from importlib import import_module
from typing import Any

import click

from hizmorke import __version__
from hizmorke.errors import HizmorkeError

# Each command with the module that has it, under its own name there, and its line in the list.
COMMANDS = {
    "import": ("bring", "Bring a network to a device, which is made where it isn't there"),
    "export": ("export", "Print the network of a device"),
    "stats": ("stats", "Print how large a device's tables and how long its ways are"),
    "show": ("called", "Print what a device holds, nodes by their names"),
    "edit": ("called", "Make one change of a device, all operations or none"),
    "route": ("called", "Print the way of a packet, a line for each two nodes"),
    "view": ("look", "Open a page to look at a device or a live service"),
    "plot": ("draw", "Draw a network, its stretches or its tables into a file"),
    "time": ("times", "Time commands and a service on this machine"),
    "gate": ("gate", "Give one live service many clients, over a socket"),
    "fleet": ("fleet", "Hand tables to routers, probe them, and keep replicas of a device"),
}
# The exit statuses of a command that was interrupted, and of one whose output nobody reads any more.
INTERRUPTED, UNREAD = 130, 141
SETTINGS: dict[str, Any] = {"help_option_names": ["-h", "--help"], "max_content_width": 100}


class Interrupted(BaseException):
    """An interrupt from the keyboard, of which nothing is told: the terminal shows it."""


class Commands(click.Group):
    """The commands, of which only the one that is called is loaded."""

    def invoke(self, ctx: click.Context) -> Any:
        try:
            return super().invoke(ctx)
        except KeyboardInterrupt:
            raise Interrupted from None

    def list_commands(self, ctx: click.Context) -> list[str]:
        return [*COMMANDS, "help"]

    def get_command(self, ctx: click.Context, cmd_name: str) -> click.Command | None:
        if cmd_name == "help":
            return help_of
        if cmd_name not in COMMANDS:
            return None
        module = import_module(f"{__name__}.{COMMANDS[cmd_name][0]}")
        found = getattr(module, "COMMANDS")[cmd_name]
        assert isinstance(found, click.Command)
        return found

    def format_commands(self, ctx: click.Context, formatter: click.HelpFormatter) -> None:
        rows = [(name, told) for name, (_, told) in COMMANDS.items()]
        rows.append(("help", "Print this, or what a command takes"))
        with formatter.section("Commands"):
            formatter.write_dl(rows)


@click.group(cls=Commands, no_args_is_help=False, subcommand_metavar="COMMAND WORD..", context_settings=SETTINGS)
@click.version_option(__version__, prog_name="hizmorke", message="%(prog)s %(version)s")
def program() -> None:
    """Networks with small routing tables: in and out of a device, their figures, and a live service's gate.

    A DEVICE is a file that tznode makes. Nodes are called by the names that are kept beside it, in DEVICE.names.
    """


@click.command("help", context_settings=SETTINGS)
@click.argument("command", required=False)
@click.pass_context
def help_of(context: click.Context, command: str | None) -> None:
    """Prints what the program, or one of its commands, takes."""
    whole = context.parent
    assert whole is not None
    if command is None:
        printed(f"{whole.get_help()}\n")
        return
    if command == "gate":
        # Its words are read by itself.
        context.exit(gate_of(["--help"]))
    assert isinstance(whole.command, click.Group)
    found = whole.command.get_command(whole, command)
    if found is None:
        raise click.UsageError(f"no such command '{command}'.", ctx=whole)
    with click.Context(found, info_name=command, parent=whole, **SETTINGS) as inner:
        printed(f"{found.get_help(inner)}\n")


def gate_of(words: list[str]) -> int:
    """Runs the gate, and answers its status."""
    from hizmorke.gate import main

    try:
        return int(main(words) or 0)
    except SystemExit as ended:
        return int(ended.code or 0)


def told(text: str) -> None:
    """Prints a line `hizmorke: TEXT` on standard error, if that takes it."""
    with suppress(OSError, ValueError):
        print(f"hizmorke: {text}", file=sys.stderr, flush=True)


def _usage(error: click.UsageError) -> str:
    """What isn't understood, in one line, with the command whose help tells more."""
    text = error.format_message().replace("\n", " ").strip().rstrip(".")
    text = text[:1].lower() + text[1:]
    context = error.ctx
    names = [] if context is None else context.command_path.split()[1:]
    return f"{text} (hizmorke help {' '.join(names)}".rstrip() + " tells what it takes)"


def run(words: list[str]) -> int:
    """Does what the words ask for.

    Parameters
    ----------
    words
        The words behind the program's name.

    Returns
    -------
    int
        The exit status: 0 done, 1 the answer is no or a fault, 2 not understood; 130 it was interrupted, 141 nobody
        reads what it prints.
    """
    try:
        return _status(words)
    finally:
        _end_streams()


def _status(words: list[str]) -> int:
    try:
        status = program.main(words, prog_name="hizmorke", standalone_mode=False)
        printed("")
        return int(status or 0)
    except click.UsageError as error:
        told(_usage(error))
        return 2
    except click.exceptions.Exit as error:
        return int(error.exit_code)
    except (click.Abort, Interrupted):
        return INTERRUPTED
    except HizmorkeError as error:
        told(str(error))
        return int(error.status)
    except MemoryError:
        told("out of memory")
        return 1
    except OutputFailed as failed:
        if isinstance(failed.__cause__, BrokenPipeError):
            return UNREAD
        told("output failed")
        return 1
    except SystemExit as ended:
        # Nobody reads click's help.
        return UNREAD if isinstance(ended.__context__, BrokenPipeError) else int(ended.code or 0)
    except OSError as error:
        # Of a stream an error names no file: click's help is printed by itself.
        told("output failed" if error.filename is None else f"{error.filename}: {error.strerror}")
        return 1


def collect_seldom() -> None:
    """Looks for cycles seldom: a network is many objects and has none, so to look again and again costs a fifth of the
    time that it takes to read one."""
    gc.set_threshold(1_000_000)


class OutputFailed(Exception):
    """Standard output is closed, or took not all."""


def printed(text: str) -> None:
    """Prints a text on standard output, and flushes.

    Raises
    ------
    OutputFailed
        If standard output is closed or takes not all.
    """
    try:
        sys.stdout.write(text)
        sys.stdout.flush()
    except (OSError, ValueError) as error:
        raise OutputFailed from error


def _end_streams() -> None:
    """What couldn't be written isn't tried again at the end of the program."""
    for number, stream in ((1, sys.stdout), (2, sys.stderr)):
        try:
            stream.flush()
        except (OSError, ValueError):
            with suppress(OSError):
                os.dup2(os.open(os.devnull, os.O_WRONLY), number)
