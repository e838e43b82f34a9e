"""The command ``hizmorke view``."""

from __future__ import annotations

import ipaddress
import os
import signal
import sys
import tempfile
import threading
from pathlib import Path
from typing import TYPE_CHECKING, Any

import click

from hizmorke.cli import SETTINGS, printed, told
from hizmorke.cli.words import flag, number, value
from hizmorke.errors import FileUnusable, NotUnderstood

if TYPE_CHECKING:
    from hizmorke.view.server import Server
    from hizmorke.view.sources import Place, Source
    from hizmorke.view.watch import Watch


@click.command("view", context_settings=SETTINGS)
@click.argument("device", metavar="[DEVICE]", required=False)
@value("--connect", "PLACE", "A gate: HOST:PORT, or the path of its Unix socket")
@value("--token", "FILE", "The gate's token: the first line of this file")
@value("--name", "NAME", "The name by which the gate is told edits; view where none is named")
@value("--words", "W", "The landmarks of the device at the start; without it draw:7")
@value("--port", "P", "The page's port; without it a free one")
@value("--listen", "ADDRESS", "The page's address, for others than this machine; without it 127.0.0.1")
@flag("--edit", "Take edits, of who has the token in the printed address")
@flag("--no-browser", "Open no browser")
def view(
    device: str | None,
    connect: str | None,
    token: str | None,
    name: str | None,
    words: str | None,
    port: str | None,
    listen: str | None,
    edit: bool,
    no_browser: bool,
) -> int:
    """Open a page to look at a device, or at a live service behind a gate.

    It prints the page's address, and serves it until it is interrupted. Of a device at rest a copy is read. Beside
    --connect DEVICE is a backup of the network, or the device that is served, whose names are read then.
    """
    if device is None and connect is None:
        raise NotUnderstood("view takes a DEVICE, or --connect")
    if connect is None and (token is not None or name is not None):
        raise NotUnderstood("--token and --name go with --connect")
    if connect is not None and words is not None:
        raise NotUnderstood("a service has landmarks of its own: --words goes with a device at rest")
    number_of_port = 0 if port is None else number(port, 65_535)
    if number_of_port is None:
        raise NotUnderstood("--port is a number up to 65535")
    address = "127.0.0.1" if listen is None else _address(listen)
    if words is not None:
        from hizmorke.cli.called import words_of_form

        words_of_form(words)

    from hizmorke.view.model import Model
    from hizmorke.view.server import Server, new_token

    source, watch = _source(device, connect, words, None if token is None else _token(token), name or "view", edit)
    model = Model(source, watch)
    try:
        try:
            server = Server(model, address, number_of_port, new_token() if edit else None)
        except OSError as error:
            raise FileUnusable(error.strerror, path=f"{address}:{number_of_port}") from error
        if listen is not None and not ipaddress.ip_address(address).is_loopback:
            told("warning: everybody who reaches this address sees the network, and nothing is encrypted")
        printed(f"{server.url}\n")
        with server, tempfile.TemporaryDirectory(prefix="hizmorke-view-") as room:
            if not no_browser:
                _open(server, Path(room))
            _serve(server)
    finally:
        model.close()
    return 0


def _address(text: str) -> str:
    try:
        return str(ipaddress.ip_address(text))
    except ValueError:
        raise NotUnderstood("--listen takes an address of this machine, such as 192.0.2.1 or 0.0.0.0") from None


def _place(text: str) -> Place:
    if "/" in text:
        return text
    host, colon, port = text.rpartition(":")
    found = number(port, 65_535)
    if not colon or not host or not found:
        raise NotUnderstood("--connect takes HOST:PORT, or a path with a slash")
    return host.removeprefix("[").removesuffix("]"), found


def _token(path: str) -> str:
    try:
        with open(path, encoding="ascii") as file:
            return file.readline(2_000).rstrip("\r\n")
    except (OSError, ValueError) as error:
        raise FileUnusable(getattr(error, "strerror", None), path=path) from error


def _source(
    device: str | None, connect: str | None, words: str | None, token: str | None, name: str, edit: bool
) -> tuple[Source, Watch | None]:
    from hizmorke.view.sources import LiveService, RestDevice
    from hizmorke.view.watch import Watch

    if connect is None:
        assert device is not None
        rest = RestDevice(Path(device), words, can_edit=edit)
        try:
            # What can't be read is told here, and not on a page.
            rest.device.resume(0)
        except BaseException:
            rest.close()
            raise
        return rest, None
    place = _place(connect)
    service = LiveService(place, token, None if device is None else Path(device), name=name if edit else None)
    return service, Watch(place, token, service.session)


def _open(server: Server, room: Path) -> None:
    """Opens the page where there is a screen. The token isn't among a program's words, which others may read."""
    if not any(os.environ.get(screen) for screen in ("DISPLAY", "WAYLAND_DISPLAY", "BROWSER")):
        return
    import webbrowser

    url = server.url
    if server.token is not None:
        file = room / "page.html"
        file.touch(0o600)
        file.write_text(f'<!doctype html><meta http-equiv="refresh" content="0; url={url}">')
        url = file.as_uri()
    threading.Thread(target=webbrowser.open, args=(url,), daemon=True).start()


def _serve(server: Server) -> None:
    """Serves until an interrupt, or SIGTERM, which ends it in order too."""

    def end(*_: Any) -> None:
        raise KeyboardInterrupt

    before = signal.signal(signal.SIGTERM, end)
    try:
        server.serve_forever(0.2)
    except KeyboardInterrupt:
        sys.stderr.flush()
    finally:
        signal.signal(signal.SIGTERM, before)


COMMANDS = {"view": view}
