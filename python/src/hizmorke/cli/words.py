"""What options of commands have in common: each is given once, and numbers are plain."""

from __future__ import annotations

import re
from collections.abc import Callable
from typing import Any, TypeVar

import click

from hizmorke.errors import NotUnderstood

Function = TypeVar("Function", bound=Callable[..., Any])


def _one(context: click.Context, option: click.Parameter, given: tuple[str, ...]) -> str | None:
    if len(given) > 1:
        raise click.UsageError(f"the option '{option.opts[0]}' is there twice", ctx=context)
    return given[0] if given else None


def _flag(context: click.Context, option: click.Parameter, given: int) -> bool:
    if given > 1:
        raise click.UsageError(f"the option '{option.opts[0]}' is there twice", ctx=context)
    return given == 1


def value(name: str, shown: str, told: str, *, needed: bool = False) -> Callable[[Function], Function]:
    """An option that takes a value, at most once."""
    return click.option(name, metavar=shown, help=told, multiple=True, callback=_one, required=needed)


def flag(name: str, told: str) -> Callable[[Function], Function]:
    """An option that takes no value, at most once."""
    return click.option(name, help=told, count=True, callback=_flag)


def number(text: str, most: int) -> int | None:
    """A plain decimal number up to the most: no sign, no leading zero.

    Returns
    -------
    int or None
        None where the text is no such number.

    Examples
    --------
    >>> number("12", 63), number("012", 63), number("64", 63)
    (12, None, None)
    """
    if not re.fullmatch("0|[1-9][0-9]{0,19}", text):
        return None
    found = int(text)
    return found if found <= most else None


def number_in(text: str | None, least: int, most: int, told: str) -> int | None:
    """The number that an option has, None where it isn't given.

    Raises
    ------
    NotUnderstood
        With the text `told`, where it is none of least to most.
    """
    if text is None:
        return None
    found = number(text, most)
    if found is None or found < least:
        raise NotUnderstood(told)
    return found
