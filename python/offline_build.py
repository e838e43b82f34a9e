"""Builds the package by the setuptools that this Python has: pip asks an index only for what isn't there.

Pip builds in a place of its own, which hides the packages of this Python. So pyproject.toml asks for nothing, and they
are looked for here, behind what pip has put there.
"""

import site
import sys
from importlib.util import find_spec
from typing import Any

NEEDED = ("setuptools", "wheel")

sys.path += [folder for folder in (*site.getsitepackages(), site.getusersitepackages()) if folder not in sys.path]


def get_requires_for_build_wheel(config_settings: Any = None) -> list[str]:
    """What pip has to bring first."""
    return [name for name in NEEDED if find_spec(name) is None]


get_requires_for_build_sdist = get_requires_for_build_editable = get_requires_for_build_wheel


def __getattr__(name: str) -> Any:
    # What builds is setuptools: it is loaded once pip has brought it.
    if name.startswith("_"):
        raise AttributeError(name)
    from setuptools import build_meta

    return getattr(build_meta, name)
