"""The examples in docstrings are run, of each module."""

from __future__ import annotations

import doctest
import importlib
import pkgutil

import pytest

import hizmorke

MODULES = [
    found.name
    for found in pkgutil.walk_packages(hizmorke.__path__, "hizmorke.")
    if not found.name.endswith(".__main__")
]
# What a module needs that a machine may lack.
PACKAGES = ("click", "matplotlib", "networkx", "numpy", "scipy")


@pytest.mark.parametrize("name", ["hizmorke", *MODULES])
def test_examples_say_what_comes(name: str) -> None:
    try:
        module = importlib.import_module(name)
    except ModuleNotFoundError as missing:
        if missing.name not in PACKAGES:
            raise
        pytest.skip(f"{missing.name} isn't there")
    assert doctest.testmod(module, optionflags=doctest.ELLIPSIS).failed == 0


def test_what_is_used_first_has_examples_that_are_run() -> None:
    for subject in (hizmorke, hizmorke.Network, hizmorke.read):
        found = doctest.DocTestFinder(recurse=False).find(subject, getattr(subject, "__name__", None))
        examples = [example for each in found for example in each.examples]
        assert any(doctest.SKIP not in example.options for example in examples), subject
