"""Node-link JSON, as networkx writes it."""

from __future__ import annotations

import json
import re
from collections.abc import Sequence
from typing import Any

from hizmorke.errors import NotUnderstood
from hizmorke.forms.reading import Options, Reading, check_directions
from hizmorke.forms.weights import Weights, weight_among
from hizmorke.names import TWICE, is_label

JSON = "the text is no JSON"
ARRAYS = "the text has no array `nodes`, or no array `links` or `edges`"
NODE = "a node has an `id` that is a name or a whole number"
LINK = "a link has a `source` and a `target` that are names or whole numbers"

_TOKENS = re.compile(r'"(?:[^"\\]|\\.)*"|NaN|-?Infinity')
_BELOW = 2**64


class _Constant(Exception):
    """The text has a NaN or an Infinity."""


def _refuse_constant(word: str) -> Any:
    raise _Constant


def _value_of(text: str, path: str) -> Any:
    try:
        return json.loads(text, parse_constant=_refuse_constant, parse_float=_float_of)
    except _Constant:
        found = next((token for token in _TOKENS.finditer(text) if token[0][0] != '"'), None)
        line = 1 if found is None else text.count("\n", 0, found.start()) + 1
    except json.JSONDecodeError as error:
        line = error.lineno
    except (RecursionError, ValueError):
        line = 1
    raise NotUnderstood(JSON, path=path, line=line)


def _float_of(word: str) -> Any:
    from decimal import Decimal

    return Decimal(word)


def _word_of(value: Any) -> str | None:
    # What a node is called by a value.
    if isinstance(value, str):
        return value if is_label(value) else None
    if isinstance(value, int) and not isinstance(value, bool) and 0 <= value < _BELOW:
        return str(value)
    return None


class _Words:
    """The words by which a text calls nodes, each in one spelling."""

    def __init__(self, path: str) -> None:
        self.path = path
        self.kinds: dict[str, type] = {}

    def of(self, value: Any, place: str, number: int) -> str | None:
        """The word of a value, or None. A word that stands as a number and as a text is refused."""
        word = _word_of(value)
        if word is not None and self.kinds.setdefault(word, type(value)) is not type(value):
            text = f'{place} {number}: {word} and "{word}" are two spellings of one name'
            raise NotUnderstood(text, path=self.path)
        return word


def read_links(text: str, path: str, options: Options) -> Reading:
    """Read node-link JSON: ``nodes`` with ``id``, and ``links`` or ``edges`` with ``source``, ``target`` and
    ``weight``."""
    value = _value_of(text, path)
    nodes, links = _array_at(value, "nodes"), _array_at(value, "links")
    if links is None:
        links = _array_at(value, "edges")
    if nodes is None or links is None:
        raise NotUnderstood(ARRAYS, path=path, line=1)
    words = _Words(path)
    reading = Reading(path, "json", [], [], [], range(1, len(links) + 1), place="link")
    reading.labels = _labels_of(nodes, words)
    if not all(isinstance(node["id"], int) for node in nodes):
        reading.by_names = True
    weights = Weights(options.scale)
    for number, link in enumerate(links, 1):
        if not isinstance(link, dict):
            raise NotUnderstood(f"link {number}: {LINK}", path=path)
        source, end = words.of(link.get("source"), "link", number), words.of(link.get("target"), "link", number)
        if source is None or end is None:
            raise NotUnderstood(f"link {number}: {LINK}", path=path)
        weight, wrong = weight_among(link, weights, options.weight)
        if weight is None:
            raise NotUnderstood(f"link {number}: {wrong}", path=path)
        reading.sources.append(source)
        reading.targets.append(end)
        reading.weights.append(weight)
    weights.tell(reading)
    if value.get("directed") is True:
        check_directions(reading, options)
    return reading


def _array_at(value: Any, key: str) -> list[Any] | None:
    found = value.get(key) if isinstance(value, dict) else None
    return found if isinstance(found, list) else None


def _labels_of(nodes: Sequence[Any], words: _Words) -> list[str]:
    # What nodes are called, or the first that isn't, or is called as one before it.
    labels: dict[str, None] = {}
    for number, node in enumerate(nodes, 1):
        word = words.of(node.get("id"), "node", number) if isinstance(node, dict) else None
        if word is None:
            raise NotUnderstood(f"node {number}: {NODE}", path=words.path)
        if word in labels:
            raise NotUnderstood(f"node {number}: {TWICE}", path=words.path)
        labels[word] = None
    return list(labels)
