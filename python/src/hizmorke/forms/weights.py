"""The weights of edges, as words or as numbers, maybe multiplied and rounded."""

from __future__ import annotations

from collections.abc import Mapping
from decimal import Decimal, InvalidOperation
from typing import TYPE_CHECKING, Any

if TYPE_CHECKING:
    from hizmorke.forms.reading import Reading

BELOW = 2**32
WEIGHT = "the weight is a plain number below 4294967296"
MOST_DIGITS = 18
MOST_PLACES = 30


class Weights:
    """Reads weights, and counts what was rounded and left out.

    Parameters
    ----------
    scale : int, optional
        By what weights are multiplied, which may be decimal then. None: they are plain numbers.
    decimal_comma : bool
        Whether a decimal comma may stand for the point.

    Examples
    --------
    >>> weights = Weights(100)
    >>> weights.of("1.25"), weights.of("0.0149"), weights.of("1e3"), weights.rounded
    (125, 1, None, 1)
    >>> Weights(None).of("05") is None
    True
    """

    text = WEIGHT

    def __init__(self, scale: int | None, decimal_comma: bool = False) -> None:
        self.scale = scale
        self.decimal_comma = decimal_comma
        self.rounded = 0
        self.are_left_out = 0
        # The greatest error in thousandths, as it is told; None if a weight in thousandths is out of range.
        self.most_error: int | None = 0
        self._known: dict[str, int] = {}

    def left_out(self) -> int:
        """The weight of an edge that has none."""
        self.are_left_out += 1
        return 1 if self.scale is None else self._multiplied(1, 1)

    def of(self, word: str) -> int | None:
        """The weight that a word is, below 2^32; None if it is none."""
        if self.scale is not None:
            return self._scaled(word)
        weight = self._known.get(word)
        if weight is None:
            if not (word.isascii() and word.isdigit()) or (word[0] == "0" and word != "0") or len(word) > 10:
                return None
            weight = int(word)
            if weight >= BELOW:
                return None
            self._known[word] = weight
        return weight

    def _scaled(self, word: str) -> int | None:
        if self.decimal_comma and "." not in word:
            word = word.replace(",", ".", 1)
        whole, _, part = word.partition(".")
        digits = whole + part
        if not whole or not (digits.isascii() and digits.isdigit()) or len(digits) > MOST_DIGITS:
            return None
        weight = self._multiplied(int(digits), 10 ** len(part))
        return weight if weight < BELOW else None

    def _multiplied(self, units: int, unit: int) -> int:
        # units/unit times the scale, rounded, a half up. The error is told in thousandths, themselves rounded.
        assert self.scale is not None
        product = self.scale * units
        weight = (2 * product + unit) // (2 * unit)
        if product % unit:
            self.rounded += 1
        exact = (2000 * product + unit) // (2 * unit)
        if exact >= BELOW:
            self.most_error = None
        elif self.most_error is not None:
            self.most_error = max(self.most_error, abs(1000 * weight - exact))
        return weight

    def of_number(self, value: Any, whole: bool = False) -> int | None:
        """The weight that a number is: an int, or with a scale any number that isn't negative. None if it is none.

        Parameters
        ----------
        value : number
            An int, a float, a Decimal, or a number of NumPy.
        whole : bool
            Whether a whole number of another type is taken without a scale, since its reader gives all numbers so.
        """
        exact = exact_number(value)
        if exact is None or exact < 0 or exact >= BELOW:
            return None
        if self.scale is None:
            if isinstance(exact, int):
                return exact
            return int(exact) if whole and exact == exact.to_integral_value() else None
        if isinstance(exact, int) or not exact:
            weight = self._multiplied(int(exact), 1)
        elif exact.adjusted() < -MOST_PLACES:
            # As good as 0, and no denominator of a million digits is made.
            weight = self._multiplied(1, 10**MOST_PLACES)
        else:
            weight = self._multiplied(*exact.as_integer_ratio())
        return weight if weight < BELOW else None

    def tell(self, reading: Reading) -> None:
        """Say in a reading what was rounded and left out."""
        reading.rounded = self.rounded
        reading.left_out = self.are_left_out
        if self.scale is not None and self.most_error is not None:
            reading.error = self.most_error / 1000
            note = f"weights are multiplied by {self.scale}, with an error of at most 0.{self.most_error:03}"
            reading.notes.append(f"{reading.path}: {note}")


def exact_number(value: Any) -> int | Decimal | None:
    """A number without an error: an int, or a Decimal as it is written. None if it is no finite number."""
    if isinstance(value, (bool, str, bytes)):
        return None
    if isinstance(value, (int, Decimal)):
        return value if isinstance(value, int) or value.is_finite() else None
    if isinstance(value, float):
        found = Decimal(repr(float(value)))
        return found if found.is_finite() else None
    try:
        return int(value.__index__())
    except (AttributeError, TypeError):
        pass
    try:
        found = Decimal(repr(float(value)))
    except (TypeError, ValueError, InvalidOperation):
        return None
    return found if found.is_finite() else None


# What an edge's data may have beside its weight.
_NO_WEIGHTS = frozenset({"source", "target", "key", "id"})


def weight_among(
    data: Mapping[Any, Any], weights: Weights, key: str | None, whole: bool = False
) -> tuple[int | None, str]:
    """The weight in the data of an edge, by its key; or None, and what is wrong.

    An edge without the key has the weight 1, unless other keys have numbers: then it is told which, since one of them
    may be the weight.

    Examples
    --------
    >>> weight_among({"cost": 5}, Weights(None), None)
    (None, 'it has no `weight`, but `cost`: --weight says which is the weight, or none')
    >>> weight_among({"cost": 5}, Weights(None), "cost"), weight_among({"type": "road"}, Weights(None), None)
    ((5, ''), (1, ''))
    """
    wanted = "weight" if key is None else key
    if wanted in data:
        weight = weights.of_number(data[wanted], whole)
        return weight, "" if weight is not None else WEIGHT
    if key == "none":
        return weights.left_out(), ""
    others = [name for name, value in data.items() if name not in _NO_WEIGHTS and exact_number(value) is not None]
    if others:
        listed = ", ".join(f"`{name}`" for name in others)
        return None, f"it has no `{wanted}`, but {listed}: --weight says which is the weight, or none"
    return weights.left_out(), ""
