"""What a reader of a form is asked for, and what it gives: `Options` and `Reading`."""

from __future__ import annotations

from collections.abc import Sequence
from dataclasses import dataclass, field
from functools import cached_property
from itertools import chain

from hizmorke.errors import HizmorkeError, NotUnderstood

MOST_SCALE = 1_000_000


@dataclass(frozen=True)
class Options:
    """How a network is read. Each field is an option of ``hizmorke import``, of the same name.

    Parameters
    ----------
    header : bool, optional
        True: the first line that says something is a header (``--header``). False: no line is one (``--no-header``).
        None: it is one by its words, as `hizmorke.forms.lines` lists them.
    scale : int, optional
        Weights, which may be decimal, are multiplied by this, 1 to 1,000,000, and rounded, a half up.
    delimiter : str, optional
        The one character between fields: ``,``, ``;``, a tab (also written ``tab`` or ``\\t``), or another.
    columns : tuple of str, optional
        The columns of both ends and, maybe, of the weight: by the names in the header, or by numbers from 1.
    weight : str, optional
        The column, key or attribute that has the weight. ``none`` gives each edge the weight 1.
    undirected : str, optional
        ``min`` takes a directed network as undirected: of the ways between two nodes the least weight counts.

    Raises
    ------
    NotUnderstood
        If a value isn't one of these.
    """

    header: bool | None = None
    scale: int | None = None
    delimiter: str | None = None
    columns: tuple[str, ...] | None = None
    weight: str | None = None
    undirected: str | None = None

    def __post_init__(self) -> None:
        if self.scale is not None and not 1 <= self.scale <= MOST_SCALE:
            raise NotUnderstood("--scale takes 1 to 1000000")
        if self.undirected not in (None, "min"):
            raise NotUnderstood("--undirected takes min")
        if self.delimiter is not None:
            character = {"tab": "\t", "\\t": "\t"}.get(self.delimiter, self.delimiter)
            if len(character) != 1 or character in '"\r\n#' or character.isalnum():
                raise NotUnderstood('--delimiter takes one character, no letter or digit, and none of `"` and `#`')
            object.__setattr__(self, "delimiter", character)
        if self.columns is not None and not (2 <= len(self.columns) <= 3 and all(self.columns)):
            raise NotUnderstood("--columns takes A,B or A,B,W")
        if self.columns is not None and len(self.columns) == 3 and self.weight is not None:
            raise NotUnderstood("either --weight or a third column in --columns")


@dataclass
class Reading:
    """What a file says of a network: its words as they are written. What they stand for is decided by
    `hizmorke.names.assign`.

    Parameters
    ----------
    path : str
        The file, as refusals name it; empty where there is none.
    form : str
        The form: one of `hizmorke.forms.FORMS_IN`.
    sources, targets : list of str
        Both ends of each edge, as words.
    weights : list of int
        The weight of each edge, below 2^32: a network takes 1 to 1,000,000.
    numbers : sequence of int
        What says each edge, from 1: its line, or its link in JSON, or its entry in a matrix, by `place`.
    place : str
        ``line``, ``link``, ``entry``, or ``edge`` where an edge is told by its ends.
    labels : list of str
        What the nodes are called, in order, where that is said.
    label_place : str
        ``line`` or ``node``: how a label that isn't taken is told.
    node_count : int, optional
        How many nodes there are, where that is said.
    by_names : bool, optional
        True: ends are names, digits too. False: they are numbers. None: they are numbers if each has digits alone.
    first : int
        How the first node is written, where ends are numbers: 0, or 1.
    repeats : bool
        Whether edges with the same ends and one weight are one edge; else they are refused.
    least : bool
        Whether of edges with the same ends the least weight counts.
    header : bool, optional
        Whether there was a header, where the form may have one.
    rounded, left_out : int
        How many weights were rounded, and how many were left out, so they are 1.
    error : float
        How far a weight is at most from what it was multiplied to.
    undirected : bool
        Whether a directed network was taken as undirected.
    notes : list of str
        Lines for the reader, without the program's name: how far weights were rounded.
    """

    path: str
    form: str
    sources: list[str]
    targets: list[str]
    weights: list[int]
    numbers: Sequence[int]
    place: str = "line"
    labels: list[str] = field(default_factory=list)
    label_place: str = "node"
    node_count: int | None = None
    by_names: bool | None = None
    first: int = 0
    repeats: bool = True
    least: bool = False
    header: bool | None = None
    rounded: int = 0
    left_out: int = 0
    error: float = 0.0
    undirected: bool = False
    notes: list[str] = field(default_factory=list)

    @cached_property
    def ends(self) -> dict[str, None]:
        """The words of all ends, each once, in the order in which they come; asked for when all edges are there."""
        return dict.fromkeys(chain.from_iterable(zip(self.sources, self.targets)))

    def refusal(self, kind: type[HizmorkeError], index: int, text: str) -> HizmorkeError:
        """The exception of this kind that speaks of the edge at an index."""
        if self.place == "line":
            return kind(text, path=self.path, line=self.numbers[index])
        return kind(f"{self.place_of(index)}: {text}", path=self.path or None)

    def label_refusal(self, kind: type[HizmorkeError], index: int, text: str) -> HizmorkeError:
        """The exception of this kind that speaks of the label at an index."""
        if self.label_place == "line":
            return kind(text, path=self.path, line=index + 2)
        return kind(f"node {index + 1}: {text}", path=self.path or None)

    def place_of(self, index: int) -> str:
        """What says the edge at an index: ``line 5``, ``link 5``, ``edge A B``."""
        if self.place == "edge":
            return f"edge {self.sources[index]} {self.targets[index]}"
        return f"{self.place} {self.numbers[index]}"


ONE_WAY = (
    "the network is directed, and this way has none back of its weight: "
    "--undirected min takes the smaller weight of both"
)


def check_directions(reading: Reading, options: Options, arcs: Sequence[bool] | None = None) -> None:
    """Take a directed network as undirected, if that is asked for, or if each way has its way back.

    Parameters
    ----------
    reading : Reading
        The ways.
    options : Options
        What is asked for.
    arcs : sequence of bool, optional
        Which of them go one way; None: all.

    Raises
    ------
    NotUnderstood
        The first way that has no way back of its weight.
    """
    reading.repeats = True
    if options.undirected == "min":
        reading.least = reading.undirected = True
        return
    ways = list(zip(reading.sources, reading.targets, reading.weights))
    there = set(ways)
    if arcs is not None:
        there.update((b, a, weight) for (a, b, weight), is_arc in zip(ways, arcs) if not is_arc)
    for index, (a, b, weight) in enumerate(ways):
        if (arcs is None or arcs[index]) and (b, a, weight) not in there:
            raise reading.refusal(NotUnderstood, index, ONE_WAY)


__all__ = ["MOST_SCALE", "ONE_WAY", "Options", "Reading", "check_directions"]
