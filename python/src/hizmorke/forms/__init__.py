"""Networks in files: each form that is read and written.

`read_rows` reads a file as it is written, `hizmorke.names.assign` decides what its words stand for, and `read` does
both for a file that goes to no device. `text_of` and `write` write a network.

Read are ``edges`` (lines ``A B W``, or records of CSV), ``gephi`` (CSV with the header ``Source,Target,..``),
``konect``, ``networkx`` (what ``write_edgelist`` writes), ``dimacs``, ``as-rel``, ``json`` (node-link), ``graphml``,
``gml``, ``pajek``, ``gexf`` and ``mm`` (MatrixMarket). Written are ``edges``, ``csv``, ``dimacs``, ``dot``, ``json``,
``graphml``, ``gml``, ``pajek`` and ``mm``. ``edges``, ``json``, ``graphml`` and ``gml`` keep all nodes, their order and
their names, so that what was written is read as the same network.
"""

from __future__ import annotations

import os
import re
from typing import IO, TYPE_CHECKING, Any

from hizmorke.errors import FileUnusable, NotUnderstood
from hizmorke.forms.reading import Options, Reading

if TYPE_CHECKING:
    from hizmorke.forms.writing import Marks
    from hizmorke.network import Network

FORMS_IN = ("edges", "gephi", "konect", "networkx", "dimacs", "as-rel", "json", "graphml", "gml", "pajek", "gexf", "mm")
FORMS_OUT = ("edges", "csv", "dimacs", "dot", "json", "graphml", "gml", "pajek", "mm")

__all__ = [
    "FORMS_IN",
    "FORMS_OUT",
    "Options",
    "Reading",
    "check_export",
    "check_words",
    "read",
    "read_bytes",
    "read_rows",
    "taken_line",
    "text_of",
    "write",
]

_SUFFIXES = {".graphml": "graphml", ".gml": "gml", ".net": "pajek", ".gexf": "gexf", ".mtx": "mm"}
_GRAPHS = ("graphml", "gml", "pajek", "gexf")
# Which options go with which forms, and how it is told of the others.
_WITH_LISTS = ("edges", "gephi")
_WITH_SCALE = ("edges", "gephi", "konect", "networkx", "json", "mm", *_GRAPHS)
_WITH_DELIMITER = ("edges", "gephi", "networkx")


def _listed(words: tuple[str, ...]) -> str:
    return ", ".join(words[:-1]) + " or " + words[-1]




def check_words(form: str | None, options: Options) -> None:
    """See whether options go with a form that was asked for, before any file is read.

    Parameters
    ----------
    form : str, optional
        One of `FORMS_IN`; None if the file tells it.
    options : Options
        What else is asked for.

    Raises
    ------
    NotUnderstood
        ``--as takes ..``, ``--scale goes with edge lists``, ``--header and --no-header go with edge lists``.
    """
    if form is None:
        return
    if form not in FORMS_IN:
        raise NotUnderstood(f"--as takes {_listed(FORMS_IN)}")
    if options.header is not None and form not in _WITH_LISTS:
        raise NotUnderstood("--header and --no-header go with edge lists")
    if options.scale is not None and form not in _WITH_SCALE:
        raise NotUnderstood("--scale goes with edge lists")
    if options.columns is not None and form not in _WITH_LISTS:
        raise NotUnderstood("--columns goes with edge lists")
    if options.delimiter is not None and form not in _WITH_DELIMITER:
        raise NotUnderstood("--delimiter goes with edge lists")
    has_none = form in ("dimacs", "as-rel") or (form in ("konect", "mm") and options.weight != "none")
    if options.weight is not None and has_none:
        raise NotUnderstood("--weight goes with edge lists, JSON and graphs")


def read_rows(path: str | os.PathLike[str], form: str | None = None, options: Options = Options()) -> Reading:
    """Read a file as it is written.

    Parameters
    ----------
    path : str or path
        The file; ``/dev/stdin`` too.
    form : str, optional
        One of `FORMS_IN`. None: the file's name tells it by ``.graphml .gml .net .gexf .mtx``, else its text.
    options : Options
        How it is read.

    Returns
    -------
    Reading
        The words of each edge, its weight and its line.

    Raises
    ------
    NotUnderstood
        With the file and the line, if a line isn't of the form, or the text isn't UTF-8.
    FileUnusable
        If the file isn't there, or can't be read.

    Examples
    --------
    >>> import pathlib, tempfile
    >>> folder = tempfile.TemporaryDirectory()
    >>> file = pathlib.Path(folder.name, "roads")
    >>> _ = file.write_text("# roads\\nBern Thun 31\\nThun,Spiez\\n")
    >>> reading = read_rows(file)
    >>> reading.sources, reading.targets, reading.weights, list(reading.numbers)
    (['Bern', 'Thun'], ['Thun', 'Spiez'], [31, 1], [2, 3])
    >>> folder.cleanup()
    """
    check_words(form, options)
    name = os.fspath(path)
    try:
        with open(path, "rb") as file:
            content = file.read()
    except FileNotFoundError:
        raise FileUnusable("the file is not there", path=name) from None
    except OSError as error:
        raise FileUnusable(error.strerror or str(error), path=name) from error
    return read_bytes(content, name, form, options)


def read_bytes(content: bytes, path: str, form: str | None = None, options: Options = Options()) -> Reading:
    """Read bytes as `read_rows` reads a file, which refusals name by ``path``, and whose suffix may tell the form."""
    from hizmorke.names import decoded

    check_words(form, options)
    if form is None and not _asks_for_list(options):
        form = _SUFFIXES.get(os.path.splitext(path)[1].lower()) or _form_by_start(content)
        check_words(form, options)
    if form in _GRAPHS:
        from hizmorke.forms.graphs import read_graph

        return read_graph(content, path, form, options)
    if form == "mm":
        from hizmorke.forms.graphs import read_matrix

        return read_matrix(content, path, options)
    text = decoded(content, path).removeprefix("\ufeff")
    return _read_text(text, path, form, options)


def _asks_for_list(options: Options) -> bool:
    return options.header is not None or options.columns is not None or options.delimiter is not None


def _form_by_start(content: bytes) -> str | None:
    # The form of what no list begins with.
    start = content[:2000].removeprefix(b"\xef\xbb\xbf").lstrip()
    if start.startswith(b"%%MatrixMarket"):
        return "mm"
    if start.startswith(b"<"):
        found = re.search(rb"<(?:\w+:)?(graphml|gexf)\b", start)
        return None if found is None else found[1].decode("ascii")
    return None


def _read_text(text: str, path: str, form: str | None, options: Options) -> Reading:
    from hizmorke.forms import lines

    if form is None and text[:1] == "{" and not _asks_for_list(options):
        form = "json"
    if form == "json":
        from hizmorke.forms.links import read_links

        return read_links(text, path, options)
    parted = lines.Parted(text)
    if form is None:
        form = lines.form_of_list(parted, options) if _asks_for_list(options) else lines.form_of(parted)
        check_words(form, options)
    if form in _WITH_LISTS:
        return lines.read_edges(parted, path, options, form)
    return lines.READERS[form](parted, path, options)


def taken_line(reading: Reading, named: bool) -> str:
    """What was taken, in one line.

    Parameters
    ----------
    reading : Reading
        What was read.
    named : bool
        Whether its nodes are called by names: ``assigned.network.names is not None``.

    Examples
    --------
    >>> taken_line(Reading("f", "edges", [], [], [], [], header=False, rounded=3), True)
    'edges, header: no, names: yes, 3 weights rounded'
    """
    parts = [reading.form]
    if reading.header is not None:
        parts.append(f"header: {'yes' if reading.header else 'no'}")
    parts.append(f"names: {'yes' if named else 'no'}")
    if reading.undirected:
        parts.append("directed: the least weight of both ways")
    for count, what in ((reading.rounded, "rounded"), (reading.left_out, "left out")):
        if count:
            parts.append(f"{count} weight{'' if count == 1 else 's'} {what}")
    return ", ".join(parts)


def read(path: str | os.PathLike[str], form: str | None = None, **options: Any) -> Network:
    """Read a network from a file that goes to no device.

    Parameters
    ----------
    path : str or path
        The file.
    form : str, optional
        One of `FORMS_IN`; None: the file tells it.
    **options
        The fields of `Options`, and ``names``, ``least`` and ``nodes`` as ``--names``, ``--least`` and ``--nodes``.

    Returns
    -------
    Network
        The network, with what was taken in `Network.taken`.

    Raises
    ------
    NotUnderstood
        If the file can't be read as a network: with file and line.
    NetworkRefused
        If an end is no number of a node, or an edge can't be in a network.

    Examples
    --------
    >>> import pathlib, tempfile
    >>> folder = tempfile.TemporaryDirectory()
    >>> file = pathlib.Path(folder.name, "roads.csv")
    >>> _ = file.write_text("from,to,km\\nBern,Thun,31.4\\n")
    >>> network = read(file, scale=10)
    >>> network.names, network.edges, network.taken
    (['Bern', 'Thun'], [(0, 1, 314)], 'edges, header: yes, names: yes')
    >>> folder.cleanup()
    """
    from hizmorke.names import Target, assign, judge

    nodes = options.pop("nodes", None)
    names, least = options.pop("names", False), options.pop("least", False)
    reading = read_rows(path, form, Options(**options))
    assigned = assign(reading, Target(nodes=nodes), names=names, least=least)
    judge(reading, assigned)
    assigned.network.taken = taken_line(reading, assigned.network.names is not None)
    return assigned.network


def check_export(form: str, marked: bool = False) -> None:
    """See whether a form is one that is written, and whether marks go with it.

    Raises
    ------
    NotUnderstood
        ``--as takes ..``; ``--words goes with --as dot``.
    """
    if form not in FORMS_OUT:
        raise NotUnderstood(f"--as takes {_listed(FORMS_OUT)}")
    if marked and form != "dot":
        raise NotUnderstood("--words goes with --as dot")


def text_of(network: Network, form: str = "edges", marks: Marks | None = None) -> str:
    """A network as text.

    Parameters
    ----------
    network : Network
        The network. Its edges are written in ascending order, and nodes by their names, or as ``#3`` where they have
        none.
    form : str
        One of `FORMS_OUT`.
    marks : sequence, optional
        With ``dot``: for each node its nearest landmark and that landmark's place among all landmarks, from 0, or None
        where no landmark reaches it.

    Raises
    ------
    NotUnderstood
        If there is no such form, or marks go with another one than ``dot``.
    NetworkRefused
        If a name can't stand in this form.

    Examples
    --------
    >>> from hizmorke import Network
    >>> print(text_of(Network(3, [(1, 0, 5)], ["Bern", "Thun"])), end="")
    # nodes=3
    # Bern
    # Thun
    # #2
    Bern Thun 5
    """
    from hizmorke.forms import writing

    check_export(form, marks is not None)
    return writing.dot_text(network, marks) if form == "dot" else writing.WRITERS[form](network)


def write(network: Network, to: str | os.PathLike[str] | IO[str], form: str = "edges") -> None:
    """Write a network to a file, by its path, or to an open text stream, as `text_of` has it."""
    text = text_of(network, form)
    if isinstance(to, (str, os.PathLike)):
        try:
            with open(to, "wb") as file:
                file.write(text.encode("utf-8"))
        except OSError as error:
            raise FileUnusable(error.strerror or str(error), path=os.fspath(to)) from error
    else:
        to.write(text)
