"""Texts of lines: edge lists, Gephi's CSV, KONECT, networkx's lists, DIMACS, and the relations of networks as CAIDA has
them.

A header is the first line that says something, if ``--header`` asks for it or by its words alone, in either case:

- its fields are a pair of `END_WORDS`, and a third one, where there is one, begins with no digit, sign or point;
- it has commas and three fields, of which the third is one of `WEIGHT_WORDS`;
- it has the columns ``source`` and ``target``, and ``type`` or more than three columns: then the list is Gephi's;
- it has the columns that ``--columns`` or ``--weight`` name.

A line of two names above lines that call all their nodes by numbers may be one or not: it is refused, and ``--header``
or ``--no-header`` tells.
"""

from __future__ import annotations

import re
from collections.abc import Callable, Sequence
from itertools import chain
from typing import Any, NamedTuple

from hizmorke.errors import NotUnderstood
from hizmorke.forms.reading import Options, Reading, check_directions
from hizmorke.forms.weights import BELOW, Weights
from hizmorke.names import MOST_NODES, NO_LABEL, OTHER_NUMBER, TWICE, is_label, number_sign, plain_number

END_WORDS = frozenset(
    {
        ("source", "target"),
        ("from", "to"),
        ("node1", "node2"),
        ("node_1", "node_2"),
        ("nodea", "nodeb"),
        ("node_a", "node_b"),
        ("id1", "id2"),
        ("id_1", "id_2"),
        ("src", "dst"),
        ("fromnodeid", "tonodeid"),
    }
)
WEIGHT_WORDS = frozenset(
    {
        "weight", "weights", "w", "cost", "costs", "distance", "dist", "length", "len", "km", "miles", "metres",
        "meters", "ms", "latency", "delay", "rtt", "metric", "value",
    }
)  # fmt: skip

FIELDS = "a line is `A B W` or `A,B,W`, where W may be left out"
ARC = "a line is `c TEXT`, `p sp N M` or `a U V W`"
RELATION = "a line is `A|B|R`, where R is -1, 0, 1 or 2"
KONECT = "a line is `A B`, `A B W` or `A B W TIME`, behind lines that begin with `%`"
NETWORKX = "a line is `A B {..}`, as networkx writes it"
RECORD = "a line with commas is one record of CSV: no blank stands before a quoted field, which ends in the line"
NAME = "a name has no line break in it, and begins with no `#` and a blank"
NODES = "a network has 1 to 16384 nodes"
HEAD_NAMES = "behind `# nodes=N` stand N lines `# NAME`, or none"
OTHER_DELIMITER = "the line has a decimal comma, or another delimiter than commas: --delimiter says which"
MAY_BE_HEADER = "the line may be a header: --header or --no-header says it"
NEEDS_HEADER = "--weight, and --columns by name, need a header"

# What `str.split` takes for blanks beside the blank, the tab and the carriage return.
_OTHER_BLANKS = (
    "\x0b\x0c\x1c\x1d\x1e\x1f\x85\xa0\u1680\u2000\u2001\u2002\u2003\u2004\u2005\u2006\u2007\u2008\u2009\u200a"
    "\u2028\u2029\u202f\u205f\u3000"
)
_BLANKS = " \t\n\x0c\r"
_AROUND_FIELDS = (" ,", ", ", "\n ", " \n", "\t", "\x0c", "\r")
_DECIMAL_COMMA = re.compile(r".*[; \t][0-9.]*[0-9],[0-9]+[ \t\r]*")
_LISTED = re.compile(r"[ \t\r]*([^ \t\r{]+)[ \t\r]+([^ \t\r{]+)[ \t\r]+(\{.*\})[ \t\r]*")
# One key and a number, as nearly all edges have: `ast.literal_eval` takes ten times as long.
_PLAIN_DATA = re.compile(r"\{'([a-z_]+)': ((?:0|[1-9][0-9]{0,17})(\.[0-9]{1,18})?)\}")
_RELATIONS = frozenset({"0", "1", "2", "-1"})

Split = Callable[[str], list[str]]


def lines_of(text: str) -> list[str]:
    """The lines of a text: what stands between line feeds. Behind the last one there may be nothing."""
    lines = text.split("\n")
    if not lines[-1]:
        lines.pop()
    return lines


def _split_plain(line: str) -> list[str]:
    return [word for word in re.split("[ \t\r]+", line) if word]


def splitter(text: str) -> Split:
    """What parts a line of this text into words between blanks, tabs and carriage returns."""
    if any(blank in text for blank in _OTHER_BLANKS if ord(blank) < 128 or not text.isascii()):
        return _split_plain
    return str.split


class Parted:
    """A text in lines, and each line in words."""

    def __init__(self, text: str) -> None:
        self.lines = lines_of(text)
        self.has_commas = "," in text
        # Whether no field is quoted, and carriage returns stand at the ends of lines alone.
        self.is_bare = '"' not in text and text.count("\r") == text.count("\r\n")
        # Whether no blank stands around a field.
        self.is_tight = not any(pair in text for pair in _AROUND_FIELDS) and text[:1] != " " and text[-1:] != " "
        split = splitter(text)
        self.split = split
        self.rows = [split(line) for line in self.lines]
        self.lengths = set(map(len, self.rows))
        # The place of the first line that says something.
        self.start = next((at for at, row in enumerate(self.rows) if row and row[0][0] != "#"), len(self.rows))


def record_of(line: str, delimiter: str) -> list[str]:
    """The fields of a line that is one record of CSV, without the blanks around them; none if it isn't one.

    Examples
    --------
    >>> record_of('"a, b"," c",7', ",")
    ['a, b', 'c', '7']
    >>> record_of('"a', ","), record_of(' "a",b', ",")
    ([], [])
    """
    line = line.strip("\r")
    if '"' not in line:
        return [] if "\r" in line else [field.strip(_BLANKS) for field in line.split(delimiter)]
    import csv

    try:
        records = list(csv.reader([line + "\n", delimiter + "\n"], delimiter=delimiter))
    except csv.Error:
        return []
    if len(records) != 2 or records[1] != ["", ""]:
        return []
    fields = records[0]
    bare = [field.strip(_BLANKS) for field in fields]
    if any(name[:1] == '"' and field[:1] != '"' for name, field in zip(bare, fields)):
        return []
    return bare


# ---- which form a text has


def _is_digits(word: str) -> bool:
    return word.isascii() and word.isdigit()


def _arc_words(words: Sequence[str]) -> bool:
    return len(words) == 4 and words[0] == "a"


def _problem_words(words: Sequence[str]) -> bool:
    return len(words) == 4 and words[0] == "p" and words[1].lower() == "sp" and _is_digits(words[3])


def _relation_parts(words: Sequence[str]) -> list[str]:
    if len(words) != 1:
        return []
    parts = words[0].split("|")
    return parts if len(parts) in (3, 4) and parts[2] in _RELATIONS else []


def _is_gephi(fields: Sequence[str]) -> bool:
    low = [field.lower() for field in fields]
    return "source" in low and "target" in low and (len(low) > 3 or "type" in low)


def gephi_delimiter(line: str) -> str | None:
    """The delimiter of a line that is the header of Gephi's CSV; None if it is none."""
    for delimiter in ",;\t":
        if delimiter in line and _is_gephi(record_of(line, delimiter)):
            return delimiter
    return None


def form_of_list(parted: Parted, options: Options) -> str:
    """The form of a text that is an edge list, since options of one are asked for: ``gephi`` by its header, else
    ``edges``."""
    if options.header is False or options.columns is not None or parted.start == len(parted.lines):
        return "edges"
    first = parted.lines[parted.start]
    if options.delimiter is None:
        return "edges" if gephi_delimiter(first) is None else "gephi"
    return "gephi" if _is_gephi(record_of(first, options.delimiter)) else "edges"


def form_of(parted: Parted) -> str:
    """The form of a text of lines.

    ``konect`` if the first word that is no comment is ``%``, ``gephi`` or ``networkx`` if it is one of these;
    else that of the first line which no edge list has, and an edge list where all lines may be one's.

    Examples
    --------
    >>> [form_of(Parted(text)) for text in ("0 1 5", "a 1 2 5", "1|2|0", "% sym", "0 6 {'weight': 80}")]
    ['edges', 'dimacs', 'as-rel', 'konect', 'networkx']
    >>> form_of(Parted("Source;Target;Type;Weight"))
    'gephi'
    """
    # What says of nodes in its first line is none of these: `export` writes so.
    if parted.start < len(parted.lines) and _nodes_word(parted) is None:
        first = parted.lines[parted.start]
        if parted.rows[parted.start][0] == "%" and "," not in first:
            return "konect"
        if gephi_delimiter(first) is not None:
            return "gephi"
        if _LISTED.fullmatch(first):
            return "networkx"
    if parted.lengths.isdisjoint((1, 4)):
        return "edges"
    for line, words in zip(parted.lines, parted.rows):
        if len(words) in (1, 4) and "," not in line:
            if _arc_words(words) or _problem_words(words):
                return "dimacs"
            if _relation_parts(words) and words[0][0] != "#":
                return "as-rel"
    return "edges"


# ---- edge lists


def is_heading(fields: Sequence[str], commas: bool) -> bool:
    """Whether fields are a header's, by their words.

    Examples
    --------
    >>> is_heading(["From", "TO"], False), is_heading(["a", "b", "weight"], True), is_heading(["a", "b", "NaN"], True)
    (True, True, False)
    """
    pair = tuple(field.lower() for field in fields[:2])
    if len(fields) == 2:
        return pair in END_WORDS
    if len(fields) != 3 or not fields[2] or fields[2][0] in "0123456789+-.":
        return False
    return pair in END_WORDS or (commas and fields[2].lower() in WEIGHT_WORDS)


def _nodes_word(parted: Parted) -> str | None:
    # N of a first line `# nodes=N`.
    words = parted.rows[0] if parted.rows else []
    parts = words[1].split("=") if len(words) == 2 and words[0] == "#" else []
    return parts[1] if len(parts) == 2 and parts[0].lower() == "nodes" else None


def _head(parted: Parted, path: str) -> tuple[int | None, list[str]]:
    # What `# nodes=N` and the comments behind it say of the nodes.
    word = _nodes_word(parted)
    if word is None:
        return None, []
    lines, count = parted.lines, plain_number(word, MOST_NODES)
    if not count:
        raise NotUnderstood(NODES, path=path, line=1)
    labels: list[str] = []
    for line in lines[1:]:
        if line[:2] != "# ":
            break
        labels.append(line[2:])
    if labels and len(labels) != count:
        raise NotUnderstood(HEAD_NAMES, path=path, line=1)
    seen: set[str] = set()
    for index, label in enumerate(labels):
        said = number_sign(label)
        text = (
            NO_LABEL if not is_label(label)
            else TWICE if label in seen
            else OTHER_NUMBER if said is not None and said != index
            else None
        )  # fmt: skip
        if text is not None:
            raise NotUnderstood(text, path=path, line=index + 2)
        seen.add(label)
    return count, labels


class _Columns(NamedTuple):
    """Which fields of a line are the ends and the weight, and which says whether it goes one way."""

    source: int
    target: int
    weight: int | None = None
    kind: int | None = None


def _column_at(word: str, fields: Sequence[str], path: str, line: int | None) -> int:
    if word in fields:
        return fields.index(word)
    low = [field.lower() for field in fields]
    if word.lower() in low:
        return low.index(word.lower())
    listed = ", ".join(f"`{field}`" for field in fields)
    raise NotUnderstood(f"there is no column `{word}`, but {listed}", path=path, line=line)


def _columns_by_header(fields: Sequence[str], options: Options, path: str, line: int) -> _Columns:
    # The columns that a header names, where --columns or --weight ask for them by name, or the list is Gephi's.
    low = [field.lower() for field in fields]
    weight: int | None = None
    if options.weight is not None and (options.weight != "none" or "none" in fields):
        weight = _column_at(options.weight, fields, path, line)
    elif options.weight is None and options.columns is None and "weight" in low:
        weight = low.index("weight")
    if options.columns is not None:
        places = [
            int(word) - 1 if _is_digits(word) and word not in fields else _column_at(word, fields, path, line)
            for word in options.columns
        ]
        return _Columns(places[0], places[1], places[2] if len(places) == 3 else weight)
    for a, b in sorted(END_WORDS, reverse=True):
        if a in low and b in low:
            kind = low.index("type") if "type" in low else None
            return _Columns(low.index(a), low.index(b), weight, kind)
    rest = [place for place in range(len(fields)) if place != weight]
    if len(rest) < 2:
        raise NotUnderstood(FIELDS, path=path, line=line)
    return _Columns(rest[0], rest[1], weight)


class _Lines:
    """Reads the lines of an edge list, by its delimiter."""

    def __init__(self, parted: Parted, path: str, options: Options, delimiter: str | None) -> None:
        self.path = path
        self.options = options
        self.delimiter = delimiter
        self.lines, self.rows, self.start = parted.lines, parted.rows, parted.start
        self.commas, self.is_bare, self.is_tight = parted.has_commas, parted.is_bare, parted.is_tight

    def refused(self, text: str, place: int) -> NotUnderstood:
        return NotUnderstood(text, path=self.path, line=place + 1)

    def has_commas(self, place: int) -> bool:
        return self.delimiter not in (None, " ") or (self.delimiter is None and "," in self.lines[place])

    def fields(self, place: int) -> list[str]:
        """The fields of a line: its words, or those of its record; none if it isn't one."""
        if self.delimiter is None:
            line = self.lines[place]
            return record_of(line, ",") if "," in line else self.rows[place]
        return self.rows[place] if self.delimiter == " " else record_of(self.lines[place], self.delimiter)

    def is_header(self) -> bool:
        """Whether the first line that says something is one, where no columns are asked for."""
        if self.options.header is not None or self.start == len(self.rows):
            return bool(self.options.header) and self.start < len(self.rows)
        return is_heading(self.fields(self.start), self.has_commas(self.start))


def read_edges(parted: Parted, path: str, options: Options, form: str = "edges") -> Reading:
    """Read an edge list, or Gephi's CSV."""
    delimiter = options.delimiter
    lines = _Lines(parted, path, options, delimiter)
    if form == "gephi" and delimiter is None and lines.start < len(lines.lines):
        lines.delimiter = gephi_delimiter(lines.lines[lines.start]) or ","
    count, labels = _head(parted, path) if form == "edges" else (None, [])
    weights = Weights(options.scale, decimal_comma=lines.delimiter not in (None, ","))
    reading = Reading(path, form, [], [], [], [], node_count=count, labels=labels, label_place="line", repeats=False)
    reading.by_names = True if labels else None
    if form == "gephi" or options.columns is not None or options.weight is not None:
        _take_columns(lines, reading, weights)
    else:
        _take_rows(lines, reading, weights)
    weights.tell(reading)
    return reading


def _take_rows(lines: _Lines, reading: Reading, weights: Weights) -> None:
    # Lines of two or three fields.
    reading.header = lines.is_header()
    start = lines.start + reading.header
    if lines.options.scale is None and _take_all(lines, reading, start):
        return
    sources, targets, said, numbers = reading.sources, reading.targets, reading.weights, []
    by_delimiter = lines.delimiter is not None
    known: set[str] = set()
    weight_of = weights.of
    for place in range(start, len(lines.rows)):
        fields = lines.rows[place]
        if not fields or fields[0][0] == "#":
            continue
        if by_delimiter or "," in lines.lines[place]:
            fields = lines.fields(place)
        if len(fields) == 3:
            a, b, word = fields
            weight = weight_of(word)
        elif len(fields) == 2:
            a, b = fields
            if not by_delimiter and _has_other_delimiter(lines.lines[place], fields):
                raise lines.refused(OTHER_DELIMITER, place)
            weight = weights.left_out()
        else:
            raise lines.refused(FIELDS if fields else RECORD, place)
        if weight is None:
            raise lines.refused(weights.text, place)
        if a not in known:
            _check_end(lines, place, fields, a)
            known.add(a)
        if b not in known:
            _check_end(lines, place, fields, b)
            known.add(b)
        sources.append(a)
        targets.append(b)
        said.append(weight)
        numbers.append(place + 1)
    reading.numbers = numbers
    if lines.options.header is None and not reading.header:
        _see_header(lines, reading)


def _plain_rows(lines: _Lines, start: int) -> list[list[str]]:
    # The fields of the lines, where all are words, or all have commas and no quotation mark; else none.
    if lines.delimiter is None and not lines.commas:
        return lines.rows[start:]
    if lines.delimiter not in (None, ",") or not lines.is_bare:
        return []
    rows = [line.split(",") for line in lines.lines[start:]]
    return rows if lines.is_tight else [[field.strip(_BLANKS) for field in row] for row in rows]


def _take_all(lines: _Lines, reading: Reading, start: int) -> bool:
    # Lines of three plain fields each, all at once, as a fast way; False where one of them is anything else.
    rows = _plain_rows(lines, start)
    if not rows or set(map(len, rows)) != {3}:
        return False
    weights = _plain_weights([row[2] for row in rows])
    if weights is None:
        return False
    plain = Reading(reading.path, reading.form, [row[0] for row in rows], [row[1] for row in rows], weights, [])
    if any(end[:1] == "#" for end in plain.ends) or not all(map(is_label, plain.ends)):
        return False
    _take_plain(reading, plain, start)
    return True


def _plain_weights(words: list[str]) -> list[int] | None:
    # The weights that words are, of which there is one at least; None where one of them is none.
    try:
        weights = list(map(int, words))
    except ValueError:
        return None
    is_plain = min(weights) >= 0 and max(weights) < BELOW and list(map(str, weights)) == words
    return weights if is_plain else None


def _take_plain(reading: Reading, plain: Reading, start: int) -> None:
    # Edges that a row of lines says from a place on.
    reading.sources, reading.targets, reading.weights = plain.sources, plain.targets, plain.weights
    reading.numbers = range(start + 1, start + 1 + len(plain.weights))
    reading.ends = plain.ends


def _check_end(lines: _Lines, place: int, fields: Sequence[str], end: str) -> None:
    if not is_label(end):
        empty = not fields[0] or not fields[1]
        raise lines.refused(FIELDS if empty else NAME, place)


def _has_other_delimiter(line: str, fields: Sequence[str]) -> bool:
    # Whether a line with commas that has two fields has a decimal comma, or is parted by something else.
    if "," not in line or '"' in line or len(fields) != 2:
        return False
    return any(";" in field or "\t" in field for field in fields) or _DECIMAL_COMMA.fullmatch(line) is not None


def _see_header(lines: _Lines, reading: Reading) -> None:
    # Refuses a first line of two names above lines of numbers.
    if len(reading.sources) < 2 or reading.numbers[0] != lines.start + 1 or len(lines.fields(lines.start)) != 2:
        return
    first = (reading.sources[0], reading.targets[0])
    others = chain(reading.sources[1:], reading.targets[1:])
    if not any(map(_is_digits, first)) and all(map(_is_digits, others)):
        raise lines.refused(MAY_BE_HEADER, lines.start)


def _take_columns(lines: _Lines, reading: Reading, weights: Weights) -> None:
    # Lines of any number of fields, of which some columns count.
    options, start, path = lines.options, lines.start, lines.path
    if start == len(lines.rows):
        reading.header = False
        return
    fields = lines.fields(start)
    if not fields:
        raise lines.refused(RECORD, start)
    by_number = options.columns is not None and all(_is_digits(word) for word in options.columns)
    if by_number and options.columns is not None and options.weight in (None, "none"):
        places = [int(word) - 1 for word in options.columns]
        columns = _Columns(places[0], places[1], places[2] if len(places) == 3 else None)
        chosen = [fields[place] for place in places if 0 <= place < len(fields)]
        reading.header = is_heading(chosen, lines.has_commas(start)) if options.header is None else options.header
    elif options.weight == "none" and options.columns is None and reading.form == "edges":
        reading.header = is_heading(fields[:3], lines.has_commas(start)) if options.header is None else options.header
        columns = _Columns(0, 1)
    elif options.header is False:
        raise NotUnderstood(NEEDS_HEADER)
    else:
        reading.header = True
        columns = _columns_by_header(fields, options, path, start + 1)
    arcs: list[bool] = []
    numbers: list[int] = []
    for place in range(start + reading.header, len(lines.rows)):
        row = lines.rows[place]
        if not row or row[0][0] == "#":
            continue
        fields = lines.fields(place)
        if not fields:
            raise lines.refused(RECORD, place)
        if lines.delimiter is None and _has_other_delimiter(lines.lines[place], fields):
            raise lines.refused(OTHER_DELIMITER, place)
        a, b = _field(lines, fields, columns.source, place), _field(lines, fields, columns.target, place)
        word = "" if columns.weight is None else _field(lines, fields, columns.weight, place)
        # Gephi leaves a weight empty that isn't there.
        is_left_out = columns.weight is None or (not word and reading.form == "gephi")
        weight = weights.left_out() if is_left_out else weights.of(word)
        if weight is None:
            raise lines.refused(weights.text, place)
        for end in (a, b):
            _check_end(lines, place, (a, b), end)
        reading.sources.append(a)
        reading.targets.append(b)
        reading.weights.append(weight)
        numbers.append(place + 1)
        kind = "" if columns.kind is None else _field(lines, fields, columns.kind, place)
        arcs.append(kind.lower() == "directed")
    reading.numbers = numbers
    if any(arcs):
        check_directions(reading, options, arcs)


def _field(lines: _Lines, fields: Sequence[str], column: int, place: int) -> str:
    if not 0 <= column < len(fields):
        raise lines.refused(f"the line has no column {column + 1}", place)
    return fields[column]


# ---- the other forms of lines


def read_konect(parted: Parted, path: str, options: Options) -> Reading:
    """Read a list as KONECT has it: nodes count from 1, and ``% asym`` says that it is directed."""
    weights = Weights(options.scale)
    reading = Reading(path, "konect", [], [], [], [], by_names=False, first=1)
    numbers: list[int] = []
    heads: list[list[str]] = []
    for place, (line, words) in enumerate(zip(parted.lines, parted.rows)):
        if not words or words[0][0] in "%#":
            if words and words[0][0] == "%" and not numbers:
                heads.append(parted.split(line.replace("%", " ", 1)))
            continue
        if not 2 <= len(words) <= 4:
            raise NotUnderstood(KONECT, path=path, line=place + 1)
        weight = weights.left_out() if len(words) == 2 or options.weight == "none" else weights.of(words[2])
        if weight is None:
            raise NotUnderstood(weights.text, path=path, line=place + 1)
        reading.sources.append(words[0])
        reading.targets.append(words[1])
        reading.weights.append(weight)
        numbers.append(place + 1)
    reading.numbers = numbers
    kind = heads[0][0].lower() if heads and heads[0] else "sym"
    if kind == "bip":
        raise NotUnderstood("a bipartite list has two sets of nodes with the same numbers", path=path, line=1)
    if len(heads) > 1 and len(heads[1]) >= 2 and all(map(_is_digits, heads[1])):
        said = int(heads[1][0])
        if len(numbers) < said:
            raise NotUnderstood(f"it says {said} edges, and there are {len(numbers)}", path=path, line=2)
        reading.node_count = plain_number(heads[1][1], MOST_NODES)
        if not reading.node_count:
            raise NotUnderstood(NODES, path=path, line=2)
    weights.tell(reading)
    if kind == "asym":
        check_directions(reading, options)
    return reading


def read_listed(parted: Parted, path: str, options: Options) -> Reading:
    """Read what networkx's ``write_edgelist`` writes: ``A B {'weight': 5}``."""
    from hizmorke.forms.weights import weight_among

    weights = Weights(options.scale)
    reading = Reading(path, "networkx", [], [], [], [])
    numbers: list[int] = []
    for place, (line, words) in enumerate(zip(parted.lines, parted.rows)):
        if not words or words[0][0] == "#":
            continue
        found = _LISTED.fullmatch(line.replace(options.delimiter, " ", 2) if options.delimiter else line)
        data = None if found is None else _data_of(found[3])
        if found is None or data is None:
            raise NotUnderstood(NETWORKX, path=path, line=place + 1)
        weight, wrong = weight_among(data, weights, options.weight)
        if weight is None:
            raise NotUnderstood(wrong, path=path, line=place + 1)
        for end in (found[1], found[2]):
            if not is_label(end):
                raise NotUnderstood(NAME, path=path, line=place + 1)
        reading.sources.append(found[1])
        reading.targets.append(found[2])
        reading.weights.append(weight)
        numbers.append(place + 1)
    reading.numbers = numbers
    weights.tell(reading)
    return reading


def _data_of(text: str) -> dict[Any, Any] | None:
    # The data of an edge, as Python spells a dict; None if it is none.
    plain = _PLAIN_DATA.fullmatch(text)
    if plain is not None:
        return {plain[1]: float(plain[2]) if plain[3] else int(plain[2])}
    import ast

    try:
        data = ast.literal_eval(text)
    except (ValueError, SyntaxError, MemoryError, RecursionError):
        return None
    return data if isinstance(data, dict) else None


def read_dimacs(parted: Parted, path: str, options: Options) -> Reading:
    """Read the arcs of DIMACS: ``a U V W`` behind ``c`` lines and ``p sp N M``. Nodes count from 1."""
    lines, rows = parted.lines, parted.rows
    start = next((place for place, row in enumerate(rows) if row and row[0] != "c"), len(rows))
    reading = Reading(path, "dimacs", [], [], [], [], by_names=False, first=1, least=options.undirected == "min")
    head = start
    if start < len(rows) and "," not in lines[start] and _problem_words(rows[start]):
        reading.node_count = plain_number(rows[start][2], MOST_NODES)
        if not reading.node_count:
            raise NotUnderstood(NODES, path=path, line=start + 1)
        start += 1
    if parted.has_commas or not _take_all_arcs(rows, reading, start):
        _take_arcs(parted, reading, start)
    count = len(reading.weights)
    if head < start and count < int(rows[head][3][:20]):
        raise NotUnderstood(f"it says {rows[head][3]} arcs, and there are {count}", path=path, line=head + 1)
    return reading


def _take_all_arcs(rows: list[list[str]], reading: Reading, start: int) -> bool:
    # Lines of an arc each, all at once, as a fast way; False where one of them is anything else.
    rows = rows[start:]
    if set(map(len, rows)) != {4} or any(row[0] != "a" for row in rows):
        return False
    weights = _plain_weights([row[3] for row in rows])
    if weights is None:
        return False
    plain = Reading(reading.path, reading.form, [row[1] for row in rows], [row[2] for row in rows], weights, [])
    if not all(map(is_label, plain.ends)):
        return False
    _take_plain(reading, plain, start)
    return True


def _take_arcs(parted: Parted, reading: Reading, start: int) -> None:
    lines, rows, weights, path = parted.lines, parted.rows, Weights(None), reading.path
    numbers: list[int] = []
    for place in range(start, len(rows)):
        row = rows[place]
        if not row or row[0] == "c":
            continue
        if len(row) != 4 or row[0] != "a" or "," in lines[place]:
            raise NotUnderstood(ARC, path=path, line=place + 1)
        weight = weights.of(row[3])
        if weight is None:
            raise NotUnderstood(weights.text, path=path, line=place + 1)
        if not (is_label(row[1]) and is_label(row[2])):
            raise NotUnderstood(NAME, path=path, line=place + 1)
        reading.sources.append(row[1])
        reading.targets.append(row[2])
        reading.weights.append(weight)
        numbers.append(place + 1)
    reading.numbers = numbers


def read_relations(parted: Parted, path: str, options: Options) -> Reading:
    """Read relations of networks, ``A|B|R`` or ``A|B|R|SOURCE``: edges of weight 1 between names."""
    reading = Reading(path, "as-rel", [], [], [], [], by_names=True)
    numbers: list[int] = []
    for place, (line, words) in enumerate(zip(parted.lines, parted.rows)):
        if not words or words[0][0] == "#":
            continue
        parts = _relation_parts(words) if "," not in line else []
        if not parts or not parts[0] or not parts[1]:
            raise NotUnderstood(RELATION, path=path, line=place + 1)
        if not (is_label(parts[0]) and is_label(parts[1])):
            raise NotUnderstood(NAME, path=path, line=place + 1)
        reading.sources.append(parts[0])
        reading.targets.append(parts[1])
        numbers.append(place + 1)
    reading.weights = [1] * len(numbers)
    reading.numbers = numbers
    return reading


READERS = {"konect": read_konect, "networkx": read_listed, "dimacs": read_dimacs, "as-rel": read_relations}
