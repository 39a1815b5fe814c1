"""What `bentzolu` prints of plans, as data: rows, walks, figures and forwarding tables."""
from __future__ import annotations

import re
from array import array
from bisect import bisect_right
from dataclasses import dataclass, field
from fractions import Fraction
from functools import cached_property
from typing import Any, Callable, Dict, Hashable, Iterable, NamedTuple, Optional, Tuple

from . import shown
from .errors import FormatError, UnknownNodeError
from .typed import Node, NodeNames

MOST_SHOWN = 16  # the most intervals, nodes or steps that a representation has


def counted(number: int, one: str, more: str | None = None) -> str:
    """A number of things with their name."""
    return f"{number:,} {one if number == 1 else more or one + 's'}"


def array_of(numbers: list[int]) -> Any:
    """Whole numbers as an array of NumPy where that is there, else of `array`."""
    try:
        import numpy
    except ImportError:
        return array("q", numbers)
    return numpy.array(numbers, dtype=numpy.int64)


class SameNames:
    """The table in which each node is its own name."""

    @staticmethod
    def name(node: Any) -> str:
        return str(node)

    @staticmethod
    def node(name: str) -> Any:
        return name


SAME = SameNames()


@dataclass(frozen=True)
class Interval:
    """The labels from `start` up to but without `end`, past the greatest label on to 0; with equal ends all labels.

    Packets for these labels go to the neighbour `to`.
    """

    start: int
    end: int
    to: Hashable

    def __contains__(self, label: int) -> bool:
        if self.start < self.end:
            return self.start <= label < self.end
        return label >= self.start or label < self.end


class NodePlan:
    """A node's label and its intervals, by ascending starts; an interval ends where the next one, going round, begins.

    `node` is the node, `label` its label, `starts` the labels at which the intervals begin, `neighbours` the neighbour
    of each, and `intervals` both as a tuple of `Interval`. A plan that was read makes them when they are asked for.
    """

    __slots__ = ("node", "label", "_row", "_names", "_starts", "_neighbours", "_intervals")

    def __init__(self, node: Any, label: int, intervals: Iterable[Interval] = ()) -> None:
        given = tuple(intervals)
        self.node, self.label = node, label
        self._row: str = ""
        self._names: NodeNames = SAME
        self._intervals: tuple[Interval, ...] | None = given
        self._starts: tuple[int, ...] | None = tuple(it.start for it in given)
        self._neighbours: tuple[Any, ...] = tuple(it.to for it in given)

    @classmethod
    def of_row(cls, node: Any, label: int, row: str, names: NodeNames) -> NodePlan:
        """A node whose row is the text `START NEIGHBOUR ..`, with names that the table `names` leads back to nodes."""
        made = cls(node, label)
        made._row, made._names, made._starts = row, names, None
        return made

    def _read(self) -> tuple[int, ...]:
        """The starts, of the row where it was not yet read."""
        if self._starts is None:
            words = self._row.split(" ") if self._row else []
            self._starts, self._neighbours = tuple(map(int, words[::2])), tuple(map(self._names.node, words[1::2]))
            self._intervals = None
        return self._starts

    @property
    def starts(self) -> tuple[int, ...]:
        """The labels at which the intervals begin."""
        return self._read()

    @property
    def neighbours(self) -> tuple[Any, ...]:
        """The neighbour of each interval."""
        self._read()
        return self._neighbours

    @property
    def intervals(self) -> tuple[Interval, ...]:
        """The intervals, by ascending starts."""
        starts = self._read()
        if self._intervals is None:
            self._intervals = tuple(map(Interval, starts, starts[1:] + starts[:1], self._neighbours))
        return self._intervals

    def __len__(self) -> int:
        """The number of intervals."""
        if self._starts is None:
            return (self._row.count(" ") + 1) // 2 if self._row else 0
        return len(self._starts)

    def __bool__(self) -> bool:
        return True

    def to(self, label: int) -> Any:
        """The neighbour to which packets for a label go; None at a node without an interval."""
        starts = self.starts
        return self._neighbours[bisect_right(starts, label) - 1] if starts else None

    def by_neighbour(self) -> dict[Any, list[Interval]]:
        """The intervals of each neighbour that has some, neighbours by their first interval."""
        found: dict[Any, list[Interval]] = {}
        for interval in self.intervals:
            found.setdefault(interval.to, []).append(interval)
        return found

    def _key(self) -> tuple[Any, ...]:
        return self.node, self.label, self.starts, self.neighbours

    def __eq__(self, other: object) -> bool:
        if not isinstance(other, NodePlan):
            return NotImplemented
        return self._key() == other._key()

    def __hash__(self) -> int:
        return hash((self.node, self.label))

    def __repr__(self) -> str:
        said = [f"{interval_text(it)} to {it.to!r}" for it in self.intervals[:MOST_SHOWN]]
        said += [f"{len(self) - MOST_SHOWN} more"] if len(self) > MOST_SHOWN else []
        return f"<NodePlan {self.node!r}: label {self.label}; {', '.join(said) or 'no interval'}>"


def interval_text(interval: Interval) -> str:
    """An interval in the writing of `bentzolu draw`."""
    return f"[{interval.start},{interval.end})"


class ByNode:
    """What a plan and its prefixes share: something for each node, by which packets find their way."""

    nodes: Any

    def _at(self, node: Any) -> Any:
        try:
            return self.nodes[node]
        except (KeyError, TypeError):
            raise UnknownNodeError(f"the plan has no node {node!r}") from None

    @property
    def labels(self) -> dict[Any, int]:
        """The label of each node."""
        return {node: it.label for node, it in self.nodes.items()}

    def path(self, source: Any, target: Any) -> list[Any]:
        """The nodes from source to target, each found by what the node before has for the target's label.

        It asks no program, so many paths of one graph are best had from one plan. UnknownNodeError is raised where the
        plan has no such node, and FormatError where the way leads nowhere or in a circle.
        """
        self._at(source)
        nodes, label = [source], self._at(target).label
        while nodes[-1] != target:
            nodes.append(self._at(nodes[-1]).to(label))
            if nodes[-1] is None or len(nodes) > len(self.nodes):
                raise FormatError(f"the rows do not lead from {source!r} to {target!r}, but in a circle or nowhere")
        return nodes


@dataclass(frozen=True, repr=False)
class Plan(ByNode):
    """The labels and intervals of all nodes: `kind` is `shortest`, `tree`, `compact` or `landmark`, `nodes` has a `NodePlan` for
    each node of the graph. In a notebook a plan is shown as a table.

    As arrays, with the nodes numbered in their order in `nodes`: `starts` has the labels at which the intervals of all
    nodes begin, `ports` the number of the neighbour of each, and those of node i are at `rows[i]` up to but without
    `rows[i + 1]`. They are arrays of NumPy where that is there, else of `array`.
    """

    kind: str
    nodes: Dict[Hashable, NodePlan]

    @cached_property
    def _arrays(self) -> tuple[Any, Any, Any]:
        numbers = {node: i for i, node in enumerate(self.nodes)}
        starts: list[int] = []
        ports: list[int] = []
        rows = [0]
        for it in self.nodes.values():
            starts += it.starts
            ports += map(numbers.__getitem__, it.neighbours)
            rows.append(len(starts))
        return array_of(starts), array_of(ports), array_of(rows)

    @property
    def starts(self) -> Any:
        """The labels at which the intervals of all nodes begin."""
        return self._arrays[0]

    @property
    def ports(self) -> Any:
        """The number of the neighbour of each interval."""
        return self._arrays[1]

    @property
    def rows(self) -> Any:
        """Where the intervals of each node begin, and the end."""
        return self._arrays[2]

    @property
    def intervals(self) -> int:
        """The number of intervals of all nodes."""
        return sum(map(len, self.nodes.values()))

    def __repr__(self) -> str:
        return f"<Plan {self.kind} of {counted(len(self.nodes), 'node')}: {counted(self.intervals, 'interval')}>"

    def _repr_html_(self) -> str:
        return shown.plan(self)


@dataclass(frozen=True)
class Prefix:
    """The labels whose first `length` of `bits` bits are those of `value`. Packets for these labels go to the neighbour
    `to`, and are dropped where it is None: then the prefix holds no label of another node."""

    value: int
    length: int
    bits: int
    to: Optional[Hashable]

    def __contains__(self, label: int) -> bool:
        rest = self.bits - self.length
        return label >> self.bits == 0 and label >> rest == self.value >> rest


@dataclass(frozen=True)
class NodePrefixes:
    """A node's label and its prefixes, the longest first, in the order in which a router is to load them."""

    node: Hashable
    label: int
    prefixes: Tuple[Prefix, ...]

    def to(self, label: int) -> Any:
        """The neighbour of the longest prefix that holds a label; None where none does, or one without a neighbour."""
        return next((it.to for it in self.prefixes if label in it), None)


@dataclass(frozen=True, repr=False)
class Prefixes(ByNode):
    """Forwarding tables for routers that look for the longest match: `bits` is the number of bits of a label, `nodes`
    has a `NodePrefixes` for each node. A node's own label comes before its prefixes, so ask no node for it."""

    kind: str
    bits: int
    nodes: Dict[Hashable, NodePrefixes]

    @property
    def prefixes(self) -> int:
        """The number of prefixes of all nodes."""
        return sum(len(it.prefixes) for it in self.nodes.values())

    def __repr__(self) -> str:
        said = f"{counted(self.prefixes, 'prefix', 'prefixes')} of at most {counted(self.bits, 'bit')}"
        return f"<Prefixes {self.kind} of {counted(len(self.nodes), 'node')}: {said}>"

    def _repr_html_(self) -> str:
        return shown.prefixes(self)


@dataclass(frozen=True)
class WalkStep:
    """A node of a walk, its label, the interval that held the address, and the weight of the link to the next node.

    The last node has neither an interval nor a weight.
    """

    node: Hashable
    label: int
    interval: Optional[Interval] = None
    weight: Optional[int] = None


@dataclass(frozen=True, repr=False)
class Walk:
    """The walk that a plan prescribes from source to target: `address` is the target's label, `weight` the sum of the
    links' weights, `steps` has a `WalkStep` for each node. In a notebook a walk is shown as a table."""

    kind: str
    source: Hashable
    target: Hashable
    address: int
    weight: int
    steps: Tuple[WalkStep, ...]

    @property
    def path(self) -> list[Any]:
        """The nodes of the walk."""
        return [step.node for step in self.steps]

    def __repr__(self) -> str:
        said = [repr(node) for node in self.path]
        if len(said) > MOST_SHOWN:
            said[MOST_SHOWN // 2: -MOST_SHOWN // 2] = [".."]
        return f"<Walk {self.kind}: {' '.join(said)}, weight {self.weight}>"

    def _repr_html_(self) -> str:
        return shown.walk(self)


@dataclass(frozen=True)
class Worst:
    """The first pair of nodes whose walk is the greatest multiple of its distance."""

    source: Hashable
    target: Hashable
    walk: int
    distance: int

    @property
    def stretch(self) -> Fraction:
        """How many times the distance the walk is, exactly."""
        return Fraction(self.walk, self.distance)


class Compactness(NamedTuple):
    """The first port that the most intervals go by: that of `node` to its neighbour `to`, with the number of them."""

    node: Hashable
    to: Hashable
    intervals: int


class Bits(NamedTuple):
    """The bits of all rows, and those of full tables by label, in which an entry takes the bits of a port."""

    rows: int
    tables: int


@dataclass(frozen=True)
class Stats:
    """The figures of a plan, with the graph's own nodes.

    `nodes` and `links` are their numbers, `starts` is the number of intervals of all nodes, and `entries` that of the
    entries of full tables. `bits` compares the two in bits: an interval has a start besides its port, an entry a port
    alone. `greatest_row` is the first node with the most intervals, and their number. `walks` and `distances` are sums
    over all ordered pairs of nodes; `worst` is the first pair of the greatest stretch, and `compactness` the first port
    with the most intervals (both None for a single node). `dependencies` is empty where no ring of links can wait for
    each other; else links from each of its nodes to the next, and from the last to the first, are such a ring.
    `landmarks` are the nodes that a plan of kind landmark has for landmarks, the root first, and `most_stretch` is the most
    percent of the distance that its walks weigh; both are None for another kind.
    `further` has lines that this package does not know, each line's words after its first word.
    """

    kind: str
    nodes: int
    links: int
    starts: int
    entries: int
    greatest_row: Tuple[Hashable, int]
    walks: int
    distances: int
    worst: Optional[Worst] = None
    compactness: Optional[Compactness] = None
    bits: Optional[Bits] = None
    dependencies: Optional[Tuple[Hashable, ...]] = None
    landmarks: Optional[Tuple[Hashable, ...]] = None
    most_stretch: Optional[int] = None
    further: Dict[str, Tuple[str, ...]] = field(default_factory=dict)

    def _repr_html_(self) -> str:
        return shown.stats(self)

    @property
    def stretch(self) -> Fraction | None:
        """The sum of the walks over the sum of the distances, exactly; None for a single node."""
        return Fraction(self.walks, self.distances) if self.distances else None


def number(word: str, line: int) -> int:
    """A whole number of decimal digits."""
    if not (word.isascii() and word.isdigit()):
        raise FormatError(f"{word!r} is not a number", line)
    return int(word)


def lines_of(text: str) -> list[tuple[int, list[str]]]:
    """The lines of an output, each as its number and its words."""
    return [(i + 1, line.split(" ")) for i, line in enumerate(text.splitlines())]


def headed(text: str, head: str, count: int) -> tuple[list[str], list[tuple[int, list[str]]]]:
    """The words of the first line, which has to begin with `head` and to have so many, and the further lines."""
    lines = lines_of(text)
    if not lines or lines[0][1][0] != head or len(lines[0][1]) < count:
        raise FormatError(f"the text does not begin with a line {head!r}", 1)
    return lines[0][1], lines[1:]


def count_of_row(row: str, line: int, names: NodeNames) -> int:
    """The number of intervals of a row `START NEIGHBOUR ..`, of which each word is looked at."""
    words = row.split(" ")
    if len(words) % 2 != 0:
        raise FormatError("a start has no neighbour", line)
    starts = words[::2]
    together = "".join(starts)
    if not (together.isascii() and together.isdigit() and all(starts)):
        for word in starts:
            number(word, line)
    for word in set(words[1::2]):
        names.node(word)
    return len(starts)


def read_plan(text: str, names: NodeNames = SAME) -> Plan:
    """A plan, of the text that `bentzolu plan` prints.

    Parameters
    ----------
    text : str
        What was printed.
    names : Names, optional
        What leads names back to nodes, as `names_of(graph)`; each name is its own node by default.

    Returns
    -------
    Plan

    Raises
    ------
    FormatError
        If the text is no plan; `line` is the number of the line.
    UnknownNodeError
        If a name is no node's.

    Examples
    --------
    >>> read_plan("plan tree 2 2\\na 0 1 b\\nb 1 0 a\\n").path("a", "b")
    ['a', 'b']
    """
    lines = text.splitlines()
    first, _ = headed("".join(lines[:1]), "plan", 4)
    nodes: dict[Any, NodePlan] = {}
    count = 0
    for at, line in enumerate(lines[1:], 2):
        name, *label = line.split(" ", 2)
        if not label:
            raise FormatError("a node has no label", at)
        row = "".join(label[1:])
        count += count_of_row(row, at, names) if row else 0
        node = names.node(name)
        nodes[node] = NodePlan.of_row(node, number(label[0], at), row, names)
    if len(nodes) != number(first[2], 1) or count != number(first[3], 1):
        raise FormatError("the numbers of nodes and intervals do not match the first line", 1)
    return Plan(first[1], nodes)


PREFIX = re.compile("([0-9]+)/([0-9]+)")


def read_prefix(word: str, to: str, bits: int, line: int, names: NodeNames) -> Prefix:
    """A prefix, of a word `VALUE/LENGTH` and the one after it."""
    found = PREFIX.fullmatch(word)
    if not found:
        raise FormatError(f"{word!r} is not a prefix", line)
    return Prefix(int(found[1]), int(found[2]), bits, None if to == "#" else names.node(to))


def read_prefixes(text: str, names: NodeNames = SAME) -> Prefixes:
    """Forwarding tables, of the text that `bentzolu prefixes` prints.

    Parameters
    ----------
    text, names
        As for `read_plan`.

    Returns
    -------
    Prefixes

    Raises
    ------
    FormatError, UnknownNodeError
        As `read_plan`.

    Examples
    --------
    >>> read_prefixes("prefixes tree 2 1 2\\na 0 0/0 b\\nb 1 0/0 a\\n").nodes["a"].to(1)
    'b'
    """
    first, lines = headed(text, "prefixes", 5)
    bits = number(first[3], 1)
    nodes: dict[Any, NodePrefixes] = {}
    for line, words in lines:
        if len(words) < 2 or len(words) % 2 != 0:
            raise FormatError("a prefix has no neighbour", line)
        node = names.node(words[0])
        found = (read_prefix(word, to, bits, line, names) for word, to in zip(words[2::2], words[3::2]))
        nodes[node] = NodePrefixes(node, number(words[1], line), tuple(found))
    tables = Prefixes(first[1], bits, nodes)
    if len(nodes) != number(first[2], 1) or tables.prefixes != number(first[4], 1):
        raise FormatError("the numbers of nodes and prefixes do not match the first line", 1)
    for line, of in enumerate(nodes.values(), 2):
        unknown = next((it.to for it in of.prefixes if it.to is not None and it.to not in nodes), None)
        if unknown is not None:
            raise FormatError(f"the text has no node {unknown!r}; `#` is printed where there is no neighbour", line)
    return tables


def read_walk(text: str, names: NodeNames = SAME) -> Walk:
    """A walk, of the text that `bentzolu walk` prints.

    Parameters
    ----------
    text, names
        As for `read_plan`.

    Returns
    -------
    Walk

    Raises
    ------
    FormatError, UnknownNodeError
        As `read_plan`.

    Examples
    --------
    >>> read_walk("walk tree a b 1 4\\na 0 1 1 b 4\\nb 1\\n")
    <Walk tree: 'a' 'b', weight 4>
    """
    first, lines = headed(text, "walk", 6)
    if not lines:
        raise FormatError("the walk has no nodes", 1)
    steps = []
    for line, words in lines[:-1]:
        if len(words) != 6:
            raise FormatError("expected six words", line)
        name, label, start, end, to, weight = words
        interval = Interval(number(start, line), number(end, line), names.node(to))
        steps.append(WalkStep(names.node(name), number(label, line), interval, number(weight, line)))
    line, last = lines[-1]
    steps.append(WalkStep(names.node(last[0]), number(last[1], line)))
    source, target = names.node(first[2]), names.node(first[3])
    return Walk(first[1], source, target, number(first[4], 1), number(first[5], 1), tuple(steps))


def read_dependencies(words: list[str], line: int, names: NodeNames) -> tuple[Node, ...]:
    """The ring of nodes in a line of dependencies, empty for `acyclic`."""
    if words == ["acyclic"]:
        return ()
    if words[:1] != ["cycle"]:
        raise FormatError("expected 'acyclic' or 'cycle'", line)
    return tuple(map(names.node, words[1:]))


# The figures that some outputs have: the number of words after the first (None for any), and how they are read.
FIGURES: dict[str, tuple[int | None, Callable[[list[str], int, NodeNames], Any]]] = {
    "greatest-row": (2, lambda words, line, names: (names.node(words[0]), number(words[1], line))),
    "worst": (4, lambda words, line, names: Worst(names.node(words[0]), names.node(words[1]), number(words[2], line), number(words[3], line))),
    "compactness": (3, lambda words, line, names: Compactness(names.node(words[0]), names.node(words[1]), number(words[2], line))),
    "bits": (2, lambda words, line, names: Bits(number(words[0], line), number(words[1], line))),
    "dependencies": (None, read_dependencies),
    "landmarks": (None, lambda words, line, names: tuple(map(names.node, words))),
    "stretch": (1, lambda words, line, names: number(words[0], line)),
}
FIELDS = {"greatest-row": "greatest_row", "stretch": "most_stretch"}  # of `Stats`, where they have another name than the figure
NUMBERS = ("links", "starts", "entries", "walks", "distances")


def read_figure(line: int, words: list[str], names: NodeNames) -> Any:
    """The value of a line of figures: a number, what `FIGURES` reads, or the words of a line that is not known."""
    name, *words = words
    unknown: tuple[int | None, None] = (1 if name in NUMBERS else None, None)
    length, read = FIGURES.get(name, unknown)
    if length is not None and len(words) != length:
        raise FormatError(f"expected {length + 1} words", line)
    if name in NUMBERS:
        return number(words[0], line)
    return read(words, line, names) if read else tuple(words)


def read_stats(text: str, names: NodeNames = SAME) -> Stats:
    """The figures, of the text that `bentzolu stats` prints.

    Parameters
    ----------
    text, names
        As for `read_plan`.

    Returns
    -------
    Stats

    Raises
    ------
    FormatError, UnknownNodeError
        As `read_plan`.

    Examples
    --------
    >>> read_stats("stats tree 2\\nlinks 1\\nstarts 2\\nentries 2\\ngreatest-row a 1\\nwalks 8\\ndistances 8\\n").stretch
    Fraction(1, 1)
    """
    first, lines = headed(text, "stats", 3)
    found = {words[0]: read_figure(line, words, names) for line, words in lines}
    for name in (*NUMBERS, "greatest-row"):
        if name not in found:
            raise FormatError(f"there is no line {name!r}", 1)
    known = {FIELDS.get(name, name): found.pop(name) for name in (*NUMBERS, *FIGURES) if name in found}
    return Stats(kind=first[1], nodes=number(first[2], 1), further=found, **known)


class Compared(NamedTuple):
    """The figures of one plan, beside others of the same network. `kind` is `"landmark-150"` for paths of at most 150 percent of
    the distance; `worst` is the greatest stretch of a pair, and `is_acyclic` whether no ring of links can wait."""

    kind: str
    numbering: str
    starts: int
    greatest_row: int
    bits: int
    stretch: Fraction
    worst: Fraction
    is_acyclic: bool


@dataclass(frozen=True)
class Comparison:
    """The figures of plans of all kinds and numberings. `table_bits` are those of full tables."""

    nodes: int
    links: int
    rows: Tuple[Compared, ...]
    table_bits: int

    def least(self, most_stretch: float = float("inf")) -> Compared:
        """The first plan of the fewest bits whose paths are, in the mean, at most so many times the distances."""
        found = [row for row in self.rows if row.stretch <= most_stretch]
        if not found:
            raise ValueError(f"no plan has a stretch of at most {most_stretch}: the least is {float(min(row.stretch for row in self.rows)):.4g}")
        return min(found, key=lambda row: row.bits)

    def _repr_html_(self) -> str:
        return shown.comparison(self)


def ratio_of(word: str, line: int) -> Fraction:
    """A ratio, of two numbers with a slash; 1 where there are no paths."""
    above, slash, below = word.partition("/")
    if not slash:
        raise FormatError(f"expected two numbers with a slash, not {word!r}", line)
    return Fraction(number(above, line), number(below, line)) if number(below, line) else Fraction(1)


def read_comparison(text: str) -> Comparison:
    """The figures of all kinds, of the text that `bentzolu compare` prints.

    Parameters
    ----------
    text : str

    Returns
    -------
    Comparison

    Raises
    ------
    FormatError
        If it is another text.
    """
    first, lines = headed(text, "compare", 3)
    rows: list[Compared] = []
    table_bits: int | None = None
    for line, words in list(lines)[1:]:
        if len(words) < 8:
            raise FormatError("expected eight words", line)
        if words[0] == "tables":
            table_bits = number(words[4], line)
            continue
        starts, greatest, bits = (number(word, line) for word in words[2:5])
        rows.append(Compared(words[0], words[1], starts, greatest, bits, ratio_of(words[5], line), ratio_of(words[6], line), words[7] == "acyclic"))
    if table_bits is None or not rows:
        raise FormatError("there is no line 'tables', or no plan", 1)
    return Comparison(number(first[1], 1), number(first[2], 1), tuple(rows), table_bits)
