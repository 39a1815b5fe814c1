"""The figures of a network without each of its links or nodes, as `route stats --each links|nodes` prints them.

The program makes the plan of each, so no start of it and no text of a plan is paid for a failure. `sweep` tells more of each
failure, as what changes beside the plan of the whole network.
"""
from __future__ import annotations

from fractions import Fraction
from typing import Any, Hashable, List, NamedTuple, Optional, Tuple

from .errors import FormatError
from .texts import SAME, headed, number
from .typed import NodeNames


class LinkFigures(NamedTuple):
    """The figures of a plan.

    `intervals` is the number of intervals of all nodes, `greatest_row` that of the node with the most, `bits` those of all rows.
    `stretch` is the sum of the walks over that of the distances, and `worst` the greatest stretch of a pair; both are None for a single
    node. `ring` says whether links can wait for each other in a ring. `together` says whether they can while packets of a second plan, over
    the whole network, are under way too; it is None where there was no second plan.
    """

    intervals: int
    greatest_row: int
    bits: int
    stretch: Optional[Fraction]
    worst: Optional[Fraction]
    ring: bool
    together: Optional[bool] = None


class LinkFailure(NamedTuple):
    """A link that fails, and the figures of the plan for the network without it; None where some node then has no path to some node."""

    link: Tuple[Hashable, Hashable]
    figures: Optional[LinkFigures]


class NodeFailure(NamedTuple):
    """A node that fails, and the figures of the plan for the network without it; None where then some node has no path to some node, or
    no node is left."""

    node: Hashable
    figures: Optional[LinkFigures]


class NodeFailures(NamedTuple):
    """The kind of the plans, the figures of the whole network's plan, and a `NodeFailure` for each node."""

    kind: str
    intact: LinkFigures
    failures: Tuple[NodeFailure, ...]


class LinkFailures(NamedTuple):
    """The kind of the plans, the figures of the whole network's plan, and a `LinkFailure` for each link."""

    kind: str
    intact: LinkFigures
    failures: Tuple[LinkFailure, ...]


def read_fraction(word: str, line: int) -> Optional[Fraction]:
    """A fraction `OVER/UNDER`, or None for `-`."""
    if word == "-":
        return None
    over, _, under = word.partition("/")
    return Fraction(number(over, line), number(under, line))


def read_figures(words: List[str], line: int) -> LinkFigures:
    """The figures of a line: six, and a seventh where there is a second plan."""
    rings = words[5:]
    if len(rings) not in (1, 2) or any(word not in ("acyclic", "cycle") for word in rings):
        raise FormatError("a line has five figures, and after them 'acyclic' or 'cycle' once or twice", line)
    intervals, greatest_row, bits = (number(word, line) for word in words[:3])
    mean, worst = (read_fraction(word, line) for word in words[3:5])
    return LinkFigures(intervals, greatest_row, bits, mean, worst, rings[0] == "cycle", rings[1] == "cycle" if len(rings) == 2 else None)


def headed_by(text: str, what: str) -> Tuple[List[str], List[Tuple[int, List[str]]]]:
    """The words of the first line, and the further lines with their numbers, of a text of this failing."""
    first, lines = headed(text, "each", 11)
    if first[1] != what:
        raise FormatError(f"the text begins with 'each {first[1]}', not with 'each {what}'", 1)
    return first, lines


def read_link_failures(text: str, names: NodeNames = SAME) -> LinkFailures:
    """The figures without each link, of the text that `route stats --each links` prints.

    Parameters
    ----------
    text, names
        As for `read_plan`.

    Returns
    -------
    LinkFailures

    Raises
    ------
    FormatError, UnknownNodeError
        As `read_plan`.

    Examples
    --------
    >>> found = read_link_failures("each links tree 2 1 2 1 4 8/8 4/4 acyclic\\na b disconnected\\n")
    >>> found.intact.bits, found.failures
    (4, (LinkFailure(link=('a', 'b'), figures=None),))
    """
    first, lines = headed_by(text, "links")
    rows: List[Any] = []
    for line, words in lines:
        if len(words) < 3:
            raise FormatError("a line has the two ends of a link and what is left without it", line)
        link = (names.node(words[0]), names.node(words[1]))
        rows.append(LinkFailure(link, None if words[2:] == ["disconnected"] else read_figures(words[2:], line)))
    return LinkFailures(first[2], read_figures(first[5:], 1), tuple(rows))


def read_node_failures(text: str, names: NodeNames = SAME) -> NodeFailures:
    """The figures without each node, of the text that `route stats --each nodes` prints.

    Parameters
    ----------
    text, names
        As for `read_plan`.

    Returns
    -------
    NodeFailures

    Raises
    ------
    FormatError, UnknownNodeError
        As `read_plan`.

    Examples
    --------
    >>> found = read_node_failures("each nodes tree 1 0 0 0 0 - - acyclic\\na empty\\n")
    >>> found.failures
    (NodeFailure(node='a', figures=None),)
    """
    first, lines = headed_by(text, "nodes")
    rows: List[Any] = []
    for line, words in lines:
        if len(words) < 2:
            raise FormatError("a line has a node and what is left without it", line)
        gone = words[1:] in (["disconnected"], ["empty"])
        rows.append(NodeFailure(names.node(words[0]), None if gone else read_figures(words[1:], line)))
    return NodeFailures(first[2], read_figures(first[5:], 1), tuple(rows))
