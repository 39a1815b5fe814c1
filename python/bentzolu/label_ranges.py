"""Ranges of labels, for tables that match ranges: nftables, P4, TCAMs, arrays of C; what `bentzolu ranges` prints.

That the program's ranges are those of the plan is proved; nothing of this module is. So `check_ranges` compares what was
read, label by label, with the plan's intervals before it is used.
"""
from __future__ import annotations

import re
from typing import Any, Hashable, Mapping, NamedTuple, Sequence

from .errors import FormatError
from .texts import SAME, NodePlan, Plan, headed, number
from .typed import Node, NodeNames


class Range(NamedTuple):
    """The labels from `first` to `last`, both of them in it; packets for them go to the neighbour `to`."""

    first: int
    last: int
    to: Hashable


RANGE = re.compile("([0-9]+)-([0-9]+)")


def read_range(word: str, to: str, line: int, names: NodeNames) -> Range:
    """A range, of a word `FROM-TO` and the one after it."""
    found = RANGE.fullmatch(word)
    if not found:
        raise FormatError(f"{word!r} is not a range", line)
    return Range(int(found[1]), int(found[2]), names.node(to))


def read_ranges(text: str, names: NodeNames = SAME) -> dict[Any, tuple[Range, ...]]:
    """The ranges of each node, of the text that `bentzolu ranges` prints.

    Parameters
    ----------
    text : str
        What was printed.
    names : Names, optional
        What leads names back to nodes; each name is its own node by default.

    Returns
    -------
    dict
        By node, tuples of `Range`.

    Raises
    ------
    FormatError
        If the text is no list of ranges; `line` is the number of the line.
    UnknownNodeError
        If a name is no node's.

    Examples
    --------
    >>> read_ranges("ranges tree 2 2\\na 0 1-1 b\\nb 1 0-0 a\\n")["a"]
    (Range(first=1, last=1, to='b'),)
    """
    first, lines = headed(text, "ranges", 4)
    nodes: dict[Any, tuple[Range, ...]] = {}
    for line, words in lines:
        if len(words) < 2 or len(words) % 2 != 0:
            raise FormatError("a range has no neighbour", line)
        number(words[1], line)
        found = (read_range(word, to, line, names) for word, to in zip(words[2::2], words[3::2]))
        nodes[names.node(words[0])] = tuple(found)
    if len(nodes) != number(first[2], 1) or sum(map(len, nodes.values())) != number(first[3], 1):
        raise FormatError("the numbers of nodes and ranges do not match the first line", 1)
    return nodes


def check_ranges(plan: Plan, found: Mapping[Any, Sequence[Range]]) -> None:
    """Compares ranges with a plan: all labels of each node, each with the neighbour of the plan's intervals.

    Parameters
    ----------
    plan : Plan
        The plan.
    found : mapping
        By node, sequences of `Range`.

    Raises
    ------
    FormatError
        If a label has another neighbour than in the plan, or the ranges do not ascend.

    Examples
    --------
    >>> from bentzolu.texts import read_plan
    >>> found = read_ranges("ranges tree 2 2\\na 0 1-1 b\\nb 1 0-0 a\\n")
    >>> check_ranges(read_plan("plan tree 2 2\\na 0 1 b\\nb 1 0 a\\n"), found)
    """
    if set(found) != set(plan.nodes):
        raise FormatError("the ranges are not those of the plan's nodes")
    for name, node in plan.nodes.items():
        held: list[Node | None] = [None] * len(plan.nodes)
        before: Range | None = None
        for it in found[name]:
            if not (before.last if before else -1) < it.first <= it.last < len(held):
                raise FormatError(f"a range of {name!r} does not ascend")
            if before and before.last + 1 == it.first and before.to == it.to:
                raise FormatError(f"two adjacent ranges of {name!r} go to the same neighbour")
            held[it.first : it.last + 1] = [it.to] * (it.last + 1 - it.first)
            before = it
        wanted = neighbours_of(node, len(held))
        if held != wanted:
            label = next(label for label, pair in enumerate(zip(held, wanted)) if pair[0] != pair[1])
            raise FormatError(f"the ranges of {name!r} have another neighbour than the plan for the label {label}")


def neighbours_of(node: NodePlan, count: int) -> list[Node | None]:
    """The neighbour of a node's intervals for each of so many labels; None for the node's own."""
    starts, to = node.starts, node.neighbours
    found: list[Node | None] = [to[-1] if to else None] * count
    for start, end, neighbour in zip(starts, (*starts[1:], count), to):
        found[start:end] = [neighbour] * (min(end, count) - start)
    if 0 <= node.label < count:
        found[node.label] = None
    return found
