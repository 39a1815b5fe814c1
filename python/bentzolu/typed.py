"""The types that the annotations of this package share."""
from __future__ import annotations

import pathlib
from typing import Any, Dict, Hashable, Protocol, Sequence, Tuple, Union

Node = Hashable
Graph = Any  # a graph of NetworkX, which has no annotations, or a list of edges that was made one
Network = Any  # what a call takes for a network: such a graph, a list of edges, or the path of a file
Text = Union[str, pathlib.Path]  # a text, or the file that has it
Texts = Sequence[Tuple[str, Text]]  # texts by what they are, as `topology`
Shown = Dict[str, str]  # the names of texts by their files
Attributes = Dict[str, Any]  # of an edge
Axes = Any  # of matplotlib, which need not be there


class NodeNames(Protocol):
    """What the names of nodes are asked for: `Names`, or a table in which each node is its own name."""

    def name(self, node: Any) -> str:
        """The name of a node."""

    def node(self, name: str) -> Any:
        """The node of a name."""


class NameTable(NodeNames, Protocol):
    """Names that also know which nodes have another name than their own."""

    def changed(self) -> Sequence[Tuple[Any, str]]:
        """The pairs of a node and its name where the two differ."""
