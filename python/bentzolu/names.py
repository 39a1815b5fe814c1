"""Names that `bentzolu` takes for the nodes of a graph, and the way back.

A name of `bentzolu` is 1 to 64 printable bytes of ASCII without a blank or `#`. Names that begin with `-` could be taken for
options, and a line that is exactly `%%` cuts an input, so neither is used here.
"""
from __future__ import annotations

import json
import unicodedata
from typing import Any, ItemsView, Iterable

from .errors import UnknownNodeError
from .typed import Node

MOST_BYTES = 64


def is_fine(name: str) -> bool:
    """Whether a string is a name that `bentzolu` takes as it is, also as a word of the command line."""
    return (
        1 <= len(name) <= MOST_BYTES
        and all("!" <= letter <= "~" and letter != "#" for letter in name)
        and not name.startswith("-")
        and name != "%%"
    )


def plain(text: str) -> str:
    """A name near to a text: letters without their accents, `_` for each byte that no name may have, at most 64 bytes."""
    apart = unicodedata.normalize("NFKD", text)
    kept = "".join(letter for letter in apart if not unicodedata.combining(letter))
    name = "".join(letter if "!" <= letter <= "~" and letter != "#" else "_" for letter in kept)[:MOST_BYTES]
    return name if is_fine(name) else ("_" + name)[:MOST_BYTES]


def text_of(node: Node) -> str:
    """What a node is called where it is no string: `str` without blanks, so `(0, 1)` is `(0,1)`."""
    return node if isinstance(node, str) else str(node).replace(" ", "")


class Names:
    """A one-to-one table of nodes and names.

    A string that is a name as it is keeps it. Any other node gets a name near to its text, followed by `~2`, `~3` and so
    on if the name is another node's.

    Parameters
    ----------
    nodes : iterable
        The nodes, each once.

    Examples
    --------
    >>> names = Names([(0, 1), "(0,1)", "Zürich"])
    >>> names.name((0, 1)), names.name("Zürich"), names.node("(0,1)")
    ('(0,1)~2', 'Zurich', '(0,1)')
    """

    def __init__(self, nodes: Iterable[Any]) -> None:
        nodes = list(nodes)
        self._names: dict[Any, str] = {node: node for node in nodes if isinstance(node, str) and is_fine(node)}
        self._nodes: dict[str, Any] = dict(self._names)
        for node in nodes:
            if node not in self._names:
                self._add(node)
        self._names = {node: self._names[node] for node in nodes}

    def _add(self, node: Node) -> None:
        wished = name = plain(text_of(node))
        count = 1
        while name in self._nodes:
            count += 1
            tail = f"~{count}"
            name = wished[: MOST_BYTES - len(tail)] + tail
        self._names[node] = name
        self._nodes[name] = node

    def name(self, node: Any) -> str:
        """The name of a node; UnknownNodeError where the graph has no such node."""
        try:
            return self._names[node]
        except (KeyError, TypeError):
            raise UnknownNodeError(f"the graph has no node {node!r}") from None

    def node(self, name: str) -> Any:
        """The node of a name; UnknownNodeError where it is no node's."""
        try:
            return self._nodes[name]
        except KeyError:
            raise UnknownNodeError(f"no node of the graph has the name {name!r}") from None

    def items(self) -> ItemsView[Any, str]:
        """Pairs of a node and its name, in the order of the nodes."""
        return self._names.items()

    def changed(self) -> list[tuple[Any, str]]:
        """The pairs whose name is not the node itself."""
        return [(node, name) for node, name in self.items() if node != name]

    def table(self) -> str:
        """A line for each node: its name, a tab, and the node as JSON (a string or a number; else its `repr` as a string)."""
        return "".join(f"{name}\t{_json(node)}\n" for node, name in self.items())

    def __len__(self) -> int:
        return len(self._names)

    def __repr__(self) -> str:
        said = ", ".join(f"{node!r}: {name!r}" for node, name in list(self.items())[:20])
        return f"<Names of {len(self)} nodes: {said if len(said) <= 200 else said[:200] + ' ..'}>"

    def __str__(self) -> str:
        return self.table().rstrip("\n")


def _json(node: Any) -> str:
    if isinstance(node, (str, int, float)) and not isinstance(node, bool):
        return json.dumps(node, ensure_ascii=False)
    return json.dumps(repr(node), ensure_ascii=False)
