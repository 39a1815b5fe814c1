"""A reader of DOT, the language of Graphviz: the nodes and edges of its graphs, with the edges' attributes."""
from __future__ import annotations

import re
from typing import Any, Dict, NoReturn, Union

from .errors import FormatError
from .readers import Network

Names = Dict[str, None]  # the nodes of a subgraph, in their order
End = Union[str, Names]  # of an edge

TOKEN = re.compile(
    r"""(?P<blank>\s+|//[^\n]*|/\*.*?\*/|(?<![^\n])\#[^\n]*)"""
    r"""|(?P<edge>--|->)|(?P<mark>[][{};,=:+])"""
    r"""|(?P<quoted>"(?:[^"\\]|\\.)*")|(?P<number>-?(?:\.[0-9]+|[0-9]+(?:\.[0-9]*)?))|(?P<word>[^\W\d]\w*)|(?P<html><)""",
    re.DOTALL,
)
KEYWORDS = ("node", "edge", "graph", "digraph", "subgraph", "strict")


def html_end(text: str, at: int) -> int:
    """Where the text in angle brackets that opens at a place is closed."""
    depth = 0
    for found in re.finditer("[<>]", text[at:]):
        depth += 1 if found[0] == "<" else -1
        if depth == 0:
            return at + found.end()
    raise FormatError("an angle bracket is not closed", text.count("\n", 0, at) + 1)


def value_of(found: re.Match[str], text: str) -> tuple[str, int]:
    """What a token says, and where it ends."""
    if found.lastgroup == "quoted":
        return re.sub(r"\\\n", "", found[0][1:-1]).replace('\\"', '"'), found.end()
    if found.lastgroup == "html":
        end = html_end(text, found.start())
        return text[found.start(): end], end
    return found[0], found.end()


def kind_of(found: re.Match[str]) -> str:
    """The kind of a token: a keyword, an edge, a mark, a blank, or else an identifier."""
    if found.lastgroup == "word" and found[0].lower() in KEYWORDS:
        return "keyword"
    return found.lastgroup if found.lastgroup is not None and found.lastgroup in ("blank", "edge", "mark") else "id"


def tokens_of(text: str) -> list[tuple[str, str, int]]:
    """The tokens of a text: the kind, what it says, and the line of each, followed by one of kind `end`."""
    tokens: list[tuple[str, str, int]] = []
    at, line = 0, 1
    while at < len(text):
        found = TOKEN.match(text, at)
        if not found:
            raise FormatError(f"{text[at]!r} is not allowed in DOT", line)
        kind, (said, end) = kind_of(found), value_of(found, text)
        if kind != "blank":
            tokens.append((kind, said.lower() if kind == "keyword" else said, line))
        line += text.count("\n", at, end)
        at = end
    return [*tokens, ("end", "", line)]


class Reader:
    """Takes token after token of a graph and fills a network."""

    def __init__(self, text: str) -> None:
        self.tokens, self.at = tokens_of(text), 0
        self.network = Network()

    def peek(self) -> tuple[str, str]:
        kind, said, _ = self.tokens[self.at]
        return kind, said

    def take(self) -> tuple[str, str]:
        kind, said, _ = self.tokens[self.at]
        self.at += kind != "end"
        return kind, said

    def refuse(self, wanted: str) -> NoReturn:
        _, said, line = self.tokens[self.at]
        raise FormatError(f"expected {wanted}, found {said[:40]!r}" if said else f"expected {wanted}, found the end of the text", line)

    def takes(self, mark: str) -> bool:
        """Takes a mark or a keyword if it comes next."""
        there = self.peek() in (("mark", mark), ("keyword", mark))
        self.at += there
        return there

    def need(self, mark: str) -> None:
        if not self.takes(mark):
            self.refuse(repr(mark))

    def need_id(self) -> str:
        """An identifier; quoted ones that `+` joins are one."""
        if self.peek()[0] != "id":
            self.refuse("a name")
        said = self.take()[1]
        while self.takes("+"):
            said += self.take()[1]
        return said

    def graph(self) -> Network:
        """A whole text: one graph."""
        self.takes("strict")
        if self.takes("digraph"):
            self.network.directed = True
        elif not self.takes("graph"):
            self.refuse("'graph' or 'digraph'")
        if self.peek()[0] == "id":
            self.need_id()
        self.need("{")
        self.statements({})
        if self.peek()[0] != "end":
            self.refuse("the end")
        return self.network

    def statements(self, defaults: dict[str, Any]) -> Names:
        """Statements up to the bracket that closes them, with the attributes that edges have by default; the nodes."""
        nodes: Names = {}
        defaults = dict(defaults)
        while not self.takes("}"):
            if not self.takes(";"):
                nodes.update(self.statement(defaults))
        return nodes

    def statement(self, defaults: dict[str, Any]) -> Names:
        """One statement; the nodes that it names."""
        for keyword in ("graph", "node", "edge"):
            if self.takes(keyword):
                found = self.attributes()
                defaults.update(found if keyword == "edge" else {})
                return {}
        if self.peek()[0] == "keyword" and self.peek()[1] != "subgraph":
            self.refuse("a statement")
        first = self.end(defaults)
        if isinstance(first, str) and self.takes("="):
            self.need_id()
            return {}
        return self.chain([first], defaults)

    def chain(self, ends: list[End], defaults: dict[str, Any]) -> Names:
        """Nodes or groups of nodes that edges join, after the first of them; all nodes."""
        while self.peek()[0] == "edge":
            self.take()
            ends.append(self.end(defaults))
        found = {**defaults, **self.attributes()}
        groups: list[Names] = [{end: None} if isinstance(end, str) else end for end in ends]
        nodes: Names = {node: None for group in groups for node in group}
        for node in nodes:
            self.network.add_node(node)
        for u, v in [(u, v) for these, those in zip(groups, groups[1:]) for u in these for v in those]:
            self.network.add_edge(u, v, found)
        return nodes

    def end(self, defaults: dict[str, Any]) -> End:
        """An end of an edge: a node, or the nodes of a subgraph."""
        is_subgraph = self.takes("subgraph")
        if is_subgraph and self.peek()[0] == "id":
            self.need_id()
        if self.takes("{"):
            return self.statements(defaults)
        if is_subgraph:
            self.refuse("'{'")
        node = self.need_id()
        while self.takes(":"):
            self.need_id()
        return node

    def attributes(self) -> dict[str, str]:
        """Lists of attributes in square brackets, if there are any."""
        found: dict[str, str] = {}
        while self.takes("["):
            while not self.takes("]"):
                name = self.need_id()
                found[name] = self.need_id() if self.takes("=") else "true"
                self.at += self.peek() in (("mark", ","), ("mark", ";"))
        return found


def read_dot(text: str) -> Network:
    """One graph in DOT: nodes by their identifiers, edges with their attributes, subgraphs and defaults too."""
    try:
        return Reader(text).graph()
    except RecursionError:
        raise FormatError("subgraphs are nested too deeply") from None
