"""Files of networks in other formats, as weighted edge lists of `bentzolu`."""
from __future__ import annotations

import math
import re
from fractions import Fraction
from typing import Any, Callable

from .dot import read_dot
from .errors import BentzoluError
from .graphs import MOST_WEIGHT, as_fraction, factor_for
from .names import Names, text_of
from .readers import (
    Network, decimal, plain_lines, read_adjlist, read_caida, read_csv, read_edgelist, read_gexf, read_gml, read_graph6,
    read_graphml, read_json, read_matrix_market, read_multiline, read_pajek, read_rocketfuel, read_sndlib, read_sndlib_xml,
    read_sparse6,
)
from .texts import counted

READERS: dict[str, Callable[[str], Network]] = {
    "gml": read_gml, "graphml": read_graphml, "json": read_json, "sndlib": read_sndlib, "sndlib-xml": read_sndlib_xml,
    "rocketfuel": read_rocketfuel, "caida": read_caida, "csv": read_csv, "mtx": read_matrix_market, "dot": read_dot,
    "gexf": read_gexf, "pajek": read_pajek, "graph6": read_graph6, "sparse6": read_sparse6, "adjlist": read_adjlist,
    "edgelist": read_edgelist, "multiline": read_multiline,
}
ENDINGS = {
    "gml": "gml", "graphml": "graphml", "json": "json", "sndlib": "sndlib", "csv": "csv", "tsv": "csv", "mtx": "mtx",
    "intra": "rocketfuel", "weights": "rocketfuel", "dot": "dot", "gv": "dot", "gexf": "gexf", "net": "pajek",
    "paj": "pajek", "pajek": "pajek", "g6": "graph6", "graph6": "graph6", "s6": "sparse6", "sparse6": "sparse6",
    "adjlist": "adjlist", "edgelist": "edgelist", "edges": "edgelist", "wel": "edgelist", "multiline": "multiline",
}
FRONTS = {"%%matrixmarket": "mtx", "?sndlib": "sndlib", ">>graph6<<": "graph6", ">>sparse6<<": "sparse6", "{": "json"}
ELEMENTS = {"<graphml": "graphml", "<gexf": "gexf", "<networkStructure": "sndlib-xml"}


def format_of_list(text: str) -> str | None:
    """The format of a list of NetworkX whose lines have attributes in braces; None where there are none."""
    lines = (line.strip() for line in text.splitlines())
    found = [line for _, line in zip(range(2), (line for line in lines if line and not line.startswith("#")))]
    if found and found[0].endswith("}"):
        return "edgelist"
    if len(found) == 2 and found[1].endswith("}") and re.search(r"\s[0-9]+$", found[0]):
        return "multiline"
    return None


def format_of(name: str, text: str) -> str | None:
    """The format of a file, by what it begins with and otherwise by its name; None if neither shows it."""
    front = text.lstrip("\ufeff \t\r\n")
    lower = front[:65536].lower()
    for begin, format in FRONTS.items():
        if lower.startswith(begin):
            return format
    if front.startswith("<"):
        return next((format for element, format in ELEMENTS.items() if element in front), None)
    if re.search(r"^\s*graph\s*\[", front[:65536], re.MULTILINE):
        return "gml"
    bare = without_comments(lower)
    if re.match(r"(?:strict\s+)?(?:di)?graph\b[^]{}[;=]*\{", bare):
        return "dot"
    if re.match(r"\*(?:vertices|network)\b", bare):
        return "pajek"
    first = next((line for _, line in plain_lines(text)), "")
    if re.match(r"[0-9][0-9,_]*\|[0-9]|[DITM]\t", first):
        return "caida"
    return format_of_list(text) or ENDINGS.get(name.rsplit(".", 1)[-1].lower())


COMMENT = re.compile(r"\s+|//[^\n]*|/\*.*?\*/|[#%][^\n]*", re.DOTALL)


def without_comments(text: str) -> str:
    """A text without the blanks and the comments at its front."""
    at = 0
    while found := COMMENT.match(text, at):
        at = found.end()
    return text[at:]


def parts_of(network: Network) -> list[list[Any]]:
    """The nodes of each part between which no edge goes, the largest first and else in the order of the nodes."""
    near: dict[Any, list[Any]] = {node: [] for node in network.nodes}
    for source, target, _ in network.edges:
        near[source].append(target)
        near[target].append(source)
    parts: list[list[Any]] = []
    seen: set[Any] = set()
    for start in near:
        if start in seen:
            continue
        part = [start]
        seen.add(start)
        for node in part:
            for other in near[node]:
                if other not in seen:
                    seen.add(other)
                    part.append(other)
        parts.append(part)
    return sorted(parts, key=len, reverse=True)


def only(network: Network, part: list[Any]) -> Network:
    """A network with the nodes of one part alone, in their order."""
    kept, smaller = set(part), Network(network.directed)
    for node in network.nodes:
        if node in kept:
            smaller.add_node(node)
    for source, target, attributes in network.edges:
        if source in kept:
            smaller.add_edge(source, target, attributes)
    return smaller


def whole_weights(weights: list[Fraction], notes: list[str]) -> list[int]:
    """Whole weights from 1 to 65,535: as they are, or all times one factor, which a note reports; rounded only if needed."""
    if not weights:
        return []
    if min(weights) <= 0:
        raise BentzoluError(f"a weight of {float(min(weights)):g} can't be scaled to a whole number of at least 1: use --weight 1 for 1 everywhere")
    exact = factor_for(weights)
    if exact is not None:
        if exact > 1:
            notes.append(f"weights are multiplied by {exact}, exactly")
        return [int(weight * exact) for weight in weights]
    factor = Fraction(MOST_WEIGHT) / max(weights)
    factor = Fraction(math.floor(factor)) if factor >= 1 else factor
    notes.append(f"weights are multiplied by {float(factor):g} and rounded, which can change the shortest paths")
    return [max(1, round(weight * factor)) for weight in weights]


def given_weights(network: Network, weight: str | None, notes: list[str]) -> list[Fraction]:
    """The weights of the edges: those of the attribute, or 1 each."""
    attributes = sorted({key for _, _, found in network.edges for key in found if as_fraction(found[key]) is not None})
    if weight is None:
        weight = "weight" if any("weight" in found for _, _, found in network.edges) else "1"
        if weight == "1" and attributes:
            notes.append(f"each weight is 1; the edges have {', '.join(attributes)}: choose one by --weight NAME")
    if weight == "1":
        return [Fraction(1)] * len(network.edges)
    missing = sum(weight not in found for _, _, found in network.edges)
    if network.edges and missing == len(network.edges):
        raise BentzoluError(f"no edge has an attribute {weight!r}; there are: {', '.join(attributes) or 'none'}")
    if missing:
        notes.append(f"{missing} of {len(network.edges)} edges have no {weight!r} and get weight 1")
    return [decimal(found.get(weight, 1)) for _, _, found in network.edges]


def links_of(network: Network, weight: str | None, notes: list[str]) -> dict[tuple[Any, Any], int]:
    """The links: pairs of nodes with the least weight of all edges between them, in either direction."""
    links: dict[tuple[Any, Any], Fraction] = {}
    loops = more = 0
    weights = given_weights(network, weight, notes)
    for (source, target, _), given in zip(network.edges, weights):
        if source == target:
            loops += 1
            continue
        pair = (source, target) if (source, target) in links or (target, source) not in links else (target, source)
        more += pair in links
        links[pair] = min(given, links.get(pair, given))
    if loops:
        notes.append(f"{loops} edges from a node to itself are left out")
    if network.directed:
        notes.append("directions are dropped")
    if more:
        notes.append(f"{more} more edges between linked nodes are left out: a link has the least weight, in both directions")
    return dict(zip(links, whole_weights(list(links.values()), notes)))


def converted(text: str, format: str, largest: bool = False, weight: str | None = None) -> tuple[str, Names, list[str]]:
    """A weighted edge list, the names of the nodes, and notes on what was changed, of a text in one of the formats."""
    network = READERS[format](text)
    notes: list[str] = []
    if not network.nodes:
        raise BentzoluError("the network has no nodes")
    parts = parts_of(network)
    if len(parts) > 1:
        sizes = ", ".join(str(len(part)) for part in parts[:5]) + (", .." if len(parts) > 5 else "")
        if not largest:
            raise BentzoluError(f"the network has {len(parts)} unconnected parts, of {sizes} nodes; --largest takes the largest")
        notes.append(f"only the largest of {len(parts)} parts is taken, with {len(parts[0])} of {len(network.nodes)} nodes")
        network = only(network, parts[0])
    links, names = links_of(network, weight, notes), Names(network.nodes)
    lines = [f"{names.name(u)} {names.name(v)} {given}\n" for (u, v), given in links.items()]
    if not links:
        lines = [f"{names.name(node)} {names.name(node)} 1\n" for node in network.nodes]
    notes.insert(0, f"{counted(len(names), 'node')}, {counted(len(links), 'link')}")
    return "".join(lines), names, notes


def renamed(names: Names) -> int:
    """How many nodes have a name that is not what they are called."""
    return sum(text_of(node) != name or " " in str(node) for node, name in names.items())
