"""Readers of networks in other formats.

GML, GraphML, GEXF, Pajek, graph6 and sparse6 are read by NetworkX; the other readers are here and need nothing.
"""
from __future__ import annotations

import ast
import csv
import io
import json
import math
import re
import xml.etree.ElementTree as ElementTree
from fractions import Fraction
from typing import Any, Iterator, Mapping

from .errors import BentzoluError, FormatError
from .graphs import as_fraction
from .typed import Attributes, Graph


class Network:
    """Nodes in order, and for each edge its attributes. An edge is kept as it was read: in one direction, maybe often.
    `directed` is whether the text said that its edges have directions."""

    def __init__(self, directed: bool = False) -> None:
        self.nodes: dict[Any, None] = {}
        self.edges: list[tuple[Any, Any, Attributes]] = []
        self.directed = directed

    def add_node(self, node: Any) -> None:
        self.nodes.setdefault(node)

    def add_edge(self, source: Any, target: Any, attributes: Mapping[str, Any] | None = None) -> None:
        self.add_node(source)
        self.add_node(target)
        self.edges.append((source, target, dict(attributes or {})))


def decimal(word: Any, line: int | None = None) -> Fraction:
    """A word as an exact number."""
    found = as_fraction(word)
    if found is None:
        raise FormatError(f"{word!r} is not a number", line)
    return found


def plain_lines(text: str, comment: str = "#") -> Iterator[tuple[int, str]]:
    """The lines that have words, each as its number and its text without a comment."""
    for i, line in enumerate(text.splitlines()):
        line = line.split(comment, 1)[0].strip()
        if line:
            yield i + 1, line


def of_networkx(graph: Graph) -> Network:
    """A graph of NetworkX as a network."""
    network = Network(graph.is_directed())
    for node in graph.nodes:
        network.add_node(node)
    for source, target, attributes in graph.edges(data=True):
        network.add_edge(source, target, attributes)
    return network


def networkx_for(format: str) -> Any:
    """NetworkX, by which a format is read."""
    try:
        import networkx
    except ImportError:
        raise BentzoluError(f"reading {format} needs NetworkX, which is not installed") from None
    return networkx


def read_gml(text: str) -> Network:
    """GML, by NetworkX: nodes by their labels, or by their ids where labels are missing or come twice."""
    networkx = networkx_for("GML")
    errors = []
    for label in ("label", "id"):
        try:
            return of_networkx(networkx.parse_gml(text, label=label))
        except networkx.NetworkXError as error:
            errors.append(str(error))
    raise FormatError("; ".join(dict.fromkeys(errors)))


def labelled(networkx: Any, graph: Graph) -> Graph:
    """A graph whose nodes are their attributes `label`, where each has one of its own."""
    labels = [data.get("label") for _, data in graph.nodes(data=True)]
    if None not in labels and len(set(labels)) == len(labels):
        graph = networkx.relabel_nodes(graph, dict(zip(graph, labels)))
    return graph


def read_graphml(text: str) -> Network:
    """GraphML, by NetworkX: nodes by their attribute `label` where each has one of its own, else by their ids."""
    networkx = networkx_for("GraphML")
    try:
        graph = networkx.parse_graphml(text)
    except (networkx.NetworkXError, ElementTree.ParseError, KeyError) as error:
        raise FormatError(str(error)) from None
    return of_networkx(labelled(networkx, graph))


def hashed(node: Any) -> Any:
    """A JSON value as a node: lists as tuples."""
    return tuple(map(hashed, node)) if isinstance(node, list) else node


def read_json(text: str) -> Network:
    """Node-link JSON: `nodes` with `id`, and `links` or `edges` with `source` and `target`."""
    try:
        found = json.loads(text)
        network = Network(found.get("directed") is True)
        for node in found["nodes"]:
            network.add_node(hashed(node["id"]))
        for edge in found["links"] if "links" in found else found["edges"]:
            ends = hashed(edge["source"]), hashed(edge["target"])
            network.add_edge(*ends, {key: edge[key] for key in edge if key not in ("source", "target", "key")})
    except json.JSONDecodeError as error:
        raise FormatError(error.msg, error.lineno) from None
    except (AttributeError, KeyError, TypeError) as error:
        raise FormatError(f"not node-link JSON: {error}") from None
    return network


def kilometres(a: tuple[float, float], b: tuple[float, float]) -> float:
    """The distance along a great circle of an earth with a radius of 6,371 km, of longitudes and latitudes in degrees."""
    (east, north), (other_east, other_north) = (map(math.radians, place) for place in (a, b))
    haversine = math.sin((other_north - north) / 2) ** 2 + math.cos(north) * math.cos(other_north) * math.sin((other_east - east) / 2) ** 2
    return 2 * 6371 * math.asin(min(1, math.sqrt(haversine)))


def with_distances(network: Network, places: Mapping[Any, tuple[float, float]], geographical: bool) -> Network:
    """Gives each edge whose ends have places its `distance`: whole kilometres, or units of the drawing."""
    measure = kilometres if geographical else math.dist
    for source, target, attributes in network.edges:
        if source in places and target in places:
            attributes["distance"] = max(1, round(measure(places[source], places[target])))
    return network


SNDLIB_NODE = re.compile(r"(\S+)\s*\(\s*(\S+)\s+(\S+)\s*\)")
SNDLIB_LINK = re.compile(r"(\S+)\s*\(\s*(\S+)\s+(\S+)\s*\)\s*(\S+)\s+(\S+)\s+(\S+)\s+(\S+)\s*\(([^)]*)\)")


def section(text: str, name: str) -> str:
    """What is between the brackets of a section of SNDlib's native format."""
    found = re.search(rf"^\s*{name}\s*\(", text, re.MULTILINE)
    if not found:
        raise FormatError(f"there is no section {name}")
    depth, at = 1, found.end()
    while at < len(text) and depth > 0:
        depth += {"(": 1, ")": -1}.get(text[at], 0)
        at += 1
    if depth > 0:
        raise FormatError(f"the section {name} has no end")
    return text[found.end(): at - 1]


def read_sndlib(text: str) -> Network:
    """SNDlib's native text: edges with `capacity`, `routing_cost`, `setup_cost` and `distance`."""
    bare = re.sub(r"#.*", "", text)
    network = Network()
    places: dict[Any, tuple[float, float]] = {}
    for name, x, y in SNDLIB_NODE.findall(section(bare, "NODES")):
        network.add_node(name)
        places[name] = float(decimal(x)), float(decimal(y))
    for _, source, target, capacity, _, routing, setup, _ in SNDLIB_LINK.findall(section(bare, "LINKS")):
        for end in (source, target):
            if end not in network.nodes:
                raise FormatError(f"a link ends at {end}, which is not a node")
        network.add_edge(source, target, {"capacity": capacity, "routing_cost": routing, "setup_cost": setup})
    return with_distances(network, places, all(abs(x) <= 180 and abs(y) <= 90 for x, y in places.values()))


def local(element: ElementTree.Element) -> str:
    """The name of an element without its namespace."""
    return element.tag.rsplit("}", 1)[-1]


def inner(element: ElementTree.Element, name: str) -> str | None:
    """The text of the first element of this name below another, or None."""
    return next((found.text.strip() for found in element.iter() if local(found) == name and found.text), None)


def read_sndlib_xml(text: str) -> Network:
    """SNDlib's XML: as its native text."""
    try:
        top = ElementTree.fromstring(text)
    except ElementTree.ParseError as error:
        raise FormatError(str(error)) from None
    network, geographical = Network(), True
    places: dict[Any, tuple[float, float]] = {}
    for element in top.iter():
        if local(element) == "nodes":
            geographical = element.get("coordinatesType", "geographical") == "geographical"
        elif local(element) == "node" and element.get("id") is not None:
            network.add_node(element.get("id"))
            x, y = inner(element, "x"), inner(element, "y")
            if x is not None and y is not None:
                places[element.get("id")] = float(decimal(x)), float(decimal(y))
        elif local(element) == "link":
            source, target = inner(element, "source"), inner(element, "target")
            if source not in network.nodes or target not in network.nodes:
                raise FormatError(f"the link {element.get('id')} has an end that is not a node")
            given = {"capacity": inner(element, "capacity"), "routing_cost": inner(element, "routingCost"), "setup_cost": inner(element, "setupCost")}
            network.add_edge(source, target, {key: value for key, value in given.items() if value is not None})
    return with_distances(network, places, geographical)


def read_rocketfuel(text: str) -> Network:
    """Rocketfuel's weights: a line has two places without blanks and a decimal weight."""
    network = Network()
    for line, said in plain_lines(text):
        words = said.split("\t") if said.count("\t") == 2 else said.split()
        if len(words) != 3:
            raise FormatError("expected two names and a weight", line)
        network.add_edge(words[0], words[1], {"weight": decimal(words[2], line)})
    return network


def read_caida(text: str) -> Network:
    """CAIDA's links of autonomous systems: `A|B|RELATION`, or the lines `D A B ..` of the files of links seen."""
    network = Network()
    for line, words in plain_lines(text):
        fields = words.split("|") if "|" in words else words.split()
        if "|" not in words and fields[0] in ("D", "I", "T", "M"):
            if fields[0] != "D":
                continue
            fields = fields[1:]
        if len(fields) < 2 or not all(re.fullmatch(r"[0-9][0-9,_]*", word) for word in fields[:2]):
            raise FormatError("expected two autonomous systems", line)
        network.add_edge(fields[0], fields[1])
    return network


HEADS = {"source", "target", "from", "to", "u", "v", "node", "node1", "node2", "a", "b", "src", "dst", "start", "end"}


def is_head(row: list[str]) -> bool:
    """Whether a first row names columns: a third cell that is no number, or two names of columns with `weight` or nothing."""
    words = [cell.strip().lower() for cell in row]
    if len(words) >= 3 and words[2]:
        return as_fraction(words[2]) is None
    return words[0] in HEADS and words[1] in HEADS and {words[0], words[1]} != {"a", "b"}


def read_csv(text: str) -> Network:
    """Rows `u,v` or `u,v,weight`, divided by commas, semicolons or tabs, with or without a row of heads."""
    first = next((line for line in text.splitlines() if line.strip()), "")
    mark = next((mark for mark in (",", ";", "\t") if mark in first), ",")
    network = Network()
    reader = csv.reader(io.StringIO(text), delimiter=mark, skipinitialspace=True)
    is_first = True
    for row in reader:
        cells = [cell.strip() for cell in row]
        if not any(cells) or cells[0].startswith("#"):
            continue
        if len(cells) < 2 or not cells[0] or not cells[1]:
            raise FormatError("expected two nodes", reader.line_num)
        if not (is_first and is_head(cells)):
            given = {"weight": decimal(cells[2], reader.line_num)} if len(cells) > 2 and cells[2] else {}
            network.add_edge(cells[0], cells[1], given)
        is_first = False
    return network


def read_matrix_market(text: str) -> Network:
    """A sparse square matrix of MatrixMarket: its rows are the nodes 1 to n, and an entry that is not 0 an edge."""
    lines = text.splitlines()
    head = lines[0].lower().split() if lines else []
    if head[:3] != ["%%matrixmarket", "matrix", "coordinate"] or len(head) < 5 or head[3] not in ("real", "integer", "pattern"):
        raise FormatError("expected 'matrix coordinate' of real, integer or pattern", 1)
    network = Network()
    size: int | None = None
    for line, said in plain_lines("\n" + "\n".join(lines[1:]), "%"):
        words = said.split()
        if size is None:
            if len(words) != 3 or words[0] != words[1] or not words[0].isdigit():
                raise FormatError("expected the size of a square matrix", line)
            size = int(words[0])
            for node in range(1, size + 1):
                network.add_node(node)
            continue
        if len(words) != (2 if head[3] == "pattern" else 3) or not all(word.isdigit() and 1 <= int(word) <= size for word in words[:2]):
            raise FormatError("expected an entry of the matrix", line)
        weight = Fraction(1) if head[3] == "pattern" else decimal(words[2], line)
        if weight != 0:
            network.add_edge(int(words[0]), int(words[1]), {"weight": weight})
    return network


def read_gexf(text: str) -> Network:
    """GEXF, by NetworkX: nodes by their labels where each has one of its own, else by their ids."""
    networkx = networkx_for("GEXF")
    try:
        graph = networkx.read_gexf(io.StringIO(text))
    except (networkx.NetworkXError, ElementTree.ParseError, KeyError, ValueError, TypeError, AttributeError) as error:
        raise FormatError(f"not GEXF: {error}") from None
    network = of_networkx(labelled(networkx, graph))
    for _, _, attributes in network.edges:
        attributes.pop("id", None)
    return network


def read_pajek(text: str) -> Network:
    """Pajek's `*Vertices` and `*Edges` or `*Arcs`, by NetworkX: nodes by their labels."""
    networkx = networkx_for("Pajek")
    try:
        return of_networkx(networkx.parse_pajek(text))
    except (networkx.NetworkXError, ValueError, IndexError, KeyError, StopIteration, RuntimeError) as error:
        raise FormatError(f"not a Pajek network: {error}") from None


def read_one_line(text: str, name: str, front: str, read: str) -> Network:
    """The graph of the one line of a text, by a reader of bytes; `front` may come before it."""
    networkx = networkx_for(name)
    lines = [line.strip() for line in text.splitlines() if line.strip()]
    if len(lines) != 1:
        raise FormatError(f"expected one graph, found {len(lines)}")
    try:
        return of_networkx(getattr(networkx, read)(lines[0].removeprefix(front).encode("ascii")))
    except (networkx.NetworkXError, ValueError, IndexError) as error:
        raise FormatError(f"not {name}: {error}") from None


def read_graph6(text: str) -> Network:
    """The graph of one line in graph6, by NetworkX: its nodes are 0 to n-1."""
    return read_one_line(text, "graph6", ">>graph6<<", "from_graph6_bytes")


def read_sparse6(text: str) -> Network:
    """The graph of one line in sparse6, by NetworkX: its nodes are 0 to n-1."""
    return read_one_line(text, "sparse6", ">>sparse6<<", "from_sparse6_bytes")


WORD = re.compile(r"\s*([({#]|[^\s#]+)")
INSIDE = re.compile(r"""'(?:[^'\\]|\\.)*'|"(?:[^"\\]|\\.)*"|[][(){}]|[^][(){}'"]+|['"]""")


def closed(text: str, at: int, line: int) -> int:
    """Where the bracket that opens at a place is closed."""
    depth = 0
    for found in INSIDE.finditer(text, at):
        depth += {"(": 1, "[": 1, "{": 1, ")": -1, "]": -1, "}": -1}.get(found[0], 0)
        if depth == 0:
            return found.end()
    raise FormatError("a bracket is not closed", line)


def python_words(text: str, line: int) -> list[str]:
    """The words of a line as NetworkX writes them, up to a comment: one that begins with a bracket goes on to where it is
    closed."""
    words: list[str] = []
    at = 0
    while (found := WORD.match(text, at)) and found[1] != "#":
        at = found.end() if found[1] not in ("(", "{") else closed(text, found.start(1), line)
        words.append(text[found.start(1): at])
    return words


def python_node(word: str) -> Any:
    """A word as a node: a tuple that Python can read, or else the word."""
    if word.startswith("("):
        try:
            found = ast.literal_eval(word)
            hash(found)
            return found
        except (SyntaxError, ValueError, TypeError):
            return word
    return word


def python_data(word: str, line: int) -> dict[Any, Any]:
    """The attributes that a dictionary in Python's writing has."""
    try:
        found = ast.literal_eval(word)
    except (SyntaxError, ValueError):
        found = None
    if not isinstance(found, dict):
        raise FormatError(f"{word[:40]!r} is not a dictionary of attributes", line)
    return found


def list_lines(text: str) -> Iterator[tuple[int, list[str]]]:
    """The lines of a list of NetworkX that have words: the number and the words of each."""
    for i, line in enumerate(text.splitlines()):
        words = python_words(line, i + 1)
        if words:
            yield i + 1, words


def read_adjlist(text: str) -> Network:
    """An adjacency list of NetworkX: a node and its neighbours in each line. Tuples are read as one word."""
    network = Network()
    for line, words in list_lines(text):
        if any(word.startswith("{") for word in words):
            raise FormatError("attributes in braces are not allowed here: give --from edgelist or --from multiline", line)
        node, *neighbours = map(python_node, words)
        network.add_node(node)
        for other in neighbours:
            network.add_edge(node, other)
    return network


def read_edgelist(text: str) -> Network:
    """An edge list of NetworkX: two nodes, and nothing, a weight, or a dictionary of attributes. Tuples are read as one
    word."""
    network = Network()
    for line, words in list_lines(text):
        if len(words) == 1:
            network.add_node(python_node(words[0]))
            continue
        data: Attributes = {}
        if len(words) == 3:
            data = python_data(words[2], line) if words[2].startswith("{") else {"weight": decimal(words[2], line)}
        elif len(words) > 3:
            raise FormatError("expected two nodes, and then a weight, attributes or nothing", line)
        network.add_edge(python_node(words[0]), python_node(words[1]), data)
    return network


def read_multiline(text: str) -> Network:
    """A multiline adjacency list of NetworkX: a node and the number of its neighbours, then each of them in a line of its
    own, with a dictionary of attributes or none. Tuples are read as one word."""
    network, left = Network(), 0
    node: Any = None
    for line, words in list_lines(text):
        if left == 0:
            if len(words) != 2 or not words[1].isdigit():
                raise FormatError("expected a node and the number of its neighbours", line)
            node, left = python_node(words[0]), int(words[1])
            network.add_node(node)
            continue
        if len(words) > 2:
            raise FormatError("expected a neighbour and its attributes", line)
        data = python_data(words[1], line) if len(words) == 2 else {}
        network.add_edge(node, python_node(words[0]), data)
        left -= 1
    if left > 0:
        raise FormatError(f"{left} neighbours of {node!r} are missing")
    return network
