"""The circle of labels of a node, as SVG and for Graphviz, beside one that is drawn by the book."""
from __future__ import annotations

import itertools
import os
import random
import xml.etree.ElementTree
from typing import Iterator, Optional, Sequence, Tuple

from support.book import ByTheBook
from support.checks import count
from support.marks import built
from support.places import TOP
from support.route import brief, expect, put, refused, run

pytestmark = [built]


Span = Tuple[int, int, int]  # from a label up to another, and the port


class Circle:
    """The circle of labels with a node's intervals, of a network that is drawn by the book."""

    INK = "#1d2733"
    COLOURS = ("#2b6fd6 #c75d00 #1b8049 #8f4bc9 #c7305f #0b8290 #96602f #6c7200 #4a5a9e #b3458c #3d7a76 #a34b2a").split()

    def __init__(self, book: ByTheBook, kind: str, u: str) -> None:
        row = book.row(kind, u) if len(book.names) > 1 else []
        self.book, self.u, self.ports, self.n = book, u, list(book.ports[u]), len(book.names)
        self.own = book.labels[u]
        self.spans = [(start, row[(i + 1) % len(row)][0], self.ports.index(hop)) for i, (start, hop) in enumerate(row)]

    def colour(self, port: int) -> str:
        return self.COLOURS[port % 12]

    def has(self, span: Span, label: int) -> bool:
        start, end, _ = span
        return start <= label < end if start < end else start <= label or label < end

    @staticmethod
    def said(span: Sequence[int]) -> str:
        return "all labels" if span[0] == span[1] else "[{},{})".format(*span)

    def first(self, port: int) -> str:
        found = [" " + self.said(span) for span in self.spans if span[2] == port]
        more = f" and {len(found) - 6} more" if len(found) > 6 else ""
        return "".join(found[:6]) + (more if found else " no label")

    def dot(self) -> Iterator[str]:
        def escaped(name: str) -> str:
            return name.replace("\\", "\\\\").replace('"', '\\"')

        order = [escaped(name) for name in self.book.order]
        yield "strict graph {\n  layout=circo;"
        yield '  node [shape=box, style="rounded,filled", fontname="sans-serif", fontcolor="#ffffff"];\n  edge [color="#9aa5b1"];'
        for label, name in enumerate(order):
            ports = [port for *span, port in self.spans if label != self.own and self.has((*span, port), label)]  # type: ignore[arg-type]
            yield f'  "{name}" [label="{name}\\n{label}", fillcolor="{self.colour(ports[0]) if ports else self.INK}"];'
        for one, other in zip(order, order[1:] + order[:1]):
            if one != other:
                yield f'  "{one}" -- "{other}";'
        for port, name in enumerate(self.ports[:30]):
            yield f'  "port {port}" [fillcolor="{self.colour(port)}", label="{escaped(name)}:{self.first(port)}"];'
        if len(self.ports) > 30:
            yield f'  "more ports" [fillcolor="{self.INK}", label="and {len(self.ports) - 30} more ports"];'
        yield "}"

    def arcs(self) -> Iterator[Tuple[str, int, int, str]]:
        """The colour, the first label and the number of labels of each arc, and what it says."""
        for start, end, port in self.spans:
            yield self.colour(port), start, (end - start - 1) % self.n + 1, f"{self.said((start, end))} to {self.ports[port]}"
        yield self.INK, self.own, 1, f"{self.u} itself"

    def svg_fault(self, text: bytes) -> Optional[str]:
        """What of an SVG document is not the circle's: its arcs, its texts, or the lines of its ports."""
        tag, n = "{http://www.w3.org/2000/svg}", self.n
        root = xml.etree.ElementTree.fromstring(text)
        found = [(arc.get("stroke"), arc.get("stroke-dasharray"), arc.get("stroke-dashoffset"), arc.findtext(f"{tag}title"))
                 for arc in root.iter(f"{tag}circle")]
        wanted = [(colour, f"{710 * count} {710 * (n - count)}", f"{710 * (n - start)}", title) for colour, start, count, title in self.arcs()]
        if n <= 64:
            wanted.append(("#ffffff", f"{n} {710 - n}", f"{n // 2}", None))  # type: ignore[arg-type]
        if found != wanted:
            return f"arcs {found[:3]} .., and not {wanted[:3]} .."
        if {arc.get("r") for arc in root.iter(f"{tag}circle")} != {str(113 * n)}:
            return "a radius is another"
        ring, middle, *_ = root.findall(f"{tag}g")[0], root.findall(f"{tag}text"), None
        names = [name if len(name) <= 16 else name[:14] + ".." for name in self.book.order]
        if n <= 64:
            places = [item for label, name in enumerate(names) for item in ((2 * label + 1, str(label)), (2 * label + 1, name))]
        else:
            places = [(2 * start, str(start)) for start, *_ in self.spans] if len(self.spans) <= 64 else []
            places.append((2 * self.own + 1, names[self.own]))
        for half, (text_, (place, said)) in enumerate(zip(ring, places)):
            turn = 180_000 * (place if place <= n else place - n) // n
            if text_.text != said or text_.get("transform") != f"rotate({turn // 1000}.{turn % 1000:03})":
                return f"text {half} is {text_.text} at {text_.get('transform')}, and not {said} at {turn}"
            is_bold = half == (2 * self.own + 1 if n <= 64 else len(places) - 1)
            if text_.get("x").startswith("-") != (place > n) or (text_.get("font-weight") == "bold") != is_bold:  # type: ignore[union-attr]
                return f"text {half} is on the other side, or bold"
        if len(ring) != len(places):
            return f"{len(ring)} texts, and not {len(places)}"
        if [line.text for line in middle] != [names[self.own], f"label {self.own}"]:
            return "another middle"
        key = root.findall(f"{tag}g")[1]
        lines = [f"{self.u} itself: label {self.own}", *(f"{name}:{self.first(port)}" for port, name in enumerate(self.ports[:30]))]
        lines += [f"and {len(self.ports) - 30} more ports"] if len(self.ports) > 30 else []
        paints = [self.INK, *map(self.colour, range(min(len(self.ports), 30)))]
        if [line.text for line in key.iter(f"{tag}text")][2:] != lines or [box.get("fill") for box in key.iter(f"{tag}rect")] != paints:
            return "another key"
        return None


def test_circles() -> None:
    """The circle of labels of nodes of networks, small and large, as SVG and for Graphviz."""
    with open(os.path.join(TOP, "examples/nsfnet.edgelist")) as file:
        nets = {"nsfnet": (file.read(), ["Seattle", "Ithaca", "Houston"])}
    hostile = ["<a>", "&amp;", 'q"', "b\\", "]]>", "n" * 16, "n" * 17]
    nets["hostile"] = "".join(f"{u} {v} 1\n" for u, v in itertools.combinations(hostile, 2)), hostile
    nets["star"] = "".join(f"centre leaf{i} 1\n" for i in range(40)), ["centre", "leaf7"]
    nets["two"] = "a b 1\n", ["a", "b"]
    luck = random.Random(7)
    for nodes in (64, 65, 300):
        edges = {(luck.randrange(v), v) for v in range(1, nodes) for _ in range(2)}
        nets[f"random {nodes}"] = "".join(f"{u} {v} {luck.randint(1, 9)}\n" for u, v in sorted(edges)), ["0", "1", str(nodes - 1)]
    for name, (text, nodes) in nets.items():  # type: ignore[assignment]
        book, net = ByTheBook(text), put(f"circle/{name.replace(' ', '')}", text)
        for kind, node in itertools.product(("tree", "shortest"), nodes):  # type: ignore[call-overload]
            circle, words_ = Circle(book, kind, node), ["draw", "--format", "edgelist", "--kind", kind, "--node", node, net]
            expect(f"{name}, {kind}, the circle of {node}", run(words_), "".join(f"{line}\n" for line in circle.dot()).encode(), b"", 0)
            output, faults, status = run([*words_, "--svg"])
            count(f"{name}, {kind}, the circle of {node} as SVG",
                  circle.svg_fault(output) if (faults, status) == (b"", 0) else f"status {status}, {brief(faults)}")
    refused("the circle of no node", run(["draw", "--node", "z", "-"], b"a b\n"), "opening NoNode")
    refused("the circle of no network", run(["draw", "--node", "z", "-"], b""), "opening Empty")
