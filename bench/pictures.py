#!/usr/bin/env python3
"""Makes docs/nsfnet.svg and docs/relabel.svg of what `route draw` prints: the NSFNET backbone, its nodes where they lie on the map.

Outside the gate: it wants python3, the built program, and Graphviz's dot.
"""
from __future__ import annotations

import itertools
import math
import pathlib
import re
import subprocess
from typing import Any

HERE = pathlib.Path(__file__).parent
PROGRAM = HERE / "../crates/route/out/route"
TOPOLOGY = HERE / "../examples/nsfnet.edgelist"
DOCS = HERE / "../docs"

# Longitude and latitude, moved a little where two nodes would lie on one line.
PLACES = {
    "Seattle": (-121.0, 47.6), "PaloAlto": (-123.4, 37.6), "SanDiego": (-114.6, 32.2), "SaltLakeCity": (-112.4, 41.4), "Boulder": (-105.3, 40.0),
    "Lincoln": (-96.7, 40.8), "Champaign": (-88.2, 40.1), "Houston": (-95.4, 29.8), "Atlanta": (-86.5, 34.9), "Pittsburgh": (-80.0, 40.4),
    "AnnArbor": (-83.7, 44.4), "Ithaca": (-76.0, 44.0), "Princeton": (-71.5, 40.3), "CollegePark": (-76.6, 36.6),
}
STYLE = """graph {
  graph [bgcolor="white", outputorder=edgesfirst, splines=true];
  node [shape=box, style="rounded,filled", fillcolor="#eef3fb", color="#33557f", fontname="Helvetica", fontsize=12, margin="0.06,0.03", height=0.2];
  edge [fontname="Helvetica", fontsize=9, labelfontname="Helvetica", labelfontsize=10, labelfontcolor="#9a3412", color="#7a8699", fontcolor="#7a8699"];
"""
TITLE = '  "{0}" [shape=plaintext, style="", fontsize=15, label="{0}", pos="6.2,{1}!"];\n'
# The angles and distances at which the labels at the ends of a link may lie, first those that are liked best.
SIDES = [(side * angle, distance / 10) for distance in (20, 26, 32, 40, 50, 62) for angle in (25, 40, 15, 60, 80) for side in (-1, 1)]


def dot(form: Any, statements: Any) -> Any:
    """What Graphviz makes of a drawing."""
    return subprocess.run(["dot", "-Kneato", f"-T{form}"], input=STYLE + statements + "}\n", capture_output=True, text=True, check=True).stdout


def box(x: Any, y: Any, width: Any, height: Any) -> tuple[Any, Any, Any, Any]:
    return x - width / 2, y - height / 2, x + width / 2, y + height / 2


def common(a: Any, b: Any) -> Any:
    """The area that two boxes have in common."""
    return max(0, min(a[2], b[2]) - max(a[0], b[0])) * max(0, min(a[3], b[3]) - max(a[1], b[1]))


def label_boxes(line: Any, ends: Any, side: Any) -> Any:
    """Where Graphviz puts the labels at both ends of a link: at an angle to the link and a distance from its end, in points."""
    angle, distance = side
    boxes = []
    for text, end, other in zip(re.findall(r'(?:tail|head)label="(.*?)"', line), ends, reversed(ends)):
        turn = math.atan2(other[1] - end[1], other[0] - end[0]) + math.radians(angle)
        x, y = end[0] + 10 * distance * math.cos(turn), end[1] + 10 * distance * math.sin(turn)
        boxes.append(box(x, y, 4.9 * len(text) + 2, 11) if text else (0, 0, 0, 0))
    return boxes


def crossings(a: Any, ends: Any) -> Any:
    """How many of forty points of a link lie in a box."""
    (x, y), (u, v) = ends
    return sum(a[0] < x + (u - x) * i / 40 < a[2] and a[1] < y + (v - y) * i / 40 < a[3] for i in range(41))


def away(a: Any, ends: Any) -> Any:
    """How far the middle of a box is from a link."""
    at, ((x, y), (u, v)) = ((a[0] + a[2]) / 2, (a[1] + a[3]) / 2), ends
    along = ((at[0] - x) * (u - x) + (at[1] - y) * (v - y)) / ((u - x) ** 2 + (v - y) ** 2)
    along = min(1, max(0, along))
    return math.dist(at, (x + along * (u - x), y + along * (v - y)))


def parted(statements: Any) -> Any:
    """The statements with the labels at the ends of links put where they cover no node, no other label and few links, and each is nearest to its own."""
    taken, ends = [], []
    for words in (re.findall(r'"[^"]*"|\S+', line) for line in dot("plain", statements).splitlines()):
        if words[0] == "node":
            taken.append(box(*(72 * float(it) for it in words[2:6])))
        elif words[0] == "edge":
            count = int(words[3])
            places = [72 * float(it) for it in words[4:4 + 2 * count]]
            ends.append((tuple(places[:2]), tuple(places[-2:])))
            x, y = (72 * float(it) for it in words[5 + 2 * count:7 + 2 * count])
            taken.append(box(x, y, 5 * len(words[4 + 2 * count].strip('"')), 10))
    lines = [it for it in statements.splitlines() if " -- " in it]
    chosen = [SIDES[0]] * len(lines)

    def cost(i: Any, side: Any) -> Any:
        others = [it for j in range(len(lines)) if j != i for it in label_boxes(lines[j], ends[j], chosen[j])]
        boxes = label_boxes(lines[i], ends[i], side)
        covered = common(*boxes) + sum(common(a, b) for a in boxes for b in itertools.chain(taken, others))
        strange = sum(away(a, it) < away(a, ends[i]) for a in boxes if a[2] for it in ends if it != ends[i])
        return 20 * covered + 400 * strange + 25 * sum(crossings(a, it) for a in boxes for it in ends) + SIDES.index(side)

    for _ in range(4):
        for i in range(len(lines)):
            chosen[i] = min(SIDES, key=lambda side, i=i: cost(i, side))  # type: ignore[misc]
    for line, (angle, distance) in zip(lines, chosen):
        statements = statements.replace(line, line.replace("];", f", labelangle={angle}, labeldistance={distance}];"))
    return statements


def drawn(words: Any, name: str = "", up: float = 0.0, color: str = "black") -> Any:
    """The statements of a drawing, each node at its place and under a name of its own, and the walk in a colour."""
    words = [PROGRAM, "draw", "--format", "edgelist", "--root", "Houston", *words.split(), TOPOLOGY]
    lines = subprocess.run(words, capture_output=True, text=True, check=True).stdout.splitlines()[1:-1]
    text = ""
    for line in lines:
        if node := re.match(r'  "(\w+)" \[label="(.*)"\];$', line):
            east, north = PLACES[node[1]]
            line = f'  "{name}{node[1]}" [label="{node[2]}", pos="{(east + 124) * 0.24:.2f},{(north - 29) * 0.38 + up:.2f}!"];'
        line = re.sub(r'^  "(\w+)" -- "(\w+)"', rf'  "{name}\1" -- "{name}\2"', line)
        text += line.replace("style=bold", f'style=bold, color="{color}", penwidth=3') + "\n"
    return text


def save(name: Any, statements: Any) -> None:
    (DOCS / name).write_text(dot("svg", parted(statements)))


walk = " --from SaltLakeCity --to Princeton"
save("nsfnet.svg", drawn("--kind tree"))
save("relabel.svg", TITLE.format("Epoch 1: the tree from Houston. SaltLakeCity to Princeton: 4900", 15.1)
     + TITLE.format("Epoch 2: shortest ways. SaltLakeCity to Princeton: 3200", 7.3)
     + drawn("--kind tree" + walk, "1 ", 7.8, "#1d4ed8") + drawn("--kind shortest" + walk, "2 ", 0.0, "#b45309"))
