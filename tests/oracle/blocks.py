"""The labels of plans of kind landmark, beside their definition.

The nodes of each landmark come in turn, depth first in a tree of shortest ways to it: the parent of a node is, of its
neighbours on those ways, the one with the least number, and the sons of a node are in the order of its ports.
"""
from __future__ import annotations

import os
import random
from typing import Dict, List, Optional, Tuple

from oracle.rows import distances, from_links, graph, run

Ports = Dict[str, List[Tuple[str, int]]]


def most_linked(ports: Ports, root: str, count: int) -> List[str]:
    """Return the root, and after it the nodes of most links, of as many the first one of the text."""
    others = sorted((name for name in ports if name != root), key=lambda name: -len(ports[name]))
    return [root, *others][:count]


def parents_of(ports: Ports, landmarks: List[str]) -> Dict[str, Optional[str]]:
    """Return the parent of each node in the tree of its landmark, and none for a landmark."""
    number = {name: place for place, name in enumerate(ports)}
    far = {name: distances(ports, name) for name in ports}
    parents: Dict[str, Optional[str]] = {}
    for name in ports:
        landmark = min(landmarks, key=lambda each: (far[name][each], number[each]))
        nearer = [node for node, weight in ports[name] if weight + far[node][landmark] == far[name][landmark]]
        parents[name] = min(nearer, key=number.__getitem__) if nearer else None
    return parents


def order_of(ports: Ports, landmarks: List[str]) -> List[str]:
    """Return the nodes by label."""
    parents, order = parents_of(ports, landmarks), []
    for landmark in landmarks:
        waiting = [landmark]
        while waiting:
            node = waiting.pop()
            order.append(node)
            waiting.extend(reversed([son for son, _weight in ports[node] if parents[son] == node]))
    return order


def fault_of(luck: random.Random, folder: str) -> Optional[str]:
    """Return what is wrong with the labels of a landmark plan of a network by chance, or None."""
    nodes, links = graph(luck)
    if nodes == 1:
        return None
    ports: Ports = from_links(links)
    text = "".join(f"n{u} n{v} {weight}\n" for u, v, weight in links)
    with open(os.path.join(folder, "blocks.edgelist"), "w", encoding="ascii") as file:
        file.write(text)
    root, count = luck.choice(list(ports)), luck.randint(1, nodes + 1)
    words = ["plan", "--kind", "landmark", "--landmarks", str(count), "--root", root, "blocks.edgelist"]
    output, faults, status = run(words, folder)
    if (faults, status) != ("", 0):
        return f"{text}{words}: {status} {faults}"
    rows = sorted((line.split() for line in output.splitlines()[1:]), key=lambda row: int(row[1]))
    found, wanted = [row[0] for row in rows], order_of(ports, most_linked(ports, root, count))
    return None if found == wanted else f"{text}{words}: the labels are of {found}, not of {wanted}"
