"""Networks and scripts that tests make by rule or by chance."""
from __future__ import annotations

import itertools
import random
from typing import List, Sequence, Tuple

from support.limits import PACKETS

Links = List[Tuple[str, str]]


def ring(nodes: int, packets: int, per_drain: int) -> Tuple[str, str]:
    """A ring with packets between its nodes: a topology and a script."""
    topology = "".join(f"n{i} n{(i + 1) % nodes}\n" for i in range(nodes))
    lines = []
    for i in range(packets):
        lines.append(f"inject n{i % nodes} n{(i + nodes // 2) % nodes}\n")
        if (i + 1) % per_drain == 0:
            lines.append("drain\n")
    return topology, "".join(lines) + "drain\n"


def grid(side: int) -> Tuple[str, List[str], Links]:
    """A grid: its topology, its nodes, and its links."""
    nodes = [f"{x}_{y}" for x in range(side) for y in range(side)]
    links = [(f"{x}_{y}", f"{x + dx}_{y + dy}") for x in range(side) for y in range(side)
             for dx, dy in ((0, 1), (1, 0)) if x + dx < side and y + dy < side]
    return "".join(f"{a} {b}\n" for a, b in links), nodes, links


def busy(luck: random.Random, nodes: Sequence[str], links: Links, changes: bool, per_drain: int) -> List[str]:
    """A script of more packets than are accepted, and changes among them."""
    lines: List[str] = []
    down: Links = []
    for i in range(PACKETS + 4):
        lines.append("inject {} {}".format(luck.choice(nodes), luck.choice(nodes)))
        if i % per_drain == per_drain - 1:
            lines.append("drain")
        if changes and luck.random() < 0.02:
            lines.append(change(luck, nodes, links, down))
    return lines + ["drain"]


def change(luck: random.Random, nodes: Sequence[str], links: Links, down: Links) -> str:
    """A change of the network: links that go down, come up, or are avoided; new plans; epochs that are retired."""
    what = luck.randrange(5)
    if what == 0 and len(down) < 4:
        down.append(luck.choice(links))
        return "down {} {}".format(*down[-1])
    if what == 1 and down:
        return "up {} {}".format(*down.pop())
    if what == 2:
        return f"retire {luck.randrange(1, 60)}"
    if what == 3:
        return "{} {} {}".format(luck.choice(["avoid", "avoid", "heed"]), *luck.choice(links))
    return "{} {} {}".format(luck.choice(["install", "install", "renumber"]), luck.choice(["tree", "shortest", "compact", "landmark"]), luck.choice(nodes))


def all_pairs(links: int) -> str:
    """An edge list of so many links, each on a line, over as few nodes as will do; a and b are among them."""
    names = ["a", "b"] + [f"n{i}" for i in range(2, 2 + int((2 * links) ** 0.5) + 2)]
    pairs = ((u, v) for at, v in enumerate(names) for u in names[:at])
    return "".join(f"{u} {v} 1\n" for u, v in itertools.islice(pairs, links))


def lone(nodes: int) -> str:
    """So many nodes without a link, each on a line; a and b are among them."""
    return "a\nb\n" + "".join(f"n{i}\n" for i in range(2, nodes))


def circle(nodes: int) -> str:
    """A ring, a link on each line."""
    names = ["a", "b"] + [f"n{i}" for i in range(2, nodes)]
    return "".join(f"{names[i]} {names[(i + 1) % nodes]}\n" for i in range(nodes))


def with_chords(nodes: int, links: int) -> str:
    """A connected graph of so many nodes and links."""
    names = ["a", "b"] + [f"n{i}" for i in range(2, nodes)]
    pairs = ((names[i], names[(i + far) % nodes]) for far in range(1, nodes // 2) for i in range(nodes))
    return "".join(f"{u} {v}\n" for u, v in itertools.islice(pairs, links))


def row_of(nodes: int) -> Tuple[List[str], str]:
    """A chain: its names, and an adjacency list with a link on each line."""
    names = ["a", "b"] + [f"n{i}" for i in range(2, nodes)]
    return names, "".join(f"{u} {v}\n" for u, v in zip(names, names[1:]))


def filled(text: str, size: int) -> bytes:
    """A text with comments up to so many bytes."""
    head = text.encode()
    line = b"#" + b"x" * 78 + b"\n"
    head += line * ((size - len(head)) // len(line))
    return head + b"#" * (size - len(head))


def band(nodes: int) -> str:
    """A chain in which each node is linked to the third one after it, too: a tour numbers it for fewer intervals."""
    return "".join(f"n{u} n{u + 1} n{u + 3}\n" for u in range(nodes - 3))


def crossing(nodes: int, packets: int, at_once: int) -> Tuple[str, str, str]:
    """Packets from one end of a chain to the other and back by turns, drained after so many: a topology, a script and the trace."""
    names, topology = row_of(nodes)
    ways = [names, names[::-1]]
    rows = [f" 1 {way[0]} {way[-1]} {nodes - 1} delivered {' '.join(way)}\n" for way in ways]
    injects = [f"inject {way[0]} {way[-1]}\n" for way in ways]
    script = "".join(injects[k % 2] + ("drain\n" if k % at_once == at_once - 1 else "") for k in range(packets))
    return topology, script, "trace 1\n" + "".join(f"{k}{rows[k % 2]}" for k in range(packets))
