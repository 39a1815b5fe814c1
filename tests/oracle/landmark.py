"""Plans of kind landmark, beside their definition.

Landmarks, radii and the bound are computed from distances, and each row is the canonical one of the fewest runs of ports
within the bound. The labels are the program's own: they have to be by blocks of the landmarks, the root first. Walks,
figures and packets of a run are held to the rows, and each walk to the stretch.
"""
from __future__ import annotations

import os
import random
from typing import Dict, List, Optional, Set, Tuple

from oracle.rows import distances, from_links, run

Ports = Dict[str, List[Tuple[str, int]]]
Far = Dict[str, Dict[str, int]]
Row = List[Tuple[int, str]]


def drawn(luck: random.Random) -> List[Tuple[int, int, int]]:
    """Return the weighted links of a connected graph of two to 64 nodes."""
    nodes = luck.choice([2, 3, luck.randint(2, 12), luck.randint(2, 30), luck.randint(30, 64)])
    links = {(luck.choice([0, luck.randrange(v)]), v) for v in range(1, nodes)}
    for _ in range(luck.randrange(2 * nodes)):
        u, v = sorted((luck.randrange(nodes), luck.randrange(nodes)))
        if u != v:
            links.add((u, v))
    most = luck.choice([1, 2, 9, 65_535])
    shuffled = [(u, v, luck.randint(1, most)) for u, v in sorted(links)]
    luck.shuffle(shuffled)
    return shuffled


def most_linked(ports: Ports, root: str, count: int) -> List[str]:
    """Return the root, and after it the nodes of most links, of as many the first one of the text."""
    names = list(ports)
    others = sorted((name for name in names if name != root), key=lambda name: (-len(ports[name]), names.index(name)))
    return [root, *others][:count]


def fewest_for(nodes: int) -> int:
    """Return the least number of landmarks of which four times the square is at least the number of nodes."""
    return next(count for count in range(1, nodes + 1) if 4 * count * count >= nodes)


class Bound:
    """The owner and the radius of each node, and the bound on the weight of the way from each node to each."""

    def __init__(self, ports: Ports, far: Far, landmarks: List[str], stretch: int) -> None:
        names = list(ports)
        self.owner: Dict[str, str] = {}
        self.radius: Dict[str, int] = {}
        for d in names:
            self.owner[d] = min(landmarks, key=lambda landmark: (far[d][landmark], names.index(landmark)))
            self.radius[d] = far[d][self.owner[d]]
        self.of = {u: {d: self.between(far, stretch, u, d) for d in names} for u in names}

    def between(self, far: Far, stretch: int, u: str, d: str) -> int:
        """Return the bound from u to d: by the landmark of d where d is far from u, and else the distance."""
        away, radius = far[u][d], self.radius[d]
        if 100 * (away + 2 * radius) <= stretch * away:
            return far[u][self.owner[d]] + radius
        return away


def longest(labels: List[Set[int]], begin: int, own: int) -> Tuple[int, int]:
    """Return how many labels from one on share a port, one that is the node's own aside, and the least such port."""
    count = len(labels)
    share: Optional[Set[int]] = None
    length = 0
    while length < count:
        label = (begin + length) % count
        if label != own:
            both = labels[label] if share is None else share & labels[label]
            if not both:
                break
            share = both
        length += 1
    return length, min(share or {0})


def runs_from(labels: List[Set[int]], begin: int, own: int) -> List[Tuple[int, int, int]]:
    """Return the runs that cover all labels from one on, each as long as can be: its place, its length, its port."""
    runs, place = [], 0
    while place < len(labels):
        length, port = longest(labels, (begin + place) % len(labels), own)
        runs.append((place, length, port))
        place += length
    return runs


def row_of(labels: List[Set[int]], own: int, neighbours: List[str]) -> Row:
    """Return the canonical row of the fewest runs of ports that labels may take; of as few the one that begins first."""
    count = len(labels)
    if count == 1:
        return []
    begin = min(range(1, count), key=lambda step: (len(runs_from(labels, (own + step) % count, own)), step))
    port_of: Dict[int, int] = {}
    for place, length, port in runs_from(labels, (own + begin) % count, own):
        for step in range(place, min(place + length, count)):
            port_of[(own + begin + step) % count] = port
    after = [(own + 1 + step) % count for step in range(count - 1)]
    starts = [label for step, label in enumerate(after) if port_of[label] != port_of[after[step - 1]]]
    return [(label, neighbours[port_of[label]]) for label in sorted(starts or after[:1])]


def fault_of_labels(order: List[str], landmarks: List[str], bound: Bound) -> Optional[str]:
    """Return what is wrong with the labels of a landmark plan, or None."""
    owners = [bound.owner[name] for name in order]
    blocks = [owner for place, owner in enumerate(owners) if place == 0 or owner != owners[place - 1]]
    if order[0] != landmarks[0]:
        return f"{order[0]} has label 0, not the root {landmarks[0]}"
    if blocks != landmarks:
        return f"the blocks of labels are of {blocks}, not of {landmarks}"
    return None


def rows_of(ports: Ports, order: List[str], bound: Bound) -> Dict[str, Row]:
    """Return the row of each node."""
    rows = {}
    for own, u in enumerate(order):
        labels = [{port for port, (w, weight) in enumerate(ports[u]) if weight + bound.of[w][d] <= bound.of[u][d]} for d in order]
        rows[u] = row_of(labels, own, [name for name, _weight in ports[u]])
    return rows


def walk_of(rows: Dict[str, Row], order: List[str], u: str, d: str) -> List[str]:
    """Return the nodes of the walk from u to d by the rows, or more nodes than there are."""
    label, walk = order.index(d), [u]
    while walk[-1] != d and len(walk) <= len(order):
        row = rows[walk[-1]]
        walk.append(([port for start, port in row if start <= label] or [row[-1][1]])[-1])
    return walk


def fault_of_figures(told: List[str], far: Far, weights: Dict[Tuple[str, str], int], wanted: List[str]) -> Optional[str]:
    """Return which line of the figures is missing, or None."""
    walks, every = sum(weights.values()), sum(far[u][d] for u, d in weights)
    for line in [f"walks {walks}", f"distances {every}", *wanted]:
        if line not in told:
            return f"of the figures {told} there is no line {line}"
    return None


def fault_of_run(luck: random.Random, folder: str, words: List[str], names: List[str], far: Far, stretch: int) -> Optional[str]:
    """Return what is wrong with a run of landmark plans, or None: delivered packets keep to the stretch, and check agrees."""
    lines = []
    for _ in range(luck.randint(1, 4)):
        lines += [f"inject {luck.choice(names)} {luck.choice(names)}" for _ in range(luck.randint(1, 6))]
        lines += luck.choice([["drain"], []]) + [f"install {luck.choice(['landmark', 'landmark', 'tree'])} {luck.choice(names)}"]  # type: ignore[operator]
    with open(os.path.join(folder, "landmark.script"), "w", encoding="ascii") as file:
        file.write("\n".join([*lines, "drain", ""]))
    for sub in ("sim", "live"):
        trace, faults, status = run([sub, *words, "landmark.edgelist", "landmark.script"], folder)
        if (faults, status) != ("", 0):
            return f"{sub}: {status} {faults}"
        for row in (line.split() for line in trace.splitlines()[1:]):
            if row[5] != "delivered":
                return f"{sub}: {' '.join(row)}"
            if row[1] == "1" and 100 * int(row[4]) > stretch * far[row[2]][row[3]]:
                return f"{sub}: {' '.join(row)} weighs more than {stretch} percent of {far[row[2]][row[3]]}"
        with open(os.path.join(folder, "landmark.trace"), "w", encoding="ascii") as file:
            file.write(trace)
        output, faults, status = run(["check", "--whole", *words, "landmark.edgelist", "landmark.script", "landmark.trace"], folder)
        if (faults, status) != ("", 0) or not output.startswith("ok "):
            return f"check of {sub}: {status} {faults}{output}"
    return None


def fault_of(luck: random.Random, folder: str) -> Optional[str]:
    """Return what is wrong with landmark plans of a network by chance, or None."""
    links = drawn(luck)
    ports = from_links(links)
    with open(os.path.join(folder, "landmark.edgelist"), "w", encoding="ascii") as file:
        file.writelines(f"n{u} n{v} {weight}\n" for u, v, weight in links)
    names, far = list(ports), {u: distances(ports, u) for u in ports}
    root, stretch = luck.choice(names), luck.choice([100, 150, 200, 300, luck.randint(100, 300)])
    count = luck.choice([fewest_for(len(names)), luck.randint(1, len(names)), len(names) + 3])
    words = ["--kind", "landmark", "--root", root]
    words += [] if stretch == 300 and luck.random() < 0.5 else ["--stretch", str(stretch)]
    words += [] if count == fewest_for(len(names)) and luck.random() < 0.7 else ["--landmarks", str(count)]
    output, faults, status = run(["plan", *words, "landmark.edgelist"], folder)
    if (faults, status) != ("", 0):
        return f"{words}: {status} {faults}"
    lines = [line.split() for line in output.splitlines()]
    order = [line[0] for line in sorted(lines[1:], key=lambda line: int(line[1]))]
    landmarks = most_linked(ports, root, count)
    bound = Bound(ports, far, landmarks, stretch)
    rows = rows_of(ports, order, bound)
    fault = fault_of_labels(order, landmarks, bound)
    if fault or lines[0] != ["plan", "landmark", str(len(names)), str(sum(map(len, rows.values())))]:
        return f"{words}: {fault}, {lines[0]}"
    for name, _label, *row in lines[1:]:
        if list(zip(map(int, row[::2]), row[1::2])) != rows[name]:
            return f"{words}: {name} has the row {row}, not {rows[name]}"
    steps = {(u, v): weight for u, heads in ports.items() for v, weight in heads}
    weights = {}
    for u in names:
        for d in (name for name in names if name != u):
            walk = walk_of(rows, order, u, d)
            weights[u, d] = sum(steps[step] for step in zip(walk, walk[1:]))
            if walk[-1] != d or 100 * weights[u, d] > stretch * far[u][d]:
                return f"{words}: the walk from {u} to {d} is {walk}, of weight {weights[u, d]}, at a distance of {far[u][d]}"
    u, d = luck.choice(sorted(weights))
    told = run(["walk", *words, "--from", u, "--to", d, "landmark.edgelist"], folder)[0].splitlines()
    walked = [line.split()[0] for line in told[1:]]
    if walked != walk_of(rows, order, u, d) or told[0].split()[:4] != ["walk", "landmark", u, d] or told[0].split()[-1] != str(weights[u, d]):
        return f"{words}: the walk from {u} to {d} is told as {told}"
    told = run(["stats", *words, "landmark.edgelist"], folder)[0].splitlines()
    fault = fault_of_figures(told, far, weights, [f"landmarks {' '.join(landmarks)}", f"stretch {stretch}"])
    return fault or fault_of_run(luck, folder, words, names, far, stretch)
