"""The starts of plans of kind compact, beside a search over all sets of cyclic intervals.

Of a connected graph of up to five nodes, whose links have weights 1 and 2: each row gives each label a port on a shortest
way, and no smaller set of intervals does.
"""
from __future__ import annotations

import itertools
from typing import Any

from oracle.rows import distances, from_links, nearer, run


def inside(count: Any, start: Any, end: Any) -> Any:
    """The labels of the cyclic interval from start to end."""
    return set(range(start, end)) if start < end else set(range(start, count)) | set(range(end))


def fewest(count: Any, own: Any, tied: Any) -> Any:
    """The size of the smallest set of intervals in which each label but the own lies in one, and may take its port."""
    wanted = frozenset(range(count)) - {own}
    useful = set()
    for start, end in itertools.product(range(count), repeat=2):
        labels = frozenset(inside(count, start, end)) - {own}
        if labels and set.intersection(*(tied[label] for label in labels)):
            useful.add(labels)
    for size in range(count):
        if any(wanted <= frozenset().union(*chosen) for chosen in itertools.combinations(useful, size)):
            return size
    return count


def fault_of(luck: Any, folder: Any) -> Any:
    """What is wrong with a compact plan of a small graph by chance."""
    nodes = luck.randint(2, 5)
    pairs = list(itertools.combinations(range(nodes), 2))
    tree = [(luck.randrange(v), v) for v in range(1, nodes)]
    chosen = [*tree, *(pair for pair in pairs if pair not in tree and luck.random() < 0.5)]
    luck.shuffle(chosen)
    links = [(u, v, luck.choice([1, 1, 2])) for u, v in chosen]
    ports, text = from_links(links), "".join(f"n{u} n{v} {weight}\n" for u, v, weight in links)
    with open(f"{folder}/compact.edgelist", "w", encoding="ascii") as file:
        file.write(text)
    words = ["plan", "--kind", "compact", "--root", luck.choice(list(ports)), "compact.edgelist"]
    output, faults, status = run(words, folder)
    if (faults, status) != ("", 0):
        return f"{text}{words}: {status} {faults}"
    rows = [line.split() for line in output.splitlines()[1:]]
    at = {int(row[1]): row[0] for row in rows}
    far = {u: distances(ports, u) for u in ports}
    for name, own, *starts in rows:
        tied = {label: set(nearer(ports, far, name, d)) for label, d in at.items() if d != name}
        begins, ways = [int(start) for start in starts[::2]], starts[1::2]
        for start, end, port in zip(begins, begins[1:] + begins[:1], ways):
            for label in inside(nodes, start, end) - {int(own)}:
                if port not in tied[label]:
                    return f"{text}{words}: {name} sends {label} to {port}"
        if len(begins) != fewest(nodes, int(own), tied):
            return f"{text}{words}: {name} has {len(begins)} starts in place of {fewest(nodes, int(own), tied)}"
    return None
