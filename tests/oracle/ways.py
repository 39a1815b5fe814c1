"""Walks of landmark plans on networks of some hundred nodes, beside their definition.

Distances are of a search from each destination that is drawn. Each hop of a walk by the plan's rows leads within the bound by
the landmarks, and the walk weighs at most its bound and at most the stretch. `python3 tests/oracle/ways.py NODES WALKS [SEED]`
does the same on one network of so many nodes.
"""
from __future__ import annotations

import os
import random
import sys
import tempfile
from bisect import bisect_right
from typing import Any, Dict, List, Optional, Tuple

if __name__ == "__main__":
    sys.path.insert(0, os.path.dirname(os.path.dirname(os.path.abspath(__file__))))

from oracle.landmark import fewest_for, most_linked  # noqa: E402
from oracle.rows import distances, from_links, run  # noqa: E402

Plan = Dict[str, Tuple[int, List[int], List[str]]]  # by node: the label, the starts of its intervals and their neighbours


def drawn(luck: random.Random, nodes: int) -> List[Tuple[int, int, int]]:
    """Return the weighted links of a connected network, random or scale-free."""
    links, ends, is_free = set(), [0], luck.random() < 0.5
    for v in range(1, nodes):
        for u in {luck.choice(ends) if is_free else luck.randrange(v) for _ in range(luck.randint(1, 4))}:
            links.add((u, v))
            ends += [u, v]
    most = luck.choice([1, 9, 65_535])
    shuffled = [(u, v, luck.randint(1, most)) for u, v in sorted(links)]
    luck.shuffle(shuffled)
    return shuffled


class Bound:
    """The landmark of each node and how far it is, by searches from the landmarks."""

    def __init__(self, ports: Any, landmarks: List[str], stretch: int) -> None:
        self.far, self.stretch = {landmark: distances(ports, landmark) for landmark in landmarks}, stretch
        number = {name: place for place, name in enumerate(ports)}
        self.owner = {d: min(landmarks, key=lambda each: (self.far[each][d], number[each])) for d in ports}

    def between(self, away: int, u: str, d: str) -> int:
        """Return the bound on the way from u to d, at a distance."""
        radius = self.far[self.owner[d]][d]
        return self.far[self.owner[d]][u] + radius if 100 * (away + 2 * radius) <= self.stretch * away else away  # type: ignore[no-any-return]


def walk_fault(plan: Plan, ports: Any, bound: Bound, towards: Dict[str, int], u: str, d: str) -> Optional[str]:
    """Return what is wrong with the walk from u to d, or None; `towards` has the distances to d."""
    label, at, weight, whole = plan[d][0], u, 0, bound.between(towards[u], u, d)
    for _ in plan:
        if at == d:
            return None if weight <= whole and 100 * weight <= bound.stretch * towards[u] else f"{u} to {d} weighs {weight}, at {towards[u]}"
        _, starts, heads = plan[at]
        after = heads[bisect_right(starts, label) - 1]
        step = dict(ports[at])[after]
        if step + bound.between(towards[after], after, d) > bound.between(towards[at], at, d):
            return f"{u} to {d}: the port of {at} to {after} leads past the bound"
        at, weight = after, weight + step
    return f"{u} to {d}: a walk of more nodes than there are"


def walks_fault(luck: random.Random, folder: str, nodes: int, walks: int) -> Optional[str]:
    """Return what is wrong with so many walks of a landmark plan of so many nodes, or None."""
    links = drawn(luck, nodes)
    ports = from_links(links)
    with open(os.path.join(folder, "ways.edgelist"), "w", encoding="ascii") as file:
        file.writelines(f"n{u} n{v} {weight}\n" for u, v, weight in links)
    root, stretch, count = luck.choice(list(ports)), luck.choice([120, 200, 300]), fewest_for(nodes)
    words = ["--kind", "landmark", "--root", root, "--stretch", str(stretch)]
    output, faults, status = run(["plan", *words, "ways.edgelist"], folder)
    if (faults, status) != ("", 0):
        return f"{words}: {status} {faults}"
    plan: Plan = {}
    for name, label, *row in map(str.split, output.splitlines()[1:]):
        plan[name] = int(label), list(map(int, row[::2])), row[1::2]
    bound = Bound(ports, most_linked(ports, root, count), stretch)
    blocks = [bound.owner[name] for name in sorted(plan, key=lambda name: plan[name][0])]
    if len([1 for one, other in zip(blocks, blocks[1:]) if one != other]) != count - 1 or plan[root][0] != 0:
        return f"{words}: the labels are not in {count} blocks, the root first"
    for d in luck.sample(list(ports), min(nodes, max(1, walks // 20))):
        towards = distances(ports, d)
        for u in luck.sample([name for name in ports if name != d], min(nodes - 1, 20)):
            fault = walk_fault(plan, ports, bound, towards, u, d)
            if fault:
                return f"{words}: {fault}"
    return None


def fault_of(luck: random.Random, folder: str) -> Optional[str]:
    """Return what is wrong with two hundred walks of a landmark plan by chance, or None."""
    return walks_fault(luck, folder, luck.randint(200, 600), 200)


if __name__ == "__main__":
    with tempfile.TemporaryDirectory() as place:
        found = walks_fault(random.Random(f"ways {' '.join(sys.argv[3:])}"), place, int(sys.argv[1]), int(sys.argv[2]))
    print(found or f"{sys.argv[2]} walks over {sys.argv[1]} nodes: none is wrong")
    sys.exit(found is not None)
