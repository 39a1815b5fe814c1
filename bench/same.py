#!/usr/bin/env python3
"""Says whether two built programs answer alike on random networks: output, standard error and status, byte for byte.

    same.py BEFORE AFTER [GRAPHS [FIRST]]

GRAPHS networks, 300 if that isn't said, from that of number FIRST on, 0 if that isn't said; the same number gives the
same network. Of each: `plan`, `walk`, `stats`, `draw` and `prefixes`, nested and disjoint, of each kind over each
numbering that it takes (depth-first, a tour, the order of a file), and `sim` of a random script with `check` of its
trace, of each kind over depth-first numbers and a tour. The status is 0 where all are alike.

Outside the gate: it wants python3 and two built programs.
"""
from __future__ import annotations

import os
import random
import subprocess
import sys
import tempfile
from typing import Any, Iterator

sys.dont_write_bytecode = True
import networks  # noqa: E402

KINDS = ["shortest", "tree", "compact"]
NUMBERINGS = ["depth-first", "tour", "order"]  # the last is a file
NUMBERED = [("tree", "depth-first"), *((kind, order) for kind in ("shortest", "compact") for order in NUMBERINGS)]
GREAT = 30  # the network of each number that this divides has hundreds of nodes: more than a plan of one thread
SECONDS = 600  # the most that a run may take


def network(luck: Any, number: Any) -> tuple[list[Any], Any]:
    """A network's nodes and links, as names: of a family of networks.py, or drawn link by link, maybe in two parts."""
    great = number % GREAT == 0
    size = luck.randrange(260, 400) if great else luck.randrange(2, 41)
    side = max(2, int(size ** 0.5))
    family = luck.choice(["ring", "grid", "torus", "hypercube", "clos", "tree", "random", "random", "scalefree", "parts"])
    random.seed(number)
    _, links = {  # type: ignore[no-untyped-call]
        "ring": lambda: networks.ring(size),
        "grid": lambda: networks.grid(side, side),
        "torus": lambda: networks.torus(max(3, side), max(3, side)),
        "hypercube": lambda: networks.hypercube(size.bit_length()),
        "clos": lambda: networks.clos(1 + size // 8, 1 + size // 4),
        "tree": lambda: networks.tree(size),
        "scalefree": lambda: networks.scalefree(size + 3, 2),
        "random": lambda: networks.random_network(size, min(size * (size - 1) // 2, size - 1 + luck.randrange(3 * size))),
        "parts": lambda: (None, [(f"n{u}", f"n{luck.randrange(size)}") for u in range(size) if luck.random() < 0.9]),
    }[family]()
    luck.shuffle(links)
    links = [luck.choice([(u, v), (v, u)]) for u, v in links] or [("n0", "n1")]
    return list(dict.fromkeys(name for link in links for name in link)), links


def topology(luck: Any, links: Any) -> Any:
    """The text of a network and its format: weights of one, few, so that ways tie, or many."""
    most = luck.choice([None, 1, 3, 65_535])
    if most is None:
        return networks.adjacency_list(links), "adjlist"
    return "".join(f"{u} {v} {luck.randint(1, most)}\n" for u, v in links), "edgelist"


def script(luck: Any, nodes: Any, links: Any) -> Any:
    """Lines of a simulation: packets, changes, installs that are learnt or not, single steps, drains."""
    lines, epoch = [], 1
    for _ in range(luck.randrange(5, 80 if len(nodes) < 100 else 12)):
        chance, u, v = luck.random(), luck.choice(nodes), luck.choice(nodes)
        if chance < 0.5:
            lines.append(f"inject {u} {v}")
        elif chance < 0.65:
            lines.append(f"{luck.choice(['down', 'up'])} {' '.join(luck.choice(links))}")
        elif chance < 0.75:
            epoch += 1
            lines.append(f"install {luck.choice(KINDS)} {u}")
            if luck.random() < 0.7:
                lines.append(f"learn {epoch}")
        elif chance < 0.8:
            lines.append(f"retire {luck.randrange(1, epoch + 1)}")
        elif chance < 0.9:
            near = luck.choice(links)
            lines.append(luck.choice([f"take {u} inbox", f"take {near[0]} from {near[1]}"]))
            lines += [f"read {u} {luck.randrange(4)}", f"act {u}"]
        else:
            lines.append("drain")
    return "\n".join(lines + luck.choice([[], ["drain"]])) + "\n"


def runs_of_plans(luck: Any, nodes: Any, form: Any) -> Iterator[Any]:
    """The words of each run over a plan."""
    root = luck.choice(nodes)
    ends = ["--from", luck.choice(nodes), "--to", luck.choice(nodes)]
    for kind, numbering in NUMBERED:
        words = ["--format", form, "--kind", kind, "--numbering", numbering]
        words += ["--root", root] if numbering != "order" else []
        for sub, more in (("plan", []), ("walk", ends), ("stats", []), ("draw", luck.choice([[], ends])), ("prefixes", []),
                          ("prefixes", ["--disjoint"])):
            yield [sub, *words, *more, "topology"]


def runs_of_scripts(luck: Any, nodes: Any, form: Any) -> Iterator[Any]:
    """The words of each run of a script, without its files, and those of the simulation alone."""
    for kind, numbering in NUMBERED:
        if numbering != "order":
            words = ["--format", form, "--kind", kind, "--numbering", numbering, "--root", luck.choice(nodes)]
            words += ["--capacity", luck.choice(["1", "2", "16"])]
            yield words, ["--restamps", str(luck.randrange(4))]


class Both:
    """Two programs in one folder: how many runs there were, how many of them were refused, and what differed."""

    def __init__(self, programs: Any, folder: Any) -> None:
        self.programs, self.folder = programs, folder
        self.runs = self.refused = 0
        self.differing: list[Any] = []

    def put(self, name: Any, text: Any) -> None:
        with open(os.path.join(self.folder, name), "wb") as file:
            file.write(text if isinstance(text, bytes) else text.encode())

    def run(self, number: Any, words: Any) -> Any:
        """What the first prints; the second has to do the same."""
        ends = []
        for program in self.programs:
            done = subprocess.run([program, *words], cwd=self.folder, stdin=subprocess.DEVNULL, stdout=subprocess.PIPE,
                                  stderr=subprocess.PIPE, timeout=SECONDS)
            ends.append((done.stdout, done.stderr, done.returncode))
        self.runs += 1
        self.refused += ends[0][2] != 0
        if ends[0] != ends[1]:
            self.differing.append((number, words))
            print(f"network {number} differs: {' '.join(words)}: status {ends[0][2]} and {ends[1][2]}", flush=True)
        return ends[0][0]


def compare(both: Any, number: Any) -> None:
    """All runs over the network of this number."""
    luck = random.Random(number)
    nodes, links = network(luck, number)
    text, form = topology(luck, links)
    both.put("topology", text)
    both.put("order", "".join(name + "\n" for name in luck.sample(nodes, len(nodes))))
    both.put("script", script(luck, nodes, links))
    for words in runs_of_plans(luck, nodes, form):
        both.run(number, words)
    for words, more in runs_of_scripts(luck, nodes, form):
        both.put("trace", both.run(number, ["sim", *words, *more, "topology", "script"]))
        both.run(number, ["check", *words, "topology", "script", "trace"])


def main(words: Any) -> Any:
    if len(words) < 2:
        sys.exit(__doc__)
    programs = [os.path.abspath(word) for word in words[:2]]
    graphs, first = (int(word) for word in [*words[2:4], *["300", "0"][len(words) - 2:]])
    with tempfile.TemporaryDirectory() as folder:
        both = Both(programs, folder)
        for number in range(first, first + graphs):
            compare(both, number)
    told = f"{len(both.differing)} differ" if both.differing else "the same bytes"
    print(f"{graphs} networks, {both.runs} runs of each program, {both.refused} of them refused: {told}")
    return 1 if both.differing else 0


if __name__ == "__main__":
    sys.exit(main(sys.argv[1:]))
