"""Runs that keep labels, on networks by chance: each epoch's plan is one in the order of the plan before, as `plan` makes it.

Between changes packets go to their ends, so each goes over the walk of its epoch's plan. That walk is read off the text of
`plan` over the links that are up, where the text names the nodes first, so that they have the same places.
"""
from __future__ import annotations

import random
from typing import Dict, List, Optional, Sequence, Tuple

from oracle.beside import small_net
from support.route import brief, put, run

Rows = Dict[str, Tuple[int, List[Tuple[int, str]]]]  # of each node its label, and the starts and neighbours of its row


def rows_of(text: str) -> Rows:
    """The rows of a text of `plan`."""
    found: Rows = {}
    for node, label, *starts in (line.split() for line in text.splitlines()[1:]):
        found[node] = int(label), [(int(start), to) for start, to in zip(starts[::2], starts[1::2])]
    return found


def walk(rows: Rows, at: str, dest: str) -> List[str]:
    """The nodes from one to another by the rows."""
    hops = [at]
    while hops[-1] != dest and len(hops) <= len(rows):
        starts = rows[hops[-1]][1]
        hops.append(next((to for start, to in reversed(starts) if start <= rows[dest][0]), starts[-1][1]))
    return hops


def joined(nodes: Sequence[str], links: Sequence[Tuple[str, str]]) -> bool:
    """Whether links join all nodes."""
    found = {nodes[0]}
    for _ in nodes:
        found |= {v for link in links for v in link if found & set(link)}
    return len(found) == len(nodes)


class Kept:
    """A network whose plans keep their labels, and the plan that it has now."""

    def __init__(self, seed: int, luck: random.Random) -> None:
        _, self.nodes, self.links = small_net(luck)
        self.name, self.up = f"keep/{seed}", list(self.links)
        self.words = luck.choice(["keep", "keep,tour", "keep,depth-first"])
        self.first = "depth-first" if self.words.endswith("depth-first") else "tour"
        self.kind = luck.choice(["shortest", "compact"])
        self.epoch, self.rows = 1, self.planned(self.kind, ["--numbering", self.first])

    def text(self) -> str:
        """The topology over the links that are up."""
        up = [link for link in self.links if link in self.up]
        return "".join(f"{node}\n" for node in self.nodes) + "".join(f"{a} {b}\n" for a, b in up)

    def planned(self, kind: str, words: List[str]) -> Rows:
        """The plan of a kind by these words, over the links that are up."""
        output, faults, status = run(["plan", "--kind", kind, *words, put(f"{self.name}.left", self.text())])
        assert status == 0, (faults, words)
        return rows_of(output.decode())

    def order(self) -> str:
        """The file of the nodes by label."""
        return put(f"{self.name}.order", "".join(f"{node}\n" for node in sorted(self.rows, key=lambda node: self.rows[node][0])))

    def change(self, luck: random.Random) -> List[str]:
        """The lines of a link that goes down or comes up, and of a plan."""
        link = luck.choice(self.links)
        left = [it for it in self.up if it != link]
        lines = []
        if link not in self.up:
            self.up.append(link)
            lines = [f"up {link[0]} {link[1]}"]
        elif joined(self.nodes, left):
            self.up = left
            lines = [f"down {link[0]} {link[1]}"]
        word, kind, root = luck.choice(["install", "install", "renumber"]), luck.choice(["tree", "shortest", "compact"]), luck.choice(self.nodes)
        anew = ["--root", root, *(["--numbering", self.first] if kind != "tree" else [])]
        self.rows = self.planned(kind, anew if word == "renumber" or kind == "tree" else ["--numbering", self.order()])
        self.epoch += 1
        return [*lines, f"{word} {kind} {root}", f"learn {self.epoch}"]


def keeps_fault(seed: int) -> Optional[str]:
    """What differs between a run that keeps labels and the walks of its plans."""
    luck = random.Random(seed)
    net = Kept(seed, luck)
    topology = put(f"{net.name}.topology", net.text())
    lines: List[str] = []
    rows: List[str] = []
    for _ in range(luck.randrange(2, 7)):
        for source, dest in [(luck.choice(net.nodes), luck.choice(net.nodes)) for _ in range(3)]:
            hops = walk(net.rows, source, dest)
            lines.append(f"inject {source} {dest}")
            rows.append(f"{len(rows)} {net.epoch} {source} {dest} {len(hops) - 1} delivered {' '.join(hops)}")
        lines += ["drain", *net.change(luck)]
    words = ["--kind", net.kind, "--numbering", net.words]
    wanted = "".join(f"{row}\n" for row in ["trace 1", *rows]).encode()
    script = put(f"{net.name}.script", "".join(f"{line}\n" for line in lines))
    live = put(f"{net.name}.live", "".join(f"{line}\n" for line in lines if not line.startswith("learn")))
    for got in (run(["sim", *words, topology, script]), run(["live", *words, topology, live])):
        if got != (wanted, b"", 0):
            return f"{seed}: {brief(got[0])}, {brief(got[1])}, status {got[2]}, in place of {brief(wanted)}"
    for sub in (["check"], ["check", "--whole"]):
        got = run([*sub, *words, topology, script, put(f"{net.name}.trace", wanted)])
        if got != (f"ok {len(rows)}\n".encode(), b"", 0):
            return f"{seed}: check says {brief(got[0])} and {brief(got[1])}"
    return None
