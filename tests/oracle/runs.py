"""What `sim` and `live` print of scripts in which each packet is drained before anything else happens.

Then a packet ends as the network is: it goes by the plan of the epoch that it was stamped with, up to its destination
or to a link that is down, and no step where that epoch is retired. `check` is to say `ok` of the trace, also with `--whole`.
Links that are avoided carry packets, and no plan is made over them. So no epoch that was installed while a link is
avoided drops a packet for it.
Plans of kind landmark go round as the words of the run say, by the landmarks of the links that are up and heeded then.
"""
from __future__ import annotations

from oracle.blocks import order_of
from oracle.landmark import Bound, fewest_for, most_linked, rows_of
from oracle.rows import distances, run
from oracle.tables import drawn, plan_of, read_topology
from typing import Any


def put(folder: Any, name: Any, text: Any) -> Any:
    """Write a file there, and return its name."""
    with open(f"{folder}/{name}", "w", encoding="ascii") as file:
        file.write(text)
    return name


def is_connected(nodes: Any, links: Any) -> bool:
    """Whether links lead from each node to each."""
    seen, todo = {nodes[0]}, [nodes[0]]
    while todo:
        u = todo.pop()
        for link in links:
            for v in link - seen if u in link else ():
                seen.add(v)
                todo.append(v)
    return len(seen) == len(nodes)


def landmark_plan(ports: Any, root: Any, count: Any, stretch: Any) -> tuple[str, list[Any], dict[Any, Any], dict[Any, Any], Any]:
    """The same as `plan_of` for kind landmark, of each node's neighbours and weights by its ports."""
    landmarks, far = most_linked(ports, root, count), {u: distances(ports, u) for u in ports}
    order = order_of(ports, landmarks)
    rows, towards = rows_of(ports, order, Bound(ports, far, landmarks, stretch)), {}
    for u, row in rows.items():
        towards[u] = [([to for start, to in row if start <= label] or [row[-1][1]])[-1] if d != u else None for label, d in enumerate(order)]
    return "landmark", list(ports), {u: label for label, u in enumerate(order)}, {u: [v for v, _ in ports[u]] for u in ports}, towards


class Network:
    """A network and its board, as the script left them."""

    def __init__(self, text: Any, kind: Any, root: Any, count: Any = 1, stretch: Any = 300) -> None:
        self.text, self.graph, self.count, self.stretch = text, read_topology(text, "edgelist"), count, stretch
        self.nodes = list(self.graph)
        self.links = sorted({frozenset((u, v)) for u in self.nodes for v in self.graph[u]}, key=sorted)
        self.down: set[Any] = set()
        self.avoided: set[Any] = set()
        self.floor = 1
        self.learnt = 1
        self.plans = [self.planned(kind, root or self.nodes[0])]

    def planned(self, kind: Any, root: Any) -> Any:
        """The plan of a kind over the links that are up and heeded; nodes and ports stay in their order."""
        if kind == "landmark":
            ports = {u: [it for it in self.graph[u].items() if frozenset((u, it[0])) not in self.down | self.avoided] for u in self.nodes}
            return landmark_plan(ports, root, self.count, self.stretch)
        return plan_of(self.without(), "edgelist", kind, root)

    def without(self) -> Any:
        """The text of the topology over the links that are up and heeded."""
        lines = [line for line in self.text.splitlines() if frozenset(line.split()[:2]) not in self.down | self.avoided]
        return "\n".join(lines) + "\n"

    def play(self, line: Any) -> Any:
        """Why a change is refused, or None."""
        word, *rest = line.split()
        if word in ("down", "up"):
            link = frozenset(rest)
            if (link in self.down) == (word == "down"):
                return "Same"
            (self.down.add if word == "down" else self.down.discard)(link)
        elif word in ("avoid", "heed"):
            link = frozenset(rest)
            if word == "avoid" and link in self.down:
                return "LinkDown"
            if (link in self.avoided) == (word == "avoid"):
                return "Same"
            (self.avoided.add if word == "avoid" else self.avoided.discard)(link)
        elif word == "install":
            if not is_connected(self.nodes, [link for link in self.links if link not in self.down | self.avoided]):
                return "Disconnected"
            self.plans.append(self.planned(*rest))
        elif word == "retire":
            if not 1 <= int(rest[0]) <= len(self.plans):
                return "NoEpoch"
            if int(rest[0]) <= self.floor:
                return "Same"
            self.floor = int(rest[0])
        else:
            if not 1 <= int(rest[0]) <= len(self.plans):
                return "NoEpoch"
            self.learnt = max(self.learnt, int(rest[0]))
        return None

    def row(self, number: Any, source: Any, dest: Any) -> str:
        """The row of a packet that is drained at once."""
        _, _, labels, _, towards = self.plans[self.learnt - 1]
        hops, weight, fate = [source], 0, "retired" if self.learnt < self.floor else "delivered"
        while fate == "delivered" and hops[-1] != dest:
            u, v = hops[-1], towards[hops[-1]][labels[dest]]
            if frozenset((u, v)) in self.down:
                fate = "down " + " ".join(sorted((u, v), key=self.nodes.index))
            else:
                hops.append(v)
                weight += self.graph[u][v]
        return f"{number} {self.learnt} {source} {dest} {weight} {fate} {' '.join(hops)}\n"


def fault_of(luck: Any, folder: Any) -> Any:
    """What is wrong with a run of a script by chance, and with the check of its trace."""
    _, text = drawn(luck, luck.randint(2, 12))
    kinds = ["tree", "shortest", "landmark", "landmark"]
    first, nodes, words = luck.choice(kinds), len(read_topology(text, "edgelist")), []
    count, stretch = luck.choice([None, 1, 2, nodes + 1]), luck.choice([None, 100, 150, 200])
    words += ["--landmarks", str(count)] if count else []
    words += ["--stretch", str(stretch)] if stretch else []
    net = Network(text, first, None, count or fewest_for(nodes), stretch or 300)
    is_live = luck.random() < 0.5  # then each install is learnt at once, as a live run does by itself
    script, live, rows, refused = [], [], [], []

    def step(line: Any) -> Any:
        why = net.play(line)
        script.append(line)
        live.append(f"# {line}" if line.startswith("learn") else line)
        if why:
            refused.append(f"refused {len(script)} {why}\n")
        return why

    for number in range(luck.randint(1, 20)):
        for _ in range(luck.randrange(4)):
            what = luck.randrange(6)
            if what < 3:
                step(luck.choice(["down", "down", "up", "avoid", "heed"]) + " " + " ".join(sorted(luck.choice(net.links))))
            elif what == 3:
                step(f"retire {luck.randrange(1, len(net.plans) + 2)}")
            elif len(net.plans) < 60 and not step(f"install {luck.choice(kinds)} {luck.choice(net.nodes)}"):
                if is_live or luck.random() < 0.5:
                    step(f"learn {len(net.plans)}")
        source, dest = luck.choice(net.nodes), luck.choice(net.nodes)
        script += [f"inject {source} {dest}", "drain"]
        live += script[-2:]
        rows.append(net.row(number, source, dest))
    wanted = "trace 1\n" + "".join(rows), "".join(refused), 0
    words = ["--kind", first, *words, put(folder, "runs.edgelist", text)]
    scripts = [("sim", script), *([("live", live)] if is_live else [])]
    for sub, lines in scripts:
        file = put(folder, "runs.script", "\n".join(lines) + "\n")
        given = run([sub, *words, file], folder)
        if given != wanted:
            return f"{text}%%\n{chr(10).join(lines)}\n{sub}: {given} in place of {wanted}"
        trace = put(folder, "runs.trace", wanted[0])
        for more in [], ["--whole"]:
            given = run(["check", *more, *words, file, trace], folder)  # type: ignore[misc]
            if given != (f"ok {len(rows)}\n", "", 0):
                return f"{text}%%\n{chr(10).join(lines)}\ncheck {more} of {wanted[0]}: {given}"
    return None
