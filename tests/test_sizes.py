"""Limits: as many nodes, links, epochs and bytes as there may be, and one more."""
from __future__ import annotations

import concurrent.futures
import functools
import os
from typing import Callable, Dict, Iterable, Iterator, List, Optional, Tuple, Union

from support.book import starts_in
from support.checks import count
from support.limits import (
    GRAPH_EDGES, GRAPH_NODES, GREAT_SECONDS, INPUT_BYTES, NET_LINKS, NET_NODES, THREADS, TOUR_NODES,
)
from support.marks import alone, built, slow, within
from support.networks import all_pairs, band, circle, filled, lone, row_of, with_chords
from support.route import Got, NAMES, SOME, TEXTS, alike, call, differs, expect, good_files, put, refused, run

pytestmark = [built]


def test_sizes() -> None:
    """Topologies of more nodes or edges than a graph or a network may have, and of as many."""
    put("limit/none", "")
    put("limit/no-rows", "trace 1\n")
    put("limit/more-nodes", lone(GRAPH_NODES + 1))
    put("limit/nodes", lone(GRAPH_NODES))
    put("limit/more-edges", all_pairs(GRAPH_EDGES + 1))
    put("limit/edges", all_pairs(GRAPH_EDGES))
    put("limit/more-net-nodes", circle(NET_NODES + 1))
    put("limit/more-net-links", with_chords(NET_NODES, NET_LINKS + 1))
    put("limit/net", with_chords(NET_NODES, NET_LINKS))
    for sub, parts in TEXTS.items():
        rest = ["limit/none", "limit/no-rows"][: parts - 1]
        edges = ["--format", "edgelist", "--kind", "tree"]
        fits = "TooLarge" if parts > 1 else "Disconnected"
        got = run(call(sub, ["limit/more-nodes", *rest]))
        refused(f"{sub} of too many nodes", got, f"topology {GRAPH_NODES + 1} TooManyNodes")
        refused(f"{sub} of as many nodes as fit", run(call(sub, ["limit/nodes", *rest], "--kind", "tree")), f"opening {fits}")
        got = run(call(sub, ["limit/more-edges", *rest], *edges))
        refused(f"{sub} of too many edges", got, f"topology {GRAPH_EDGES + 1} TooManyEdges")
        got = run(call(sub, ["limit/edges", *rest], *edges))
        if parts > 1:
            refused(f"{sub} of as many edges as fit", got, "opening TooLarge")
            for what in ("nodes", "links"):
                got = run(call(sub, [f"limit/more-net-{what}", *rest]))
                refused(f"{sub} of too many {what} for packets", got, "opening TooLarge")
        else:
            expect(f"{sub} of as many edges as fit", got, SOME, b"", 0)
            if sub in ("plan", "ranges"):
                edges = ["--format", "edgelist", "--kind", "shortest"]
                expect(f"{sub} of as many edges as fit, shortest", run(call(sub, ["limit/edges"], *edges)), SOME, b"", 0)
            for what in ("nodes", "links"):
                got = run(call(sub, [f"limit/more-net-{what}", *rest]))
                expect(f"{sub} of too many {what} for packets", got, SOME, b"", 0)
        want = b"ok 0\n" if sub == "check" else b"trace 1\n" if parts > 1 else SOME
        expect(f"{sub} of the greatest network", run(call(sub, ["limit/net", *rest])), want, b"", 0)


def greatest_net() -> None:
    """A network of as many nodes and links as packets may travel over."""
    put("limit/net", with_chords(NET_NODES, NET_LINKS))


def test_sizes_in_threads() -> None:
    """The plans and the tables of the greatest network are the same in any number of threads."""
    greatest_net()
    for kind in ("shortest", "compact"):
        lone_ = run(call("plan", ["limit/net"], "--kind", kind, "--threads", "1"))
        for threads in (2, 3, 16, THREADS):
            got = run(call("plan", ["limit/net"], "--kind", kind, "--threads", str(threads)))
            expect(f"the {kind} plan of the greatest network in at most {threads} threads", got, lone_[0], b"", 0)
    for rest in ([], ["--disjoint"]):
        lone_ = run(call("prefixes", ["limit/net"], *rest, "--threads", "1"))  # type: ignore[misc]
        for threads in (2, 3, 16, THREADS):
            got = run(call("prefixes", ["limit/net"], *rest, "--threads", str(threads)))  # type: ignore[misc]
            expect(f"the tables of the greatest network in at most {threads} threads", got, lone_[0], b"", 0)


@slow
def test_sizes_of_ring() -> None:
    """The plan of a ring of as many nodes as a topology may have."""
    put("limit/ring", circle(GRAPH_NODES))
    output, faults, status = run(call("plan", ["limit/ring"], "--kind", "tree"), seconds=GREAT_SECONDS)
    head = f"plan tree {GRAPH_NODES} {2 * (GRAPH_NODES - 1)}\n".encode()
    lines = output.count(b"\n")
    expect("the plan of a ring of as many nodes as fit", (output[: len(head)], faults, status), head, b"", 0)
    count("its rows", None if lines == GRAPH_NODES + 1 else f"there are {lines} lines")


@alone
@slow
@within(3_000)
def test_sizes_of_tours() -> None:
    """Tours of as many nodes as there may be for one."""
    together(tours_of_most())


@alone
@slow
@within(3_000)
def test_sizes_of_chains() -> None:
    """Each subcommand with each kind and each numbering, over a chain of as many nodes as a topology may have."""
    together(chains())


Wanted = Union[bytes, Callable[[bytes], Optional[str]]]  # an output, or what is wrong with one


def together(runs: Iterable[Tuple[List[str], Wanted]]) -> None:
    """Runs of the program, as many at a time as there are processors: for each its words, and what it has to come to."""
    with concurrent.futures.ThreadPoolExecutor(len(os.sched_getaffinity(0))) as pool:
        results = pool.map(lambda item: run(item[0], seconds=GREAT_SECONDS), runs)
        for (words_, wanted), got in zip(runs, results):
            if callable(wanted):
                count(" ".join(words_), differs(got, (SOME, b"", 0)) or wanted(got[0]))
            else:
                expect(" ".join(words_), got, wanted, b"", 0)


class Chain:
    """A chain whose nodes are labelled from one end to the other, by which all that is shown of it is known."""

    def __init__(self, nodes: int, is_turned: bool) -> None:
        self.nodes, self.names = nodes, row_of(nodes)[0]
        self.labels = range(nodes - 1, -1, -1) if is_turned else range(nodes)
        self.by_label = self.names[::-1] if is_turned else self.names

    def starts(self, label: int) -> List[Tuple[int, int]]:
        """The starts of a row, each with the label of the neighbour."""
        before = [(0, label - 1)] if label > 0 else []
        return before + ([(label + 1, label + 1)] if label + 1 < self.nodes else [])

    def intervals(self, label: int) -> Dict[int, Tuple[int, int]]:
        """By the label of each neighbour its interval: its start, and where it ends."""
        starts = self.starts(label)
        return {to: (start, starts[(i + 1) % len(starts)][0]) for i, (start, to) in enumerate(starts)}

    def plan(self, kind: str) -> Iterator[str]:
        yield f"plan {kind} {self.nodes} {2 * (self.nodes - 1)}"
        for name, label in zip(self.names, self.labels):
            yield " ".join([f"{name} {label}", *(f"{start} {self.by_label[to]}" for start, to in self.starts(label))])

    def walk(self, kind: str) -> Iterator[str]:
        yield f"walk {kind} {self.names[0]} {self.names[-1]} {self.labels[-1]} {self.nodes - 1}"
        for i in range(self.nodes - 1):
            start, end = self.intervals(self.labels[i])[self.labels[i + 1]]
            yield f"{self.names[i]} {self.labels[i]} {start} {end} {self.names[i + 1]} 1"
        yield f"{self.names[-1]} {self.labels[-1]}"

    def stats(self, kind: str) -> List[str]:
        n, bits = self.nodes, (self.nodes - 1).bit_length()
        walks = n * (n * n - 1) // 3
        return [f"stats {kind} {n}", f"links {n - 1}", f"starts {2 * (n - 1)}", f"entries {n * (n - 1)}", "greatest-row b 2",
                f"walks {walks}", f"distances {walks}", "worst a b 1 1", "compactness a b 1",
                f"bits {2 * bits + 2 * (n - 2) * (bits + 1)} {(n - 2) * (n - 1)}", "dependencies acyclic"]

    def draw(self, _kind: str) -> Iterator[str]:
        yield "graph {"
        for name, label in zip(self.names, self.labels):
            yield f'  "{name}" [label="{name} {label}"];'
        for i in range(self.nodes - 1):
            one, other = self.labels[i], self.labels[i + 1]
            tail, head = ("[{},{})".format(*self.intervals(u)[v]) for u, v in ((one, other), (other, one)))
            yield f'  "{self.names[i]}" -- "{self.names[i + 1]}" [label="1", taillabel="{tail}", headlabel="{head}"];'
        yield "}"

    def prefixes_fault(self, kind: str, output: bytes) -> Optional[str]:
        """What is wrong with forwarding tables: their number, or where some nodes send some labels."""
        head, *rows = output.decode().splitlines()
        bits = (self.nodes - 1).bit_length()
        lines = sum(len(row.split()) // 2 - 1 for row in rows)
        if head != f"prefixes {kind} {self.nodes} {bits} {lines}" or len(rows) != self.nodes:
            return f"{head}, {len(rows)} rows of {lines} lines"
        for i in (0, 1, self.nodes // 2, self.nodes - 1):
            name, own, *entries = rows[i].split()
            if [name, own] != [self.names[i], str(self.labels[i])]:
                return f"{rows[i][:80]}: its node is {self.names[i]}, with label {self.labels[i]}"
            held = [(*map(int, entry.split("/")), to) for entry, to in zip(entries[::2], entries[1::2])]
            for label in (label for label in range(0, self.nodes, 37) if label != int(own)):
                sent = next((to for value, length, to in held if (label ^ value) >> (bits - length) == 0), None)  # type: ignore[operator]
                if sent != self.by_label[int(own) + (1 if label > int(own) else -1)]:
                    return f"{rows[i][:80]}: {label} goes to {sent}"
        return None


def chains() -> Iterator[Tuple[List[str], Wanted]]:
    """A chain of as many nodes as a topology may have, whose rows are short: each subcommand with each kind, depth first, and each of
    both with the order of a file."""
    names, text = row_of(GRAPH_NODES)
    net, order = put("limit/chain", text), put("limit/order", "".join(f"{name}\n" for name in reversed(names)))
    subs = ["stats", "prefixes", "plan", "walk", "draw"]
    chosen: List[Tuple[str, str, List[str]]] = [(sub, kind, []) for sub in subs for kind in ("compact", "shortest", "tree")]
    chosen += [(sub, "compact" if sub in ("walk", "prefixes") else "shortest", ["--numbering", order]) for sub in subs]
    for sub, kind, numbering in sorted(chosen, key=lambda item: subs.index(item[0])):
        chain = Chain(GRAPH_NODES, bool(numbering))
        ends = ["--from", names[0], "--to", names[-1]] if sub == "walk" else []
        wanted: Wanted
        if sub == "prefixes":
            wanted = functools.partial(chain.prefixes_fault, kind)
        else:
            wanted = "".join(f"{line}\n" for line in getattr(chain, sub)(kind)).encode()
        yield [sub, "--kind", kind, *numbering, *ends, "--threads", "1", net], wanted


def more_starts(most: int, output: bytes) -> Optional[str]:
    """What is wrong with a plan or figures that may have so many starts."""
    return None if starts_in(output) <= most else f"{starts_in(output)} starts, and not {most}"


def tours_of_most() -> Iterator[Tuple[List[str], Wanted]]:
    """A tour of as many nodes as there may be for one: its plan of shortest ways has fewer intervals than that of depth-first numbers,
    that of fewest intervals no more, and each subcommand shows it. Of a node more it is depth first."""
    net, more = put("limit/band", band(TOUR_NODES)), put("limit/band+", band(TOUR_NODES + 1))
    for kind, subs in (("shortest", ("stats", "walk", "prefixes")), ("compact", ("plan", "draw"))):
        plain = starts_in(run(["plan", "--kind", kind, net], seconds=GREAT_SECONDS)[0])
        most = plain - 1 if kind == "shortest" else plain
        told: Wanted = functools.partial(more_starts, most)
        words_ = ["--kind", kind, "--numbering", "tour", "--threads", "1"]
        for sub in subs:
            ends = ["--from", "n0", "--to", f"n{TOUR_NODES - 1}"] if sub == "walk" else []
            yield [sub, *words_, *ends, net], told if sub in ("plan", "stats") else lambda output: None
        yield ["plan", *words_, more], run(["plan", "--kind", kind, more], seconds=GREAT_SECONDS)[0]


def test_sizes_of_tours_alike() -> None:
    """In how many threads a tour is made changes nothing."""
    for nodes in (256, NET_NODES):
        net = put("limit/toured", band(nodes))
        alone = run(["plan", "--numbering", "tour", "--threads", "1", net])
        for told in (["--threads", "2"], ["--threads", str(THREADS)], []):
            expect(f"the tour of {nodes} nodes, {told}", run(["plan", "--numbering", "tour", *told, net], seconds=GREAT_SECONDS), alone[0], b"", 0)  # type: ignore[misc]


@alone
@slow
@within(3_000)
def test_sizes_of_runs() -> None:
    """Packets of three epochs, one of each kind, over a network of the most nodes and links: `sim` and `live` send them as `walk` prints
    of the plan of that kind, root and numbering, and `check` finds nothing."""
    greatest_net()
    kinds, ends = ["shortest", "compact", "tree"], [("a", f"n{NET_NODES // 2}"), (f"n{NET_NODES - 1}", "n77")]
    wanted = [(kind, root, numbering) for root in ("a", "n500") for kind in kinds
              for numbering in ("depth-first", "tour") if (kind, numbering) != ("tree", "tour")]
    ways: Dict[Tuple[str, str, str], List[List[str]]] = {}

    def walked_(item: Tuple[str, str, str], u: str, v: str) -> bytes:
        kind, root, numbering = item
        return run(["walk", "--kind", kind, "--root", root, "--numbering", numbering, "--from", u, "--to", v, "limit/net"])[0]

    with concurrent.futures.ThreadPoolExecutor(2) as pool:
        for item, paths in zip(wanted, pool.map(lambda item: [walked_(item, u, v) for u, v in ends], wanted)):
            ways[item] = [[line.split()[0] for line in path.decode().splitlines()[1:]] for path in paths]
    runs: List[Tuple[List[str], Wanted]] = []
    for numbering in ("depth-first", "tour"):
        for at, kind in enumerate(kinds):
            if (kind, numbering) == ("tree", "tour"):
                continue
            script: List[str] = []
            live: List[str] = []
            rows: List[str] = []
            for epoch, (other, root) in enumerate([(kind, "a"), *((other, "n500") for other in kinds if other != kind)], 1):
                install = [f"install {other} {root}"] if epoch > 1 else []
                packets = [f"inject {u} {v}\ndrain" for u, v in ends]
                script += [*install, *([f"learn {epoch}"] if epoch > 1 else []), *packets]
                live += [*install, *packets]
                for (u, v), way in zip(ends, ways[other, root, "depth-first" if other == "tree" else numbering]):
                    rows.append(f"{len(rows)} {epoch} {u} {v} {len(way) - 1} delivered {' '.join(way)}")
            trace = "".join(f"{row}\n" for row in ["trace 1", *rows])
            files = [put(f"limit/{name}-{numbering}-{kind}", text) for name, text in
                     (("script", "\n".join(script) + "\n"), ("live", "\n".join(live) + "\n"), ("trace", trace))]
            words_ = ["--kind", kind, "--root", "a", "--numbering", numbering, "limit/net"]
            runs += [(["sim", *words_, files[0]], trace.encode()), (["live", *words_, files[1]], trace.encode()),
                     (["check", *words_, files[0], files[2]], f"ok {len(rows)}\n".encode())]
    together(runs)


def great_trace() -> Tuple[str, bytes, int]:
    """A trace of as many bytes as are read, whose rows fit, and its topology and number of rows."""
    path = [f"p{i}".ljust(64, "x") for i in range(200)]
    leaves = ["y" * length for length in range(4, 44)]
    topology = "".join(f"{path[i]} {path[i + 1]}\n" for i in range(len(path) - 1))
    topology += "".join(f"{path[0]} {leaf}\n" for leaf in leaves)
    full = f" 1 {path[0]} {path[-1]} {len(path) - 1} delivered {' '.join(path)}\n"
    coins = {len(row) + 4: row for leaf in leaves for fate in ("delivered", "left")
             for row in [f" 1 {leaf} {leaf} 0 {fate} {leaf}\n"]}
    room = INPUT_BYTES - len("trace 1\n")
    number = room // (len(full) + 4) - 1
    room -= number * (len(full) + 4)
    reached = {0: 0}
    for size in range(1, room + 1):
        coin = next((coin for coin in coins if size - coin in reached), None)
        if coin is not None:
            reached[size] = coin
    rows = [full] * number
    while room:
        rows.append(coins[reached[room]])
        room -= reached[room]
    text = "trace 1\n" + "".join(f"{1000 + i}{row}" for i, row in enumerate(rows))
    return topology, text.encode(), len(rows)


def try_bytes(name: str, words: List[str], want: Got, more_words: List[str], text: str) -> None:
    """An input of as many bytes as are read, and of one more."""
    alike(f"{name} of as many bytes as are read", run(words), want)
    refused(f"{name} of a byte more", run(more_words), f"{text} too large")


@slow
def test_bytes_of_inputs() -> None:
    put("limit/topology", filled("a b\nb c\n", INPUT_BYTES))
    put("limit/topology+", filled("a b\nb c\n", INPUT_BYTES + 1))
    put("limit/script", filled("inject a c\ndrain\n", INPUT_BYTES))
    put("limit/script+", filled("inject a c\ndrain\n", INPUT_BYTES + 1))
    good_files()
    for sub, parts in TEXTS.items():
        good = [f"good/{name}" for name in NAMES[:parts]]
        want = run(call(sub, good))
        for at, text in enumerate(NAMES[: min(parts, 2)]):
            great, more = list(good), list(good)
            great[at], more[at] = f"limit/{text}", f"limit/{text}+"
            try_bytes(f"{sub} with a {text}", call(sub, great), want, call(sub, more), text)
        head = ["a b\nb c\n", "a b\nb c\n%%\ninject a c\ndrain\n", "a b\nb c\n%%\ninject a c\ndrain\n"][parts - 1]
        tail = b"\n%%\ntrace 1\n0 1 a c 2 delivered a b c\n" if parts == 3 else b""
        whole = filled(head, INPUT_BYTES - len(tail)) + tail
        alike(f"{sub} - of as many bytes as are read", run(call(sub, ["-"]), whole), want)
        refused(f"{sub} - of a byte more", run(call(sub, ["-"]), whole + b"\n"), "input too large")
    topology, trace, number = great_trace()
    files = [put("limit/long", topology), put("limit/none", ""), put("limit/trace", trace)]
    count("the great trace", None if len(trace) == INPUT_BYTES else f"has {len(trace)} bytes")
    more = [*files[:2], put("limit/trace+", trace + b"\n")]
    try_bytes("check with a trace", call("check", files), (f"ok {number}\n".encode(), b"", 0), call("check", more), "trace")
    both = call("sim", ["limit/topology+", "limit/missing"])
    refused("a topology too large before a missing script", run(both), "topology too large")
