"""A change of NSFNET's plan while packets travel between all ordered pairs: by epochs, and in place.

Usage: change.py PROGRAM TOPOLOGY RATE; `run` calls it. Each change goes node after node in a random order, with a
pause:
  epochs    three changes in turn, of kind and of root: a new epoch is installed at all nodes, then each source takes
            its addresses, then 0.3 s of waiting, then the old epoch is retired
  in place  one change, from the tree to shortest ways: at each node the new routes replace the old ones under the
            same addresses, and those that are left over go
  moved     the same to a plan from another root, so that the nodes' addresses move too
What is printed of each: packets; lost, not delivered where they were sent to (of these in a loop, and at a wrong node);
mixed, those whose way is no part of a walk that was prescribed: by epochs of the walk in their own epoch, in place of
the old walk or the new one. The status is above 0 where by epochs one was lost or mixed, or the measuring has a gap."""
from __future__ import annotations

import functools
import random
import sys
import tempfile
import time
from typing import Any

from lab import Lab, Plan, address, play, script, stop_on_signals
from traffic import Traffic

ORDERS = 3
WAIT = 0.3
PLANS = {
    "epochs": [("tree", "Houston"), ("shortest", "Houston"), ("compact", "Seattle"), ("tree", "Princeton")],
    "in place": [("tree", "Houston"), ("shortest", "Houston")],
    "moved": [("tree", "Houston"), ("shortest", "Seattle")],
}


def each(nodes: Any, pause: Any, act: Any) -> None:
    for node in nodes:
        act(node)
        time.sleep(pause)


def by_epochs(plans: Any, nodes: Any, pause: Any, stamp: Any) -> Any:
    """The acts of each change, as scripts made beforehand."""
    acts = {
        (what, epoch): {node: script(what, plan.prefixes, epoch=epoch, only=node) for node in nodes}
        for epoch, plan in plans.items()
        for what in ("install", "retire")
    }

    def change() -> None:
        for epoch in list(plans)[1:]:
            each(nodes, pause, lambda node: play(acts["install", epoch][node]))
            each(nodes, pause, lambda node: stamp(node, epoch))
            time.sleep(WAIT)
            each(nodes, pause, lambda node: play(acts["retire", epoch - 1][node]))

    return change


def replaced(old: Any, new: Any, node: Any) -> str:
    """Commands that put a plan's routes and own address in the place of another's, under the same epoch."""
    prefix = lambda line: line.replace("unreachable ", "").split()[2]
    head, *added, end = script("install", new.prefixes, epoch=1, only=node).splitlines()
    _, *removed, _ = script("retire", old.prefixes, epoch=1, only=node).splitlines()
    kept = {prefix(line) for line in added}  # type: ignore[no-untyped-call]
    lines = [line.replace("route add", "route replace") for line in added]
    lines += [line for line in removed if prefix(line) not in kept]  # type: ignore[no-untyped-call]
    if old.label[node] == new.label[node]:
        lines = [line for line in lines if not line.startswith("address")]
    return "\n".join([head, *lines, end, ""])


def in_place(plans: Any, nodes: Any, pause: Any, stamp: Any) -> Any:
    scripts = {node: replaced(plans[1], plans[2], node) for node in nodes}

    def act(node: Any) -> None:
        play(scripts[node])
        stamp(node, 2)

    return lambda: each(nodes, pause, act)


def is_part(way: Any, walk: Any) -> bool:
    return way == walk[: len(way)]  # type: ignore[no-any-return]


def judge(how: Any, plans: Any, packets: Any) -> Any:
    """How many packets met which fate."""
    counts = dict.fromkeys(("packets", "hops", "lost", "loops", "wrong", "mixed", "gaps"), 0)
    for packet in packets:
        way, pair = packet["way"], (packet["source"], packet["dest"])
        arrived = [node for node, _ in packet["arrived"]]
        delivered = packet["dest"] in arrived
        epochs = [packet["epoch"]] if how == "epochs" else plans
        walks = [plans[epoch].walk(*pair) for epoch in epochs]
        counts["packets"] += 1
        counts["hops"] += len(way) - 1
        counts["lost"] += not delivered
        counts["loops"] += not delivered and len(set(way)) < len(way)
        counts["wrong"] += any(node != packet["dest"] for node in arrived)
        counts["mixed"] += not any(is_part(way, walk) for walk in walks)
        counts["gaps"] += not packet["seen"]
    return counts


@functools.cache
def plan_of(program: Any, topology: Any, kind: Any, root: Any) -> Any:
    return Plan(program, topology, "--format", "edgelist", "--kind", kind, "--root", root)


def foretold(old: Any, new: Any, nodes: Any) -> Any:
    """Of a hundred packets that are sent while a change in place goes on at even speed, how many loop by the tables."""
    loops = states = 0
    for done in range(1, len(nodes) + 1):
        changed = set(nodes[:done])
        for source, dest in old.pairs():
            way = [source]
            while way[-1] != dest and len(way) == len(set(way)):
                way.append((new if way[-1] in changed else old).walk(way[-1], dest)[1])
            loops += way[-1] != dest
            states += 1
    return 100 * loops / states


def run(how: Any, program: Any, topology: Any, rate: Any, pause: Any, seed: Any, work: Any) -> Any:
    """One change, or by epochs three, over a fresh network."""
    chosen = PLANS[how]
    plans = {epoch: plan_of(program, topology, *choice) for epoch, choice in enumerate(chosen, 1)}
    names = list(plans[1].label)
    nodes = random.Random(seed).sample(names, len(names))
    dests = {e: [address(e if how == "epochs" else 1, plan.label[x]) for x in names] for e, plan in plans.items()}
    with Lab(topology, "edgelist") as lab:
        lab.install(plans[1], 1)
        with Traffic(lab, names, dests, rate, work) as traffic:

            def stamp(node: Any, epoch: Any) -> None:
                traffic.stamps[names.index(node)] = epoch

            change = (by_epochs if how == "epochs" else in_place)(plans, nodes, pause, stamp)
            time.sleep(1)
            start = time.monotonic()
            change()
            took = time.monotonic() - start
        counts = judge(how, plans, traffic.packets)
    counts["gaps"] += traffic.unseen
    told = ", ".join(f"{value} {name}" for name, value in counts.items())
    if how == "in place":
        told += f"; by the tables {foretold(plans[1], plans[2], nodes) / 100 * took * rate:.0f} would loop"
    print(f"  {how}, pause {pause * 1000:.0f} ms, order {seed}, {took:.2f} s: {told}", flush=True)
    return counts


def main() -> None:
    stop_on_signals()
    program, topology, rate = sys.argv[1:]
    bad = 0
    for how, pause in (("epochs", 0.02), ("in place", 0.02), ("in place", 0.2), ("moved", 0.02)):
        total: dict[Any, Any] = {}
        for seed in range(1, ORDERS + 1):
            with tempfile.TemporaryDirectory(prefix="bz-") as work:
                counts = run(how, program, topology, int(rate), pause, seed, work)
            total = {name: total.get(name, 0) + value for name, value in counts.items()}
        told = ", ".join(f"{value} {name}" for name, value in total.items())
        print(f"{how}, pause {pause * 1000:.0f} ms: {told}", flush=True)
        bad += total["gaps"] + (total["lost"] + total["mixed"] if how == "epochs" else 0)
    sys.exit(bad > 0)


if __name__ == "__main__":
    main()
