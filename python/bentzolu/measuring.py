"""The figures of a network without some of its links or nodes: what runs in the workers of a sweep.

A task has the network by places and no plan. A worker makes the plan of the whole network once and keeps it (`kept`); what the
plans of a failure are compared with is that one. `ByPlans` makes a plan for each failure and reads it. Where figures of many
failures are made by one call of the program, another class with the same two calls takes its place.
"""
from __future__ import annotations

import os
import subprocess
import tempfile
import threading
import time
from typing import Any, Dict, List, NamedTuple, Optional, Sequence, Set, Tuple

from . import inside, program as programs
from .arrays import (
    Link, Rows, Wiring, arcs_in_turn, bits_of, change, has_ring, next_arcs, on_shortest, rounded, parts_of, read_rows, to_root,
    tree_weights, waits, walk_weights, weights_over, BLOCK,
)
from .optional import numpy

Failure = Tuple[Tuple[int, ...], Tuple[int, ...]]  # the numbers of links, and the places of nodes, both ascending
INTACT: Failure = ((), ())
LONGER = ("tree", "landmark")  # the kinds whose walks may weigh more than the distance
FIGURES = (
    "parts", "nodes", "disconnected", "intervals", "greatest_row", "bits", "mean_stretch", "worst_stretch", "longer", "rerouted",
    "rows_changed", "removed", "put", "ring", "ring_together", "seconds", "fault",
)


class Task(NamedTuple):
    """What each worker is given: the network by places and how plans are made. `numbering` is `depth-first`, `tour` or `keep`; `order`
    has the places in the order of the labels, where that is given; `detour` has the words of kind landmark."""

    key: str
    n: int
    links: Tuple[Link, ...]
    kind: str
    numbering: str
    order: Optional[Tuple[int, ...]]
    root: int
    together: bool
    program: Optional[str]
    timeout: Optional[float]
    detour: Tuple[str, ...] = ()


def asked(words: Sequence[str], text: str, program: Optional[str], timeout: Optional[float]) -> Any:
    """The plan that `bentzolu` prints for a topology: by the library in this process where there is one, else by the program, which
    reads the topology from standard input and takes one thread."""
    if not (inside.is_chosen(program, timeout) and inside.library() is not None):
        command = [programs.find(program), *words, "--threads", "1", "--quiet", "-"]
        try:
            done = subprocess.run(command, input=text.encode("ascii"), capture_output=True, timeout=timeout, check=False)
            if done.returncode == 0 and done.stdout.startswith(b"plan "):
                return done.stdout
        except OSError:
            pass  # the call below says why
    return programs.run(list(words), [("topology", text)], program, timeout).output


class Planner:
    """Makes plans of a network without some links and nodes. Nodes are called by their places, and each has a line of its own at the
    front, so that nodes keep their places and ports their order whatever is missing."""

    def __init__(self, task: Task) -> None:
        self.task = task
        self.heads = [f"{u} {u} 1\n" for u in range(task.n)]
        self.lines = [f"{u} {v} {weight}\n" for u, v, weight in task.links]

    def planned(self, down: Set[int], gone: Sequence[int], kind: str, order: Optional[Sequence[int]], numbering: str) -> Rows:
        task, missing = self.task, set(gone)
        root = task.root if task.root not in missing else min(set(range(task.n)) - missing)
        words = ["plan", "--format", "edgelist", "--kind", kind, *(task.detour if kind == "landmark" else ()), "--numbering"]
        heads = [line for u, line in enumerate(self.heads) if u not in missing] if missing else self.heads
        lines = [line for i, line in enumerate(self.lines) if i not in down] if down else self.lines
        text = "".join(heads) + "".join(lines)
        if order is None:
            return read_rows(asked([*words, numbering, f"--root={root}"], text, task.program, task.timeout))
        with tempfile.NamedTemporaryFile("w", prefix="bentzolu-", suffix=".order", encoding="ascii") as file:
            file.write("".join(f"{u}\n" for u in order if u not in missing))
            file.flush()
            return read_rows(asked([*words, file.name], text, task.program, task.timeout))


class Planned(NamedTuple):
    """A plan with what is asked of it: the rows, the arc of each interval, the next arcs by source and target, and the arcs that
    wait."""

    rows: Rows
    by: Any
    arcs: Any
    flags: Any
    ring: bool


class ByPlans:
    """Figures by plans: one for the whole network, which is kept without its next arcs, and one for each failure."""

    def __init__(self, task: Task) -> None:
        self.task, self.planner = task, Planner(task)
        self.wiring = Wiring(task.n, task.links)
        first = "tour" if task.numbering == "keep" else task.numbering
        self.order: Optional[List[int]] = None if task.order is None else list(task.order)
        whole = self.planned(set(), (), first)
        if task.numbering == "keep" and self.order is None:
            self.order = [int(u) for u in whole.rows.label.argsort()]
        if task.kind == "tree":
            self.walks = tree_weights(whole.rows, to_root(whole.rows, whole.arcs), self.wiring)
        else:
            self.walks = self.distance = walk_weights(whole.arcs, self.wiring)
        self.whole = whole._replace(arcs=None)
        del whole
        if task.kind in LONGER:
            rows = self.planner.planned(set(), (), "shortest", None, "depth-first")
            self.distance = walk_weights(next_arcs(rows, self.wiring, self.wiring.arcs_of(rows)), self.wiring)

    def planned(self, down: Set[int], gone: Sequence[int], numbering: str) -> Planned:
        rows = self.planner.planned(down, gone, self.task.kind, self.order, numbering)
        by = self.wiring.arcs_of(rows)
        arcs = next_arcs(rows, self.wiring, by)
        flags = waits(arcs, self.wiring)
        return Planned(rows, by, arcs, flags, has_ring(flags, self.wiring))

    def row(self, failure: Failure) -> Dict[str, Any]:
        """The figures of a failure; those that ask for a plan are None where the nodes that are left have no path to each other."""
        began = time.perf_counter()
        task, (lost, gone) = self.task, failure
        down = set(lost)
        if gone:
            down |= {i for i, (u, v, _) in enumerate(task.links) if u in gone or v in gone}
        sizes = parts_of(task.n, [link for i, link in enumerate(task.links) if i not in down], gone)
        found: Dict[str, Any] = dict.fromkeys(FIGURES)
        found.update(parts=len(sizes), nodes=max(sizes, default=0), disconnected=sum(sizes) ** 2 - sum(size * size for size in sizes))
        if len(sizes) == 1:
            found.update(self.figures(failure, down))
        found["seconds"] = round(time.perf_counter() - began, 6)
        return found

    def figures(self, failure: Failure, down: Set[int]) -> Dict[str, Any]:
        """The figures of a failure that cuts nothing off."""
        np = numpy()
        wiring, (_, gone) = self.wiring, failure
        if failure == INTACT:
            now = self.whole._replace(arcs=next_arcs(self.whole.rows, wiring, self.whole.by))
        else:
            now = self.planned(down, gone, self.task.numbering)
        ends = [u for i in down for u in self.task.links[i][:2]]
        degree = wiring.degree - np.bincount(np.array(ends, np.int64), minlength=self.task.n)
        rerouted = differing(now.arcs, self.whole, wiring, gone)
        if self.task.kind == "tree":  # of whose arcs no more than those to the root are asked for
            now = now._replace(arcs=to_root(now.rows, now.arcs))
        changed = change(self.whole.rows, now.rows, self.task.n, wiring.degree)
        mean, worst, longer = self.stretch(failure, now)
        together = None
        if self.task.together:
            together = now.ring or self.whole.ring or has_ring(now.flags | self.whole.flags, wiring)
        return dict(
            intervals=len(now.rows.start), greatest_row=int(now.rows.length.max()), bits=bits_of(now.rows, degree), mean_stretch=mean,
            worst_stretch=worst, longer=longer, rerouted=rerouted, rows_changed=changed.rows, removed=changed.removed,
            put=changed.put, ring=now.ring, ring_together=together,
        )

    def stretch(self, failure: Failure, now: Planned) -> Tuple[Optional[float], Optional[float], int]:
        """The mean and the worst of walk over distance in the whole network, and how many walks are longer than there.

        Walks of shortest paths can only be longer where the whole network has a shortest path over what failed, so no others are
        followed. Those of the kinds `LONGER` are all followed.
        """
        lost, gone = failure
        alive = self.task.n - len(gone)
        pairs = alive * (alive - 1)
        if not pairs:
            return None, None, 0
        if self.task.kind not in LONGER:
            over = on_shortest(self.distance, [self.task.links[i] for i in lost], gone)
            total, worst, longer = 0.0, 1.0, 0
            for some, after in weights_over(now.arcs, self.wiring, self.distance, over):
                before = self.distance.reshape(-1)[some]
                ratio = after / before
                total, worst = total + ratio.sum(), max(worst, ratio.max(initial=1.0))
                longer += int((after > before).sum())
            return rounded((pairs - len(over) + total) / pairs), float(worst), longer
        after = tree_weights(now.rows, now.arcs, self.wiring) if self.task.kind == "tree" else walk_weights(now.arcs, self.wiring)
        total, worst, longer = 0.0, 1.0, 0
        height = max(1, BLOCK // self.task.n)
        for low in range(0, self.task.n, height):
            some = slice(low, low + height)
            there = after[some] > 0
            ratio = after[some][there] / self.distance[some][there]
            total, worst = total + ratio.sum(), max(worst, ratio.max(initial=1.0))
            longer += int((after[some] > self.walks[some])[there].sum())
        return rounded(total / pairs), float(worst), longer


def differing(now: Any, before: Planned, wiring: Wiring, gone: Sequence[int]) -> int:
    """How many pairs of nodes that are left have another arc than in the plan before."""
    found, left = 0, numpy().ones(wiring.n, bool)
    left[list(gone)] = False
    for sources, arcs in arcs_in_turn(before.rows, wiring, before.by):
        found += int(((now[sources] != arcs)[left[sources]] & left).sum())
    return found


KEPT: Dict[str, ByPlans] = {}  # the last sweep's, by its key: each process makes its plan of the whole network once
TURN = threading.Lock()


def begin_again() -> None:
    """Has a lock of its own in a process that was forked while another thread held it."""
    global TURN
    TURN = threading.Lock()


if hasattr(os, "register_at_fork"):
    os.register_at_fork(after_in_child=begin_again)


def kept(task: Task) -> ByPlans:
    """What makes the figures of a sweep, made where this process does not have it yet."""
    with TURN:
        there = KEPT.get(task.key)
        if there is None or (there.task.program, there.task.timeout) != (task.program, task.timeout):  # another sweep, or another program
            KEPT.clear()
            KEPT[task.key] = ByPlans(task)
        return KEPT[task.key]


def forget() -> None:
    """Lets go of what this process keeps."""
    with TURN:
        KEPT.clear()


def measured(task: Task, failures: Sequence[Failure]) -> List[Tuple[Any, ...]]:
    """The figures of some failures, in the order of `FIGURES`. A failure that is refused has the reason in its last place, and the
    others are measured all the same."""
    found = []
    for failure in failures:
        try:
            row = kept(task).row(failure)
        except Exception as error:  # any: the row has it
            row = {**dict.fromkeys(FIGURES), "fault": f"{type(error).__name__}: {error}"}
        found.append(tuple(row[name] for name in FIGURES))
    return found
