"""Networks whose links change in time: scripts that play them, and figures of their plans over time.

    line = bentzolu.Timeline.of_shell(shell, step=60)                    # or Timeline([(0, graph), (60, other), ..])
    run = bentzolu.simulate(line.graph, line.steps("compact", mode="ahead"), "compact")
    rows = line.replay("compact", numbering="keep")
    line.plot({"labels kept": rows})
"""
from __future__ import annotations

import math
import random
import time
from typing import Any, Callable, Dict, FrozenSet, Hashable, Iterable, Iterator, List, Mapping, NamedTuple, Optional, Sequence, Set, Tuple, Union

from . import measuring, optional
from .arrays import bits_of, change, has_ring, parts_of, to_root, tree_weights, walk_weights
from .errors import GraphError, StepError, SweepError
from .measuring import Planned, Task
from .network import network_of
from .orbits import Satellite, Shell
from .spreading import Broken, spread
from .sweeping import RowSequence, asked_of

Edge = Tuple[Hashable, Hashable]
Pairs = Callable[[float, random.Random], Iterable[Tuple[Hashable, Hashable]]]
MODES = ("reactive", "ahead")
FIGURES = ("intervals", "bits", "sent", "rows_changed", "mean", "worst", "ring", "ring_with_last", "seconds", "fault")


class Snapshot(NamedTuple):
    """A time in seconds at which links change: those that go down, those that come up, and how many are up from then on."""

    time: float
    down: Tuple[Edge, ...]
    up: Tuple[Edge, ...]
    links: int


class TimeRow(NamedTuple):
    """The figures of the plan from a time on.

    `time` is in seconds; `links` are up then, `down` and `up` are how many changed. `intervals`, `bits` and `ring` are those of `stats`.
    `sent` is how many bits say what changes from the plan before, and `rows_changed` at how many nodes. `mean` and `worst` are the
    mean and the greatest weight of a walk. `ring_with_last` says whether a ring of links can wait while packets of this plan and of the
    one before travel. `fault` says why there is no plan; then the figures are None.
    """

    time: float
    links: int
    down: int
    up: int
    intervals: Optional[int] = None
    bits: Optional[int] = None
    sent: Optional[int] = None
    rows_changed: Optional[int] = None
    mean: Optional[float] = None
    worst: Optional[int] = None
    ring: Optional[bool] = None
    ring_with_last: Optional[bool] = None
    seconds: Optional[float] = None
    fault: Optional[str] = None


class Replay(RowSequence[TimeRow]):
    """The rows of a network over time. `to_pandas()` makes a table of them."""

    def __repr__(self) -> str:
        return f"<Replay: {len(self):,} plans, {sum(row.fault is not None for row in self):,} of which could not be made>"


class Timeline(Sequence[Snapshot]):
    """A network whose links change in time: a sequence of `Snapshot`, the first of which has the links that are down at the begin.

    `graph` has all links that are ever up, as a list of edges with weights, for `simulate`, `live` and `check`; the first epoch of a
    script is planned over it. `nodes` are the nodes.

    Parameters
    ----------
    snapshots : pairs of a time in seconds, ascending, and a network: what all calls take for a graph
    weight : the edges' attribute that is the weight; None for 1 everywhere

    Raises
    ------
    GraphError
        where times do not ascend, or a link has several weights
    """

    def __init__(self, snapshots: Iterable[Tuple[float, Any]], weight: Optional[str] = "weight") -> None:
        weights: Dict[FrozenSet[Hashable], Tuple[Hashable, Hashable, int]] = {}
        states: List[Tuple[float, FrozenSet[FrozenSet[Hashable]]]] = []
        for at, graph in snapshots:
            net = network_of(graph, weight)
            if states and not at > states[-1][0]:
                raise GraphError(f"the times of snapshots must ascend, but {at:g} comes after {states[-1][0]:g}")
            up = []
            for u, v, w in net.links:
                a, b = net.nodes[u], net.nodes[v]
                known = weights.setdefault(frozenset((a, b)), (a, b, w))
                if known[2] != w:
                    raise GraphError(f"the link from {a!r} to {b!r} has the weights {known[2]} and {w}: the weight of a link can't change")
                up.append(frozenset((a, b)))
            states.append((at, frozenset(up)))
        if not states:
            raise GraphError("a timeline needs a snapshot: give pairs of a time and a network")
        self._begin(list(weights.values()), [(at, [link in up for link in weights]) for at, up in states])

    def _begin(self, edges: List[Tuple[Any, Any, int]], states: Iterable[Tuple[float, Sequence[bool]]]) -> None:
        """Keeps the times at which something changes."""
        self.graph = edges
        self.nodes: List[Any] = list(dict.fromkeys(node for edge in edges for node in edge[:2]))
        self._links = [(u, v) for u, v, _ in edges]
        self._down: List[Tuple[int, ...]] = []  # the numbers of the links that are down, by snapshot
        self._snapshots: List[Snapshot] = []
        before: Sequence[bool] = [True] * len(edges)
        for at, now in states:
            down = tuple(self._links[i] for i, it in enumerate(now) if before[i] and not it)
            up = tuple(self._links[i] for i, it in enumerate(now) if it and not before[i])
            if down or up or not self._snapshots:
                self._snapshots.append(Snapshot(at, down, up, sum(now)))
                self._down.append(tuple(i for i, it in enumerate(now) if not it))
            before = list(now)

    @classmethod
    def of_shell(
        cls, shell: Shell, step: float = 10.0, orbits: float = 1.0, latitude: float = 60.0, most_range: Optional[float] = None,
    ) -> "Timeline":
        """The changes of a shell's links.

        Parameters
        ----------
        shell : the satellites
        step : how far apart snapshots are, in seconds; those without a change are left out
        orbits : how many orbits
        latitude : a link between planes is up while both ends are at most so many degrees north or south
        most_range : and while it is at most so many kilometres long; by default of any length
        """
        if not (step > 0 and orbits >= 0 and math.isfinite(step) and math.isfinite(orbits)):
            raise GraphError(f"a timeline of {orbits} orbits by steps of {step} seconds is not possible: give a step above 0")
        inside, across = shell.inside(), shell.across()
        made = cls.__new__(cls)
        made._begin([(a, b, 1) for a, b in inside + across], _states(shell, len(inside), across, step, orbits, latitude, most_range))
        return made

    def __getitem__(self, index: Any) -> Any:
        return self._snapshots[index]

    def __len__(self) -> int:
        return len(self._snapshots)

    def __repr__(self) -> str:
        changes = sum(len(it.down) + len(it.up) for it in self._snapshots[1:])
        size = f"{len(self.nodes):,} nodes and {len(self.graph):,} links"
        return f"<Timeline of {size}: {len(self):,} snapshots, {changes:,} changes of links>"

    def steps(
        self, kind: str = "shortest", root: Optional[Hashable] = None, *, mode: str = "reactive", inject: Union[int, Pairs] = 4,
        seed: int = 1, live: bool = False, retire: bool = False, most: Optional[int] = None,
    ) -> List[Tuple[Any, ...]]:
        """The steps that play the timeline.

        Parameters
        ----------
        kind, root : of each install; the first node is the root by default. `simulate`, `live` and `check` take the landmarks and the
            stretch of kind landmark
        mode : `"reactive"`: links change, packets of the old epoch meet what is down, and a plan is installed. `"ahead"`: what will go
            down is avoided by a new plan while it still carries packets, and goes down once the old epoch has drained
        inject : how many packets are injected at each point between two nodes that are drawn; or a call of the time and a
            `random.Random` that gives pairs of nodes
        seed : of what is drawn
        live : whether the steps are for `live`, which knows no `learn`
        retire : whether each install retires the epochs before it; a packet that has one gets a new stamp with `restamps=1`, and is
            dropped without
        most : how many snapshots are played; all by default

        Returns
        -------
        list of steps, for `simulate`, `live` and `check` over `graph`
        """
        if mode not in MODES:
            raise StepError(f"{mode!r} is not a mode: give one of {', '.join(MODES)}")
        luck, epoch, found = random.Random(seed), 1, []
        avoided: Set[Any] = set()
        start = self.nodes[0] if root is None else root

        def injected(at: float) -> List[Tuple[Any, ...]]:
            if callable(inject):
                return [("inject", source, target) for source, target in inject(at, luck)]
            return [("inject", *luck.sample(self.nodes, 2)) for _ in range(inject if len(self.nodes) > 1 else 0)]

        for number, it in enumerate(self._snapshots[:most]):
            downs: List[Tuple[Any, ...]] = [("down", *link) for link in it.down]
            ups: List[Tuple[Any, ...]] = [("up", *link) for link in it.up]
            epoch += 1
            install: List[Tuple[Any, ...]] = [("install", kind, start)]
            install += [] if live else [("learn", epoch)]
            install += [("retire", epoch)] if retire else []
            if number == 0:
                found += [*downs, *install, *injected(it.time), ("drain",)]
            elif mode == "reactive":
                drain: List[Tuple[Any, ...]] = [] if retire else [("drain",)]
                found += [*injected(it.time), *downs, *ups, *drain, *injected(it.time), *drain]
                found += [*install, *injected(it.time), ("drain",)]
            else:
                heeds = [("heed", *link) for link in it.up if link in avoided]
                avoids = [("avoid", *link) for link in it.down]
                avoided = avoided.difference(it.up).union(it.down)
                found += [*injected(it.time), *ups, *heeds, *avoids, *install, *injected(it.time), ("drain",)]
                found += [*downs, *injected(it.time), ("drain",)]
        return found

    def replay(
        self, kind: str = "shortest", numbering: Any = "depth-first", root: Optional[Hashable] = None, *, executor: Any = None,
        most: Optional[int] = None, retries: int = 3, program: Any = None, timeout: Optional[float] = None,
        landmarks: Optional[int] = None, stretch: Optional[int] = None,
    ) -> Replay:
        """The figures of the plans over time.

        Parameters
        ----------
        kind, root : of each plan
        numbering : `"depth-first"` and `"tour"` number anew each time; `"keep"` has the labels of a tour of `graph` each time; or an
            order of nodes
        executor : a `concurrent.futures.Executor`, which the caller opens and closes; by default this process makes all rows
        most : how many snapshots; all by default
        retries, program, timeout, landmarks, stretch : as for `sweep`

        Returns
        -------
        Replay, a sequence of `TimeRow`

        Raises
        ------
        SweepError
            where the executor ended
        MissingPackageError
            where NumPy is not installed
        """
        optional.numpy()
        task = asked_of(network_of(self.graph), (), kind, root, numbering, True, program, timeout, landmarks, stretch).task
        numbers = self._numbers(task)
        states = [tuple(sorted(numbers[i] for i in down)) for down in self._down[:most]]
        todo = [(at, states[at - 1] if at else None, state) for at, state in enumerate(states)]
        made: Dict[int, Tuple[Any, ...]] = {}

        def take(part: Sequence[Any], found: Any) -> None:
            made.update((at, values) for (at, _, _), values in zip(part, found))

        try:
            if executor is None:
                take(todo, replayed(task, todo))
            else:
                size = max(1, min(32, len(todo) // 16))
                spread(executor, replayed, task, [todo[i : i + size] for i in range(0, len(todo), size)], take, retries)
        except Broken as broken:
            cause = broken.__cause__
            count = f"{len(made):,} of {len(todo):,} rows"
            raise SweepError(f"the executor ended ({type(cause).__name__}: {cause}) with {count} made") from cause
        finally:
            measuring.forget()
        rows = []
        for at, it in enumerate(self._snapshots[:most]):
            rows.append(TimeRow(it.time, it.links, len(it.down), len(it.up), **dict(zip(FIGURES, made[at]))))
        return Replay(rows)

    def _numbers(self, task: Task) -> List[int]:
        """The number that a task has for each link."""
        net = network_of(self.graph)
        place = {node: i for i, node in enumerate(net.nodes)}
        number = {frozenset((u, v)): i for i, (u, v, _) in enumerate(task.links)}
        return [number[frozenset((place[u], place[v]))] for u, v in self._links]

    @staticmethod
    def plot(rows: Union[Replay, Mapping[str, Replay]], ax: Any = None, what: str = "bits") -> Any:
        """Draws rows of `replay` over time onto axes of matplotlib, and answers the axes.

        Parameters
        ----------
        rows : those of a replay, or of several by label
        ax : the axes; those of `matplotlib.pyplot.gca()` by default
        what : the figure, as `"bits"`, `"sent"`, `"mean"` or `"links"`
        """
        from . import figures

        if what not in TimeRow._fields[1:]:
            raise SweepError(f"rows over time have no figure {what!r}: give one of {', '.join(TimeRow._fields[1:])}")
        return figures.plot_times(rows if isinstance(rows, Mapping) else {what: rows}, ax, what)


def _states(
    shell: Shell, inside: int, across: Sequence[Tuple[Satellite, Satellite]], step: float, orbits: float, latitude: float,
    most_range: Optional[float],
) -> Iterator[Tuple[float, List[bool]]]:
    """The times, and which links are up then."""
    for k in range(int(orbits * shell.period / step) + 1):
        at = k * step
        low = {node: abs(shell.latitude(node, at)) <= latitude for node in shell.nodes}
        near = [
            low[a] and low[b] and (most_range is None or math.dist(shell.place(a, at), shell.place(b, at)) <= most_range) for a, b in across
        ]
        yield at, [True] * inside + near


def replayed(task: Task, part: Sequence[Tuple[int, Optional[Tuple[int, ...]], Tuple[int, ...]]]) -> List[Tuple[Any, ...]]:
    """The figures of some snapshots, in the order of `FIGURES`; each is its number, the links that were down before, and those that
    are down."""
    found: List[Tuple[Any, ...]] = []
    last: Optional[Tuple[Tuple[int, ...], Optional[Planned]]] = None
    for _, before, down in part:
        row: Dict[str, Any] = dict.fromkeys(FIGURES)
        try:
            maker = measuring.kept(task)
            earlier = last[1] if last is not None and last[0] == before else planned(maker, before)
            began = time.perf_counter()
            now = planned(maker, down)
            last = down, now
            row.update(compared(maker, earlier, now, down) if now is not None else {"fault": apart(maker, down)})
            row["seconds"] = round(time.perf_counter() - began, 6)
        except Exception as error:  # any: the row has it
            row, last = {**dict.fromkeys(FIGURES), "fault": f"{type(error).__name__}: {error}"}, None
        found.append(tuple(row[name] for name in FIGURES))
    return found


def planned(maker: measuring.ByPlans, down: Optional[Tuple[int, ...]]) -> Optional[Planned]:
    """The plan over the links that are up, None where they leave several parts."""
    if down is None or len(parts(maker, down)) > 1:
        return None
    return maker.planned(set(down), (), maker.task.numbering)


def parts(maker: measuring.ByPlans, down: Sequence[int]) -> List[int]:
    missing = set(down)
    return parts_of(maker.task.n, [link for i, link in enumerate(maker.task.links) if i not in missing])


def apart(maker: measuring.ByPlans, down: Sequence[int]) -> str:
    sizes = parts(maker, down)
    return f"{len(sizes):,} unconnected parts, the largest of {max(sizes):,} nodes"


def compared(maker: measuring.ByPlans, earlier: Optional[Planned], now: Planned, down: Sequence[int]) -> Dict[str, Any]:
    """The figures of a plan, and of what changes from the one before, where there is one."""
    np = optional.numpy()
    n, wiring = maker.task.n, maker.wiring
    ends = [u for i in down for u in maker.task.links[i][:2]]
    degree = wiring.degree - np.bincount(np.array(ends, np.int64), minlength=n)
    walks = tree_weights(now.rows, to_root(now.rows, now.arcs), wiring) if maker.task.kind == "tree" else walk_weights(now.arcs, wiring)
    row: Dict[str, Any] = dict(intervals=len(now.rows.start), bits=bits_of(now.rows, degree), ring=now.ring)
    row.update(mean=float(walks.sum(dtype=np.int64) / max(1, n * (n - 1))), worst=int(walks.max(initial=0)))
    if earlier is not None:
        changed = change(earlier.rows, now.rows, n, degree)
        together = now.ring or earlier.ring or has_ring(now.flags | earlier.flags, wiring)
        row.update(sent=changed.bits, rows_changed=changed.rows, ring_with_last=together)
    return row
