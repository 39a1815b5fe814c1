"""When to number a network anew.

    keeper = bentzolu.Relabeller("compact", price=1.0)
    for graph in graphs:
        step = keeper.update(graph)        # step.plan, step.diff, step.renumbered

Labels that are kept send a tenth of the bits when a link fails, and their rows grow a little each time. The rule makes a fresh plan
beside the kept one. It adds up what the kept rows had more, and takes the fresh plan once that has cost as much as the change to it
costs.
"""
from __future__ import annotations

import pathlib
import tempfile
from typing import Any, Dict, Hashable, List, NamedTuple, Optional

from .arrays import bits_for
from .calls import names_of, plan as plan_of
from .diffs import PlanDiff, diff
from .errors import SweepError
from .network import network_of
from .texts import Plan


class Step(NamedTuple):
    """A plan, what changes from the one before (None for the first, and where the nodes are others), and whether it has new labels."""

    plan: Plan
    diff: Optional[PlanDiff]
    renumbered: bool


def ports_of(graph: Any, weight: Optional[str]) -> Dict[Hashable, int]:
    """The number of ports of each node."""
    net = network_of(graph, weight)
    found = dict.fromkeys(net.nodes, 0)
    for u, v, _ in net.links:
        found[net.nodes[u]] += 1
        found[net.nodes[v]] += 1
    return found


def bits_of(plan: Plan, ports: Dict[Hashable, int]) -> int:
    """The bits of all rows, as `stats` counts them."""
    label = bits_for(len(plan.nodes))
    return sum(len(it) * (label + bits_for(ports[node])) for node, it in plan.nodes.items())


class Relabeller:
    """Keeps the labels from plan to plan, and numbers anew by a tour where keeping has cost as much as that costs.

    Parameters
    ----------
    kind : `"shortest"` or `"compact"`
    price : what a bit of the rows costs from one change to the next, in bits that are sent
    directory : whether each node has to know each label, so that a new label is sent to all
    every : at which changes a fresh plan is made beside the kept one: at each k-th
    root, weight, program, timeout : as for `plan`

    Attributes
    ----------
    plan : the last plan, None before the first
    regret : what the kept rows had more than fresh ones since the last numbering, in bits, added up over the changes
    """

    def __init__(
        self, kind: str = "compact", price: float = 1.0, directory: bool = False, every: int = 1, *, root: Optional[Hashable] = None,
        weight: Optional[str] = "weight", program: Any = None, timeout: Optional[float] = None,
    ) -> None:
        if kind == "tree":
            raise SweepError("a plan of kind tree is always numbered depth-first, so its labels can't be kept: give shortest or compact")
        if kind == "landmark":
            raise SweepError("a plan of kind landmark is always numbered by its landmarks, so its labels can't be kept: give shortest or compact")
        if not price >= 0 or every < 1:
            raise SweepError(f"a price of {price} with a fresh plan each {every} changes is not possible: give a price of at least 0, and a number of at least 1")
        self.kind, self.price, self.directory, self.every = kind, price, directory, every
        self.options: Dict[str, Any] = {"root": root, "weight": weight, "program": program, "timeout": timeout}
        self.plan: Optional[Plan] = None
        self.regret, self.changes = 0.0, 0

    def made(self, graph: Any, order: Optional[List[Hashable]]) -> Plan:
        """The plan of a graph over an order of its nodes, or over a tour where that is None."""
        options = dict(self.options)
        root = options.pop("root")
        if order is None:
            tour: Plan = plan_of(graph, self.kind, root, words=("--numbering", "tour"), **options)
            return tour
        names = names_of(graph)
        with tempfile.TemporaryDirectory(prefix="bentzolu-") as folder:
            file = pathlib.Path(folder, "order")
            file.write_text("".join(f"{names.name(node)}\n" for node in order), encoding="ascii")
            kept: Plan = plan_of(graph, self.kind, words=("--numbering", str(file)), **options)
            return kept

    def update(self, graph: Any) -> Step:
        """The plan of the network as it is now.

        Parameters
        ----------
        graph : what all calls take for a graph, with the nodes of the one before; one with other nodes is numbered anew

        Raises
        ------
        RouteError
            where the network has several parts; then the plan before stays the last one
        """
        ports = ports_of(graph, self.options["weight"])
        old = self.plan
        if old is None or set(old.nodes) != set(ports):
            self.plan, self.regret = self.made(graph, None), 0.0
            return Step(self.plan, None, True)
        new, regret, renumbered = self.made(graph, sorted(old.nodes, key=old.labels.__getitem__)), self.regret, False
        found = diff(old, new)
        if (self.changes + 1) % self.every == 0:
            fresh = self.made(graph, None)
            gain = bits_of(new, ports) - bits_of(fresh, ports)
            regret = max(0.0, regret + self.every * gain)
            other = diff(old, fresh)
            told = other.relabelled * len(ports) * bits_for(len(ports)) if self.directory else 0
            if gain > 0 and self.price * regret >= other.bits(ports) - found.bits(ports) + told:
                new, found, renumbered, regret = fresh, other, True, 0.0
        self.plan, self.regret, self.changes = new, regret, self.changes + 1
        return Step(new, found, renumbered)
