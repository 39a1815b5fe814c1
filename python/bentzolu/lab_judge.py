"""What became of each packet of a lab. The program judges their ways; where no script of it has the plans of a lab, their
rows do."""
from collections import defaultdict
from dataclasses import dataclass, field
from typing import Any, Callable, Dict, List, Optional, Sequence, Set, Tuple

from .lab_check import Story, Way, findings

Pair = Tuple[int, int]  # the places of two nodes
Hop = Tuple[int, int, int, int]  # hop limit with its sign turned, node, next node, epoch


@dataclass
class Verdict:
    """`packets` and `hops` count, for each epoch, the packets whose way is a prefix of its walk, and their hops; `pairs` has
    the pairs between which one was delivered. `over` is how many were lost at the link that is down, `lost` how many of
    the others were not delivered just once at their destination, `mixed` how many took a way that is no prefix of the
    walk of one epoch."""

    packets: Dict[int, int]
    hops: Dict[int, int]
    pairs: Dict[int, Set[Tuple[int, int]]]
    over: int = 0
    lost: int = 0
    mixed: int = 0


@dataclass
class Judge:
    """Walks of one or two plans, by epoch, between nodes that are given by their places in `nodes`; and the story that the
    program judges by, or None."""

    nodes: List[str]
    plans: Dict[int, Any]
    in_place: bool = False
    down: Tuple[str, ...] = ()
    story: Optional[Story] = None
    tell: Callable[[int], None] = lambda _: None
    known: Dict[Tuple[int, Pair], List[int]] = field(default_factory=dict)

    def walk(self, epoch: int, pair: Pair) -> List[int]:
        """The places of the nodes of a walk."""
        if (epoch, pair) not in self.known:
            path = self.plans[epoch].path(*(self.nodes[i] for i in pair))
            self.known[epoch, pair] = [self.nodes.index(node) for node in path]
        return self.known[epoch, pair]

    def way_of(self, number: int, pair: Pair, frames: Sequence[Hop], delivered: bool) -> Optional[Way]:
        """A packet's way by the nodes and the one epoch that its hops say, as (hop limit, node, next node, epoch) of each;
        None where they are no way of one epoch. In place all hops have epoch 1, and a packet that made the whole walk of
        the other plan counts as its."""
        way = [pair[0]] + [there for _, _, there, _ in frames]
        epochs = {epoch for _, _, _, epoch in frames}
        if len(epochs) != 1 or any(frame[1] != here for frame, here in zip(frames, way)):
            return None
        epoch = epochs.pop()
        if self.in_place and epoch == 1 and delivered and way != self.walk(1, pair) and way == self.walk(2, pair):
            epoch = 2
        return Way(number, epoch, tuple(self.nodes[i] for i in way), self.nodes[pair[1]], delivered)

    def by_rows(self, pair: Pair, way: Way) -> bool:
        """Whether a way is a front of the walk of its epoch, and the whole of it where the packet arrived."""
        if way.epoch not in self.plans:
            return False
        walk = tuple(self.nodes[i] for i in self.walk(way.epoch, pair))
        return way.nodes == walk[: len(way.nodes)] and (not way.is_there or way.nodes == walk)

    def at_down(self, pair: Pair, epoch: int, frames: Sequence[Hop]) -> bool:
        """Whether a packet of an epoch came to its end at the link that is down, as its walk goes over it."""
        walk, made = self.walk(epoch, pair), len(frames)
        steps = [walk[i : i + 2] for i in (made - 1, made) if i >= 0]
        return any({self.nodes[i] for i in step} == set(self.down) for step in steps)

    def judge(self, sent: int, pairs: Sequence[Pair], frames: Sequence[Tuple[int, int, int, int, int]],
              arrivals: Sequence[Tuple[int, int]]) -> Verdict:
        """The verdict on packets of these numbers, packet N between pair N, going round."""
        ways: Dict[int, List[Hop]] = defaultdict(list)
        arrived: Dict[int, List[int]] = defaultdict(list)
        for number, limit, here, there, epoch in frames:
            ways[number].append((-limit, here, there, epoch))
        for number, node in arrivals:
            arrived[number].append(node)
        epochs = list(self.plans)
        found = Verdict({e: 0 for e in epochs}, {e: 0 for e in epochs}, {e: set() for e in epochs})
        ends = [pairs[number % len(pairs)] for number in range(sent)]
        is_there = [arrived[number] == [pair[1]] for number, pair in enumerate(ends)]
        hops = [sorted(ways[number]) for number in range(sent)]
        made = [self.way_of(number, ends[number], hops[number], is_there[number]) if hops[number] else None for number in range(sent)]
        told = [way for way in made if way is not None]
        if self.story is not None:
            wrong = set(findings(self.story, told, self.tell))
        else:
            wrong = {way.number for way in told if not self.by_rows(ends[way.number], way)}
        for number, way in enumerate(made):
            fine = way is not None and number not in wrong
            self.count(found, ends[number], hops[number], way.epoch if way is not None and fine else None, is_there[number])
        return found

    def count(self, found: Verdict, pair: Pair, frames: Sequence[Hop], epoch: Optional[int], delivered: bool) -> None:
        """Adds one packet, with its hops in their order and its epoch, or None for a way of none, to what was found. One that
        made no hop took no way at all."""
        if not frames:
            at_down = self.down and self.at_down(pair, 1, frames)
            found.over += bool(at_down)
            found.lost += not at_down
            return
        if epoch is None:
            found.mixed += 1
            found.lost += not delivered
            return
        found.packets[epoch] += 1
        found.hops[epoch] += len(frames)
        if delivered:
            found.pairs[epoch].add(pair)
        elif self.down and epoch == 1 and self.at_down(pair, epoch, frames):
            found.over += 1
        else:
            found.lost += 1
