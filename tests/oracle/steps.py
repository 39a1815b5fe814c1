"""What the steps of a run say of its packets, as a plain program reads them: the trace has to say the same."""
from __future__ import annotations

import random
import subprocess
from typing import Dict, List, Optional, Tuple

from oracle.beside import parted_row, small_net, steps_over
from support.route import brief, put, run

# What a packet did: its ends, its fate, and its segments, each an epoch and its hops.
Told = Tuple[str, str, Tuple[str, ...], List[Tuple[int, List[str]]]]


class Way:
    """The way of one packet, as the lines say it."""

    def __init__(self, source: str, dest: str, epoch: int) -> None:
        self.source, self.dest = source, dest
        self.fate: Tuple[str, ...] = ("left",)
        self.segments: List[Tuple[int, List[str]]] = [(epoch, [source])]

    def came_by(self, node: str, link: List[str]) -> bool:
        """Whether the packet came to a node by a link."""
        return self.segments[-1][1][-1] != node and {self.segments[-1][1][-1], node} == set(link)

    def act(self, node: str, epoch: int, words: List[str]) -> None:
        """What an Act of a node on it came to."""
        is_new = epoch != self.segments[-1][0]
        lost = words[0] == "retired" or (words[0] == "down" and self.came_by(node, words[1:]))
        if self.segments[-1][1][-1] != node and not lost:
            self.segments[-1][1].append(node)
        if is_new:
            self.segments.append((epoch, [node]))
        if words[0] != "sent":
            self.fate = tuple(words)


def ways_of(text: str) -> List[Told]:
    """What each packet did by the text of the steps, in the order of their numbers."""
    ways: Dict[int, Way] = {}
    for line in text.splitlines()[1:]:
        words = line.split(" ")[1:]
        if words[0] == "inject":
            ways[int(words[3])] = Way(words[1], words[2], int(words[4]))
        elif words[0] == "act":
            ways[int(words[2])].act(words[1], int(words[3]), words[4:])
    return [(way.source, way.dest, way.fate, way.segments) for _, way in sorted(ways.items())]


def in_any_order(words: List[str]) -> List[str]:
    """The words of an event, where a link may be named by its ends in either order."""
    return [words[0], *sorted(words[1:])] if words[0] in ("down", "up", "avoid", "heed") else words


def steps_fault(seed: int) -> Optional[str]:
    """What differs between the steps of a run by chance and its trace, its refused lines, and its script."""
    luck = random.Random(seed)
    topology, nodes, links = small_net(luck)
    lines = steps_over(luck, nodes, links, False)
    restamps = luck.choice([0, 1, 3])
    words = ["--kind", luck.choice(["tree", "shortest", "compact"]), "--capacity", str(luck.choice([1, 2, 16])), "--restamps", str(restamps)]
    files = [put(f"steps/{seed}.topology", topology), put(f"steps/{seed}.script", "".join(f"{line}\n" for line in lines))]
    trace, refused, status = run(["sim", *words, *files], stdin=subprocess.DEVNULL)
    steps, others, status_too = run(["sim", "--steps", *words, *files], stdin=subprocess.DEVNULL)
    if (status, status_too) != (0, 0) or refused != others:
        return f"{seed}: status {status} and {status_too}, refused {brief(refused)} and {brief(others)}"
    rows = [parted_row(row, restamps > 0) for row in trace.decode().splitlines()[1:]]
    if ways_of(steps.decode()) != [row[1:] for row in rows]:
        return f"{seed}: {brief(steps)} beside {brief(trace)}"
    told = [line.split(" ") for line in steps.decode().splitlines()[1:]]
    no = "".join(f"refused {line[0]} {line[2]}\n" for line in told if line[1] == "refused")
    if no.encode() != refused:
        return f"{seed}: {brief(no.encode())} in place of {brief(refused)}"
    for number, line in enumerate(lines, 1):
        own = [words[1:] for words in told if int(words[0]) == number]
        said = [in_any_order(words[2:] if words[0] == "refused" else words[: len(line.split())]) for words in own]
        if line != "drain" and said != [in_any_order(line.split())]:
            return f"{seed}: {own} of {line}"
    return None
