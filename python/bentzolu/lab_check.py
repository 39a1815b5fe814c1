"""The program's judgement of the ways that packets took in a lab: `check --whole` of a trace and a script, piece by piece."""
from __future__ import annotations

import re
from typing import Callable, Dict, List, NamedTuple, Sequence, Tuple

from . import program as programs
from .errors import BentzoluError
from .traces import Packet, Segment, write_trace

PIECE, LEAST = 4096, 32  # packets that the program judges at once, at most, and where it finds something of many
FINDING = re.compile(r"finding (\d+) (\w+)")


class Way(NamedTuple):
    """A packet's way: its number, the epoch that it carried, the nodes in their order, its destination, and whether it
    arrived there, once."""

    number: int
    epoch: int
    nodes: Tuple[str, ...]
    goal: str
    is_there: bool


class Story(NamedTuple):
    """What a lab did, as the program reads it: the topology and its format, the options of the first plan, the script's lines
    of each change, and how many packets were sent before each of these."""

    text: str
    form: str
    options: Tuple[str, ...]
    changes: Tuple[Tuple[str, ...], ...]
    before: Tuple[int, ...]


def weights_of(text: str, form: str) -> Dict[Tuple[str, str], int]:
    """The weight of each link of a topology that is not 1, from both of its ends."""
    found: Dict[Tuple[str, str], int] = {}
    for line in text.splitlines() if form == "edgelist" else ():
        words = line.split("#", 1)[0].split()
        if len(words) > 2:
            found[words[0], words[1]] = found[words[1], words[0]] = int(words[2])
    return found


def texts_of(story: Story, ways: Sequence[Way], weights: Dict[Tuple[str, str], int]) -> Tuple[str, str]:
    """The script and the trace of packets, in which these are the only ones."""
    lines: List[str] = []
    packets = []
    ahead = list(zip(story.before, story.changes))
    for row, way in enumerate(ways):
        while ahead and way.number >= ahead[0][0]:
            lines += ahead.pop(0)[1]
        lines.append(f"inject {way.nodes[0]} {way.goal}")
        weight = sum(weights.get(it, 1) for it in zip(way.nodes, way.nodes[1:]))
        fate = "delivered" if way.is_there else "left"
        packets.append(Packet(row, way.nodes[0], way.goal, weight, fate, None, (Segment(way.epoch, way.nodes),)))
    for _, change in ahead:
        lines += change
    return "".join(f"{line}\n" for line in lines), write_trace(packets)


def first_finding(story: Story, ways: Sequence[Way], weights: Dict[Tuple[str, str], int]) -> Tuple[int, str]:
    """The place of the first packet of which the program finds something, with what; the place after the last one and no
    word where it finds nothing."""
    script, trace = texts_of(story, ways, weights)
    words = ["check", "--whole", "--no-explain", "--format", story.form, *story.options]
    said = programs.run(words, [("topology", story.text), ("script", script), ("trace", trace)], findings=True)
    if said.output.startswith("ok "):
        return len(ways), ""
    found = FINDING.fullmatch(said.output.strip())
    if not found or not 2 <= int(found[1]) < len(ways) + 2:
        raise BentzoluError(f"the program did not judge the packets: {said.output.strip()}")
    return int(found[1]) - 2, found[2]


def findings(story: Story, ways: Sequence[Way], tell: Callable[[int], None] = lambda _: None) -> Dict[int, str]:
    """What the program finds of ways, by the numbers of their packets.

    Parameters
    ----------
    story : Story
        What the lab did.
    ways : sequence of Way
        The ways, by their numbers.
    tell : function, optional
        Is called with the number of packets that were judged.

    Returns
    -------
    dict
        A word for each packet that it finds something of, as `NotAPrefix`.

    Raises
    ------
    BentzoluError
        Where the program can't judge them; the text says why.
    """
    found: Dict[int, str] = {}
    weights, start, size = weights_of(story.text, story.form), 0, PIECE
    while start < len(ways):
        tell(start)
        piece = ways[start:start + size]
        place, word = first_finding(story, piece, weights)
        if word:  # the program says the first one alone; the rest is asked about anew
            found[piece[place].number] = word
        start += place + bool(word)
        size = max(LEAST, 2 * place) if word else min(PIECE, 2 * size)
    return found
