"""What `check --whole` finds of rows beside their script, as a plain program finds it, over right traces and bent ones."""
from __future__ import annotations

import random
import subprocess
from typing import Callable, Dict, List, Optional, Tuple

from support.limits import PACKETS
from support.networks import Links, change
from support.route import brief, differs, put, run

# What a row says: its number, its ends, its fate, and its segments, each an epoch and its hops.
Row = Tuple[int, str, str, Tuple[str, ...], List[Tuple[int, List[str]]]]
Inject = Tuple[str, str, int]  # the ends of a packet, and the epochs that there can be when it is sent
Fits = Callable[[Inject], bool]


def small_net(luck: random.Random) -> Tuple[str, List[str], Links]:
    """A connected network of a few nodes: its topology, its nodes, and its links."""
    nodes = [f"n{i}" for i in range(luck.randrange(2, 8))]
    pairs = {(nodes[luck.randrange(i)], nodes[i]) for i in range(1, len(nodes))}
    for _ in range(luck.randrange(4)):
        one, other = sorted(luck.sample(nodes, 2))
        pairs.add((one, other))
    links = sorted(pairs)
    return "".join(f"{a} {b}\n" for a, b in links), nodes, links


def steps_over(luck: random.Random, nodes: List[str], links: Links, of_live: bool) -> List[str]:
    """A script over a small network: packets, changes, and for `sim` steps of single nodes."""
    lines: List[str] = []
    down: Links = []
    for _ in range(luck.randrange(2, 30)):
        what = luck.randrange(12 if of_live else 16)
        if what < 7:
            pair = luck.choice(nodes), luck.choice(nodes)
            lines += ["inject {} {}".format(*pair)] * luck.choice([1, 1, 1, 4])
        elif what < 9:
            lines.append("drain")
        elif what < 12:
            lines.append(change(luck, nodes, links, down) if luck.random() < 0.7 else f"retire {luck.randrange(1, 4)}")
        elif what < 14:
            lines.append(f"learn {luck.randrange(1, 4)}")
        else:
            node = luck.choice(nodes)
            lines += [f"take {node} inbox", f"act {node}"]
    return lines


def parted_row(row: str, versioned: bool) -> Row:
    """What a row of a trace says: its id, its ends, its fate, and its segments."""
    words_ = row.split(" ")
    head, rest = (words_[:4], words_[4:]) if versioned else (words_[:1] + words_[2:5], words_[5:])
    fate = tuple(rest[:3]) if rest[0] in ("down", "full") else tuple(rest[:1])
    rest = rest[len(fate) :]
    if not versioned:
        return int(head[0]), head[1], head[2], fate, [(int(words_[1]), rest)]
    segments: List[Tuple[int, List[str]]] = []
    for word in rest:
        if word.startswith("#"):
            segments.append((int(word[1:]), []))
        else:
            segments[-1][1].append(word)
    return int(head[0]), head[1], head[2], fate, segments


def can_be_numbered(wanted: Dict[int, Fits], injects: List[Inject]) -> bool:
    """Whether injects in their order can be chosen, one for each number up to the greatest that is wanted."""
    numbers = range(max(wanted, default=-1) + 1)
    ways = [True] + [False] * len(numbers)  # whether the first so many numbers have injects among those seen
    for inject in injects:
        for number in reversed(numbers):
            if ways[number] and (number not in wanted or wanted[number](inject)):
                ways[number + 1] = True
    return ways[-1]


def went_over(row: Row, x: str, y: str) -> bool:
    """Whether a row's packet can have been in the channel from x to y."""
    _, _, _, fate, segments = row
    if any((x, y) in zip(hops, hops[1:]) for _, hops in segments):
        return True
    ended = fate[0] in ("retired", "left") or (fate[0] == "down" and {x, y} == set(fate[1:]))
    return ended and segments[-1][1][-1] == x


def found_beside(lines: List[str], rows: List[Row], capacity: int, packets: int) -> Optional[str]:
    """The first finding of rows beside a script, as a plain program finds it; nothing where there is none."""
    epochs = 1
    injects: List[Inject] = []
    for words_ in map(str.split, lines):
        if words_[0] == "inject":
            injects.append((words_[1], words_[2], epochs))
        epochs += words_[0] in ("install", "renumber")
    downs = {frozenset(words_[1:]) for words_ in map(str.split, lines) if words_[0] == "down"}
    floors = [int(words_[1]) for words_ in map(str.split, lines) if words_[0] == "retire"]
    ends: Dict[int, Fits] = {}
    stamps: Dict[int, Fits] = {}
    for place, (number, source, dest, fate, segments) in enumerate(rows):
        line, first, last = place + 2, segments[0][0], segments[-1][0]
        ends[number] = lambda inject, a=source, b=dest: inject[:2] == (a, b)  # type: ignore[misc]
        stamps[number] = lambda inject, a=source, b=dest, e=first: inject[:2] == (a, b) and e <= inject[2]  # type: ignore[misc]
        if number >= packets or number >= len(injects) or not can_be_numbered(ends, injects):
            return f"finding {line} NeverInjected\n"
        if not can_be_numbered(stamps, injects):
            return f"finding {line} NotYetInstalled\n"
        if fate[0] == "down" and frozenset(fate[1:]) not in downs:
            return f"finding {line} NeverDown\n"
        if fate[0] == "retired" and not any(last < floor for floor in floors):
            return f"finding {line} NeverRetired\n"
        if fate[0] == "full" and sum(went_over(row, *fate[1:]) for row in rows) < capacity:
            return f"finding {line} NeverFull\n"
    return None


def bent(luck: random.Random, rows: List[str], nodes: List[str], versioned: bool) -> List[str]:
    """Rows with one of them another: a number, an epoch, a fate, ends, a row more or less, or two in the other order."""
    rows, what = list(rows), luck.randrange(8)
    if what == 0 or not rows:
        source, dest = luck.choice(nodes), luck.choice(nodes)
        number, epoch = luck.randrange(len(rows) + 3), luck.randrange(1, 3)
        fate = luck.choice(["left", "left", "retired"])
        row = f"{number} {source} {dest} 0 {fate} #{epoch} {source}" if versioned else f"{number} {epoch} {source} {dest} 0 {fate} {source}"
        return rows[: (at := luck.randrange(len(rows) + 1))] + [row] + rows[at:]
    at = luck.randrange(len(rows))
    words_ = rows[at].split(" ")
    _, source, dest, fate, segments = parted_row(rows[at], versioned)  # type: ignore[assignment]
    if what == 1:
        rows[at] = " ".join([str(luck.randrange(len(rows) + 3)), *words_[1:]])
    elif what == 2 and len(rows) > 1:
        other = luck.randrange(len(rows))
        mine, theirs = words_[0], rows[other].split(" ")
        rows[at], rows[other] = " ".join([theirs[0], *words_[1:]]), " ".join([mine, *theirs[1:]])
    elif what == 3:
        del rows[at]
    elif what == 4:
        epoch = segments[0][0] + luck.choice([1, 1, 2, -1])
        rows[at] = (f"{words_[0]} {source} {dest} 0 left #{epoch} {source}" if versioned
                    else f"{words_[0]} {epoch} {source} {dest} 0 left {source}")
    elif len(segments) == 1:
        hops, epoch = segments[0][1], segments[0][0]
        cut = luck.randrange(1, len(hops) + 1)
        if cut == len(hops) or what == 7:
            fate_words = luck.choice(["retired", "left"])
        else:
            pair = hops[cut - 1 : cut + 1]
            fate_words = "full {} {}".format(*pair) if what == 5 else "down {} {}".format(*sorted(pair, key=nodes.index))
        rest = " ".join(hops[:cut])
        rows[at] = (f"{words_[0]} {source} {dest} {cut - 1} {fate_words} #{epoch} {rest}" if versioned
                    else f"{words_[0]} {epoch} {source} {dest} {cut - 1} {fate_words} {rest}")
    return rows


def whole_fault(seed: int, bends: int, sub: str = "sim") -> Tuple[Optional[str], List[str]]:
    """What is wrong with `check --whole` of one run's trace, and of the traces that it is bent to; and what was found."""
    luck = random.Random(seed)
    topology, nodes, links = small_net(luck)
    order = list(dict.fromkeys(topology.split()))
    lines = steps_over(luck, nodes, links, sub == "live")
    kind = luck.choice(["tree", "shortest", "compact", "landmark"])
    capacity, packets, restamps = luck.choice([1, 1, 2, 3, 16]), luck.choice([PACKETS, PACKETS, 5]), luck.choice([0, 0, 2])
    words_ = ["--kind", kind, "--capacity", str(capacity), "--packets", str(packets)]
    more = ["--restamps", str(restamps)] if restamps else []
    files = [put(f"whole/{sub}{seed}.topology", topology), put(f"whole/{sub}{seed}.script", "\n".join(lines) + "\n")]
    trace, _, status = run([sub, *words_, *more, *files], stdin=subprocess.DEVNULL)
    if status != 0:
        return f"{sub} {seed}: status {status}", []
    rows = trace.decode().splitlines()
    first, rows = rows[0], rows[1:]
    found: List[str] = []
    for bend in range(bends + 1):
        text = rows if bend == 0 else bent(luck, rows, order, restamps > 0)
        name = put(f"whole/{sub}{seed}.trace", "".join(f"{row}\n" for row in [first, *text]))
        plain = run(["check", *words_, *files, name], stdin=subprocess.DEVNULL)
        told = None
        if plain[2] == 0:
            told = found_beside(lines, [parted_row(row, restamps > 0) for row in text], capacity, packets)
        want = plain if told is None else (told.encode(), b"", 1)
        fault = differs(run(["check", "--whole", *words_, *files, name], stdin=subprocess.DEVNULL), want)
        if bend == 0 and not fault and want[0] != f"ok {len(rows)}\n".encode():
            fault = f"a right trace has {brief(want[0])}"
        if fault:
            return f"{sub} {seed}, bend {bend}: {fault}", found
        found.append("of its own" if plain[2] else told.split()[2] if told else "none")
    return None, found[1:]


def fault_of(luck: random.Random, folder: str) -> Optional[str]:
    """What is wrong with the check of a trace by chance, and of ten traces that it is bent to."""
    return whole_fault(luck.randrange(1_000_000_000), 10)[0]
