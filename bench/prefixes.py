#!/usr/bin/env python3
"""Holds `route prefixes` to its definition on random plans: bench/prefixes.py [PLANS [PROGRAM]], 500 plans if left out.

For each of so many random networks of up to 40 nodes, with a kind and a root by chance, the rows of `route plan` say
which neighbour each label is to have. The lines of `route prefixes`, and those of `--disjoint`, must give each label
that neighbour and the numbers beyond the labels what the definition says, are in their order, keep their matches
while only the first are there, and be as few as a plain dynamic program over all blocks and all inherited neighbours
finds; in networks of up to eight nodes also as few as a search over all sets of prefixes finds. Outside the gate: it
wants python3 and the built program."""
from __future__ import annotations

import functools
import itertools
import pathlib
import random
import subprocess
import sys
from typing import Any

DEFAULT = pathlib.Path(__file__).parent / "../crates/route/out/route"
UNREACHABLE = "#"
SEARCHED_BITS = 3


def network(draw: Any) -> tuple[str, list[Any], Any]:
    """A connected network as text, with the words that name its format, and the neighbours of each node."""
    count = draw.choice((draw.randint(1, 8), draw.randint(1, 40)))
    links = [(draw.randrange(i), i) for i in range(1, count)]
    links += [(draw.randrange(count), draw.randrange(count)) for _ in range(draw.randint(0, 2 * count))]
    links = list({frozenset(link): link for link in links if link[0] != link[1]}.values())
    draw.shuffle(links)
    near: Any = {f"n{i}": set() for i in range(count)}
    for a, b in links:
        near[f"n{a}"].add(f"n{b}")
        near[f"n{b}"].add(f"n{a}")
    if count == 1:
        return "n0\n", ["--format", "adjlist"], near
    greatest = draw.choice((1, 3, 1000))
    return "".join(f"n{a} n{b} {draw.randint(1, greatest)}\n" for a, b in links), ["--format", "edgelist"], near


def rows_of(text: Any) -> tuple[Any, Any, Any]:
    """The kind, the labels, and each node's neighbour to each label, None to its own; from the text of `route plan`."""
    head, *lines = text.splitlines()
    count, labels, wanted = int(head.split(" ")[2]), {}, {}
    for line in lines:
        name, label, *words = line.split(" ")
        row = list(zip(map(int, words[::2]), words[1::2]))
        to = lambda x: ([port for start, port in row if start <= x] or [row[-1][1]])[-1]
        labels[name] = int(label)
        wanted[name] = [None if x == int(label) else to(x) for x in range(count)]  # type: ignore[no-untyped-call]
    return head.split(" ")[1], labels, wanted


def tables_of(text: Any) -> tuple[Any, Any]:
    """The words of the first line, and the lines (value, length, neighbour) of each node, with its label."""
    head, *lines = text.splitlines()
    tables = {}
    for line in lines:
        name, label, *words = line.split(" ")
        prefixes = [tuple(map(int, word.split("/"))) for word in words[::2]]
        tables[name] = int(label), [(*prefix, to) for prefix, to in zip(prefixes, words[1::2], strict=True)]
    return head.split(" "), tables


def matches(lines: Any, bits: Any) -> Any:
    """For each number the lines that hold it, the longest first."""
    held: Any = [[] for _ in range(2**bits)]
    for line in sorted(lines, key=lambda line: -line[1]):  # type: ignore[no-any-return]
        for x in range(line[0], line[0] + 2 ** (bits - line[1])):
            held[x].append(line)
    return held


def is_well(lines: Any, bits: Any, near: Any) -> Any:
    """Each line is a prefix of so many bits and goes to a neighbour, none twice, the longest first, then by value."""
    fits = lambda value, length: length <= bits and 0 <= value < 2**bits and value % 2 ** (bits - length) == 0
    shapes = [fits(value, length) for value, length, _ in lines]  # type: ignore[no-untyped-call]
    order = [(-length, value) for value, length, _ in lines]
    rises = all(a < b for a, b in zip(order, order[1:]))
    return all(shapes) and rises and {to for _, _, to in lines} <= near | {UNREACHABLE}


def means(lines: Any, wanted: Any, bits: Any) -> bool:
    """What `route prefixes` promises of a node's lines; wanted goes on to the numbers beyond the labels."""
    whole = matches(lines, bits)
    for x, to in enumerate(wanted):
        if to is not None and (not whole[x] or whole[x][0][2] != to):
            return False
    for count in range(len(lines)):
        for some, all_of in zip(matches(lines[:count], bits), whole):
            if some and some[0] != all_of[0]:
                return False
    return True


def means_disjoint(lines: Any, wanted: Any, bits: Any, count: Any) -> bool:
    """The same for `--disjoint`: wanted is None beyond the labels."""
    for x, held in enumerate(matches(lines, bits)):
        if len(held) > 1 or (x >= count and held):
            return False
        if x < count and wanted[x] is not None and [line[2] for line in held] != [wanted[x]]:
            return False
    return True


def fewest(wanted: Any, bits: Any) -> Any:
    """How few lines do; None is wanted where any line does, and none."""
    names = set(wanted) - {None}

    @functools.lru_cache(None)
    def cost(low: Any, size: Any, above: Any) -> Any:
        if size == 1:
            return int(wanted[low] not in (None, above))
        halves = lambda port: cost(low, size // 2, port) + cost(low + size // 2, size // 2, port)
        return min([halves(above)] + [1 + halves(port) for port in names])  # type: ignore[no-untyped-call]

    return cost(0, 2**bits, None)


def fewest_disjoint(wanted: Any, bits: Any, count: Any) -> Any:
    def cost(low: Any, size: Any) -> Any:
        names = set(wanted[low : low + size]) - {None}
        if not names:
            return 0
        if len(names) == 1 and low + size <= count:
            return 1
        return cost(low, size // 2) + cost(low + size // 2, size // 2)

    return cost(0, 2**bits)


@functools.lru_cache(None)
def sets(bits: Any) -> Any:
    """All sets of prefixes, the small ones first: for each its size, the longest match of each number (or None), and
    whether no number is held twice."""
    prefixes = [(value << (bits - length), length, None) for length in range(bits + 1) for value in range(2**length)]
    found = []
    for size in range(len(prefixes) + 1):
        for chosen in itertools.combinations(prefixes, size):
            held = matches(chosen, bits)
            longest = [lines[0] if lines else None for lines in held]
            found.append((size, longest, all(len(lines) < 2 for lines in held)))
    return found


def searched(wanted: Any, bits: Any, count: Any, is_disjoint: Any) -> Any:
    """The size of the smallest of all sets of prefixes that does; with is_disjoint of those with no number twice."""
    for size, longest, is_apart in sets(bits):
        names: dict[Any, Any] = {}
        for x, line in enumerate(longest):
            names.setdefault(line, set()).add(wanted[x])
        without = names.pop(None, set()) - {None}
        if without or any(len(ports - {None}) > 1 for ports in names.values()):
            continue
        if not is_disjoint or (is_apart and not any(longest[count:])):
            return size


def demand(holds: Any, what: Any) -> None:
    if not holds:
        raise AssertionError(what)


def compare(program: Any, seed: Any) -> tuple[Any, Any]:
    """One random plan; how many lines it has, and how many disjoint ones."""
    draw = random.Random(seed)
    text, words, near = network(draw)
    words += ["--kind", draw.choice(("tree", "shortest", "compact")), "--root", draw.choice(sorted(near))]

    def ask(*front: Any) -> Any:
        command = [program, *front, *words, "-"]
        return subprocess.run(command, input=text, stdout=subprocess.PIPE, text=True, check=True).stdout

    kind, labels, wanted = rows_of(ask("plan"))
    count = len(labels)
    bits = (count - 1).bit_length()
    totals = []
    for is_disjoint in False, True:
        head, tables = tables_of(ask("prefixes", *["--disjoint"][: int(is_disjoint)]))
        totals.append(sum(len(lines) for _, lines in tables.values()))
        demand(head == ["prefixes", kind, str(count), str(bits), str(totals[-1])], f"the first line is {head}")
        demand(list(tables) == list(labels), "the nodes are not those of the plan")
        for name, (label, lines) in tables.items():
            of = f"{'disjoint ' if is_disjoint else ''}lines of {name}, {lines}, "
            demand(label == labels[name], f"{name} has the label {label}")
            demand(is_well(lines, bits, near[name]), of + "are not well formed or not in order")
            row = wanted[name] + [None] * (2**bits - count)
            if not is_disjoint:
                row[count:] = [UNREACHABLE if label == count - 1 else row[count - 1]] * (2**bits - count)
            says = means_disjoint(lines, row, bits, count) if is_disjoint else means(lines, row, bits)
            demand(says, of + "do not say what the row says")
            few = fewest_disjoint(row, bits, count) if is_disjoint else fewest(tuple(row), bits)
            demand(len(lines) == few, of + f"and {few} do")
            if bits <= SEARCHED_BITS:
                demand(len(lines) == searched(row, bits, count, is_disjoint), of + "are not as few as of all sets")
    return count, totals


def main() -> None:
    plans = int(sys.argv[1]) if len(sys.argv) > 1 else 500
    program = sys.argv[2] if len(sys.argv) > 2 else str(DEFAULT)
    rows = small = lines = disjoint = 0
    for seed in range(plans):
        try:
            count, totals = compare(program, seed)
        except (AssertionError, ValueError, subprocess.CalledProcessError) as fault:
            sys.exit(f"plan {seed}: {fault}")
        rows += count
        small += count if count <= 2**SEARCHED_BITS else 0
        lines += totals[0]
        disjoint += totals[1]
    print(f"{plans} plans, {rows} rows: {lines} lines and {disjoint} disjoint ones say what the rows say; no fewer do")
    print(f"{small} rows of networks of up to {2**SEARCHED_BITS} nodes: as few as the best of all sets of prefixes")


if __name__ == "__main__":
    main()
