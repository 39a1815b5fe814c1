"""Networks by their families, made by the standard library alone; the same words give the same bytes.

    bentzolu generate topology [--weights | --units] [--seed S] [-o OUT] FAMILY NUMBER..

Each is an adjacency list, or with --weights a weighted edge list whose weights are drawn from 1 to 65,535; with --units
one whose weights are 1. Families:

    ring NODES                        clos SPINES LEAVES        each spine is linked to each leaf
    grid ROWS COLUMNS                 fattree K                 pods of K switches, and K*K/4 cores
    torus ROWS COLUMNS                dragonfly A H             groups of A routers with H links each to other groups
    hypercube DIMENSIONS              constellation PLANES SATELLITES     a torus: the +grid of a shell
    complete NODES                    each node is linked to each other
    tree NODES                        each node but the first is linked to one drawn from those before it
    random NODES LINKS                such a tree, and links drawn until they are so many
    scalefree NODES LINKS             each node is linked to LINKS earlier ones, drawn by how many links these have
    path NODES                        star NODES

Two are hard for searches that take several nodes at a time, and have weights of their own:

    hubpath NODES                     each node is linked to a hub, and a path that is lighter by far goes through all but
                                      the hub in a drawn order: each first distance is mended, one node after the other
    lure NODES                        a heavy path in the order of the names, which depth-first numbers follow, and a light
                                      path through all in a drawn order, which the distances follow
"""
from __future__ import annotations

import argparse
import difflib
import inspect
import random
import sys
from typing import Any, Callable, Dict, FrozenSet, List, Sequence, Tuple

Link = Tuple[Any, ...]  # two names, and a weight where the family has its own
Made = Tuple[str, Sequence[Link]]  # what it is, and its links
MOST_NODES, MOST_LINKS = 32_768, 131_072  # of a network that the program takes


def ring(nodes: int) -> Made:
    return "A ring", [(f"n{u}", f"n{(u + 1) % nodes}") for u in range(nodes)]


def grid(rows: int, columns: int) -> Made:
    links: List[Link] = []
    for row in range(rows):
        for column in range(columns):
            if column + 1 < columns:
                links.append((f"{row}_{column}", f"{row}_{column + 1}"))
            if row + 1 < rows:
                links.append((f"{row}_{column}", f"{row + 1}_{column}"))
    return "A grid", links


def torus(rows: int, columns: int) -> Made:
    links: List[Link] = []
    for row in range(rows):
        for column in range(columns):
            links.append((f"{row}_{column}", f"{row}_{(column + 1) % columns}"))
            links.append((f"{row}_{column}", f"{(row + 1) % rows}_{column}"))
    return "A torus", links


def constellation(planes: int, satellites: int) -> Made:
    return "The +grid of a shell of satellites, PLANE_PLACE", torus(planes, satellites)[1]


def hypercube(dimensions: int) -> Made:
    names = [format(u, f"0{dimensions}b") for u in range(1 << dimensions)]
    links: List[Link] = []
    for u in range(len(names)):
        links += [(names[u], names[u | 1 << bit]) for bit in range(dimensions) if not u >> bit & 1]
    return "A hypercube", links


def clos(spines: int, leaves: int) -> Made:
    return "A folded Clos network", [(f"s{s}", f"l{leaf}") for s in range(spines) for leaf in range(leaves)]


def fattree(k: int) -> Made:
    half = k // 2
    links: List[Link] = []
    for pod in range(k):
        for a in range(half):
            links += [(f"a{pod}_{a}", f"e{pod}_{e}") for e in range(half)]
            links += [(f"a{pod}_{a}", f"c{a}_{c}") for c in range(half)]
    return "A fat tree: cores c, aggregation switches a and edge switches e of pods, POD_PLACE", links


def dragonfly(routers: int, outward: int) -> Made:
    groups = routers * outward + 1
    links: List[Link] = []
    for group in range(groups):
        links += [(f"{group}_{a}", f"{group}_{b}") for a in range(routers) for b in range(a + 1, routers)]
        for far in range(group + 1, groups):
            links.append((f"{group}_{(far - 1) // outward}", f"{far}_{group // outward}"))
    return "A dragonfly, GROUP_ROUTER", links


def complete(nodes: int) -> Made:
    return "A complete network", [(f"n{u}", f"n{v}") for u in range(nodes) for v in range(u + 1, nodes)]


def tree(nodes: int) -> Made:
    return "A random tree", [(f"n{random.randrange(u)}", f"n{u}") for u in range(1, nodes)]


def random_network(nodes: int, wanted: int) -> Made:
    links = list(tree(nodes)[1])
    drawn = set(links)
    while len(links) < wanted:
        u, v = sorted(random.sample(range(nodes), 2))
        link = (f"n{u}", f"n{v}")
        if link not in drawn:
            drawn.add(link)
            links.append(link)
    return "A connected random network", links


def scalefree(nodes: int, each: int) -> Made:
    links: List[Link] = [(f"n{u}", f"n{each}") for u in range(each)]
    ends = [end for link in links for end in link]
    for u in range(each + 1, nodes):
        chosen: List[str] = []
        while len(chosen) < each:
            end = random.choice(ends)
            if end not in chosen:
                chosen.append(end)
        for end in chosen:
            links.append((end, f"n{u}"))
            ends += [end, f"n{u}"]
    return "A scale-free network", links


def path(nodes: int) -> Made:
    return "A path", [(f"n{u}", f"n{u + 1}") for u in range(nodes - 1)]


def star(nodes: int) -> Made:
    return "A star", [("n0", f"n{u}") for u in range(1, nodes)]


HEAVY, LIGHT = 65_000, 3  # so that any path of light links is lighter than one heavy link


def hubpath(nodes: int) -> Made:
    spokes = [("hub", f"n{u}", HEAVY + random.randrange(500)) for u in range(1, nodes)]
    return "A hub with heavy spokes, and a light path", spokes + light_path([f"n{u}" for u in range(1, nodes)])


def lure(nodes: int) -> Made:
    names = [f"n{u}" for u in range(nodes)]
    links: Dict[FrozenSet[str], Link] = {frozenset(link[:2]): link for link in zip(names, names[1:], [HEAVY] * nodes)}
    links.update((frozenset(link[:2]), link) for link in light_path(names))
    return "A heavy path, and a light one through the same nodes", list(links.values())


def light_path(names: Sequence[str]) -> List[Link]:
    """A path through these nodes in a drawn order."""
    drawn = random.sample(names, len(names))
    return [(u, v, random.randint(1, LIGHT)) for u, v in zip(drawn, drawn[1:])]


Family = Callable[..., Made]
FAMILIES: Dict[str, Family] = {
    "ring": ring, "grid": grid, "torus": torus, "constellation": constellation, "hypercube": hypercube, "clos": clos,
    "fattree": fattree, "dragonfly": dragonfly, "complete": complete, "tree": tree, "random": random_network, "scalefree": scalefree,
    "path": path, "star": star, "hubpath": hubpath, "lure": lure,
}
CALLED = {"nodes": "NODES", "rows": "ROWS", "columns": "COLUMNS", "dimensions": "DIMENSIONS", "spines": "SPINES", "leaves": "LEAVES",
          "k": "K", "routers": "A", "outward": "H", "planes": "PLANES", "satellites": "SATELLITES", "wanted": "LINKS", "each": "LINKS"}


def text(words: Sequence[str]) -> str:
    """The text of a network, of the words that name it."""
    words = list(words)
    weights, units = "--weights" in words, "--units" in words
    words = [word for word in words if word not in ("--weights", "--units")]
    seed = 1
    if "--seed" in words:
        place = words.index("--seed")
        seed = int(words[place + 1])
        del words[place:place + 2]
    random.seed(seed)
    about, links = FAMILIES[words[0]](*map(int, words[1:]))
    if units and not has_weights(links):
        links = [(u, v, 1) for u, v in links]
    return f"# {about}: {' '.join(words)}\n" + (edge_list(links) if weights or has_weights(links) else adjacency_list(links))


def has_weights(links: Sequence[Link]) -> bool:
    return any(len(link) == 3 for link in links)


def edge_list(links: Sequence[Link]) -> str:
    if has_weights(links):
        return "".join(f"{u} {v} {weight}\n" for u, v, weight in links)
    return "".join(f"{u} {v} {random.randint(1, 65535)}\n" for u, v in links)


def adjacency_list(links: Sequence[Link]) -> str:
    targets: Dict[str, List[str]] = {}
    for u, v in links:
        targets.setdefault(u, []).append(v)
    return "".join(" ".join([u, *far]) + "\n" for u, far in targets.items())


def numbers_of(family: str) -> List[str]:
    """What the numbers of a family are called."""
    return [CALLED[name] for name in inspect.signature(FAMILIES[family]).parameters]


def links_of(family: str, n: Sequence[int]) -> int:
    """About how many links a network has, before it is made."""
    one, both = n[0], n[0] * n[-1]
    groups = both + 1
    counts = {
        "grid": 2 * both, "torus": 2 * both, "constellation": 2 * both, "hypercube": min(one, 40) << max(0, min(one, 40) - 1), "clos": both,
        "fattree": one ** 3 // 2, "dragonfly": groups * one * (one - 1 + n[-1]) // 2, "complete": one * (one - 1) // 2,
        "random": n[-1], "scalefree": both, "hubpath": 2 * one, "lure": 2 * one,
    }
    return counts.get(family, one)


def why_not(words: Sequence[str]) -> str:
    """Why there is no network of these words, in a sentence; nothing where there is one."""
    family, numbers = words[0], words[1:]
    if family not in FAMILIES:
        near = difflib.get_close_matches(family, FAMILIES, 1)
        return f"no family {family!r}" + (f" (did you mean {near[0]!r}?)" if near else f"; the families are {', '.join(FAMILIES)}")
    wanted = numbers_of(family)
    if len(numbers) != len(wanted):
        return f"{family} takes {' and '.join(wanted)}; {len(numbers)} {'number was' if len(numbers) == 1 else 'numbers were'} given"
    for name, number in zip(wanted, numbers):
        if not (number.isascii() and number.isdigit() and 1 <= int(number) <= MOST_LINKS):
            return f"{name} is a whole number from 1 to {MOST_LINKS:,}, and {number!r} is none"
    n = [int(number) for number in numbers]
    if family == "random" and not n[0] - 1 <= n[1] <= n[0] * (n[0] - 1) // 2:
        return f"a connected network of {n[0]:,} nodes has {n[0] - 1:,} to {n[0] * (n[0] - 1) // 2:,} links, and {n[1]:,} are wanted"
    if family == "scalefree" and n[1] >= n[0]:
        return "scalefree takes fewer LINKS than NODES"
    if family == "fattree" and n[0] % 2:
        return f"the K of a fat tree is even, and {n[0]} is odd"
    least = {"ring": 3, "torus": 3, "constellation": 3, "fattree": 2, "dragonfly": 1}.get(family, 2 if len(n) == 1 and family != "hypercube" else 1)
    if min(n) < least:
        return f"each number of {family} is at least {least}"
    if links_of(family, n) > MOST_LINKS:
        return f"it would have about {links_of(family, n):,} links, and a network has at most {MOST_LINKS:,}"
    return ""


def add_words(parser: argparse.ArgumentParser) -> None:
    """The words of `generate`."""
    parser.formatter_class = argparse.RawDescriptionHelpFormatter
    parser.description = "Print a network of a family.\n\n" + (__doc__ or "").partition("Families:\n")[2].strip("\n")
    parser.usage = "bentzolu generate topology FAMILY NUMBER.. [--weights | --units] [--seed S] [-o OUT]"
    parser.add_argument("words", metavar="topology FAMILY NUMBER..", nargs="*", help="a family and its numbers, as above")
    parser.add_argument("--weights", action="store_true", help="a weighted edge list, with weights drawn from 1 to 65,535")
    parser.add_argument("--units", action="store_true", help="a weighted edge list, with weights of 1")
    parser.add_argument("--seed", type=int, default=1, metavar="S", help="what is drawn: equal seeds draw alike (default: 1)")
    parser.add_argument("-o", "--output", metavar="OUT", help="write to this file (default: standard output)")
    parser.set_defaults(act=generate)


def generate(found: argparse.Namespace) -> int:
    """`generate topology`: prints a network; the status is 2 where there is none of these words."""
    if found.words[:1] != ["topology"] or len(found.words) == 1:
        print(f"bentzolu generate: the words are topology FAMILY NUMBER..; the families are {', '.join(FAMILIES)}", file=sys.stderr)
        return 2
    words = found.words[1:]
    why = why_not(words)
    if why:
        print(f"bentzolu generate: {why}", file=sys.stderr)
        return 2
    made = text([*["--weights"] * found.weights, *["--units"] * found.units, "--seed", str(found.seed), *words])
    if found.output:
        with open(found.output, "w", encoding="ascii") as file:
            file.write(made)
    else:
        sys.stdout.write(made)
    return 0


def main(words: Sequence[str]) -> int:
    """`generate` alone, where the package is not installed too. Options may stand between the words, which no subcommand can."""
    parser = argparse.ArgumentParser(prog="bentzolu generate")
    add_words(parser)
    found = parser.parse_intermixed_args(words)
    try:
        return generate(found)
    except BrokenPipeError:
        sys.stdout = None  # type: ignore[assignment]
        return 1
    except OSError as error:
        print(f"bentzolu generate: {error.filename or 'standard output'}: {error.strerror}", file=sys.stderr)
        return 1


if __name__ == "__main__":
    sys.exit(main(sys.argv[1:]))
