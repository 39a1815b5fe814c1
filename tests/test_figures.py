"""Figures: of two plans together, of all kinds and numberings, and texts as JSON."""
from __future__ import annotations

import json
import os
import pathlib
import random
from typing import Dict, List, Optional, Set, Tuple

from oracle.as_json import json_of
from support.checks import count
from support.marks import built
from support.networks import circle
from support.places import TOP, work
from support.route import NAMES, SOME, TEXTS, alike, brief, call, expect, good_files, put, refused, run

pytestmark = [built]


Waits = Set[Tuple[Tuple[str, str], Tuple[str, str]]]  # pairs of links, of which the one waits for the other


def waits_of(plan: str) -> Waits:
    """Which links wait for which, a link as the nodes that it leaves and leads to, by the text of `plan`: the walk to some label takes the
    one, and then the other."""
    _, *rows = (line.split() for line in plan.splitlines())
    near: Dict[str, List[str]] = {}
    for node, _, *starts in rows:
        pairs = [(int(start), to) for start, to in zip(starts[::2], starts[1::2])]
        near[node] = [next((to for start, to in reversed(pairs) if start <= label), pairs[-1][1]) for label in range(len(rows)) if pairs]
    found: Waits = set()
    for goal, own, *_ in rows:
        for node in near:
            if node != goal and near[node][int(own)] != goal:
                next_ = near[node][int(own)]
                found.add(((node, next_), (next_, near[next_][int(own)])))
    return found


def has_ring(waits: Waits) -> bool:
    """Whether links wait for each other in a ring: a pair whose second link waits for none is in no ring, and is left out, until all are or
    none can be."""
    while waits:
        waiting = {one for one, _ in waits}
        fewer = {(one, other) for one, other in waits if other in waiting}
        if len(fewer) == len(waits):
            return True
        waits = fewer
    return False


def ring_fault(told: List[str], waits: Waits) -> Optional[str]:
    """What is wrong with a line, as its words after the first, that names a ring of links by these pairs or that there is none."""
    if told == ["acyclic"]:
        return "there is a ring" if has_ring(waits) else None
    word, *nodes = told
    links = list(zip(nodes, nodes[1:] + nodes[:1]))
    if word != "cycle" or not links or len(set(links)) != len(links):
        return f"it tells no ring: {told}"
    return next((f"{one} does not wait for {other}" for one, other in zip(links, links[1:] + links[:1]) if (one, other) not in waits), None)


def together_of(name: str, net: str, first: Tuple[str, str], second: Tuple[str, str], *more: str) -> bool:
    """Compares `stats` with and without a second plan, both of a kind and a root, and its two lines of rings with the plans. Whether there is
    a ring of both alone."""
    one = ["--kind", first[0], "--root", first[1], *more]
    plans = [waits_of(run(["plan", "--kind", kind, "--root", root, net])[0].decode()) for kind, root in (first, second)]
    alone, told = run(["stats", *one, net]), run(["stats", *one, "--with", ",".join(second), net])
    line = told[0][len(alone[0]):].decode()
    expect(f"the figures of {name}, {first} with {second}", told, alone[0] + line.encode(), b"", 0)
    count(f"the ring of {name}, {first}", ring_fault(alone[0].decode().splitlines()[-1].split()[1:], plans[0]))
    is_line = line.startswith("together ") and line.endswith("\n") and line.count("\n") == 1
    count(f"the ring of {name}, {first} with {second}", ring_fault(line.split()[1:], plans[0] | plans[1]) if is_line else f"the line is {line!r}")
    return "cycle" in line.split() and not any(map(has_ring, plans))


def test_beside() -> None:
    """The line of `stats --with` names a ring of links that wait for each other by the walks of both plans, by a search that knows nothing of the
    program, and the lines before it are those of `stats`."""
    luck = random.Random(1)
    kinds, both = ("tree", "shortest", "compact"), 0
    nets = [("nsfnet", os.path.join(TOP, "examples/nsfnet.edgelist"), ["Houston", "Seattle"]), ("two", put("both/two", "a b\n"), ["a", "b"]),
            ("ring", put("both/ring", circle(9)), ["a", "e"])]
    for turn in range(25):
        nodes = luck.randint(3, 16)
        edges = [(luck.randrange(v), v) for v in range(1, nodes)] + [(luck.randrange(nodes), luck.randrange(nodes)) for _ in range(luck.randint(1, 2 * nodes))]
        net = put(f"both/{turn}.edgelist", "".join(f"n{u} n{v} {luck.randint(1, 4)}\n" for u, v in edges))
        nets.append((f"network {turn}", net, [f"n{luck.randrange(nodes)}" for _ in range(2)]))
    for name, net, roots in nets:
        names_ = [row.split()[0] for row in run(["plan", net])[0].decode().splitlines()[1:]]
        roots = [root if root in names_ else names_[-1] for root in roots]
        for first in kinds:
            for second in kinds:
                both += together_of(name, net, (first, roots[0]), (second, roots[1]))
        one = ["stats", "--kind", "tree", "--root", roots[1]]
        alike(f"the second root of {name} by default", run([*one, "--with", "tree", net]), run([*one, "--with", f"tree,{roots[1]}", net]))
        count(f"a tree of {name} with itself", None if run([*one, "--with", "tree", net])[0].endswith(b"together acyclic\n") else "a ring")
    count("rings of two plans that have none alone", None if both > 0 else "there is no such pair")


def left_of(words_: List[str], text: str, held: Optional[Waits]) -> str:
    """What a line of `stats --each` says of a network, by what `stats` prints of it. Where links of a plan over the whole network may be held
    too, a ring of both is looked for by the names of the nodes."""
    output, faults, status = run(["stats", *words_, "--format", "edgelist", "-"], text.encode())
    if status == 1 and faults == b"opening Disconnected\n":
        return "disconnected"
    told = dict(line.partition(" ")[::2] for line in output.decode().splitlines())
    mean, worst = "-", "-"
    if "worst" in told:
        mean, worst = f"{told['walks']}/{told['distances']}", "/".join(told["worst"].split()[2:])
    both = []
    if held is not None:
        plan = run(["plan", *words_, "--format", "edgelist", "-"], text.encode())[0].decode()
        both = ["cycle" if has_ring(held | waits_of(plan)) else "acyclic"]
    return " ".join([told["starts"], told["greatest-row"].split()[1], told["bits"].split()[0], mean, worst, told["dependencies"].split()[0], *both])


def without_links(words_: List[str], nodes: List[str], edges: List[Tuple[str, str, int]], held: Optional[Waits] = None) -> str:
    """The text of `stats --each links` by that of `stats` for each network. A node has a line of its own before all links, so that it keeps
    its place whatever link is missing."""
    heads = "".join(f"{node} {node} 1\n" for node in nodes)
    lines = [f"{u} {v} {weight}\n" for u, v, weight in edges]
    place = {node: at for at, node in enumerate(nodes)}
    kind = words_[words_.index("--kind") + 1]
    texts = [f"each links {kind} {len(nodes)} {len(edges)} {left_of(words_, heads + ''.join(lines), held)}\n"]
    for u, v, _ in sorted(edges, key=lambda edge: min(place[edge[0]], place[edge[1]])):  # links stand by their first node, and then as they were read
        at = next(i for i, edge in enumerate(edges) if edge[:2] == (u, v))
        low, high = sorted((u, v), key=place.__getitem__)
        texts.append(f"{low} {high} {left_of(words_, heads + ''.join(lines[:at] + lines[at + 1:]), held)}\n")
    return "".join(texts)


def without_nodes(words_: List[str], nodes: List[str], edges: List[Tuple[str, str, int]], held: Optional[Waits] = None) -> str:
    """The text of `stats --each nodes`, in the same way: by `stats` for the network without a node and its links. Where the root is the node
    that fails, the first one is the root; an order in a file leaves the node out."""
    def net(left: List[str]) -> str:
        return "".join(f"{u} {u} 1\n" for u in left) + "".join(f"{u} {v} {weight}\n" for u, v, weight in edges if u in left and v in left)

    kind = words_[words_.index("--kind") + 1]
    texts = [f"each nodes {kind} {len(nodes)} {len(edges)} {left_of(words_, net(nodes), held)}\n"]
    for k in nodes:
        words = list(words_)
        if k in words:
            del words[words.index(k) - 1:words.index(k) + 1]
        if words[-1].endswith(".order"):
            words[-1] = put("each/left.order", "".join(f"{u}\n" for u in pathlib.Path(work(words[-1])).read_text().split() if u != k))
        texts.append(f"{k} {left_of(words, net([u for u in nodes if u != k]), held) if len(nodes) > 1 else 'empty'}\n")
    return "".join(texts)


def held_by(words_: List[str], second: List[str], net: str) -> Waits:
    """Which links wait for which by a second plan of a kind, and of a root if there are two words, over a whole network."""
    stretch = words_[words_.index("--stretch"):][:2] if "--stretch" in words_ and second[0] == "landmark" else []
    root = second[1:] or [words_[words_.index("--root") + 1]]
    return waits_of(run(["plan", "--kind", second[0], *stretch, "--root", root[0], net])[0].decode())


def test_each_beside() -> None:
    """Each line of `stats --each --with` says last whether there is a ring of the plan without a link or a node, and of the second plan, which
    keeps it, by a search over links as the names of their two nodes. All kinds are among both, and orders in a file. The other words are those
    without `--with`. What is refused."""
    luck, kinds = random.Random(2), ("tree", "shortest", "compact", "landmark")
    rings = {"acyclic": 0, "cycle": 0}
    for turn in range(20):
        count_ = luck.randint(2, 11)
        nodes = [f"n{u}" for u in range(count_)]
        chosen = {(luck.randrange(v), v) for v in range(1, count_)}
        chosen |= {(min(two), max(two)) for two in (luck.sample(range(count_), 2) for _ in range(luck.randint(0, 2 * count_)))}
        edges = [(f"n{u}", f"n{v}", luck.randint(1, 4)) for u, v in luck.sample(sorted(chosen), len(chosen))]
        net = put(f"both/each{turn}.edgelist", "".join(f"{u} {u} 1\n" for u in nodes) + "".join(f"{u} {v} {weight}\n" for u, v, weight in edges))
        order = put(f"both/each{turn}.order", "".join(f"{node}\n" for node in luck.sample(nodes, count_)))
        root = ["--root", luck.choice(nodes)]
        for words_, second in ((["--kind", kinds[turn % 4], *(["--stretch", "200"] if turn % 4 == 3 else []), *root], [luck.choice(kinds)]),
                               (["--kind", luck.choice(["shortest", "compact"]), "--numbering", order], [kinds[turn % 3], luck.choice(nodes)])):
            held = held_by(words_, second, net)
            for what, told in (("links", without_links(words_, nodes, edges, held)), ("nodes", without_nodes(words_, nodes, edges, held))):
                each = ["stats", "--each", what, *words_, "--with", ",".join(second)]
                expect(f"network {turn} without each of its {what}, {words_[1]} with {second}", run([*each, net]), told.encode(), b"", 0)
                shown = run([*each, "--threads", "3", "--json", net])
                expect(f"the same as JSON, network {turn} without {what}", shown, json_of("each", told)[1].encode(), b"", 0)
                for line in told.splitlines()[1:]:
                    rings[line.split()[-1]] = rings.get(line.split()[-1], 0) + 1
    count("lines with a ring of both, and without", None if min(rings["acyclic"], rings["cycle"]) > 9 else f"they are too few: {rings}")
    ring = put("both/small.adjlist", "a b c\nb c\nc d\n")
    for what in ("links", "nodes"):
        expect(f"a second root that is none, {what}", run(["stats", "--each", what, "--with", "tree,x", ring]), b"", b"opening NoNode\n", 1)
        expect(f"a second plan of no kind, {what}", run(["stats", "--each", what, "--with", "trees", ring]), b"", SOME, 2)
        cut = run(["stats", "--each", what, "--with", "tree", "-"], b"a b\nc d\n")
        expect(f"a network that is in parts, with a tree, {what}", cut, b"", b"opening Disconnected\n", 1)
    lone = run(["stats", "--each", "nodes", "--with", "tree", "-"], b"a\n")
    expect("a network of one node, with a tree", lone, b"each nodes shortest 1 0 0 0 0 - - acyclic acyclic\na empty\n", b"", 0)


def test_each() -> None:
    """Each line of `stats --each links` has what `stats` prints of the network without that link, and of `--each nodes` without that node,
    whatever the kind, the numbering and the threads; with an order in a file all plans keep its labels. What is refused."""
    luck = random.Random(1)
    ring = put("each/ring.adjlist", "a b c\nb c\nc d\n")
    for turn in range(12):
        count_ = luck.randint(2, 14)
        nodes = [f"n{u}" for u in range(count_)]
        chosen = {(luck.randrange(v), v) for v in range(1, count_)}
        chosen |= {(min(two), max(two)) for two in (luck.sample(range(count_), 2) for _ in range(luck.randint(0, 2 * count_)))}
        edges = [(f"n{u}", f"n{v}", luck.randint(1, 9)) for u, v in luck.sample(sorted(chosen), len(chosen))]
        text = "".join(f"{node} {node} 1\n" for node in nodes) + "".join(f"{u} {v} {weight}\n" for u, v, weight in edges)
        net = put(f"each/{turn}.edgelist", text)
        order = put(f"each/{turn}.order", "".join(f"{node}\n" for node in luck.sample(nodes, count_)))
        root = ["--root", luck.choice(nodes)]
        for words_ in (["--kind", "tree", *root], ["--kind", "shortest", *root, "--numbering", luck.choice(["depth-first", "tour"])],
                       ["--kind", "compact", *root, "--numbering", luck.choice(["depth-first", "tour"])], ["--kind", "landmark", "--stretch", "200", *root],
                       ["--kind", luck.choice(["shortest", "compact"]), "--numbering", order]):
            for what, told in (("links", without_links(words_, nodes, edges)), ("nodes", without_nodes(words_, nodes, edges))):
                each = ["stats", "--each", what, *words_]
                expect(f"network {turn} without each of its {what}, {words_[1]}", run([*each, net]), told.encode(), b"", 0)
                most = luck.choice(["1", "3"])
                expect(f"network {turn} without {what} by {most} threads", run([*each, "--threads", most, net]), told.encode(), b"", 0)
                shown = run([*each, "--json", net])
                expect(f"network {turn} without {what} as JSON", shown, json_of("each", told)[1].encode(), b"", 0)
                count(f"the JSON of network {turn} without {what} is read", None if json.loads(shown[0]) == json_of("each", told)[0] else "it is another")
    for words_ in (["stats", "--each", "link"], ["stats", "--each", ""], ["stats", "--each"], ["plan", "--each", "links"]):
        expect(f"not understood: {words_}", run([*words_, ring]), b"", SOME, 2)
    lone = run(["stats", "--each", "links", "-"], b"a\n")
    expect("a network with no link", lone, b"each links shortest 1 0 0 0 0 - - acyclic\n", b"", 0)
    lone = run(["stats", "--each", "nodes", "-"], b"a\n")
    expect("a network of one node without it", lone, b"each nodes shortest 1 0 0 0 0 - - acyclic\na empty\n", b"", 0)
    lone = run(["stats", "--each", "nodes", "--json", "-"], b"a\n")
    expect("the same as JSON", (lone[0][-28:], *lone[1:]), b'[\n{"node":"a","empty":true}\n]}\n'[-28:], b"", 0)
    for what in ("links", "nodes"):
        cut = run(["stats", "--each", what, "-"], b"a b\nc d\n")
        expect(f"a network that is in parts, each of its {what}", cut, b"", b"opening Disconnected\n", 1)


COLUMNS = "kind numbering intervals greatest-row bits mean-stretch worst-stretch dependencies"


def row_of_stats(kind: str, numbering: str, words_: List[str]) -> Tuple[str, str, str]:
    """The row of `compare`, and the bits of full tables, by what `stats` prints of one plan."""
    plan = ["--kind", "landmark", "--stretch", kind[9:]] if numbering == "blocks" else ["--kind", kind, "--numbering", numbering]
    lines = run(["stats", *plan, *words_])[0].decode().splitlines()
    told = dict(line.partition(" ")[::2] for line in lines)
    mean, worst, bits = "-", "-", told["bits"].split()
    if "worst" in told:
        mean, worst = f"{told['walks']}/{told['distances']}", "/".join(told["worst"].split()[2:])
    row = [kind, numbering, told["starts"], told["greatest-row"].split()[1], bits[0], mean, worst, told["dependencies"].split()[0]]
    return " ".join(row), bits[1], f"compare {told['stats'].split()[1]} {told['links']}"


def comparison_of(words_: List[str]) -> object:
    """The text of `compare` by those of `stats`."""
    plans = [(kind, numbering) for kind in ("shortest", "compact") for numbering in ("depth-first", "tour")] + [("tree", "depth-first")]
    plans += [(f"landmark-{stretch}", "blocks") for stretch in (150, 200, 300)]
    rows = [row_of_stats(*plan, words_) for plan in plans]
    found = {row[1:] for row in rows}
    tables, head = found.pop()
    lines = [head, COLUMNS, *(row[0] for row in rows), f"tables - - - {tables} - - -"]
    return "".join(line + "\n" for line in lines).encode() if not found else SOME


def test_compared() -> None:
    """Each row of `compare` is what `stats` reports of that kind and numbering; its words, and what it refuses."""
    good_files()
    luck = random.Random(1)
    nets: List[Tuple[str, str, List[str]]] = [(name, os.path.join(TOP, "examples", name), []) for name in ("nsfnet.edgelist", "abilene.edgelist", "grid8x8.adjlist", "karate.edgelist")]
    nets += [("a node", put("compared/alone", "a\n"), []), ("a pair", put("compared/pair", "a b\n"), ["--root", "b"])]
    for turn in range(40):
        nodes = luck.randint(2, 40)
        edges = [(luck.randrange(v), v) for v in range(1, nodes)] + [(luck.randrange(nodes), luck.randrange(nodes)) for _ in range(luck.randint(0, 3 * nodes))]
        net = put(f"compared/{turn}.edgelist", "".join(f"n{u} n{v} {luck.randint(1, 9)}\n" for u, v in edges))
        nets.append((f"network {turn}", net, luck.choice([[], ["--root", f"n{luck.randrange(nodes)}"]])))
    for name, net, root in nets:
        wanted = comparison_of([*root, net])
        expect(f"the comparison of {name}", run(["compare", *root, net]), wanted, b"", 0)
        for most in ("1", "3"):
            expect(f"the comparison of {name} in {most} threads", run(["compare", *root, "--threads", most, net]), wanted, b"", 0)
    for words_ in (["--kind", "tree", "-"], ["--numbering", "tour", "-"], ["--capacity", "4", "-"], ["--packets", "4", "-"], ["--order", "-"],
                   ["-k", "tree", "-"], ["-n", "tour", "-"], ["--svg", "-"], ["--node", "a", "-"], ["-o", "-", "-o", "-", "-"],
                   ["--threads", "0", "-"], ["--format", "json", "-"], ["-", "-"], ["good/topology", "good/script"], []):
        expect(f"compare, not understood: {words_}", run(["compare", *words_], b"a b\n"), b"", SOME, 2)  # type: ignore[misc]
    for words_ in (["compare", "--help"], ["compare", "-h"], ["help", "compare"]):
        expect(f"understood: {words_}", run(words_), SOME, b"", 0)
    for name, text in (("NoNode", "a b\n"), ("Empty", ""), ("Disconnected", "a z\nc\n")):
        for sub in ("compare", "stats"):
            refused(f"{sub}, {name}", run([sub, "--root", "z", "-"], text.encode()), f"opening {name}")
    refused("compare of no text", run(["compare", "compared/none"]), "topology unreadable")
    refused("compare of a bad line", run(["compare", put("compared/bad.wel", "a b 0\n")]), "topology 1 BadWeight")
    expect("compare, explained", run(["compare", "--explain", put("compared/split", "a b\nc\n")]), b"", SOME, 1)


def test_as_json() -> None:
    """`--json` prints the values of the text, a line for each line of it: the bytes are those that bench/json_plain.py makes of the text.
    The status and the faults are the same, and of what is refused nothing is printed."""
    good_files()
    examples = os.path.join(TOP, "examples")
    nets = [os.path.join(examples, name) for name in ("nsfnet.edgelist", "karate.edgelist", "grid8x8.adjlist")]
    nets += [put("json/alone", "a\n"), put("json/odd", 'a" b\\ c\nb\\ - ~$\n- {"x":[1]}\n')]
    for net in nets:
        first = run(["plan", "--order", net])[0].decode().split("\n")
        ends = ["--from", first[0], "--to", first[-2]]
        tours = ["--numbering", "tour", net]
        for sub, words_ in [("plan", ["plan", net]), ("plan", ["plan", "--kind", "tree", net]), ("order", ["plan", "--order", *tours]),
                            ("walk", ["walk", *ends, net]), ("walk", ["walk", "--kind", "compact", *ends, net]), ("stats", ["stats", *tours]),
                            ("stats", ["stats", "--kind", "tree", "--with", "compact", net]), ("compare", ["compare", net]),
                            ("prefixes", ["prefixes", net]), ("prefixes", ["prefixes", "--disjoint", *tours]), ("ranges", ["ranges", net])]:
            as_json_too(f"{' '.join(words_[:-1])} of {os.path.basename(net)}", sub, words_)
    for sub in ("sim", "live"):
        for restamps in ("0", "2"):
            more = ["--restamps", restamps, "good/topology"]
            as_json_too(f"{sub}, --restamps {restamps}", sub, [sub, *more, "good/script"])
            as_json_too(f"{sub}, a link that is down, --restamps {restamps}", sub, [sub, *more, put("json/down", "down b c\ninject a c\ndrain\n")])
            as_json_too(f"{sub}, refused lines, --restamps {restamps}", sub, [sub, *more, put("json/up", "up b c\ninject a c\ndrain\nup b c\n")])
    for name, row in (("sound", "0 1 a c 2 delivered a b c"), ("a wrong weight", "0 1 a c 3 delivered a b c"), ("no row", "0")):
        files = ["good/topology", "good/script", put("json/trace", f"trace 1\n{row}\n")]
        as_json_too(f"check, {name}", "check", ["check", *files])
        as_json_too(f"check --whole, {name}", "check", ["check", "--whole", *files])
    for sub, parts in TEXTS.items():
        words_ = call(sub, ["none", *(f"good/{NAMES[i]}" for i in range(1, parts))])
        if sub == "draw":
            expect("draw, no JSON", run([words_[0], "--json", *words_[1:]]), b"", SOME, 2)
        else:
            refused(f"{sub} as JSON of no text", run([words_[0], "--json", *words_[1:]]), "topology unreadable")
    refused("a plan as JSON of two nodes apart", run(["plan", "--json", put("json/apart", "a\nb\n")]), "opening Disconnected")


def as_json_too(name: str, sub: str, words_: List[str]) -> None:
    """A call as text, and as JSON."""
    text = run(words_)
    value, wanted = json_of(sub, text[0].decode())
    got = run([words_[0], "--json", *words_[1:]])
    expect(f"{name}, as JSON", got, wanted.encode(), *text[1:])
    count(f"{name}, read by json", None if json.loads(got[0]) == value else brief(got[0]))
