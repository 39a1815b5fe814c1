"""Plans: of networks that are hard for searches, of large ones, by orders and tours, and as ranges."""
from __future__ import annotations

import json
import os
import random
import subprocess
import sys
from typing import Iterator, List, Tuple

from support.book import ByTheBook, ranges_of, starts_in
from support.checks import count
from support.limits import GRAPH_NODES, GREAT_SECONDS, TABLE_LABELS
from support.marks import built
from support.networks import circle, lone, row_of
from support.places import TOP, program, work
from support.route import (
    NAMES, SOME, TEXTS, alike, brief, call, expect, faults_of, good_files, output_of, put, refused,
    run,
)

pytestmark = [built]


def test_hard() -> None:
    """Networks on which many searches mend a distance many times, through `plan` of each kind."""
    for family, nodes in (("hubpath", 250), ("lure", 250)):
        made = [sys.executable, "bench/networks.py", family, str(nodes)]
        text = subprocess.run(made, cwd=TOP, capture_output=True, text=True, timeout=GREAT_SECONDS).stdout
        net, book = put(f"hard/{family}", text), ByTheBook(text)
        for threads in ("1", "4"):
            words_ = ["plan", "--format", "edgelist", "--threads", threads, net]
            for kind in ("tree", "shortest"):
                wanted = "".join(f"{line}\n" for line in book.plan(kind)).encode()
                expect(f"{family} {nodes}, {kind}, {threads} threads", run([*words_, "--kind", kind]), wanted, b"", 0)
            output, faults, status = run([*words_, "--kind", "compact"])
            fewer = status == 0 and starts_in(output) <= starts_in(wanted)
            wrong = book.compact_fault(output) if fewer else f"status {status}, {brief(faults)}, {brief(output)}"
            count(f"{family} {nodes}, compact, {threads} threads", wrong)


def test_large() -> None:
    """The text of a large plan is the same by one thread and by several, and ends early where its reader goes away."""
    made = [sys.executable, "bench/networks.py", "--weights", "random", "1024", "8192"]
    text = subprocess.run(made, cwd=TOP, capture_output=True, text=True, timeout=GREAT_SECONDS).stdout
    words_ = ["plan", "--format", "edgelist", put("large/random", text), "--threads"]
    wanted = run([*words_, "1"], b"", GREAT_SECONDS)[0]
    for threads in ("2", "4", "16"):
        output, faults, status = run([*words_, threads], b"", GREAT_SECONDS)
        is_same = output == wanted and output.count(b"\n") == 1025 and not faults and status == 0
        count(f"random 1024, {threads} threads", None if is_same else f"status {status}, {brief(faults)}, {brief(output)}")
        with subprocess.Popen([program(), *words_, threads], cwd=work(), stdout=subprocess.PIPE, stderr=subprocess.PIPE) as process:
            first = output_of(process).readline()
            output_of(process).close()
            told, status = faults_of(process).read(), process.wait(GREAT_SECONDS)
        is_ended = wanted.startswith(first) and told == b"" and status == 1
        count(f"random 1024, {threads} threads, a reader that goes away", None if is_ended else f"status {status}, {brief(told)}")


def test_numberings() -> None:
    """Labels in the order of a file, by a tour, and depth first; each fault of a file; words that do not go together."""
    good_files()
    ring = put("numbered/ring", "".join(f"{u} {v}\n" for u, v in ("ab", "bc", "cd", "de", "ef", "fa")))  # type: ignore[has-type, misc]
    order = put("numbered/order", "c # the root\n\n# none\n  a\nb\nf \ne\nd")
    got = run(["plan", "--numbering", order, ring])
    labels = [line.split()[:2] for line in got[0].splitlines()[1:]]
    count("labels by a file", None if dict(labels) == {b"c": b"0", b"a": b"1", b"b": b"2", b"f": b"3", b"e": b"4", b"d": b"5"}  # type: ignore[arg-type]
          else brief(got[0]))
    expect("a plan by a file", got, SOME, b"", 0)
    first = run(["plan", ring])
    alike("depth-first numbers by their name", run(["plan", "--numbering", "depth-first", ring]), first)
    tree = run(["plan", "--kind", "tree", ring])
    alike("depth-first numbers of a tree", run(["plan", "--kind", "tree", "--numbering", "depth-first", ring]), tree)
    with open(work(ring), "rb") as file:
        alike("a file beside standard input", run(["plan", "--numbering", order, "-"], file.read()), got)
    for sub in ("walk", "stats", "draw", "prefixes", "ranges"):
        expect(f"{sub} by a file", run(call(sub, [ring], "--numbering", order)), SOME, b"", 0)
        expect(f"{sub} by a tour", run(call(sub, [ring], "--numbering", "tour")), SOME, b"", 0)
    expect("a walk by a file", run(call("walk", [ring], "--numbering", order)), b"walk shortest a b 2 1\na 1 5 3 b 1\nb 2\n", b"", 0)
    for name, text, line in (("byte", "a\n\xe4\n".encode("latin-1"), "2 BadByte"), ("words", "a\nb c\n", "2 BadRow"),
                             ("other", "a\nz\n", "2 UnknownNode"), ("again", "a\nb\n\na\n", "4 Twice"),
                             ("few", "a\nb\nc\n", "3 Missing"), ("none", "", "0 Missing")):
        refused(f"a numbering with a fault, {name}", run(["plan", "--numbering", put(f"numbered/{name}", text), ring]), f"numbering {line}")  # type: ignore[arg-type]
    faulty = put("numbered/faulty", "a b\n1 \xe4\n".encode("latin-1"))
    refused("a topology's fault before a numbering's", run(["plan", "--numbering", "numbered/none", faulty]), "topology 2 BadByte")
    refused("a numbering that is missing", run(["plan", "--numbering", "numbered/nowhere", faulty]), "numbering unreadable")
    apart = put("numbered/apart", "a b\nc d\n")
    refused("parts by a file", run(["plan", "--numbering", put("numbered/four", "d\nc\nb\na\n"), apart]), "opening Disconnected")
    refused("parts by a tour", run(["plan", "--numbering", "tour", apart]), "opening Disconnected")
    refused("no node by a tour", run(["plan", "--numbering", "tour", "--root", "z", ring]), "opening NoNode")
    for words_ in (["--kind", "tree", "--numbering", "tour"], ["--kind", "tree", "--numbering", order],
                   ["--root", "c", "--numbering", order], ["--numbering", "-"], ["--numbering"]):
        expect(f"not understood: {words_}", run(["plan", *words_, ring]), b"", SOME, 2)
    for sub in ("sim", "live", "check"):
        for words_ in (["--kind", "tree", "--numbering", "tour"], ["--numbering", order], ["--numbering", "-"], ["--numbering", ""]):
            expect(f"not understood: {sub} {words_}", run(call(sub, ["-"], *words_)), b"", SOME, 2)
        tree = ["--kind", "tree", "--numbering", "depth-first"]  # type: ignore[assignment]
        got = run(call(sub, [f"good/{name}" for name in NAMES[:TEXTS[sub]]], *tree))  # type: ignore[arg-type]
        expect(f"{sub} {tree}", got, SOME, b"", 0)
    hypercube = "".join(f"n{u} n{u ^ 1 << i}\n" for u in range(32) for i in range(5) if not u >> i & 1)
    cube = put("numbered/cube", hypercube)
    for kind in ("shortest", "compact"):
        plans = [run(["plan", "--kind", kind, *more, cube])[0].splitlines()[0].split()[3] for more in  # type: ignore[misc]
                 ([], ["--numbering", "tour"], ["--numbering", "tour", "--threads", "1"])]
        fewer = int(plans[1]) < int(plans[0]) or (kind == "compact" and plans[1] == plans[0])
        count(f"a tour on a hypercube, {kind}", None if fewer and plans[1] == plans[2] else f"{plans}")


def walked(net: str, root: str, pairs: List[Tuple[str, str]]) -> Iterator[List[str]]:
    """The paths of the plan of fewest intervals over the numbers of a tour, by `route walk`."""
    for u, v in pairs:
        words_ = ["--kind", "compact", "--numbering", "tour", "--root", root, "--from", u, "--to", v]
        yield [line.split()[0].decode() for line in run(call("walk", [net], *words_))[0].splitlines()[1:]]


def test_tours() -> None:
    """Packets of `sim` and `live` go as `walk` prints of a tour, also after an install, and `check` knows the ways by that numbering."""
    net = put("toured/net", "".join(f"n{u} n{u + 1} n{u + 3}\n" for u in range(10)))
    pairs = [(f"n{u}", f"n{v}") for u in (0, 4, 6, 12) for v in range(13) if u != v]
    injected = "".join(f"inject {u} {v}\ndrain\n" for u, v in pairs)
    first = ["--kind", "compact", "--root", "n0"]
    tour = [*first, "--numbering", "tour"]
    for epoch, root, install, learn in ((1, "n0", "", ""), (2, "n6", "install compact n6\n", "learn 2\n")):
        ways = [" ".join(path) for path in walked(net, root, pairs)]
        rows = "".join(f"{i} {epoch} {u} {v} {way.count(' ')} delivered {way}\n" for i, ((u, v), way) in enumerate(zip(pairs, ways)))
        trace = put(f"toured/trace{epoch}", f"trace 1\n{rows}")
        script = put(f"toured/script{epoch}", install + learn + injected)
        alive = put(f"toured/live{epoch}", install + injected)
        wanted = f"trace 1\n{rows}".encode()
        expect(f"sim by a tour, epoch {epoch}", run(call("sim", [net, script], *tour)), wanted, b"", 0)
        expect(f"live by a tour, epoch {epoch}", run(call("live", [net, alive], *tour)), wanted, b"", 0)
        expect(f"check by a tour, epoch {epoch}", run(call("check", [net, script, trace], *tour)), f"ok {len(pairs)}\n".encode(), b"", 0)
        found = run(call("check", [net, script, trace], *first))
        count(f"check by depth-first numbers, epoch {epoch}", None if found[0].endswith(b"NotAPrefix\n") and found[2] == 1 else brief(found[0]))
    for sub in ("sim", "live", "check"):
        files = [net, "toured/live1", "toured/trace1"][: TEXTS[sub]]
        refused(f"{sub} by a tour from no node", run(call(sub, files, "--numbering", "tour", "--root", "z")), "opening NoNode")


def lines_by_python(plan: str, node: str, near: List[str], epoch: int) -> Tuple[bytes, bytes]:
    """The lines of a node's table, as the Python package makes them of the text of `plan`: as text, and as bytes."""
    if os.path.join(TOP, "python") not in sys.path:
        sys.path.append(os.path.join(TOP, "python"))
    from bentzolu import lines, texts
    read = texts.read_plan(plan)
    table = lines.lines(lines.row_of(read.nodes[node], len(read.nodes), near), epoch)
    return lines.as_text(table).encode(), lines.as_bytes(table)


def neighbours(text: str, node: str) -> List[str]:
    """The neighbours of a node, in the order in which the lines of its links have them."""
    rows = [row.split() for row in text.splitlines()]
    found = [v if u == node else u for u, v in (row[:2] for row in rows if len(row) > 1) if node in (u, v) and u != v]
    return list(dict.fromkeys(found))


def test_lines() -> None:
    """The lines of a node's table are those that the package makes of `plan`, at each depth; what is refused is said so."""
    luck = random.Random(2)
    star = "".join(f"hub n{u}\n" for u in range(600))
    comb = "".join(f"hub n{u}\nn{u} m{u}\n" for u in range(250))
    nets = [("alone.adjlist", "a\n", ["a"]), ("star.adjlist", star, ["hub", "n7"]), ("comb.adjlist", comb, ["hub", "m3"])]
    for turn in range(12):
        nodes = luck.randint(2, 60)
        edges = [(luck.randrange(v), v) for v in range(1, nodes)] + [(luck.randrange(nodes), luck.randrange(nodes)) for _ in range(luck.randint(0, 3 * nodes))]
        text = "".join(f"n{u} n{v} {luck.randint(1, 4)}\n" for u, v in edges)
        nets.append((f"network{turn}.edgelist", text, [f"n{luck.randrange(nodes)}" for _ in range(2)]))
    depths = set()
    for name, text, chosen in nets:
        net = put(f"lined/{name}", text)
        for kind, node in ((kind, node) for kind in ("tree", "shortest", "compact") for node in chosen):
            epoch = luck.choice((1, 2, 255, 65535))
            plan = run(["plan", "--kind", kind, net])[0].decode()
            words = ["xdp", "table", str(epoch), "--node", node, "--kind", kind, net]
            got, wanted = run(words), lines_by_python(plan, node, neighbours(text, node), epoch)
            expect(f"the lines of {name}, {kind}, {node}", got, wanted[0], b"", 0)
            expect(f"their bytes of {name}, {kind}, {node}", run([*words, "--binary"]), wanted[1], b"", 0)
            depths.update(got[0].split()[3:4])
    count("lines of each depth", None if {int(it, 16) for it in depths} == {0, 1, 2, 255} else f"{depths}")
    good = put("lined/good", "a b\nb c\n")
    expect("lines into a file", run(["xdp", "table", "1", "--node", "a", "-o", "lined/out", good]), b"", b"", 0)
    with open(work("lined/out"), "rb") as file:
        expect("lines of standard input", run(["xdp", "table", "1", "--node", "a", "-"], b"a b\nb c\n"), file.read(), b"", 0)
    expect("bytes into a file", run(["xdp", "table", "1", "--node", "a", "--binary", "-o", "lined/bytes", good]), b"", b"", 0)
    with open(work("lined/bytes"), "rb") as file:
        data = file.read()
    count("a line of bytes in a file", None if len(data) == 128 and data[:4] == b"\x01\0\0\0" else brief(data))
    expect("bytes of standard input", run(["xdp", "table", "1", "--node", "a", "--binary", "-"], b"a b\nb c\n"), data, b"", 0)
    refused("bytes of no node", run(["xdp", "table", "1", "--node", "z", "--binary", good]), "opening NoNode")
    refused("lines of no node", run(["xdp", "table", "1", "--node", "z", good]), "opening NoNode")
    refused("lines from no root", run(["xdp", "table", "1", "--node", "a", "--root", "z", good]), "opening NoNode")
    refused("lines of parts", run(["xdp", "table", "1", "--node", "a", put("lined/apart", "a b\nc d\n")]), "opening Disconnected")
    refused("lines of too many labels", run(["xdp", "table", "1", "--node", "n0", put("lined/more", lone(GRAPH_NODES + 1))]),
            f"topology {GRAPH_NODES + 1} TooManyNodes")
    wide = put("lined/wide", row_of(TABLE_LABELS)[1])
    plan = run(["plan", "--kind", "tree", wide])[0].decode()
    expect("lines of as many labels as fit", run(["xdp", "table", "1", "--node", "b", "--kind", "tree", wide]),
           lines_by_python(plan, "b", ["a", "n2"], 1)[0], b"", 0)
    for more in (row_of(TABLE_LABELS + 1)[1], lone(TABLE_LABELS + 1)):
        refused("lines of more labels than a table has", run(["xdp", "table", "1", "--node", "a", put("lined/wide", more)]), "opening TooLarge")
    others: List[List[str]] = [["table", "0"], ["table", "65536"], ["table", "-1"], ["table", "one"], ["tables", "1"], ["1", "table"], ["table"], []]
    for words_ in others:
        expect(f"not understood: xdp {words_}", run(["xdp", *words_, "--node", "a", good]), b"", SOME, 2)
    for words_ in (["table", "1", good], ["table", "1", "--node", "a", "--json", good], ["table", "1", "--node", "a", "--binary", "--json", good],
                   ["table", "1", "--node", "a", "--from", "a", good], ["table", "1", "--node", "a", good, good]):
        expect(f"not understood: xdp {words_}", run(["xdp", *words_]), b"", SOME, 2)


def of_nodes(plan: bytes, first: int, last: int) -> bytes:
    """The text of the nodes from one to another, by that of the plan."""
    head, *lines = plan.decode().splitlines()
    chosen = lines[first:last + 1]
    starts = sum(len(line.split()) // 2 - 1 for line in chosen)
    words_ = [*head.split()[:3], str(starts), str(first), str(last)]
    return "".join(f"{line}\n" for line in (" ".join(words_), *chosen)).encode()


def test_nodes() -> None:
    """The lines of some nodes are those of `plan`, for each kind and numbering; shards make the whole; what is refused is said so."""
    luck = random.Random(4)
    nets = [("alone", "a\n"), ("two", "a b\n"), ("ring", circle(9))]
    for turn in range(8):
        nodes = luck.randint(2, 60)
        edges = [(luck.randrange(v), v) for v in range(1, nodes)] + [(luck.randrange(nodes), luck.randrange(nodes)) for _ in range(luck.randint(0, 3 * nodes))]
        nets.append((f"network {turn}", "".join(f"n{u} n{v}\n" for u, v in edges if u != v)))
    for name, text in nets:
        net = put("some/net", text)
        for words_ in (["--kind", "shortest"], ["--kind", "compact"], ["--kind", "tree"], ["--kind", "landmark"], ["--numbering", "tour"],
                       ["--kind", "compact", "--numbering", "tour"]):
            plan = run(["plan", *words_, net])[0]
            count_ = plan.count(b"\n") - 1
            spans = [(0, 0), (0, count_ - 1), (count_ - 1, count_ - 1)]
            spans += [(min(two), max(two)) for two in ((luck.randrange(count_), luck.randrange(count_)) for _ in range(3))]
            for first, last in spans:
                got = run(["plan", "--nodes", f"{first}-{last}", *words_, net])
                expect(f"nodes {first}-{last} of {name}, {words_}", got, of_nodes(plan, first, last), b"", 0)
            cuts = sorted({0, count_, *(luck.randint(0, count_) for _ in range(3))})
            shards = [run(["plan", "--nodes", f"{one}-{other - 1}", *words_, net])[0].split(b"\n", 1)[1] for one, other in zip(cuts, cuts[1:])]
            count(f"shards of {name}, {words_}", None if b"".join(shards) == plan.split(b"\n", 1)[1] else brief(b"".join(shards)))
    order = put("some/order", "c\na\nb\n")
    net = put("some/three", "a b\nb c\n")
    plan = run(["plan", "--numbering", order, net])[0]
    expect("nodes by an order", run(["plan", "--nodes", "1-2", "--numbering", order, net]), of_nodes(plan, 1, 2), b"", 0)
    whole = json.loads(run(["plan", "--json", net])[0])
    part = json.loads(run(["plan", "--json", "--nodes", "1-2", net])[0])
    wanted = {**whole, "first": 1, "last": 2, "rows": whole["rows"][1:]}
    wanted["intervals"] = sum(len(row["intervals"]) for row in wanted["rows"])
    count("nodes as JSON", None if part == wanted else f"{part}")
    for span in ("0-3", "3-3", "2-18446744073709551615"):
        refused(f"nodes {span} of three", run(["plan", "--nodes", span, net]), "opening NoNode")
        refused(f"nodes {span} of a tree of three", run(["plan", "--kind", "tree", "--nodes", span, net]), "opening NoNode")
    refused("nodes of none", run(["plan", "--nodes", "0-0", put("some/none", "")]), "opening Empty")
    refused("nodes of parts", run(["plan", "--nodes", "0-1", put("some/apart", "a b\nc d\n")]), "opening Disconnected")
    for span in ("2-1", "1", "-", "1-", "-1", "a-b", "1-2-3", "1 - 2", "", "0-18446744073709551616"):
        expect(f"not understood: nodes {span!r}", run(["plan", f"--nodes={span}", net]), b"", SOME, 2)
    for words_ in (["plan", "--order", "--nodes", "0-1", net], ["ranges", "--nodes", "0-1", net], ["plan", net, "--nodes"]):
        expect(f"not understood: {words_}", run(words_), b"", SOME, 2)


def test_ranges() -> None:
    """The ranges are those that the labels of `plan` give one by one, and an order that is printed gives the labels again."""
    luck = random.Random(1)
    nets = [("nsfnet", os.path.join(TOP, "examples/nsfnet.edgelist")), ("alone", put("ranged/alone", "a\n")), ("ring", put("ranged/ring", circle(9)))]
    for turn in range(30):
        nodes = luck.randint(2, 30)
        edges = [(luck.randrange(v), v) for v in range(1, nodes)] + [(luck.randrange(nodes), luck.randrange(nodes)) for _ in range(luck.randint(0, 3 * nodes))]
        nets.append((f"network {turn}", put(f"ranged/{turn}.edgelist", "".join(f"n{u} n{v} {luck.randint(1, 4)}\n" for u, v in edges))))
    for name, net in nets:
        for kind in ("tree", "shortest", "compact"):
            plan = run(["plan", "--kind", kind, net])
            expect(f"the ranges of {name}, {kind}", run(["ranges", "--kind", kind, net]), ranges_of(plan[0].decode()).encode(), b"", 0)
            order = run(["plan", "--order", "--kind", kind, net])
            labels = {words_[0]: int(words_[1]) for words_ in (line.split() for line in plan[0].splitlines()[1:])}
            expect(f"the order of {name}, {kind}", order, b"".join(node + b"\n" for node in sorted(labels, key=labels.get)), b"", 0)  # type: ignore[arg-type]
            if kind != "tree":
                again = ["--kind", kind, "--numbering", put("ranged/order", order[0]), net]
                alike(f"the plan of {name} by its order, {kind}", run(["plan", *again]), plan)
                alike(f"its order again, {kind}", run(["plan", "--order", *again]), order)
