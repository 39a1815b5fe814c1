"""Runs as great as there may be, and runs that the machine or the script refuses; `tests/runs` runs it."""
from __future__ import annotations

import os
import random
import resource
import shutil
import signal
import subprocess
import sys
from typing import Callable, List, Set, Tuple

from support.checks import count
from support.limits import CHANGES, EPOCHS, GRAPH_EDGES, PACKETS, SECONDS
from support.living import NET, chain, expect_all, marked_before
from support.marks import alone, built, slow, within
from support.networks import Links
from support.places import program, work
from support.route import Got, brief, put, run

pytestmark = [built]


PACKETS_BYTES = 134_217_728  # the most memory that a simulation with as many packets may have
MARKS_BETWEEN = 4_095  # of a link, from packet to packet over it: an odd number, so they find it down and up by turns
ROW_NODES, LOOK_UP_RUNS = 2_048, 3  # nodes of the plan with long rows, and how often it and its figures are made
MOST_STATS = 24  # the most processor time that its figures may take, in times of the plan (12 where nothing else runs)


MEASURES = """import os, sys
child = os.posix_spawn(sys.argv[2], sys.argv[2:], os.environ)
_, status, used = os.wait4(child, 0)
with open(sys.argv[1], "w") as told:
    told.write(f"{os.waitstatus_to_exitcode(status)} {used.ru_maxrss}")
"""


def measured(words: List[str]) -> Tuple[Got, int]:
    """What a run gives, and the most bytes of memory that it had at once: those that are there, since address space that a
    machine's threads only reserve is no measure. A small program starts the run: a child begins with the memory of its
    parent, and that of these tests is large."""
    told = work("told")
    with open(told, "w"):
        pass
    with open(work("output"), "w+b") as output, open(work("faults"), "w+b") as faults:
        child = subprocess.Popen([sys.executable, "-c", MEASURES, told, program(), *words], cwd=work(), stdin=subprocess.DEVNULL,
                                 stdout=output, stderr=faults, start_new_session=True)
        try:
            child.wait(SECONDS)
        except subprocess.TimeoutExpired:
            os.killpg(child.pid, signal.SIGKILL)
            child.wait()
        output.seek(0)
        faults.seek(0)
        with open(told) as line:
            status, kilobytes = (line.read() or "hangs 0").split()
        got = output.read(), faults.read(), status if status == "hangs" else int(status)
    return got, int(kilobytes) * 1024  # type: ignore[return-value]


def is_connected(nodes: List[str], links: Links) -> bool:
    seen, todo = {nodes[0]}, [nodes[0]]
    while todo:
        u = todo.pop()
        for link in links:
            if u in link:
                for v in link:
                    if v not in seen:
                        seen.add(v)
                        todo.append(v)
    return len(seen) == len(nodes)


def drained(luck: random.Random, nodes: List[str], links: Links, kinds: List[str], packets: int) -> Tuple[str, str]:
    """
    Lines with a drain after each packet and changes between them, as a simulation and as a live run take them: in a
    live run the injector learns of each install at once, so the line that says so is a comment.
    """
    sim: List[str] = []
    live: List[str] = []
    down: Set[Tuple[str, str]] = set()
    epoch = 1
    for _ in range(packets):
        for _ in range(luck.randrange(3)):
            link = luck.choice(links)
            what = luck.choice(["mark", "mark", "mark", "install", "retire"])
            if what == "mark":
                word = luck.choice(["down", "up"])
                (down.add if word == "down" else down.discard)(link)
                both = [f"{word} {link[0]} {link[1]}"]
            elif what == "retire":
                both = [f"retire {luck.randrange(1, epoch + 2)}"]
            else:
                both = [f"install {luck.choice(kinds)} {luck.choice(nodes)}"]
            sim += both
            live += both
            if what == "install" and epoch < EPOCHS and is_connected(nodes, [link for link in links if link not in down]):
                epoch += 1
                sim.append(f"learn {epoch}")
                live.append(f"# learn {epoch}")
        both = [f"inject {luck.choice(nodes)} {luck.choice(nodes)}", "drain"]
        sim += both
        live += both
    return "\n".join(sim) + "\n", "\n".join(live) + "\n"


@alone
@slow
@within(3_600)
def test_alike() -> None:
    """Where nothing else is under way, a live run comes to what a simulation comes to."""
    names = [f"{x}{y}" for x in "abc" for y in "123"]
    grid = [(u, v) for u in names for v in names
            if abs(ord(u[0]) - ord(v[0])) + abs(ord(u[1]) - ord(v[1])) == 1 and u < v]
    row = [("a", "b"), ("b", "c")]
    every = ["tree", "shortest", "compact"]
    for number, (nodes, links, packets) in enumerate([(names, grid, 400), ("abc", row, PACKETS)]):
        for restamps in ([], ["--restamps", "2"]):
            luck = random.Random(number)
            sim, live = drained(luck, list(nodes), links, every, packets)
            topology = put("topology", "".join(f"{u} {v}\n" for u, v in links))
            want = run(["sim", *restamps, topology, put("sim", sim)])  # type: ignore[misc]
            got = run(["live", *restamps, topology, put("live", live)])  # type: ignore[misc]
            name = f"live as simulated, {len(nodes)} nodes, {packets} packets, {' '.join(restamps) or 'no restamps'}"  # type: ignore[arg-type]
            expect_all(name, got, want)
            count(f"{name}: fates", None if b" down " in want[0] and b" delivered " in want[0] else brief(want[0]))


@alone
@slow
@within(3_600)
def test_one_link() -> None:
    """A link between two nodes, and one of a chain with more nodes than processors."""
    for topology, subs in (("a b\n", ("sim", "live")), (chain(), ("live",))):
        files, want = marked_before(topology, PACKETS)
        for sub in subs:
            expect_all(f"a link that is down for every other packet, {sub}", run([sub, *files]), (want, b"", 0))


def next_ones(nodes: int, reach: int) -> str:
    """An adjacency list: a line for each node, with so many next ones, round and round."""
    return "".join(" ".join(f"n{(u + k) % nodes}" for k in range(reach + 1)) + "\n" for u in range(nodes))


def marked(ends: str, packet: str) -> Tuple[str, bytes, int]:
    """
    As many marks of a link as there may be and one more, a packet over the link after some of them and after all, and one over
    another link; the rows, and the line that is refused. A node that carries packets reads the board again and again.
    """
    u, v = ends.split()
    lines: List[str] = []
    rows: List[str] = []

    def sent(is_down: bool) -> None:
        lines.extend([f"inject {ends}", "drain"])
        rows.append(f"{len(rows)} 1 {ends} " + (f"0 down {ends} {u}" if is_down else f"1 delivered {ends}"))

    for i in range(CHANGES):
        lines.append(f"{'up' if i % 2 else 'down'} {u} {v}")
        if (i + 1) % MARKS_BETWEEN == 0:
            sent(i % 2 == 0)
    lines.append(f"up {u} {v}")
    refused = len(lines)
    sent(True)
    lines.extend([f"inject {packet}", "drain"])
    rows.append(f"{len(rows)} 1 {packet} 1 delivered {packet}")
    return "\n".join(lines) + "\n", ("\n".join(["trace 1", *rows]) + "\n").encode(), refused


@alone
@slow
@within(3_600)
def test_long_scripts() -> None:
    """As many changes as there may be, and one more, with packets between and after them; also of the last link where there are
    most."""
    for topology, words, ends, packet in (("a b\nb c\n", [], "a b", "b c"),
                                          (next_ones(*NET), ["--kind", "tree"], f"n{NET[0] - 2} n{NET[0] - 1}", "n0 n1")):
        script, rows, line = marked(ends, packet)
        files = [put("topology", topology), put("script", script)]
        for sub in ("sim", "live"):
            got = run([sub, *words, *files])  # type: ignore[misc]
            expect_all(f"{sub} with {CHANGES + 1} marks of {ends}", got, (rows, f"refused {line} TooManyChanges\n".encode(), 0))


@alone
@slow
@within(3_600)
def test_most_packets() -> None:
    """As many packets as there may be on a ring, left where they begin or delivered by a drain, and one more; and a ring of the
    most nodes, with a packet from each."""
    for nodes, behind, packets, drains in ((64, 31, PACKETS, False), (64, 31, PACKETS, True), (NET[0], 128, NET[0], True)):
        ways = [[f"n{(k + i) % nodes}" for i in range(behind + 1)] for k in range(packets)]
        one_more = packets == PACKETS
        script = "".join(f"inject {way[0]} {way[-1]}\n" for way in ways + ways[: one_more]) + ("drain\n" if drains else "")
        ends = [(behind, "delivered", way) if drains else (0, "left", way[:1]) for way in ways]
        rows = [f"{k} 1 {ways[k][0]} {ways[k][-1]} {weight} {fate} {' '.join(hops)}\n" for k, (weight, fate, hops) in enumerate(ends)]
        words = ["sim", "--capacity", "1024", put("topology", next_ones(nodes, 1)), put("script", script)]
        got, resident = measured(words)
        refused = f"refused {packets + 1} TooManyPackets\n" if one_more else ""
        want = ("trace 1\n" + "".join(rows)).encode(), refused.encode(), 0
        name = f"{packets} packets on a ring of {nodes}{', and a drain' if drains else ''}"
        expect_all(name, got, want)
        count(f"memory of {name}", f"{resident} bytes" if resident > PACKETS_BYTES else None)
    lines, rows = [], ["trace 1"]
    for k in range(PACKETS):
        u, v = f"n{k % 64}", f"n{(k + 1) % 64}"
        lines.append(f"inject {u} {v}")
        rows.append(f"{k} 1 {u} {v} 1 delivered {u} {v}")
    script = put("script", "\n".join([*lines, "drain"]) + "\n")
    got = run(["live", "--capacity", "1024", put("topology", next_ones(64, 1)), script])
    expect_all(f"one drain behind {PACKETS} packets of a live run", got, (("\n".join(rows) + "\n").encode(), b"", 0))


def pairs(edges: int) -> str:
    """An adjacency list of so many edges, each on a line, over as few nodes as will do; a and b are among them."""
    names = ["a", "b"] + [f"n{i}" for i in range(2, 2 + int((2 * edges) ** 0.5) + 2)]
    lines = [f"{u} {v}\n" for at, v in enumerate(names) for u in names[:at]]
    return "".join(lines[:edges])


@alone
@slow
@within(3_600)
def test_edges() -> None:
    """Adjacency lists of as many edges as fit, and of one more."""
    put("none", "")
    put("no-rows", "trace 1\n")
    files = [put("edges", pairs(GRAPH_EDGES)), put("more", pairs(GRAPH_EDGES + 1))]
    for sub, rest in (("plan", []), ("walk", []), ("stats", []), ("draw", []), ("sim", ["none"]), ("live", ["none"]),
                      ("check", ["none", "no-rows"])):
        words = [sub, "--kind", "tree", *(["--from", "a", "--to", "b"] if sub == "walk" else [])]
        line = f"topology {GRAPH_EDGES + 1} TooManyEdges\n".encode()
        expect_all(f"{sub} of too many edges", run([*words, files[1], *rest]), (b"", line, 1))  # type: ignore[misc]
        if rest:
            got = run([*words, files[0], *rest])  # type: ignore[misc]
            expect_all(f"{sub} of as many edges as fit", got, (b"", b"opening TooLarge\n", 1))


def few_threads() -> Callable[[], None]:
    """How to run the program where it may have few threads: by another user where this one is root, who has no such limit."""
    limit = 64

    def leave() -> None:
        resource.setrlimit(resource.RLIMIT_NPROC, (limit, limit))
        if os.geteuid() == 0:
            os.setgroups([])
            os.setgid(65534)
            os.setuid(65534)

    return leave


@alone
@slow
@within(3_600)
def test_no_thread() -> None:
    """A live run for whose threads the machine has no room says so, and ends."""
    names = [f"n{i}" for i in range(512)]
    files = [put("topology", "".join(f"{u} {v}\n" for u, v in zip(names, names[1:]))), put("script", "")]
    expect_all("a live run with room for its threads", run(["live", *files]), (b"trace 1\n", b"", 0))
    own = work("route-of-nobody")
    shutil.copy(program(), own)
    for path, mode in ((own, 0o755), (work(), 0o755)):
        os.chmod(path, mode)
    got = run(["sim", *files], program=own, preexec_fn=few_threads())
    expect_all("a simulation with few threads", got, (b"trace 1\n", b"", 0))
    got = run(["live", *files], program=own, preexec_fn=few_threads())
    expect_all("a live run without room for its threads", got, (b"", b"no thread\n", 3))
    got = run(["live", "--explain", *files], program=own, preexec_fn=few_threads())
    expect_all("the same, explained", got, (b"", b"no thread\nroute: a thread could not be started\n", 3))


@alone
@slow
@within(3_600)
def test_look_ups() -> None:
    """Rows are looked up by halves: the figures of a plan, with a look-up for each pair of nodes, take a few times the plan."""
    luck = random.Random(1)
    names = [f"n{i}" for i in range(ROW_NODES)]
    links = set(zip(names, names[1:]))
    while len(links) < 4 * ROW_NODES:
        one, other = luck.sample(names, 2)
        links.add((one, other))
    lines = [f"{u} {v} {luck.randrange(1, 65_536)}\n" for u, v in sorted(links)]
    topology = put("long-rows.edgelist", "".join(lines))
    took = {"plan": float(SECONDS), "stats": float(SECONDS)}
    for sub in ("plan", "stats") * LOOK_UP_RUNS:
        begun = resource.getrusage(resource.RUSAGE_CHILDREN).ru_utime
        _, faults, status = run([sub, "--format", "edgelist", "--threads", "1", topology])
        took[sub] = min(took[sub], resource.getrusage(resource.RUSAGE_CHILDREN).ru_utime - begun)
        count(f"{sub} of long rows", None if status == 0 and faults == b"" else f"status {status}, faults {brief(faults)}")
    count("look-ups", None if took["stats"] < MOST_STATS * took["plan"] else
          f"stats took {took['stats']:.2f} s, and plan {took['plan']:.2f} s")


@alone
@slow
@within(3_600)
def test_commands() -> None:
    """A line of a simulation alone is none of a live run."""
    topology = put("topology", "a b\nb c\n")
    for line in ("take a inbox", "take b from a", "act a", "read a 0", "learn 1"):
        script = put("script", f"inject a c\n{line}\ndrain\n")
        expect_all(f"live with {line}", run(["live", topology, script]), (b"", b"script 2 BadCommand\n", 1))
        output, _, status = run(["sim", topology, script])
        count(f"sim with {line}", None if status == 0 and output.startswith(b"trace 1\n0 1 a c 2") else f"status {status}")
