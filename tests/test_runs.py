"""Live runs that are long, whose nodes sleep, wake and are held; `tests/runs` runs it."""
from __future__ import annotations

import os
import random
import subprocess
import time
from typing import List, Optional, Tuple

from support.checks import count, say
from support.limits import PACKETS, SECONDS
from support.living import (
    LIVE_SECONDS, LONG_NODES, NET, SLEPT_INSTALLS, are_asleep, chain, expect_all, hold, in_a_row,
    marked_before, not_held, pins, seconds_of, seconds_of_nodes, threads_of, waiting,
)
from support.marks import alone, built, slow, within
from support.places import program, work
from support.route import Got, brief, put, run

pytestmark = [built]


HELD_RUNS, HOLDS, HELD_SECONDS = 3, 500, 0.000_2  # live runs whose nodes are held, how often, and for how long
IDLE_SECONDS, IDLE_SHARE = 5, 0.02  # how long idle nodes are watched, and the most that they may take of one processor
MOST_INSTALLS = 1_000_000  # of a script: so many are the most that the program reads
WAITS, WAIT_SECONDS, WAIT_LOOKS = 3, 2, 20  # how often a node is held, how long, and how often its drain is looked at then
STILL_LOOKS = 10  # a second apart, at which a live run that hangs is found still
BUSY_SECONDS, WAITING_SECONDS = 60, 1_800  # the most that such a run may take of the processors, and in all


def timed_run(times: int, nodes: int) -> Tuple[float, Got, int]:
    """A live run of that script: how long it took, what came of it, and the most threads that it had."""
    words = ["live", put("long/topology", chain(nodes)), put("long/script", waiting(times, nodes))]
    output, faults = (work(name) for name in ("long/output", "long/faults"))
    begun, threads = time.monotonic(), 0
    with open(output, "wb") as out, open(faults, "wb") as told:
        process = subprocess.Popen([program(), *words], cwd=work(), stdin=subprocess.DEVNULL, stdout=out, stderr=told)
        while process.poll() is None and time.monotonic() - begun < SECONDS:
            try:
                threads = max(threads, len(os.listdir(f"/proc/{process.pid}/task")))
            except OSError:
                pass
            time.sleep(0.01)
        status = process.poll()
        if status is None:
            process.kill()
            process.wait()
            status = "hangs"  # type: ignore[assignment]
    with open(output, "rb") as out, open(faults, "rb") as told:
        return time.monotonic() - begun, (out.read(), told.read(), status), threads  # type: ignore[return-value]


@alone
@slow
@within(3_600)
def test_long_run() -> None:
    """The nodes are there for ten seconds, each on a thread of its own, and then two of them carry two packets."""
    os.makedirs(work("long"))
    nodes, times, took = LONG_NODES, 1_000, 0.0
    while took < LIVE_SECONDS and (nodes, times) != (NET[0], MOST_INSTALLS):
        more = 10 if took < 0.5 else 1.2 * LIVE_SECONDS / took
        if times == MOST_INSTALLS:  # a fast machine: more nodes, over which each plan is searched for
            more, nodes = more * nodes / NET[0], NET[0]
        times = min(MOST_INSTALLS, int(times * more) + 1)
        took, got, threads = timed_run(times, nodes)
        if got[2] != 0:
            break
    rows = b"trace 1\n0 1 a b 1 delivered a b\n1 1 b a 1 delivered b a\n"
    refusals = "".join(f"refused {line} Disconnected\n" for line in range(2, times + 2)).encode()
    expect_all(f"a live run of {took:.0f} s", got, (rows, refusals, 0))
    count("it takes long", None if took >= LIVE_SECONDS else f"it took {took:.1f} s with {times} installs")
    count("its threads", None if threads > nodes else f"the most were {threads}")


@alone
@slow
@within(3_600)
def test_long_sleep() -> None:
    """Two nodes sleep for ten seconds, while the thread that commands them is held, and then carry two packets."""
    files = [put("topology", "a b\n"), put("script", waiting(SLEPT_INSTALLS))]
    output, is_held = work("slept"), False
    with open(output, "wb") as out:
        process = subprocess.Popen([program(), "live", *files], cwd=work(), stdin=subprocess.DEVNULL, stdout=out,
                                   stderr=subprocess.DEVNULL)
        begun = time.monotonic()
        while process.poll() is None and not is_held and time.monotonic() - begun < SECONDS:
            try:
                is_held = len(threads_of(process)) == 2 and hold(process.pid, LIVE_SECONDS)
            except OSError:
                pass
        try:
            status = process.wait(SECONDS)
        except subprocess.TimeoutExpired:
            process.kill()
            status = process.wait()
    with open(output, "rb") as out:
        got = out.read()
    want = b"trace 1\n0 1 a b 1 delivered a b\n1 1 b a 1 delivered b a\n"
    count("a long sleep", None if (got, status) == (want, 0) else f"status {status}, {brief(got)}")
    if not is_held:
        not_held("long_sleep")


def watched(process: "subprocess.Popen[bytes]", nodes: int) -> Tuple[float, Optional[str]]:
    """The processor time of the nodes of a live run from when they all sleep, and what was wrong."""
    begun = time.monotonic()
    while process.poll() is None and time.monotonic() - begun < SECONDS:
        threads = threads_of(process)
        if len(threads) == nodes and are_asleep(process, threads):
            before = seconds_of_nodes(process)
            time.sleep(IDLE_SECONDS)
            took = seconds_of_nodes(process) - before
            return took, None if process.poll() is None else "the run ended while it was watched"
        time.sleep(0.1)
    return 0, f"there was no time at which all {nodes} slept"


@alone
@slow
@within(3_600)
def test_idle() -> None:
    """As many nodes as there may be take next to no time while nothing comes to them: the thread that commands them is busy."""
    files = [put("topology", chain(NET[0])), put("script", waiting(MOST_INSTALLS, NET[0]))]
    process = subprocess.Popen([program(), "live", *files], cwd=work(), stdin=subprocess.DEVNULL, stdout=subprocess.DEVNULL,
                               stderr=subprocess.DEVNULL)
    try:
        took, fault = watched(process, NET[0])
    finally:
        process.kill()
        process.wait()
    most = IDLE_SECONDS * IDLE_SHARE
    count("nodes that are idle", fault or (None if took < most else f"{took:.2f} s of {IDLE_SECONDS}, and not {most:.2f}"))


def is_still(process: "subprocess.Popen[bytes]", took: float) -> bool:
    """Whether all threads of a process sleep, and its processor time is what it was."""
    try:
        return seconds_of(f"/proc/{process.pid}") == took and are_asleep(process, [process.pid, *threads_of(process)])
    except OSError:  # a thread has ended meanwhile
        return False


def live_run(files: List[str], processors: List[int]) -> Got:
    """
    Output, faults (none: they are in the output) and status of a live run on these processors. Its status is `hangs`
    where it was still at so many looks in turn: a machine with other work may make it wait long for a processor. It is
    `hangs`, too, where it takes far more time than it has work for.
    """
    output, looks, took = work("live"), 0, 0.0
    with open(output, "wb") as out:
        process = subprocess.Popen([program(), "live", *files], cwd=work(), stdin=subprocess.DEVNULL, stdout=out, stderr=out,
                                   preexec_fn=lambda: os.sched_setaffinity(0, processors))
        begun = time.monotonic()
        while looks < STILL_LOOKS and took < BUSY_SECONDS and time.monotonic() - begun < WAITING_SECONDS:
            try:
                process.wait(1)
                break
            except subprocess.TimeoutExpired:
                looks = looks + 1 if is_still(process, took) else 0
                took = seconds_of(f"/proc/{process.pid}")
        status = process.poll()
        if status is None:
            process.kill()
            process.wait()
    with open(output, "rb") as out:
        return out.read(), b"", "hangs" if status is None else status


def way_up(fathers: List[int], u: int) -> List[int]:
    """From a node of a tree to its root, which is its own father."""
    up = [u]
    while fathers[up[-1]] != up[-1]:
        up.append(fathers[up[-1]])
    return up


def way(fathers: List[int], u: int, v: int) -> List[int]:
    """The one way between two nodes of a tree."""
    up, down = way_up(fathers, u), way_up(fathers, v)
    while len(up) > 1 and len(down) > 1 and up[-2] == down[-2]:
        up.pop()
        down.pop()
    return up + down[-2::-1]


def few_at_a_time(fathers: List[int], together: int, packets: int) -> Tuple[str, bytes]:
    """
    A script and its rows. So many packets go to one node before each drain, the first of them from where the last ones
    ended: from a node that is about to sleep. So are those at which two of them meet.
    """
    luck, at = random.Random(len(fathers)), 0
    lines: List[str] = []
    rows: List[str] = []

    def another(u: int) -> int:
        return (u + luck.randrange(1, len(fathers))) % len(fathers)

    while len(rows) < packets:
        to = another(at)
        for u in (at, *(another(to) for _ in range(together - 1))):
            hops = [f"n{hop}" for hop in way(fathers, u, to)]
            lines.append(f"inject n{u} n{to}")
            rows.append(f"{len(rows)} 1 n{u} n{to} {len(hops) - 1} delivered {' '.join(hops)}")
        lines.append("drain")
        at = to
    return "\n".join(lines) + "\n", ("\n".join(["trace 1", *rows]) + "\n").encode()


@alone
@slow
@within(3_600)
def test_woken() -> None:
    """A node wakes for what comes to it, and a drain for what ends, on one, two and all processors: else the run hangs."""
    row, tree = [max(0, u - 1) for u in range(LONG_NODES)], [max(0, u - 1) // 2 for u in range(NET[0])]
    for about, fathers, together, packets in (("a chain", row[:3], 1, 2_000), ("a chain", row[:3], 8, 4_000),
                                              ("a chain", row, 1, 100), ("a star", [0] * 9, 8, 4_000),
                                              ("a tree", tree[:31], 4, 4_000), ("a tree", tree, 4, 1_000),
                                              ("a tree", tree, 1, 1_000)):
        topology = put("topology", "".join(f"n{father} n{u}\n" for u, father in enumerate(fathers) if father != u))
        script, rows = few_at_a_time(fathers, together, packets)
        files = [topology, put("script", script)]
        for processors in pins():
            name = f"{about} of {len(fathers)} nodes, {together} at a time, processors {processors}"
            expect_all(name, live_run(files, processors), (rows, b"", 0))


def held_run(files: List[str], luck: random.Random) -> Tuple[bytes, int]:
    """What a live run prints while one of its nodes after another is held, and how often that could be done."""
    output, holds = work("held"), 0
    with open(output, "wb") as out:
        process = subprocess.Popen([program(), "live", *files], cwd=work(), stdin=subprocess.DEVNULL, stdout=out,
                                   stderr=subprocess.STDOUT)
        begun = time.monotonic()
        while process.poll() is None and holds < HOLDS and time.monotonic() - begun < SECONDS:
            try:
                nodes = threads_of(process)
                holds += bool(nodes) and hold(luck.choice(nodes), HELD_SECONDS)
            except OSError:
                pass
        try:
            process.wait(SECONDS)
        except subprocess.TimeoutExpired:
            process.kill()
            process.wait()
    with open(output, "rb") as out:
        return out.read(), holds


@alone
@slow
@within(3_600)
def test_held() -> None:
    """While nodes are held between any two of their steps, each packet ends as the link is that was marked before it."""
    files, want = marked_before("a b\n", PACKETS)
    luck, all_holds = random.Random(2), 0
    for _ in range(HELD_RUNS):
        got, holds = held_run(files, luck)
        all_holds += holds
        lines = zip(got.split(b"\n"), want.split(b"\n"))
        wrong = None if got == want else next((f"{one} in place of {two}" for one, two in lines if one != two), brief(got))  # type: ignore[str-bytes-safe]
        count("nodes that are held", wrong)
    if all_holds:
        say(f"held: nodes were held {all_holds} times")
    else:
        not_held("held")


def waited(process: "subprocess.Popen[bytes]", luck: random.Random, sleeps: List[int]) -> None:
    """Holds a node of a live run, and adds how often its drain is found asleep meanwhile."""
    def watch(seconds: float) -> None:
        asleep = 0
        for _ in range(WAIT_LOOKS):
            time.sleep(seconds / WAIT_LOOKS)
            asleep += are_asleep(process, [process.pid])
        sleeps.append(asleep)

    try:
        nodes = threads_of(process)
        if len(nodes) == 2:
            hold(luck.choice(nodes), WAIT_SECONDS, watch)
    except OSError:  # it has ended
        pass


def one_by_one() -> Tuple[str, bytes]:
    """A script of packets from one end of the row to each node, with one drain, for which they end one by one, and the rows."""
    names = in_a_row()
    ways = [names[: k + 1] for k in range(1, len(names))]
    rows = [f"{k} 1 a {way[-1]} {len(way) - 1} delivered {' '.join(way)}\n" for k, way in enumerate(ways)]
    return "".join(f"inject a {way[-1]}\n" for way in ways) + "drain\n", ("trace 1\n" + "".join(rows)).encode()


@alone
@slow
@within(3_600)
def test_drains() -> None:
    """While a node is held, the thread that waits for its packet sleeps; and a drain waits until the last packet has ended."""
    files, want = marked_before("a b\n", PACKETS)
    output, luck = work("drains"), random.Random(3)
    sleeps: List[int] = []
    with open(output, "wb") as out:
        process = subprocess.Popen([program(), "live", *files], cwd=work(), stdin=subprocess.DEVNULL, stdout=out,
                                   stderr=subprocess.STDOUT)
        begun = time.monotonic()
        while process.poll() is None and len(sleeps) < WAITS and time.monotonic() - begun < SECONDS:
            waited(process, luck, sleeps)
        try:
            process.wait(SECONDS)
        except subprocess.TimeoutExpired:
            process.kill()
            process.wait()
    with open(output, "rb") as out:
        got = out.read()
    count("drains that wait for a node that is held", None if got == want else brief(got))
    for asleep in sleeps:
        count("a drain that waits", None if 2 * asleep > WAIT_LOOKS else f"it slept at {asleep} of {WAIT_LOOKS} looks")
    if not sleeps:
        not_held("drains")
    script, want = one_by_one()
    got = run(["live", "--capacity", "1024", put("topology", chain()), put("script", script)])  # type: ignore[assignment]
    expect_all("one drain behind packets that end one by one", got, (want, b"", 0))  # type: ignore[arg-type]
