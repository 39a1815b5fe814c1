#!/usr/bin/env python3
"""How long a fleet takes, on a machine without other work. The status is above 0 where it takes longer than docs/FLEET.md wants.

    bench/fleet.py [SIDE [PROCESSES]]      agents in great numbers, without kernels: a grid of SIDE x SIDE routers (32), in so
                                           many processes (4), from what is wanted to the stamp of all
    bench/fleet.py real                    agents of routers in namespaces, as root: changes of NSFNET and of a grid of 64, and
                                           links that break (tests/fleet times and times-grid)

It wants Debian's etcd-server and the built program (crates/route/out/route, or that of the variable BENTZOLU_ROUTE).
"""
import asyncio
import json
import multiprocessing
import os
import pathlib
import resource
import subprocess
import sys
import tempfile
import time

TOP = pathlib.Path(__file__).resolve().parents[1]
sys.path.insert(0, str(TOP / "python"))
from bentzolu import fleet  # noqa: E402
from bentzolu.fleet_agent import Agent, AgentTimes  # noqa: E402
from bentzolu.fleet_etcd import Access, Etcd  # noqa: E402
from bentzolu.fleet_kernel import Nowhere  # noqa: E402
from bentzolu.fleet_run import Runner  # noqa: E402

GRACE = 0.3  # seconds between the last stamp and the floor
MOST = 10  # seconds from the begin of a change to the last stamp
ENDPOINT = "http://127.0.0.1:23790"


def grid(side):
    lines = []
    for r in range(side):
        for c in range(side):
            near = ([f"{r}_{c + 1}"] if c + 1 < side else []) + ([f"{r + 1}_{c}"] if r + 1 < side else [])
            lines.append(" ".join([f"{r}_{c}", *near]))
    return "".join(f"{line}\n" for line in lines)


def some(nodes, carried):
    """Agents of these nodes, on one loop."""
    async def all_of_them():
        clients = []
        for i, node in enumerate(nodes):
            clients.append(Etcd(Access([ENDPOINT])))
            runner = Runner(clients[-1], lambda what, **about: None)
            runner.machine = Agent(node, runner, Nowhere(), f"b{os.getpid()}-{i}", node, AgentTimes(lease=60, probe=15, call=30))
            runner.machine.start()
            await asyncio.sleep(0.004)
        while True:
            await asyncio.sleep(0.2)
            carried[0], carried[1] = sum(it.bytes_in for it in clients), sum(it.bytes_out for it in clients)
    asyncio.run(all_of_them())


def main():
    if sys.argv[1:] == ["real"]:
        return max(subprocess.run([TOP / "tests/fleet", name], check=False).returncode for name in ("times", "times-grid"))
    side, processes = (int(it) for it in [*sys.argv[1:3], "32", "4"][:2]) if len(sys.argv) < 3 else map(int, sys.argv[1:3])
    resource.setrlimit(resource.RLIMIT_NOFILE, (resource.getrlimit(resource.RLIMIT_NOFILE)[1],) * 2)
    os.environ.setdefault("BENTZOLU_ROUTE", str(TOP / "crates/route/out/route"))
    running = []
    with tempfile.TemporaryDirectory(prefix="bentzolu-fleet-") as folder:
        path = pathlib.Path(folder)
        try:
            return measure(path, side, processes, running)
        finally:
            for it in running:
                it.terminate()
            for it in running:
                it.join() if hasattr(it, "join") else it.wait()


def measure(path, side, processes, running):
    text = grid(side)
    (path / "net.adjlist").write_text(text)
    conf = path / "fleet.conf"
    conf.write_text(f"[etcd]\nendpoints = {ENDPOINT}\n[controller]\nlease = 20\n[log]\nformat = json\n")
    running.append(subprocess.Popen(["etcd", "--data-dir", str(path / "data"), "--listen-client-urls", ENDPOINT, "--advertise-client-urls", ENDPOINT,
                                     "--listen-peer-urls", "http://127.0.0.1:23800", "--initial-advertise-peer-urls", "http://127.0.0.1:23800",
                                     "--initial-cluster", "default=http://127.0.0.1:23800", "--log-level", "error", "--logger", "zap"]))
    desk = ["--config", str(conf)]

    def word(*words):
        return subprocess.run([sys.executable, "-m", "bentzolu", "fleet", *words, *desk], capture_output=True, text=True, check=False,
                              env={**os.environ, "PYTHONPATH": str(TOP / "python")})
    for _ in range(30):
        done = word("enroll", str(path / "net.adjlist"))
        if done.returncode == 0:
            break
        time.sleep(1)
    print(done.stdout.strip() or done.stderr.strip(), flush=True)
    nodes = list(fleet.shape_of(text, "adjlist").nodes)
    sums = [multiprocessing.Array("q", 2) for _ in range(processes)]
    for i in range(processes):
        running.append(multiprocessing.get_context("fork").Process(target=some, args=(nodes[i::processes], sums[i]), daemon=True))
        running[-1].start()
    start = time.monotonic()
    while json.loads(word("status", "--json").stdout or '{"members": [{"live": false}]}')["members"][-1:] == [] or \
            not all(it["live"] for it in json.loads(word("status", "--json").stdout)["members"]):
        time.sleep(1)
    print(f"{len(nodes)} agents are there in {time.monotonic() - start:.1f} s", flush=True)
    log, all_took = open(path / "controller.log", "w+", encoding="ascii"), []
    running.append(subprocess.Popen([sys.executable, "-m", "bentzolu", "controller", *desk], stdout=log, stderr=log,
                                    env={**os.environ, "PYTHONPATH": str(TOP / "python")}))
    for kind in ("tree", "shortest", "tree", "shortest"):
        before = [sum(it[i] for it in sums) for i in (0, 1)]
        start = time.monotonic()
        done = word("want", "--kind", kind, "--wait", "120")
        said = done.stdout.splitlines()[-1] if done.returncode == 0 else done.stderr.strip()[:300]
        time.sleep(6)  # the floor follows
        lines = [json.loads(line) for line in (path / "controller.log").read_text().splitlines() if line.startswith("{")]
        at = {it["what"]: it["t"] for it in lines if it["t"] > start and it["what"] in ("begun", "compiled", "committed", "flipped", "floor")}
        times = {what: when - at["begun"] for what, when in at.items() if what != "floor"}
        took = at.get("floor", float("inf")) - GRACE - at["begun"]
        all_took.append(took)
        carried = [sum(it[i] for it in sums) - was for i, was in enumerate(before)]
        print(f"{kind}: {said}: " + ", ".join(f"{what} {at:.2f}" for what, at in times.items()) + f", stamped by all {took:.2f} s; "
              f"{carried[0] / 1e6:.1f} MB to agents, {carried[1] / 1e6:.1f} MB from them", flush=True)
    median = sorted(all_took)[len(all_took) // 2]
    print(f"{'ok' if median <= MOST else 'too long'}: from begun to the stamps of all {median:.2f} s in the median, {max(all_took):.2f} at most; {MOST} may be")
    return int(median > MOST)


if __name__ == "__main__":
    sys.exit(main())
