#!/usr/bin/env python3
"""Times of sweeps: a failure's cost, processes, and dask beside processes by turns. It needs NumPy, and dask for the last.

    sweeps.py cost [TURNS]       seconds of a processor a failure: of the program, and of Python with its figures
    sweeps.py each [TURNS]       milliseconds a failure of `stats --each links`, and of nodes, beside a plan and `stats`, without the start,
                                 and how many times that is with `--with tree`
    sweeps.py diff [TURNS]       milliseconds of `diff` beside those of `plan`: a link gone, labels made anew or kept
    sweeps.py processes [TURNS]  all single failures of random 128/256 by 1, 2 and 4 processes, by turns
    sweeps.py dask [TURNS]       tasks of 0.2 s by four processes and by four workers of dask, by turns
    sweeps.py memory             the greatest resident set of a process that makes rows of 1,584 nodes

Rows have medians. Seconds of a processor are those of all processes; under load they grow less than seconds by the clock.
"""
from __future__ import annotations

import concurrent.futures
import itertools
import pathlib
import random
import resource
import statistics
import subprocess
import sys
import tempfile
import time
from typing import Any

HERE = pathlib.Path(__file__).resolve().parent
sys.dont_write_bytecode = True
sys.path[:0] = [str(HERE.parent / "python"), str(HERE)]

import bentzolu  # noqa: E402
import networks  # noqa: E402

EXAMPLES = HERE.parent / "examples"


def made(family: Any, *numbers: Any) -> list[Any]:
    random.seed(1)
    return [link[:2] for link in networks.FAMILIES[family](*numbers)[1]]


def processor() -> tuple[Any, Any]:
    """Seconds of a processor of this process, and of those that it waited for."""
    own, others = resource.getrusage(resource.RUSAGE_SELF), resource.getrusage(resource.RUSAGE_CHILDREN)
    return own.ru_utime + own.ru_stime, others.ru_utime + others.ru_stime


def cost(turns: Any) -> None:
    nets = [("nsfnet 14/21", EXAMPLES / "nsfnet.edgelist", None), ("random 128/256", made("random", 128, 256), 40), ("random 256/1,024", made("random", 256, 1024), 10),
            ("constellation 1,584", EXAMPLES / "constellation.adjlist", 4)]
    for name, graph, count in nets:
        rows = list(itertools.islice(links_of(graph), count))
        for kind in ("shortest", "compact", "tree"):
            own, others = [], []
            for _ in range(turns):
                few, many = once(graph, [], kind), once(graph, rows, kind)
                own.append((many[0] - few[0]) / len(rows) * 1e3)
                others.append((many[1] - few[1]) / len(rows) * 1e3)
            print(f"{name}, {kind}: python {statistics.median(own):.1f} ms, program {statistics.median(others):.1f} ms", flush=True)


def links_of(graph: Any) -> list[Any]:
    from bentzolu.network import network_of

    net = network_of(graph)
    return [(net.nodes[u], net.nodes[v]) for u, v, _ in net.links]


def once(graph: Any, failures: Any, kind: Any) -> tuple[Any, Any]:
    before = processor()
    bentzolu.sweep(graph, failures, kind)
    after = processor()
    return after[0] - before[0], after[1] - before[1]


def took(*words: Any, text: Any = "") -> Any:
    """Milliseconds of a processor of a run of the program."""
    before = processor()[1]
    subprocess.run([bentzolu.find_program(), *words], input=text.encode(), stdout=subprocess.DEVNULL, check=True)
    return (processor()[1] - before) * 1e3


def each(turns: Any) -> None:
    nets = [("nsfnet 14/21", [(u, v) for u, v in links_of(EXAMPLES / "nsfnet.edgelist")]), ("random 128/256", made("random", 128, 256)),
            ("random 256/1,024", made("random", 256, 1024))]
    beside = ["--with", "tree"]
    asked = [["plan"], ["stats"], *(["stats", "--each", *rest] for rest in (["links"], ["links", *beside], ["nodes"], ["nodes", *beside]))]
    for name, links in nets:
        text = "".join(f"{u} {v} 1\n" for u, v in links)
        many = [1, 1, len(links) + 1, len(links) + 1, *[len({u for link in links for u in link}) + 1] * 2]
        for kind in ("shortest", "compact", "tree"):
            rows = []
            for _ in range(turns):
                start = took("--version")
                rows.append([(took(*words, "--kind", kind, "--format", "edgelist", "--threads", "1", "--quiet", "-", text=text) - start) / count
                             for words, count in zip(asked, many)])
            plan, stats, link, link_with, node, node_with = (statistics.median(column) for column in zip(*rows))
            print(f"{name}, {kind}: plan {plan:.2f} ms, stats {stats:.2f} ms, a link {link:.2f} ms, {link / plan:.1f} plans, with another plan "
                  f"{link_with / link:.2f} of that, a node {node:.2f} ms, {node / plan:.1f} plans, with {node_with / node:.2f} of that", flush=True)


def diff(turns: Any) -> None:
    nets = [("nsfnet 14/21", EXAMPLES / "nsfnet.edgelist"), ("random 1,024/4,096", made("random", 1024, 4096)),
            ("constellation 1,584", EXAMPLES / "constellation.adjlist")]
    with tempfile.TemporaryDirectory() as folder:
        for name, graph in nets:
            links = links_of(graph)
            old, new = (pathlib.Path(folder) / it for it in ("old", "new"))
            old.write_text("".join(f"{u} {v} 1\n" for u, v in links))
            new.write_text("".join(f"{u} {v} 1\n" for u, v in (*links[:len(links) // 2], *links[len(links) // 2 + 1:])))
            for kind in ("shortest", "compact"):
                rest = ["--kind", kind, "--format", "edgelist", "--threads", "1", "--quiet"]
                for one, both in (("depth-first", "depth-first"), ("tour", "keep")):  # a plan that keeps labels has those of a tour
                    rows = [(took("plan", "--numbering", one, *rest, str(old)), took("diff", "--numbering", both, *rest, str(old), str(new)))
                            for _ in range(turns)]
                    plan, change = (min(column) for column in zip(*rows))
                    print(f"{name}, {kind}, {both}: plan {plan:.1f} ms, diff {change:.1f} ms, {change / plan:.2f} plans", flush=True)


def processes(turns: Any) -> None:
    graph = made("random", 128, 256)
    found: Any = {}
    for _ in range(turns):
        for jobs in (1, 2, 4):
            before, began = processor(), time.perf_counter()
            with concurrent.futures.ProcessPoolExecutor(jobs) as pool:
                rows = bentzolu.sweep(graph, executor=pool)
            found.setdefault(jobs, []).append((time.perf_counter() - began, sum(processor()) - sum(before)))
            assert len(rows) == 256 and not rows.faults
    for jobs, times in found.items():
        clock, used = (statistics.median(it) for it in zip(*times))
        print(f"{jobs} processes: {clock:.2f} s, least {min(it[0] for it in times):.2f} s; {used:.2f} s of a processor", flush=True)


def spin(task: Any, part: Any) -> int:
    """0.2 s of a processor."""
    end = time.process_time() + 0.2
    while time.process_time() < end:
        pass
    return len(part)


def dask(turns: Any) -> None:
    import distributed
    from bentzolu.spreading import spread

    scheduler = subprocess.Popen([sys.executable, "-m", "distributed.cli.dask_scheduler", "--host", "127.0.0.1", "--port", "18786", "--no-dashboard"], stderr=subprocess.DEVNULL)
    command = [sys.executable, "-m", "distributed.cli.dask_worker", "tcp://127.0.0.1:18786", "--no-nanny", "--nthreads", "1", "--no-dashboard"]
    environment = {"PYTHONPATH": ":".join(sys.path), "PATH": "/usr/bin:/bin"}
    workers = [subprocess.Popen(command, stderr=subprocess.DEVNULL, env=environment) for _ in range(4)]
    graph = made("random", 128, 256)
    found: Any = {"processes": [], "dask": []}
    try:
        client_of: Any = distributed.Client
        with client_of("tcp://127.0.0.1:18786", timeout=120) as client, concurrent.futures.ProcessPoolExecutor(4) as pool:
            client.wait_for_workers(4, timeout=120)
            engines = {"processes": pool, "dask": client.get_executor(retries=3)}
            for turn in range(turns + 1):
                for name, engine in engines.items():
                    began = time.perf_counter()
                    spread(engine, spin, graph, [[i] for i in range(40)], lambda part, it: None, 3)
                    if turn:
                        found[name].append(time.perf_counter() - began)
    finally:
        for process in [*workers, scheduler]:
            process.kill()
            process.wait()
    for name, times in found.items():
        print(f"{name}: 40 tasks of 0.2 s by four: {statistics.median(times):.2f} s ({min(times):.2f} to {max(times):.2f})", flush=True)
    print(f"dask has {statistics.median(a / b for a, b in zip(found['processes'], found['dask'])):.2f} of the speed of processes")


def memory() -> None:
    for kind in ("shortest", "compact", "tree"):
        code = (
            f"import sys, resource; sys.path[:0] = {sys.path[:2]!r}; import bentzolu; "
            f"bentzolu.sweep({str(EXAMPLES / 'constellation.adjlist')!r}, [('0_0', '0_1'), ('5_5', '6_5'), '9_9'], {kind!r}); "
            "print(resource.getrusage(resource.RUSAGE_SELF).ru_maxrss // 1024)"
        )
        print(f"{kind}: {subprocess.run([sys.executable, '-c', code], capture_output=True, text=True, check=True).stdout.strip()} MB", flush=True)


def main() -> None:
    what, turns = sys.argv[1], int(sys.argv[2]) if len(sys.argv) > 2 else 3
    parts: Any = {"cost": cost, "each": each, "diff": diff, "processes": processes, "dask": dask, "memory": lambda _: memory()}
    parts[what](turns)


if __name__ == "__main__":
    main()
