"""Topologies as network namespaces of Linux: by the commands of examples/netns.awk, from what `route` prints.

For `run` beside it and for tests/dataplane, which give it a mount namespace of its own with an empty /run, so that its
namespaces go when it ends, however it ends. They have a tag of their own too, since /etc/netns is everyone's.
"""
from __future__ import annotations

import concurrent.futures
import os
import pathlib
import re
import signal
import subprocess
from typing import Any

TOP = pathlib.Path(__file__).resolve().parents[2]
NETNS = TOP / "examples/netns.awk"
TAG = f"bz{os.getpid()}-"  # of the namespaces' names
TRIES = 3  # of a walk some of whose nodes gave no answer
MOST_FAULTS = 10  # of a plan; then the rest of its pairs is not tried, and counts as wrong


def stop_on_signals() -> None:
    """Lets a signal end the program by an exception, so that what it made is removed."""

    def stop(number: Any, _: Any) -> None:
        raise SystemExit(128 + number)

    for number in (signal.SIGHUP, signal.SIGTERM):
        signal.signal(number, stop)


def script(act: Any, text: Any, **variables: Any) -> Any:
    """The commands of an act of netns.awk over a text."""
    words = ["awk", "-f", str(NETNS), "-v", f"act={act}", "-v", f"tag={TAG}"]
    for name, value in variables.items():
        words += ["-v", f"{name}={value}"]
    return subprocess.run(words, input=text, stdout=subprocess.PIPE, text=True, check=True).stdout


def play(commands: Any) -> None:
    """Runs commands, the first that fails ends it."""
    subprocess.run(["sh", "-e"], input=commands, text=True, check=True)


class Plan:
    """One plan of a topology: its prefixes as text, the labels of its nodes, and its walks by `route walk`."""

    def __init__(self, program: Any, topology: Any, *words: Any) -> None:
        self.program, self.topology, self.words = str(program), str(topology), list(words)
        self.prefixes = self.route("prefixes")
        head, *rows = self.prefixes.splitlines()
        _, self.kind, count, _, lines = head.split(" ")
        self.lines = int(lines)
        self.label = {row.split(" ")[0]: int(row.split(" ")[1]) for row in rows}
        if len(self.label) != int(count):
            raise SystemExit("the text of route prefixes has another number of nodes than it says")
        self.at = {label: node for node, label in self.label.items()}
        self.known: dict[Any, Any] = {}

    def route(self, subcommand: Any, *words: Any) -> Any:
        command = [self.program, subcommand, *self.words, *words, self.topology]
        return subprocess.run(command, stdout=subprocess.PIPE, text=True, check=True).stdout

    def walk(self, source: Any, dest: Any) -> Any:
        if (source, dest) not in self.known:
            rows = self.route("walk", "--from", source, "--to", dest).splitlines()[1:]
            self.known[source, dest] = [row.split(" ")[0] for row in rows]
        return self.known[source, dest]

    def pairs(self) -> list[Any]:
        return [(a, b) for a in self.label for b in self.label if a != b]


def address(epoch: Any, label: Any) -> str:
    return f"fd00:{epoch:x}::{label:x}"


def parts(text: Any) -> Any:
    """The epoch and the label of an address as the kernel writes it, or None."""
    found = re.fullmatch(r"fd00:([0-9a-f]+)::([0-9a-f]*)", text)
    return found and (int(found[1], 16), int(found[2] or "0", 16))


class Lab:
    """The namespaces of a topology while a `with` lasts."""

    def __init__(self, topology: Any, form: Any) -> None:
        self.text, self.form = pathlib.Path(topology).read_text(), form

    def __enter__(self) -> Any:
        try:
            play(script("up", self.text, format=self.form))
        except BaseException:
            self.__exit__()
            raise
        return self

    def __exit__(self, *_: Any) -> None:
        subprocess.run(["sh"], input=script("down", self.text, format=self.form), text=True, stderr=subprocess.DEVNULL)

    def install(self, plan: Any, epoch: Any, **more: Any) -> None:
        play(script("install", plan.prefixes, epoch=epoch, **more))

    def retire(self, plan: Any, epoch: Any, **more: Any) -> None:
        play(script("retire", plan.prefixes, epoch=epoch, **more))

    def inside(self, node: Any, *words: Any) -> Any:
        """What a command prints in a node's namespace."""
        command = ["ip", "netns", "exec", TAG + node, *words]
        return subprocess.run(command, stdout=subprocess.PIPE, stderr=subprocess.STDOUT, text=True).stdout

    def traced(self, plan: Any, epoch: Any, source: Any, dest: Any) -> Any:
        """The nodes that traceroute finds, where it is node after node of this epoch; else its texts."""
        most, to = str(min(255, len(plan.label))), address(epoch, plan.label[dest])
        words = ["-6", "-n", "-q", "1", "-N", "16", "-w", "1", "-m", most, to]
        lines = self.inside(source, "traceroute", *words).splitlines()
        way = [source]
        for line in lines[1:]:
            found = parts(line.split()[1]) if len(line.split()) > 2 else None
            way.append(plan.at.get(found[1], line) if found and found[0] == epoch else line)
        return way if lines[1:] else lines

    def follows(self, plan: Any, epoch: Any, source: Any, dest: Any) -> Any:
        """None where the way of a packet is the plan's walk; else what is wrong."""
        want = plan.walk(source, dest)
        for _ in range(TRIES):
            way = self.traced(plan, epoch, source, dest)
            if way == want:
                return None
            if not any(isinstance(hop, str) and "*" in hop for hop in way):
                break
        return f"{plan.kind}, {source} to {dest}: {want} in the plan, {way} in the kernel"

    def faults(self, plan: Any, epoch: Any, jobs: Any = 4) -> tuple[int, list[Any]]:
        """All ordered pairs by traceroute: how many, and of those whose way isn't the plan's walk what is wrong."""
        pairs, faults = plan.pairs(), []  # type: ignore[var-annotated]

        def fault(pair: Any) -> Any:
            if len(faults) >= MOST_FAULTS:
                return f"{plan.kind}, {pair[0]} to {pair[1]}: not tried after so many faults"
            found = self.follows(plan, epoch, *pair)
            faults.extend([found] if found else [])
            return found

        with concurrent.futures.ThreadPoolExecutor(jobs) as pool:
            return len(pairs), [found for found in pool.map(fault, pairs) if found]

    @staticmethod
    def neighbour(device: Any) -> Any:
        """The node that a port leads to, by the port's name; for names that do as names of ports."""
        return device
