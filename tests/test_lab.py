"""The lab, `python3 -m bentzolu lab`, and the other planes of docs/DATAPLANE.md; `tests/lab` runs it.

Over NSFNET: the script that `--print` prints, beside tests/golden/lab.nsfnet.sh; a change from the tree to shortest ways
under packets between all pairs, of which none may be lost or mixed; the same change in place, which has to differ; a link
that goes down meanwhile; and that no process and no namespace is left at the end, also where a signal ended it. Then the
rules that examples/openflow.awk writes, beside tests/golden/lab.nsfnet.flows and label by label beside `route plan`; and
examples/verilog: its words beside `route plan`, and its session over NSFNET.
"""
from __future__ import annotations

import os
import re
import shutil
import signal
import subprocess
import sys
import time
from typing import Any, Dict, Iterable, List, Optional, Sequence, Set, Tuple

from support.checks import count, skip
from support.marks import alone, root, slow, within
from support.places import TOP, built_program, why_no_program

sys.path.insert(0, os.path.join(TOP, "python"))
from bentzolu.texts import read_plan  # noqa: E402

MARK = f"BENTZOLU_LAB_TEST={os.getpid()}"  # in the environment of all processes of a lab
NSFNET = "examples/nsfnet.edgelist"
SECONDS = 240  # that one run may take
Rule = Tuple[int, int, int, str, int]  # priority, block, shift, actions before the port, port


def environment(**more: str) -> Dict[str, str]:
    """The variables under which the package is run."""
    return {**os.environ, "BENTZOLU_ROUTE": built_program(), "ROUTE": built_program(), "PYTHONPATH": os.path.join(TOP, "python"),
            "PYTHONDONTWRITEBYTECODE": "1", **more}


def is_skipped(name: str, checks: int) -> bool:
    """Whether there is no program; then so many checks are skipped."""
    why = why_no_program()
    if why:
        skip(name, why, checks)
    return bool(why)


def differs(found: str, wanted: str) -> Optional[str]:
    """The first line in which a text differs from the one that is wanted, or None."""
    if found == wanted:
        return None
    pairs: "zip[Tuple[Optional[str], Optional[str]]]" = zip([*found.splitlines(), None], [*wanted.splitlines(), None])
    return next((f"{one!r} in place of {other!r}" for one, other in pairs if one != other), "the ends of lines differ")


class Run:
    """One run of the lab, with what it printed; `spaces` are the network namespaces that it had."""

    def __init__(self, *words: str, ended_by: Optional[signal.Signals] = None) -> None:
        name, value = MARK.split("=")
        command = ["timeout", "--foreground", "-k", "5", str(SECONDS), sys.executable, "-m", "bentzolu", "lab"]
        command = command[5 if ended_by else 0 :]
        self.process = subprocess.Popen(
            [*command, *words, NSFNET], stdin=subprocess.DEVNULL, stdout=subprocess.PIPE, stderr=subprocess.PIPE, text=True,
            cwd=TOP, env=environment(**{name: value}))
        assert self.process.stdout is not None and self.process.stderr is not None
        self.spaces: Set[int] = set()
        self.lines: List[str] = []
        for line in self.process.stdout:
            self.lines.append(line.rstrip("\n"))
            if line == "stamped 1\n":
                self.spaces = spaces_of(processes())
                if ended_by:
                    self.process.send_signal(ended_by)
        self.told = self.process.stderr.read()
        self.status = self.process.wait()

    def figure(self, name: str) -> List[str]:
        """The words after the first word of a line of the report, or [] where it is missing."""
        return next((line.split()[1:] for line in self.lines if line.split()[0] == name), [])

    def refused(self) -> Optional[str]:
        """Why no lab can be built here, or None."""
        found = re.search(r"^lab: cannot run here: .*", self.told, flags=re.M)
        return found[0] if found else None

    def whole(self) -> Optional[str]:
        """What is wrong with a run in which nothing is to be lost or mixed."""
        if self.status != 0 or self.lines[-1:] != ["ok"]:
            return f"status {self.status}: {' / '.join(self.lines)} {self.told[-500:]}"
        return None

    def carried(self) -> Optional[str]:
        """What is wrong where not each epoch carried all pairs."""
        found = re.findall(r"^lab: epoch ([12]) carried (\d+) of 182 pairs$", self.told, flags=re.M)
        return None if found == [("1", "182"), ("2", "182")] else f"{found}"


def processes() -> List[str]:
    """The processes of the labs of this test."""
    found: List[str] = []
    for pid in filter(str.isdigit, os.listdir("/proc")):
        try:
            with open(f"/proc/{pid}/environ", "rb") as file:
                found += [pid] if MARK.encode() in file.read().split(b"\0") else []
        except OSError:
            pass
    return found


def spaces_of(pids: Iterable[str]) -> Set[int]:
    """The network namespaces of processes, and those that they have by name, but for the one of this test."""
    found: Set[int] = set()
    for pid in pids:
        folder = f"/proc/{pid}/root/run/netns"
        try:
            paths = [f"/proc/{pid}/ns/net"] + [os.path.join(folder, name) for name in os.listdir(folder)]
            found |= {os.stat(path).st_ino for path in paths}
        except OSError:
            pass
    return found - {os.stat("/proc/self/ns/net").st_ino}


def held() -> Set[int]:
    """The network namespaces that some process is in, or has by name."""
    found: Set[int] = set()
    for pid in filter(str.isdigit, os.listdir("/proc")):
        try:
            found.add(os.stat(f"/proc/{pid}/ns/net").st_ino)
            with open(f"/proc/{pid}/mountinfo") as file:
                found |= set(map(int, re.findall(r" net:\[(\d+)\] ", file.read())))
        except OSError:
            pass
    return found


def left(run: Run, least: int = 14) -> Optional[str]:
    """What is left of a run that had so many namespaces, a while after its end."""
    for _ in range(600):
        pids, spaces = processes(), run.spaces & held()
        if not pids and not spaces:
            return None if len(run.spaces) >= least else f"it had {len(run.spaces)} namespaces"
        time.sleep(0.1)
    return f"processes {pids}, namespaces {sorted(spaces)}"


@alone
@within(300)
def test_texts() -> None:
    """What needs no namespace: 2 checks."""
    if is_skipped("lab, its texts", 2):
        return
    run = Run("--print", "--root", "Houston")
    with open(os.path.join(TOP, "tests/golden/lab.nsfnet.sh"), encoding="utf-8") as file:
        count("--print", differs("".join(line + "\n" for line in run.lines), file.read()) or run.told)
    empty = subprocess.run(
        [sys.executable, "-m", "bentzolu", "lab", NSFNET], cwd=TOP, env=environment(PATH="/nowhere"), capture_output=True, text=True)
    why = "there is no ip" if os.geteuid() == 0 else "it wants root"
    fine = (empty.returncode, empty.stdout, empty.stderr) == (1, "", f"lab: cannot run here: {why}\n")
    count("a lab without its tools is refused", None if fine else repr(empty))


def quiet(*words: str) -> Run:
    """The first of three runs that is whole, else the last: a machine with other work may drop packets that it has no time for."""
    for _ in range(3):
        run = Run(*words)
        if run.refused() or not (run.whole() or run.carried()):
            break
    return run


@alone
@root
@slow
@within(900)
def test_changes() -> None:
    """Changes under traffic: 10 checks."""
    if is_skipped("lab, changes", 10):
        return
    run = quiet("--root", "Houston", "--kind", "tree", "--to", "shortest")
    why = run.refused()
    if why:
        skip("lab, changes", why, 10)
        return
    count("tree to shortest", run.whole())
    count("tree to shortest: lost and mixed", None if run.figure("lost") == run.figure("mixed") == ["0"] else run.lines)
    count("tree to shortest: all pairs in each epoch", run.carried())
    stream = run.figure("tcp")
    count("tree to shortest: the connection", None if len(stream) == 8 and stream[3] == stream[5] > "0" else stream)
    count("tree to shortest: what is left", left(run))
    runs: List[Run] = []
    while len(runs) < 3 and not any(run.lines[-1:] == ["differs"] and run.status == 1 for run in runs):
        runs.append(Run("--root", "Houston", "--in-place", "--seed", str(len(runs) + 1)))
    count("in place, which has to differ", None if runs[-1].lines[-1:] == ["differs"] else [run.lines for run in runs])
    run = quiet("--root", "Houston", "--down", "SaltLakeCity", "Boulder")
    over = run.figure("over")
    count("a link down", run.whole() or run.carried() or (None if over and int(over[0]) > 0 else f"over {over}"))
    for number in (signal.SIGTERM, signal.SIGKILL):
        run = Run("--root", "Houston", "--seconds", "60", ended_by=number)
        count(f"ended by {number.name}", left(run) or (None if run.status in (-number, 128 + number) else run.status))
    run = Run("--root", "Houston", "--run", "ip netns exec Seattle nft list map netdev bz ways; exit 3")
    fine = run.status == 1 and run.lines[-2:] == ["run 3", "differs"] and any("fd00:1::2 : goto mine" in line for line in run.lines)
    count("--run", left(run, 0) or (None if fine else run.lines))


def route(*words: str) -> str:
    """What the program prints."""
    return subprocess.run([built_program(), *words], cwd=TOP, stdout=subprocess.PIPE, text=True, check=True).stdout


def awk(script: str, text: str, *words: str, **variables: object) -> "subprocess.CompletedProcess[str]":
    """What a script of awk prints of a text."""
    command = ["awk", "-f", script, *(word for name, value in variables.items() for word in ("-v", f"{name}={value}")), *words]
    return subprocess.run(command, cwd=TOP, input=text, capture_output=True, text=True)


def rules_of(text: str) -> List[List[Rule]]:
    """For each bridge its rules, as pairs of a priority and a test of a label, with the port, of what openflow.awk writes."""
    rules: List[List[Rule]] = []
    for line in text.splitlines():
        found = re.fullmatch(
            r"cookie=2,table=1,priority=(\d+),ipv6,ipv6_dst=fd00:2::([0-9a-f]+)(?:/(\d+))?,actions=(.*?)(?:output:(\d+)|drop)?", line)
        if line.startswith("ovs-ofctl"):
            rules.append([])
        elif found:
            shift = 128 - int(found[3] or 128)
            rules[-1].append((int(found[1]), int(found[2], 16) >> shift, shift, found[4], int(found[5] or 0)))
    return rules


def match(rules: Sequence[Rule], label: int) -> Optional[Tuple[int, bool]]:
    """The port of the rule of the highest priority that a label meets, and how it gets there."""
    found = [rule for rule in rules if label >> rule[2] == rule[1]]
    best = max(found, default=(0, 0, 0, "", 0))
    return (best[4], best[3].startswith("dec_ttl")) if len({rule[0] for rule in found}) == len(found) else None


def test_openflow() -> None:
    """Rules of Open vSwitch: 5 checks."""
    if is_skipped("lab, openflow.awk", 5):
        return
    kept = ""
    for kind in ("tree", "shortest", "compact"):
        text = route("prefixes", "--kind", kind, "--root", "Houston", NSFNET)
        plan = read_plan(route("plan", "--kind", kind, "--root", "Houston", NSFNET))
        number = {node: k for k, node in enumerate(plan.nodes, 1)}
        rules = rules_of(awk("examples/openflow.awk", text, act="install", epoch=2).stdout)
        wrong: List[Any] = [] if len(rules) == len(plan.nodes) else [len(rules)]
        for node, its in zip(plan.nodes.values(), rules):
            wanted = [(65000, False) if label == node.label else (number[node.to(label)], True) for label in range(len(plan.nodes))]
            wrong += [(node.node, label) for label, want in enumerate(wanted) if match(its, label) != want]
        count(f"openflow.awk, {kind}", wrong[:5])
        if kind == "tree":
            kept = "".join(awk("examples/openflow.awk", text, act=act, epoch=1).stdout for act in ("install", "stamp", "retire"))
            cut = awk("examples/openflow.awk", text.rpartition(" ")[0], act="install", epoch=1)
    with open(os.path.join(TOP, "tests/golden/lab.nsfnet.flows"), encoding="utf-8") as file:
        count("openflow.awk, its text", differs(kept, file.read()))
    fine = cut.returncode == 2 and cut.stdout == "" and cut.stderr.startswith("openflow.awk: ")
    count("openflow.awk, a text that is cut short", None if fine else cut)


def words_differ(plan: Any, text: str) -> Optional[str]:
    """What of a text of memory.awk is not the plan, as $readmemh and interval_row.v read it."""
    head, *lines = text.splitlines()
    _, _, kind, nodes, bits, ports, most = head.split()
    if (kind, int(nodes)) != (plan.kind, len(plan.nodes)) or len(lines) != 2 * len(plan.nodes):
        return head
    for node, names, words in zip(plan.nodes.values(), lines[::2], lines[1::2]):
        name, *near = names.split()[1:]
        own, *row = [int(word, 16) for word in words.split()]
        pairs = [(word >> int(ports), near[word & (1 << int(ports)) - 1]) for word in row]
        if name != node.node or own != node.label or len(pairs) != int(most):
            return names
        for label in range(len(plan.nodes)):
            found = ([to for start, to in pairs if start <= label] or [pairs[-1][1]])[-1]
            if label != own and found != node.to(label):
                return f"{name}: {label} to {found}"
    return None


@slow
@within(300)
def test_verilog() -> None:
    """Switches in Verilog: 5 checks."""
    if is_skipped("lab, memory.awk", 5):
        return
    for kind in ("tree", "compact"):
        text = route("plan", "--kind", kind, "examples/nsfnet.adjlist")
        words = awk("examples/verilog/memory.awk", text, "examples/nsfnet.adjlist", "-", act="rows").stdout
        count(f"memory.awk, {kind}", words_differ(read_plan(text), words) if words else "no text")
    if not (shutil.which("iverilog") and shutil.which("vvp")):
        skip("relabel.session", "there is no iverilog", 3)
        return
    ran = subprocess.run(["examples/verilog/relabel.session", "nsfnet"], cwd=TOP, env=environment(), capture_output=True, text=True)
    epochs = re.findall(r"^C cycle \d+: epoch (\d) is at all switches", ran.stdout, flags=re.M)
    count("relabel.session: three epochs, twice", None if epochs == ["1", "2", "3"] * 2 else (ran.stdout, ran.stderr))
    lines = ran.stdout.splitlines()
    count("relabel.session: the trace", None if "ok 182" in lines else lines)
    found = [line for line in lines if re.fullmatch(r"finding \d+ NotAPrefix", line)]
    count("relabel.session: a switch with one row, which has to be found", None if len(found) == 1 else lines)
