"""Live runs that take long, whose threads are looked at and held."""
from __future__ import annotations

import ctypes
import os
import subprocess
import time
from typing import Callable, List, Tuple

from support.checks import count, skip
from support.route import Got, expect, put


def expect_all(name: str, got: Got, want: Got) -> None:
    """Output, faults and status are these."""
    expect(name, got, want[0], want[1], want[2])


NET = 1_024, 8  # the most nodes of a network, each linked to so many next ones: the most links, too
LIVE_SECONDS = 10  # the least that the long live runs take
SLEPT_INSTALLS = 100_000  # before the packets of the one whose nodes sleep while it is held
LONG_NODES = 300
ATTACH, DETACH, WAIT_ALL = 16, 17, 0x40000000  # of ptrace and waitpid on Linux


def hold(thread: int, seconds: float, meanwhile: Callable[[float], None] = time.sleep) -> bool:
    """Stops a thread of a child for so long, wherever it is, while something else is done; whether that could be done."""
    libc = ctypes.CDLL(None, use_errno=True)
    libc.ptrace.argtypes = [ctypes.c_long] * 4
    if libc.ptrace(ATTACH, thread, 0, 0) != 0:
        return False
    os.waitpid(thread, WAIT_ALL)
    meanwhile(seconds)
    return bool(libc.ptrace(DETACH, thread, 0, 0) == 0)


def can_hold() -> bool:
    """Whether this machine lets a thread of a child be held at all, tried on a child that sleeps."""
    child = subprocess.Popen(["sleep", "60"])
    try:
        return hold(child.pid, 0)
    except OSError:
        return False
    finally:
        child.kill()
        child.wait()


def not_held(name: str) -> None:
    """Where no thread was held nothing was tested: a failure, and on a machine that lets none be held a check that is
    skipped, and counted so."""
    if can_hold():
        count(name, "no thread was held")
    else:
        skip(name, "this machine lets no thread be held")


def in_a_row(nodes: int = LONG_NODES) -> List[str]:
    """The names of nodes in a row, a and b the first two."""
    return ["a", "b", *(f"n{i}" for i in range(2, nodes))]


def chain(nodes: int = LONG_NODES) -> str:
    """The links of such a row: enough that a plan that can't be takes its time."""
    return "".join(f"{u} {v}\n" for u, v in zip(in_a_row(nodes), in_a_row(nodes)[1:]))


def waiting(times: int, nodes: int = 2) -> str:
    """A script over that row that asks for so many plans that there can't be, and then sends a packet each way."""
    cut = " ".join(in_a_row(nodes)[-2:])  # the last link: all the others are searched for each plan
    return f"down {cut}\n" + "install tree a\n" * times + f"up {cut}\ninject a b\ninject b a\ndrain\n"


def threads_of(process: "subprocess.Popen[bytes]") -> List[int]:
    """The threads of a program beside its first."""
    return [int(task) for task in os.listdir(f"/proc/{process.pid}/task") if int(task) != process.pid]


def seconds_of(path: str) -> float:
    """The processor time of a process or a thread so far, in seconds."""
    with open(os.path.join(path, "stat"), encoding="utf-8") as file:
        fields = file.read().rpartition(")")[2].split()
    return (int(fields[11]) + int(fields[12])) / os.sysconf("SC_CLK_TCK")


def seconds_of_nodes(process: "subprocess.Popen[bytes]") -> float:
    """The processor time of the nodes of a live run so far: of all its threads but the first, which commands them."""
    whole = f"/proc/{process.pid}"
    return seconds_of(whole) - seconds_of(f"{whole}/task/{process.pid}")


def are_asleep(process: "subprocess.Popen[bytes]", threads: List[int]) -> bool:
    """Whether each of these threads waits for something, and none runs or would run if it had a processor."""
    for thread in threads:
        with open(f"/proc/{process.pid}/task/{thread}/stat", encoding="utf-8") as file:
            if file.read().rpartition(")")[2].split()[0] != "S":
                return False
    return True


def pins() -> List[List[int]]:
    """One of the processors that this test may use, two of them, and all; each choice once."""
    mine = sorted(os.sched_getaffinity(0))
    return [mine[:few] for few in sorted({1, min(2, len(mine)), len(mine)})]


def marked_before(topology: str, packets: int) -> Tuple[List[str], bytes]:
    """A topology and a script that marks a link before each packet, and the rows: each ends as the link is then."""
    lines, rows = [], ["trace 1"]
    for i in range(packets):
        lines += ["up a b" if i % 2 else "down a b", "inject a b", "drain"]
        rows.append(f"{i} 1 a b 1 delivered a b" if i % 2 else f"{i} 1 a b 0 down a b a")
    files = [put("topology", topology), put("script", "\n".join(lines) + "\n")]
    return files, "".join(row + "\n" for row in rows).encode()
