"""Plans in parts, each of some nodes and made apart, on any engine."""
from __future__ import annotations

import hashlib
import json
import os
import pathlib
import tempfile
from typing import Any, Dict, List, Optional, Sequence, Tuple

from . import calls, inside, program as programs
from .errors import ResultsError, SweepError
from .options import Options, chosen
from .sources import Topology, topology_of
from .spreading import Broken, spread
from .typed import Network

HEAD = "shards.json"  # of a folder: what its files are parts of
Part = Tuple[int, int, int]  # the number of a file, and the places of its first and its last node
Task = Dict[str, Any]


def plan_shards(
    graph: Network, kind: Optional[str] = None, root: Any = None, *, out: "os.PathLike[str] | str", shards: int = 64, executor: Any = None,
    retries: int = 3, options: Optional[Options] = None, **named: Any,
) -> List[str]:
    """Writes the plan of a graph in parts of about as many nodes each, which `plan --nodes` makes one by one.

    A file `shard-000.plan` has `plan KIND N L A B` as its first line, and then the lines of the nodes A to B, counted from 0. All
    lines but the first ones are those of the plan, in its order. A file that is there is kept, so a call that was stopped goes on.

    Parameters
    ----------
    graph, kind, root, options, **named
        As for `plan`. With the words `--numbering tour` the tour is sought once, and its order is given to each part. Of kinds tree
        and landmark each part takes as long as the whole plan.
    out : path
        A folder, which is made where it is not there.
    shards : int
        How many files there are, at most one for each node.
    executor : concurrent.futures.Executor, optional
        Where the parts are made; in this process by default.
    retries : int
        How often a part is made again that failed.

    Returns
    -------
    list of str
        The paths of the files, in order.

    Raises
    ------
    RouteError
        If the program refuses the network.
    ResultsError
        If the folder has parts of another plan, or a file can't be written.
    SweepError
        If the executor ended. The parts that were made are there.

    Examples
    --------
    >>> import bentzolu, tempfile
    >>> with tempfile.TemporaryDirectory() as folder:
    ...     files = bentzolu.plan_shards([("a", "b"), ("b", "c")], out=folder, shards=2)
    ...     print(open(files[1]).read(), end="")
    plan shortest 3 3 1 2
    b 1 0 a 2 c
    c 2 0 b
    """
    given = chosen(options, named, kind=kind, root=root)
    if shards < 1:
        raise ValueError(f"a plan has at least 1 shard, not {shards}")
    topology = topology_of(graph, given.weight)
    task = task_of(topology, given)
    nodes = int(text_of(task, 0, 0).split(" ", 3)[2])
    count = min(shards, nodes)
    parts = [(i, i * nodes // count, (i + 1) * nodes // count - 1) for i in range(count)]
    files = {part: os.path.join(os.fspath(out), f"shard-{part[0]:03}.plan") for part in parts}
    begin(os.fspath(out), task, parts)

    def take(done: Sequence[Part], texts: Sequence[str]) -> None:
        for part, text in zip(done, texts):
            write(files[part], text)

    todo = [[part] for part in parts if not os.path.exists(files[part])]
    if executor is None:
        for one in todo:
            take(one, made(task, one))
        return list(files.values())
    try:
        spread(executor, made, task, todo, take, retries)
    except Broken as broken:
        cause = broken.__cause__
        raise SweepError(
            f"the executor ended ({type(cause).__name__}: {cause}) with {len(broken.left):,} of {count:,} shards left: "
            f"call plan_shards again with a new executor"
        ) from cause
    return list(files.values())


def task_of(topology: Topology, given: Options) -> Task:
    """What each part is made of: the words of `plan`, the network, and the order of a tour."""
    words = calls.options_of(topology, given)
    task: Task = {"words": words, "topology": topology.text, "order": None, "program": given.program, "timeout": given.timeout}
    if "tour" in inside.orders(words):
        task["order"] = asked(task, ["--order"])
        task["words"] = without_order(words)
    return task


def without_order(words: Sequence[str]) -> List[str]:
    """Words without those that name a root or a numbering."""
    found: List[str] = []
    skipped = False
    for word in words:
        if skipped:
            skipped = False
        elif word in ("--numbering", "-n", "--root", "-r"):
            skipped = True
        elif not word.startswith(("--numbering=", "--root=", "-n", "-r")):
            found.append(word)
    return found


def asked(task: Task, words: Sequence[str]) -> str:
    """What `plan` prints with further words."""
    given = ["plan", *words, *task["words"]]
    if task["order"] is None:
        return programs.run(given, [("topology", task["topology"])], task["program"], task["timeout"]).output
    with tempfile.NamedTemporaryFile("w", encoding="utf-8", suffix=".order") as file:
        file.write(task["order"])
        file.flush()
        return programs.run([*given, "--numbering", file.name], [("topology", task["topology"])], task["program"], task["timeout"]).output


def text_of(task: Task, first: int, last: int) -> str:
    """The text of some nodes."""
    return asked(task, ["--nodes", f"{first}-{last}"])


def made(task: Task, parts: Sequence[Part]) -> List[str]:
    """The texts of parts."""
    return [text_of(task, first, last) for _, first, last in parts]


def begin(folder: str, task: Task, parts: Sequence[Part]) -> None:
    """Makes the folder, or looks whether its parts are those of this plan.

    Raises
    ------
    ResultsError
        where they are another's, or the folder can't be made
    """
    text = task["topology"]
    data = text.read_bytes() if isinstance(text, pathlib.Path) else text.encode("utf-8")
    said = json.dumps([task["words"], task["order"], parts]).encode("ascii")
    head = json.dumps({"shards": hashlib.sha256(data + said).hexdigest(), "count": len(parts), "words": task["words"]}) + "\n"
    path = os.path.join(folder, HEAD)
    try:
        os.makedirs(folder, exist_ok=True)
        if not os.path.exists(path):
            write(path, head)
        with open(path, encoding="ascii") as file:
            there = file.read()
    except OSError as error:
        raise ResultsError(f"{path} can't be read or written: {error.strerror}") from error
    if there != head:
        raise ResultsError(f"{folder} has the shards of another plan: give another folder")


def write(path: str, text: str) -> None:
    """Writes a file whole or not at all."""
    part = f"{path}.part-{os.getpid()}"
    try:
        with open(part, "w", encoding="utf-8", newline="\n") as file:
            file.write(text)
        os.replace(part, path)
    except OSError as error:
        raise ResultsError(f"{path} can't be written: {error.strerror}") from error
