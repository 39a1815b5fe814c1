"""The plane in XDP of a node of Linux: its program `bentzolu-xdp`, and tables for it of the plans that `bentzolu` prints.

The program loads the plane, asks the kernel for each label before it says that a table is there, and counts. This module
finds it, makes lines and rows for it, and reports what it says. `plane/make` builds it.
"""
from __future__ import annotations

import os
import pathlib
import shutil
import subprocess
import tempfile
from dataclasses import dataclass
from typing import List, Optional, Sequence, Tuple

from . import lines, program, texts
from .errors import BentzoluError
from .lines import Row

VARIABLE, NAME, OBJECT = "BENTZOLU_XDP", "bentzolu-xdp", "plane.bpf.o"
BUILT = pathlib.Path(__file__).resolve().parents[2] / "plane" / "out" / NAME
PINS = "/sys/fs/bpf/bentzolu"
MODES = ("xdp", "generic", "tc")
KINDS = ("shortest", "compact", "tree", "landmark")


class PlaneError(BentzoluError):
    """A plane that can't be built, changed or asked; the text says why."""


@dataclass(frozen=True)
class Port:
    """A port of a plane: the neighbour, the device, and whether the device is gone."""

    neighbour: str
    device: str
    is_gone: bool = False


@dataclass(frozen=True)
class Plane:
    """What a plane says of itself: its node and mode, the epoch that it stamps (0: none), its ports in their order and the
    epochs that are installed."""

    node: str
    mode: str
    stamped: int
    ports: Tuple[Port, ...]
    epochs: Tuple[int, ...]


def find() -> str:
    """The path of the program.

    Returns
    -------
    str
        The variable BENTZOLU_XDP, `bentzolu-xdp` on PATH, or what `plane/make` built in the repository of this package: the
        first of these that is there.

    Raises
    ------
    PlaneError
        If none is there.
    """
    found = os.environ.get(VARIABLE) or shutil.which(NAME) or (str(BUILT) if os.access(BUILT, os.X_OK) else None)
    if not found:
        raise PlaneError(f"there is no program {NAME}: build it by plane/make, or set {VARIABLE}")
    return found


def call(words: Sequence[str], data: bytes = b"", pins: str = PINS) -> str:
    """What the program prints.

    Parameters
    ----------
    words : sequence of str
        Its words, without those on where the maps are.
    data : bytes
        Its standard input.
    pins : str
        The folder of a bpffs where the plane's maps are.

    Returns
    -------
    str
        Its output.

    Raises
    ------
    PlaneError
        Where it refuses something; the text is its sentence.
    """
    path = find()
    try:
        done = subprocess.run([path, "--pins", pins, *words], input=data, capture_output=True, check=False)
    except OSError as error:
        raise PlaneError(f"the program {path} can't be run: {error.strerror}") from error
    if done.returncode:
        said = done.stderr.decode("utf-8", "replace").strip().splitlines() or [f"status {done.returncode}"]
        raise PlaneError(said[0].removeprefix(f"{NAME}: ") if done.returncode == 1 else f"{path} does not understand: {' '.join(words)}")
    return done.stdout.decode("utf-8", "replace")


def read_plane(text: str) -> Plane:
    """A plane, of what the word `show` prints.

    Parameters
    ----------
    text : str
        What was printed.

    Returns
    -------
    Plane
        The plane.

    Raises
    ------
    PlaneError
        Where the text is no such output.

    Examples
    --------
    >>> read_plane("node b mode tc host bz0 own bz1 stamp 2\\nport 0 a to1\\nepoch 2 lines 1\\n").ports
    (Port(neighbour='a', device='to1', is_gone=False),)
    """
    ports: List[Port] = []
    epochs: List[int] = []
    head: Optional[List[str]] = None
    for line in text.splitlines():
        words = line.split()
        if words[:1] == ["node"] and len(words) == 10:
            head = words
        elif words[:1] == ["port"] and len(words) in (4, 5):
            ports.append(Port(words[2], words[3], words[4:] == ["gone"]))
        elif words[:1] == ["epoch"] and len(words) == 4:
            epochs.append(int(words[1]))
        else:
            raise PlaneError(f"{NAME} says {line!r}, which is not a line of a plane: does it have another version?")
    if head is None:
        raise PlaneError(f"{NAME} does not report the node: does it have another version?")
    return Plane(head[1], head[3], int(head[9]), tuple(ports), tuple(epochs))


def plan_of(topology: str, kind: str, words: Sequence[str] = ()) -> texts.Plan:
    """The plan of a file of a topology.

    Parameters
    ----------
    topology : str
        The path of the file.
    kind : str
        `shortest`, `compact`, `tree` or `landmark`.
    words : sequence of str
        Further words of `bentzolu plan`, as `--root R`.

    Returns
    -------
    Plan
        The plan, with the names of the topology.
    """
    return texts.read_plan(program.run(["plan", "--kind", kind, *words], [("topology", pathlib.Path(topology))]).output)


def row_at(plan: texts.Plan, node: str, neighbours: Sequence[str]) -> Row:
    """The row of a plan's node in numbers.

    Parameters
    ----------
    plan : Plan
        The plan.
    node : str
        The node.
    neighbours : sequence of str
        Its neighbours by their ports, from 0.

    Returns
    -------
    Row
        The row.

    Raises
    ------
    PlaneError, LinesError
        Where the plan has no such node, or a neighbour has no port.
    """
    if node not in plan.nodes:
        raise PlaneError(f"the plan has no node {node}: give the topology in which this node is")
    return lines.row_of(plan.nodes[node], len(plan.nodes), neighbours)


def give(word: str, epoch: int, row: Row, pins: str = PINS, table: Optional[bytes] = None) -> None:
    """Installs an epoch's table, or checks it; the kernel is asked for each label, and answers as the row says.

    Parameters
    ----------
    word : str
        `install` or `check`.
    epoch : int
        The epoch.
    row : Row
        The node's row.
    pins : str
        The folder of a bpffs where the plane's maps are.
    table : bytes, optional
        The table's lines, as bytes or as text; those of the row by default.

    Raises
    ------
    PlaneError, LinesError
        Where something is refused; then the tables are as they were.
    """
    data = lines.as_bytes(lines.lines(row, epoch)) if table is None else table
    with tempfile.NamedTemporaryFile("w", prefix="bentzolu-", suffix=".row") as file:
        file.write(row.text())
        file.flush()
        call([word, str(epoch), file.name], data, pins)
