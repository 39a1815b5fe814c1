"""The lab's network over the plane in XDP, in place of nftables; its programs report each hop of the lab's packets."""
from __future__ import annotations

import os
import pathlib
import select
import shlex
import struct
import subprocess
from typing import Any, Callable, Dict, List, Sequence, Tuple

from . import lines, xdp
from .lab_net import LabError, Network
from .plane import hardware
from .xdp import MODES as MODES  # noqa: F401

PINS = "/run/bentzolu-pins"  # in the lab's own mounts
EVENTS, STOP = "/run/bentzolu-events", "/run/bentzolu-stop"
EVENT = struct.Struct("<IIHHBBH")  # number, epoch, node, port, hop limit, verdict
FORWARDED = 0
OBJECT = "watch.bpf.o"
SILENCE = 0.5  # seconds

# Two nodes' worth of what a lab asks of the kernel: a plane that goes up and down.
PROBE = """mkdir -p {pins}
mount -t bpf bpf {pins}
ip netns add bz-probe
ip -n bz-probe link add name a type veth peer name b
ip -n bz-probe address add fe80::1/64 dev a nodad
ip netns exec bz-probe {tool} --pins {pins}/probe --object {object} up {mode} probe 0 a b
ip netns exec bz-probe {tool} --pins {pins}/probe down
ip netns del bz-probe
"""


class XdpNetwork(Network):
    """The nodes of a plan, and the scripts for their planes."""

    def __init__(self, plan: Any, links: Any, mode: str) -> None:
        super().__init__(plan, links)
        self.mode = mode
        self.program = os.path.abspath(xdp.find())
        folder = pathlib.Path(self.program).parent
        beside, packaged = folder / OBJECT, folder.parent / "lib" / "bentzolu" / OBJECT
        self.object = str(packaged if packaged.exists() and not beside.exists() else beside)

    def probing(self) -> Dict[str, Any]:
        """What the lab's namespaces are tried by."""
        if not os.path.exists(self.object):
            raise LabError(f"there is no object {self.object}: build it by plane/make")
        probe = PROBE.format(pins=PINS, tool=shlex.quote(self.program), object=shlex.quote(self.object), mode=self.mode)
        return {"tools": ("ip", "mount"), "probe": probe, "what": "programs of BPF"}

    def pins(self, node: Any) -> str:
        """The folder of a node's maps."""
        return f"{PINS}/n{self.number[node]}"

    def tool(self, node: Any, words: str, given: Sequence[str] = ()) -> str:
        """The script that says words to a node's plane, with lines on standard input."""
        command = f"{shlex.quote(self.program)} --pins {self.pins(node)} {words}"
        return str(self.inside(node, command, given))

    def up(self) -> str:
        """The script that builds all nodes and links."""
        return f"mkdir -p {PINS}\nmountpoint -q {PINS} || mount -t bpf bpf {PINS}\n" + str(super().up())

    def up_plane(self, node: Any) -> str:
        """The script that puts a node's plane up."""
        near = [f"{shlex.quote(str(other))} {self.port(other)} {hardware(self.number[other])}"
                for other in self.near[node]]
        words = ["--object", shlex.quote(self.object), "up", self.mode, shlex.quote(str(node)), str(self.number[node] - 1), "bz0 bz1", *near]
        return self.tool(node, " ".join(words))

    def rows_of(self, plan: Any, ranges: Any) -> Any:
        """The plan itself: its intervals are what the plane holds."""
        return plan

    def size_of(self, rows: Any) -> int:
        """The number of intervals of all nodes."""
        return int(rows.intervals)

    def table(self, node: Any, plan: Any, epoch: int) -> Tuple[lines.Row, List[str]]:
        """A node's row of a plan, and the lines of its table as text."""
        row = lines.row_of(plan.nodes[node], len(self.nodes), self.near[node])
        return row, lines.as_text(lines.lines(row, epoch)).splitlines()

    def install(self, node: Any, plan: Any, epoch: int) -> str:
        """The script that installs an epoch at a node; the row is given beside the lines."""
        row, given = self.table(node, plan, epoch)
        file = f"/run/bentzolu-row-{self.number[node]}"
        return f"cat > {file} <<'END'\n{row.text()}END\n" + self.tool(node, f"install {epoch} {file}", given)

    def replace(self, node: Any, plan: Any, epoch: int) -> str:
        """The change in place: another table for the epoch that there is."""
        return self.tool(node, f"replace {epoch}", self.table(node, plan, epoch)[1])

    def retire(self, node: Any, plan: Any, epoch: int) -> str:
        """The script that removes an epoch's table at a node."""
        return self.tool(node, f"retire {epoch}")

    def stamp(self, node: Any, epoch: int) -> str:
        """From now on the node writes this epoch into the packets of its own."""
        return self.tool(node, f"stamp {epoch}")

    def drained(self, epoch: int) -> str:
        """The script that waits until an epoch is empty at all nodes."""
        return f"{shlex.quote(self.program)} drained {epoch} {' '.join(map(self.pins, self.nodes))}\n"

    # what is seen of packets

    def watch(self, ready: Callable[[], None], spaces: Sequence[str], board: Any) -> Tuple[List[Any], List[Any], int]:
        """What each node sent on, as (packet, hop limit, node, next node, epoch), what arrived, as (packet, node), and how
        many events were not seen: 0, since the program that reads them says so where one is lost."""
        with open(EVENTS, "wb") as file:
            words = [self.program, "watch", STOP, *map(self.pins, self.nodes)]
            reader = subprocess.Popen(words, stdout=file, stderr=subprocess.PIPE, text=True)
            try:
                arrivals = arrived(ready, spaces, board)
                pathlib.Path(STOP).touch()
                said = reader.communicate(timeout=60)[1]
            finally:
                reader.kill()
        if reader.returncode:
            raise LabError(said.strip() or "the events of the nodes cannot be read")
        return self.frames(pathlib.Path(EVENTS).read_bytes()), arrivals, 0

    def frames(self, data: bytes) -> List[Tuple[int, int, int, int, int]]:
        """The hops that events report."""
        places = {node: i for i, node in enumerate(self.nodes)}
        near = [[places[other] for other in self.near[node]] for node in self.nodes]
        return [(number, hops, node, near[node][port], epoch)
                for number, epoch, node, port, hops, verdict, _ in EVENT.iter_unpack(data) if verdict == FORWARDED]


def arrived(ready: Callable[[], None], spaces: Sequence[str], board: Any) -> List[Tuple[int, int]]:
    """The packets that arrive until it is to stop and half a second was silent, as (packet, node)."""
    from . import lab_traffic
    poll, socks = select.epoll(), {}
    found: List[Tuple[int, int]] = []
    early = set()
    for i, space in enumerate(spaces):
        sock = lab_traffic.open_udp(space, True)
        socks[sock.fileno()] = i, sock
        poll.register(sock.fileno(), select.EPOLLIN)
    ready()
    while True:
        waiting = poll.poll(SILENCE)
        if not waiting and board.stop_watch:
            return found
        for handle, _ in waiting:
            i, sock = socks[handle]
            numbers = [lab_traffic.BODY.unpack(it[0])[0] for it in lab_traffic.read_all(sock)]
            found += [(number, i) for number in numbers]
            early.update(numbers)
            while board.low in early:
                early.remove(board.low)
                board.low += 1
