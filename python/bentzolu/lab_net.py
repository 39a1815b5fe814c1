"""A topology as network namespaces of Linux, and the scripts of the shell that build and change it.

Each node is a namespace, each link a veth pair. Node K of the plan's order has the link-local address fe80::K on each of
its links, and its port to node J is the device toJ. A node sends packets on by one map of nftables, whose elements are the
ranges of its plans. The address of label L is fd00::L for programs; while a packet travels its second group is the epoch,
which the node of its source writes and that of its destination takes off.
"""
import re
import subprocess
from typing import Any, Dict, Iterable, List, Mapping, Sequence, Set, Tuple

from . import plane
from .errors import BentzoluError
from .plane import GROUP, OWN_LINK, address, hardware

Link = Tuple[str, str]

FINE_NAME = re.compile(r"[A-Za-z0-9][A-Za-z0-9_.-]*")


class LabError(BentzoluError):
    """A lab that can't be built, or can't go on; the text says why."""


def links_of(text: str, form: str) -> List[Link]:
    """The links of a topology as pairs of nodes, each once."""
    found: Dict[Link, None] = {}
    for line in text.splitlines():
        first, *others = line.split("#", 1)[0].split() or [""]
        for other in others[:1] if form == "edgelist" else others:
            if other != first and (other, first) not in found:
                found[first, other] = None
    return list(found)


def without_link(text: str, form: str, ends: Link) -> str:
    """A topology's text without the link between two nodes."""
    return without_links(text, form, [ends])


def without_links(text: str, form: str, links: Iterable[Link]) -> str:
    """A topology's text without some links, each a pair of nodes."""
    gone: Dict[str, Set[str]] = {}
    lines: List[str] = []
    for a, b in links:
        gone.setdefault(a, set()).add(b)
        gone.setdefault(b, set()).add(a)
    for line in text.splitlines():
        words = line.split("#", 1)[0].split()
        off = gone.get(words[0], set()) if words else set()
        if not off:
            lines.append(line)
        elif form != "edgelist":
            lines.append(" ".join([words[0], *(word for word in words[1:] if word not in off)]))
        elif not words[1:2] or words[1] not in off:
            lines.append(line)
    return "".join(line + "\n" for line in lines)


def play(script: str) -> None:
    """Runs a script of the shell; LabError with what it said where one of its commands fails."""
    done = subprocess.run(["sh", "-e"], input=script, text=True, capture_output=True, check=False)
    if done.returncode != 0:
        lines = done.stderr.strip().splitlines() or [f"status {done.returncode}"]
        said = next((line for line in lines if "Error" in line), lines[0])
        raise LabError(f"cannot go on: {said}")


class Network:
    """The nodes of a plan and the links of its topology, and the scripts for them."""

    def __init__(self, plan: Any, links: Sequence[Link]) -> None:
        self.nodes: List[str] = list(plan.nodes)
        self.label: Dict[str, int] = plan.labels
        self.number = {node: k for k, node in enumerate(self.nodes, 1)}
        self.links = links
        self.near: Dict[str, List[str]] = {node: [] for node in self.nodes}
        for a, b in links:
            self.near[a].append(b)
            self.near[b].append(a)
        self.named = all(FINE_NAME.fullmatch(node) for node in self.nodes)

    def space(self, node: str) -> str:
        """The name of a node's namespace: the node's own, or where some node's would not do `nK` for node K."""
        return node if self.named else f"n{self.number[node]}"

    def host(self, node: str) -> str:
        """The address that programs know a node by."""
        return address(self.label[node])

    def port(self, node: str) -> str:
        """The name of each device that leads to a node."""
        return f"to{self.number[node]}"

    def inside(self, node: str, command: str, lines: Iterable[str]) -> str:
        """A command in a node's namespace that reads lines."""
        return "\n".join([f"ip netns exec {self.space(node)} {command} <<'END'", *lines, "END", ""])

    def up(self) -> str:
        """The script that builds all nodes and links."""
        lines = [f"# node {k}: {node}" for node, k in self.number.items()]
        lines += ["ip -batch - <<'END'", *(f"netns add {self.space(node)}" for node in self.nodes)]
        for a, b in self.links:
            one = f"link add name {self.port(b)} address {hardware(self.number[a])} netns {self.space(a)}"
            other = f"name {self.port(a)} address {hardware(self.number[b])} netns {self.space(b)}"
            lines.append(f"{one} type veth peer {other}")
        return "\n".join([*lines, "END", ""]) + "".join(map(self.up_node, self.nodes))

    def up_node(self, node: str) -> str:
        """The script that gives a node its addresses, its settings and its empty tables."""
        lines = [f"ip -n {self.space(node)} -batch - <<'END'", "link set dev lo up"]
        lines.append(f"address add {self.host(node)}/128 dev lo nodad")
        lines.append(f"link add name bz0 type veth peer name bz1 address {OWN_LINK}")
        for device in ["bz0", "bz1", *map(self.port, self.near[node])]:
            lines += [f"link set dev {device} addrgenmode none", f"link set dev {device} up"]
        for other in self.near[node]:
            lines.append(f"address add fe80::{self.number[node]:x}/64 dev {self.port(other)} nodad")
            known = f"fe80::{self.number[other]:x} lladdr {hardware(self.number[other])}"
            lines.append(f"neigh add {known} dev {self.port(other)} nud permanent")
        lines.append("address add fe80::fffe/64 dev bz0 nodad")
        lines.append(f"neigh add fe80::ffff lladdr {OWN_LINK} dev bz0 nud permanent")
        lines += [f"route add {GROUP:x}::/16 via fe80::ffff dev bz0", "END"]
        lines += [f"ip -n {self.space(node)} -6 {plane.COMES_BACK}", ""]
        settings = ["cd /proc/sys/net/ipv6", "echo 1 > conf/all/forwarding", "echo > icmp/ratemask"]
        settings.append('for limit in conf/*/hop_limit; do echo 255 > "$limit"; done')
        return "\n".join(lines) + self.inside(node, "sh -e", settings) + self.up_plane(node)

    def up_plane(self, node: str) -> str:
        """The script that makes what a node forwards by, without a row."""
        return self.inside(node, "nft -f -", self.tables(node))

    def rows_of(self, plan: Any, ranges: Any) -> Any:
        """What `install` and `replace` take of a plan: here its ranges."""
        return ranges

    def size_of(self, rows: Mapping[str, Any]) -> int:
        """The number of elements of all nodes for rows, the own labels among them."""
        return sum(len(parts) + 1 for parts in rows.values())

    def drained(self, epoch: int) -> str:
        """The script that waits until an epoch is empty, where the plane can say it."""
        return ""

    def tables(self, node: str) -> List[str]:
        """The tables of a node without an element, as nftables reads them."""
        return plane.table({self.number[it]: plane.Way(f"fe80::{self.number[it]:x}", self.port(it)) for it in self.near[node]})

    def elements(self, node: str, found: Any, epoch: int) -> str:
        """The elements of a node's map for its ranges of an epoch."""
        row = [(first, last, self.number[to]) for first, last, to in found[node]]
        return plane.elements(epoch, row, self.label[node])

    def install(self, node: str, found: Any, epoch: int) -> str:
        return self.inside(node, "nft -f -", ["add " + self.elements(node, found, epoch)])

    def retire(self, node: str, found: Any, epoch: int) -> str:
        return self.inside(node, "nft -f -", ["delete " + self.elements(node, found, epoch)])

    def replace(self, node: str, found: Any, epoch: int) -> str:
        """The change in place: other elements under the epoch that there is, in one transaction."""
        lines = ["flush map netdev bz ways", "add " + self.elements(node, found, epoch)]
        return self.inside(node, "nft -f -", lines)

    def stamp(self, node: str, epoch: int) -> str:
        """From now on the node writes this epoch into the packets of its own."""
        return self.inside(node, "nft -f -", plane.stamp(epoch))

    def down(self, a: str, b: str) -> str:
        """Sets the link between two nodes down, at the end of the first."""
        return f"ip -n {self.space(a)} link set dev {self.port(b)} down\n"
