"""A router of Linux, as an agent sees it: its table of nftables, its devices, and what it reports of both by netlink."""
from __future__ import annotations

import json
import socket
import struct
import subprocess
import time
import zlib
from typing import Any, Callable, Dict, FrozenSet, List, Set

from . import plane
from .fleet import Add, Held, Member, Port, Rebuild, Remove, Row, Stamp, Step
from .fleet_agent import KernelError

UP, LOWER_UP, NEW_LINK, GROUP_LINK, NAME = 1, 0x10000, 16, 1, 3
NETFILTER, GROUP_NFTABLES = 12, 7
ASK_EVERY, DISCARD = 4.0, 9  # seconds, and a port of UDP to which nobody listens
RECEIVED = 1 << 20  # bytes of a netlink socket's buffer


def run(command: List[str], text: str = "", may_fail: bool = False) -> str:
    """What a command prints; KernelError with its first complaint where it fails."""
    try:
        done = subprocess.run(command, input=text, text=True, capture_output=True, check=False)
    except OSError as fault:
        raise KernelError(f"{command[0]} cannot be run: {fault.strerror}; install nftables and iproute2") from None
    if done.returncode and not may_fail:
        lines = done.stderr.strip().splitlines() or [f"status {done.returncode}"]
        said = next((line for line in lines if "Error" in line or "rror:" in line), lines[0])
        hint = "; the agent needs CAP_NET_ADMIN" if "not permitted" in done.stderr else ""
        raise KernelError(f"{command[0]}: {said[:300]}{hint}")
    return done.stdout


class Linux:
    """The kernel of the router in whose network namespace this process is. Each change is one transaction of nftables."""

    def __init__(self) -> None:
        self.member = Member(0, 0, {})
        self.opened: Callable[[], None] = lambda: None  # is called when the router is prepared
        self.missing: Set[str] = set()
        self.used: Dict[str, Port] = {}  # a port that is not there is what the table has for its neighbour, where that is
        self.silent: Set[str] = set()
        self.asked = 0.0
        self.name_of: Dict[str, str] = {}

    # preparing

    def open(self, member: Member) -> None:
        """Prepares devices, addresses and the table for a member, where they are not so yet.

        Raises
        ------
        KernelError
            Where the kernel refuses something.
        """
        self.member = member
        self.name_of = {f"to_{port.number}": name for name, port in member.ports.items()}
        devices = {it["ifname"] for it in json.loads(run(["ip", "-j", "link"]) or "[]")}
        self.missing = {name for name, port in member.ports.items() if port.device not in devices}
        self.used = self.ports_used(devices)
        lines = [] if "bz0" in devices else [f"link add name bz0 type veth peer name bz1 address {plane.OWN_LINK}"]
        for device in ("bz0", "bz1"):
            lines += [f"link set dev {device} addrgenmode none", f"link set dev {device} up"]
        lines += [f"address replace {plane.address(member.label)}/128 dev lo nodad", "address replace fe80::fffe/64 dev bz0 nodad",
                  f"neigh replace fe80::ffff lladdr {plane.OWN_LINK} dev bz0 nud permanent",
                  f"route replace {plane.GROUP:x}::/16 via fe80::ffff dev bz0 hoplimit 255"]
        run(["ip", "-6", "-batch", "-"], "\n".join(lines) + "\n")
        for name in sorted(self.used):
            self.port_up(name)
        if "iif bz1" not in run(["ip", "-6", "rule"]):
            run(["ip", "-6", *plane.COMES_BACK.split()])
        self.read()
        self.opened()

    def ports_used(self, devices: Set[str]) -> Dict[str, Port]:
        """The ports of a member that are there; for one that is not, the way that the table has, so that this goes on as it was."""
        found = {name: port for name, port in self.member.ports.items() if name not in self.missing}
        if self.missing:
            text = run(["nft", "-j", "list", "table", "netdev", "bz"], may_fail=True)
            try:
                ways = plane.ways_of(json.loads(text)) if text.strip() else {}
            except (KeyError, TypeError, ValueError):
                ways = {}
            for name in self.missing:
                way = ways.get(self.member.ports[name].number)
                if way is not None and way.device in devices:
                    found[name] = self.member.ports[name]._replace(device=way.device, via=way.via, mac="")
        return found

    def port_lines(self, name: str) -> List[str]:
        """What a port wants, and loses while it is down: its address and its neighbour."""
        port = self.used[name]
        lines = [f"address replace fe80::{self.member.number:x}/64 dev {port.device} nodad"]
        return [*lines, f"neigh replace {port.via} lladdr {port.mac} dev {port.device} nud permanent"] if port.mac else lines

    def port_up(self, name: str) -> None:
        """Gives a port that came up what it lost."""
        run(["ip", "-6", "-force", "-batch", "-"], "\n".join(self.port_lines(name)) + "\n", may_fail=True)

    def says(self) -> str:
        """Which ports are not there, and which neighbours do not answer."""
        said = []
        if self.missing:
            devices = ", ".join(f"{self.member.ports[name].device} to {name}" for name in sorted(self.missing))
            said.append(f"this router has no device {devices}: the topology is not that of the routers; enroll the right ports")
        for name in sorted(self.silent):
            port = self.member.ports[name]
            said.append(f"{name} does not answer at {port.via} on {port.device}: does its agent run, and is the cable in the right port?")
        return "; ".join(said)

    def ask_neighbours(self) -> None:
        """Notes which neighbours did not answer when they were asked last, and asks again those whose MAC is not given."""
        ports = {(port.via, port.device): name for name, port in self.member.ports.items() if not port.mac and name not in self.missing}
        if not ports or time.monotonic() - self.asked < ASK_EVERY:
            return
        self.asked = time.monotonic()
        found = json.loads(run(["ip", "-j", "-6", "neigh"], may_fail=True) or "[]")
        states = {ports[it["dst"], it["dev"]]: it.get("state", []) for it in found if (it.get("dst"), it.get("dev")) in ports}
        self.silent = {name for name, state in states.items() if "FAILED" in state}
        with socket.socket(socket.AF_INET6, socket.SOCK_DGRAM) as sock:
            for via, device in ports:
                try:
                    sock.sendto(b"", (via, DISCARD, 0, socket.if_nametoindex(device)))
                except OSError:
                    pass  # a port that is down is told elsewhere

    # the table

    def mark(self) -> str:
        """The name of the chain that says for which ports the table is."""
        return f"of_{zlib.crc32(self.member.text().encode()):08x}"

    def base(self) -> List[str]:
        used = {port.number: plane.Way(port.via, port.device) for port in self.used.values()}
        return plane.table({port.number: used.get(port.number) for port in self.member.ports.values()}, self.member.label, self.mark())

    def nft(self, lines: List[str]) -> None:
        run(["nft", "-f", "-"], "\n".join(lines) + "\n")

    def read(self) -> Held:
        """What the table has; it is made where there is none."""
        self.ask_neighbours()
        text = run(["nft", "-j", "list", "table", "netdev", "bz"], may_fail=True)
        if not text.strip():
            self.nft(self.base())
            return Held()
        try:
            found = plane.read_table(json.loads(text))
            rows = {tag: tuple((first, last, self.name_of[chain]) for first, last, chain in row) for tag, row in found.rows.items()}
        except (KeyError, TypeError, ValueError):
            return Held(is_ours=False)
        wanted = {self.mark(): 0, "mine": 1, "in": 5, "stamp": 1 if found.stamped else 0}
        wanted.update({f"to_{port.number}": 2 if name in self.used else 1 for name, port in self.member.ports.items()})
        return Held(rows, found.stamped, 0, found.rules == wanted)

    def elements(self, tag: int, row: Row) -> str:
        return plane.elements(tag, [(first, last, self.member.ports[to].number) for first, last, to in row])

    def do(self, act: Step, held: Held) -> None:
        """Makes a change of what is held, in one transaction.

        Raises
        ------
        KernelError
            Where the kernel refuses it; then nothing has changed.
        """
        if isinstance(act, Rebuild):
            lines = ["delete table netdev bz", *self.base(), *self.added(act.rows), *plane.stamp(act.stamped)]
        elif isinstance(act, Add):
            lines = [*self.removed(held, list(act.rows)), *self.added(act.rows)]
        elif isinstance(act, Stamp):
            lines = plane.stamp(act.tag)
        else:
            assert isinstance(act, Remove)
            lines = self.removed(held, list(act.tags))
        self.nft(lines)  # I2: all of it at one moment, or nothing

    def added(self, rows: Any) -> List[str]:
        try:
            return ["add " + self.elements(tag, row) for tag, row in rows.items() if row]
        except KeyError as fault:
            raise KernelError(f"a row forwards to {fault}, for which this router has no port: enroll the topology of the routers") from None

    def removed(self, held: Held, tags: List[int]) -> List[str]:
        return ["delete " + self.elements(tag, held.rows[tag]) for tag in tags if held.rows.get(tag)]


class Ports:
    """The neighbours whose ports have no carrier, by rtnetlink. `changed` is called where they differ."""

    def __init__(self, kernel: Linux, changed: Callable[[FrozenSet[str]], None]) -> None:
        self.kernel, self.changed = kernel, changed
        self.devices = {kernel.used.get(name, port).device: name for name, port in kernel.member.ports.items()}
        self.down: Set[str] = set()
        self.sock = socket.socket(socket.AF_NETLINK, socket.SOCK_RAW | socket.SOCK_NONBLOCK, socket.NETLINK_ROUTE)
        self.sock.setsockopt(socket.SOL_SOCKET, socket.SO_RCVBUF, RECEIVED)
        self.sock.bind((0, GROUP_LINK))
        self.look()

    def look(self) -> None:
        """Reads the state of all ports."""
        found = {it["ifname"]: set(it["flags"]) for it in json.loads(run(["ip", "-j", "link"]) or "[]")}
        down = {name for device, name in self.devices.items() if not {"UP", "LOWER_UP"} <= found.get(device, set())}
        for name in self.down - down:
            self.kernel.port_up(name)
        self.down = down
        self.changed(frozenset(down))

    def read(self) -> None:
        """Takes what came."""
        while True:
            try:
                data = self.sock.recv(65536)
            except BlockingIOError:
                return
            except OSError:  # some messages were lost
                self.look()
                continue
            while len(data) >= 16:
                length, kind = struct.unpack_from("IH", data)
                if kind == NEW_LINK:
                    self.message(data[16:length])
                data = data[max(16, (length + 3) & ~3):]

    def message(self, body: bytes) -> None:
        flags, at, device = struct.unpack_from("I", body, 8)[0], 16, ""
        while at + 4 <= len(body):
            length, kind = struct.unpack_from("HH", body, at)
            if length < 4:
                break
            if kind == NAME:
                device = body[at + 4:at + length].split(b"\0")[0].decode("ascii", "replace")
            at += (length + 3) & ~3
        name = self.devices.get(device)
        if name is None:
            return
        is_down = not (flags & UP and flags & LOWER_UP)
        if is_down != (name in self.down):
            (self.down.add if is_down else self.down.discard)(name)
            if not is_down:
                self.kernel.port_up(name)
            self.changed(frozenset(self.down))


class Changes:
    """Tells that somebody changed nftables here, by netlink: this agent, or a program that flushes what it does not know."""

    def __init__(self, changed: Callable[[], None]) -> None:
        self.changed = changed
        self.sock = socket.socket(socket.AF_NETLINK, socket.SOCK_RAW | socket.SOCK_NONBLOCK, NETFILTER)
        self.sock.bind((0, 1 << GROUP_NFTABLES - 1))

    def read(self) -> None:
        """Takes what came."""
        is_changed = False
        while True:
            try:
                self.sock.recv(65536)
            except BlockingIOError:
                break
            except OSError:
                pass
            is_changed = True
        if is_changed:
            self.changed()


class Nowhere:
    """In place of a kernel, for agents in great numbers on one machine."""

    def __init__(self) -> None:
        self.held = Held()

    def open(self, member: Member) -> None:
        """Prepares nothing."""

    def says(self) -> str:
        """Nothing."""
        return ""

    def read(self) -> Held:
        """What was done."""
        return self.held

    def do(self, act: Step, held: Held) -> None:
        """Makes a change."""
        from .fleet_agent import after
        self.held = after(act, held)
