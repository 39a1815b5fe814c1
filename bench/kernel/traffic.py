"""Packets of UDP between all ordered pairs of a lab's nodes, and what became of each of them."""
from __future__ import annotations

import ctypes
import json
import multiprocessing
import os
import pickle
import random
import select
import signal
import socket
import struct
import subprocess
import time
from typing import Any, Iterator

from lab import TAG

PORT = 7777
HOPS = 64  # the hop limit that each packet starts with
BODY = struct.Struct("!IHHH")  # number, source, destination, epoch
FORCED_BUFFER = 33  # SO_RCVBUFFORCE
SLL2 = 276  # the link type of `tcpdump -i any`: 20 bytes, with the type of the packet and the device's index
NEW_NET = 0x40000000

libc = ctypes.CDLL(None, use_errno=True)


def enter(node: Any) -> None:
    """Puts this thread into the namespace of a node."""
    handle = os.open(f"/run/netns/{TAG}{node}", os.O_RDONLY)
    if libc.setns(handle, NEW_NET):
        raise OSError(ctypes.get_errno(), "setns")
    os.close(handle)


def send(nodes: Any, dests: Any, stamps: Any, stop: Any, rate: Any, out: Any) -> None:
    """Sends until it is to stop; dests[epoch] has the address of each node, stamps the epoch that each source uses."""
    socks = []
    for node in nodes:
        enter(node)
        socks.append(socket.socket(socket.AF_INET6, socket.SOCK_DGRAM))
        socks[-1].setsockopt(socket.IPPROTO_IPV6, socket.IPV6_UNICAST_HOPS, HOPS)
    pairs = [(a, b) for a in range(len(nodes)) for b in range(len(nodes)) if a != b]
    random.Random(7).shuffle(pairs)
    rows: list[Any] = []
    start = time.monotonic()
    while not stop.value:
        for number in range(len(rows), int((time.monotonic() - start) * rate)):
            a, b = pairs[number % len(pairs)]
            epoch, error = stamps[a], 0
            try:
                socks[a].sendto(BODY.pack(number, a, b, epoch), (dests[epoch][b], PORT))
            except OSError as fault:
                error = fault.errno
            rows.append((a, b, epoch, error))
        time.sleep(0.0005)
    with open(out, "wb") as file:
        pickle.dump(rows, file)


def receive(nodes: Any, stop: Any, out: Any) -> None:
    """Notes (number, node, hop limit) of each packet that arrives, until it is to stop and a second was silent."""
    poll, socks = select.epoll(), {}
    for i, node in enumerate(nodes):
        enter(node)
        sock = socket.socket(socket.AF_INET6, socket.SOCK_DGRAM)
        sock.setsockopt(socket.SOL_SOCKET, FORCED_BUFFER, 4 << 20)
        sock.setsockopt(socket.IPPROTO_IPV6, socket.IPV6_RECVHOPLIMIT, 1)
        sock.bind(("::", PORT))
        sock.setblocking(False)
        socks[sock.fileno()] = (i, sock)
        poll.register(sock.fileno(), select.EPOLLIN)
    rows: list[Any] = []
    while True:
        ready = poll.poll(1)
        if not ready and stop.value:
            break
        for handle, _ in ready:
            rows += arrivals(*socks[handle])
    with open(out, "wb") as file:
        pickle.dump(rows, file)


def arrivals(node: Any, sock: Any) -> Iterator[Any]:
    """The packets that wait at a socket."""
    while True:
        try:
            data, extra, _, _ = sock.recvmsg(64, 64)
        except BlockingIOError:
            return
        yield BODY.unpack(data)[0], node, struct.unpack("i", extra[0][2])[0]


def captured(path: Any, devices: Any) -> Iterator[Any]:
    """(number, hop limit, neighbour) of each packet that a node sent on."""
    with open(path, "rb") as file:
        data = file.read()
    if len(data) < 24 or struct.unpack_from("<I", data, 20)[0] != SLL2:
        raise SystemExit(f"{path} is no capture of tcpdump -i any")
    at = 24
    while at + 16 <= len(data):
        size = struct.unpack_from("<I", data, at + 8)[0]
        frame = data[at + 16 : at + 16 + size]
        at += 16 + size
        packet = frame[20:]
        if frame[:2] == b"\x86\xdd" and len(packet) >= 48 + BODY.size and packet[6] == socket.IPPROTO_UDP:
            neighbour = devices[struct.unpack_from("!I", frame, 4)[0]]
            yield BODY.unpack_from(packet, 48)[0], packet[7], neighbour


class Traffic:
    """Packets on their way while a `with` lasts; then `packets` has what became of each."""

    def __init__(self, lab: Any, nodes: Any, dests: Any, rate: Any, work: Any) -> None:
        self.lab, self.nodes, self.dests, self.rate, self.work = lab, nodes, dests, rate, work
        self.stamps = multiprocessing.Array("H", [min(dests)] * len(nodes), lock=False)
        self.stops = [multiprocessing.Value("B", 0, lock=False) for _ in range(2)]
        self.children: list[Any] = []
        self.captures: dict[Any, Any] = {}
        self.packets: list[Any] = []
        self.unseen = 0

    def __enter__(self) -> Any:
        try:
            for node in self.nodes:
                self.start_capture(node)
            self.start(receive, self.nodes, self.stops[1], f"{self.work}/got")
            time.sleep(1)
            self.start(send, self.nodes, self.dests, self.stamps, self.stops[0], self.rate, f"{self.work}/sent")
            time.sleep(1)
        except BaseException:
            self.end()
            raise
        return self

    def start(self, what: Any, *words: Any) -> None:
        self.children.append(multiprocessing.Process(target=what, args=words, daemon=True))
        self.children[-1].start()

    def start_capture(self, node: Any) -> None:
        words = ["ip", "netns", "exec", TAG + node, "tcpdump", "-i", "any", "-Q", "out", "-s", "96", "-B", "4096", "-n"]
        words += ["-w", f"{self.work}/{node}.pcap", f"udp port {PORT}"]
        with open(f"{self.work}/{node}.tcpdump", "w") as told:
            self.captures[node] = subprocess.Popen(words, stderr=told)

    def __exit__(self, kind: Any, *_: Any) -> None:
        try:
            if kind is None:
                self.finish()
        finally:
            self.end()

    def finish(self) -> None:
        """Lets what is under way arrive, and reads what was noted."""
        for child, stop in zip(reversed(self.children), self.stops):
            time.sleep(1)
            stop.value = 1
            child.join(60)
        time.sleep(1)
        self.end()
        self.read()

    def end(self) -> None:
        for child in self.children:
            child.terminate()
            child.join()
        for capture in self.captures.values():
            if capture.poll() is None:
                capture.send_signal(signal.SIGINT)
        for capture in self.captures.values():
            try:
                capture.wait(10)
            except subprocess.TimeoutExpired:
                capture.kill()
                capture.wait()

    def read(self) -> None:
        """Each packet as a dict: source, dest, epoch, way, arrived (where it was delivered), seen (all of it)."""
        with open(f"{self.work}/sent", "rb") as file:
            rows = pickle.load(file)
        names = self.nodes
        fresh = lambda a, b, e: {"source": names[a], "dest": names[b], "epoch": e, "sent": [], "arrived": []}
        self.packets = [fresh(*row[:3]) for row in rows]  # type: ignore[no-untyped-call]
        with open(f"{self.work}/got", "rb") as file:
            for number, node, limit in pickle.load(file):
                self.packets[number]["arrived"].append((names[node], limit))
        for node in names:
            shown = json.loads(subprocess.check_output(["ip", "-n", TAG + node, "-j", "link"]))
            devices = {device["ifindex"]: self.lab.neighbour(device["ifname"]) for device in shown}
            for number, limit, neighbour in captured(f"{self.work}/{node}.pcap", devices):
                self.packets[number]["sent"].append((-limit, node, neighbour))
            with open(f"{self.work}/{node}.tcpdump") as told:
                self.unseen += sum(int(line.split()[0]) for line in told if "dropped by kernel" in line)
        for packet in self.packets:
            follow(packet)


def follow(packet: Any) -> None:
    """Joins what the nodes sent on to the packet's way, by hop limits; `seen` is whether nothing of it is missing."""
    way, seen = [packet["source"]], True
    for i, (limit, node, neighbour) in enumerate(sorted(packet["sent"])):
        seen = seen and node == way[-1] and limit == i - HOPS
        way.append(neighbour)
    for node, limit in packet["arrived"]:
        seen = seen and node == way[-1] and limit == HOPS - max(0, len(way) - 2)
    packet["way"], packet["seen"] = way, seen and len(packet["arrived"]) <= 1
