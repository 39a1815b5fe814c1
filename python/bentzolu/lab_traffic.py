"""Packets in a lab: of UDP between all pairs of nodes, a connection of TCP, and what is seen of them at each node."""
import ctypes
import mmap
import multiprocessing
import os
import pickle
import select
import signal
import socket
import struct
import sys
import time
from typing import Any, Callable, Dict, Iterator, List, Optional, Sequence, Set, Tuple

from .lab_net import LabError, Network

Ready = Callable[[], None]
Pair = Tuple[int, int]  # the places of two nodes
Frame = Tuple[int, int, int, int, int]  # packet, hop limit, node, next node, epoch

PORT, STREAM_PORT = 7777, 9000
BODY = struct.Struct("!IHH")  # number, source, destination
SILENCE = 0.5  # seconds
HOPS = 255  # the hop limit that each packet starts with
MOST_AT_ONCE = 32  # packets that are sent without a rest; a sender that is late does not catch up
STREAM_PART, STREAM_REST = 1000, 0.005  # bytes that are written, and seconds between
NEW_NET = 0x40000000
FORCED_BUFFER = 33  # SO_RCVBUFFORCE
TCP_INFO, RETRANSMITS_AT = 11, 100
PACKETS, STATISTICS = 263, 6  # SOL_PACKET, PACKET_STATISTICS

libc = ctypes.CDLL(None, use_errno=True)
fork = multiprocessing.get_context("fork")


def enter(space: str) -> None:
    """Puts this process into a network namespace."""
    handle = os.open(f"/run/netns/{space}", os.O_RDONLY)
    if libc.setns(handle, NEW_NET):
        raise OSError(ctypes.get_errno(), f"no namespace {space}")
    os.close(handle)


class Board:
    """Numbers that all processes of a lab share. `sent` is how many packets were sent, `low` how many of the first ones
    have arrived without a gap."""

    NAMES = ("stop_send", "stop_watch", "stop_stream", "sent", "low", "written", "read", "again")

    values: memoryview

    def __init__(self) -> None:
        object.__setattr__(self, "values", memoryview(mmap.mmap(-1, 8 * len(self.NAMES))).cast("Q"))

    def __getattr__(self, name: str) -> int:
        return self.values[self.NAMES.index(name)]

    def __setattr__(self, name: str, value: int) -> None:
        self.values[self.NAMES.index(name)] = value


class Child:
    """A function in a process of its own. It says that it is ready by calling its first argument."""

    def __init__(self, act: Callable[..., Any], *words: Any) -> None:
        self.name = act.__name__
        self.pipe, far = fork.Pipe(duplex=False)
        self.process = fork.Process(target=Child.run, args=(far, act, words), daemon=True)
        self.process.start()
        far.close()

    @staticmethod
    def run(pipe: Any, act: Callable[..., Any], words: Sequence[Any]) -> None:
        signal.signal(signal.SIGINT, signal.SIG_IGN)
        try:
            pipe.send_bytes(pickle.dumps(act(lambda: pipe.send_bytes(pickle.dumps("ready")), *words)))
        except (OSError, LabError) as fault:
            pipe.send_bytes(pickle.dumps(LabError(str(fault))))
            sys.exit(1)

    def answer(self, seconds: float) -> Any:
        """What it says next; LabError where it fails, or says nothing for so long."""
        try:
            said = pickle.loads(self.pipe.recv_bytes()) if self.pipe.poll(seconds) else LabError("it does not answer")
        except EOFError:
            said = LabError("it has ended")
        if isinstance(said, Exception):
            raise LabError(f"cannot go on: {self.name}: {said}")
        return said

    def end(self) -> None:
        self.process.kill()
        self.process.join()


def open_udp(space: str, bound: bool = False) -> socket.socket:
    enter(space)
    sock = socket.socket(socket.AF_INET6, socket.SOCK_DGRAM)
    sock.setsockopt(socket.IPPROTO_IPV6, socket.IPV6_UNICAST_HOPS, HOPS)
    if bound:
        sock.setsockopt(socket.SOL_SOCKET, FORCED_BUFFER, 8 << 20)
        sock.bind(("::", PORT))
        sock.setblocking(False)
    return sock


def send(ready: Ready, spaces: Sequence[str], addresses: Sequence[str], pairs: Sequence[Pair], rate: float, board: Board) -> None:
    """Sends packet after packet, number N between the pair of N's remainder, until it is to stop."""
    socks = [open_udp(space) for space in spaces]
    ready()
    due = time.monotonic()
    while not board.stop_send:
        now = time.monotonic()
        due = max(due, now - MOST_AT_ONCE / rate)
        while due <= now:
            number = board.sent
            a, b = pairs[number % len(pairs)]
            board.sent = number + 1
            due += 1 / rate
            try:
                socks[a].sendto(BODY.pack(number, a, b), (addresses[b], PORT))
            except OSError:
                pass  # it counts as sent, and is lost
        time.sleep(0.001)


def open_packets(space: str) -> socket.socket:
    """A socket that sees each frame of a namespace."""
    enter(space)
    sock = socket.socket(socket.AF_PACKET, socket.SOCK_DGRAM, socket.htons(3))
    sock.setsockopt(socket.SOL_SOCKET, FORCED_BUFFER, 16 << 20)
    sock.setblocking(False)
    return sock


def sent_on(packet: bytes, where: Any) -> Optional[Tuple[int, int, int, int]]:
    """(number, hop limit, number of the next node, epoch) of a packet of UDP that leaves for another node, else None."""
    if where[2] != socket.PACKET_OUTGOING or not where[0].startswith("to"):
        return None
    if len(packet) < 48 + BODY.size or packet[6] != socket.IPPROTO_UDP or packet[42:44] != PORT.to_bytes(2, "big"):
        return None
    return BODY.unpack_from(packet, 48)[0], packet[7], int(where[0][2:]) - 1, packet[26] << 8 | packet[27]


def read_all(sock: socket.socket) -> Iterator[Tuple[bytes, Any]]:
    """The packets that wait at a socket, each with where it came from."""
    while True:
        try:
            yield sock.recvfrom(128)
        except BlockingIOError:
            return


def watch(ready: Ready, spaces: Sequence[str], board: Board) -> Tuple[List[Frame], List[Tuple[int, int]], int]:
    """What each node sent on, as (packet, hop limit, node, next node, epoch), what arrived, as (packet, node), and how many
    frames were not seen. It ends when it is to stop and half a second was silent; frames of other traffic do not count."""
    poll, early = select.epoll(), set()  # type: Any, Set[int]
    socks: Dict[int, Tuple[int, socket.socket, bool]] = {}
    frames: List[Frame] = []
    arrivals: List[Tuple[int, int]] = []
    for i, space in enumerate(spaces):
        for sock, is_arrival in ((open_packets(space), False), (open_udp(space, True), True)):
            socks[sock.fileno()] = i, sock, is_arrival
            poll.register(sock.fileno(), select.EPOLLIN)
    ready()
    last = time.monotonic()
    while not board.stop_watch or time.monotonic() - last < SILENCE:
        for i, sock, is_arrival in [socks[handle] for handle, _ in poll.poll(SILENCE)]:
            if not is_arrival:
                found = [it for it in (sent_on(*it) for it in read_all(sock)) if it]
                frames += [(it[0], it[1], i, it[2], it[3]) for it in found]
                last = time.monotonic() if found else last
                continue
            numbers = [BODY.unpack(it[0])[0] for it in read_all(sock)]
            arrivals += [(number, i) for number in numbers]
            early.update(numbers)
            while board.low in early:
                early.remove(board.low)
                board.low += 1
    packets = [sock for _, sock, is_arrival in socks.values() if not is_arrival]
    return frames, arrivals, sum(struct.unpack("II", it.getsockopt(PACKETS, STATISTICS, 8))[1] for it in packets)


def sink(ready: Ready, space: str, host: str, board: Board) -> None:
    """Takes one connection, and counts what it reads to its end."""
    enter(space)
    server = socket.socket(socket.AF_INET6)
    server.bind((host, STREAM_PORT))
    server.listen()
    ready()
    connection, _ = server.accept()
    while data := connection.recv(65536):
        board.read += len(data)
    connection.close()


def sent_again(connection: socket.socket) -> int:
    """How often TCP has sent a segment again."""
    info = connection.getsockopt(socket.IPPROTO_TCP, TCP_INFO, RETRANSMITS_AT + 4)
    return int(struct.unpack_from("I", info, RETRANSMITS_AT)[0])


def stream(ready: Ready, space: str, host: str, board: Board) -> None:
    """Writes to one connection until it is to stop, ends it, and waits until the other side has read all."""
    enter(space)
    connection = socket.create_connection((host, STREAM_PORT), timeout=20)
    connection.settimeout(None)
    ready()
    while not board.stop_stream:
        connection.sendall(bytes(STREAM_PART))
        board.written += STREAM_PART
        board.again = sent_again(connection)
        time.sleep(STREAM_REST)
    connection.shutdown(socket.SHUT_WR)
    connection.recv(1)
    board.again = sent_again(connection)


class Traffic:
    """All processes of a lab's traffic, while a `with` lasts."""

    def __init__(self, network: Network, pairs: Sequence[Pair], ends: Tuple[str, str], rate: float,
                 watching: Callable[..., Any] = watch) -> None:
        self.network, self.pairs, self.rate, self.watching = network, pairs, rate, watching
        self.ends = ends
        self.board = Board()
        self.children: List[Child] = []

    def start(self, act: Callable[..., Any], *words: Any) -> Child:
        self.children.append(Child(act, *words))
        return self.children[-1]

    def __enter__(self) -> "Traffic":
        spaces = [self.network.space(node) for node in self.network.nodes]
        hosts = [self.network.host(node) for node in self.network.nodes]
        a, b = self.ends
        try:
            self.watcher = self.start(self.watching, spaces, self.board)
            self.start(sink, self.network.space(b), self.network.host(b), self.board)
            for child in self.children:
                child.answer(30)
            self.streamer = self.start(stream, self.network.space(a), self.network.host(b), self.board)
            self.streamer.answer(30)
            self.start(send, spaces, hosts, self.pairs, self.rate, self.board).answer(30)
        except BaseException:
            self.__exit__()
            raise
        return self

    def __exit__(self, *_: object) -> None:
        for child in self.children:
            child.end()

    def until(self, holds: Callable[[], bool], seconds: float) -> bool:
        """Waits until something holds, for so long at most; LabError where a process has failed. Says whether it holds."""
        end = time.monotonic() + seconds
        while not holds():
            if time.monotonic() > end:
                return False
            for child in self.children:
                if not child.process.is_alive() and child.process.exitcode != 0:
                    child.answer(0)
            time.sleep(0.01)
        return True

    def finish(self) -> Any:
        """Ends the connection and the sending, lets all arrive, and returns what `watch` returns."""
        self.board.stop_stream = 1
        self.until(lambda: not self.streamer.process.is_alive(), 20)
        self.board.stop_send = 1
        self.until(lambda: self.board.low >= self.board.sent, 2)
        self.board.stop_watch = 1
        return self.watcher.answer(60)
