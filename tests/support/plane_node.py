"""One node's plane in the kernel: what its loader takes and refuses, label by label, and what real packets do there.

    plane_node.py TOOL OBJECT ROUTE

It is run as root in a mount and a network namespace of its own, by tests/plane. ROUTE is the program, or empty. The last line is
`N passed, M failed` or that and `, K skipped`.
"""
from __future__ import annotations

import ctypes
import os
import random
import re
import socket
import struct
import subprocess
import sys
import time
from typing import Dict, List, Optional, Tuple

from bentzolu import lines
from bentzolu.lines import Row

TOOL, OBJECT, ROUTE = sys.argv[1:4]
PINS = "/run/bpf/n"
MACS = {"to2": "02:00:00:00:00:02", "to7": "02:00:00:00:00:07"}
SALT_LAKE_CITY = Row(14, 4, ((0, 0), (5, 1)))
BPF = {"x86_64": 321, "aarch64": 280}[os.uname().machine]  # the number of bpf(2)
LIBC = ctypes.CDLL(None, use_errno=True)
passed = failed = skipped = 0


def count(what: str, wrong: Optional[str]) -> None:
    """Counts a check, which failed where something is wrong."""
    global passed, failed
    passed, failed = passed + (not wrong), failed + bool(wrong)
    if wrong:
        print(f"plane: {what}: {wrong}", flush=True)


def sh(script: str) -> None:
    subprocess.run(["sh", "-e", "-c", script], check=True)


def tool(words: str, data: bytes = b"", pins: str = PINS, **more: object) -> Tuple[int, str, str]:
    """The status of the loader, its output and what it says."""
    done = subprocess.run([TOOL, "--pins", pins, *words.split()], input=data, capture_output=True, timeout=60, check=False, **more)  # type: ignore
    return done.returncode, done.stdout.decode(), done.stderr.decode()


def taken(what: str, words: str, data: bytes = b"") -> str:
    """What is printed for words that have to be taken."""
    status, output, said = tool(words, data)
    count(what, None if status == 0 and not said else f"status {status}: {said.strip()}")
    return output


def refused(what: str, sentence: str, words: str, data: bytes = b"", **more: object) -> None:
    """Words that have to be refused with a sentence; the tables that were there stay."""
    before = tool("show")[1]
    status, output, said = tool(words, data, **more)  # type: ignore
    right = status == 1 and output == "" and re.fullmatch(f"bentzolu-xdp: .*(?:{sentence}).*\n", said)
    count(what, None if right else f"status {status}: {said.strip()}")
    count(f"{what}: the tables stay", None if tool("show")[1] == before else tool("show")[1])


def table(row: Row, epoch: int) -> bytes:
    return bytes(lines.as_bytes(lines.lines(row, epoch)))


def edited(epoch: int, row: Row, at: int, word: int) -> bytes:
    """A table with another word."""
    made = [word_ for line in lines.lines(row, epoch) for word_ in line]
    made[at] = word
    return struct.pack(f"<{len(made)}I", *made)


def up(mode: str, ports: int = 2) -> str:
    links = [f"P{i} {device} {mac}" for i, (device, mac) in enumerate(MACS.items())][:ports]
    return f"--object {OBJECT} up {mode} SaltLakeCity 0 bz0 bz1 {' '.join(links)}"


def of_tables() -> None:
    """Tables that are taken, and that are refused."""
    row, good = SALT_LAKE_CITY, table(SALT_LAKE_CITY, 1)
    refused("nothing is up", "begin with `up`", "counts")
    taken("up", up("xdp"))
    refused("up again", "`down` removes it", up("xdp"))
    taken("install", "install 1", good)
    taken("check", "check 1", good)
    taken("check, as text", "check 1", lines.as_text(lines.lines(row, 1)).encode())
    output = taken("lines", "lines 1")
    count("the lines in the kernel", None if output == lines.as_text(lines.lines(row, 1)) else output)
    refused("lines of no table", "epoch 2 is not installed", "lines 2")
    for what, other in (("another start", ((0, 0), (6, 1))), ("another port", ((0, 0), (5, 0))), ("one start more", ((0, 0), (5, 1), (9, 0)))):
        refused(what, "is not forwarded as the row of epoch 1 says", "check 1", table(Row(14, 4, other), 1))
    refused("another own label", "is not forwarded as", "check 1", table(Row(14, 5, row.words), 1))
    refused("more labels", "is not forwarded as", "check 1", table(Row(15, 4, row.words), 1))
    refused("epoch 65 in the slot of 1", "epoch 65 is not installed", "check 65", table(row, 65))
    refused("an epoch that is not installed", "epoch 2 is not installed", "check 2", table(row, 2))
    refused("a stamp that is not installed", "install it at all nodes", "stamp 2")
    taken("stamp", "stamp 1")
    taken("stamp nothing", "stamp 0")
    count("nothing is stamped", None if tool("show")[1].startswith("node SaltLakeCity mode xdp host bz0 own bz1 stamp 0\n") else tool("show")[1])
    taken("stamp again", "stamp 1")
    refused("the stamped epoch is retired", "stamp another one first", "retire 1")
    refused("installed twice", "retire it first", "install 1", good)
    refused("a slot that is taken", "taken by epoch 1", "install 65", table(row, 65))
    refused("another epoch's table", "of epoch 1, not of epoch 3", "install 3", good)
    refused("starts out of order", "out of order: 5 comes after 5", "install 3", edited(3, row, 18, 5 << 16))
    refused("no start 0", "the first start of a table is 0", "install 3", edited(3, row, 16, 1 << 16))
    refused("a start beyond the labels", "is not a label from 0 to 13", "install 3", edited(3, row, 17, 14 << 16))
    refused("a port that is not there", "this node has 2 ports", "install 3", edited(3, row, 17, 5 << 16 | 2))
    refused("a port of a byte that is not there", "this node has 2 ports", "install 3", table(Row(300, 4, tuple((i, i % 3) for i in range(300))), 3))
    refused("no label", "has 1 to 16384 labels", "install 3", edited(3, row, 1, 0))
    refused("too many labels", "has 1 to 16384 labels", "install 3", edited(3, row, 1, 16385))
    refused("an own label beyond", "its own label is one of them", "install 3", edited(3, row, 2, 14))
    refused("no depth", "depth of a table is 0, 1, 2 or 255", "install 3", edited(3, row, 3, 3))
    refused("a depth of another size", "cannot have", "install 3", edited(3, row, 3, 1))
    refused("no base", "cannot have", "install 3", edited(3, row, 3, 2))
    refused("bytes of another size", "as bytes has 2 lines", "install 3", edited(3, row, 3, 255))
    refused("beyond 16,384 starts", "1 to 529 lines", "install 3", good * 530)
    refused("half a line", "lines of 128 bytes", "install 3", good + good[:64])
    refused("no table", "line 1 of the table|1 to 529 lines", "install 3", b"")
    refused("no number", "8 hexadecimal digits", "install 3", b"nothing\n")
    refused("half a line of text", "8 hexadecimal digits|lines of 32 words", "install 3", b"00000001 00000002\n")
    refused("no epoch", "1 to 65535, not 0", "install 0", good)
    refused("an epoch beyond", "1 to 65535", "install 65536", good)
    refused("retired, and not there", "epoch 3 is not installed", "retire 3")
    wrong = "/run/wrong"
    for what, text, sentence in (("a row of another node", "14 5\n0 0\n5 1\n", "one of them belongs to another node"),
                                 ("a row with another start", "14 4\n0 0\n6 1\n", "label 5 is not forwarded as the row of epoch 3 says"),
                                 ("a row out of order", "14 4\n5 1\n0 0\n", "out of order"), ("no row", "x\n", "LABELS OWN")):
        with open(wrong, "w", encoding="ascii") as file:
            file.write(text)
        refused(what, sentence, f"install 3 {wrong}", table(row, 3))
    refused("a root that is one short", "is not forwarded as", "install 3", edited(3, Row(1000, 0, tuple((2 * i, i % 2) for i in range(40))), 17, 0xFFFFFFFF))
    taken("epoch 1 as before", "check 1", good)


def of_sizes() -> None:
    """Rows of all depths, and those whose table has bytes; where the first start is above 0, the last port is for what is below."""
    draw = random.Random(1)
    for labels, starts, depth in ((14, 1, 0), (16384, 16, 0), (16384, 17, 1), (16384, 512, 1), (16384, 513, 2), (300, 250, 255), (16384, 9000, 255)):
        for first in (0, 1):
            chosen = sorted(draw.sample(range(first + 1, labels), starts - (not first)))
            words = tuple((start, i % 2) for i, start in enumerate([*([] if first else [0]), *chosen]))
            row = Row(labels, labels // 3, words)
            made = lines.lines(row, 9)
            with open("/run/row", "w", encoding="ascii") as file:
                file.write(row.text())
            what = f"{starts} starts of {labels} labels, from {words[0][0]} on"
            count(f"{what}: the depth", None if made[0][3] == depth or first else f"{made[0][3]} in place of {depth}")
            taken(what, "install 9 /run/row", lines.as_bytes(made))
            taken(f"{what}: retired", "retire 9")


def bytes_of_tables() -> int:
    """The bytes that the kernel has for all tables of the node."""
    def bpf(command: int, form: str, *words: int) -> int:
        attributes = ctypes.create_string_buffer(struct.pack(form, *words), 128)
        found = LIBC.syscall(BPF, command, attributes, len(attributes))
        if found < 0:
            raise OSError(ctypes.get_errno(), f"bpf {command}")
        return int(found)
    path, key, number = ctypes.create_string_buffer(f"{PINS}/tables".encode()), ctypes.c_uint32(0), ctypes.c_uint32(0)
    outer = bpf(7, "QII", ctypes.addressof(path), 0, 0)
    bpf(1, "IIQQQ", outer, 0, ctypes.addressof(key), ctypes.addressof(number), 0)
    inner = bpf(14, "III", number.value, 0, 0)
    try:
        with open(f"/proc/self/fdinfo/{inner}", encoding="ascii") as file:
            return int(re.search(r"^memlock:\s*(\d+)$", file.read(), flags=re.M)[1])  # type: ignore
    finally:
        os.close(inner)
        os.close(outer)


def of_memory() -> None:
    """What one more table takes, until a node has 16: its row's words, and an entry of 16 bytes."""
    for starts, labels in ((4, 512), (16, 2048), (64, 2048), (256, 2048)):
        row = Row(labels, 1, tuple((at * labels // starts, at % 2) for at in range(starts)))
        found = []
        for epoch in range(2, 17):
            tool(f"install {epoch}", table(row, epoch))
            found.append(bytes_of_tables())
        more = (found[-1] - found[0]) / 14
        most = 1.3 * 4 * starts if starts >= 16 else 4 * starts + 24  # an entry, and what a line has left
        count(f"memory: one more table of {starts} starts", None if 4 * starts <= more <= most else f"{more} bytes, of {found}")
        count(f"memory: all of {starts} starts are right", None if all(tool(f"check {it}", table(row, it))[0] == 0 for it in (2, 9, 16)) else "one is not")
        for epoch in range(2, 17):
            tool(f"retire {epoch}")
    count("memory: nothing is left", None if bytes_of_tables() < 1000 else f"{bytes_of_tables()} bytes")


def sent(labels: List[int]) -> None:
    """Sends a packet for each label from the host."""
    with socket.socket(socket.AF_INET6, socket.SOCK_DGRAM) as sock:
        for label in labels:
            sock.sendto(struct.pack("!I", label), (f"fd00::{label:x}", 7777))


def until_stamped(epoch: int, packets: int) -> None:
    """Waits until the node has counted so many packets of its own in an epoch, for five seconds at most, and a little more."""
    end = time.monotonic() + 5
    while not re.search(rf"^epoch {epoch} .* stamped {packets} ", tool("counts")[1], flags=re.M) and time.monotonic() < end:
        time.sleep(0.02)
    time.sleep(0.2)


def frames(socks: Dict[str, socket.socket]) -> Dict[str, List[Tuple[int, int, int]]]:
    """By device, (epoch, label, hop limit) of the frames of UDP that came out there."""
    found: Dict[str, List[Tuple[int, int, int]]] = {}
    for device, sock in socks.items():
        found[device] = []
        while True:
            try:
                data = sock.recv(256)
            except BlockingIOError:
                break
            if len(data) >= 58 and data[12:14] == b"\x86\xdd" and data[20] == 17 and data[38:40] == b"\xfd\x00":
                found[device].append((data[40] << 8 | data[41], data[52] << 8 | data[53], data[21]))
    return found


def of_packets(mode: str) -> None:
    """Packets of the host's own: each comes out at the port of its row, stamped; counters and events say the same."""
    watching = OBJECT.replace("plane.bpf.o", "watch.bpf.o")
    taken(f"{mode}: up", up(mode).replace(OBJECT, watching))
    for epoch in (1, 2):
        row = SALT_LAKE_CITY if epoch == 1 else Row(14, 4, ((2, 1), (9, 0)))
        taken(f"{mode}: install {epoch}", f"install {epoch}", table(row, epoch))
        taken(f"{mode}: stamp {epoch}", f"stamp {epoch}")
        socks = {}
        for device in MACS:
            socks[device] = socket.socket(socket.AF_PACKET, socket.SOCK_RAW, socket.htons(0x86DD))
            socks[device].bind((f"far-{device}", 0x86DD))
            socks[device].setblocking(False)
        labels = [label for label in range(16) if label != row.own]  # 14 and 15 are no labels
        sent(labels)
        until_stamped(epoch, len(labels))
        found = frames(socks)
        for port, device in enumerate(MACS):
            wanted = [(epoch, label, 63) for label in labels if label < 14 and row.port(label) == port]
            count(f"{mode}: epoch {epoch} at {device}", None if found[device] == wanted else f"{found[device]} in place of {wanted}")
        output = tool("counts")[1]
        said = next((line for line in output.splitlines() if line.startswith(f"epoch {epoch} ")), output)
        wanted_counts = f"epoch {epoch} forwarded 13 delivered 0 stamped 15 no-epoch 0 no-label 2 no-port 0 hops 0"
        count(f"{mode}: the counters of epoch {epoch}", None if said == wanted_counts else f"{said} in place of {wanted_counts}")
        for sock in socks.values():
            sock.close()
    taken(f"{mode}: a check counts nothing", "check 2", table(Row(14, 4, ((2, 1), (9, 0))), 2))
    again = next((line for line in tool("counts")[1].splitlines() if line.startswith("epoch 2 ")), "")
    count(f"{mode}: the counters stay", None if again == wanted_counts else again)
    status, output, said = tool("drained 1")
    count(f"{mode}: epoch 1 is quiet", None if status == 0 and output.startswith("quiet 1 stamped 15 ") else f"{status} {output}{said}")
    taken(f"{mode}: retire 1", "retire 1")
    events = subprocess.run([TOOL, "watch", "/run", PINS], capture_output=True, timeout=30, check=False)
    verdicts = [it[5] for it in struct.iter_unpack("<IIHHBBH", events.stdout)]
    tally = {verdict: verdicts.count(verdict) for verdict in set(verdicts)}
    count(f"{mode}: events equal counts", None if tally == {0: 26, 4: 4} else f"{tally}")
    taken(f"{mode}: down", "down")


def without_bpf() -> None:
    """A user without the right, and a kernel without BPF."""
    status, _, said = tool(up("xdp"), b"", "/run/bpf/m", preexec_fn=lambda: os.setuid(65534))
    count("no right", None if status == 1 and "cannot run here" in said and "CAP_SYS_ADMIN" in said else f"status {status}: {said}")
    with open("/run/no.c", "w", encoding="ascii") as file:
        file.write("#include <errno.h>\nlong syscall(long n, ...) { (void)n; errno = ENOSYS; return -1; }\n")
    sh("cc -shared -fPIC -o /run/no.so /run/no.c")
    status, _, said = tool(up("xdp"), b"", "/run/bpf/m", env={**os.environ, "LD_PRELOAD": "/run/no.so"})
    count("no BPF", None if status == 1 and "cannot run here" in said and "Linux 5.10" in said else f"status {status}: {said}")
    count("nothing is left of both", None if not os.path.exists("/run/bpf/m") else str(os.listdir("/run/bpf/m")))


def of_devices() -> None:
    """Devices that are not there, twice there, in use or gone."""
    for what, sentence, words in (
        ("no device", "there is no device to9", up("xdp") + " Z to9 02:00:00:00:00:09"),
        ("a device twice", "the device to2 is given twice", up("xdp") + " Z to2 02:00:00:00:00:09"),
        ("a neighbour twice", "a neighbour has one port", up("xdp") + " P0 far-to2 02:00:00:00:00:09"),
        ("the loopback", "the loopback device", up("xdp") + " Z lo 02:00:00:00:00:09"),
        ("no hardware address", "not a hardware address", up("xdp") + " Z far-to2 2:3"),
        ("no mode", "xdp, generic or tc", up("fast")),
        ("no object", "there is no object", up("xdp").replace(OBJECT, "/run/none.o")),
        ("an object of another kind", "not an object of the plane", up("xdp").replace(OBJECT, "/etc/hostname")),
    ):
        status, _, said = tool(words)
        count(what, None if status == 1 and re.search(sentence, said) else f"status {status}: {said}")
        count(f"{what}: nothing is up", None if not os.path.exists(PINS) else str(os.listdir(PINS)))
    taken("up with one port", up("xdp", 1))
    status, _, said = tool(up("xdp"), b"", "/run/bpf/other")
    count("a device in use", None if status == 1 and "already has a program" in said else f"status {status}: {said}")
    count("a device in use: the first plane stays", None if tool("show")[1].startswith("node SaltLakeCity mode xdp") else tool("show")[2])
    taken("install at one port", "install 1", table(Row(4, 0, ((1, 0),)), 1))
    sh("ip link del to2")
    refused("an interface that is gone", "device to2 of port 0 is gone", "install 2", table(Row(4, 0, ((1, 0),)), 2))
    taken("down without the interface", "down")
    status, _, said = tool(f"--object {OBJECT} up xdp A 0 bz0 bz1", b"", "/tmp/no-bpffs")
    count("no bpffs", None if status == 1 and "bpffs" in said and not os.path.exists("/tmp/no-bpffs") else f"status {status}: {said}")


def python(words: str) -> Tuple[int, str, str]:
    done = subprocess.run([sys.executable, "-m", "bentzolu", "xdp", "--pins", PINS, *words.split()], capture_output=True, text=True, timeout=60, check=False)
    return done.returncode, done.stdout, done.stderr


def of_words() -> None:
    """The words of the package: a plane of NSFNET's SaltLakeCity."""
    global skipped
    if not ROUTE:
        print("plane: the program is not built: 11 checks are not tried")
        skipped += 11
        return
    net = "examples/nsfnet.edgelist"
    table_words = ["table", "3", net, "--kind", "tree", "--root", "Houston", "--node", "SaltLakeCity"]
    made = subprocess.run([ROUTE, "xdp", *table_words], capture_output=True, text=True, timeout=60, check=False).stdout
    with open("/run/made", "w", encoding="ascii") as file:
        file.write(made)
    count("words: the program's table is the package's", None if made and made == python(" ".join(table_words))[1] else made)
    for what, wanted, sentence, words in (
        ("up", 0, "", f"up --node SaltLakeCity --object {OBJECT} PaloAlto=to2,{MACS['to2']} Boulder=to7,{MACS['to7']}"),
        ("install", 0, "", f"install 1 {net} --kind tree --root Houston"),
        ("check", 0, "", f"check 1 {net} --kind tree --root Houston --node SaltLakeCity"),
        ("install the program's table", 0, "", f"install 3 {net} --kind tree --root Houston --lines /run/made"),
        ("check of another plan", 1, "is not forwarded as", f"check 1 {net} --kind tree --root SanDiego"),
        ("another node", 1, "belongs to SaltLakeCity, not to Houston", f"install 2 {net} --node Houston"),
        ("a neighbour without a port", 1, "which has no port", f"install 2 {net} --kind shortest"),
        ("stamp", 0, "", "stamp 1"),
        ("a port without an address", 1, "give the neighbour's", "up --node A X=to2"),
        ("down", 0, "", "down"),
    ):
        status, _, said = python(words)
        count(f"words: {what}", None if status == wanted and sentence in said else f"status {status}: {said.strip()}")


def main() -> int:
    sh("mount --make-rprivate /; mount -t tmpfs tmpfs /run; mkdir /run/bpf; mount -t bpf bpf /run/bpf; ip link set lo up")
    sh("ip link add bz0 type veth peer name bz1 address 02:00:00:01:00:01; ip link set bz0 up; ip link set bz1 up")
    for device in MACS:
        sh(f"ip link add {device} type veth peer name far-{device}; ip link set {device} up addrgenmode none; ip link set far-{device} up addrgenmode none")
    sh("ip -6 address add fe80::fffe/64 dev bz0 nodad; ip -6 neigh add fe80::ffff lladdr 02:00:00:01:00:01 dev bz0 nud permanent")
    sh("ip -6 address add fd00::4/128 dev lo nodad; ip -6 route add fd00::/16 via fe80::ffff dev bz0")
    for part in (of_tables, of_sizes, of_memory):
        part()
    taken("down", "down")
    for mode in ("generic", "tc"):
        of_packets(mode)
    for part in (without_bpf, of_words, of_devices):
        part()
    print(f"{passed} passed, {failed} failed" + (f", {skipped} skipped" if skipped else ""))
    return int(failed > 0)


if __name__ == "__main__":
    sys.exit(main())
