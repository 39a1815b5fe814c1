#!/usr/bin/env python3
"""changes.py FOLDER TURNS: the time of a node's change, by each plane in turn, and the processor's time for it; medians in ms, as
a table of a document.

It runs in the namespace `node` of bench/plane/run, over what rows.py wrote and the plane that plane/make built there. The time of
a change in XDP is that of the whole program: it reads the table, makes its map, waits until no program uses the slot, and asks for
each label. `ip -batch` replaces each route, and nft one map in one transaction.
"""
import pathlib
import resource
import statistics
import subprocess
import sys
import time

FOLDER, TURNS = pathlib.Path(sys.argv[1]), int(sys.argv[2])
TOOL, PINS = FOLDER / "plane" / "bentzolu-xdp", "/run/pins/node"
EPOCH = 5  # that of the tables of rows.py


def ran(words, path=None):
    """The time of a command and that of the processor in ms."""
    with open(path or "/dev/null", "rb") as given:
        start, used = time.monotonic(), resource.getrusage(resource.RUSAGE_CHILDREN)
        subprocess.run([str(word) for word in words], stdin=given, stdout=subprocess.DEVNULL, check=True)
        now = resource.getrusage(resource.RUSAGE_CHILDREN)
        return (time.monotonic() - start) * 1e3, (now.ru_utime + now.ru_stime - used.ru_utime - used.ru_stime) * 1e3


def plane(*words, path=None):
    return ran([TOOL, "--pins", PINS, *words], path)


def by_xdp(starts):
    took = plane("install", EPOCH, FOLDER / f"{starts}.row", path=FOLDER / f"{starts}.lines")
    return took, plane("retire", EPOCH)


def by_nft(starts):
    """The map's elements replaced in one transaction."""
    text = (FOLDER / f"{starts}.nft").read_text().splitlines()
    (FOLDER / "first.nft").write_text("\n".join(text) + "\n")
    (FOLDER / "again.nft").write_text(f"flush map netdev bz ways\n{text[-1]}\n")
    ran(["nft", "-f", FOLDER / "first.nft"])
    took = ran(["nft", "-f", FOLDER / "again.nft"])
    ran(["nft", "delete", "table", "netdev", "bz"])
    return took


def by_routes(labels):
    """The routes of a full table, each replaced by one to another port."""
    text = (FOLDER / f"full-{labels}.routes").read_text()
    (FOLDER / "first.routes").write_text(text.replace("route add", "route replace"))
    other = text.replace("route add", "route replace").replace("via fe80::10 dev o0", "via fe80::11 dev o1")
    (FOLDER / "again.routes").write_text(other)
    ran(["ip", "-6", "-batch", FOLDER / "first.routes"])
    return ran(["ip", "-6", "-batch", FOLDER / "again.routes"])


def main():
    up = ["up", "xdp", "node", 0, "n0", "o0"]  # the bench's n0 stands for the host's side
    for port in range(8):
        up += [f"p{port}", f"q{port}", f"02:00:00:00:03:0{port}"]
        subprocess.run(["ip", "link", "add", f"q{port}", "type", "veth", "peer", "name", f"r{port}"], check=True)
    pathlib.Path("/run/pins").mkdir()
    subprocess.run(["mount", "-t", "bpf", "bpf", "/run/pins"], check=True)
    plane(*up)
    found = {}
    for _ in range(TURNS):
        for starts in (4, 1024, 8192):
            installed, retired = by_xdp(starts)
            found.setdefault(f"XDP: install a row of {starts:,} starts, each of 16,384 labels asked", []).append(installed)
            found.setdefault(f"XDP: retire a row of {starts:,} starts", []).append(retired)
            found.setdefault(f"nftables: {starts:,} ranges", []).append(by_nft(starts))
        found.setdefault("routes: 1,024", []).append(by_routes(1024))
    plane("down")
    print("| Change of one node | ms | of the processor |\n|---|---|---|")
    for what, times in found.items():
        whole, used = (statistics.median(part) for part in zip(*times))
        print(f"| {what} | {whole:.0f} | {used:.1f} |")


main()
