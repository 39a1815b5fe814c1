#!/usr/bin/env python3
"""rows.py FOLDER: rows drawn by chance, and what each form of table takes of them, as files in a folder.

For each number of starts K, over 16,384 labels and 8 ports: `K.row` (LABELS OWN, then START PORT), `K.lines` (the plane's lines),
`K.prefixes` (VALUE LENGTH PORT, the fewest) and `K.nft`. For full tables of N labels: `full-N.row`, `full-N.lines` (bytes) and
`full-N.routes`, for `ip -6 -batch`.
"""
import pathlib
import random
import sys

from bentzolu import lines, plane

LABELS, PORTS, EPOCH = 16384, 8, 5
BITS = LABELS.bit_length() - 1
STARTS = (4, 16, 64, 256, 1024, 8192)


def row(labels, starts, seed):
    """A row whose neighbouring starts have different ports."""
    draw = random.Random(seed)
    chosen = [0, *sorted(draw.sample(range(1, labels), starts - 1))]
    words, last = [], PORTS
    for start in chosen:
        port = draw.choice([port for port in range(PORTS) if port != last])
        words.append((start, port))
        last = port
    return lines.Row(labels, labels - 1, tuple(words))


def ports_of(it):
    """The port of each label."""
    ends = [start for start, _ in it.words[1:]] + [it.labels]
    return [port for (start, port), end in zip(it.words, ends) for _ in range(start, end)]


def prefixes(ports):
    """The fewest prefixes (value, length, port) that lead each label to its port."""
    levels = [[1 << port for port in ports]]
    while len(levels[-1]) > 1:
        below = levels[-1]
        levels.append([below[i] & below[i + 1] or below[i] | below[i + 1] for i in range(0, len(below), 2)])
    bits, found = len(levels) - 1, []
    ahead = [(bits, 0, None)]
    while ahead:
        level, at, above = ahead.pop()
        may = levels[level][at]
        port = above if above is not None and may >> above & 1 else (may & -may).bit_length() - 1
        if port != above:
            found.append((at << level, bits - level, port))
        if level:
            ahead += [(level - 1, 2 * at, port), (level - 1, 2 * at + 1, port)]
    return found


def nft(it):
    """The row for nftables, as the lab writes it."""
    ends = [start for start, _ in it.words[1:]] + [it.labels]
    ranges = [(start, end - 1, port) for (start, port), end in zip(it.words, ends)]
    text = ["table netdev bz {", *(f"chain to_{port} {{ fwd ip6 to fe80::1{port} device o{port}; }}" for port in range(PORTS))]
    text += ["map ways { type ipv6_addr : verdict; flags interval; }", "chain in { type filter hook ingress device n0 priority 0;"]
    text += ["ip6 daddr vmap @ways", "drop", "}", "}", f"add {plane.elements(EPOCH, ranges)}"]
    return "\n".join(text) + "\n"


def routes(it):
    """A route for each label of a full table."""
    return "".join(f"route add {plane.address(label, 8)}/128 via fe80::1{port} dev o{port}\n" for label, port in enumerate(ports_of(it)))


def main():
    folder = pathlib.Path(sys.argv[1])
    for starts in STARTS:
        it = row(LABELS, starts, starts)
        (folder / f"{starts}.row").write_text(it.text())
        (folder / f"{starts}.lines").write_bytes(tree_of(it))
        (folder / f"{starts}.prefixes").write_text("".join(f"{value} {length} {port}\n" for value, length, port in prefixes(ports_of(it))))
        (folder / f"{starts}.nft").write_text(nft(it))
    for labels in (1024, LABELS):
        it = row(labels, labels // 2, labels)
        (folder / f"full-{labels}.row").write_text(it.text())
        made = lines.lines(it, EPOCH)
        (folder / f"full-{labels}.lines").write_bytes(lines.as_bytes(made))
        assert made[0][3] == lines.BYTES
        (folder / f"full-{labels}.routes").write_text(routes(it))


def tree_of(it):
    """The tree of a row, also where bytes would be fewer lines."""
    whole, lines.BYTE_PORTS = lines.BYTE_PORTS, 0
    made = lines.as_bytes(lines.lines(it, EPOCH))
    lines.BYTE_PORTS = whole
    return made


main()
