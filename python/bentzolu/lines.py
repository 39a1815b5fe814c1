"""A node's row as lines of 128 bytes, by which a plane in the Linux kernel finds the port of a label.

A table is line 0, its head and its root, and then either levels of 32 words, or with depth 255 a byte for each label. A word
is a start and a port, `START << 16 | PORT`. Ports are the places of a node's neighbours, from 0. That the program's rows are
those of the plan is proved; nothing of this module is. The loader asks the kernel for each label before a table is used.
"""
from __future__ import annotations

import struct
from dataclasses import dataclass
from typing import Any, List, Sequence, Tuple

from .errors import BentzoluError
from .texts import NodePlan

WORDS, ROOT_WORDS, HEAD_WORDS = 32, 16, 16  # of a line, of a root, of a head
LINE_BYTES = 4 * WORDS
BYTES = 255  # the depth of a table that has a byte for each label
BYTE_PORTS = 256  # ports of such a table are below
NO_WORD = 0xFFFFFFFF
MOST_LABELS = MOST_STARTS = 16384
MOST_PORTS, MOST_EPOCH = 1024, 65535


class LinesError(BentzoluError, ValueError):
    """A row, or lines, of which no table of a plane can be made; the text says why."""


@dataclass(frozen=True)
class Row:
    """A node's row in numbers: `labels` is how many labels there are, `own` is the node's one, `words` has a start and a port
    for each interval, by ascending starts."""

    labels: int
    own: int
    words: Tuple[Tuple[int, int], ...]

    def port(self, label: int) -> int:
        """The port of a label: that of the last start at or below it, and below the first start the last one's.

        Parameters
        ----------
        label : int
            A label, below `labels`.

        Returns
        -------
        int
            The port, from 0.

        Raises
        ------
        LinesError
            Where the row has no start.
        """
        if not self.words:
            raise LinesError("a row needs at least one start")
        return next((port for start, port in reversed(self.words) if start <= label), self.words[-1][1])

    def text(self) -> str:
        """The row as the loader reads it beside its lines: `LABELS OWN`, then a line `START PORT` for each start."""
        return f"{self.labels} {self.own}\n" + "".join(f"{start} {port}\n" for start, port in self.words)


def row_of(node: NodePlan, labels: int, neighbours: Sequence[Any]) -> Row:
    """A node's row in numbers.

    Parameters
    ----------
    node : NodePlan
        The node's label and intervals.
    labels : int
        How many labels the plan has.
    neighbours : sequence
        The node's neighbours by their ports, from 0.

    Returns
    -------
    Row
        The row.

    Raises
    ------
    LinesError
        Where an interval leads to a neighbour that has no port.
    """
    ports = {to: port for port, to in enumerate(neighbours)}
    for to in node.neighbours:
        if to not in ports:
            raise LinesError(f"the row of {node.node} forwards to {to}, which has no port: give every neighbour in the plan a port")
    return Row(labels, node.label, tuple(zip(node.starts, (ports[to] for to in node.neighbours))))


def check_row(row: Row, epoch: int) -> None:
    """LinesError where no table can be made of a row."""
    if not 1 <= epoch <= MOST_EPOCH:
        raise LinesError(f"an epoch is a number from 1 to {MOST_EPOCH}, not {epoch}")
    if not 1 <= row.labels <= MOST_LABELS or not 0 <= row.own < row.labels:
        raise LinesError(f"a table has 1 to {MOST_LABELS:,} labels, and its own label is one of them: {row.labels} labels and own label {row.own} were given")
    if len(row.words) > MOST_STARTS:
        raise LinesError(f"a row has at most {MOST_STARTS:,} starts, not {len(row.words):,}")
    before = -1
    for start, port in row.words:
        if not before < start < row.labels:
            raise LinesError(f"the starts of a row must be labels in ascending order: {start} comes after {before}")
        if not 0 <= port < MOST_PORTS:
            raise LinesError(f"a port is a number from 0 to {MOST_PORTS - 1}, not {port}")
        before = start


def padded(row: Row) -> List[int]:
    """The words of a row, with one for the start 0: the last port, where the first start is above."""
    words = [start << 16 | port for start, port in row.words]
    return [row.words[-1][1], *words] if words and row.words[0][0] else words


def filled(words: Sequence[int], size: int) -> List[int]:
    """Words, and after them so many that stand for none as make the length a multiple of a size."""
    return [*words, *[NO_WORD] * (-len(words) % size)]


def lines(row: Row, epoch: int) -> List[Tuple[int, ...]]:
    """The lines of an epoch's table: those of bytes where these are fewer, else the tree.

    Parameters
    ----------
    row : Row
        The node's row.
    epoch : int
        The epoch, 1 to 65,535.

    Returns
    -------
    list
        A tuple of 32 words for each line.

    Raises
    ------
    LinesError
        Where the row does not ascend, has too many labels, starts or ports, or the epoch is none.

    Examples
    --------
    >>> lines(Row(14, 4, ((0, 0), (5, 1))), 1)[0][:20]
    (1, 14, 4, 0, 0, 0, 0, 0, 0, 0, 0, 0, 0, 0, 0, 0, 0, 327681, 4294967295, 4294967295)
    """
    check_row(row, epoch)
    words = padded(row)
    below = [] if len(words) <= ROOT_WORDS else [words] if len(words) <= ROOT_WORDS * WORDS else [words[::WORDS], words]
    root = filled(words[:: WORDS ** len(below)], ROOT_WORDS) or [NO_WORD] * ROOT_WORDS
    levels = [filled(level, WORDS) for level in below]
    depth, base = len(below), 1 + len(levels[0]) // WORDS if len(below) == 2 else len(below)
    body = [word for level in levels for word in level]
    if row.words and max(port for _, port in row.words) < BYTE_PORTS and -(-row.labels // LINE_BYTES) < len(body) // WORDS:
        depth, base, root, body = BYTES, 0, [NO_WORD] * ROOT_WORDS, list(in_bytes(row))
    head = [epoch, row.labels, row.own, depth, base]
    body = [*head, *[0] * (HEAD_WORDS - len(head)), *root, *body]
    return [tuple(body[at : at + WORDS]) for at in range(0, len(body), WORDS)]


def in_bytes(row: Row) -> Tuple[int, ...]:
    """The ports of all labels as bytes, in words of whole lines; those of no label are 255."""
    found = bytearray(b"\xff" * (-(-row.labels // LINE_BYTES) * LINE_BYTES))
    ends = [*(start for start, _ in row.words), row.labels]
    found[: ends[0]] = bytes([row.words[-1][1]]) * ends[0]
    for (start, port), end in zip(row.words, ends[1:]):
        found[start:end] = bytes([port]) * (end - start)
    return struct.unpack(f"<{len(found) // 4}I", found)


def as_bytes(table: Sequence[Sequence[int]]) -> bytes:
    """The lines as the kernel holds them: words of 4 bytes, the least significant first."""
    return b"".join(struct.pack(f"<{WORDS}I", *line) for line in table)


def as_text(table: Sequence[Sequence[int]]) -> str:
    """The lines as text: 32 words of 8 hexadecimal digits each."""
    return "".join(" ".join(f"{word:08x}" for word in line) + "\n" for line in table)


def read(data: bytes) -> List[Tuple[int, ...]]:
    """The lines of a table, of their bytes or of their text.

    Parameters
    ----------
    data : bytes
        What a file of a table holds. The third byte of a table's bytes is 0, since an epoch has 16 bits.

    Returns
    -------
    list
        A tuple of 32 words for each line.

    Raises
    ------
    LinesError
        Where it holds neither.
    """
    if len(data) > 2 and data[2] == 0:
        if len(data) % LINE_BYTES:
            raise LinesError(f"each line has {LINE_BYTES} bytes, but {len(data):,} bytes were given")
        return [struct.unpack_from(f"<{WORDS}I", data, at) for at in range(0, len(data), LINE_BYTES)]
    found = []
    for number, line in enumerate(data.decode("ascii", "replace").splitlines(), 1):
        parts = line.split(" ")
        if len(parts) != WORDS or any(len(part) != 8 or part.strip("0123456789abcdef") for part in parts):
            raise LinesError(f"line {number} of the table is not {WORDS} words of 8 hexadecimal digits")
        found.append(tuple(int(part, 16) for part in parts))
    if not found:
        raise LinesError("a table has at least one line")
    return found


def row_in(table: Sequence[Sequence[int]]) -> Row:
    """The row that the lines of a table say, by their lowest level or by their bytes.

    Parameters
    ----------
    table : sequence
        The lines of a table.

    Returns
    -------
    Row
        The row. One whose table begins with the last port, for what is below the first start, has that as a start.

    Examples
    --------
    >>> row_in(lines(Row(14, 4, ((0, 0), (5, 1))), 1))
    Row(labels=14, own=4, words=((0, 0), (5, 1)))
    """
    _, labels, own, depth, base = table[0][:5]
    if depth == BYTES:
        ports = as_bytes(table[1:])[:labels]
        return Row(labels, own, tuple((at, port) for at, port in enumerate(ports) if at == 0 or ports[at - 1] != port))
    leaves = table[0][HEAD_WORDS:] if depth == 0 else [word for line in table[1 if depth == 1 else base :] for word in line]
    return Row(labels, own, tuple((word >> 16, word & 0xFFFF) for word in leaves if word != NO_WORD))


def port_by_lines(table: Sequence[Sequence[int]], label: int) -> int:
    """The port to which the lines lead a label, place by place as the kernel's program goes.

    Parameters
    ----------
    table : sequence
        The lines of a table.
    label : int
        A label below those of the table.

    Returns
    -------
    int
        The port.

    Raises
    ------
    LinesError
        Where the label is none of the table, or a line that it is led to is missing.
    """
    head = table[0]
    if not 0 <= label < head[1]:
        raise LinesError(f"the label {label} is not in the range 0 to {head[1] - 1}")
    key, depth = label << 16 | 0xFFFF, head[3]

    def line(at: int) -> Sequence[int]:
        if at >= len(table):
            raise LinesError(f"the table has no line {at}")
        return table[at]

    def place(words: Sequence[int]) -> int:
        return max((at for at, word in enumerate(words) if word <= key), default=0)

    if depth == BYTES:
        return line(1 + label // LINE_BYTES)[label % LINE_BYTES // 4] >> 8 * (label % 4) & 0xFF
    at = place(head[HEAD_WORDS:])
    if depth == 0:
        return head[HEAD_WORDS + at] & 0xFFFF
    near = line(1 + at)
    below = place(near)
    if depth == 2:
        near = line(head[4] + WORDS * at + below)
        below = place(near)
    return near[below] & 0xFFFF
