"""What `bentzolu` prints of runs, as data: traces, refused steps and verdicts."""
from __future__ import annotations

from collections import Counter
from dataclasses import dataclass
from typing import Any, Hashable, Iterable, Mapping, Optional, Sequence, Tuple

from . import shown
from .errors import FormatError
from .texts import SAME, counted, headed, lines_of, number
from .typed import Node, NodeNames


@dataclass(frozen=True)
class Segment:
    """Hops that a packet made under one epoch."""

    epoch: int
    hops: Tuple[Hashable, ...]


@dataclass(frozen=True)
class Packet:
    """A row of a trace. `fate` is `delivered`, `retired`, `down`, `full` or `left`; `link` has the two nodes of the link
    for `down` and `full` and is None else. A later segment begins with the last hop of the one before."""

    number: int
    source: Hashable
    target: Hashable
    weight: int
    fate: str
    link: Optional[Tuple[Hashable, Hashable]]
    segments: Tuple[Segment, ...]

    @property
    def epoch(self) -> int:
        """The epoch of the first stamp."""
        return self.segments[0].epoch

    @property
    def hops(self) -> list[Any]:
        """All nodes on the packet's way, each segment's end and the next one's beginning once."""
        hops = list(self.segments[0].hops)
        for segment in self.segments[1:]:
            hops += segment.hops[1:]
        return hops


@dataclass(frozen=True)
class Refused:
    """A step that could not be done: its line in the script, why (by its name and in a sentence, where there is one), and
    the step as it was given."""

    line: int
    kind: str
    step: Any = None
    sentence: Optional[str] = None


@dataclass(frozen=True, repr=False)
class Run:
    """What a script gave: the packets, the refused steps, and the trace as `bentzolu` printed it, in version 1 or 2. In a
    notebook a run is shown as a table."""

    version: int
    packets: Tuple[Packet, ...]
    refused: Tuple[Refused, ...]
    trace: str

    def __repr__(self) -> str:
        fates = Counter(packet.fate for packet in self.packets)
        said = ", ".join(f"{number:,} {fate}" for fate, number in fates.items()) or "none"
        said += f"; {counted(len(self.refused), 'step')} refused" if self.refused else ""
        return f"<Run of {counted(len(self.packets), 'packet')}: {said}>"

    def _repr_html_(self) -> str:
        return shown.run(self)


@dataclass(frozen=True)
class Verdict:
    """What `bentzolu check` says of a trace: whether it has no finding; then `rows` is their number, else `line`, `kind` and
    `sentence` are those of the first finding. It is true where there is no finding.

    What is judged of a row is whether its hops and its weight are those of the plan of its epoch. Whether its packet was
    injected, whether a link was down or a channel full, and whether packets are missing is not looked at.
    """

    ok: bool
    rows: Optional[int] = None
    line: Optional[int] = None
    kind: Optional[str] = None
    sentence: Optional[str] = None

    def __bool__(self) -> bool:
        return self.ok


def read_segments(words: list[str], line: int, names: NodeNames) -> tuple[Segment, ...]:
    """The segments of a row of version 2."""
    segments: list[tuple[int, list[Any]]] = []
    for word in words:
        if word.startswith("#"):
            segments.append((number(word[1:], line), []))
        elif not segments:
            raise FormatError("a hop comes before the first segment", line)
        else:
            segments[-1][1].append(names.node(word))
    if not segments or not all(hops for _, hops in segments):
        raise FormatError("there is no segment, or one without a hop", line)
    return tuple(Segment(epoch, tuple(hops)) for epoch, hops in segments)


def read_row(version: int, line: int, words: list[str], names: NodeNames) -> Packet:
    """A packet, of a row's words."""
    words = list(words)
    if len(words) < 6:
        raise FormatError("expected at least six words", line)
    row_number = number(words.pop(0), line)
    epoch = number(words.pop(0), line) if version == 1 else 0  # version 2 has epochs in its segments
    source, target = names.node(words.pop(0)), names.node(words.pop(0))
    weight, fate = number(words.pop(0), line), words.pop(0)
    link: tuple[Node, Node] | None = None
    if fate in ("down", "full") and len(words) > 2:
        link = names.node(words.pop(0)), names.node(words.pop(0))
    elif fate not in ("delivered", "retired", "left"):
        raise FormatError(f"{fate!r} is not a fate", line)
    if not words:
        raise FormatError("there are no hops", line)
    if version == 1:
        segments: tuple[Segment, ...] = (Segment(epoch, tuple(names.node(word) for word in words)),)
    else:
        segments = read_segments(words, line, names)
    return Packet(row_number, source, target, weight, fate, link, segments)


def read_trace(text: str, names: NodeNames = SAME) -> tuple[int, tuple[Packet, ...]]:
    """The version and the packets of a trace.

    Parameters
    ----------
    text, names
        As for `read_plan`.

    Returns
    -------
    tuple of int and tuple of Packet

    Raises
    ------
    FormatError, UnknownNodeError
        As `read_plan`.

    Examples
    --------
    >>> version, packets = read_trace("trace 1\\n0 1 a c 2 delivered a b c\\n")
    >>> packets[0].hops
    ['a', 'b', 'c']
    """
    first, lines = headed(text, "trace", 2)
    if first[1] not in ("1", "2"):
        raise FormatError("the version must be 1 or 2", 1)
    version = int(first[1])
    return version, tuple(read_row(version, line, words, names) for line, words in lines)


def write_trace(packets: Iterable[Packet], names: NodeNames = SAME, version: int | None = None) -> str:
    """The text of a trace.

    Parameters
    ----------
    packets : iterable of Packet
        The rows.
    names : Names, optional
        What names the nodes, as `names_of(graph)`; each node is its own name by default.
    version : int, optional
        1 or 2; by default 1 if each packet has one segment.

    Returns
    -------
    str

    Raises
    ------
    FormatError
        If version 1 is asked for and a packet has several segments.
    UnknownNodeError
        If a node has no name.

    Examples
    --------
    >>> write_trace([Packet(0, "a", "b", 1, "delivered", None, (Segment(1, ("a", "b")),))])
    'trace 1\\n0 1 a b 1 delivered a b\\n'
    """
    packets = list(packets)
    if version is None:
        version = 2 if any(len(packet.segments) > 1 for packet in packets) else 1
    lines = [f"trace {version}"]
    for packet in packets:
        if version == 1 and len(packet.segments) != 1:
            raise FormatError("a row of version 1 has one segment")
        ends = [names.name(packet.source), names.name(packet.target), str(packet.weight), packet.fate]
        ends += [names.name(node) for node in packet.link or ()]
        hops: list[str] = []
        for segment in packet.segments:
            hops += [f"#{segment.epoch}"] if version == 2 else []
            hops += [names.name(node) for node in segment.hops]
        front = [str(packet.number), str(packet.epoch)] if version == 1 else [str(packet.number)]
        lines.append(" ".join(front + ends + hops))
    return "\n".join(lines) + "\n"


def read_refused(
    text: str, steps: Sequence[Any] | None = None, sentences: Mapping[int, str] | None = None,
) -> tuple[Refused, ...]:
    """The refused steps, of what was on standard error beside a trace. `steps` are those of the script, one a line, and
    `sentences` has the sentence of a line, where there is one."""
    refused = []
    for _, words in lines_of(text):
        if words[0] == "refused" and len(words) >= 3 and words[1].isdigit():
            line = int(words[1])
            step = steps[line - 1] if steps is not None and 1 <= line <= len(steps) else None
            refused.append(Refused(line, words[2].rstrip(":"), step, (sentences or {}).get(line)))
    return tuple(refused)


def read_verdict(text: str, sentence: str | None = None) -> Verdict:
    """The verdict, of what `bentzolu check` prints; `sentence` is that of a finding."""
    words = text.split()
    if len(words) >= 2 and words[0] == "ok":
        return Verdict(True, rows=number(words[1], 1))
    if len(words) >= 3 and words[0] == "finding":
        return Verdict(False, line=number(words[1], 1), kind=words[2].rstrip(":"), sentence=sentence)
    raise FormatError("expected 'ok' or 'finding'", 1)
