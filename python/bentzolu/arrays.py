"""Plans as arrays of NumPy: rows, next hops, weights of walks, and links that wait for each other.

A link of the network is two arcs, one in each direction: those of link i are 2i and 2i + 1. What is asked of a pair of nodes
is a matrix by source and target. A thousand nodes take milliseconds.
"""
from __future__ import annotations

from typing import Any, Dict, Iterator, List, NamedTuple, Sequence, Tuple, Union

from .errors import FormatError
from .optional import numpy

Array = Any  # of NumPy, which may be missing
Link = Tuple[int, int, int]  # the places of its nodes, and its weight
BLOCK = 1 << 16  # how many pairs are looked at together, so that little memory is taken beside the matrices


def bits_for(count: int) -> int:
    """The bits that tell so many things apart."""
    return max(0, (int(count) - 1).bit_length())


def whole_numbers(data: bytes) -> Tuple[Array, Array]:
    """The whole numbers of a text of digits, and for each whether its line ends after it.

    Numbers are parted by single blanks and line feeds. This is about ten times as fast as `numpy.fromstring`.

    Raises
    ------
    FormatError
        where there is anything else in the text
    """
    np = numpy()
    flat = np.frombuffer(data, np.uint8)
    digits = (flat >= 48) & (flat <= 57)
    ends = np.flatnonzero(~digits)
    parting = flat[ends]
    lengths = np.diff(ends, prepend=-1) - 1
    if len(flat) and (digits[-1] or not ((parting == 32) | (parting == 10)).all() or lengths.min() < 1 or lengths.max() > 9):
        raise FormatError("the text has something other than whole numbers")
    found = np.zeros(len(ends), np.int32)
    for place in range(int(lengths.max()) if len(ends) else 0):
        some = np.flatnonzero(lengths > place)
        found[some] += (flat[ends[some] - 1 - place].astype(np.int32) - 48) * 10**place
    return found, parting == 10


def pieces(data: bytes) -> Iterator[bytes]:
    """A text in pieces of whole lines, so that little memory is taken beside it."""
    low = 0
    while low < len(data):
        end = data.find(b"\n", low + BLOCK) + 1 or len(data)
        yield data[low:end]
        low = end


class Rows(NamedTuple):
    """The rows of a plan. `nodes` are the places of its nodes, ascending; `label` and `length` (the number of intervals) are by
    node; `owner`, `start` and `to` (the place of the neighbour) are by interval, node by node with starts ascending."""

    kind: str
    nodes: Array
    label: Array
    length: Array
    owner: Array
    start: Array
    to: Array


def read_rows(text: Union[str, bytes]) -> Rows:
    """The rows of a plan's text in which each name is the number of its node.

    Raises
    ------
    FormatError
        where it is no plan, or has a name that is no number
    """
    np = numpy()
    data = text if isinstance(text, bytes) else text.encode("ascii", "replace")
    head, _, body = data.partition(b"\n")
    words = head.split(b" ")
    if len(words) != 4 or words[0] != b"plan" or not (words[2].isdigit() and words[3].isdigit()):
        raise FormatError("not a plan", 1)
    n, total = int(words[2]), int(words[3])
    numbers, last = map(np.concatenate, zip(*map(whole_numbers, pieces(body or b"\n"))))
    ends = np.flatnonzero(last)
    heads = np.concatenate([np.zeros(1, ends.dtype), ends[:-1] + 1])
    width = np.diff(ends, prepend=-1)
    if len(ends) != n or len(numbers) != 2 * n + 2 * total or (width % 2).any():
        raise FormatError("the numbers of nodes and intervals do not match the first line", 1)
    rest = np.ones(len(numbers), bool)
    rest[heads] = rest[heads + 1] = False
    pairs, nodes, length = numbers[rest], numbers[heads], (width - 2) // 2
    if n > 1 and not (np.diff(nodes) > 0).all():
        raise FormatError("the nodes are not in the order of their numbers", 1)
    return Rows(words[1].decode(), nodes, numbers[heads + 1], length, np.repeat(nodes, length), pairs[::2], pairs[1::2])


class Wiring:
    """The arcs of a network of n nodes: `tail`, `head` and `weight` by arc. The number `none`, past the last arc, is for no arc."""

    def __init__(self, n: int, links: Sequence[Link]) -> None:
        np = numpy()
        self.n, self.none = n, 2 * len(links)
        table = np.array(links, np.int64).reshape(-1, 3)
        self.tail, self.head = np.zeros((2, self.none + 1), np.int32)
        self.weight = np.zeros(self.none + 1, np.int32)
        self.tail[0:-1:2], self.tail[1:-1:2] = table[:, 0], table[:, 1]
        self.head[0:-1:2], self.head[1:-1:2] = table[:, 1], table[:, 0]
        self.weight[0:-1:2] = self.weight[1:-1:2] = table[:, 2]
        self.type, self.place = (np.uint16 if most < 1 << 16 else np.int32 for most in (self.none, n))  # of an arc, and of a node
        tail, head = self.tail[:-1], self.head[:-1]
        self.degree = np.bincount(tail, minlength=n)
        keys = tail * n + head
        self.outward = np.argsort(keys, kind="stable")  # the arcs by tail and head
        self.inward = np.argsort(head * n + tail, kind="stable")  # by head and tail
        self.keys = keys[self.outward]
        self.first = np.concatenate([[0], np.cumsum(self.degree)])  # where a node's arcs begin in both
        self.pairs = np.concatenate([[0], np.cumsum(self.degree.astype(np.int64) ** 2)])  # where its pairs of arcs begin
        place_in, self.place_out = np.zeros(self.none + 1, np.int64), np.zeros(self.none + 1, np.int64)
        along = np.arange(self.none)
        place_in[self.inward] = along - self.first[head[self.inward]]
        self.place_out[self.outward] = along - self.first[tail[self.outward]]
        self.pair_in = np.full(self.none + 1, self.pairs[-1], np.int64)
        self.pair_in[:-1] = self.pairs[head] + place_in[:-1] * self.degree[head]

    def arcs_of(self, rows: Rows) -> Array:
        """The arc of each interval of a plan."""
        np = numpy()
        keys = rows.owner * np.int32(self.n) + rows.to
        at = np.minimum(np.searchsorted(self.keys, keys), max(0, self.none - 1))
        if len(keys) and (self.none == 0 or (self.keys[at] != keys).any()):
            raise FormatError("the plan has a neighbour without a link to it")
        return self.outward[at].astype(self.type) if len(keys) else np.zeros(0, self.type)


def next_arcs(rows: Rows, wiring: Wiring, by: Array) -> Array:
    """The arc by which each node sends on to each other node, by source and target; none at the target itself, and where either
    node is not in the plan. `by` has the arc of each interval."""
    found = numpy().full((wiring.n, wiring.n), wiring.none, wiring.type)
    for sources, arcs in arcs_in_turn(rows, wiring, by):
        found[sources] = arcs
    return found


def arcs_in_turn(rows: Rows, wiring: Wiring, by: Array) -> Iterator[Tuple[Array, Array]]:
    """The same, of some nodes of the plan at a time, so that little memory is taken: their places, and their arcs by source and
    target."""
    np = numpy()
    n = len(rows.nodes)
    if n == 1 or not len(rows.start):
        return
    if (rows.length < 1).any() or (rows.start >= n).any():
        raise FormatError("a row does not have the labels of all nodes")
    last = np.cumsum(rows.length)
    height = max(1, BLOCK // n)
    for low in range(0, n, height):
        some = slice(low, low + height)
        arcs = np.take(arcs_by_label(rows, by, wiring.none, some, last), rows.label, axis=1)
        if n < wiring.n:
            whole = np.full((len(arcs), wiring.n), wiring.none, wiring.type)
            whole[:, rows.nodes] = arcs
            arcs = whole
        yield rows.nodes[some], arcs


def arcs_by_label(rows: Rows, by: Array, none: int, some: slice, last: Array) -> Array:
    """The arcs of some nodes of the plan, by source and label. `by` has the arc of each interval, and `last` where the intervals of
    each node end."""
    np = numpy()
    n, length = len(rows.nodes), rows.length[some]
    along = np.arange(len(length))
    begin = int(last[some][0] - length[0])
    own = slice(begin, int(last[some][-1]))
    arcs, starts = by[own], rows.start[own]
    end = last[some] - begin
    first = end - length
    front = along + first  # labels before a row's first start go the way of its last interval
    wide, part = np.empty(len(arcs) + len(along), by.dtype), np.empty(len(arcs) + len(along), np.int64)
    others = np.ones(len(wide), bool)
    others[front] = False
    wide[front], wide[others] = arcs[end - 1], arcs
    ends = np.empty(len(arcs), np.int64)
    ends[:-1], ends[end - 1] = starts[1:], n
    part[front], part[others] = starts[first], ends - starts
    found = np.repeat(wide, part).reshape(len(along), n)
    found[along, rows.label[some]] = none
    return found


def walk_weights(arcs: Array, wiring: Wiring) -> Array:
    """The weight of each walk, by source and target, 0 where there is none: by doubling, some targets at a time."""
    np = numpy()
    n = wiring.n
    most = int(wiring.weight.max(initial=0)) * n
    found = np.zeros((n, n), np.uint16 if most < 1 << 16 else np.int32)
    stay = np.arange(n, dtype=np.int32)[:, None]
    width = max(1, BLOCK // n)
    for low in range(0, n, width):
        some = arcs[:, low : low + width]
        total = wiring.weight[some]
        place = np.where(some == wiring.none, stay, wiring.head[some])
        while True:
            further = np.take_along_axis(total, place, axis=0)
            if not further.any():
                break
            total = total + further
            place = np.take_along_axis(place, place, axis=0)
        found[:, low : low + width] = total
    return found


def to_root(rows: Rows, arcs: Array) -> Array:
    """The arcs by which the nodes of a tree send on to its root, the node of label 0, by source."""
    return arcs[:, rows.nodes[rows.label.argmin()]].copy()


def tree_weights(rows: Rows, arcs: Array, wiring: Wiring) -> Array:
    """The weight of each walk along a tree whose labels are depth-first numbers, by source and target, 0 where there is none.
    `arcs` are those to the root, by source.

    A node is further than its parent from all nodes but those of its own subtree, which has the labels from its own on.
    """
    np = numpy()
    n, nodes = len(rows.nodes), rows.nodes
    order = nodes[np.argsort(rows.label)]  # the node of each label
    missing = np.ones(wiring.n, bool)
    missing[nodes] = False
    label = np.empty(wiring.n, np.int64)
    label[nodes], label[missing] = rows.label, np.arange(n, wiring.n)  # a node that is missing has a number past the labels
    up = arcs[order]
    parent, weight = label[wiring.head[up]], wiring.weight[up]
    size = [1] * n
    depth = np.zeros(n, np.int32)
    for v in range(1, n):
        depth[v] = depth[parent[v]] + weight[v]
    for v in range(n - 1, 0, -1):
        size[parent[v]] += size[v]
    found = np.zeros((wiring.n, wiring.n), np.uint16 if 2 * int(depth.max()) < 1 << 16 else np.int32)
    by_label = found[:n, :n]
    by_label[0] = depth
    for v in range(1, n):
        above, below = by_label[parent[v]], slice(v, v + size[v])
        by_label[v] = above + weight[v]
        by_label[v, below] = above[below] - weight[v]
    for row in found[:n]:  # each row by target, in the same place
        by_target = row[rows.label]
        row[:] = 0
        row[nodes] = by_target
    order_rows(found, label)
    return found


def order_rows(found: Array, places: Array) -> None:
    """Puts the rows of a matrix in another order, in the same place: the row places[i] comes to i. Each place is there once."""
    seen = numpy().zeros(len(places), bool)
    for first in range(len(places)):  # round each ring of rows
        if seen[first]:
            continue
        kept, to = found[first].copy(), first
        while True:
            seen[to] = True
            after = int(places[to])
            if after == first:
                found[to] = kept
                break
            found[to] = found[after]
            to = after


def weights_over(arcs: Array, wiring: Wiring, distance: Array, over: Array) -> Iterator[Tuple[Array, Array]]:
    """The weights of the walks of some pairs, where those of all other pairs are the distances: pairs and their weights, those to some
    targets at a time, so that little memory is taken.

    Parameters
    ----------
    over : the pairs, ascending, each as source * n + target
    """
    targets = (over % wiring.n).astype(wiring.place)
    width = -(-wiring.n // (1 + 8 * len(over) // BLOCK))
    for low in range(0, wiring.n, width):
        some = over[(targets >= low) & (targets < low + width)]
        yield some, weights_to_some(arcs, wiring, distance, some)


def weights_to_some(arcs: Array, wiring: Wiring, distance: Array, over: Array) -> Array:
    """The same, where all pairs with one of these targets are there."""
    np = numpy()
    n = wiring.n
    sources, targets = np.divmod(over, n)
    by = arcs[sources, targets]
    further = wiring.head[by]
    total = wiring.weight[by] + distance[further, targets].astype(np.int32)
    pair = further * n + targets
    at = np.minimum(np.searchsorted(over, pair), max(0, len(over) - 1)).astype(np.int32)
    on = np.flatnonzero(over[at] == pair) if len(over) else at
    total[on] = wiring.weight[by[on]]  # these go on among the pairs
    after = np.full(len(over) + 1, len(over), np.int32)
    after[on] = at[on]
    total = np.append(total, np.int32(0))
    while len(on):
        total[on] += total[after[on]]
        after[on] = after[after[on]]
        on = on[after[on] != len(over)]
    return total[:-1]


def waits(arcs: Array, wiring: Wiring) -> Array:
    """Which arcs wait for which: a flag for each pair of an arc into a node and one out of it. A packet that holds the first place
    waits for the second where some walk goes over both."""
    np = numpy()
    total = int(wiring.pairs[-1])
    found = np.zeros(total + int(wiring.degree.max(initial=0)) + 1, bool)
    columns = np.arange(wiring.n)
    height = max(1, BLOCK // wiring.n)
    for low in range(0, wiring.n, height):
        first = arcs[low : low + height]
        second = arcs[wiring.head[first], columns]
        pair = wiring.pair_in[first] + wiring.place_out[second]
        pair[second == wiring.none] = total
        found[pair] = True
    return found[:total]


def has_ring(flags: Array, wiring: Wiring) -> bool:
    """Whether arcs wait for each other in a ring: what waits for nothing is taken away again and again, and something is left."""
    np = numpy()
    pair = np.flatnonzero(flags)
    node = np.searchsorted(wiring.pairs, pair, side="right") - 1
    into, out = np.divmod(pair - wiring.pairs[node], np.maximum(1, wiring.degree[node]))
    first, second = wiring.inward[wiring.first[node] + into], wiring.outward[wiring.first[node] + out]
    while len(first):
        waiting = np.zeros(wiring.none, bool)
        waiting[first] = True
        kept = waiting[second]
        if kept.all():
            return True
        first, second = first[kept], second[kept]
    return False


class Change(NamedTuple):
    """What of the rows of one plan is another in a second plan: how many nodes have another label or row, how many starts go, how
    many come or get another neighbour, how many labels are new, and the bits that say so."""

    rows: int
    removed: int
    put: int
    relabelled: int
    bits: int


def starts_changed(before: Rows, old: slice, after: Rows, new: slice, there: Array, ends: Tuple[int, int]) -> List[Array]:
    """How many starts go, and how many come or get another neighbour, at each node between these two ends: of those intervals of the
    plan before that are of nodes still there, and of those of the plan after."""
    np = numpy()
    n = len(there)
    kept = there[before.owner[old]]
    owner, start, to = (it[old][kept] for it in (before.owner, before.start, before.to))
    was, now = owner * np.int32(n) + start, after.owner[new] * np.int32(n) + after.start[new]
    at = np.minimum(np.searchsorted(now, was), max(0, len(now) - 1))
    stays = now[at] == was if len(now) else np.zeros(len(was), bool)
    same = stays & (after.to[new][at] == to) if len(now) else stays
    fresh = np.ones(len(now), bool)
    fresh[at[same]] = False
    return [np.bincount(it // n - ends[0], minlength=ends[1] - ends[0])[: n - ends[0]] for it in (was[~stays], now[fresh])]


def change(before: Rows, after: Rows, n: int, degree: Array) -> Change:
    """The change from one plan to another, at the nodes of the second.

    Parameters
    ----------
    n : the number of places
    degree : the ports of each node, by place, for the bits of a port

    The bits are a count for each node that changes, and for each start that goes or comes a bit and the start, with a port where it
    comes; the whole row where that is shorter; and each new label.
    """
    np = numpy()
    there = np.zeros(n, bool)
    there[after.nodes] = True
    label = np.full(n, -1, np.int64)
    label[before.nodes] = before.label
    counts = np.zeros((2, n), np.int64)
    height = max(1, n * BLOCK // (2 * max(1, len(before.start), len(after.start))))
    for low in range(0, n, height):  # some nodes at a time, so that little memory is taken
        ends = (low, low + height)
        old, new = (slice(*np.searchsorted(it.owner, ends)) for it in (before, after))
        counts[:, low : low + height] = starts_changed(before, old, after, new, there, ends)
    removed, put = counts[:, after.nodes]
    relabelled = label[after.nodes] != after.label
    changed = relabelled | (removed > 0) | (put > 0)
    wide = bits_for(len(after.nodes))
    port = np.array([bits_for(it) for it in degree[after.nodes]], np.int64)
    pieces = removed * (1 + wide) + put * (1 + wide + port)
    whole = after.length * (wide + port)
    sent = 1 + wide + np.minimum(pieces, whole) + relabelled * wide
    return Change(int(changed.sum()), int(removed.sum()), int(put.sum()), int(relabelled.sum()), int(sent[changed].sum()))


def bits_of(rows: Rows, degree: Array) -> int:
    """The bits of all rows, as `bentzolu stats` counts them: for each interval a label and a port. `degree` is by place."""
    np = numpy()
    label = bits_for(len(rows.nodes))
    port = np.array([bits_for(it) for it in degree[rows.nodes]], np.int64)
    return int((rows.length * (label + port)).sum())


def parts_of(n: int, links: Sequence[Link], gone: Sequence[int] = ()) -> List[int]:
    """The sizes of the parts of a network that no link joins, without some of its nodes."""
    near: Dict[int, List[int]] = {u: [] for u in range(n)}
    for node in gone:
        del near[node]
    for u, v, _ in links:
        near[u].append(v)
        near[v].append(u)
    sizes = []
    seen = set(gone)
    for u in near:
        if u in seen:
            continue
        seen.add(u)
        todo, size = [u], 0
        while todo:
            size += 1
            for v in near[todo.pop()]:
                if v not in seen:
                    seen.add(v)
                    todo.append(v)
        sizes.append(size)
    return sizes


def on_shortest(distance: Array, links: Sequence[Link], nodes: Sequence[int]) -> Array:
    """The pairs of other nodes that have a shortest path over one of these links or nodes, ascending, each as source * n + target."""
    np = numpy()
    n = len(distance)
    height = max(1, BLOCK // n)
    wide = np.int32 if int(distance.max(initial=0)) < (1 << 30) - (1 << 16) else np.int64  # for the sum of two
    found: List[Array] = []
    for low in range(0, n, height):
        some = distance[low : low + height].astype(wide)
        over = np.zeros(some.shape, bool)
        for u, v, weight in links:
            for a, b in ((u, v), (v, u)):
                over |= some[:, a, None] + weight + distance[None, b] == some
        for node in nodes:
            over |= some[:, node, None] + distance[None, node] == some
        over[:, list(nodes)] = False
        for node in nodes:
            over[node - low : node - low + 1] &= not low <= node < low + height
        along = np.arange(len(some))
        over[along, low + along] = False
        found.append((np.flatnonzero(over) + low * n).astype(np.int32))
    return np.concatenate(found)


def rounded(value: Any) -> float:
    """A mean of NumPy as a number of Python, to 12 places, so that no order of additions is seen."""
    return round(float(value), 12)
