"""What if: the plan of a network under each of many failures, on any `concurrent.futures.Executor`.

    rows = bentzolu.sweep(graph)                                            # each link, in this process
    with concurrent.futures.ProcessPoolExecutor(4) as pool:
        rows = bentzolu.sweep(graph, 2, executor=pool, results="pairs.jsonl", progress=True)
    rows.worst(k=10); rows.to_pandas(); rows.plot(what="links")

`docs/SWEEPS.md` has the engines, the costs, and what is exact.
"""
from __future__ import annotations

import hashlib
import json
import os
import pathlib
import time
from typing import (
    Any, Callable, Dict, Generic, Hashable, Iterable, Iterator, List, NamedTuple, Optional, Sequence, Tuple, TypeVar, Union, overload,
)

from . import measuring, optional, shown
from .errors import ResultsError, SweepError
from .failures import failures_of, spelled, written
from .measuring import FIGURES, INTACT, Failure, Task
from .network import Network, network_of, order_of
from .options import detour_words
from .results import Results, read_lines
from .spreading import Broken, spread

SECONDS = 0.2  # of work that a task has
FEWEST_TASKS = 32  # of a sweep, so that each worker has some
MOST_FAILURES = 1024  # of a task
NUMBERINGS = ("depth-first", "tour", "keep")
KINDS = ("shortest", "compact", "tree", "landmark")


class FailureRow(NamedTuple):
    """The figures of a failure.

    `failure` has the links `(u, v)` and the nodes that fail together; it is empty for the whole network. `parts` is the number of
    parts that are left, `nodes` that of the largest, and `disconnected` counts the ordered pairs that are left and have no path.
    Where that is not 0 there is no plan, and the figures from `intervals` on are None.

    `intervals`, `greatest_row`, `bits` and `ring` are those of `stats` over what is left. `mean_stretch` and `worst_stretch` are walks
    over distances in the whole network. `longer` counts the ordered pairs with a longer walk than in the whole network's plan,
    `rerouted` those whose first hop is another. `rows_changed`, `removed` and `put` say what nodes change from the whole network's
    plan: nodes with another row or label, starts that go, starts that come or get another neighbour. `ring_together` says whether a
    ring of links can wait while packets of both plans travel. `seconds` is what the row took. `fault` is the reason where it was
    refused.
    """

    failure: Tuple[Any, ...]
    parts: Optional[int] = None
    nodes: Optional[int] = None
    disconnected: Optional[int] = None
    intervals: Optional[int] = None
    greatest_row: Optional[int] = None
    bits: Optional[int] = None
    mean_stretch: Optional[float] = None
    worst_stretch: Optional[float] = None
    longer: Optional[int] = None
    rerouted: Optional[int] = None
    rows_changed: Optional[int] = None
    removed: Optional[int] = None
    put: Optional[int] = None
    ring: Optional[bool] = None
    ring_together: Optional[bool] = None
    seconds: Optional[float] = None
    fault: Optional[str] = None

    @property
    def name(self) -> str:
        """What fails, as a text: `a-b` for a link, with blanks between several; `nothing` for the whole network."""
        return " ".join(f"{it[0]}-{it[1]}" if is_link(it) else str(it) for it in self.failure) or "nothing"


class Link(Tuple[Any, Any]):
    """A link in a failure: a pair of nodes. A node that is a tuple itself is none."""

    __slots__ = ()


def is_link(item: Any) -> bool:
    return isinstance(item, Link)


Row = TypeVar("Row", bound=NamedTuple)


class RowSequence(Sequence[Row], Generic[Row]):
    """Rows of one type, with what notebooks and pandas want of them."""

    def __init__(self, rows: Iterable[Row]) -> None:
        self._rows: Tuple[Row, ...] = tuple(rows)

    @overload
    def __getitem__(self, index: int) -> Row: ...

    @overload
    def __getitem__(self, index: slice) -> Sequence[Row]: ...

    def __getitem__(self, index: Union[int, slice]) -> Union[Row, Sequence[Row]]:
        return self._rows[index]

    def __len__(self) -> int:
        return len(self._rows)

    def __iter__(self) -> Iterator[Row]:
        return iter(self._rows)

    def to_pandas(self) -> Any:
        """The rows as a `pandas.DataFrame`, a column for each figure.

        Raises
        ------
        MissingPackageError
            where pandas is not installed
        """
        pandas = optional.needed("pandas", "a table of rows")
        columns = list(self._rows[0]._fields) if self._rows else []
        return pandas.DataFrame([list(row) for row in self._rows], columns=columns)


class Sweep(RowSequence[FailureRow]):
    """The rows of a sweep, in the order of its failures. `intact` is the row of the whole network, `kind` and `numbering` say how plans
    were made, and `path` is the file of the rows, or None. In a notebook the worst rows are shown."""

    def __init__(
        self, rows: Iterable[FailureRow], intact: FailureRow, kind: str, numbering: str, path: Optional[str] = None,
    ) -> None:
        super().__init__(rows)
        self.intact, self.kind, self.numbering, self.path = intact, kind, numbering, path

    def worst(self, by: Optional[str] = None, k: int = 10) -> List[FailureRow]:
        """The k worst rows, the worst first.

        Parameters
        ----------
        by : the name of a figure, of which the greatest are the worst; by default the rows that cut off the most pairs come first, and
            then those with the greatest stretch, worst and mean
        k : how many
        """
        if by is not None and by not in FailureRow._fields[1:]:
            raise SweepError(f"rows have no figure {by!r}: give one of {', '.join(FailureRow._fields[1:])}", self)

        def badness(row: FailureRow) -> Tuple[Any, ...]:
            if by is not None:
                return (getattr(row, by),)
            return row.disconnected or 0, row.worst_stretch or 0.0, row.mean_stretch or 0.0

        some = [row for row in self if row.fault is None and (by is None or getattr(row, by) is not None)]
        return sorted(some, key=badness, reverse=True)[:k]

    @property
    def faults(self) -> List[FailureRow]:
        """The rows that were refused."""
        return [row for row in self if row.fault is not None]

    def plot(self, ax: Any = None, what: str = "stretch") -> Any:
        """Draws the rows onto axes of matplotlib, and answers the axes.

        Parameters
        ----------
        ax : the axes; those of `matplotlib.pyplot.gca()` by default
        what : `"stretch"`: the worst and the mean stretch of all failures, ranked; `"bits"`: the bits of all rows and of what changes,
            ranked; `"links"`: the ten worst failures by name
        """
        from . import figures

        return figures.plot_sweep(self, ax, what)

    def __repr__(self) -> str:
        cut, faults = sum(bool(row.disconnected) for row in self), len(self.faults)
        said = f"{len(self):,} failures, {cut:,} of which cut nodes off" + (f", {faults:,} refused" if faults else "")
        return f"<Sweep {self.kind}, {self.numbering}: {said}>"

    def _repr_html_(self) -> str:
        heads = ("failure", "disconnected pairs", "worst stretch", "mean stretch", "longer pairs", "bits", "rows changed", "ring")
        rows = ((row.name, *map(cell, figures_of(row))) for row in [self.intact, *self.worst()])
        return str(shown.table(f"{repr(self)[1:-1]}; the worst", heads, rows, 11))


def figures_of(row: FailureRow) -> Tuple[Any, ...]:
    return row.disconnected, row.worst_stretch, row.mean_stretch, row.longer, row.bits, row.rows_changed, row.ring


def cell(value: Any) -> str:
    """A figure as a person reads it."""
    if value is None:
        return ""
    if isinstance(value, bool):
        return "yes" if value else "no"
    return f"{value:,.4g}" if isinstance(value, float) else f"{value:,}"


def table_of(rows: Sequence[FailureRow]) -> str:
    """Rows as a text with columns."""
    heads = ("failure", "cut off", "worst", "mean", "longer", "bits", "rows", "ring")
    lines = [heads, *((row.name, *map(cell, figures_of(row))) for row in rows)]
    first, *others = [max(len(line[i]) for line in lines) for i in range(len(heads))]
    return "".join("  ".join([line[0].ljust(first), *map(str.rjust, line[1:], others)]) + "\n" for line in lines)


class Asked(NamedTuple):
    """A sweep that is to be made."""

    network: Network
    task: Task
    head: Dict[str, Any]
    failures: List[Failure]


def numbering_of(numbering: Any, kind: str, network: Network) -> Tuple[str, Optional[Tuple[int, ...]], str]:
    """The numbering that a task has, the order of places where one is given, and what the head says of it."""
    if isinstance(numbering, str) and numbering not in NUMBERINGS:
        raise SweepError(f"{numbering!r} is not a numbering for a sweep: give one of {', '.join(NUMBERINGS)}, a list of nodes, or a path")
    if kind == "tree" and numbering != "depth-first":
        raise SweepError("a plan of kind tree is always numbered depth-first, since its intervals are those of subtrees")
    if kind == "landmark" and numbering != "depth-first":
        raise SweepError("a plan of kind landmark is always numbered by its landmarks, so it takes no numbering but depth-first")
    if isinstance(numbering, str):
        return numbering, None, "blocks" if kind == "landmark" else numbering
    try:
        order = order_of(network, numbering)
    except (ValueError, TypeError) as error:
        raise SweepError(f"{error}: give one of {', '.join(NUMBERINGS)}, or an order of all nodes") from None
    spoken = hashlib.sha256(" ".join(map(str, order)).encode()).hexdigest()[:12]
    return "keep", tuple(order), f"order {spoken}"


def detour_of(kind: str, landmarks: Optional[int], stretch: Optional[int]) -> Tuple[str, ...]:
    """The words of kind landmark.

    Raises
    ------
    SweepError
        where they are given to another kind, or are none that the kind takes
    """
    for name, value, least, most in (("landmarks", landmarks, 1, 65_535), ("stretch", stretch, 100, 300)):
        if value is not None and kind != "landmark":
            raise SweepError(f"{name} is of kind landmark alone, and not of kind {kind}")
        if value is not None and not least <= value <= most:
            raise SweepError(f"{name} of {value} is none: give a number from {least} to {most:,}")
    return tuple(detour_words(landmarks, stretch))


def asked_of(
    network: Network, failures: Any, kind: str, root: Any, numbering: Any, together: bool, program: Any, timeout: Optional[float],
    landmarks: Optional[int] = None, stretch: Optional[int] = None,
) -> Asked:
    """What is to be made, with a sum that no other sweep has."""
    from . import __version__

    if kind not in KINDS:
        raise SweepError(f"{kind!r} is not a kind of plan: give one of {', '.join(KINDS)}")
    place = 0
    if root is not None:
        if root not in network.nodes:
            raise SweepError(f"the root {root!r} is not a node of the network")
        place = network.nodes.index(root)
    how, order, said = numbering_of(numbering, kind, network)
    detour = detour_of(kind, landmarks, stretch)
    path = None if program is None else os.fspath(program)
    task = Task("", len(network.nodes), network.links, kind, how, order, place, together, path, timeout, detour)
    summed = repr((network.names, *task[1:8], *detour, __version__)).encode()
    task = task._replace(key=hashlib.sha256(summed).hexdigest())
    head = {
        "sweep": task.key, "version": __version__, "kind": kind, "numbering": said, "root": network.names[place],
        "nodes": len(network.nodes), "links": len(network.links), **({"detour": " ".join(detour)} if detour else {}),
    }
    return Asked(network, task, head, failures_of(failures, network))


class Progress:
    """The rows that are made, by what fails, on their way to the file."""

    def __init__(self, asked: Asked, results: Results, progress: bool) -> None:
        self.asked, self.results = asked, results
        self.rows: Dict[str, FailureRow] = {}
        self.names = {failure: json.dumps(written(failure, asked.network)) for failure in (INTACT, *asked.failures)}
        wanted = {name: failure for failure, name in self.names.items()}
        for line in results.found:
            name = json.dumps(line["failure"])
            if name in wanted and line.get("fault") is None:
                self.rows[name] = row_of(line, linked(spelled(wanted[name], asked.network), len(wanted[name][0])))
        todo = self.todo()
        self.bar = optional.bar(len(self.names) - 1, len(self.names) - 1 - len(todo), "failure", progress)

    def todo(self) -> List[Failure]:
        """The failures whose rows are not there, each once."""
        return [failure for failure, name in self.names.items() if failure != INTACT and name not in self.rows]

    def take(self, failures: Sequence[Failure], found: Sequence[Sequence[Any]]) -> None:
        """Takes the figures of some failures."""
        lines = []
        for failure, values in zip(failures, found):
            line = dict(zip(FIGURES, values))
            lines.append({"failure": written(failure, self.asked.network), **line})
            self.rows[self.names[failure]] = row_of(line, linked(spelled(failure, self.asked.network), len(failure[0])))
        try:
            self.results.add(lines)
        finally:
            if self.bar is not None and failures != [INTACT]:
                self.bar.update(len(failures))

    def sweep(self) -> Sweep:
        """The rows that are there."""
        rows = [self.rows[self.names[failure]] for failure in self.asked.failures if self.names[failure] in self.rows]
        intact = self.rows.get(self.names[INTACT], FailureRow(()))
        return Sweep(rows, intact, self.asked.task.kind, str(self.asked.head["numbering"]), self.results.path)

    def close(self) -> None:
        self.results.close()
        if self.bar is not None:
            self.bar.close()


def linked(items: Sequence[Any], links: int) -> Tuple[Any, ...]:
    """A failure whose first items, so many, are links."""
    return (*map(Link, items[:links]), *items[links:])


def row_of(line: Dict[str, Any], failure: Tuple[Any, ...]) -> FailureRow:
    return FailureRow(failure, **{name: line.get(name) for name in FIGURES})


def sweep(
    G: Any, failures: Any = "links", kind: str = "shortest", root: Optional[Hashable] = None, *, numbering: Any = "depth-first",
    together: bool = True, executor: Any = None, chunk: Optional[int] = None, results: "Optional[os.PathLike[str] | str]" = None,
    progress: bool = False, retries: int = 3, weight: Optional[str] = "weight", program: Any = None, timeout: Optional[float] = None,
    landmarks: Optional[int] = None, stretch: Optional[int] = None,
) -> Sweep:
    """The figures of a network's plan under each of many failures.

    Parameters
    ----------
    G : graph of NetworkX, list of edges `(u, v)` or `(u, v, weight)`, or path of a file
    failures : `"links"`, `"nodes"`, a number k for each k links together, or what has links `(u, v)`, nodes, and lists of these
    kind, root : as for `plan`
    numbering : `"depth-first"`, `"tour"`, or `"keep"`: a tour of the whole network, whose labels all plans keep; or an order of
        nodes that all plans have, as a list or the path of a file with a name a line
    together : whether each row says if a ring of links can wait while packets of both plans travel
    executor : a `concurrent.futures.Executor`, which the caller opens and closes; or a call without arguments that makes one, which is
        closed here, and made again where a worker died; by default this process makes all rows
    chunk : how many failures a task has; by default as many as take 0.2 s
    results : the path of a file that gets each row as it is made; where it is there, its rows are not made again
    progress : whether `tqdm`, where it is there, shows how many rows are made
    retries : how often a task that failed goes again
    weight, program, timeout : as for `plan`; `timeout` is the most seconds of one plan
    landmarks, stretch : as for `plan`, of each plan of kind landmark

    Returns
    -------
    Sweep, a sequence of `FailureRow` in the order of the failures

    Raises
    ------
    FailureError
        where a failure is neither a link nor a node of the network
    ResultsError
        where `results` is another sweep's file, or can't be written
    SweepError
        where the executor ended; `error.rows` has the rows that were made
    MissingPackageError
        where NumPy is not installed

    Examples
    --------
    >>> rows = sweep([("a", "b"), ("b", "c"), ("c", "a"), ("c", "d")])
    >>> [(row.name, row.disconnected, row.worst_stretch) for row in rows]
    [('a-b', 0, 2.0), ('a-c', 0, 2.0), ('b-c', 0, 2.0), ('c-d', 6, None)]
    """
    optional.numpy()
    asked = asked_of(network_of(G, weight), failures, kind, root, numbering, together, program, timeout, landmarks, stretch)
    return made(asked, executor, chunk, results, progress, retries)


def made(
    asked: Asked, executor: Any, chunk: Optional[int], results: "Optional[os.PathLike[str] | str]", progress: bool, retries: int,
) -> Sweep:
    """The rows of what was asked."""
    if chunk is not None and chunk < 1:
        raise SweepError(f"a chunk of {chunk} failures is not possible: give a number of at least 1, or None")
    file = Results(results, asked.head)
    try:
        there = Progress(asked, file, progress)
    except BaseException:
        file.close()
        raise
    try:
        if there.names[INTACT] not in there.rows:
            row = measuring.kept(asked.task).row(INTACT)
            there.take([INTACT], [[row[name] for name in FIGURES]])
        make_rows(there, executor, chunk, retries)
        return there.sweep()
    except SweepError as error:
        error.rows = there.sweep()
        raise
    finally:
        there.close()
        measuring.forget()


def make_rows(there: Progress, executor: Any, chunk: Optional[int], retries: int) -> None:
    """Makes the rows that are not there: the first two here, by which the size of a task is chosen, and the others by the executor."""
    task, todo = there.asked.task, there.todo()

    def here(failures: Sequence[Failure]) -> float:
        began = time.perf_counter()
        there.take(failures, measuring.measured(task, failures))
        return time.perf_counter() - began

    if todo:
        measuring.kept(task)  # what is refused for the whole network ends the sweep here
    if executor is None:
        for failure in todo:
            here([failure])
        return
    if chunk is None:
        first, todo = todo[:2], todo[2:]
        took = sum(here([failure]) for failure in first) / max(1, len(first))
        chunk = max(1, min(MOST_FAILURES, round(SECONDS / max(took, 1e-6)), len(todo) // FEWEST_TASKS))
    parts: List[Sequence[Failure]] = [todo[i : i + chunk] for i in range(0, len(todo), chunk)]
    if not parts:
        return
    if hasattr(executor, "submit") and not isinstance(executor, type):
        try:
            spread(executor, measuring.measured, task, parts, there.take, retries)
        except Broken as broken:
            raise ended(there, broken) from broken.__cause__
        return
    make_again(there, executor, parts, retries)


def make_again(there: Progress, make: Callable[[], Any], parts: List[Sequence[Failure]], retries: int) -> None:
    """Makes rows by an executor that is made here, and by a new one where it ended; up to `retries` times without a row between."""
    tries, before = 0, len(there.rows)
    while parts:
        with make() as executor:
            try:
                spread(executor, measuring.measured, there.asked.task, parts, there.take, retries)
                parts = []
            except Broken as broken:
                tries = 1 if len(there.rows) > before else tries + 1
                before, parts = len(there.rows), broken.left
                if tries > retries:
                    raise ended(there, broken) from broken.__cause__


def ended(there: Progress, broken: Broken) -> SweepError:
    """The error for an executor that ended."""
    cause = broken.__cause__
    count, whole = len(there.rows) - 1, len(there.names) - 1
    where = f"they are in {there.results.path}: call sweep again with it and a new executor" if there.results.path else (
        "error.rows has them; with results=PATH a second call continues from there"
    )
    return SweepError(f"the executor ended ({type(cause).__name__}: {cause}) with {count:,} of {whole:,} rows made; {where}")


def read_sweep(path: "os.PathLike[str] | str") -> Sweep:
    """The rows of a sweep's file, in the order in which they were made; a failure that was made again has its last row. Nodes are
    strings, by their names in `bentzolu`.

    Raises
    ------
    ResultsError
        where it is no file of a sweep
    """
    name = os.fspath(path)
    head, lines = read_lines(name, pathlib.Path(path).read_bytes())
    rows: Dict[str, FailureRow] = {}
    for at, line in enumerate(lines, 2):
        try:
            failure = tuple(Link(it) if isinstance(it, list) else it for it in line["failure"])
            rows[json.dumps(line["failure"])] = row_of(line, failure)
        except (TypeError, ValueError):
            raise ResultsError(f"line {at} of {name} is not a row of a sweep") from None
    intact = rows.pop("[]", FailureRow(()))
    return Sweep(rows.values(), intact, str(head.get("kind", "")), str(head.get("numbering", "")), name)
