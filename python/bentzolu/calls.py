"""The subcommands of `bentzolu` over graphs of NetworkX, lists of edges and files.

What all calls take:

- `graph`: a graph of NetworkX without directions; or a list of edges `(u, v)` or `(u, v, weight)`; or the path of a file,
  a `str` or a `pathlib.Path`, in any format that `python3 -m bentzolu convert` reads. The nodes of a file are strings,
  or what the file's format says that they are.
- `kind`, `root`, and by name all other fields of `Options`, as `landmarks` and `stretch` of kind landmark; or these as one value,
  `options=Options(..)`.

What the program refuses is a `RouteError`, with the sentence that says why.
"""
from __future__ import annotations

import os
from concurrent.futures import Future, ThreadPoolExecutor
from typing import Any, Iterable, Mapping, Sequence

from . import drawing, program as programs, texts, traces
from .errors import GraphError
from .failing import LinkFailures, NodeFailures, read_link_failures, read_node_failures
from .label_ranges import Range, read_ranges
from .options import Options, chosen, detour_words
from .sources import Topology, read_text, script_of, topology_of
from .typed import Axes, NameTable, Network


def options(topology: Topology, kind: str, root: Any, words: Sequence[str]) -> list[str]:
    """The words of the options that all subcommands have."""
    found = ["--kind", str(kind)]
    if "--format" not in words:
        found = [*topology.options, *found]
    if root is not None:
        found.append(f"--root={topology.names.name(root)}")
    return [*found, *map(str, words)]


def ask(
    subcommand: str, graph: Network, kind: str, root: Any, weight: str | None, program: str | os.PathLike[str] | None,
    timeout: float | None, words: Sequence[str], ends: Sequence[Any] | None = None, depth: int = 4,
) -> tuple[str, NameTable]:
    """What a subcommand prints that takes only a topology, and the names of the nodes; a warning is that of the call so
    many calls above."""
    topology = topology_of(graph, weight)
    names = topology.names
    asked = [subcommand, *options(topology, kind, root, words)]
    if ends is not None:
        asked += [f"--from={names.name(ends[0])}", f"--to={names.name(ends[1])}"]
    said = programs.run(asked, [("topology", topology.text)], program, timeout, names=names)
    topology.warn(said.notes(), depth)
    return said.output, names


def options_of(topology: Topology, given: Options) -> list[str]:
    """The words of options that are one value."""
    return options(topology, given.kind, given.root, words_of(given))


def words_of(given: Options) -> list[str]:
    """The further words of options: the numbering, the landmarks and the stretch, and those that are given as words."""
    numbering = [] if given.numbering is None else [f"--numbering={os.fspath(given.numbering)}"]
    return [*numbering, *detour_words(given.landmarks, given.stretch), *map(str, given.words)]


def asked(subcommand: str, graph: Network, given: Options, ends: Sequence[Any] | None = None) -> tuple[str, NameTable]:
    """`ask` with the options as one value."""
    return ask(subcommand, graph, given.kind, given.root, given.weight, given.program, given.timeout, words_of(given), ends, 5)


def plan(graph: Network, kind: str | None = None, root: Any = None, *, options: Options | None = None, **named: Any) -> texts.Plan:
    """The plan of a graph: the label and the intervals of each node.

    Parameters
    ----------
    graph : graph of NetworkX, list of edges `(u, v)` or `(u, v, weight)`, or path of a file
        The network. It is connected and has at most 32,768 nodes and 131,072 edges.
    kind : str, optional
        `"shortest"` (the default), `"compact"`, `"tree"` or `"landmark"`.
    root : node, optional
        The node from which labels are numbered; the first node by default. It is a landmark.
    options : Options, optional
        Options as one value.
    **named
        Further options by name: `numbering`, `landmarks`, `stretch`, `weight`, `program`, `timeout` and `words`, as in `Options`.

    Returns
    -------
    Plan
        With `nodes[a].label`, `nodes[a].intervals` and `path(a, b)`, in the graph's own nodes.

    Raises
    ------
    RouteError
        If the program refuses the network, for instance since it is not connected.
    GraphError, DirectedGraphError, MultigraphError, WeightError, UnknownNodeError
        If the graph, a weight or the root is not one that the program takes.

    Examples
    --------
    >>> import bentzolu
    >>> found = bentzolu.plan([("a", "b"), ("b", "c")])
    >>> found.nodes["b"]
    <NodePlan 'b': label 1; [0,2) to 'a', [2,0) to 'c'>
    >>> found.path("a", "c")
    ['a', 'b', 'c']
    """
    output, names = asked("plan", graph, chosen(options, named, kind=kind, root=root))
    return texts.read_plan(output, names)


def compile_many(
    graphs: Iterable[Network], kind: str | None = None, root: Any = None, *,
    jobs: int | None = None, progress: bool = False, options: Options | None = None, **named: Any,
) -> list[texts.Plan]:
    """The plans of many graphs, in their order.

    Parameters
    ----------
    graphs : iterable of graphs of NetworkX, lists of edges, or paths of files
        The networks.
    jobs : int, optional
        How many plans are made at a time; as many as there are processors by default.
    progress : bool
        Whether `tqdm`, if it is installed, shows how many are made.
    kind, root, options, **named
        As for `plan`, of each graph.

    Returns
    -------
    list of Plan

    Raises
    ------
    RouteError
        The first error of a plan, in the order of the graphs; plans that were not begun are not made.

    Examples
    --------
    >>> import bentzolu
    >>> bentzolu.compile_many([[("a", "b")], [("a", "b"), ("b", "c")]], "tree")
    [<Plan tree of 2 nodes: 2 intervals>, <Plan tree of 3 nodes: 4 intervals>]
    """
    given = chosen(options, named, kind=kind, root=root)
    found = list(graphs)
    with ThreadPoolExecutor(jobs or os.cpu_count() or 1) as crew:
        plans: list[Future[texts.Plan]] = [crew.submit(plan, graph, options=given) for graph in found]
        try:
            return [it.result() for it in (told(plans) if progress else plans)]
        finally:
            for it in plans:
                it.cancel()


def told(plans: list[Future[texts.Plan]]) -> Iterable[Future[texts.Plan]]:
    """The same plans to come, of which `tqdm` shows how many are made, if it is installed."""
    try:
        from tqdm import tqdm
    except ImportError:
        return plans
    shown: Iterable[Future[texts.Plan]] = tqdm(plans, unit="plan")
    return shown


def walk(
    graph: Network, source: Any, target: Any, kind: str | None = None, root: Any = None, *,
    options: Options | None = None, **named: Any,
) -> texts.Walk:
    """The walk that the graph's plan prescribes from source to target, with the interval that each node finds.

    Each call asks the program once. With kinds shortest and compact the program makes only the rows of the walk. If many
    walks are wanted, `plan(graph).path(source, target)` is quicker.

    Parameters
    ----------
    source, target : node
        Nodes of the graph.
    graph, kind, root, options, **named
        As for `plan`.

    Returns
    -------
    Walk
        With `path`, `weight`, `address` (the target's label) and `steps`.

    Raises
    ------
    UnknownNodeError
        If an end is no node of the graph; and errors as of `plan`.

    Examples
    --------
    >>> import bentzolu
    >>> bentzolu.walk([("a", "b", 2), ("b", "c", 3)], "a", "c")
    <Walk shortest: 'a' 'b' 'c', weight 5>
    """
    output, names = asked("walk", graph, chosen(options, named, kind=kind, root=root), (source, target))
    return texts.read_walk(output, names)


def stats(graph: Network, kind: str | None = None, root: Any = None, *, options: Options | None = None, **named: Any) -> texts.Stats:
    """The figures of the graph's plan: intervals and bits beside those of full tables, walks beside distances.

    Parameters
    ----------
    graph, kind, root, options, **named
        As for `plan`.

    Returns
    -------
    Stats
        With `starts`, `entries`, `bits`, `stretch`, `worst`, `compactness`, `dependencies`, `landmarks` and more.

    Raises
    ------
    RouteError
        As for `plan`.

    Examples
    --------
    >>> import bentzolu
    >>> figures = bentzolu.stats([("a", "b"), ("b", "c"), ("c", "a")])
    >>> figures.starts, figures.entries, figures.stretch
    (6, 6, Fraction(1, 1))
    """
    output, names = asked("stats", graph, chosen(options, named, kind=kind, root=root))
    return texts.read_stats(output, names)


def compare(graph: Network, root: Any = None, *, options: Options | None = None, **named: Any) -> texts.Comparison:
    """The figures of plans of all kinds and numberings of the graph, and of full tables.

    Parameters
    ----------
    graph, root, options, **named
        As for `plan`; a comparison has all kinds, so none is given.

    Returns
    -------
    Comparison
        With `rows`, `table_bits` and `least(most_stretch)`.

    Raises
    ------
    RouteError
        As for `plan`.
    TypeError
        If a kind or a numbering is given.

    Examples
    --------
    >>> import bentzolu
    >>> found = bentzolu.compare([("a", "b"), ("b", "c"), ("c", "d"), ("d", "a")])
    >>> [(row.kind, row.starts) for row in found.rows][:2]
    [('shortest', 8), ('shortest', 8)]
    >>> found.least(most_stretch=1).kind
    'shortest'
    """
    for name in ("kind", "numbering", "landmarks", "stretch"):
        if named.get(name) is not None:
            raise TypeError(f"{name!r} is not an option of this call: a comparison has all kinds and numberings")
    given = chosen(options, named, root=root)
    topology = topology_of(graph, given.weight)
    words = [] if "--format" in given.words else list(topology.options)
    if given.root is not None:
        words.append(f"--root={topology.names.name(given.root)}")
    asked_for = ["compare", *words, *map(str, given.words)]
    said = programs.run(asked_for, [("topology", topology.text)], given.program, given.timeout, names=topology.names)
    topology.warn(said.notes(), 3)
    return texts.read_comparison(said.output)


def second_words(beside: str | None) -> list[str]:
    """The words for a second plan of this kind, if there is one."""
    return [] if beside is None else ["--with", beside]


def link_failures(
    graph: Network, kind: str | None = None, root: Any = None, beside: str | None = None, *, options: Options | None = None, **named: Any,
) -> LinkFailures:
    """The figures of the graph's plan, and of the plan without each link: all made by one call of the program.

    Parameters
    ----------
    graph, kind, root, options, **named
        As for `plan`.
    beside : str, optional
        The kind of a second plan over the whole network. Then the figures say as `together` whether links can wait for each other in a
        ring while packets of both plans are under way, as where the plan changes after the failure.

    Returns
    -------
    LinkFailures
        With `intact` and `failures`, each with its `link` and its `figures`, which are None where nodes are cut off.

    Raises
    ------
    RouteError
        As for `plan`.

    Examples
    --------
    >>> import bentzolu
    >>> found = bentzolu.link_failures([("a", "b"), ("b", "c"), ("c", "a"), ("c", "d")])
    >>> [(failure.link, failure.figures and failure.figures.bits) for failure in found.failures]
    [(('a', 'b'), 18), (('a', 'c'), 16), (('b', 'c'), 16), (('c', 'd'), None)]
    >>> found = bentzolu.link_failures([("a", "b"), ("b", "c"), ("c", "a"), ("c", "d")], "tree", beside="tree")
    >>> [failure.figures and failure.figures.together for failure in found.failures]
    [False, False, False, None]
    """
    given = chosen(options, named, kind=kind, root=root)
    output, names = asked("stats", graph, chosen(given, {"words": [*given.words, "--each", "links", *second_words(beside)]}))
    return read_link_failures(output, names)


def node_failures(
    graph: Network, kind: str | None = None, root: Any = None, beside: str | None = None, *, options: Options | None = None, **named: Any,
) -> NodeFailures:
    """The figures of the graph's plan, and of the plan without each node: all made by one call of the program.

    Where the root fails, the plan is made from the first node that is left.

    Parameters
    ----------
    graph, kind, root, options, **named
        As for `plan`.
    beside : str, optional
        The kind of a second plan over the whole network. Then the figures say as `together` whether links can wait for each other in a
        ring while packets of both plans are under way, as where the plan changes after the failure.

    Returns
    -------
    NodeFailures
        With `intact` and `failures`, each with its `node` and its `figures`, which are None where nodes are cut off or none is left.

    Raises
    ------
    RouteError
        As for `plan`.

    Examples
    --------
    >>> import bentzolu
    >>> found = bentzolu.node_failures([("a", "b"), ("b", "c"), ("c", "a"), ("c", "d")])
    >>> [(failure.node, failure.figures and failure.figures.intervals) for failure in found.failures]
    [('a', 4), ('b', 4), ('c', None), ('d', 6)]
    """
    given = chosen(options, named, kind=kind, root=root)
    output, names = asked("stats", graph, chosen(given, {"words": [*given.words, "--each", "nodes", *second_words(beside)]}))
    return read_node_failures(output, names)


def prefixes(
    graph: Network, kind: str | None = None, root: Any = None, disjoint: bool = False, *,
    options: Options | None = None, **named: Any,
) -> texts.Prefixes:
    """The fewest prefixes of labels by which each node forwards, for routers with longest prefix match.

    Parameters
    ----------
    disjoint : bool
        Whether no two prefixes of a node may hold one label, but its own.
    graph, kind, root, options, **named
        As for `plan`.

    Returns
    -------
    Prefixes
        With `bits`, `nodes[a].prefixes` and `path(a, b)`.

    Raises
    ------
    RouteError
        As for `plan`.

    Examples
    --------
    >>> import bentzolu
    >>> bentzolu.prefixes([("a", "b"), ("b", "c")]).path("a", "c")
    ['a', 'b', 'c']
    """
    given = chosen(options, named, kind=kind, root=root)
    words = [*given.words, "--disjoint"] if disjoint else given.words
    output, names = asked("prefixes", graph, chosen(given, {"words": words}))
    return texts.read_prefixes(output, names)


def ranges(
    graph: Network, kind: str | None = None, root: Any = None, *, options: Options | None = None, **named: Any,
) -> dict[Any, tuple[Range, ...]]:
    """The fewest ranges of labels by which each node forwards, for tables that match ranges.

    They ascend, none wraps around to 0, the node's own label is in none, and each other label is in exactly one.

    Parameters
    ----------
    graph, kind, root, options, **named
        As for `plan`.

    Returns
    -------
    dict
        By node, tuples of `Range`, each with `first`, `last` and `to`.

    Raises
    ------
    RouteError
        As for `plan`.

    Examples
    --------
    >>> import bentzolu
    >>> bentzolu.ranges([("a", "b"), ("b", "c")])["a"]
    (Range(first=1, last=2, to='b'),)
    """
    output, names = asked("ranges", graph, chosen(options, named, kind=kind, root=root))
    return read_ranges(output, names)


def draw(
    graph: Network, kind: str | None = None, root: Any = None, source: Any = None, target: Any = None, *,
    ax: Axes = None, pos: Mapping[Any, Any] | None = None, options: Options | None = None, **named: Any,
) -> str:
    """The graph with labels and intervals in the language of Graphviz; the walk from source to target is bold.

    Parameters
    ----------
    source, target : node, optional
        The ends of a walk, or neither.
    ax : axes of matplotlib, optional
        Axes onto which a graph of NetworkX is drawn too.
    pos : mapping, optional
        The places of the nodes there; those of `networkx.spring_layout` with a fixed seed by default.
    graph, kind, root, options, **named
        As for `plan`.

    Returns
    -------
    str
        A text for `dot`.

    Raises
    ------
    GraphError
        If `ax` is given for what is no graph of NetworkX; and errors as of `plan`.

    Examples
    --------
    >>> import bentzolu
    >>> bentzolu.draw([("a", "b")]).splitlines()[0]
    'graph {'
    """
    ends = None if source is None and target is None else (source, target)
    if ax is not None and not hasattr(graph, "is_directed"):
        raise GraphError("matplotlib draws only graphs of NetworkX")
    given = chosen(options, named, kind=kind, root=root)
    output, names = asked("draw", graph, given, ends)
    if ax is not None:
        found = plan(graph, options=given)
        path = found.path(source, target) if ends else []
        drawing.onto(ax, graph, found, path, pos)
    return drawing.renamed(output, names)


def played(subcommand: str, graph: Network, steps: Any, given: Options) -> traces.Run:
    """What `sim` or `live` makes of steps."""
    topology = topology_of(graph, given.weight)
    names = topology.names
    script, steps = script_of(steps, names)
    words = [subcommand, *options_of(topology, given)]
    for word, value in [("--capacity", given.capacity), ("--packets", given.packets), ("--restamps", given.restamps)]:
        words += [] if value is None else [word, str(value)]
    said = programs.run(words, [("topology", topology.text), ("script", script)], given.program, given.timeout, names=names)
    topology.warn(said.notes())
    version, rows = traces.read_trace(said.output, names)
    return traces.Run(version, rows, traces.read_refused(said.faults, steps, said.of_steps()), said.output)


def simulate(
    graph: Network, steps: Any, kind: str | None = None, root: Any = None, capacity: int | None = None,
    packets: int | None = None, restamps: int | None = None, *, options: Options | None = None, **named: Any,
) -> traces.Run:
    """Plays steps over the graph, one after the other (`bentzolu sim`): the packets, and the steps that were refused.

    After an `install` packets are stamped with the earlier epoch until a step `("learn", epoch)`.

    Parameters
    ----------
    graph : graph of NetworkX, list of edges, or path of a file
        The network. It is connected and has at most 1,024 nodes and 8,192 links.
    steps : list of steps, str or pathlib.Path
        Steps, as `("inject", a, b)` or `("drain",)` (python/README.md has all), a script as one string, or the path of a
        script.
    kind, root : str, node, optional
        Those of the first epoch, as for `plan`.
    capacity : int, optional
        The most packets in each channel and inbox, 1 to 1,024; 16 by default.
    packets : int, optional
        The most packets of the run, 1 to 4,096.
    restamps : int, optional
        How often a packet of a retired epoch gets the current one instead of being dropped, 0 (the default) to 3.
    options, **named
        As for `plan`.

    Returns
    -------
    Run
        With `packets`, `refused` and `trace`.

    Raises
    ------
    StepError
        If a step is none; and errors as of `plan`.

    Examples
    --------
    >>> import bentzolu
    >>> run = bentzolu.simulate([("a", "b"), ("b", "c")], [("inject", "a", "c"), ("drain",)])
    >>> run.packets[0].fate, run.packets[0].hops
    ('delivered', ['a', 'b', 'c'])
    """
    placed = {"kind": kind, "root": root, "capacity": capacity, "packets": packets, "restamps": restamps}
    return played("sim", graph, steps, chosen(options, named, True, **placed))


def live(
    graph: Network, steps: Any, kind: str | None = None, root: Any = None, capacity: int | None = None,
    packets: int | None = None, restamps: int | None = None, *, options: Options | None = None, **named: Any,
) -> traces.Run:
    """Plays steps while each node runs in a thread of its own (`bentzolu live`).

    How packets and changes meet can differ from run to run.

    Parameters
    ----------
    steps : list of steps, str or pathlib.Path
        As for `simulate`, without `learn`, `take`, `read` and `act`: nodes do these by themselves, and packets are
        stamped with an epoch as soon as it is installed.
    graph, kind, root, capacity, packets, restamps, options, **named
        As for `simulate`.

    Returns
    -------
    Run
        With `packets`, `refused` and `trace`.

    Raises
    ------
    StepError
        If a step is none; and errors as of `plan`.

    Examples
    --------
    >>> import bentzolu
    >>> bentzolu.live([("a", "b"), ("b", "c")], [("inject", "a", "c"), ("drain",)])
    <Run of 1 packet: 1 delivered>
    """
    placed = {"kind": kind, "root": root, "capacity": capacity, "packets": packets, "restamps": restamps}
    return played("live", graph, steps, chosen(options, named, True, **placed))


def check(
    graph: Network, steps: Any, trace: Any, kind: str | None = None, root: Any = None, *,
    options: Options | None = None, **named: Any,
) -> traces.Verdict:
    """Whether each row of a trace follows the plan of its epoch among those that the steps install.

    Hops, ends and weights are judged. It is not asked whether a packet was injected, a link was down or a channel full,
    or whether packets are missing.

    Parameters
    ----------
    steps : list of steps, str or pathlib.Path
        As for `simulate`.
    trace : Run, str, pathlib.Path or list of Packet
        The trace.
    graph, kind, root, options, **named
        As for `plan`; those of the run that made the trace.

    Returns
    -------
    Verdict
        True if there is no finding; otherwise with the `line`, `kind` and `sentence` of the first.

    Raises
    ------
    RouteError
        If the script is refused; and errors as of `plan`.

    Examples
    --------
    >>> import bentzolu
    >>> graph, steps = [("a", "b"), ("b", "c")], [("inject", "a", "c"), ("drain",)]
    >>> bool(bentzolu.check(graph, steps, bentzolu.simulate(graph, steps)))
    True
    """
    given = chosen(options, named, kind=kind, root=root)
    topology = topology_of(graph, given.weight)
    names = topology.names
    script, _ = script_of(steps, names)
    if isinstance(trace, traces.Run):
        trace = trace.trace
    elif isinstance(trace, os.PathLike):
        trace = read_text(trace)
    elif not isinstance(trace, str):
        trace = traces.write_trace(trace, names)
    read = [("topology", topology.text), ("script", script), ("trace", trace)]
    words = ["check", *options_of(topology, given)]
    said = programs.run(words, read, given.program, given.timeout, findings=True, names=names)
    return traces.read_verdict(said.output, programs.sentence_of(said, read))


def names_of(graph: Network) -> NameTable:
    """The table of the names that the nodes have in texts of `bentzolu`; printed it has a line for each node.

    Parameters
    ----------
    graph : graph of NetworkX, list of edges, or path of a file
        The network.

    Returns
    -------
    Names
        With `name(node)` and `node(name)`.

    Examples
    --------
    >>> import bentzolu
    >>> bentzolu.names_of([((0, 1), "b")]).name((0, 1))
    '(0,1)'
    """
    return topology_of(graph, None).names
