"""Figures for papers and talks, onto axes of matplotlib.

Each function takes axes, or takes those of `matplotlib.pyplot.gca()`, and answers them. It names the axes, and sets neither a title
nor a style. What belongs together has a colour and a dash, so it is told apart in grey, too. matplotlib is imported where a function
is called.
"""
from __future__ import annotations

from typing import Any, Dict, Iterable, List, Mapping, Optional, Sequence, Tuple

from .errors import BentzoluError
from .optional import needed, numpy

STYLES = (
    ("#0b5fa5", "-", "o"), ("#d1495b", "--", "s"), ("#2e7d32", "-.", "^"), ("#6a4c93", ":", "D"), ("#b8860b", (0, (5, 1, 1, 1)), "v"),
    ("#444444", (0, (1, 1)), "x"),
)
MARKERS = "osD^vP*X<>hd"
OF_SWEEPS = ("links", "stretch", "bits")
MOST_BARS = 10
Points = Mapping[str, Iterable[Tuple[float, float]]]  # by label, pairs of x and y
NAMES = {
    "bits": "bits of all rows", "sent": "bits sent at a change", "mean": "mean weight of a path", "worst": "greatest weight of a path",
    "links": "links that are up",
}


def axes(ax: Any) -> Any:
    """The axes that were given, or the current ones."""
    return needed("matplotlib.pyplot", "a figure").gca() if ax is None else ax


def style(k: int) -> Dict[str, Any]:
    """The colour and the dash of the k-th line."""
    colour, dash, _ = STYLES[k % len(STYLES)]
    return dict(color=colour, linestyle=dash, linewidth=1.5)


def finished(ax: Any, x: str, y: str, legend: bool = True) -> Any:
    """Axes with their names, a thin grid and a legend."""
    ax.set_xlabel(x)
    ax.set_ylabel(y)
    ax.grid(True, alpha=0.25)
    ax.set_axisbelow(True)
    if legend and ax.get_legend_handles_labels()[1]:
        ax.legend(frameon=False, fontsize=8)
    return ax


def filled(given: Mapping[str, Any]) -> List[Tuple[str, List[Any]]]:
    """What is drawn, by its label; nothing is refused, since axes on logarithms have no place for it."""
    found = [(str(label), list(values)) for label, values in given.items()]
    if not found or not all(values for _, values in found):
        raise BentzoluError("there is nothing to draw: give a mapping of labels to values, each with one or more")
    return found


def plot_rows(plans: Mapping[str, Any], ax: Any = None) -> Any:
    """The share of nodes with at most so many intervals.

    Parameters
    ----------
    plans : by label, a `Plan` or the number of intervals of each node
    ax : axes of matplotlib

    Returns
    -------
    the axes
    """
    np = numpy("a figure")
    ax = axes(ax)
    rows = {label: [len(it) for it in plan.nodes.values()] if hasattr(plan, "nodes") else plan for label, plan in plans.items()}
    for k, (label, lengths) in enumerate(filled(rows)):
        at = np.sort(np.asarray(lengths, float))
        ax.step(at, np.arange(1, len(at) + 1) / len(at), where="post", label=label, **style(k))
    ax.set_xscale("log")
    ax.set_ylim(0, 1.02)
    ax.xaxis.set_major_formatter(needed("matplotlib.ticker", "a figure").ScalarFormatter())
    return finished(ax, "intervals of a node", "share of nodes")


def plot_sizes(points: Points, ax: Any = None, tables: Optional[Points] = None) -> Any:
    """The bits of a node's row over the number of nodes, both on logarithms.

    Parameters
    ----------
    points : by label, pairs of a number of nodes and the bits of a node
    ax : axes of matplotlib
    tables : by the same labels the bits of a node's full table, drawn as thin lines

    Returns
    -------
    the axes
    """
    ax = axes(ax)
    given = filled(points)
    for k, (label, pairs) in enumerate(given):
        x, y = zip(*sorted(pairs))
        ax.plot(x, y, label=label, marker=STYLES[k % len(STYLES)][2], markersize=4, **style(k))
    for k, (label, _) in enumerate(given if tables else []):
        x, y = zip(*sorted((tables or {})[label]))
        ax.plot(x, y, color=STYLES[k % len(STYLES)][0], linewidth=0.8, alpha=0.5)
    if tables:
        ax.plot([], [], color="#777777", linewidth=0.8, label="thin: full table of the same network")
    ax.set_xscale("log", base=2)
    ax.set_yscale("log")
    ax.xaxis.set_major_formatter(needed("matplotlib.ticker", "a figure").ScalarFormatter())
    return finished(ax, "nodes", "bits of a node")


def plot_stretch(values: Mapping[str, Iterable[float]], ax: Any = None, what: str = "ordered pairs") -> Any:
    """The share with a greater stretch than x, on logarithms: nearly all have 1, and the rest is what is asked for.

    Parameters
    ----------
    values : by label, stretches
    ax : axes of matplotlib
    what : what has the stretches, as the name of the axis says

    Returns
    -------
    the axes
    """
    np = numpy("a figure")
    ax = axes(ax)
    given, least = filled(values), 1.0
    for k, (label, found) in enumerate(given):
        x = np.sort(np.asarray(found, float))
        at, first = np.unique(x, return_index=True)
        above = 1 - np.append(first[1:], len(x)) / len(x)
        if at[0] > 1:
            at, above = np.append(1.0, at), np.append(1.0, above)
        least = min(least, 0.5 / len(x))
        ax.step(at, np.maximum(above, 1e-12), where="post", label=label, **style(k))
    ax.set_yscale("log")
    ax.set_ylim(max(1e-7, least), 1.2)
    return finished(ax, "stretch x", f"share of {what} above x")


def plot_tradeoff(points: Mapping[str, Tuple[float, float]], ax: Any = None, front: bool = True) -> Any:
    """Choices as points, less being better in both. Those that no other beats in both are filled.

    Parameters
    ----------
    points : by label, x and y
    ax : axes of matplotlib
    front : whether a line goes along those that no other beats

    Returns
    -------
    the axes
    """
    ax = axes(ax)
    given = [(label, float(x), float(y)) for label, (x, y) in filled(points)]
    best = [not any(a <= x and b <= y and (a, b) != (x, y) for _, a, b in given) for _, x, y in given]
    if front:
        line = sorted((x, y) for (_, x, y), it in zip(given, best) if it)
        ax.step(*zip(*line), where="post", color="#999999", linewidth=1, zorder=0)
    for k, ((label, x, y), it) in enumerate(zip(given, best)):
        colour = STYLES[0][0] if it else STYLES[1][0]
        inner = colour if it else "none"
        ax.plot([x], [y], color=colour, marker=MARKERS[k % len(MARKERS)], markersize=6, linestyle="", label=label, markerfacecolor=inner)
    ax.legend(frameon=False, fontsize=7)
    ax.grid(True, alpha=0.25)
    return ax


def plot_sweep(rows: Any, ax: Any = None, what: str = "stretch") -> Any:
    """A sweep: what `Sweep.plot` draws.

    Parameters
    ----------
    rows : a `Sweep`
    ax : axes of matplotlib
    what : one of `OF_SWEEPS`
    """
    drawing = {"links": draw_worst, "stretch": draw_stretches, "bits": draw_bits}.get(what)
    if drawing is None:
        raise BentzoluError(f"a sweep has no figure {what!r}: give one of {', '.join(OF_SWEEPS)}")
    if not len(rows):
        raise BentzoluError("there is nothing to draw: the sweep has no rows")
    return drawing(rows, axes(ax))


def draw_worst(rows: Any, ax: Any) -> Any:
    """The worst failures by name: a bar for the greatest stretch, and beside it how many pairs have longer walks or none."""
    worst = [row for row in rows.worst(k=MOST_BARS)][::-1]
    pairs = max(1, (rows.intact.nodes or 1) * ((rows.intact.nodes or 1) - 1))
    wide = max([row.worst_stretch or 1.0 for row in worst] + [1.5])
    for at, row in enumerate(worst):
        cut = bool(row.disconnected)
        length = wide if cut else (row.worst_stretch or 1.0)
        ax.barh(at, length, color="#d1495b" if cut else "#0b5fa5", hatch="//" if cut else None, edgecolor="white", height=0.7)
        said = f"{100 * row.disconnected / pairs:.2g} % cut off" if cut else f"{100 * (row.longer or 0) / pairs:.2g} % longer"
        ax.text(length, at, f" {said}", va="center", fontsize=7)
    ax.set_yticks(range(len(worst)), [shortened(row.name) for row in worst], fontsize=7)
    ax.set_xlim(0, wide * 1.28)
    finished(ax, "greatest stretch, and the share of pairs with a longer path", "", legend=False).grid(False, axis="y")
    return ax


def shortened(name: str) -> str:
    """A name that has room beside a bar."""
    return name if len(name) <= 32 else name[:30] + " .."


def draw_ranked(ax: Any, series: Mapping[str, List[float]]) -> None:
    """Numbers by label, each series from its greatest to its least."""
    for k, (label, values) in enumerate(series.items()):
        ax.step(range(1, len(values) + 1), sorted(values, reverse=True), where="mid", label=label, **style(k))


def draw_stretches(rows: Any, ax: Any) -> Any:
    """The worst and the mean stretch of all failures, each ranked by itself."""
    found = [row for row in rows if row.worst_stretch is not None]
    if not found:
        raise BentzoluError("there is nothing to draw: every failure cuts nodes off or was refused")
    draw_ranked(ax, {"worst pair": [row.worst_stretch for row in found], "mean of all pairs": [row.mean_stretch for row in found]})
    cut = sum(bool(row.disconnected) for row in rows)
    said = f"failures, ranked ({cut:,} more cut nodes off)" if cut else "failures, ranked"
    return finished(ax, said, "stretch")


def draw_bits(rows: Any, ax: Any) -> Any:
    """The bits of all rows over those of the whole network, and the share of nodes that change, each ranked by itself."""
    found = [row for row in rows if row.bits is not None]
    whole, nodes = rows.intact.bits, rows.intact.nodes
    if not found or not whole or not nodes:
        raise BentzoluError("there is nothing to draw: no row has bits")
    bits, changed = [row.bits / whole for row in found], [row.rows_changed / nodes for row in found]
    draw_ranked(ax, {"bits of all rows / whole network": bits, "share of nodes that change": changed})
    ax.axhline(1, color="#999999", linewidth=0.8, zorder=0)
    ax.set_ylim(0)
    return finished(ax, "failures, ranked", "share")


def plot_times(series: Mapping[str, Sequence[Any]], ax: Any = None, what: str = "bits") -> Any:
    """A figure of a network over time: what `Timeline.plot` draws.

    Parameters
    ----------
    series : by label, rows of `Timeline.replay`
    ax : axes of matplotlib
    what : the figure, as `bits`, `sent`, `mean` or `links`
    """
    ax = axes(ax)
    for k, (label, rows) in enumerate(filled(series)):
        found = [(row.time / 60, getattr(row, what)) for row in rows if getattr(row, what) is not None]
        if not found:
            raise BentzoluError(f"there is nothing to draw: no row of {label} has the figure {what}")
        x, y = zip(*found)
        ax.step(x, y, where="post", label=label, **style(k))
    return finished(ax, "minutes", NAMES.get(what, what))

