"""The options of the calls, as one value."""
from __future__ import annotations

import argparse
import os
from dataclasses import dataclass, fields, replace
from typing import Any, Sequence


@dataclass(frozen=True)
class Options:
    """What a call takes besides its network and its steps; each call takes all of it as `options=`.

    An option that is also given to the call by its own name is that one there.

    Parameters
    ----------
    kind : str
        `"shortest"` (shortest paths, the least port among ties), `"compact"` (shortest paths, ties broken for the fewest
        intervals), `"tree"` (along a depth-first tree) or `"landmark"` (paths of at most `stretch` percent of the distance).
    root : node, optional
        The node from which labels are numbered; the first node by default.
    weight : str or None
        The name of the edges' attribute that is the weight, a whole number from 1 to 65,535; 1 where an edge has none.
        None is 1 everywhere.
    program : str or path, optional
        The program. By default the library in this process answers if there is one (`bentzolu.inside`), and otherwise
        the program that `find_program` finds.
    timeout : float, optional
        Seconds, after which `subprocess.TimeoutExpired` is raised. A call with it goes to the program.
    numbering : str or path, optional
        How nodes are numbered: `"depth-first"` (the default), `"tour"`, which often takes fewer intervals, or the path of a file
        that lists the nodes in order. For `simulate`, `live` and `check` also `"keep"`: each install keeps the labels of the epoch
        before, and the first are a tour's, or depth first with `"keep,depth-first"`.
    words : sequence of str
        Further words of the command line, as `("--threads", "1")`.
    landmarks : int, optional
        For kind landmark: how many landmarks there are, 1 to 65,535; by default the least number of which four times the square
        is at least the number of nodes.
    stretch : int, optional
        For kind landmark: the most percent of the distance that a path weighs, 100 to 300 (the default). `simulate`, `live` and
        `check` take both words beside each kind, for the plans that a script installs.
    capacity : int, optional
        For `simulate` and `live`: the most packets in each channel and inbox, 1 to 1,024; 16 by default.
    packets : int, optional
        For `simulate` and `live`: the most packets of the run, 1 to 4,096.
    restamps : int, optional
        For `simulate` and `live`: how often a packet of a retired epoch gets the current one instead of being dropped,
        0 (the default) to 3.

    Examples
    --------
    >>> import bentzolu
    >>> options = bentzolu.Options(kind="tree", root="b")
    >>> bentzolu.plan([("a", "b"), ("b", "c")], options=options).labels
    {'a': 1, 'b': 0, 'c': 2}
    """

    kind: str = "shortest"
    root: Any = None
    weight: str | None = "weight"
    program: str | os.PathLike[str] | None = None
    timeout: float | None = None
    words: Sequence[str] = ()
    capacity: int | None = None
    packets: int | None = None
    restamps: int | None = None
    landmarks: int | None = None
    stretch: int | None = None
    numbering: str | os.PathLike[str] | None = None


NAMES = tuple(it.name for it in fields(Options))
OF_RUNS = ("capacity", "packets", "restamps")  # which `simulate` and `live` alone take


def detour_words(landmarks: int | None = None, stretch: int | None = None) -> list[str]:
    """The words of the command line for the landmarks and the stretch of kind landmark, where they are given."""
    given = (("--landmarks", landmarks), ("--stretch", stretch))
    return [f"{word}={value}" for word, value in given if value is not None]


def add_detour(parser: argparse.ArgumentParser) -> None:
    """Adds the words of kind landmark to a parser."""
    said = "number of landmarks, for kind landmark (default: the least K for which 4 K K is at least the number of nodes)"
    parser.add_argument("--landmarks", metavar="K", type=int, help=said)
    parser.add_argument("--stretch", metavar="P", type=int, help="most percent of the distance that a path weighs, for kind landmark (default: 300)")


def chosen(options: Options | None, named: dict[str, Any], of_runs: bool = False, **placed: Any) -> Options:
    """The options of a call.

    Parameters
    ----------
    options : Options, optional
        Those that were given as one value.
    named : dict
        Those that were given by their names.
    of_runs : bool
        Whether the call takes those of runs.
    placed : keyword arguments
        Those that may be given by their place; None where they were not.

    Raises
    ------
    TypeError
        For a name that is no option of the call.
    """
    known = [name for name in NAMES if of_runs or name not in OF_RUNS]
    for name in named:
        if name not in known:
            raise TypeError(f"{name!r} is not an option of this call, which takes {', '.join(known)}")
    given = {name: value for name, value in placed.items() if value is not None}
    return replace(options if options is not None else Options(), **given, **named)
