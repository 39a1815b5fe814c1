"""The words of `python3 -m bentzolu sweep` and `plot`."""
from __future__ import annotations

import argparse
import concurrent.futures
import contextlib
import functools
import os
import sys
import threading
import time
import warnings
from typing import Any, Iterator, List, Optional

from . import calls, figures, network, optional, program as programs, texts
from .convert import READERS
from .errors import BentzoluError, FailureError, SweepError, TopologyWarning
from .options import add_detour, detour_words
from .sources import of_file
from .sweeping import KINDS, NUMBERINGS, FailureRow, Sweep, asked_of, made, read_sweep, table_of


def add_network(parser: argparse.ArgumentParser, weighed: bool = True) -> None:
    """The words that say which network is read, how, and what its plans are."""
    formats = sorted(READERS)
    parser.add_argument(
        "--from", dest="format", metavar="FORMAT", choices=formats,
        help=f"format of the file (default: found from its text and its name): {', '.join(formats)}",
    )
    parser.add_argument("--largest", action="store_true", help="take the largest part of a network of several parts, which is otherwise refused")
    parser.add_argument(
        "--weight", metavar="NAME",
        help="edge attribute to take as the weight (default: 'weight' where there is one), or 1 for 1 everywhere",
    )
    parser.add_argument("--kind", default="shortest", choices=KINDS, help="kind of the plans (default: shortest)")
    parser.add_argument("--root", metavar="NAME", help="node from which labels are numbered, by its name in the program (default: the first node)")
    add_detour(parser)


def add_sweep(parser: argparse.ArgumentParser) -> None:
    parser.add_argument("file", metavar="FILE", help="network file, in any format that convert reads")
    add_network(parser)
    parser.add_argument(
        "--failures", default="links", metavar="WHAT",
        help="what fails: links (the default), nodes, or a number k for every k links together",
    )
    parser.add_argument(
        "--numbering", default="depth-first", metavar="HOW",
        help="depth-first (the default), tour, keep (a tour whose labels stay), or a file that lists the nodes in order",
    )
    engine = parser.add_mutually_exclusive_group()
    engine.add_argument("--jobs", type=int, default=1, metavar="N", help="compute rows in N processes on this machine (default: 1)")
    engine.add_argument("--dask", metavar="ADDRESS", help="compute rows on the workers of a dask scheduler, such as tcp://host:8786")
    engine.add_argument(
        "--mpi", action="store_true",
        help="compute rows by MPI: mpiexec -n 5 python3 -m mpi4py.futures -m bentzolu sweep --mpi ..",
    )
    parser.add_argument(
        "-o", "--output", metavar="ROWS",
        help="write rows to this file, as lines of JSON; rows that are there already are not computed again",
    )
    parser.add_argument("--worst", type=int, default=10, metavar="K", help="print the K worst failures (default: 10)")
    parser.add_argument(
        "--by", metavar="FIGURE",
        help="rank failures by this figure, such as bits (default: pairs cut off, then stretch)",
    )
    parser.add_argument("--progress", action="store_true", help="show progress, if tqdm is installed")
    parser.set_defaults(act=sweep)


def add_plot(parser: argparse.ArgumentParser) -> None:
    parser.add_argument(
        "what", choices=("rows", "stretch", "sweep"),
        help="rows: the intervals of a network's nodes; stretch: the stretch of each failure of a sweep; sweep: a whole sweep",
    )
    parser.add_argument(
        "files", nargs="+", metavar="FILE",
        help="a network file for rows, a file of rows for stretch and sweep",
    )
    add_network(parser)
    parser.add_argument(
        "--numbering", action="append", metavar="HOW",
        help="for rows: depth-first, tour, or a file that lists the nodes in order; give it again to compare several",
    )
    parser.add_argument(
        "--show", default="links", choices=figures.OF_SWEEPS,
        help="for sweep: links (the worst by name, the default), stretch, or bits",
    )
    parser.add_argument(
        "-o", "--output", required=True, metavar="PICTURE",
        help="picture file; its ending sets the format: .png, .pdf or .svg",
    )
    parser.set_defaults(act=plot)


def add_words(subparsers: Any) -> None:
    """Adds the subcommands `sweep` and `plot`."""
    what = "compute a network's plan under each of many failures, and print the worst"
    about = f"{what[0].upper()}{what[1:]}. A run that was stopped continues if it is called again with the same file of rows."
    add_sweep(subparsers.add_parser("sweep", help=what, description=about))
    what = "draw the rows of a plan or of a sweep to a file"
    add_plot(subparsers.add_parser("plot", help=what, description=f"{what[0].upper()}{what[1:]}. It needs matplotlib."))


@contextlib.contextmanager
def told(command: str) -> Iterator[None]:
    """Prints the warnings of a block on standard error."""
    with warnings.catch_warnings(record=True) as caught:
        warnings.simplefilter("always", TopologyWarning)
        yield
    for warning in caught:
        print(f"bentzolu {command}: {warning.message}", file=sys.stderr)


def weight_of(word: Optional[str]) -> Optional[str]:
    return {None: "weight", "1": None}.get(word, word)


def failures_of(word: str) -> Any:
    """What fails, of a word of the command line."""
    if word in ("links", "nodes"):
        return word
    if not (word.isascii() and word.isdigit()):
        raise FailureError(f"{word!r} is not a set of failures: give links, nodes, or a number of links that fail together")
    return int(word)


@contextlib.contextmanager
def engine_of(found: argparse.Namespace) -> Iterator[Any]:
    """The executor that the words ask for, or a call that makes one, or None for this process."""
    if found.mpi:
        yield optional.needed("mpi4py.futures", "--mpi").MPIPoolExecutor
    elif found.dask is not None:
        distributed = optional.needed("distributed", "--dask")
        try:
            client = distributed.Client(found.dask, timeout=20)
        except (OSError, ValueError) as error:
            raise BentzoluError(f"no dask scheduler answers at {found.dask}: {error}") from error
        with client:
            yield client.get_executor(retries=3)
    elif found.jobs < 1:
        raise BentzoluError(f"--jobs {found.jobs} is too small: give a number of at least 1")
    else:
        made = functools.partial(concurrent.futures.ProcessPoolExecutor, found.jobs, initializer=end_with_parent)
        yield None if found.jobs == 1 else made


def end_with_parent() -> None:
    """Ends this process soon after its parent ended, which a pool whose caller was killed does not do by itself."""
    parent = os.getppid()

    def watch() -> None:
        while os.getppid() == parent:
            time.sleep(0.5)
        os._exit(1)

    threading.Thread(target=watch, daemon=True).start()


def sweep(found: argparse.Namespace) -> int:
    """`sweep`: the rows of many failures, and the worst of them. The status is 1 where a failure was refused."""
    optional.numpy()
    Sweep((), FailureRow(()), "", "").worst(found.by)  # refuses what is no figure before the sweep
    with told("sweep"):
        net = network.network_of_file(found.file, found.format, weight_of(found.weight), found.largest)
    root = None if found.root is None else node_of(net, found.root)
    numbering = found.numbering if found.numbering in NUMBERINGS else network.named_order(net, found.numbering)
    asked = asked_of(net, failures_of(found.failures), found.kind, root, numbering, True, None, None, found.landmarks, found.stretch)
    with engine_of(found) as executor:
        rows = made(asked, executor, None, found.output, found.progress, 3)
    some = rows.worst(found.by, max(0, found.worst))
    print(repr(rows)[1:-1] + (f"; the worst {len(some)}:" if some else ""))
    if some:
        print(table_of(some), end="")
    if found.output is not None:
        print(f"rows are in {found.output}")
    for row in rows.faults[:3]:
        print(f"bentzolu sweep: {row.name} was refused: {row.fault}", file=sys.stderr)
    return 1 if rows.faults else 0


def node_of(net: network.Network, name: str) -> Any:
    """The node of a name."""
    if name not in net.names:
        raise SweepError(f"the root {name!r} is not a node of the network")
    return net.nodes[net.names.index(name)]


def lengths_of(found: argparse.Namespace, file: str, numbering: str) -> List[int]:
    """The number of intervals of each node of a file's plan."""
    topology = of_file(file, found.format, weight_of(found.weight), found.largest)
    words = ["plan", *calls.options(topology, found.kind, None, detour_words(found.landmarks, found.stretch)), f"--numbering={numbering}"]
    words += [] if found.root is None else [f"--root={found.root}"]
    said = programs.run(words, [("topology", topology.text)], names=topology.names)
    topology.warn(said.notes())
    return [len(it) for it in texts.read_plan(said.output).nodes.values()]


def plot(found: argparse.Namespace) -> None:
    """`plot`: a picture in a file."""
    optional.needed("matplotlib", "a picture").use("Agg")
    pyplot = optional.needed("matplotlib.pyplot", "a picture")
    figure, ax = pyplot.subplots(figsize=(6.4, 4.0), layout="constrained")
    if found.what == "rows":
        drawn = {}
        with told("plot"):
            for file in found.files:
                for numbering in found.numbering or ["depth-first"]:
                    label = f"{found.kind}, {numbering}" if len(found.files) == 1 else f"{file}: {found.kind}, {numbering}"
                    drawn[label] = lengths_of(found, file, numbering)
        figures.plot_rows(drawn, ax)
    elif found.what == "stretch":
        figures.plot_stretch({file: stretches(read_sweep(file), file) for file in found.files}, ax, what="failures")
    elif len(found.files) > 1:
        raise BentzoluError("plot sweep draws one sweep: give one file of rows")
    else:
        read_sweep(found.files[0]).plot(ax, found.show)
    save(figure, found.output)


def stretches(rows: Sweep, file: str) -> List[float]:
    """The worst stretch of each failure that cuts nothing off."""
    found = [row.worst_stretch for row in rows if row.worst_stretch is not None]
    if not found:
        raise BentzoluError(f"{file} has no row with a stretch")
    return found


def save(figure: Any, path: str) -> None:
    """Writes a picture.

    Raises
    ------
    BentzoluError
        where the ending of the path is that of no format of pictures
    """
    try:
        figure.savefig(path, dpi=150)
    except ValueError as error:
        raise BentzoluError(f"{path} can't be written: {error}") from error
