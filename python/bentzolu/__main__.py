"""`python3 -m bentzolu COMMAND`: a network in another format as an edge list, its plan, its figures, a new network, or a lab."""
from __future__ import annotations

import argparse
import sys
from typing import Any, Callable, Sequence

from . import __version__, commands, families, fleet_words, inside, lab, program, sweep_words, xdp_words
from .convert import READERS
from .errors import BentzoluError
from .options import add_detour


def add_source(parser: argparse.ArgumentParser) -> None:
    """The words that say which network is read, and how."""
    parser.add_argument("file", metavar="FILE", help="network file, or - for standard input")
    formats = sorted(READERS)
    said = f"format of the file (default: found from its text and its name): {', '.join(formats)}"
    parser.add_argument("--from", dest="format", metavar="FORMAT", choices=formats, help=said)
    parser.add_argument("--largest", action="store_true", help="take the largest part of a network of several parts, which is otherwise refused")
    parser.add_argument("--weight", metavar="NAME", help="edge attribute to take as the weight (default: 'weight' where there is one), or 1 for 1 everywhere")
    parser.add_argument("-o", "--output", metavar="OUT", help="write to this file (default: standard output)")


def add_convert(parser: argparse.ArgumentParser) -> None:
    add_source(parser)
    parser.add_argument("--names", metavar="TABLE", help="write the table of names to this file: for each node a line NAME, tab, node as JSON")
    parser.set_defaults(act=commands.convert)


def add_shown(parser: argparse.ArgumentParser) -> None:
    add_source(parser)
    parser.add_argument("--kind", default="shortest", choices=("shortest", "compact", "tree", "landmark"), help="kind of the plan (default: shortest)")
    parser.add_argument("--root", metavar="NAME", help="node from which labels are numbered, by its name in the program (default: the first node)")
    parser.add_argument("--numbering", metavar="HOW", help="depth-first (the default), tour, or a file that lists the nodes in order")
    add_detour(parser)
    parser.set_defaults(act=commands.shown)


def add_changed(parser: argparse.ArgumentParser) -> None:
    parser.add_argument("old", metavar="OLD", help="file of the old network, in any format that convert reads")
    parser.add_argument("new", metavar="NEW", help="file of the new network, of the same nodes")
    parser.add_argument("--kind", default="shortest", choices=("shortest", "compact", "tree", "landmark"), help="kind of both plans (default: shortest)")
    parser.add_argument("--root", metavar="NAME", help="node from which labels are numbered, by its name in the program (default: the first node)")
    parser.add_argument(
        "--numbering", metavar="HOW",
        help="depth-first (the default), tour, a file that lists the nodes in order, or keep: "
        "the old plan is numbered along a tour, and the new one keeps its labels",
    )
    parser.add_argument("--json", action="store_true", help="print the changes as JSON")
    parser.add_argument("-o", "--output", metavar="OUT", help="write to this file (default: standard output)")
    add_detour(parser)
    parser.set_defaults(act=commands.changed)


# The subcommands: the name, what it does, and what adds its words to a parser. `act` of what was found is called, and answers the status or None.
COMMANDS: list[tuple[str, str, Callable[[argparse.ArgumentParser], None]]] = [
    ("convert", "convert a network in another format to a weighted edge list", add_convert),
    ("plan", "print the labels and intervals of a network in any format that convert reads", add_shown),
    ("stats", "print the figures of the plan of a network in any format that convert reads", add_shown),
    ("diff", "print what each node changes between the plans of two networks of the same nodes", add_changed),
    ("generate", "print a network of a family: a grid, a fat tree, a random network", families.add_words),
]
ABOUT = {
    "convert": "Convert a network in another format to a weighted edge list, which the program reads with --format edgelist. "
    "Directions are dropped, and of several edges between two nodes the least weight is kept. What is changed is reported on standard error. "
    "The file - is standard input.",
}


class Version(argparse.Action):
    """Prints the version of the package, where the library is, and which program there is."""

    def __call__(self, parser: argparse.ArgumentParser, *_: Any) -> None:
        print(f"bentzolu {__version__}")
        try:
            library = inside.library()
            if library:
                print(f"library {library.path}, in this process")
            print(f"{program.version()} at {program.find()}")
        except BentzoluError as error:
            print(error)
        parser.exit(0)


def words() -> argparse.ArgumentParser:
    parser = argparse.ArgumentParser(prog="python3 -m bentzolu", description="Tools around the program: interval routing with live relabelling.")
    parser.add_argument("--version", action=Version, nargs=0, help="print the versions of the package and of the program that it calls")
    subparsers = parser.add_subparsers(dest="command", required=True, metavar="COMMAND")
    for name, what, add in COMMANDS:
        add(subparsers.add_parser(name, help=what, description=ABOUT.get(name, f"{what[0].upper()}{what[1:]}.")))
    add_lab: Any = lab.add_words  # the lab has no annotations yet
    add_lab(subparsers)
    fleet_words.add_words(subparsers)
    sweep_words.add_words(subparsers)
    xdp_words.add_words(subparsers)
    return parser


def main(arguments: Sequence[str] | None = None) -> int:
    given = sys.argv[1:] if arguments is None else list(arguments)
    if given[:1] == ["generate"]:
        return families.main(given[1:])
    found = words().parse_args(given)
    try:
        return int(found.act(found) or 0)
    except (BentzoluError, OSError) as error:
        print(f"bentzolu {found.command}: {error}", file=sys.stderr)
        return 1


if __name__ == "__main__":
    sys.exit(main())
