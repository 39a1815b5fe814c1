"""What the words of `python3 -m bentzolu` do."""
from __future__ import annotations

import argparse
import pathlib
import sys
import warnings

from . import calls, program as programs
from .convert import READERS, converted, format_of, renamed
from .diffs import diff
from .errors import BentzoluError, TopologyWarning
from .options import detour_words
from .relabelling import Relabeller
from .sources import Topology, of_file, read_text
from .texts import Plan


def text_of_file(name: str) -> str:
    """The text of a file, or of standard input for `-`."""
    if name != "-":
        return read_text(name)
    data = sys.stdin.buffer.read()
    try:
        return data.decode("utf-8-sig")
    except UnicodeDecodeError:
        return data.decode("latin-1")


def write(output: str | None, text: str) -> None:
    """Writes a text to a file, or to standard output where none is named."""
    if output:
        pathlib.Path(output).write_bytes(text.encode("utf-8"))
    else:
        sys.stdout.write(text)


def convert(found: argparse.Namespace) -> None:
    """`convert`: a network in another format as a weighted edge list."""
    text = text_of_file(found.file)
    format = found.format or format_of(found.file, text)
    if format is None:
        raise BentzoluError(f"the format of {found.file} is unknown: give --from with one of {', '.join(sorted(READERS))}")
    edges, names, notes = converted(text, format, found.largest, found.weight)
    changed = renamed(names)
    if changed and not found.names:
        notes.append(f"{changed} {'node has a new name' if changed == 1 else 'nodes have new names'}: --names TABLE lists them")
    if found.names:
        pathlib.Path(found.names).write_bytes(names.table().encode("utf-8"))
    write(found.output, edges)
    print(f"{format}: " + "; ".join(notes), file=sys.stderr)


def shown(found: argparse.Namespace) -> None:
    """`plan` and `stats`: what the program prints of a network in any format."""
    with warnings.catch_warnings(record=True) as caught:
        warnings.simplefilter("always", TopologyWarning)
        weight = "weight" if found.weight is None else None if found.weight == "1" else found.weight
        topology = of_file(found.file, found.format, weight, found.largest)
        asked = [found.command, *calls.options(topology, found.kind, None, detour_words(found.landmarks, found.stretch))]
        asked += [] if found.root is None else [f"--root={found.root}"]
        asked += [] if found.numbering is None else [f"--numbering={found.numbering}"]
        said = programs.run(asked, [("topology", topology.text)], names=topology.names)
        topology.warn(said.notes())
    for warning in caught:
        print(f"bentzolu {found.command}: {warning.message}", file=sys.stderr)
    write(found.output, said.output)


def changed(found: argparse.Namespace) -> None:
    """`diff`: what each node changes between the plans of two networks of the same nodes."""
    if found.numbering == "keep":
        Relabeller(found.kind)  # refuses the kinds whose labels can't be kept
    with warnings.catch_warnings(record=True) as caught:
        warnings.simplefilter("always", TopologyWarning)
        text = changes_of(found)
    for warning in caught:
        print(f"bentzolu {found.command}: {warning.message}", file=sys.stderr)
    write(found.output, text)


def changes_of(found: argparse.Namespace) -> str:
    """What the program prints of both networks. A file that lists the nodes in order is read here alone, and so are networks in
    which a node has two names for the program: then the plans are compared here."""
    old, new = two_topologies(found)
    if found.numbering not in (None, "depth-first", "tour", "keep") or dict(old.names.changed()) != dict(new.names.changed()):
        change, names = diff(*two_plans(found)), calls.names_of(found.new)
        return change.json(names) if found.json else change.text(names)
    asked = [found.command, *calls.options(old, found.kind, None, detour_words(found.landmarks, found.stretch))]
    asked += [f"--{name}={value}" for name, value in (("root", found.root), ("numbering", found.numbering)) if value is not None]
    asked += ["--json"] if found.json else []
    said = programs.run(asked, [("topology", old.text), ("new", new.text)], names=new.names)
    old.warn()
    new.warn(said.notes())
    return said.output


def two_topologies(found: argparse.Namespace) -> tuple[Topology, Topology]:
    """Both networks: each as a file that the program reads itself, or both read here."""
    files = (found.old, found.new)
    old, new = map(of_file, files)
    if isinstance(old.text, pathlib.Path) != isinstance(new.text, pathlib.Path):
        old, new = (of_file(file, format_of(file, read_text(file)) or "adjlist") for file in files)
    return old, new


def two_plans(found: argparse.Namespace) -> tuple[Plan, Plan]:
    """The plans of both networks, numbered as the words say: with `keep` the new one has the labels of the old one."""
    root = None if found.root is None else calls.names_of(found.old).node(found.root)
    if found.numbering == "keep":
        keeper = Relabeller(found.kind, root=root)
        old = keeper.made(found.old, None)
        return old, keeper.made(found.new, sorted(old.nodes, key=old.labels.__getitem__))
    numbered = () if found.numbering is None else ("--numbering", found.numbering)
    given = {"landmarks": found.landmarks, "stretch": found.stretch, "words": numbered}
    return calls.plan(found.old, found.kind, root, **given), calls.plan(found.new, found.kind, root, **given)
