"""What can go wrong, as exceptions."""
from __future__ import annotations

import re
from typing import Any, Optional


class BentzoluError(Exception):
    """Any error of this package."""


class UnknownNodeError(BentzoluError, ValueError):
    """A node or a name that the graph does not have."""


class DirectedGraphError(BentzoluError, TypeError):
    """A directed graph; the program has no directed links."""


class MultigraphError(BentzoluError, TypeError):
    """A graph with several edges between two nodes; the program has one link between two nodes."""


class GraphError(BentzoluError, TypeError):
    """What was given for a graph is neither a graph of NetworkX, nor a path, nor a list of edges."""


class WeightError(BentzoluError, ValueError):
    """A weight that is not a whole number from 1 to 65,535; the text says how to scale."""


class StepError(BentzoluError, ValueError):
    """A step that is no line of a script."""


class ProgramNotFoundError(BentzoluError, FileNotFoundError):
    """There is no program `bentzolu` where one was looked for."""


class FormatError(BentzoluError, ValueError):
    """A text that is not what its format asks for: `line` is the number of its line, or None."""

    def __init__(self, message: str, line: int | None = None) -> None:
        super().__init__(message if line is None else f"line {line}: {message}")
        self.line = line


class MissingPackageError(BentzoluError, ImportError):
    """A package that a call needs is not installed; the text says how to get it."""


class FailureError(BentzoluError, ValueError):
    """A failure of a sweep that is neither a link nor a node of the network, nor several of these."""


class SweepError(BentzoluError):
    """A sweep that ended before its last row. `rows` has what was made, as a `Sweep`, so nothing is lost."""

    def __init__(self, message: str, rows: Optional[Any] = None) -> None:
        super().__init__(message)
        self.rows = rows


class ResultsError(SweepError):
    """A file of results that can't be used: it is another sweep's, it is no file of a sweep, or it can't be written."""


class TopologyWarning(UserWarning):
    """A file of a network looks like one of another format than it was read in, or was changed as it was read."""


class RouteError(BentzoluError):
    """The program ended with a status above 0.

    `status` is the exit status: 1 a refused input, 2 words that were not understood, 3 no memory or no thread. `text` is
    what was on standard error. `about` is `topology`, `new`, `script`, `trace`, `numbering`, `opening`, `input`, `output`
    or None; `kind` is the name of the fault, as `BadWeight` or `Disconnected`; `line` is the number of the faulty line, or
    None, and `content` what is there. `sentence` says what is wrong, with the graph's own nodes, where the program
    has a sentence for it; else it is None.
    """

    def __init__(self, status: int, text: str, content: str | None = None, sentence: str | None = None) -> None:
        self.status = status
        self.text = text
        self.about, self.line, self.kind = fault_of(status, text)
        self.content = content
        self.sentence = sentence
        said = text.strip() or f"status {status}"
        if sentence:
            said = next(iter(text.strip().splitlines()), f"status {status}")
        said = said if content is None else f"{said} ({content})"
        super().__init__(f"{said}: {sentence}" if sentence else said)


FAULT = re.compile(r"(?:route: )?(topology|new|script|trace|numbering) ([0-9]+) ([A-Za-z]+)")
OPENING = re.compile(r"(?:route: )?(opening|new) ([A-Z][A-Za-z]+)")
UNREAD = re.compile(r"(?:route: )?(topology|new|script|trace|numbering|input|output) (unreadable|too large|unwritable)")
LAST = {"out of memory": "NoMemory", "no thread": "NoThread"}


def fault_of(status: int, text: str) -> tuple[str | None, int | None, str]:
    """What a fault is about, its line and its kind, of the text on standard error."""
    for line in text.splitlines():
        if found := FAULT.match(line):
            return found[1], int(found[2]), found[3]
        if found := OPENING.match(line):
            return found[1], None, found[2]
        if found := UNREAD.match(line):
            return found[1], None, found[2]
        for said, kind in LAST.items():
            if line.startswith(said):
                return None, None, kind
    return None, None, "usage" if status == 2 else "unknown"
