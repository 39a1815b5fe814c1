"""The rows of a sweep on disk: lines of JSON after a head, which any engine goes on with."""
from __future__ import annotations

import errno
import json
import os
from typing import Any, Dict, List, Optional, Set, Tuple

from .errors import ResultsError

try:
    import fcntl
except ImportError:  # not Unix
    fcntl = None  # type: ignore[assignment]

Line = Dict[str, Any]
WRITTEN: Set[Tuple[int, int]] = set()  # the files that sweeps of this process write, by device and number


def line_of(value: Any) -> bytes:
    return json.dumps(value, ensure_ascii=True, separators=(",", ":")).encode("ascii") + b"\n"


def read_lines(path: str, data: bytes) -> Tuple[Line, List[Line]]:
    """The head and the rows of a file of results, without a last line that was torn.

    Raises
    ------
    ResultsError
        where it is no file of a sweep, or a line in it is no row
    """
    lines = data[: data.rfind(b"\n") + 1].splitlines()
    found: List[Line] = []
    for at, line in enumerate(lines, 1):
        try:
            value = json.loads(line)
        except ValueError:
            value = None
        if not isinstance(value, dict) or ("sweep" if at == 1 else "failure") not in value:
            raise ResultsError(
                f"{path} is not a file of a sweep: give another file" if at == 1
                else f"line {at} of {path} is not a row of a sweep: remove it, and its failure is computed again"
            )
        found.append(value)
    if not found:
        raise ResultsError(f"{path} does not begin as a file of a sweep: give another file")
    return found[0], found[1:]


class Results:
    """The file of a sweep that is under way; with the path None there is no file, and rows are kept in memory alone.

    A torn last line, as of a run that was killed, is cut off. What is written goes to the system at once, so a run that is killed
    loses no row that it wrote.
    """

    def __init__(self, path: "Optional[os.PathLike[str] | str]", head: Line) -> None:
        self.path = None if path is None else os.fspath(path)
        self.found: List[Line] = []
        self.file: Optional[int] = None
        self.locked: Optional[Tuple[int, int]] = None
        if self.path is None:
            return
        try:
            self.file = os.open(self.path, os.O_RDWR | os.O_CREAT | os.O_APPEND | getattr(os, "O_BINARY", 0), 0o666)
        except OSError as error:
            raise ResultsError(f"{self.path} can't be opened for writing: {error.strerror}") from error
        try:
            self.lock()
            self.begin(head)
        except OSError as error:
            self.close()
            raise ResultsError(f"{self.path} can't be written: {error.strerror}") from error
        except BaseException:
            self.close()
            raise

    def lock(self) -> None:
        """Keeps other sweeps from the file, of this process and, where the system can, of others. Workers that are forked hold no lock,
        so a run that is killed leaves none."""
        assert self.file is not None
        there = os.fstat(self.file)
        if (there.st_dev, there.st_ino) in WRITTEN:
            raise ResultsError(f"another sweep is writing {self.path}: wait for it, or give another file")
        if fcntl is not None:
            try:
                fcntl.lockf(self.file, fcntl.LOCK_EX | fcntl.LOCK_NB)
            except OSError as error:
                if error.errno in (errno.EACCES, errno.EAGAIN):
                    raise ResultsError(f"another sweep is writing {self.path}: wait for it, or give another file") from None
        self.locked = (there.st_dev, there.st_ino)
        WRITTEN.add(self.locked)

    def begin(self, head: Line) -> None:
        """Reads what is there, and writes the head where nothing is."""
        assert self.file is not None and self.path is not None
        data = b"".join(iter(lambda: os.read(self.file or 0, 1 << 20), b""))  # another opening would give the lock back when it closes
        whole = data.rfind(b"\n") + 1
        if whole == 0 and line_of(head).startswith(data):  # empty, or killed while the head was written
            os.ftruncate(self.file, 0)
            self.write(line_of(head))
            return
        there, self.found = read_lines(self.path, data)
        if there["sweep"] != head["sweep"]:
            raise ResultsError(
                f"{self.path} has the rows of another sweep ({described(there)}; this one is {described(head)}): give another file"
            )
        os.ftruncate(self.file, whole)

    def write(self, data: bytes) -> None:
        assert self.file is not None
        while data:
            data = data[os.write(self.file, data) :]

    def add(self, lines: List[Line]) -> None:
        """Adds rows at the end.

        Raises
        ------
        ResultsError
            where the system can't take them, as on a full disk
        """
        if self.file is None:
            return
        try:
            self.write(b"".join(map(line_of, lines)))
        except OSError as error:
            raise ResultsError(f"{self.path} can't be written: {error.strerror}") from error

    def close(self) -> None:
        if self.file is not None:
            os.close(self.file)
            self.file = None
        if self.locked is not None:
            WRITTEN.discard(self.locked)
            self.locked = None


def described(head: Line) -> str:
    """What a head says of its sweep."""
    def said(name: str) -> str:
        return str(head.get(name, "?"))

    return (
        f"kind {' '.join([said('kind'), *head.get('detour', '').split()])}, numbering {said('numbering')}, root {said('root')}, {said('nodes')} nodes and {said('links')} links, "
        f"version {said('version')}, sum {said('sweep')[:8]}"
    )
