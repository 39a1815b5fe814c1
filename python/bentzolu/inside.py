"""The library for C in this process: what `bentzolu` answers, where no program need be started.

It is the library of the variable BENTZOLU_LIBRARY; where that is not set it is `libbentzolu.so` beside this file, as a wheel
brings it, or `libbentzolu.so.1` of the system. An empty variable means none.
"""
from __future__ import annotations

import ctypes
import os
import pathlib
import threading
from typing import Any, Sequence

from .errors import ProgramNotFoundError
from .typed import Shown, Texts

VARIABLE = "BENTZOLU_LIBRARY"
BESIDE = pathlib.Path(__file__).resolve().parent / "libbentzolu.so"
OF_SYSTEM = "libbentzolu.so.1"
SUBCOMMANDS = ("plan", "walk", "stats", "compare", "diff", "draw", "prefixes", "ranges", "xdp", "sim", "check")
KEPT = ("keep", "keep,tour", "keep,depth-first")  # what names labels that are kept
KEEPING = ("diff", "sim", "check")  # the subcommands that keep them
OWN_TEXT = ("-h", "--help", "-V", "--version")  # words whose text the library gives as faults
FIRST_ROOM, FAULT_ROOM = 1 << 20, 1 << 14


class Lengths(ctypes.Structure):
    """How long the output and the faults are."""

    output: int
    faults: int
    _fields_ = [("output", ctypes.c_size_t), ("faults", ctypes.c_size_t)]


class Library:
    """A library that was loaded. Calls from several threads do not wait for each other."""

    def __init__(self, path: str | os.PathLike[str]) -> None:
        self.path = os.fspath(path)
        self.call = ctypes.CDLL(self.path).bentzolu_run
        self.call.restype = ctypes.c_uint32
        text, room = [ctypes.c_char_p, ctypes.c_size_t], [ctypes.c_void_p, ctypes.c_size_t]
        self.call.argtypes = [*text * 4, *room * 2, ctypes.POINTER(Lengths)]
        self.rooms = threading.local()

    def room(self, name: str, size: int) -> Any:
        """A room of this thread with so many bytes or more."""
        room = getattr(self.rooms, name, None)
        if room is None or len(room) < size:
            room = ctypes.create_string_buffer(size)
            setattr(self.rooms, name, room)
        return room

    def answer(self, words: Sequence[str], texts: Sequence[bytes]) -> tuple[int, bytes, bytes]:
        """The status, the output and the faults, as bytes, of words over up to three texts of bytes."""
        asked = ["".join(word + "\n" for word in words).encode("utf-8"), *texts, b"", b"", b""][:4]
        given: list[bytes | int] = []
        for text in asked:
            given += [text, len(text)]
        lengths, status = Lengths(FIRST_ROOM, FAULT_ROOM), 0
        output: Any = b""
        faults: Any = b""
        while lengths.output > len(output) or lengths.faults > len(faults):
            output, faults = self.room("output", lengths.output), self.room("faults", lengths.faults)
            status = self.call(*given, output, len(output), faults, len(faults), lengths)
        return status, ctypes.string_at(output, lengths.output), ctypes.string_at(faults, lengths.faults)


loaded: dict[str | None, Library | None] = {}  # by what the variable says


def place() -> str | os.PathLike[str]:
    """Where the library would be; empty for none."""
    wanted = os.environ.get(VARIABLE)
    if wanted is not None:
        return wanted
    return BESIDE if BESIDE.exists() else OF_SYSTEM


def library() -> Library | None:
    """The library, or None where there is none. One that is named by the variable has to be there."""
    wanted = os.environ.get(VARIABLE)
    if wanted not in loaded:
        try:
            loaded[wanted] = Library(place()) if place() else None
        except OSError as error:
            if wanted:
                raise ProgramNotFoundError(f"the library {wanted}, named by {VARIABLE}, can't be loaded: {error}") from error
            loaded[wanted] = None
    return loaded[wanted]


def is_chosen(program: str | os.PathLike[str] | None, timeout: float | None) -> bool:
    """Whether a call is made in this process: nothing asks for a program, or the variable asks for the library. A call can't
    be stopped here, so one with a limit of time goes to the program."""
    if program is not None or timeout is not None:
        return False
    return VARIABLE in os.environ or not os.environ.get("BENTZOLU_ROUTE")


def orders(words: Sequence[str]) -> list[str]:
    """What words of `--numbering` or `-n` name: `depth-first`, `tour`, labels that are kept, or the file of an order."""
    found: list[str] = []
    for word, after in zip(words, [*words[1:], ""]):
        for option in ("--numbering", "-n"):
            if word == option:
                found.append(after)
            elif word.startswith(option + "=") or option == "-n" and word.startswith(option):
                found.append(word[len(option):].removeprefix("="))
    return found


def order_of(words: Sequence[str]) -> str | None:
    """The file of an order of nodes that words name; None where they name none, as those of `diff`, which takes no file."""
    if words[:1] == ["diff"]:
        return None
    own = ("depth-first", "tour", *(KEPT if words[0] in KEEPING else ()))
    return next((it for it in orders(words) if it not in own), None)


def takes(words: Sequence[str], texts: Texts) -> bool:
    """Whether the library answers these words over these texts as the program does. It starts no thread, so `live` is the
    program's. It reads no file and no standard input, so these are read here; and what names several orders of nodes, or one
    beside a script, the program refuses."""
    if words[0] not in SUBCOMMANDS or any(word in OWN_TEXT or "\n" in word for word in words):
        return False
    if order_of(words) is not None and (len(orders(words)) > 1 or len(texts) != 1 or order_of(words) in ("", "-")):
        return False
    return all(str(text) != "-" and "\n" not in str(text) for _, text in texts if isinstance(text, pathlib.Path))


def answered(words: Sequence[str], texts: Texts, shown: Shown) -> tuple[int, bytes, bytes] | None:
    """The status, the output and the faults of words over texts, as `program.run` takes them, by the library; None where it
    does not take them, or a file can't be read, which the program reports. `shown` gets the name of each text by its file."""
    found = library() if takes(words, texts) else None
    files: list[str] = []
    given: list[bytes] = []
    if found is None:
        return None
    try:
        for name, text in texts:
            given.append(text.read_bytes() if isinstance(text, pathlib.Path) else text.encode("utf-8"))
            files.append(str(text) if isinstance(text, pathlib.Path) else f"/bentzolu/{name}")
        order = order_of(words)
        if order is not None:  # the library takes it as the text after the topology
            given.append(pathlib.Path(order).read_bytes())
        answer = found.answer([*words, "--", *files], given)
    except (OSError, UnicodeEncodeError):
        return None
    for file, (name, text) in zip(files, texts):
        if not isinstance(text, pathlib.Path):
            shown[file] = f"the {name}"
    return answer
