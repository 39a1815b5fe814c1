"""What the program says of faults and on terminals, as several tests want it."""
from __future__ import annotations

import contextlib
import re
import resource
import subprocess
import time
from typing import Any, Iterator, List, Tuple

from support.limits import CAPACITY, PACKETS, PATIENCE, RESTAMPS, SECONDS, THREADS
from support.places import program, work
from support.route import NAMES, TEXTS, Terminal, Words, call, expect, input_of, on_terminal, put, run


def wrong_words() -> Iterator[Words]:
    """Words that are not understood."""
    yield from (["frob"], ["--frob"], ["plan", "--frob", "-"], ["help", "frob"], ["Plan", "-"])
    for sub, parts in TEXTS.items():
        for number in range(5):
            if number != parts:
                yield call(sub, [f"good/{NAMES[i % 3]}" for i in range(number)])
        yield call(sub, ["-"], "--frob")
        if parts > 1:
            yield from (call(sub, ["-"] + ["good/script"] * (n - 1)) for n in range(2, parts + 1))
            yield call(sub, ["good/topology"] * (parts - 1) + ["-"])
        for option, words in (
            ("--capacity", ["0", str(CAPACITY + 1), "-1", "x", "", "99999999999999999999"] if parts > 1 else ["16", str(CAPACITY)]),
            ("--packets", ["0", str(PACKETS + 1), "65536", "x"] if parts > 1 else ["4", str(PACKETS)]),
            ("--kind", ["best", "Tree", ""]),
            ("-k", ["best", "Tree", ""]),
            ("--format", ["json", ""]),
            ("-f", ["json", ""]),
            ("-n", ["tree"] if parts > 1 else ["-"]),
            ("--restamps", [str(RESTAMPS + 1), "-1", "x"] if parts == 2 else ["1"]),
            ("--threads", ["0", str(THREADS + 1), "-1", "x"] if parts == 1 else ["1"]),
            ("--landmarks", ["0", "65536", "-1", "x", ""]),
            ("--stretch", ["99", "301", "-1", "x", ""]),
        ):
            yield from (call(sub, ["-"], option, word) for word in words)
        yield from (call(sub, ["-"], option) for option in ("--root", "-r", "-n", "-f", "-k", "-o", "--output"))
        yield from (call(sub, ["-"], option, "tree", "--kind", "tree") for option in ("--kind", "-k"))
        yield from (call(sub, ["-"], option, "-", "--output", "-") for option in ("--output", "-o"))
        yield from (call(sub, ["-"], flag, flag) for flag in ("--quiet", "--json"))
        yield from (call(sub, ["-"], flag) for flag in ("-q", "-j", "-c", "-p", "-t", "--quiet=1", "--json=1", "--svg"))
        if sub != "draw":
            yield call(sub, ["-"], "--node", "a")
            yield call(sub, ["-"], "--node", "a", "--svg")
    yield from (["walk", "-"], ["walk", "--from", "a", "-"], ["walk", "--to", "a", "-"])
    yield from (["draw", "--from", "a", "-"], ["draw", "--to", "a", "-"], ["plan", "--from", "a", "--to", "b", "-"])
    yield from (["draw", "--json", "-"], ["draw", "--svg", "-"], ["draw", "--node", "-"], ["draw", "--svg", "--from", "a", "--to", "b", "-"])
    yield from (["check", "--whole", "1", "-"], ["check", "--whole", "--whole", "-"], ["check", "--wholes", "-"])
    yield from ([*call(sub, ["-"]), "--whole"] for sub in TEXTS if sub != "check")
    yield from (["ranges", "--disjoint", "-"], ["ranges", "--order", "-"], ["sim", "--order", "-"], ["plan", "--order", "1", "-"])
    yield from (["plan", "--disjoint", "-"], ["prefixes", "--disjoint", "1", "-"], ["prefixes", "--from", "a", "--to", "b", "-"])
    yield from (["stats", "--with", word, "-"] for word in ("best", "", ",a", "Tree", "tree "))
    yield from ([sub, "--with", "tree", "-"] for sub in TEXTS if sub != "stats")
    yield from (["stats", "-", "--with"], ["stats", "--with", "tree", "--with", "tree", "-"])
    for sub in TEXTS:  # how far landmark plans go round, where none is made
        if TEXTS[sub] == 1:
            yield from (call(sub, ["-"], *words) for words in (["--landmarks", "2"], ["--stretch", "200"], ["--landmarks", "2", "--kind", "compact"]))
            yield from (call(sub, ["-"], "--kind", "landmark", "--numbering", order) for order in ("tour", "order", "-"))
        yield from (call(sub, ["-"], "--kind", "landmark", option, "2", option, "2") for option in ("--landmarks", "--stretch"))
        yield from (call(sub, ["-"], "--kind", "landmark", option) for option in ("--landmarks", "--stretch"))
    yield from (call(sub, ["-"], "--kind", "landmark", "--numbering", "tour") for sub in ("sim", "live", "check"))
    yield from (["plan", "--to", "a", "-"], ["stats", "--from", "a", "-"], ["prefixes", "--to", "a", "-"], ["plan", "--depth", "1", "-"])


OK_SAID = "{}: hops and weights follow the plans; injects, causes of drops and missing rows are not checked (--whole checks the first two)"


def explained_as(name: str, words_: List[str], line: str, sentence: str, output: bytes = b"", status: int = 1,
                 data: bytes = b"", **more: Any) -> None:
    """A fault without sentences, with them, and with the word that takes them back, and where standard error is a terminal
    with and without that word; a finding stands on standard output."""
    told = line.encode() + b"\n" if line else b""
    faults = b"" if output else told
    said = "".join(f"route: {row}\n" for row in sentence.split("\n") if row).encode()
    expect(f"{name}, not explained", run(words_, data, **more), output, faults, status)
    expect(f"{name}, explained", run([words_[0], "--explain", *words_[1:]], data, **more), output, faults + said, status)
    without = [words_[0], "--explain", "--no-explain", *words_[1:]]
    expect(f"{name}, --no-explain", run(without, data, **more), output, faults, status)
    expect(f"{name}, on a terminal", on_terminal(words_, data, **more), output, faults + said, status)
    without = [words_[0], "--no-explain", *words_[1:]]
    expect(f"{name}, on a terminal, --no-explain", on_terminal(without, data, **more), output, faults, status)


def said_of(sub: str, words_: List[str]) -> bytes:
    """The sentences of a run without a fault: `check` says what it has not checked."""
    return f"route: {OK_SAID.format(words_[-1])}\n".encode() if sub == "check" else b""


NO_WORDS = b"route: reading a topology and a script from standard input, with a line %% between them; see route --help\n"


def after_patience(words_: List[str], data: bytes, limit: int = resource.RLIM_INFINITY) -> Tuple[bytes, bytes, int, int]:
    """Output, what a terminal was told, and status, where the input comes once the program has run for longer than a second; and the
    most memory that it had, in bytes, of at most so many."""
    terminal, most = Terminal(), 0
    with open(work(put("progress/output", "")), "wb+") as out:
        process = subprocess.Popen([program(), *words_], cwd=work(), stdin=subprocess.PIPE, stdout=out, stderr=terminal.end,
                                   preexec_fn=lambda: resource.setrlimit(resource.RLIMIT_AS, (limit, limit)))
        time.sleep(PATIENCE + 0.2)
        with contextlib.suppress(BrokenPipeError):
            input_of(process).write(data)
            input_of(process).close()
        begun = time.monotonic()
        while process.poll() is None and time.monotonic() - begun < SECONDS:
            with contextlib.suppress(OSError, IndexError), open(f"/proc/{process.pid}/status", encoding="ascii") as file:
                most = max(most, int(re.findall(r"VmPeak:\s*(\d+) kB", file.read())[0]) * 1_024)
            time.sleep(0.001)
        if process.poll() is None:
            process.kill()
        out.seek(0)
        return out.read(), terminal.close(), process.wait(), most
