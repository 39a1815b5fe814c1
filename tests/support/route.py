"""Drives the built program as a user does, and compares what it prints."""
from __future__ import annotations

import contextlib
import os
import pwd
import shutil
import subprocess
import termios
import threading
from typing import Any, Dict, IO, List, Optional, Sequence, Tuple, Union

from support.checks import count, skip
from support import places, printed
from support.limits import SECONDS
from support.places import program, work

Words = Sequence[Union[str, bytes]]
Got = Tuple[bytes, bytes, Union[int, str]]  # output, faults and status, which is `hangs` where a run did not end

# The subcommands, each with the texts that it takes; `compare`, which takes few of their options, and `diff` have tests of their own.
TEXTS = {"plan": 1, "walk": 1, "stats": 1, "draw": 1, "prefixes": 1, "ranges": 1, "sim": 2, "live": 2, "check": 3}
NAMES = ["topology", "script", "trace"]

ANY = object()  # any text
SOME = object()  # any text that is not empty


def run(words: Words, data: bytes = b"", seconds: int = SECONDS, program: Optional[str] = None, **more: Any) -> Got:
    """Standard output, standard error and status of the program; the status is `hangs` where it did not end in time."""
    more.setdefault("cwd", work())
    more.setdefault("stdout", subprocess.PIPE)
    more.setdefault("stderr", subprocess.PIPE)
    if "stdin" not in more:
        more["input"] = data
    try:
        done = subprocess.run([program or places.program(), *words], timeout=seconds, **more)
    except subprocess.TimeoutExpired:
        return b"", b"", "hangs"
    printed.keep(done.stderr or b"")
    return done.stdout or b"", done.stderr or b"", done.returncode


def output_of(process: "subprocess.Popen[bytes]") -> IO[bytes]:
    """The pipe from which the output of a process is read."""
    assert process.stdout is not None
    return process.stdout


def faults_of(process: "subprocess.Popen[bytes]") -> IO[bytes]:
    """The pipe from which the faults of a process are read."""
    assert process.stderr is not None
    return process.stderr


def input_of(process: "subprocess.Popen[bytes]") -> IO[bytes]:
    """The pipe to which the input of a process is written."""
    assert process.stdin is not None
    return process.stdin


class Terminal:
    """A terminal that passes each byte on as it is and echoes none; what is written to its end is read in a thread."""

    def __init__(self) -> None:
        self.master, self.end = os.openpty()
        modes = termios.tcgetattr(self.end)
        modes[1] &= ~termios.OPOST
        modes[3] &= ~termios.ECHO
        termios.tcsetattr(self.end, termios.TCSANOW, modes)
        self.written = b""
        self.reader = threading.Thread(target=self.read, daemon=True)
        self.reader.start()

    def read(self) -> None:
        with contextlib.suppress(OSError):  # so it is told that its end is closed
            while True:
                self.written += os.read(self.master, 65_536)

    def close(self) -> bytes:
        """All that was written to it."""
        os.close(self.end)
        self.reader.join(SECONDS)
        os.close(self.master)
        return self.written


def on_terminal(words: Words, data: bytes = b"", streams: Sequence[str] = ("stderr",), **more: Any) -> Got:
    """The same as `run` with these streams on one terminal; what two of them write is together in place of the first."""
    terminal = Terminal()
    if "stdin" in streams:
        os.write(terminal.master, data)
    more.update({stream: terminal.end for stream in streams})
    output, faults, status = run(words, data, **more)
    written = terminal.close()
    printed.keep(written)
    output = written if "stdout" in streams else output
    faults = written if "stderr" in streams and "stdout" not in streams else faults
    return output, faults, status


def brief(text: object) -> str:
    """A text in quotes, cut in the middle where it is long."""
    return repr(text if not isinstance(text, bytes) or len(text) <= 200 else text[:140] + b" .. " + text[-60:])


def differs(got: Got, want: Sequence[object]) -> Optional[str]:
    """What of an output, the faults and a status is not what was wanted."""
    for what, one, other in zip(("output", "faults", "status"), got, want):
        if other is ANY or (other is SOME and one) or one == other:
            continue
        if what == "status":
            return f"status {one!r} in place of {other!r}, faults {brief(got[1])}"
        return f"{what} {brief(one)} in place of {'some' if other is SOME else brief(other)}"
    return None


def expect(name: str, got: Got, output: object, faults: object, status: object) -> None:
    """Checks the output, the faults and the status of a run; `ANY` and `SOME` stand for texts."""
    count(name, differs(got, (output, faults, status)))


def alike(name: str, got: Got, want: Got) -> None:
    """Checks that a run gives what another one gave."""
    expect(name, got, want[0], want[1], want[2])


def refused(name: str, got: Got, line: str, status: int = 1) -> None:
    """One line on standard error, nothing on standard output."""
    expect(name, got, b"", line.encode() + b"\n", status)


def put(name: str, text: Union[str, bytes]) -> str:
    """A file of the working folder, by its name there."""
    path = work(name)
    os.makedirs(os.path.dirname(path), exist_ok=True)
    with open(path, "wb") as file:
        file.write(text if isinstance(text, bytes) else text.encode())
    return name


def call(sub: str, files: Sequence[str], *options: str) -> List[str]:
    """The words of a subcommand; a walk goes from a to b where nothing else is said."""
    ends = ["--from", "a", "--to", "b"] if sub == "walk" and "--from" not in options else []
    return [sub, *options, *ends, *files]


def good_files() -> None:
    """Small texts that have no fault, in the folder `good`."""
    put("good/topology", "a b\nb c\n")
    put("good/script", "inject a c\ndrain\n")
    put("good/trace", "trace 1\n0 1 a c 2 delivered a b c\n")


def as_nobody() -> Optional[Dict[str, Any]]:
    """How to run the program without leave to read a file: by another user where this one is root."""
    if os.geteuid() != 0:
        return {}
    try:
        user = pwd.getpwnam("nobody")
        ids = user.pw_uid, user.pw_gid
    except KeyError:
        ids = 65534, 65534
    own = work("route-of-nobody")
    shutil.copy(program(), own)
    os.chmod(own, 0o755)

    def leave() -> None:
        os.setgroups([])
        os.setgid(ids[1])
        os.setuid(ids[0])

    more: Dict[str, Any] = {"program": own, "preexec_fn": leave}
    try:
        got = run(call("plan", ["good/topology"]), **more)
    except (OSError, subprocess.SubprocessError) as error:
        got = b"", str(error).encode(), "no start"
    if got[2] != 0:
        skip("files without leave to read", f"this user is root and cannot run as nobody: {brief(got[1])}")
        return None
    return more


def every_call() -> List[List[str]]:
    """The words of each subcommand over good files."""
    good_files()
    return [*(call(sub, [f"good/{name}" for name in NAMES[:parts]]) for sub, parts in TEXTS.items()), ["compare", "good/topology"],
            ["diff", "good/topology", "good/topology"]]
