"""Outputs: those that can't be written, in parts, to files, and with no words on standard error."""
from __future__ import annotations

import contextlib
import itertools
import os
import pwd
import random
import resource
import shutil
import signal
import stat
import subprocess
import time
from typing import Dict, List, Optional, Tuple

from support.checks import count
from support.limits import CAPACITY, PACKETS, PART_BYTES, SECONDS
from support.marks import built
from support.networks import ring
from support.places import program, work
from support.route import (
    NAMES, SOME, TEXTS, alike, as_nobody, brief, call, every_call, expect, faults_of, good_files,
    input_of, on_terminal, output_of, put, refused, run,
)
from support.saying import after_patience

pytestmark = [built]


def test_outputs() -> None:
    good_files()
    lines = [call(sub, [f"good/{name}" for name in NAMES[:parts]]) for sub, parts in TEXTS.items()]
    unwritable = b"", b"output unwritable\n", 1
    for line in [*lines, ["--help"], ["--version"], ["plan", "--help"]]:
        with open("/dev/full", "wb") as full:
            alike(f"{line} to /dev/full", run(line, stdout=full), unwritable)
        alike(f"{line} to a closed output", run(line, stdout=None, preexec_fn=lambda: os.close(1)), unwritable)
    topology, script = ring(64, PACKETS, 64)
    files = [put("long/topology", topology), put("long/script", script)]
    for sub, at in itertools.product(("sim", "live"), (signal.SIG_DFL, signal.SIG_IGN)):
        closed_pipe(sub, files, at)
    put("good/again", "inject a c\ndrain\nretire 1\n")
    put("good/missing-node", "inject a z\n")
    again = ["good/topology", "good/again"]
    told = [*lines, call("sim", again), call("live", again), call("plan", ["good/missing"]), ["frob"], ["plan"],
            call("sim", ["good/topology", "good/missing-node"])]
    for line in told:
        output, _, status = run(line)
        with open("/dev/full", "wb") as full:
            expect(f"{line} with full faults", run(line, stderr=full), output, b"", status)
        expect(f"{line} with closed faults", run(line, stderr=None, preexec_fn=lambda: os.close(2)), output, b"", status)


def closed_pipe(sub: str, files: List[str], at: signal.Handlers) -> None:
    """A reader that takes one line and goes away: the program ends, and reports it by its status alone."""
    name = f"{sub} into a pipe that is closed, with SIGPIPE {at.name}"
    process = subprocess.Popen([program(), *call(sub, files, "--capacity", str(CAPACITY))], cwd=work(), stdin=subprocess.DEVNULL,
                               stdout=subprocess.PIPE, stderr=subprocess.PIPE, restore_signals=False,
                               preexec_fn=lambda: signal.signal(signal.SIGPIPE, at))
    line = output_of(process).readline()
    output_of(process).close()
    try:
        faults = faults_of(process).read()
        status = process.wait(SECONDS)
    except subprocess.TimeoutExpired:
        process.kill()
        faults, status = b"", "hangs"  # type: ignore[assignment]
    expect(name, (line, faults, status), b"trace 1\n", b"", 1)


def test_parted() -> None:
    """The text of a plan, longer than two of the parts that it is written in: whole, to a reader that takes little at a time, and
    to a file that may have no more than one part."""
    stem = "a_name_of_almost_as_many_bytes_as_a_name_may_have_"
    names = [f"{stem}{u}" for u in range(200)]
    complete = put("long/complete", "".join(" ".join(names[u:]) + "\n" for u in range(len(names))))
    rows = [" ".join([name, str(u), *(f"{v} {other}" for v, other in enumerate(names) if v != u)]) for u, name in enumerate(names)]
    want = "".join(f"{line}\n" for line in [f"plan shortest {len(names)} {len(names) * (len(names) - 1)}", *rows]).encode()
    count("a plan of more than two parts", None if len(want) > 2 * PART_BYTES else f"it has {len(want)} bytes")
    expect("a plan in parts", run(["plan", complete]), want, b"", 0)
    process = subprocess.Popen([program(), "plan", complete], cwd=work(), stdin=subprocess.DEVNULL, stdout=subprocess.PIPE, bufsize=0)
    taken = b"".join(iter(lambda: output_of(process).read(1_000), b""))
    expect("a plan in parts of which little is taken", (taken, b"", process.wait(SECONDS)), want, b"", 0)

    def leave() -> None:
        signal.signal(signal.SIGXFSZ, signal.SIG_IGN)
        resource.setrlimit(resource.RLIMIT_FSIZE, (PART_BYTES, PART_BYTES))

    with open(work("long/part"), "wb") as file:
        got = run(["plan", complete], stdout=file, restore_signals=False, preexec_fn=leave)
    with open(work("long/part"), "rb") as file:  # type: ignore[assignment]
        expect("a plan whose second part is refused", (file.read(), *got[1:]), want[:PART_BYTES], b"output unwritable\n", 1)


def to_file(words_: List[str], place: str = "kept/file") -> List[str]:
    return [words_[0], "-o", place, *words_[1:]]


def fresh(text: Optional[bytes] = None) -> str:
    """The folder of an output's file, with this text in the file or with no file."""
    folder = work("kept")
    shutil.rmtree(folder, ignore_errors=True)
    os.makedirs(folder)
    if text is not None:
        put("kept/file", text)
    return folder


def stands(name: str, *files: Tuple[str, bytes]) -> None:
    """The folder of an output's file has these files and texts, and no other."""
    folder = work("kept")
    found: Dict[str, bytes] = {}
    for file in os.listdir(folder):
        with open(os.path.join(folder, file), "rb") as opened:
            found[file] = opened.read()
    count(name, None if found == dict(files) else f"there are {sorted((file, brief(text)) for file, text in found.items())}")


def test_kept() -> None:
    """Outputs to files: whole or not at all."""
    for words_ in every_call():
        output, faults, status = run(words_)
        for before in (None, b"before\n", output * 3):
            fresh(before)
            expect(f"{words_} to a file", run(to_file(words_)), b"", faults, status)
            stands(f"what {words_} wrote", ("file", output))
        expect(f"{words_} to -", run(to_file(words_, "-")), output, faults, status)
        fresh()
        expect(f"{words_}, --output=FILE behind its files", run([*words_, "--output=kept/file"]), b"", faults, status)
        stands(f"what {words_} wrote behind its files", ("file", output))


def test_kept_places() -> None:
    """Where a file is, what it may be done with, and what is beside it."""
    good_files()
    plan = ["plan", "good/topology"]
    output = run(plan)[0]
    file = os.path.join(fresh(), "file")
    run(to_file(plan), preexec_fn=lambda: os.umask(0o027))
    count("what a new file may be", None if stat.S_IMODE(os.stat(file).st_mode) == 0o640 else oct(os.stat(file).st_mode))
    for mode in (0o600, 0o644, 0o777):
        os.chmod(file, mode)
        expect(f"a file of mode {mode:o}", run(to_file(plan)), b"", b"", 0)
        count("what it may be then", None if stat.S_IMODE(os.stat(file).st_mode) == mode else oct(os.stat(file).st_mode))
    fresh(b"before\n")
    os.makedirs(work("kept-links"), exist_ok=True)
    link = work("kept-links/link")
    with contextlib.suppress(FileNotFoundError):
        os.remove(link)
    os.symlink("../kept/file", link)
    expect("a link", run(to_file(plan, "kept-links/link")), b"", b"", 0)
    stands("what it leads to", ("file", output))
    count("the link", None if os.path.islink(link) and os.listdir(os.path.dirname(link)) == ["link"] else "it is no link")
    fresh(b"before\n")
    for name in ("file.part-1", "file.part-2"):
        put(f"kept/{name}", name)
    expect("names that are taken", run(to_file(plan)), b"", b"", 0)
    stands("the files of those names", ("file", output), ("file.part-1", b"file.part-1"), ("file.part-2", b"file.part-2"))
    fresh(b"a b\nb c\n")
    expect("the input as the output", run(["plan", "-o", "kept/file", "kept/file"]), b"", b"", 0)
    stands("the input as the output", ("file", run(plan)[0]))
    fresh()
    expect("an absolute name", run(to_file(plan, work("kept/file"))), b"", b"", 0)
    stands("an absolute name", ("file", output))
    expect("a name in the folder", run(to_file(["plan", "../good/topology"], "-file"), cwd=work("kept")), b"", SOME, 2)
    expect("a name in the folder", run(["plan", "--output=-file", "../good/topology"], cwd=work("kept")), b"", b"", 0)
    stands("a name that begins with -", ("file", output), ("-file", output))


def test_kept_not_at_all() -> None:
    """Runs that are refused, and files that can't be written, leave all as it was."""
    good_files()
    put("good/bad", "\x01\n")
    put("good/away", "inject a z\n")
    for words_ in (["plan", "good/missing"], ["plan", "good/bad"], ["plan", "--root", "z", "good/topology"], ["compare", "good/bad"],
                   ["sim", "good/topology", "good/away"], ["live", "good/topology", "good/away"], ["frob"], ["plan", "--frob", "good/topology"],
                   ["check", "good/topology", "good/script", "good/missing"]):
        _, faults, status = run(words_)
        for before in (None, b"before\n"):
            fresh(before)
            got = run(to_file(words_)) if status == 1 else run([*words_, "-o", "kept/file"])
            expect(f"{words_} to a file", got, b"", faults if status == 1 else SOME, status)
            stands(f"what {words_} left", *([("file", before)] if before else []))
    fresh()
    put("kept/untrue", "trace 1\n0 1 a c 2 delivered a b\n")
    put("kept/file", b"before\n")
    check = ["check", "good/topology", "good/script", "kept/untrue"]
    expect("a finding to a file", run(to_file(check)), b"", b"", 1)
    stands("a finding", ("file", b"finding 2 NotAtDestination\n"), ("untrue", b"trace 1\n0 1 a c 2 delivered a b\n"))
    for words_ in every_call():
        fresh(b"before\n")
        for place in ("kept/none/file", "kept", "kept/", "kept/file/", "kept/file/none", "", "kept/" + "x" * 300):
            refused(f"{words_} to {place[:20]!r}", run(to_file(words_, place)), "output unwritable")
        stands(f"what {words_} left that can't be written", ("file", b"before\n"))
        said = b"output unwritable\nroute: kept/none/file: could not be written\n"
        expect(f"{words_} to no folder, explained", run([*to_file(words_, "kept/none/file"), "--explain"]), b"", said, 1)


def test_kept_without_leave() -> None:
    """Files and folders that may not be written, by a user who may not do all."""
    good_files()
    more = as_nobody()
    if more is None:
        return
    folder = fresh(b"before\n")
    file = os.path.join(folder, "file")
    owner = pwd.getpwnam("nobody") if os.geteuid() == 0 else None
    for modes in ((0o555, 0o666), (0o777, 0o444), (0o555, 0o444)):
        os.chmod(folder, 0o755)
        os.chmod(file, modes[1])
        os.chmod(folder, modes[0])
        if owner:
            os.chown(folder, owner.pw_uid, owner.pw_gid)
            os.chown(file, owner.pw_uid, owner.pw_gid)
        refused(f"a folder of mode {modes[0]:o} and a file of mode {modes[1]:o}", run(to_file(["plan", "good/topology"]), **more),
                "output unwritable")
        os.chmod(folder, 0o755)
        stands("what is there then", ("file", b"before\n"))


def test_kept_without_room() -> None:
    """A plan of three parts, of which the file system takes one, or none: the file is as it was."""
    good_files()
    names = [f"a_name_of_almost_as_many_bytes_as_a_name_may_have_{u}" for u in range(200)]
    complete = put("long/complete", "".join(" ".join(names[u:]) + "\n" for u in range(len(names))))
    for most in (0, 1, PART_BYTES, 2 * PART_BYTES):

        def leave(most: int = most) -> None:
            signal.signal(signal.SIGXFSZ, signal.SIG_IGN)
            resource.setrlimit(resource.RLIMIT_FSIZE, (most, most))

        for before in (None, b"before\n"):
            fresh(before)
            refused(f"a plan to a file of at most {most} bytes",
                    run(to_file(["plan", complete]), restore_signals=False, preexec_fn=leave), "output unwritable")
            stands(f"a file of at most {most} bytes", *([("file", before)] if before else []))
    fresh(b"before\n")
    expect("a plan of three parts", run(to_file(["plan", complete])), b"", b"", 0)
    stands("a plan of three parts", ("file", run(["plan", complete])[0]))
    for words_ in every_call():
        refused(f"{words_} to /dev/full", run(to_file(words_, "/dev/full")), "output unwritable")
        expect(f"{words_} to /dev/null", run(to_file(words_, "/dev/null")), b"", run(words_)[1], 0)
    for device in ("/dev/full", "/dev/null"):
        count(f"what {device} is", None if stat.S_ISCHR(os.stat(device).st_mode) else "it is no device")


def test_kept_killed() -> None:
    """A run that is killed while it reads has made no file."""
    fresh(b"before\n")
    process = subprocess.Popen([program(), *to_file(["plan", "-"])], cwd=work(), stdin=subprocess.PIPE)
    input_of(process).write(b"a b\n")
    input_of(process).flush()
    time.sleep(0.2)
    process.kill()
    process.wait()
    input_of(process).close()
    stands("a run that was killed", ("file", b"before\n"))


def test_kept_streamed() -> None:
    """A pipe of a name is written as the output comes, and what its reader leaves is reported by the status alone."""
    good_files()
    path = os.path.join(fresh(), "pipe")
    os.mkfifo(path)
    topology, script = ring(64, PACKETS, 64)
    long = call("sim", [put("long/topology", topology), put("long/script", script)], "--capacity", str(CAPACITY))
    for words_, most in ((["plan", "good/topology"], None), (long, None), (long, 1)):
        process = subprocess.Popen([program(), *to_file(words_, path)], cwd=work(), stdin=subprocess.DEVNULL, stdout=subprocess.PIPE,
                                   stderr=subprocess.PIPE)
        with open(path, "rb") as pipe:
            taken = pipe.read() if most is None else pipe.readline()
        output, faults = process.communicate(timeout=SECONDS)
        want = run(words_)[0]
        want = want if most is None else want[: want.index(b"\n") + 1]
        expect(f"{words_[0]} to a pipe of a name, {most or 'all'}", (taken, output + faults, process.returncode), want, b"", 0 if most is None else 1)
    count("the pipe", None if os.listdir(os.path.dirname(path)) == ["pipe"] and stat.S_ISFIFO(os.stat(path).st_mode) else "it is none")


def test_silent() -> None:
    """--quiet: nothing on standard error, and all else as without it; words that are not understood are reported."""
    good_files()
    put("good/bad", "\x01\n")
    put("good/refused", "retire 1\nup a b\ninject a c\n")
    put("good/untrue", "trace 1\n0 1 a c 2 delivered a b\n")
    topology = "good/topology"
    lines = [*every_call(), ["plan", "good/missing"], ["plan", "good/bad"], ["plan", "--root", "z", topology], ["compare", "good/bad"],
             ["sim", topology, "good/refused"], ["live", topology, "good/refused"], ["sim", topology, "good/missing"],
             ["check", topology, "good/script", "good/untrue"], ["check", topology, "good/script", "good/bad"],
             ["walk", "--from", "a", "--to", "z", topology], ["plan", "--numbering", "good/bad", topology]]
    for words_ in lines:
        output, _, status = run(words_)
        for more in (["--quiet"], ["--quiet", "--explain"], ["--explain", "--quiet"], ["--no-explain", "--quiet"]):
            line = [words_[0], *more, *words_[1:]]
            expect(f"{line}", run(line), output, b"", status)
            expect(f"{line} on a terminal", on_terminal(line), output, b"", status)
    for words_ in every_call():
        line = [*words_, "--quiet"]
        with open("/dev/full", "wb") as full:
            expect(f"{line} to /dev/full", run(line, stdout=full), b"", b"", 1)
        expect(f"{line} to no folder", run(to_file(line, "kept/none/file")), b"", b"", 1)
    for words_ in (["--quiet"], ["plan", "--quiet"], ["plan", "--quiet", "--frob", "-"], ["sim", "--quiet", topology]):
        expect(f"{words_}: not understood", run(words_), b"", SOME, 2)
        expect(f"{words_}: not understood, on a terminal", on_terminal(words_), b"", SOME, 2)
    draw = random.Random(3)
    edges = [f"{draw.randrange(v)} {v} {draw.randint(1, 65_535)}" for v in range(1, 512)] * 2
    words_, data = ["plan", "--threads", "1", "--format", "edgelist", "-"], ("\n".join(edges) + "\n").encode()
    expect("a plan that is late, quiet", after_patience([*words_, "--quiet"], data)[:3], run(words_, data)[0], b"", 0)
