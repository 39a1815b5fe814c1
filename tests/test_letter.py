#!/usr/bin/env python3
"""What the program owes to the letter and no clause can carry: what it does where files and disks fail.

Run as ``tests/test_letter.py [PROGRAM]``, where PROGRAM is crates/route/out/route if it is left out. The last line is
``N passed, M failed``, and ``, K skipped`` where a test's tool is not there. ``tests/letter.c`` stands for a slow, full
or broken file system; a small disk is a real one where root can mount it.
"""

from __future__ import annotations

import os
import shutil
import subprocess
import sys
import tempfile
from collections.abc import Callable, Iterator
from contextlib import contextmanager
from pathlib import Path

TOP = Path(__file__).resolve().parent.parent
SECONDS = 60  # the most that a run may take
NODES = 3_000  # of the ring whose plan is one part of text, some 92,000 bytes
SMALL_DISK = 32_768  # the bytes of the small disk, for which that plan is too great
LINKS = 40  # the most links that are followed


class Skipped(Exception):
    """A tool that a test needs is not there."""


class Failed(Exception):
    """The program did something else than it owes."""


class Bench:
    """A folder to work in, the program, and the library that stands for a file system.

    Parameters
    ----------
    program
        The built program.
    folder
        An empty folder.
    """

    def __init__(self, program: Path, folder: Path) -> None:
        self.program = program
        self.folder = folder
        self.library: Path | None = None
        ring = [f"n{at} n{(at + 1) % NODES}\n" for at in range(NODES)]
        (folder / "ring").write_text("".join(ring))
        (folder / "path").write_text("a b\nb c\n")
        (folder / "script").write_text("inject a c\ndrain\n")
        self.text = self.run(["plan", str(folder / "ring")]).stdout
        if len(self.text) < 2 * SMALL_DISK:
            raise Failed(f"the plan of the ring has only {len(self.text)} bytes")

    def run(self, words: list[str], stdout: int = subprocess.PIPE, **settings: object) -> subprocess.CompletedProcess[bytes]:
        """Run the program.

        Parameters
        ----------
        words
            The words after its name.
        stdout
            Where its output goes.
        **settings
            Of the library, by the names of its variables without ``LETTER_``.

        Returns
        -------
        subprocess.CompletedProcess[bytes]
            Its status and what it wrote.
        """
        environment = dict(os.environ)
        if settings:
            environment["LD_PRELOAD"] = str(self.preload())
            environment |= {f"LETTER_{name.upper()}": str(value) for name, value in settings.items()}
        return subprocess.run([str(self.program), *words], stdin=subprocess.DEVNULL, stdout=stdout, stderr=subprocess.PIPE,
                              env=environment, cwd=self.folder, timeout=SECONDS, check=False)

    def preload(self) -> Path:
        """Return the library, built once.

        Raises
        ------
        Skipped
            Where no C compiler is there.
        """
        if self.library is None:
            compiler = next((name for name in ("cc", "gcc", "clang") if shutil.which(name)), None)
            if compiler is None:
                raise Skipped("no C compiler")
            library = self.folder / "letter.so"
            source = str(TOP / "tests" / "letter.c")
            built = subprocess.run([compiler, "-O1", "-shared", "-fPIC", "-o", str(library), source, "-ldl"], capture_output=True, check=False)
            if built.returncode != 0:
                raise Skipped(f"{compiler} builds no library")
            self.library = library
        return self.library


def want(what: str, found: object, wanted: object) -> None:
    """Compare what was found with what is wanted.

    Raises
    ------
    Failed
        Where they differ.
    """
    if found != wanted:
        shown = [repr(value) if len(repr(value)) <= 200 else repr(value)[:200] + " .." for value in (found, wanted)]
        raise Failed(f"{what}: {shown[0]}, and {shown[1]} is wanted")


def want_unwritable(run: subprocess.CompletedProcess[bytes]) -> None:
    """Compare a run with one whose output can't be written."""
    want("status", run.returncode, 1)
    want("standard error", run.stderr, b"output unwritable\n")


@contextmanager
def small_disk(bench: Bench) -> Iterator[Path]:
    """Mount a disk of ``SMALL_DISK`` bytes.

    Raises
    ------
    Skipped
        Where this user can mount none.
    """
    place = bench.folder / "disk"
    place.mkdir()
    if os.geteuid() != 0 or not shutil.which("mount"):
        raise Skipped("only root can mount a disk")
    mounted = subprocess.run(["mount", "-t", "tmpfs", "-o", f"size={SMALL_DISK}", "tmpfs", str(place)], capture_output=True, check=False)
    if mounted.returncode != 0:
        raise Skipped("no disk can be mounted here")
    try:
        yield place
    finally:
        subprocess.run(["umount", str(place)], capture_output=True, check=False)


# Output


def half_a_text_on_a_disk(bench: Bench) -> None:
    """A text of one part, on a disk with room for less of it, is not written, and the file stays as it was."""
    with small_disk(bench) as disk:
        file = disk / "plan"
        file.write_text("as it was\n")
        want_unwritable(bench.run(["plan", "-o", str(file), "ring"]))
        want("the file", file.read_text(), "as it was\n")
        want("files on the disk", sorted(os.listdir(disk)), ["plan"])
        want_unwritable(bench.run(["plan", "-o", str(disk / "other"), "ring"]))
        want("files on the disk", sorted(os.listdir(disk)), ["plan"])
        with open(disk / "stream", "wb") as stream:
            want_unwritable(bench.run(["plan", "ring"], stdout=stream.fileno()))


def half_a_text_in_a_file(bench: Bench) -> None:
    """A write that takes half of a text is not a whole one: neither where no byte more is taken nor where the rest is."""
    file = bench.folder / "plan"
    for room in (1, len(bench.text) // 2, len(bench.text) - 1):
        file.write_text("as it was\n")
        want_unwritable(bench.run(["plan", "-o", "plan", "ring"], room=room))
        want(f"the file, with room for {room}", file.read_text(), "as it was\n")
        want(f"parts, with room for {room}", list(bench.folder.glob("*.part-*")), [])
    for settings in ({"room": len(bench.text)}, {"each": len(bench.text) - 1}, {"each": 1_000}):
        run = bench.run(["plan", "-o", "plan", "ring"], **settings)
        want(f"status, with {settings}", (run.returncode, run.stderr), (0, b""))
        want(f"the file, with {settings}", file.read_bytes(), bench.text)


def half_a_text_on_standard_output(bench: Bench) -> None:
    """The same of standard output."""
    for room in (1, len(bench.text) // 2, len(bench.text) - 1):
        run = bench.run(["plan", "ring"], room=room)
        want_unwritable(run)
        want(f"output, with room for {room}", run.stdout, bench.text[:room])
    for settings in ({"room": len(bench.text)}, {"each": len(bench.text) - 1}, {"each": 1_000}):
        run = bench.run(["plan", "ring"], **settings)
        want(f"the run, with {settings}", (run.returncode, run.stderr, run.stdout), (0, b"", bench.text))


def on_the_disk_before_its_place(bench: Bench) -> None:
    """A file is brought to the disk before it takes its place."""
    log = bench.folder / "log"
    run = bench.run(["plan", "-o", "plan", "path"], log=log)
    want("status", (run.returncode, run.stderr), (0, b""))
    want("calls", log.read_text(), "fsync\nrename\n")


# Inputs


def a_read_that_fails(bench: Bench) -> None:
    """A read that fails in the middle of a file is no end of the file: the input is unreadable."""
    sizes = [(bench.folder / name).stat().st_size for name in ("ring", "path")]
    for at in (0, 1, sizes[0] // 2, 8_192, sizes[0] - 1, sizes[0]):
        run = bench.run(["plan", "ring"], **{"break": at})
        want(f"a topology that breaks at {at}", (run.returncode, run.stdout, run.stderr), (1, b"", b"topology unreadable\n"))
    want("the run that does not break", bench.run(["plan", "ring"], **{"break": sizes[0] + 1}).stdout, bench.text)
    for at in range(sizes[1] + 1, (bench.folder / "script").stat().st_size + 1):
        run = bench.run(["sim", "path", "script"], **{"break": at})
        want(f"a script that breaks at {at}", (run.returncode, run.stdout, run.stderr), (1, b"", b"script unreadable\n"))


# Links


def a_link_that_leads_nowhere(bench: Bench) -> None:
    """Where the name of an output is a link, what it leads to is written, also where that is not there yet."""
    wanted = bench.run(["plan", "path"]).stdout
    (bench.folder / "below").mkdir()
    (bench.folder / "link").symlink_to("below/target")
    (bench.folder / "below" / "link").symlink_to("second")
    (bench.folder / "first").symlink_to("below/link")
    (bench.folder / "far").symlink_to(bench.folder / "below" / "third")
    for name, target in (("link", "target"), ("first", "second"), ("far", "third"), (str(bench.folder / "link"), "target")):
        for _turn in ("not there", "there"):
            run = bench.run(["plan", "-o", name, "path"])
            want(f"status of {name}", (run.returncode, run.stderr), (0, b""))
            want(f"{name} is a link", (bench.folder / name).is_symlink(), True)
            want(f"what {name} leads to", (bench.folder / "below" / target).read_bytes(), wanted)
        (bench.folder / "below" / target).unlink()
    want("files beside them", sorted(os.listdir(bench.folder / "below")), ["link"])


def a_link_that_leads_astray(bench: Bench) -> None:
    """A link that leads to itself, into no folder, or over too many links, is no place for an output."""
    (bench.folder / "round").symlink_to("round")
    (bench.folder / "astray").symlink_to("no-folder/target")
    for at in range(LINKS + 2):
        (bench.folder / f"step{at}").symlink_to(f"step{at + 1}")
    for name in ("round", "astray", "step0"):
        want_unwritable(bench.run(["plan", "-o", name, "path"]))
        want(f"{name} is a link", (bench.folder / name).is_symlink(), True)
    want("parts", list(bench.folder.glob("**/*.part-*")), [])


# Words


def many_words(bench: Bench) -> None:
    """Words after the sixty-fourth are read too: the first that is too many is refused by its name."""
    for count in (1, 61, 62, 63, 64, 100):
        words = ["plan", "path", *(["--"] if count == 1 else []), *[f"more{at}" for at in range(count)]]
        run = bench.run(words)
        want(f"status of {count} more words", (run.returncode, run.stdout), (2, b""))
        want(f"the word that is told of {count}", b"'more0'" in run.stderr, True)
    all_words = ["stats", "--format", "adjlist", "--kind", "tree", "--root", "a", "--threads", "2", "--with", "shortest,b",
                 "--json", "--quiet", "--explain", "--no-explain", "--output", "stats", "--", "path"]
    run = bench.run(all_words)
    want("all options of a subcommand", (run.returncode, run.stdout, run.stderr), (0, b"", b""))


def words_that_go_together(bench: Bench) -> None:
    """No word is dropped beside another: what each asks for is done."""
    (bench.folder / "trace").write_bytes(bench.run(["sim", "path", "script"]).stdout)
    (bench.folder / "empty").write_text("drain\n")
    files = ["path", "empty", "trace"]
    want("the status of check", bench.run(["check", *files]).returncode, 0)
    for words in (["--whole"], ["--whole", "--quiet"], ["--quiet", "--whole"]):
        want(f"the status of check {words}", bench.run(["check", *words, *files]).returncode, 1)
    alone = bench.run(["prefixes", "--disjoint", "ring"]).stdout
    want("the status of an output to a file", bench.run(["prefixes", "--disjoint", "-o", "prefixes", "ring"]).returncode, 0)
    want("disjoint prefixes in a file", (bench.folder / "prefixes").read_bytes(), alone)
    for threads in ("1", "2", "3", "5", "64"):
        by_root = bench.run(["plan", "--root", "c", "--threads", threads, "path"]).stdout
        want(f"a root beside {threads} threads", by_root, bench.run(["plan", "--root", "c", "path"]).stdout)


TESTS: list[Callable[[Bench], None]] = [
    half_a_text_on_a_disk,
    half_a_text_in_a_file,
    half_a_text_on_standard_output,
    on_the_disk_before_its_place,
    a_read_that_fails,
    a_link_that_leads_nowhere,
    a_link_that_leads_astray,
    many_words,
    words_that_go_together,
]


def main() -> int:
    """Run each test in a folder of its own, and count.

    Returns
    -------
    int
        0 where no test failed.
    """
    program = Path(sys.argv[1] if len(sys.argv) > 1 else TOP / "crates/route/out/route").resolve()
    if not os.access(program, os.X_OK):
        print(f"tests/test_letter.py: {program} is no program")
        print("0 passed, 1 failed")
        return 1
    passed = failed = skipped = 0
    for test in TESTS:
        with tempfile.TemporaryDirectory(prefix="letter-") as folder:
            try:
                test(Bench(program, Path(folder)))
                passed += 1
            except Skipped as why:
                skipped += 1
                print(f"{test.__name__}: skipped: {why}")
            except (Failed, OSError, subprocess.TimeoutExpired) as why:
                failed += 1
                print(f"{test.__name__}: {why}")
    print(f"{passed} passed, {failed} failed" + (f", {skipped} skipped" if skipped else ""))
    return 1 if failed else 0


if __name__ == "__main__":
    sys.exit(main())
