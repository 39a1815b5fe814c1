"""The program `bentzolu`: where it is, running it, and the sentences that it says; or the library in its place."""
from __future__ import annotations

import os
import pathlib
import re
import shutil
import subprocess
import tempfile
from typing import Any, Iterator, Sequence

from . import inside
from .errors import ProgramNotFoundError, RouteError, fault_of
from .typed import NameTable, Shown, Text, Texts

VARIABLE = "BENTZOLU_ROUTE"
NAME = "bentzolu"
BUILT = pathlib.Path(__file__).resolve().parents[2] / "crates" / "route" / "out" / "route"
EXPLAIN = ("--explain", "--no-explain")
HEADS = ("plan", "walk", "stats", "compare", "diff", "prefixes", "graph", "trace", "ok", "finding")  # of all outputs
REFUSED = re.compile(r"^(.*):([0-9]+): ('.*') was refused: (.*)$")


def find(program: str | os.PathLike[str] | None = None) -> str:
    """The path of the program.

    The name `route` is not looked for on PATH, since net-tools has a program of that name.

    Parameters
    ----------
    program : str or path, optional
        The path itself.

    Returns
    -------
    str
        The argument, the variable BENTZOLU_ROUTE, `bentzolu` on PATH, or the program that was built in the repository of
        this package: the first of these that is there.

    Raises
    ------
    ProgramNotFoundError
        If none is there.
    """
    if program is not None:
        return os.fspath(program)
    if os.environ.get(VARIABLE):
        return os.environ[VARIABLE]
    found = shutil.which(NAME)
    if found:  # where install.sh puts it, this is a script, and the program is beside
        inner = pathlib.Path(found).resolve().parents[1] / "libexec" / NAME / NAME
        return str(inner) if os.access(inner, os.X_OK) else found
    if os.access(BUILT, os.X_OK):
        return str(BUILT)
    raise ProgramNotFoundError(
        f"the program is not installed: give program=.., set {VARIABLE}, put it on PATH as {NAME} "
        f"(./install.sh PREFIX), or build it in the repository of this package"
    )


def version(program: str | os.PathLike[str] | None = None) -> str:
    """The first line that the program prints for `--version`, as `bentzolu 2.0.0`, or `route 2.0.0` where it was called so."""
    path = find(program)
    done = started([path, "--version"], None)
    lines = done.stdout.decode("utf-8", "replace").splitlines()
    return lines[0] if lines else f"{path} does not report its version"


def started(command: Sequence[str], timeout: float | None) -> subprocess.CompletedProcess[bytes]:
    """A program that ran to its end."""
    try:
        return subprocess.run(command, capture_output=True, timeout=timeout, stdin=subprocess.DEVNULL, check=False)
    except (FileNotFoundError, PermissionError, NotADirectoryError) as error:
        raise ProgramNotFoundError(f"the program {command[0]} can't be run: {error.strerror}") from error


class Said:
    """What a run of the program printed: `output`, the lines `faults` of standard error, and the sentences among them."""

    def __init__(self, status: int, output: str, faults: str, sentences: list[str]) -> None:
        self.status, self.output, self.faults, self.sentences = status, output, faults, sentences

    def __iter__(self) -> Iterator[str]:
        """The output and the lines of faults, as a pair."""
        return iter((self.output, self.faults))

    def of_steps(self) -> dict[int, str]:
        """The sentence of each line of a script that was refused."""
        found = filter(None, map(REFUSED.match, self.sentences))
        return {int(it[2]): it[4] for it in found}

    def notes(self) -> list[str]:
        """The sentences that are of no line of a script."""
        return [sentence for sentence in self.sentences if not REFUSED.match(sentence)]


def run(
    words: Sequence[str], texts: Texts, program: str | os.PathLike[str] | None = None, timeout: float | None = None,
    findings: bool = False, names: NameTable | None = None,
) -> Said:
    """Runs a subcommand over texts, which are given as files, and answers what it printed, as `Said`. The library in this
    process answers where there is one, and neither a program nor a limit of time is asked for.

    `words` are the words before the files; `texts` are pairs of a name and a text, or a path that is given as it is. A
    status above 0 is a RouteError, but with `findings` not the status 1 that comes with an answer on standard output.
    Sentences are asked for where the words say nothing of them. Names in sentences are written as the nodes that the
    table `names` leads back to.
    """
    words = list(words) if any(word in EXPLAIN for word in words) else [*words[:1], "--explain", *words[1:]]
    shown: Shown = {}
    path: str | None = None
    answer = inside.answered(words, texts, shown) if inside.is_chosen(program, timeout) else None
    if answer is None:
        path = find(program)
        answer = of_program(path, words, texts, shown, timeout)
    status, output, faults = answer[0], answer[1].decode("utf-8", "replace"), answer[2].decode("utf-8", "replace")
    said = split(path or "route", status, output, faults, shown, names)
    if status != 0 and not (findings and status == 1 and output):
        refuse_other(path, said)
        content = content_of(said.faults, texts)
        raise RouteError(status, said.faults, content, sentence_of(said, texts))
    if not output.startswith(HEADS):
        refuse_other(path, said)
    return said


def of_program(
    path: str, words: Sequence[str], texts: Texts, shown: Shown, timeout: float | None,
) -> tuple[int, bytes, bytes]:
    """The status, the output and the faults of the program, which is given the texts as files; `shown` gets the name of each
    text by its file."""
    with tempfile.TemporaryDirectory(prefix="bentzolu-") as folder:
        files = []
        for name, text in texts:
            file = text if isinstance(text, pathlib.Path) else pathlib.Path(folder) / name
            if not isinstance(text, pathlib.Path):
                file.write_bytes(text.encode("utf-8"))
                shown[str(file)] = f"the {name}"
            files.append(str(file))
        done = started([path, *words, "--", *files], timeout)
    return done.returncode, done.stdout, done.stderr


def split(path: str, status: int, output: str, faults: str, shown: Shown, names: NameTable | None) -> Said:
    """What was printed, with the sentences apart and in them each text by its name, and nodes in place of names."""
    fronts = tuple({"route: ", "bentzolu: ", f"{os.path.basename(path)}: "})
    lines, sentences = [], []
    for line in faults.splitlines(keepends=True):
        front = next((it for it in fronts if line.startswith(it)), None)
        if front is not None and fault_of(status, line)[2] in ("usage", "unknown") and status != 2:
            sentences.append(sentence_in(line[len(front):].rstrip("\n"), shown, names))
        else:
            lines.append(line)
    return Said(status, output, "".join(lines), sentences)


def sentence_in(sentence: str, shown: Shown, names: NameTable | None) -> str:
    """A sentence with the names of texts in place of their files, and with nodes in place of their names."""
    for file, name in shown.items():
        sentence = sentence.replace(file, name)
    changed: dict[str, Any] = {name: node for node, name in names.changed()} if names is not None else {}

    def node(found: re.Match[str]) -> str:
        return repr(changed[found[1]]) if found[1] in changed else found[0]

    return re.sub(r"'(\S+?)'(?![^\s,.:;?)])", node, sentence) if changed else sentence


def sentence_of(said: Said, texts: Texts) -> str | None:
    """The sentences of a fault, without the name and the line of a text at their front, which the fault has."""
    made = [f"the {name}" for name, text in texts if not isinstance(text, pathlib.Path)]
    line = fault_of(said.status, said.faults)[1]
    fronts, found = [f"{name}:{line}: " for name in made] + [f"{name}: " for name in made], []
    for sentence in said.sentences:
        front = next((it for it in fronts if sentence.startswith(it)), "")
        found.append(sentence[len(front):])
    return "\n".join(found) or None


def refuse_other(path: str | None, said: Said) -> None:
    """Refuses another program that has the name: net-tools has a `route` too. The library, of no path, is none."""
    if path is None:
        return
    if said.status in (1, 2, 3) and fault_of(said.status, said.faults)[2] not in ("usage", "unknown"):
        return
    try:
        done = started([path, "--version"], 10)
    except subprocess.TimeoutExpired:
        return
    if b"net-tools" in done.stdout + done.stderr:
        raise ProgramNotFoundError(f"{path} is the route program of net-tools: give another program by program=.. or {VARIABLE}")


def content_of(faults: str, texts: Texts) -> str | None:
    """The line of a text that a fault names, to be shown with it."""
    about, line, _ = fault_of(1, faults)
    text: Text = dict(texts).get(about or "", "")
    lines = [] if isinstance(text, pathlib.Path) else text.split("\n")
    if line is None or not 1 <= line <= len(lines):
        return None
    return lines[line - 1][:200] or None
