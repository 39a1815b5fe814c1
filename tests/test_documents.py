"""The commands of README.md and of the manual page, install.sh, and the script of the gate that wants a compiler."""
from __future__ import annotations

import contextlib
import os
import re
import shutil
import subprocess
import sys
from typing import Dict, List, Optional, Tuple

from support.checks import count, say
from support.limits import GREAT_SECONDS, SECONDS
from support.marks import built
from support.places import TOP, program, work
from support.route import ANY, Got, SOME, expect, put, run

pytestmark = [built]


# Commands of the documents that are not run, each with the reason.
Block = Tuple[str, List[str]]  # `text` or `code`, and its lines

SKIPPED = [
    (r"(^|[\s(;&|])rt\s", "it proves, with the toolchain"),
    (r"(^|[\s(;&|])man\s", "it shows a page"),
    (r"\.ci/run|(^|[\s(])tests/", "it is the gate, or a part of it"),
    (r"(^|[\s(])(\./)?bench/|rustc|python3?\s|pip\s", "it needs NetworkX or a compiler"),
    (r"firefox|xdg-open|\.html", "it needs a browser"),
    (r"git\s|sudo\s|apt", "it changes the machine"),
]
DOT = (r"(^|[\s(;&|])dot\s", "it needs Graphviz")


def blocks(text: str) -> List[Block]:
    """The paragraphs and code blocks of a page: pairs of `text` or `code`, and lines."""
    found: List[Block] = []
    lines, at = text.split("\n"), 0
    while at < len(lines):
        line = lines[at]
        start = at
        if line.startswith("```"):
            at += 1
            while at < len(lines) and not lines[at].startswith("```"):
                at += 1
            if line[3:].strip() in ("", "sh", "bash", "console", "text", "shell"):
                found.append(("code", lines[start + 1 : at]))
            at += 1
        elif line.startswith("    ") and (start == 0 or lines[start - 1].strip() == ""):
            while at < len(lines) and (lines[at].startswith("    ") or lines[at].strip() == ""):
                at += 1
            found.append(("code", [row[4:] for row in lines[start:at]]))
        elif line.strip() == "":
            at += 1
        else:
            while at < len(lines) and lines[at].strip() and not lines[at].startswith("```"):
                at += 1
            found.append(("text", lines[start:at]))
    return [(kind, trimmed(rows)) for kind, rows in found]


def trimmed(rows: List[str]) -> List[str]:
    while rows and rows[-1].strip() == "":
        rows = rows[:-1]
    return rows


def without_note(line: str) -> str:
    return re.sub(r"\s{3,}# .*$", "", line)


def note_status(line: str) -> Optional[int]:
    """The status that a note after a command names."""
    found = re.search(r"\s{3,}# .*status (\d)", line)
    return int(found.group(1)) if found else None


def sessions(rows: List[str]) -> List[Tuple[str, List[str], Optional[int]]]:
    """The commands of a block after `$ `, each with the lines that it prints and its status where a note names one."""
    found: List[Tuple[str, List[str], Optional[int]]] = []
    for row in rows:
        if row.startswith("$ "):
            found.append((without_note(row[2:]), [], note_status(row)))
        elif found and found[-1][0].endswith("\\") and not found[-1][1]:
            found[-1] = found[-1][0][:-1] + without_note(row).strip(), found[-1][1], note_status(row)
        elif found:
            found[-1][1].append(without_note(row))
    return found


def in_shell(command: str, folder: str, top: str, apart: bool) -> Got:
    """What a command prints, all together or apart. First on the path is the folder of the program, or where the top has
    them, those of another program `route`, as net-tools has one, and of the installed program."""
    installed = [os.path.join(top, name) for name in ("other/bin", "prefix/bin")]
    first = installed if os.path.isdir(installed[1]) else [os.path.join(top, "crates/route/out")]
    path = os.pathsep.join([*first, os.environ.get("PATH", "")])
    faults = subprocess.PIPE if apart else subprocess.STDOUT
    try:
        done = subprocess.run(["bash", "-c", command], cwd=folder, env={**os.environ, "PATH": path}, timeout=SECONDS,
                              stdin=subprocess.DEVNULL, stdout=subprocess.PIPE, stderr=faults)
    except subprocess.TimeoutExpired:
        return b"", b"", "hangs"
    return done.stdout, done.stderr or b"", done.returncode


def is_skipped(page: str, command: str) -> bool:
    for pattern, reason in SKIPPED + ([] if shutil.which("dot") else [DOT]):
        if re.search(pattern, command):
            say(f"skipped: {page}: {command}: {reason}")
            return True
    return False


def try_session(page: str, folder: str, top: str, command: str, shown: List[str], status: Optional[int]) -> None:
    if is_skipped(page, command):
        return
    got = in_shell(command, folder, top, False)
    shown = trimmed(shown)
    want = "".join(line + "\n" for line in shown).encode()
    if shown and shown[-1] == "...":
        want = want[: -len(b"...\n")]
        got = got[0][: len(want)], *got[1:]
    expect(f"{page}: {command}", got, want, b"", ANY if status is None and got[2] != "hangs" else status)


def try_told(page: str, top: str, command: str, after: List[Block]) -> None:
    """A command alone in its block; what it prints is given by the words and the block after it."""
    if is_skipped(page, command):
        return
    words_after = " ".join(after[0][1]) if after and after[0][0] == "text" else ""
    shown = after[1][1] if len(after) > 1 and after[1][0] == "code" else []
    got = in_shell(command, top, top, True)
    block = "".join(line + "\n" for line in shown).encode()
    inline = re.match(r"prints `([^`]*)`", words_after)
    faults = re.search(r"with `([^`]*)` on standard error", words_after)
    status = re.search(r"with status (\d)", words_after)
    want_faults = faults.group(1).encode() + b"\n" if faults else b""
    want_status = int(status.group(1)) if status else 0
    if words_after.startswith("begins with"):
        got = got[0][: len(block)], *got[1:]
        expect(f"{page}: {command}", got, block, want_faults, 0)
    elif inline:
        expect(f"{page}: {command}", got, inline.group(1).encode() + b"\n", want_faults, want_status)
    elif words_after.startswith("prints"):
        expect(f"{page}: {command}", got, block, want_faults, want_status)
    else:
        expect(f"{page}: {command} (no output is shown)", got, ANY, ANY, 0)


def try_page(page: str, text: str, folder: str, top: str) -> None:
    """The commands of a page: after `$ `, or alone in a block with the program's path."""
    found, number = blocks(text), 0
    for at, (kind, rows) in enumerate(found):
        if kind != "code":
            continue
        if any(row.startswith("$ ") for row in rows):
            for command, shown, status in sessions(rows):
                try_session(page, folder, top, command, shown, status)
                number += 1
        elif len(rows) == 1 and "crates/route/out/route " in rows[0]:
            try_told(page, top, without_note(rows[0]), found[at + 1 :])
            number += 1
    count(f"{page}: there are commands", None if number else "there is none")


def from_roff(line: str) -> str:
    line = re.sub(r"\\f(\[[A-Z]*\]|\([A-Z]{2}|.)", "", line)
    for written, meant in (("\\-", "-"), ("\\(aq", "'"), ("\\&", ""), ("\\~", " "), ("\\(dq", '"')):
        line = line.replace(written, meant)
    return line.replace("\\e", "\\").replace("\\\\", "\\")


def manual_page(text: str) -> str:
    """The examples of the manual page as a page with `$ ` in blocks."""
    inside = False
    page: List[str] = []
    for line in text.split("\n"):
        if line.startswith(".EX") or line.startswith(".EE"):
            inside = line.startswith(".EX")
            page.append("```")
        elif inside and not line.startswith("."):
            page.append(from_roff(line))
    return "\n".join(page)


def copied_top() -> str:
    """A copy of the repository's top folder without its crates' sources, with the program where it is built."""
    top = work("top")
    shutil.rmtree(top, ignore_errors=True)
    shutil.copytree(TOP, top, ignore=lambda folder, names: {".git", "crates"} & set(names) if folder == TOP else {"out"})
    os.makedirs(os.path.join(top, "crates/route/out"))
    for name in ("stdin", "stdout"):
        shutil.copy(os.path.join(TOP, "crates/route", name), os.path.join(top, "crates/route"))
    os.symlink(program(), os.path.join(top, "crates/route/out/route"))
    return top


def other_route(top: str) -> None:
    """Another program `route`, which is found before the installed one and does nothing of what ours does."""
    os.makedirs(os.path.join(top, "other/bin"))
    with open(os.path.join(top, "other/bin/route"), "w", encoding="utf-8") as file:
        file.write("#!/bin/sh\necho 'Usage: route [-nNvee] [-FC] [<AF>]'\n")
    os.chmod(file.name, 0o755)


def installed_in(top: str, *words_: str) -> Got:
    """What install.sh prints, and its status."""
    done = subprocess.run(["./install.sh", *words_], cwd=top, capture_output=True, timeout=SECONDS)
    return done.stdout, done.stderr, done.returncode


INSTALLED = ("bin/{}", "libexec/bentzolu/{}", "libexec/bentzolu/{}.awk", "libexec/bentzolu/{}.families.py", "libexec/bentzolu/{}.built", "share/man/man1/{}.1", "share/bash-completion/completions/{}", "share/zsh/site-functions/_{}",
             "share/fish/vendor_completions.d/{}.fish")


def hands_on(name: str, program: str) -> None:
    """What the installed name does with the words of the Python package, with it and without it."""
    for word in ("agent", "controller", "fleet", "xdp up"):
        done = subprocess.run([program, *word.split(), "--help"], env={**os.environ, "PYTHONPATH": os.path.join(TOP, "python")}, capture_output=True, timeout=SECONDS)
        expect(f"{name} {word} --help", (done.stdout, done.stderr, done.returncode), SOME, b"", 0)
        count(f"{name} {word} --help is the package's", None if done.stdout.startswith(b"usage: python3 -m bentzolu " + word.encode()) else str(done.stdout[:80]))
    got = run(["xdp", "table", "--help"], program=program)
    count(f"{name} xdp table --help is the program's", None if got[0] and b"python3" not in got[0] and got[2] == 0 else str(got))
    bin_folder = work("no python")
    os.makedirs(bin_folder, exist_ok=True)
    with open(os.path.join(bin_folder, "python3"), "w", encoding="ascii") as file:
        file.write("#!/bin/sh\nexit 1\n")
    os.chmod(file.name, 0o755)
    if subprocess.run(["/usr/bin/python3", "-c", "import bentzolu"], cwd="/", env={}, capture_output=True).returncode == 0:  # type: ignore[arg-type]
        return  # it is installed on this machine
    done = subprocess.run([program, "agent"], cwd="/", env={"PATH": f"{bin_folder}:/usr/bin:/bin"}, capture_output=True, timeout=SECONDS)
    expect(f"{name} agent without the package", (done.stdout, done.stderr, done.returncode), b"", SOME, 1)


def files_in(folder: str) -> List[str]:
    return sorted(os.path.relpath(os.path.join(at, name), folder) for at, _, names in os.walk(folder) for name in names)


def test_installed() -> None:
    """install.sh: what it writes, by each name, and that it removes that again and nothing else."""
    top = copied_top()
    prefix = os.path.join(top, "a prefix")
    for name, words_ in (("bentzolu", []), ("route", ["--name", "route"]), ("other-one", ["--name=other-one"])):
        files = [form.format(name) for form in INSTALLED]
        shared = ["share/doc/bentzolu/lab.html", "share/doc/bentzolu/examples"]
        written = "".join(f"{prefix}/{file}\n" for file in [*files, *shared]).encode()
        for turn in ("once", "again"):
            expect(f"installed as {name}, {turn}", installed_in(top, prefix, *words_), written, b"", 0)  # type: ignore[misc]
        beside = [file for file in files_in(prefix) if not file.startswith("share/doc/bentzolu/examples/")]
        count(f"files of {name}", None if beside == sorted([*files, shared[0]]) else str(beside))
        got = run(["--version"], program=os.path.join(prefix, "bin", name))
        expect(f"{name} --version", got, SOME, b"", 0)
        link = os.path.join(top, "link")
        os.symlink(os.path.join(prefix, "bin", name), link)
        count(f"{name} by a link", None if run(["--version"], program=link) == got else "another answer")
        os.remove(link)
        hands_on(name, os.path.join(prefix, "bin", name))
        with open(os.path.join(prefix, "share/man/man1", name + ".1"), encoding="utf-8") as file:
            page = file.read()
        count(f"the manual page of {name}", None if f".TH {name.upper()} 1" in page and f"\\fB{name} plan" in page else "not of that name")
        other = put(os.path.join(prefix, "bin/other"), "")
        removed = installed_in(top, "--uninstall", prefix, *words_)  # type: ignore[misc]
        expect(f"{name} removed", (b"".join(sorted(removed[0].splitlines(True))), *removed[1:]), b"".join(sorted(written.splitlines(True))), b"", 0)
        count(f"no folder is left of {name}", None if os.listdir(prefix) == ["bin"] else str(os.listdir(prefix)))
        count(f"files behind {name}", None if files_in(prefix) == ["bin/other"] else str(files_in(prefix)))
        expect(f"{name} removed again", installed_in(top, "--uninstall", prefix, *words_), b"", SOME, 1)  # type: ignore[misc]
        os.remove(work(other))
    for words_ in ([], ["a", "b"], ["a", "--name", "-x"], ["a", "--name", ""], ["a", "--name"], ["a", "--frob"], ["--uninstall"], [""]):
        expect(f"install.sh {words_}", installed_in(top, *words_), b"", SOME, 2)  # type: ignore[misc]
    expect("install.sh --help", installed_in(top, "--help"), SOME, b"", 0)
    os.remove(os.path.join(top, "crates/route/out/route"))
    expect("install.sh with no program", installed_in(top, prefix), b"", SOME, 1)


def test_documents() -> None:
    top = copied_top()
    with open(os.path.join(TOP, "README.md"), encoding="utf-8") as file:
        readme = file.read()
    other_route(top)
    expect("README's install", installed_in(top, os.path.join(top, "prefix")), SOME, b"", 0)
    try_page("README.md", readme, top, top)
    figures_told(readme)
    top = copied_top()
    with open(os.path.join(TOP, "docs/route.1"), encoding="utf-8") as file:
        try_page("docs/route.1", manual_page(file.read()), os.path.join(top, "examples"), top)


def figures_told(readme: str) -> None:
    """The figures in README's table of networks: those that `stats` prints, for each kind and numbering that it names."""
    rows = re.findall(r"^\| `([^`|]+)`, ([0-9,]+) \| `(\w+)`(?:, `(\w+)`)? \| (.* / .*) \|$", readme, re.MULTILINE)
    for network, nodes, kind, numbering, told in rows:
        file, data = os.path.join(TOP, "examples", network), b""
        if not os.path.exists(file):
            made = [sys.executable, "bench/networks.py", *network.split()]
            file, data = "-", subprocess.run(made, cwd=TOP, capture_output=True, timeout=GREAT_SECONDS).stdout
        words_ = ["stats", "--kind", kind, *(["--numbering", numbering] if numbering else []), file]
        output = run(words_, data, GREAT_SECONDS)[0].decode()
        found = dict(line.partition(" ")[::2] for line in output.splitlines())
        numbers = {key: list(map(int, re.findall(r"\b\d+\b", text))) for key, text in found.items()}
        row = f"{nodes}: "
        with contextlib.suppress(KeyError, IndexError, ValueError):
            rows_bits, tables_bits = numbers["bits"]
            row = f"{numbers['stats'][-1]:,}: {numbers['starts'][0]:,} / {rows_bits:,} | {numbers['entries'][0]:,} / {tables_bits:,} | "
            row += f"{numbers['walks'][0] / numbers['distances'][0]:.2f} | {'yes' if found['dependencies'].startswith('cycle') else 'no'}"
        count(f"README's {network}, {kind} {numbering}", None if f"{nodes}: {told}" == row else f"{nodes}: {told} in place of {row}")
    count("README has figures of networks", None if len(rows) >= 5 else f"there are {len(rows)}")


def test_gate() -> None:
    """tests/refused-memory where there is no cc: it fails in the gate, and says so elsewhere."""
    bin_folder = work("bin")
    os.makedirs(bin_folder, exist_ok=True)
    for tool in ("bash", "dirname"):
        os.symlink(shutil.which(tool) or tool, os.path.join(bin_folder, tool))
    bash, script = shutil.which("bash") or "bash", os.path.join(TOP, "tests/refused-memory")
    choices: List[Tuple[Dict[str, str], int]] = [({"CI": "1"}, 1), ({}, 0)]
    for more, status in choices:
        done = subprocess.run([bash, script], env={"PATH": bin_folder, **more}, capture_output=True, timeout=SECONDS)
        got = done.stdout, done.stderr, done.returncode
        expect(f"tests/refused-memory with no cc and {more or 'no CI'}", got, SOME, b"", status)
