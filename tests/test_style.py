"""The form of what is no Rattle: shell scripts under shellcheck, Python under ruff and mypy, and the page's scripts under eslint.

`tests/style` runs it. Each file is a check. Debian has ruff in some releases alone: elsewhere flake8 tries the same rules. The
files of a tool that is not installed are counted as skipped.
"""
from __future__ import annotations

import json
import os
import re
import shutil
import subprocess
import tempfile
from typing import Dict, Iterator, List, Sequence, Tuple

from support.checks import count, skip
from support.places import TOP

FOLDERS = (".", ".ci", "bench", "completions", "docs", "examples", "packaging", "plane", "python", "site", "tests")
SHELL = rb"#! ?/\S*(/| )(ba|da)?sh\b"
PYTHON = rb"#! ?/\S*(/| )python3?\b"
AS_PROGRAM = b"\n''':'\n"  # a program in Python, which a shell starts


def paths() -> Iterator[str]:
    """Yield the paths of the files, from the top."""
    for folder in FOLDERS:
        for at, folders, names in os.walk(os.path.join(TOP, folder)):
            folders[:] = [] if folder == "." else sorted(set(folders) - {"out", "build", "__pycache__"})
            for name in sorted(names):
                yield os.path.relpath(os.path.join(at, name), TOP)


def head_of(path: str) -> bytes:
    """Return the front of a file."""
    with open(os.path.join(TOP, path), "rb") as file:
        return file.read(200)


def shell_scripts() -> List[str]:
    """Return the paths of the shell scripts."""
    return [path for path in paths() if re.match(SHELL, head_of(path)) and AS_PROGRAM not in head_of(path)]


def python_files() -> List[str]:
    """Return the paths of what is written in Python."""
    return [path for path in paths() if path.endswith(".py") or re.match(PYTHON, head_of(path))]


def ran(words: Sequence[str], **more: str) -> Tuple[int, str]:
    """Return the status of a tool, and what it prints."""
    done = subprocess.run(words, cwd=TOP, stdout=subprocess.PIPE, stderr=subprocess.STDOUT, stdin=subprocess.DEVNULL, text=True,
                          timeout=900, check=False, env={**os.environ, "PYTHONDONTWRITEBYTECODE": "1", **more})
    return done.returncode, done.stdout


def count_files(tool: str, files: Sequence[str], status: int, output: str) -> None:
    """Count a check for each file, of what a tool printed: lines that begin with the path of a file."""
    notes: Dict[str, List[str]] = {path: [] for path in files}
    others = []
    for line in output.splitlines():
        path = os.path.normpath(line.split(":")[0])
        if path in notes:
            notes[path].append(line)
        elif line.strip():
            others.append(line)
    if status and not any(notes.values()):  # it did not run as it should
        count(tool, f"status {status}: {' / '.join(others)[-1000:]}")
        return
    for path, lines in notes.items():
        count(f"{path}, {tool}", "\n".join(lines))


def test_shellcheck() -> None:
    """Shell scripts have no note of shellcheck."""
    scripts = shell_scripts()
    if not shutil.which("shellcheck"):
        skip("shell scripts", "there is no shellcheck here", len(scripts))
        return
    count_files("shellcheck", scripts, *ran(["shellcheck", "-f", "gcc", *scripts]))


def rules(name: str) -> str:
    """Return a list of rules of ruff, as python/pyproject.toml has it."""
    with open(os.path.join(TOP, "python", "pyproject.toml"), encoding="utf-8") as file:
        found = re.search(rf"^\[tool\.ruff\.lint\]\n(?:.*\n)*?{name} = \[(.*)\]$", file.read(), flags=re.M)
    return ",".join(re.findall(r'"(\w+)"', found[1])) if found else ""


def test_python() -> None:
    """Python has no note of ruff, or of flake8 by the rules of ruff."""
    files = python_files()
    if shutil.which("ruff"):
        count_files("ruff", files, *ran(["ruff", "check", "--no-cache", "--quiet", "--output-format", "concise", *files]))
    elif shutil.which("flake8"):
        words = ["--isolated", "--select", rules("select"), "--extend-ignore", f"{rules('ignore')},E704"]
        count_files("flake8", files, *ran(["flake8", *words, *files]))
    else:
        skip("Python", "there is neither ruff nor flake8 here", len(files))


# Files that mypy reads together, as their names are those of modules, and where they look for modules.
TYPED = [
    (r"tests/(support/)?\w+(\.py)?$", "tests"),
    (r"completions/", "tests"),
    (r"tests/oracle/", "tests"),
    (r"docs/", "docs"),
    (r"bench/[^/]*$", "bench"),
    (r"bench/(kernel|live|plane)/", "bench/kernel"),
    (r"python/(tests/|setup)", "python/tests:python"),
]


def test_types() -> None:
    """All Python but the package, which has a test of its own, and the page's has no note of mypy --strict."""
    groups = [(path, [file for file in python_files() if re.match(pattern, file)]) for pattern, path in TYPED]
    if not shutil.which("mypy"):
        skip("annotations", "there is no mypy here", sum(len(files) for _, files in groups))
        return
    with tempfile.TemporaryDirectory() as cache:
        for path, files in groups:
            words = ["--config-file", "tests/mypy.ini", "--cache-dir", cache, "--no-error-summary", *files]
            count_files("mypy", files, *ran(["mypy", *words], MYPYPATH=path))


def test_scripts() -> None:
    """The page's scripts and their tests have no note of eslint by its recommended rules, as site/.eslintrc.json says."""
    files = [path for path in paths() if re.match(r"site/.*\.js$", path)]
    # Debian's modules of node are where its own node looks for them, and another one does not.
    more = {"NODE_PATH": "/usr/share/nodejs", "ESLINT_USE_FLAT_CONFIG": "false"}
    status, version = ran(["eslint", "--version"], **more) if shutil.which("eslint") else (1, "")
    found = re.match(r"v(\d+)", version)
    if status or not found:
        skip("the page's scripts", "there is no eslint here that starts", len(files))
        return
    is_old = int(found[1]) < 8  # it does not know what came to JavaScript after 2020
    words = ["--parser-options=ecmaVersion:2020"] if is_old else []
    status, output = ran(["eslint", "-f", "json", *words, *files], **more)
    try:
        results = json.loads(output)
    except ValueError:
        count("eslint", f"status {status}: {output[-1000:]}")
        return
    for it in results:
        path = os.path.relpath(it["filePath"], TOP)
        if is_old and any(note.get("fatal") for note in it["messages"]):
            skip(path, f"eslint {version.strip()} cannot read it")
        else:
            count(f"{path}, eslint", "\n".join(f"line {note['line']}: {note['message']} ({note['ruleId']})" for note in it["messages"]))
