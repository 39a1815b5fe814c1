"""The worked examples of `route`, one a file in tests/golden/cases, and the rows of cases.json that the proved runner reads.

    cases.py            writes crates/route_tests/data/cases.json of the files
    cases.py --split    writes the files of cases.json, after rows were added there by hand

A file has the example's name, the words after the program's name and the exit status. Then each text follows a line
`--- input`, `--- stdout` or `--- stderr`. A line of a text is as it is, unless it begins with `---` or a backslash or has
a byte that is not printable ASCII: then it is a backslash and a string of JSON. `\\ no line feed` follows a text whose last
line does not end. The files are in the order of their numbers.
"""
from __future__ import annotations

import json
import os
import re
import shlex
import sys
from typing import Any, Dict, List

TOP = os.path.dirname(os.path.dirname(os.path.dirname(os.path.abspath(__file__))))
FOLDER = os.path.join(TOP, "tests", "golden", "cases")
ROWS = os.path.join(TOP, "crates", "route_tests", "data", "cases.json")
OPEN = "\\ no line feed"

Case = Dict[str, Any]


def line_of(line: str) -> str:
    """Return a line of a text as a file of an example has it."""
    plain = re.fullmatch(r"[ -~]*", line) and not line.startswith(("---", "\\"))
    return line if plain else "\\" + json.dumps(line)


def lines_of(text: str) -> List[str]:
    """Return the lines of a file for a text."""
    *lines, last = text.split("\n")
    return [*map(line_of, lines), *([line_of(last), OPEN] if last else [])]


def text_of(lines: List[str]) -> str:
    """Return the text of lines of a file."""
    is_open = lines[-1:] == [OPEN]
    found = [json.loads(line[1:]) if line.startswith("\\") else line for line in (lines[:-1] if is_open else lines)]
    return "\n".join(found) + ("" if is_open or not found else "\n")


def written(case: Case) -> str:
    """Return the file of an example."""
    lines = [f"name: {case['name']}", f"words: {shlex.join(case['words'])}", f"status: {case['status']}"]
    for text in case["inputs"]:
        lines += ["--- input", *lines_of(text)]
    for name in ("stdout", "stderr"):
        lines += [f"--- {name}", *lines_of(case[name])]
    return "\n".join(lines) + "\n"


def read(text: str) -> Case:
    """Return the example of a file."""
    head, *parts = re.split(r"^--- (input|stdout|stderr)$\n?", text, flags=re.M)
    found = dict(line.split(": ", 1) for line in head.splitlines())
    case: Case = {"name": found["name"], "words": shlex.split(found["words"]), "inputs": []}
    for name, body in zip(parts[::2], parts[1::2]):
        part = text_of(body.split("\n")[:-1])
        if name == "input":
            case["inputs"].append(part)
        else:
            case[name] = part
    case["status"] = int(found["status"])
    return case


def paths() -> List[str]:
    """Return the files, in their order."""
    return [os.path.join(FOLDER, name) for name in sorted(os.listdir(FOLDER)) if name.endswith(".case")]


def of_files() -> List[Case]:
    """Return the examples of the files."""
    found = []
    for path in paths():
        with open(path, encoding="ascii") as file:
            found.append(read(file.read()))
    return found


def of_rows() -> List[Case]:
    """Return the examples of cases.json."""
    with open(ROWS, encoding="utf-8") as file:
        rows: List[Case] = json.load(file)
    return rows


def write_rows() -> None:
    """Write cases.json of the files."""
    with open(ROWS, "w", encoding="ascii") as file:
        file.write("[\n" + ",\n".join(map(json.dumps, of_files())) + "\n]\n")


def write_files() -> None:
    """Write the files of cases.json."""
    os.makedirs(FOLDER, exist_ok=True)
    for path in paths():
        os.remove(path)
    for number, case in enumerate(of_rows(), 1):
        slug = re.sub("[^a-z0-9]+", "-", case["name"].lower()).strip("-")[:60].strip("-")
        with open(os.path.join(FOLDER, f"{number:04}-{slug}.case"), "w", encoding="ascii") as file:
            file.write(written(case))


if __name__ == "__main__":
    if sys.argv[1:] == ["--split"]:
        write_files()
    elif not sys.argv[1:]:
        write_rows()
    else:
        sys.exit("usage: tests/cases [--split]")
