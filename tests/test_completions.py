"""The completions of bash, zsh and fish: they are what completions/make writes, and each shell completes by them.

What is to be offered is read from the help of the program. bash is asked by its function, fish by `complete -C`, and zsh by
the key Tab on a terminal of its own. What a shell that is not here would say is counted as skipped, and so is what wants the
program where it is not built.
"""
from __future__ import annotations

import functools
import importlib.machinery
import importlib.util
import os
import pty
import re
import shutil
import subprocess
import sys
import threading
import time
from typing import Any, Callable, Dict, List, Sequence, Tuple

from support.checks import count, skip
from support.marks import alone
from support.places import TOP, built_program, why_no_program, work

FOLDER = os.path.join(TOP, "completions")
COMMANDS = 12  # the program, its subcommands and help: how many checks there are where their number can't be asked
SECONDS = 120  # that one shell may take for all

# Lines that end where Tab is pressed, and what completes them; FILES are in the folder.
LINES = [
    ("route s", "sim stats sweep"),
    ("route help s", "sim stats"),
    ("route --", "--color --help --pretty --version"),
    ("route gen", "generate"),
    ("route generate ", "topology"),
    ("route convert CONTRIB", "CONTRIBUTED"),
    ("route walk --pr", "--pretty"),
    ("route stats --color ", "always auto never"),
    ("route walk --f", "--format --from"),
    ("route plan -k ", "compact landmark shortest tree"),
    ("route plan --kind ", "compact landmark shortest tree"),
    ("route plan -f e", "edgelist"),
    ("route live -n ", "depth-first tour keep keep,tour keep,depth-first"),
    ("route check --numbering ", "depth-first tour keep keep,tour keep,depth-first"),
    ("route plan --numbering to", "tour"),
    ("route plan --numbering CONTRIB", "CONTRIBUTED"),
    ("route sim CONTRIB", "CONTRIBUTED"),
    ("route sim --restamps ", "0 1 2 3"),
    ("route plan -o CONTRIB", "CONTRIBUTED"),
    ("route walk net.adjlist --from ", "a ab b c"),
    ("route walk net.edgelist --from a", "a ab"),
    ("route draw -f edgelist net.adjlist --node ", "a ab b c"),
    ("route plan none -r ", ""),
    ("route help plan ", ""),
]
# The same of values after an equals sign, which fish and zsh give with what stands in front of it or without.
JOINED = [
    ("route plan --kind=t", "tree"),
    ("route plan --kind=", "compact landmark shortest tree"),
    ("route plan --output=CONTRIB", "CONTRIBUTED"),
    ("route live --color=n", "never"),
]
FILES = {"CONTRIBUTED": "", "net.adjlist": "ab b # x y\na c\n", "net.edgelist": "ab b 3\na c 4 # 5\n"}

ZSH = """\
PS1= PS2=
fpath=(%s $fpath)
autoload -Uz compinit
compinit -D -u
typeset -ga hits
compadd() {
    if [[ ${@[1,(i)(-|--)]} == *-(O|A|D)\\ * ]]; then
        builtin compadd "$@"
        return
    fi
    local -a found
    builtin compadd -A found "$@"
    hits+=($found)
    builtin compadd "$@"
}
ask() { hits=(); _main_complete; compstate[insert]= compstate[list]=; print -r -- "$hits" >> ../asked }
zle -C ask complete-word ask
bindkey '^I' ask
zle-line-init() { print ready >> ../asked; zle -D zle-line-init }
zle -N zle-line-init
"""


@functools.lru_cache(None)
def made() -> Any:
    """Return the module completions/make, which asks the program of these tests."""
    os.environ["BENTZOLU_ROUTE"] = built_program()
    loader = importlib.machinery.SourceFileLoader("completions_make", os.path.join(FOLDER, "make"))
    spec = importlib.util.spec_from_loader(loader.name, loader)
    assert spec is not None
    sys.modules[loader.name] = importlib.util.module_from_spec(spec)
    loader.exec_module(sys.modules[loader.name])
    return sys.modules[loader.name]


@functools.lru_cache(None)
def table() -> Any:
    """Return the program's commands by their paths."""
    return made().table()


def by_bash(lines: Sequence[str]) -> List[str]:
    """Return what bash offers for each of these lines."""
    asked = ". \"$1\"; ask() { COMP_WORDS=(\"$@\"); COMP_CWORD=$(($# - 1)); _bentzolu; echo \"${COMPREPLY[*]}\"; }\n"
    for line in lines:
        words = [it for word in line.split(" ") for it in (re.split("(=)", word) if "=" in word else [word])]
        words = words[:-1] if words[-2:] == ["=", ""] else words  # readline makes a word of the sign
        asked += "ask " + " ".join(f"'{word}'" for word in words) + "\n"
    return output(["bash", "-c", asked, "-", f"{FOLDER}/route.bash"])


def by_fish(lines: Sequence[str]) -> List[str]:
    """Return what fish offers for each of these lines."""
    asked = 'source $argv[1]; for line in $argv[2..-1]; echo (complete -C $line | string replace -r "\\t.*" ""); end'
    return output(["fish", "-N", "-c", asked, f"{FOLDER}/route.fish", *lines])


def output(command: Sequence[str]) -> List[str]:
    """Return the lines that a command prints."""
    done = subprocess.run(command, cwd=work("here"), stdin=subprocess.DEVNULL, stdout=subprocess.PIPE, stderr=subprocess.STDOUT,
                          text=True, timeout=SECONDS, env={**os.environ, "HOME": work()})
    return done.stdout.splitlines()


def by_zsh(lines: Sequence[str]) -> List[str]:
    """Return what zsh offers for each of these lines, as someone types them who then presses Tab."""
    asked = work("asked")
    for path, text in (asked, ""), (work("rc"), ZSH % FOLDER):
        with open(path, "w", encoding="ascii") as file:
            file.write(text)
    above, below = pty.openpty()
    environment = {**os.environ, "HOME": work(), "TERM": "dumb"}
    shell = subprocess.Popen(["zsh", "-f", "-i"], cwd=work("here"), stdin=below, stdout=below, stderr=below, env=environment, start_new_session=True)
    os.close(below)
    threading.Thread(target=drained, args=[above], daemon=True).start()
    os.write(above, b"source ../rc\n")
    end = time.monotonic() + SECONDS
    found = waited(asked, 1, end)
    for number, line in enumerate(lines, 2):
        if len(found) == number - 1:
            os.write(above, line.encode() + b"\t\x15")
            found = waited(asked, number, end)
    shell.kill()
    shell.wait()
    os.close(above)
    return found[1:]


def drained(terminal: int) -> None:
    """Read what a terminal shows until it ends."""
    try:
        while os.read(terminal, 65_536):
            pass
    except OSError:
        pass


def waited(path: str, number: int, end: float) -> List[str]:
    """Return the lines of a file when there are so many, or at the end of the time."""
    while True:
        with open(path, encoding="utf-8") as file:
            lines = file.read().split("\n")[:-1]
        if len(lines) >= number or time.monotonic() > end:
            return lines
        time.sleep(0.005)


SHELLS: Dict[str, Tuple[str, Callable[[Sequence[str]], List[str]]]] = {
    "bash": ("route.bash", by_bash), "zsh": ("_route", by_zsh), "fish": ("route.fish", by_fish)}


def of_table() -> List[Tuple[str, List[Tuple[str, List[str]]]]]:
    """Return for each command of the program lines to complete, each with what it is to be completed by."""
    found = []
    for path, command in table().items():
        front = " ".join(["route", *path])
        lines = [(f"{front} -", [it for option in command.options for it in option.spellings()])] if command.options else []
        lines += [(f"{front} ", list(command.subcommands))] if command.subcommands else []
        lines += [(f"{front} ", command.places[0].words)] if command.places and command.places[0].words else []
        lines += [(f"{front} {it} ", option.words + list(FILES) * option.is_file)
                  for option in command.options if option.words for it in option.spellings()]
        found.append((front, lines))
    return found


def differs(shell: str, line: str, found: str, wanted: Sequence[str]) -> str:
    """Return how a shell completes a line, where that is not as wanted."""
    given = {re.sub("^--[a-z]+=", "", word) for word in found.split()} if "=" in line else set(found.split())
    if shell == "fish" and re.fullmatch("route [a-z ]+ ", line):
        given -= set(FILES)  # it offers files at each place of a command that takes any
    return "" if given == set(wanted) else f"{shell} completes {line!r} to {found!r}, and not to {' '.join(wanted)!r}"


def put_files() -> None:
    """Write the files that lines name, into the folder in which the shells are asked."""
    os.mkdir(work("here"))
    for name, text in FILES.items():
        with open(work("here", name), "w", encoding="ascii") as file:
            file.write(text)


def test_generated() -> None:
    """The files are what completions/make writes, and the shells read them."""
    why = why_no_program()
    texts: Dict[str, str] = {} if why else made().texts_of(table())
    for shell, (name, _) in SHELLS.items():
        path = os.path.join(FOLDER, name)
        if why:
            skip(f"completions/{name}", why)
        else:
            with open(path, encoding="utf-8") as file:
                count(f"completions/{name}", "" if file.read() == texts[shell] else "it is not what completions/make writes: run that")
        if shutil.which(shell):
            done = subprocess.run([shell, "-n", path], stdout=subprocess.PIPE, stderr=subprocess.STDOUT, text=True, timeout=SECONDS)
            count(f"{shell} reads completions/{name}", done.stdout or done.returncode)
        else:
            skip(f"completions/{name}", f"there is no {shell}")


@alone
def test_completed() -> None:
    """Each shell completes each command, its options and their values, and lines as people type them."""
    put_files()
    why = why_no_program()
    commands = [] if why else of_table()
    if not why:
        count("the program's help", "" if len(commands) >= COMMANDS else f"it has {len(commands)} commands, and there were {COMMANDS}")
    typed = [(line, words.split()) for line, words in LINES + JOINED]
    for shell, (_, ask) in SHELLS.items():
        checks = len(typed) + (len(commands) or COMMANDS)
        if not shutil.which(shell):
            skip(shell, f"there is no {shell}", checks)
            continue
        if why:
            skip(shell, why, COMMANDS)
        asked = typed + [it for _, lines in commands for it in lines]
        given = dict(zip((line for line, _ in asked), ask([line for line, _ in asked])))
        for line, wanted in typed:
            count(f"{shell}, {line!r}", differs(shell, line, given.get(line, "no answer"), wanted))
        for name, lines in commands:
            wrong = [differs(shell, line, given.get(line, "no answer"), wanted) for line, wanted in lines]
            count(f"{shell}, all of {name!r}", "; ".join(it for it in wrong if it))
