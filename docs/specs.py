"""Reads the pages of definitions: crates/*/specs/*.antt, and which of them the contract of a call reaches."""
from __future__ import annotations

import functools
import glob
import re
from typing import Any

HEAD = re.compile(r"^( *)(?:(?:abbrev|unfoldable)(?: pub)?|pub record|pub data) ([\w'-]+)")
NAME = re.compile(r"[\w'◌-]+(?:\.[\w'-]+)*")


def text_of(path: Any) -> Any:
    with open(path, encoding="utf-8") as file:
        return file.read()


class Definition:
    """A definition of a page: its name, its comment, its lines without that, and the names that it makes."""

    def __init__(self, name: Any, comment: Any, lines: Any, inner: Any) -> None:
        self.name, self.comment, self.lines, self.inner = name, comment, lines, inner
        self.makes = [name]
        if re.match(r" *pub data ", lines[0]):
            self.makes += [made for line in lines[1:] for made in re.findall(r"^ +([\w'-]+)(?: |$)", line)]


class Page:
    """A page of definitions: its crate, its name, what its head says, its definitions and what it imports."""

    def __init__(self, path: Any) -> None:
        _, self.crate, _, file = path.split("/")
        self.path, self.name, self.key = path, file.removesuffix(".antt"), (path.split("/")[1], file.removesuffix(".antt"))
        lines = text_of(path).rstrip("\n").split("\n")
        self.length = len(lines)
        self.head = ""
        self.definitions: list[Any] = []
        self.modules: dict[Any, Any] = {}
        self.scope: dict[Any, Any] = {}
        self.aliases: dict[Any, Any] = {}
        for tree in re.findall(r"^use (.*)$", "\n".join(lines), flags=re.M):
            imports(tree, self.scope, self.aliases)
        self.read(lines)
        for definition in self.definitions:
            for made in definition.makes:
                self.scope[made] = ("definition", *self.key, definition.name)

    def read(self, lines: Any) -> None:
        """The definitions, each with the comment that is right above it."""
        at = 0
        comment: list[Any] = []
        alone = []
        module = None
        while at < len(lines):
            line = lines[at]
            head = HEAD.match(line)
            if head:
                indent, end = len(head[1]), at + 1
                while end < len(lines) and not self.ends(lines[end], indent):
                    end += 1
                body = lines[at:end]
                while not body[-1].strip():
                    body.pop()
                self.definitions.append(Definition(head[2], said(comment), body, module if indent else None))
                comment, at = [], end
                continue
            if re.match(r" *--", line):
                comment.append(line)
            else:
                if comment and not line.strip():
                    alone.append(said(comment))
                if line.startswith("use ") and comment:
                    alone.append(said(comment))
                if line.startswith("module "):
                    module = line
                comment = []
            at += 1
        self.head = alone[0] if alone else ""

    @staticmethod
    def ends(line: Any, indent: Any) -> bool:
        """Whether a definition of this indent ends before this line."""
        if not line.strip() or len(line) - len(line.lstrip(" ")) > indent:
            return False
        return bool(HEAD.match(line) or re.match(r" *--| *module |use ", line))

    def definition(self, name: Any) -> Any:
        return next(it for it in self.definitions if it.name == name)


def said(comment: Any) -> str:
    """The words of lines of a comment."""
    return " ".join(re.sub(r"^ *-- ?", "", line) for line in comment)


def parts_of(text: Any) -> Any:
    """The parts of a list between braces, at its outermost commas."""
    parts: list[Any] = []
    depth = 0
    part = ""
    for char in text:
        depth += (char == "{") - (char == "}")
        if char == "," and depth == 0:
            parts, part = [*parts, part.strip()], ""
        else:
            part += char
    return [*parts, part.strip()] if part.strip() else parts


def imports(tree: Any, scope: Any, aliases: Any, path: Any = ()) -> None:
    """Adds to the scope what a tree of imports names."""
    tree = tree.strip().rstrip(";").strip()
    if tree.endswith("}") and "{" in tree:
        front, _, inside = tree.partition("{")
        steps = [*path, *[step for step in front.strip(". ").split(".") if step]]
        for part in parts_of(inside[:-1]):
            imports(part, scope, aliases, steps)
        return
    name, _, alias = tree.partition(" as ")
    steps = [*path, *name.strip().split(".")]
    if len(steps) < 4 or steps[0] != "Rattle" or steps[2] != "specs" or not steps[1].startswith(("ir_", "page", "route")):
        return
    crate, rest = steps[1], steps[3:]
    called = alias.strip() or steps[-1]
    if rest[0] == "declared":
        if rest[-1] == "TheVariants":
            aliases[called] = ("type", crate, rest[-2])
        elif "TheConstants" in rest[:-1]:
            scope[called] = ("constant", crate, rest[-1])
        elif "TheVariants" in rest:
            scope[called] = ("type", crate, rest[rest.index("TheVariants") - 1])
        else:
            scope[called] = ("type", crate, rest[-1])
    elif len(rest) == 1:
        aliases[called] = ("page", crate, rest[0])
    else:
        scope[called] = ("definition", crate, rest[0], rest[1])


def names_in(text: Any, scope: Any, aliases: Any) -> list[Any]:
    """What a text names, of what a scope has."""
    found = []
    for name in NAME.findall(re.sub(r"--.*", "", text)):
        first, _, rest = name.partition(".")
        if first in aliases and rest:
            kind, *about = aliases[first]
            found.append(("definition", *about, rest.split(".")[0]) if kind == "page" else (kind, *about))
        elif first in scope:
            found.append(scope[first])
    return list(dict.fromkeys(found))


@functools.cache
def pages() -> dict[Any, Any]:
    """Every page but the lists of pages, in the order of the crates and of each crate's list."""
    found = [Page(path) for path in sorted(glob.glob("crates/*/specs/*.antt")) if not path.endswith("/Lib.antt")]
    order = {crate: at for at, crate in enumerate(crates())}
    listed = {crate: re.findall(r"^pub mod (\w+)", text_of(f"crates/{crate}/specs/Lib.antt"), flags=re.M) for crate in {it.crate for it in found}}
    found.sort(key=lambda it: (order.get(it.crate, 99), listed[it.crate].index(it.name) if it.name in listed[it.crate] else 99))
    return {it.key: it for it in found}


@functools.cache
def crates() -> dict[Any, Any]:
    """The crates of crates.txt, in its order, with what each uses."""
    lines = [line.split("#")[0].partition(":") for line in text_of("crates.txt").split("\n")]
    return {head.split()[0]: used.split() for head, _, used in lines if head.strip()}


def contract_of(path: Any, call: Any) -> tuple[str, Any, Any]:
    """The contract of a call of a source, with the scope of the imports of that file."""
    text = text_of(path)
    scope, aliases = scope_of(text)
    found = re.search(rf"^( *)(?:pub )?fn {call}\b.*?^\1(?=\{{)", text, flags=re.M | re.S)
    clauses = re.findall(r"^\s*(?:ensures|requires)(.*?)(?=^\s*(?:ensures|requires)|\Z)", found[0] if found else "", flags=re.M | re.S)
    return "\n".join(clauses), scope, aliases


class Model:
    """What contracts see of a type's values: the source, the crate, the type, the definition or type that they see, the
    view that makes it, and what both name."""

    def __init__(self, path: Any, kind: Any, body: Any, about: Any) -> None:
        self.path, self.crate, self.kind = path, path.split("/")[1], kind
        scope, aliases = scope_of(about + body)
        value, view = (re.search(rf"ghost {what} = \{{(.*?)\}};", body, flags=re.S) for what in ("Value", "view"))
        self.value, self.view = (" ".join(found[1].split()) if found else "" for found in (value, view))
        self.seen = names_in(self.value, scope, aliases) if self.view else []
        self.names = [*self.seen, *names_in(self.view, scope, aliases)]


@functools.cache
def models() -> Any:
    """The types whose values contracts see by a view, by crate and name."""
    found = {}
    for path in sorted(glob.glob("crates/*/src/**/*.rt", recursive=True)):
        text = text_of(path)
        for kind, body in re.findall(r"^impl(?:<[^{]*?>)? Model for (\w+).*?\{(.*?)^\}", text, flags=re.M | re.S):
            model = Model(path, kind, body, text)
            if model.view:
                found[model.crate, kind] = model
    return found


@functools.cache
def instances(crate: Any, trait: Any) -> Any:
    """The types of the sources that have a trait with words of its own, tests left out: the source, the head, the words."""
    found = []
    for path in sorted(glob.glob("crates/*/src/**/*.rt", recursive=True)):
        if path.split("/")[1].endswith("_tests") or ("trait", crate, trait) not in types_of(path, trait):
            continue
        for head, body in re.findall(rf"^(impl(?:<[^{{]*?>)? {trait}\b[^{{]*? for [^{{]*?)\s*\{{(.*?)^\}}", text_of(path), flags=re.M | re.S):
            words = re.findall(r"^    ghost (?!use\b)\w+ = \{.*?\};", body, flags=re.M | re.S)
            found.append((path, " ".join(head.split()), [" ".join(word.split()) for word in words], body))
    return found


@functools.cache
def declared() -> Any:
    """What each crate declares: by crate and name, whether that is a type or a trait, and the source."""
    found: dict[Any, Any] = {}
    for path in sorted(glob.glob("crates/*/src/**/*.rt", recursive=True)):
        for what, name in re.findall(r"^(?:pub(?:\(crate\))? )?(struct|enum|trait) (\w+)", text_of(path), flags=re.M):
            found.setdefault((path.split("/")[1], name), ("trait" if what == "trait" else "type", path))
    return found


@functools.cache
def used_in(path: Any) -> Any:
    """The crates from which a source has names, by name."""
    found = {}
    for tree in re.findall(r"^use ((?:ir_|page|route)[^;]*);", text_of(path), flags=re.M):
        crate = re.match(r"\w+", tree)[0]  # type: ignore[index]
        found.update({name: crate for name in re.findall(r"\b[A-Z]\w+", tree)})
    return found


def types_of(path: Any, text: Any) -> list[Any]:
    """The types and traits of the crates that a piece of a source names."""
    crate, used, found = path.split("/")[1], used_in(path), []
    for name in re.findall(r"\b[A-Z]\w+", re.sub(r"//.*", "", text)):
        place = (used.get(name, crate), name)
        if place in declared():
            found.append((declared()[place][0], *place))
    return list(dict.fromkeys(found))


def declaration_of(crate: Any, name: Any) -> Any:
    """The lines of a declaration, to its end."""
    text = text_of(declared()[crate, name][1])
    return re.search(rf"^(?:pub(?:\(crate\))? )?(?:struct|enum|trait) {name}\b.*?(?:^\}}|;$|\{{\}}$)", text, flags=re.M | re.S)[0]  # type: ignore[index]


def named_by(what: Any) -> Any:
    """What a type or a trait names: its declaration the types of its parts, and its model what contracts see of it; a trait
    its own words, and those of each type that has it."""
    kind, crate, name = what
    if (crate, name) not in declared():
        return []
    path = declared()[crate, name][1]
    scope, aliases = scope_of(text_of(path))
    found = types_of(path, declaration_of(crate, name)) if kind == "type" else names_in(declaration_of(crate, name), scope, aliases)
    if kind == "type" and (crate, name) in models():
        found += models()[crate, name].names
    for source, _, words, body in instances(crate, name) if kind == "trait" else ():
        found += names_in(" ".join(words), *scope_of(text_of(source) + body))
    return found


@functools.cache
def scope_of(text: Any) -> tuple[Any, Any]:
    """What a source imports of pages of definitions."""
    scope: dict[Any, Any] = {}
    aliases: dict[Any, Any] = {}
    for tree in re.findall(r"^\s*ghost use ([^;]*);", text, flags=re.M):
        imports(" ".join(tree.split()), scope, aliases)
    return scope, aliases


def signature_of(path: Any, call: Any) -> Any:
    """What a call takes and answers, and the bounds on it."""
    found = re.search(rf"^( *)(?:pub )?fn {call}\b.*?^\1(?=\{{)", text_of(path), flags=re.M | re.S)
    return re.sub(r"^\s*(?:ensures|requires)\b.*", "", found[0] if found else "", flags=re.M | re.S)


def reached(starts: Any, with_types: bool = True) -> Any:
    """What the contracts of these calls reach: definitions by page, types, traits and constants. A type brings the types of
    its parts and the view by which contracts see it, and so does a definition that is what they see of a type; but for
    `with_types` neither brings anything."""
    todo, seen = [], set()
    for path, call in starts:
        todo += names_in(*contract_of(path, call)) + types_of(path, signature_of(path, call))
    while todo:
        what = todo.pop()
        if what[0] == "definition":
            page = pages().get(what[1:3])
            known = page and page.scope.get(what[3])
            if not known or known[:3] != what[:3]:
                continue
            what = known
        elif what[0] == "type":
            what = (declared().get(what[1:], what)[0], *what[1:])
        if what in seen:
            continue
        seen.add(what)
        if what[0] == "definition":
            definition = page.definition(what[3])  # type: ignore[union-attr]
            todo += names_in("\n".join(definition.lines) + ("\n" + definition.inner if definition.inner else ""), page.scope, page.aliases)  # type: ignore[union-attr]
            todo += [("type", *place) for place, model in models().items() if what in model.seen]
        elif with_types and what[0] in ("type", "trait"):
            todo += named_by(what)
    return seen


def in_order(seen: Any) -> Any:
    """The pages of what is reached, lowest first, each with its reached definitions in its own order."""
    wanted: dict[Any, Any] = {}
    for what in seen:
        if what[0] == "definition":
            wanted.setdefault(what[1:3], set()).add(what[3])
    uses = {key: {it[1:3] for d in pages()[key].definitions if d.name in wanted[key] for it in names_in("\n".join(d.lines), pages()[key].scope, pages()[key].aliases) if it[0] == "definition"} - {key} for key in wanted}
    order, left = [], [key for key in pages() if key in wanted]
    while left:
        key = next((key for key in left if not uses[key] & set(left)), left[0])
        left.remove(key)
        order.append((pages()[key], [it for it in pages()[key].definitions if it.name in wanted[key]]))
    return order


def lines_of(definitions: Any) -> Any:
    return sum(len(it.lines) for it in definitions)


def declared_in(crate: Any, name: Any) -> Any:
    """The file of a crate that declares a type or a constant."""
    for path in sorted(glob.glob(f"crates/{crate}/src/**/*.rt", recursive=True)):
        if re.search(rf"^(?:pub(?:\(crate\))? )?(?:struct|enum|trait|const|static) {name}\b", text_of(path), flags=re.M):
            return path
    return None
