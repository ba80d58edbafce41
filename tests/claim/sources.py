"""Definitions of `specs/` and items of `src/`, as their files have them."""
from __future__ import annotations

import re
from dataclasses import dataclass, field
from pathlib import Path
from typing import Union

WORD = r"[^\W\d][\w']*"
ITEM = re.compile(
    rf"^(?:(?P<unfold>abbrev|unfoldable)(?: pub)?|(?:pub )?(?P<kind>record|data)|pub) "
    rf"(?P<name>◌[^\s◌]+◌|{WORD})(?= |$)"
)
OF_A_BLOCK = re.compile(
    rf"^  (?:abbrev |unfoldable )?(?:pub )?(?:data |record )?({WORD}) (?:[^\n=]*:|\(|\{{)", re.M
)
IMPORT = r"^\s*{0} Rattle\.([^\s{{;]+?)\.?(?:\{{([^}}]*)\}}|(?: as ({1})))?;?$"


@dataclass(eq=False)
class Definition:
    """A definition of `specs/`, or a contract that is read as one."""

    crate: str
    module: str
    name: str
    # "def", "record", "data", "block", "lemma" or "contract"
    kind: str
    line: int
    text: str
    english: str
    names: set[str] = field(default_factory=set)
    constructors: set[str] = field(default_factory=set)
    uses: set["Item"] = field(default_factory=set)
    # words of the toolchain and of ported crates: (path of the module, name)
    outside: set[tuple[str, str]] = field(default_factory=set)

    @property
    def lines(self) -> int:
        return self.text.count("\n") + 1

    @property
    def at(self) -> str:
        return f"crates/{self.crate}/specs/{self.module.replace('.', '/')}.antt"


@dataclass(eq=False)
class Declared:
    """A type, constant or trait of `src/`."""

    crate: str
    path: str
    name: str
    kind: str
    line: int
    text: str
    uses: set["Item"] = field(default_factory=set)

    @property
    def lines(self) -> int:
        return self.text.count("\n") + 1

    @property
    def at(self) -> str:
        return f"crates/{self.crate}/src/{self.path}"


Item = Union[Definition, Declared]
# Names to (path of a module, name there).
Imports = dict[str, tuple[str, str]]


@dataclass(eq=False)
class Module:
    """A file of `specs/`. `head` is the comment at its top."""

    crate: str
    name: str
    head: str
    definitions: list[Definition]
    imports: Imports
    aliases: dict[str, str]


def without_comments(text: str) -> str:
    lines = text.split("\n")
    return "\n".join("" if line.lstrip().startswith("--") else line for line in lines)


def imports_of(text: str, prefix: str) -> tuple[Imports, dict[str, str]]:
    """What a file's `use` lines bring in: names to where they come from, and aliases to modules."""
    names: Imports = {}
    aliases: dict[str, str] = {}
    for found in re.finditer(IMPORT.format(prefix, WORD), text, re.M):
        path, items, alias = found.groups()
        if items is not None:
            for item in filter(None, (it.strip() for it in items.split(","))):
                name, _, other = item.partition(" as ")
                names[other.strip() or name] = (path, name)
        elif alias:
            aliases[alias] = path
        else:
            path, _, name = path.rpartition(".")
            names[name] = (path, name)
    return names, aliases


def _starts(lines: list[str]) -> list[tuple[int, str, str]]:
    """Where each top item begins, its kind and its name."""
    starts = []
    inside = False
    for number, line in enumerate(lines):
        if re.match(r"(abbrev mutual|mutual|module _ )", line):
            starts.append((number, "block", ""))
            inside = True
            continue
        if inside and (line.startswith(" ") or not line):
            continue
        inside = False
        found = ITEM.match(line)
        if line.startswith(("use ", "pub mod ", "mod ")):
            starts.append((number, "use", ""))
        elif found:
            kind = found["kind"] or ("def" if found["unfold"] else "lemma")
            starts.append((number, kind, found["name"]))
        elif re.match(rf"^{WORD} : ", line):
            starts.append((number, "lemma", line.split()[0]))
    return starts


def _definition(module: Module, lines: list[str], start: tuple[int, str, str], end: int) -> Definition:
    """The item that begins at a start, with the comment above it."""
    number, kind, name = start
    first = number
    while first > 0 and lines[first - 1].startswith(("--", "infix")):
        first -= 1
    # what stands above the next one belongs to it
    while end > number + 1 and (not lines[end - 1].strip() or lines[end - 1].startswith(("--", "infix"))):
        end -= 1
    english = " ".join(line[2:].strip() for line in lines[first:number] if line.startswith("--"))
    body = "\n".join(lines[number:end])
    names = {name}
    if kind == "block":
        found = OF_A_BLOCK.findall(body)
        names, name = set(found), " ".join(dict.fromkeys(found))
    made = Definition(module.crate, module.name, name, kind, number + 1, body, english, names)
    if kind == "data":
        made.constructors = set(re.findall(rf"^  (?:pub )?({WORD}) : ", body, re.M))
    if kind == "block" and re.search(r"^  (?:pub )?data ", body, re.M):
        made.constructors = set(re.findall(rf"^    (?:pub )?({WORD}) : ", body, re.M))
    return made


def read_module(path: Path, crate: str, name: str) -> Module:
    """A file of `specs/` with its definitions, whose words aren't looked up yet."""
    text = path.read_text(encoding="utf-8")
    lines = text.split("\n")
    head = []
    for line in lines:
        if not line.startswith("--"):
            break
        head.append(line[2:].strip())
    module = Module(crate, name, " ".join(head), [], *imports_of(text, "use"))
    starts = _starts(lines)
    for place, start in enumerate(starts):
        end = starts[place + 1][0] if place + 1 < len(starts) else len(lines)
        if start[1] != "use":
            module.definitions.append(_definition(module, lines, start, end))
    return module


def _end_of_item(lines: list[str], number: int, kind: str) -> int:
    """Behind the last line of a type, trait or constant that begins at a line."""
    is_short = kind in ("const", "type") or lines[number].rstrip().endswith(";")
    for end in range(number + 1, len(lines) + 1):
        last = lines[end - 1].rstrip()
        if last.endswith(";") if is_short else last.startswith("}") or last.endswith("{}"):
            return end
    return number + 1


def declared_items(crate: str, folder: Path) -> dict[str, list[Declared]]:
    """Types, traits and constants of a crate's `src/`, by name."""
    items: dict[str, list[Declared]] = {}
    for path in sorted(folder.rglob("*.rt")):
        lines = path.read_text(encoding="utf-8").split("\n")
        for number, line in enumerate(lines):
            found = re.match(rf"^(?:pub(?:\(crate\))? )?(struct|enum|trait|const|type) ({WORD})", line)
            if not found:
                continue
            kind, name = found.groups()
            end = _end_of_item(lines, number, kind)
            body = "\n".join(lines[number:end])
            made = Declared(crate, str(path.relative_to(folder)), name, kind, number + 1, body)
            items.setdefault(name, []).append(made)
    return items
