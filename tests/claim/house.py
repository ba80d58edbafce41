"""All definitions of the repository, each with what it names; and the contracts that name them."""
from __future__ import annotations

import re
from collections import deque
from collections.abc import Iterable
from dataclasses import dataclass
from pathlib import Path

from claim.sources import WORD, Declared, Definition, Item, Module, declared_items, imports_of, read_module
from claim.words import Reader, contract_reader


@dataclass(frozen=True)
class Contract:
    """A contract or a trait: where it stands, what is said of it, and what it names."""

    crate: str
    path: str
    name: str
    english: str
    text: str
    uses: frozenset[Item]

    @property
    def link(self) -> str:
        return f"[`{self.name}`](../crates/{self.path})"


def key_of(one: Item) -> tuple[str, str, int]:
    return (one.crate, one.at, one.line)


def folders_of(root: Path) -> dict[str, Path]:
    """The crates of `crates.txt`, lowest first, with their folders."""
    lines = (root / "crates.txt").read_text(encoding="utf-8").splitlines()
    names = [it.split(":")[0].split()[0] for it in lines if it and not it.startswith("#")]
    return {name: root / "crates" / name for name in names}


class House:
    """Crates, lowest first, and all that they define."""

    def __init__(self, folders: dict[str, Path]) -> None:
        self.folders = folders
        self.crates = list(folders)
        self.modules: dict[tuple[str, str], Module] = {}
        self.declared: dict[str, dict[str, list[Declared]]] = {}
        self.by_path: dict[tuple[str, str, str], Definition] = {}
        for crate, folder in folders.items():
            self._read_crate(crate, folder)
        for module in self.modules.values():
            local = {name: it for it in module.definitions for name in it.names | it.constructors}
            reader = Reader(module, local, self.look_up, set(self.declared))
            for definition in module.definitions:
                reader.read(definition)
        for items in self.declared.values():
            for one in (it for found in items.values() for it in found):
                self._read_fields(one)

    def _read_crate(self, crate: str, folder: Path) -> None:
        self.declared[crate] = declared_items(crate, folder / "src")
        for path in sorted((folder / "specs").rglob("*.antt")):
            name = ".".join(path.relative_to(folder / "specs").with_suffix("").parts)
            module = read_module(path, crate, name)
            if not module.definitions:
                continue
            self.modules[crate, name] = module
            for definition in module.definitions:
                for one in definition.names | definition.constructors:
                    self.by_path[crate, name, one] = definition

    def look_up(self, path: str, name: str) -> Item | None:
        """What a name of a module is; None for one of the toolchain or of a ported crate."""
        parts = path.split(".")
        if parts[0] not in self.declared or parts[1:2] != ["specs"]:
            return None
        if parts[2:3] in (["declared"], ["contracts"]):
            return self._declared(parts[0], parts[3:], name)
        return self.by_path.get((parts[0], ".".join(parts[2:]), name))

    def _declared(self, crate: str, parts: list[str], name: str) -> Declared | None:
        """A type, by itself or by a variant of it, or a constant."""
        items = self.declared[crate]
        wanted = parts[-2] if "TheVariants" in parts or "TheImpl" in parts else name
        found = items.get(wanted) or next((items[it] for it in reversed(parts) if it in items), None)
        if not found:
            return None
        return next((it for it in found if len(found) > 1 and Path(it.path).stem in parts), found[0])

    def _read_fields(self, one: Declared) -> None:
        """A type rests on the types of its fields."""
        if one.kind not in ("struct", "enum"):
            return
        text = (self.folders[one.crate] / "src" / one.path).read_text(encoding="utf-8")
        homes = {}
        for use in re.finditer(r"^use (\w+)::([^;]*);", text, re.M):
            home = one.crate if use[1] in ("crate", "super") else use[1]
            homes.update({name: home for name in re.findall(r"[A-Z]\w*", use[2])})
        body = re.sub(r"ghost .*", "", re.sub(r"//.*", "", one.text))
        for name in set(re.findall(r"[A-Z]\w*", body)) - {one.name}:
            there = self.declared.get(homes.get(name, one.crate), {})
            if there.get(name):
                one.uses.add(there[name][0])

    def _contract(self, path: str, name: str, english: str, text: str, ghost_uses: str) -> Contract:
        crate = path.split("/")[0]
        stub = Definition(crate, "", name, "contract", 1, text, english, {name})
        imports = imports_of(ghost_uses, "ghost use")
        contract_reader(*imports, crate, self.look_up, set(self.declared)).read(stub)
        return Contract(crate, path, name, english, text, frozenset(stub.uses))

    def contract(self, path: str, name: str) -> Contract:
        """The contract of a function of `path`, as CRATE/src/FILE.rt."""
        text = self.source(path)
        head = r"((?:^[ ]*///[^\n]*\n|^[ ]*#\[[^\n]*\n)*)"
        function = rf"^([ ]*)(?:pub(?:\(crate\))? )?(?:const )?fn {name}\b.*?\n\2\{{(?:\}})?\n"
        found = re.search(head + function, text, re.M | re.S)
        if not found:
            raise SystemExit(f"statement: no function {name} in {path}")
        body = found[0].rstrip().rstrip("{}").rstrip()[len(found[1]) :]
        return self._contract(path, name, _english(found[1]), body, text)

    def trait(self, path: str, name: str) -> Contract:
        """A trait of the outside, by what its clauses name."""
        text = self.source(path)
        found = re.search(rf"((?:^///[^\n]*\n|^#\[[^\n]*\n)*)^pub trait {name}\b.*?^}}", text, re.M | re.S)
        if not found:
            raise SystemExit(f"statement: no trait {name} in {path}")
        lines = found[0][len(found[1]) :].split("\n")
        body = "\n".join(it for it in lines if not it.lstrip().startswith(("//", "ghost use")))
        return self._contract(path, name, _english(found[1]), body, text)

    def functions(self, path: str) -> list[str]:
        """The public functions of a file, in order."""
        return re.findall(rf"^pub fn ({WORD})", self.source(path), re.M)

    def source(self, path: str) -> str:
        """The text of a file of `src/`, as CRATE/src/FILE.rt."""
        crate, _, inside = path.partition("/")
        return (self.folders[crate] / inside).read_text(encoding="utf-8")


def _english(head: str) -> str:
    return " ".join(line.strip()[3:].strip() for line in head.split("\n") if "///" in line)


def reach(roots: Iterable[Item]) -> dict[Item, Item | None]:
    """Each item that these rest on, with the one by which it was found, nearest first."""
    came: dict[Item, Item | None] = {one: None for one in roots}
    todo = deque(came)
    while todo:
        one = todo.popleft()
        for other in sorted(one.uses, key=key_of):
            if other not in came:
                came[other] = one
                todo.append(other)
    return came
