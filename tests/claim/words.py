"""Which definitions a definition names: its words, looked up by the imports of its file."""
from __future__ import annotations

import re
from collections.abc import Callable, Iterator

from claim.sources import WORD, Definition, Imports, Item, Module, without_comments

# Constructors of the toolchain's types, which a pattern doesn't bind.
OF_STD = {"Some", "None", "Ok", "Err", "true", "false", "zero", "suc", "pos", "negsuc", "left", "right", "inl", "inr"}
TOKEN = re.compile(rf"(\.?)({WORD}(?:\.{WORD})*)|(◌?)([^\s\w(){{}}\[\],;:λ.]+)(◌?)")
# What a `do` block stands for.
OF_DO = ("◌>>=◌", "◌>>◌")

LookUp = Callable[[str, str], "Item | None"]


def constructor_test(module: Module, look_up: LookUp) -> Callable[[str], bool]:
    """Whether a word of the module names a constructor."""
    own = {name for it in module.definitions for name in it.constructors}

    def is_constructor(word: str) -> bool:
        if word in own:
            return True
        if word not in module.imports:
            return False
        path, name = module.imports[word]
        if "TheVariants" in path:
            return True
        if path.startswith("std."):
            return name in OF_STD
        found = look_up(path, name)
        return isinstance(found, Definition) and name in found.constructors

    return is_constructor


def bound_names(definition: Definition, is_constructor: Callable[[str], bool]) -> set[str]:
    """The variables of a definition: what it names for itself."""
    bound: set[str] = set()
    text = without_comments(definition.text)
    for found in re.finditer(rf"[({{]((?:{WORD} )+):", text):
        bound.update(found[1].split())
    for found in re.finditer(r"λ ([^.]*)\.", text):
        bound.update(re.findall(WORD, found[1]))
    bound.update(re.findall(rf"\blet ({WORD})", text))
    if definition.kind == "record":
        bound.update(re.findall(rf"^  (?:pub )?({WORD}) : ", text, re.M))
    if definition.kind in ("def", "block"):
        for left in _left_sides(definition, text):
            words = re.findall(rf"(?<![.\w']){WORD}(?!\.{WORD})", left)
            bound.update(word for word in words if not is_constructor(word))
    return bound


def _left_sides(definition: Definition, text: str) -> Iterator[str]:
    """What stands between a name and its `=`, for each of its equations."""
    for name in definition.names:
        equation = rf"^(?:  )?{re.escape(name)} ([^\n]*?(?:\n {{4,}}[^\n]*?)*?) =(?=\s)"
        for found in re.finditer(equation, text, re.M):
            if " : " not in found[1] or "(" in found[1]:
                yield found[1]


def _steps_of_do(text: str) -> dict[str, tuple[int, int]]:
    """The names of a `do` block: each is bound behind its line, and is an outer name on it."""
    steps: dict[str, tuple[int, int]] = {}
    for found in re.finditer(rf"^( *)({WORD}) ←.*\n(?:\1 +.*\n)*", text, re.M):
        steps.setdefault(found[2], (found.start(2), found.end()))
    return steps


class Reader:
    """Reads the words of a file's definitions. `local` is what the file itself defines."""

    def __init__(self, module: Module, local: dict[str, Definition], look_up: LookUp, crates: set[str]) -> None:
        self.module, self.local, self.look_up, self.crates = module, local, look_up, crates
        self.is_constructor = constructor_test(module, look_up)

    def read(self, definition: Definition) -> None:
        """Notes what a definition names, here and in what is ported."""
        bound = bound_names(definition, self.is_constructor)
        text = without_comments(definition.text)
        steps = _steps_of_do(text)
        for token in TOKEN.finditer(text):
            word = token[2]
            if not word:
                self._name(definition, f"◌{token[4]}◌")
            elif not token[1]:
                self._word(definition, text, token, bound, steps)
        if re.search(r"\bdo\b", text):
            for name in OF_DO:
                self._name(definition, name)
        definition.uses.discard(definition)

    def _word(self, definition: Definition, text: str, token: "re.Match[str]", bound: set[str], steps: dict[str, tuple[int, int]]) -> None:
        first, _, rest = token[2].partition(".")
        if first in self.module.aliases and first not in bound:
            self._add(definition, self.module.aliases[first], rest.split(".")[0])
            return
        is_field = text[token.end() :].startswith(" = ") and text[: token.start()].rstrip()[-1:] in ("{", ";")
        if first in bound or (is_field and "record" in text):
            return
        if first in steps and (token.start() == steps[first][0] or token.start() > steps[first][1]):
            return
        self._name(definition, first)
        self._name(definition, f"◌{first}◌")

    def _name(self, definition: Definition, name: str) -> None:
        if name in self.module.imports:
            self._add(definition, *self.module.imports[name])
        elif name in self.local:
            definition.uses.add(self.local[name])

    def _add(self, definition: Definition, path: str, name: str) -> None:
        found = self.look_up(path, name)
        if found is not None:
            definition.uses.add(found)
        elif path.split(".")[0] not in self.crates:
            definition.outside.add((path, name))


def contract_reader(imports: Imports, aliases: dict[str, str], crate: str, look_up: LookUp, crates: set[str]) -> Reader:
    """A reader of a contract, whose words come by `ghost use`."""
    return Reader(Module(crate, "", "", [], imports, aliases), {}, look_up, crates)
