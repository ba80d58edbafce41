"""YAML, read into nodes: a text of any form, where what the office's profile leaves out is resolved
here, and the office's own writing of an object (docs/yaml.md), which PyYAML doesn't always take:
an office holds characters that YAML doesn't print, and some that PyYAML takes for a line's end."""

from __future__ import annotations

import re
from dataclasses import dataclass, field
from typing import Any, Optional

import yaml

from slo_tools.nodes import Fault, Fields, Items, Node, Place, Scalar

MAX_DEPTH = 32
# Aliases may stand for nodes again and again: no text of SLOs comes near this number.
MAX_NODES = 200_000

PREFIX = "tag:yaml.org,2002:"
STANDARD = frozenset(
    PREFIX + word
    for word in "str int float bool null timestamp merge value map seq omap pairs set".split()
)
DOCUMENT_START = re.compile(r"^---(?=\s|$)", re.MULTILINE)
LOADER: Any = getattr(yaml, "CSafeLoader", yaml.SafeLoader)

_QUOTED = r'"(?:[^"\\]|\\["\\nt])*"'
_ENTRY = re.compile(rf"([A-Za-z]+|{_QUOTED}):(?: (.+))?", re.DOTALL)
_WHOLE_QUOTED = re.compile(_QUOTED, re.DOTALL)
_ESCAPE = re.compile(r"\\(.)", re.DOTALL)
_ESCAPED = {"n": "\n", "t": "\t"}


@dataclass
class Reading:
    """The documents of a text that could be read, and the faults of the others."""

    documents: list[Node] = field(default_factory=list)
    faults: list[Fault] = field(default_factory=list)
    # How many nodes the text may still have.
    left: int = MAX_NODES


def read_yaml(text: str, most: int = MAX_NODES) -> Reading:
    """All documents of a text of at most so many nodes. After a fault the documents behind it are
    read as well."""
    reading = Reading(left=most)
    if _read_piece(text, 0, reading):
        return reading
    reading = Reading(left=most)
    line = 0
    for piece in pieces(text):
        _read_piece(piece, line, reading)
        line += piece.count("\n")
    return reading


class NotWritten(ValueError):
    """A text that isn't as an office writes an object."""


def read_written(text: str) -> Fields:
    """An object in the office's own writing, every character as it is held. Raises NotWritten."""
    *lines, rest = text.split("\n")
    if rest or not lines:
        raise NotWritten("it doesn't end with a line's end")
    reader = _Written(lines)
    node = reader.node(0, 1)
    if reader.at != len(lines) or not isinstance(node, Fields):
        raise NotWritten(f"line {reader.at + 1} has no place")
    return node


class _Written:
    """The lines of a canonical writing; a line that begins behind a dash stands deeper by two."""

    def __init__(self, lines: list[str]) -> None:
        self.lines = [(len(line) - len(line.lstrip(" ")), line.lstrip(" ")) for line in lines]
        self.at = 0

    def node(self, indent: int, depth: int) -> Node:
        """The map or list whose lines stand at an indentation, from the present line on."""
        if depth > MAX_DEPTH:
            raise NotWritten(f"maps and lists are nested above {MAX_DEPTH} deep")
        place = self._place()
        if self._is_dash(indent):
            items: list[Node] = []
            while self._is_dash(indent):
                items.append(self._item(indent, depth))
            return Items(place, tuple(items))
        entries: dict[str, tuple[Scalar, Node]] = {}
        while self.at < len(self.lines) and self.lines[self.at][0] == indent:
            key, value = self._entry(indent, depth)
            if key.text in entries:
                raise NotWritten(f"line {key.place.line}: the key {key.text} stands twice")
            entries[key.text] = key, value
        return Fields(place, tuple(entries.values()))

    def _is_dash(self, indent: int) -> bool:
        if self.at == len(self.lines) or self.lines[self.at][0] != indent:
            return False
        return self.lines[self.at][1] == "-" or self.lines[self.at][1].startswith("- ")

    def _item(self, indent: int, depth: int) -> Node:
        rest = self.lines[self.at][1][2:]
        self.lines[self.at] = (indent + 2, rest)
        if self._is_dash(indent + 2) or _ENTRY.fullmatch(rest):
            return self.node(indent + 2, depth + 1)
        return self._value(rest)

    def _entry(self, indent: int, depth: int) -> tuple[Scalar, Node]:
        place = self._place()
        found = _ENTRY.fullmatch(self.lines[self.at][1])
        if found is None:
            raise NotWritten(f"line {place.line} is no entry")
        key = _scalar(found[1], place)
        if found[2] is not None:
            return key, self._value(found[2])
        self.at += 1
        if self.at < len(self.lines) and self.lines[self.at][0] == indent + 2:
            return key, self.node(indent + 2, depth + 1)
        return key, Scalar(place, "", True)

    def _value(self, text: str) -> Node:
        place = self._place()
        self.at += 1
        if text == "{}":
            return Fields(place, ())
        return Items(place, ()) if text == "[]" else _scalar(text, place)

    def _place(self) -> Place:
        if self.at == len(self.lines):
            raise NotWritten("it ends too early")
        return Place(self.at + 1, self.lines[self.at][0] + 1)


def _scalar(text: str, place: Place) -> Scalar:
    if text[:1] != '"':
        return Scalar(place, text, True)
    if _WHOLE_QUOTED.fullmatch(text) is None:
        raise NotWritten(f"line {place.line} has a quoted text of another form")
    return Scalar(
        place, _ESCAPE.sub(lambda found: _ESCAPED.get(found[1], found[1]), text[1:-1]), False
    )


def pieces(text: str) -> list[str]:
    """The text cut before each marker of a document; directives stay with what they belong to."""
    cuts = [0, *(found.start() for found in DOCUMENT_START.finditer(text)), len(text)]
    found: list[str] = []
    for begin, end in zip(cuts, cuts[1:]):
        if found and all(line[:1] in ("", "%", "#") for line in found[-1].splitlines()):
            found[-1] += text[begin:end]
        else:
            found.append(text[begin:end])
    return found


def _read_piece(text: str, line: int, reading: Reading) -> bool:
    try:
        loader = LOADER(text)
    except yaml.YAMLError as fault:
        reading.faults.append(Fault(_place_of_error(fault, line), "control", why=str(fault)))
        return False
    try:
        while loader.check_node():
            composed = loader.get_node()
            converter = _Converter(loader, line, reading.left)
            node = converter.node(composed, 1)
            reading.left = converter.left
            reading.faults.extend(converter.faults)
            if reading.left <= 0:
                return True
            if node is not None and not (isinstance(node, Scalar) and node.is_null):
                reading.documents.append(node)
    except yaml.YAMLError as fault:
        reading.faults.append(Fault(_place_of_error(fault, line), "yaml", why=_why(fault)))
        return False
    finally:
        loader.dispose()
    return True


def _place_of_error(fault: yaml.YAMLError, line: int) -> Place:
    mark = getattr(fault, "problem_mark", None) or getattr(fault, "context_mark", None)
    if mark is None:
        return Place(line + 1, 1)
    return Place(line + mark.line + 1, mark.column + 1)


def _why(fault: yaml.YAMLError) -> str:
    words = [getattr(fault, name, None) for name in ("context", "problem")]
    return ", ".join(str(word) for word in words if word) or str(fault)


class _Converter:
    """Makes nodes of what PyYAML composed; each fault is kept, and its node left out."""

    def __init__(self, loader: Any, line: int, left: int) -> None:
        self.loader = loader
        self.line = line
        self.faults: list[Fault] = []
        self.left = left
        self.open: set[int] = set()

    def node(self, composed: Any, depth: int) -> Optional[Node]:
        place = self._place(composed)
        if self.left <= 0:
            return None
        self.left -= 1
        if self.left == 0:
            self._fault(place, "limit", f"more than {MAX_NODES:,} nodes, by aliases too")
            return None
        if id(composed) in self.open:
            self._fault(place, "left_out", "an alias stands inside its own anchor")
            return None
        if composed.tag not in STANDARD:
            self._fault(place, "left_out", f"the tag {composed.tag}")
            return None
        if isinstance(composed, yaml.ScalarNode):
            return self._scalar(composed, place)
        if depth > MAX_DEPTH:
            self._fault(place, "too_deep", f"maps and lists are nested above {MAX_DEPTH} deep")
            return None
        self.open.add(id(composed))
        try:
            if isinstance(composed, yaml.SequenceNode):
                items = [self.node(item, depth + 1) for item in composed.value]
                return Items(place, tuple(item for item in items if item is not None))
            return self._fields(composed, place, depth)
        finally:
            self.open.discard(id(composed))

    def _scalar(self, composed: Any, place: Place) -> Scalar:
        # The style is None or empty for a plain scalar; a tag of its own makes it a text.
        plain = not composed.style and (
            composed.tag != PREFIX + "str"
            or self.loader.resolve(yaml.ScalarNode, composed.value, (True, False)) == composed.tag
        )
        return Scalar(place, composed.value, plain)

    def _fields(self, composed: Any, place: Place, depth: int) -> Fields:
        entries: list[tuple[Scalar, Node]] = []
        merged: list[tuple[Scalar, Node]] = []
        names: set[str] = set()
        for key, value in composed.value:
            if key.tag == PREFIX + "merge":
                merged.extend(self._merged(value, depth))
                continue
            name = self.node(key, depth + 1)
            if name is None:
                continue
            if not isinstance(name, Scalar):
                self._fault(name.place, "left_out", "a key that is no scalar")
                continue
            if name.text in names:
                self.faults.append(Fault(name.place, "duplicate_key", name.text))
                continue
            made = self.node(value, depth + 1)
            if made is not None:
                entries.append((name, made))
                names.add(name.text)
        for name, made in merged:
            if name.text not in names:
                names.add(name.text)
                entries.append((name, made))
        return Fields(place, tuple(entries))

    def _merged(self, value: Any, depth: int) -> list[tuple[Scalar, Node]]:
        """The entries that a key `<<` takes over from other maps, the first of a name first."""
        made = self.node(value, depth + 1)
        sources = made.items if isinstance(made, Items) else (made,)
        entries: list[tuple[Scalar, Node]] = []
        for source in sources:
            if isinstance(source, Fields):
                entries.extend(source.entries)
            elif source is not None:
                self._fault(source.place, "left_out", "`<<` of what is no map")
        return entries

    def _place(self, composed: Any) -> Place:
        mark = composed.start_mark
        return Place(self.line + mark.line + 1, mark.column + 1)

    def _fault(self, place: Place, rule: str, why: str) -> None:
        self.faults.append(Fault(place, rule, why=why))
