"""JSON, read into nodes that know where they stand."""

from __future__ import annotations

import json
import re
from bisect import bisect_right
from json.decoder import scanstring  # type: ignore[attr-defined]

from slo_tools.nodes import Fault, Fields, Items, Node, Place, Scalar
from slo_tools.yaml_reading import MAX_DEPTH, MAX_NODES, Reading

BLANKS = re.compile(r"[ \t\r\n]*")
WORD = re.compile(r"-?(0|[1-9]\d*)(\.\d+)?([eE][-+]?\d+)?|true|false|null")


class _Stop(Exception):
    """The text is no JSON from a place on."""

    def __init__(self, at: int, rule: str, why: str) -> None:
        super().__init__(why)
        self.at = at
        self.rule = rule
        self.why = why


def read_json(text: str, most: int = MAX_NODES) -> Reading:
    """The document of a text of at most so many nodes; the items of a list at its top are a
    document each."""
    reader = _Reader(text, most)
    try:
        node = reader.whole()
    except _Stop as stop:
        fault = Fault(reader.place(stop.at), stop.rule, why=stop.why)
        return Reading([], [*reader.faults, fault], reader.left)
    documents = list(node.items) if isinstance(node, Items) else [node]
    return Reading(documents, reader.faults, reader.left)


class _Reader:
    def __init__(self, text: str, left: int) -> None:
        self.text = text
        self.left = left
        self.at = 0
        self.starts = [0, *(found.end() for found in re.finditer("\n", text))]
        self.faults: list[Fault] = []

    def place(self, at: int) -> Place:
        line = bisect_right(self.starts, at)
        return Place(line, at - self.starts[line - 1] + 1)

    def whole(self) -> Node:
        self.skip()
        node = self.node(0)
        self.skip()
        if self.at < len(self.text):
            raise _Stop(self.at, "json", "text behind the document")
        return node

    def skip(self) -> None:
        found = BLANKS.match(self.text, self.at)
        assert found is not None
        self.at = found.end()

    def next_is(self, character: str) -> bool:
        """Steps over a character and the blanks behind it, where it stands here."""
        if not self.text.startswith(character, self.at):
            return False
        self.at += 1
        self.skip()
        return True

    def node(self, depth: int) -> Node:
        begin = self.at
        self.count(begin)
        if depth > MAX_DEPTH:
            raise _Stop(begin, "too_deep", f"maps and lists are nested above {MAX_DEPTH} deep")
        if self.next_is("{"):
            return self.fields(begin, depth)
        if self.next_is("["):
            return self.items(begin, depth)
        if self.text.startswith('"', begin):
            return self.string()
        found = WORD.match(self.text, begin)
        if found is None:
            raise _Stop(begin, "json", "a value has to stand here")
        self.at = found.end()
        return Scalar(self.place(begin), found[0], True)

    def string(self) -> Scalar:
        begin = self.at
        try:
            text, self.at = scanstring(self.text, begin + 1, True)
        except json.JSONDecodeError as fault:
            raise _Stop(fault.pos, "json", fault.msg) from fault
        return Scalar(self.place(begin), text, False)

    def items(self, begin: int, depth: int) -> Items:
        items: list[Node] = []
        if not self.next_is("]"):
            while True:
                items.append(self.node(depth + 1))
                self.skip()
                if self.next_is("]"):
                    break
                self.need(",")
        return Items(self.place(begin), tuple(items))

    def fields(self, begin: int, depth: int) -> Fields:
        entries: dict[str, tuple[Scalar, Node]] = {}
        if not self.next_is("}"):
            while True:
                key, value = self.entry(depth)
                if key.text in entries:
                    self.faults.append(Fault(key.place, "duplicate_key", key.text))
                else:
                    entries[key.text] = key, value
                self.skip()
                if self.next_is("}"):
                    break
                self.need(",")
        return Fields(self.place(begin), tuple(entries.values()))

    def entry(self, depth: int) -> tuple[Scalar, Node]:
        if not self.text.startswith('"', self.at):
            raise _Stop(self.at, "json", "a key in double quotes has to stand here")
        self.count(self.at)
        key = self.string()
        self.skip()
        self.need(":")
        return key, self.node(depth + 1)

    def count(self, at: int) -> None:
        self.left -= 1
        if self.left < 0:
            raise _Stop(at, "limit", f"a folder has at most {MAX_NODES:,} nodes")

    def need(self, character: str) -> None:
        if not self.next_is(character):
            raise _Stop(self.at, "json", f"`{character}` has to stand here")
