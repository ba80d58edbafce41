"""Documents as nodes that know where they stand in their file."""

from __future__ import annotations

from collections.abc import Iterator
from dataclasses import dataclass
from typing import NamedTuple, Optional, Union

NULLS = frozenset(["", "~", "null", "Null", "NULL"])


class Place(NamedTuple):
    """A line and a column, both counted from 1."""

    line: int
    column: int


class Fault(NamedTuple):
    """What is wrong at a place: the rule's word, the path in the document, more for people."""

    place: Place
    rule: str
    path: str = ""
    why: str = ""


@dataclass(frozen=True)
class Scalar:
    """A text. One that stood without quotes is plain, and may stand for nothing."""

    place: Place
    text: str
    plain: bool

    @property
    def is_null(self) -> bool:
        return self.plain and self.text in NULLS


@dataclass(frozen=True)
class Items:
    """A list."""

    place: Place
    items: tuple[Node, ...]


@dataclass(frozen=True)
class Fields:
    """A map, its entries in the order in which they stand."""

    place: Place
    entries: tuple[tuple[Scalar, Node], ...]

    def entry(self, key: str) -> Optional[tuple[Scalar, Node]]:
        """The entry of a key, unless it is omitted or null."""
        for name, value in self.entries:
            if name.text == key and not (isinstance(value, Scalar) and value.is_null):
                return name, value
        return None

    def get(self, key: str) -> Optional[Node]:
        found = self.entry(key)
        return None if found is None else found[1]


Node = Union[Scalar, Items, Fields]


def text_at(node: Optional[Node], *keys: str) -> Optional[str]:
    """The text of the scalar that stands at a path of keys, if one does."""
    found = node_at(node, *keys)
    return found.text if isinstance(found, Scalar) else None


def node_at(node: Optional[Node], *keys: str) -> Optional[Node]:
    for key in keys:
        if not isinstance(node, Fields):
            return None
        node = node.get(key)
    return node


def items_at(node: Optional[Node], *keys: str) -> Iterator[Node]:
    """The items of the list at a path of keys, none where there is no list."""
    found = node_at(node, *keys)
    if isinstance(found, Items):
        yield from found.items
