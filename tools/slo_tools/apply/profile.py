"""Nodes, written in the office's profile of YAML (docs/yaml.md)."""

from __future__ import annotations

import re
from collections.abc import Iterator
from decimal import Decimal, InvalidOperation
from typing import Optional

from slo_tools.nodes import Fault, Fields, Items, Node, Scalar

CONTROL = re.compile("[\x00-\x08\x0b-\x1f\x7f]")
SURROGATE = re.compile("[\ud800-\udfff]")
# What a plain scalar may not begin with, and what may not stand in it (docs/yaml.md).
INDICATORS = "-?:,[]{}#&*!|>'\"%@`"
ENDS_PLAIN = re.compile(r":(?=[ \t]|$)|[ \t]#")
SIMPLE_KEY = re.compile(r"[A-Za-z][A-Za-z0-9_.-]*")
ESCAPES = {"\\": "\\\\", '"': '\\"', "\n": "\\n", "\t": "\\t"}
ESCAPED = re.compile('[\\\\"\n\t]')

# Fields whose values are kept as they stand, whatever they are.
FREE = frozenset(["labels", "annotations", "connectionDetails", "metricSource"])
NUMBERS = frozenset(["target", "targetPercent", "value", "threshold", "timeSliceTarget"])
DECIMAL = re.compile(r"\d+(\.\d{1,9})?")


def written(document: Node) -> str:
    """The text of a document that is a map or a list."""
    inline = _inline(document)
    if inline is not None:
        return f"{inline}\n"
    return "".join(f"{line}\n" for line in _block(document, 0))


def unwritable(node: Node) -> Iterator[Fault]:
    """The scalars that no text of the profile can hold."""
    if isinstance(node, Scalar):
        if CONTROL.search(node.text):
            yield Fault(node.place, "control", why="a control character")
        if SURROGATE.search(node.text):
            yield Fault(node.place, "not_utf8", why="half of a surrogate pair")
    elif isinstance(node, Items):
        for item in node.items:
            yield from unwritable(item)
    else:
        for key, value in node.entries:
            yield from unwritable(key)
            yield from unwritable(value)


def with_plain_numbers(node: Node) -> Node:
    """The node with its numbers in the one form that the office reads: `.5` and `5e-1` as 0.5."""
    if isinstance(node, Items):
        return Items(node.place, tuple(with_plain_numbers(item) for item in node.items))
    if isinstance(node, Scalar):
        return node
    return Fields(node.place, tuple((key, _value(key.text, value)) for key, value in node.entries))


def _value(key: str, value: Node) -> Node:
    if key in FREE:
        return value
    if key in NUMBERS and isinstance(value, Scalar) and value.plain:
        return Scalar(value.place, _number(value.text), True)
    return with_plain_numbers(value)


def _number(text: str) -> str:
    if DECIMAL.fullmatch(text):
        return text
    try:
        value = Decimal(text)
        if not value.is_finite() or abs(value.adjusted()) > 20:
            return text
    except InvalidOperation:
        return text
    plain = format(value, "f")
    return plain.rstrip("0").rstrip(".") if "." in plain else plain


def _block(node: Node, indent: int) -> Iterator[str]:
    """The lines of a map or list whose keys or dashes stand at a column."""
    spaces = " " * indent
    if isinstance(node, Fields):
        for key, value in node.entries:
            yield from _with_value(f"{spaces}{_key(key.text)}:", value, indent + 2)
    elif isinstance(node, Items):
        for item in node.items:
            yield from _item(spaces, item, indent)
    else:
        yield spaces + _scalar(node)


def _with_value(front: str, value: Node, indent: int) -> Iterator[str]:
    inline = _inline(value)
    if inline is None:
        yield front
        yield from _block(value, indent)
    else:
        yield f"{front} {inline}".rstrip(" ")


def _item(spaces: str, item: Node, indent: int) -> Iterator[str]:
    inline = _inline(item)
    if inline is not None:
        yield f"{spaces}- {inline}".rstrip(" ")
        return
    # A map or list in an item begins on the dash's line.
    lines = _block(item, indent + 2)
    yield f"{spaces}- {next(lines)[indent + 2 :]}"
    yield from lines


def _inline(node: Node) -> Optional[str]:
    if isinstance(node, Scalar):
        return _scalar(node)
    if isinstance(node, Fields):
        return None if node.entries else "{}"
    return None if node.items else "[]"


def _key(text: str) -> str:
    return text if SIMPLE_KEY.fullmatch(text) else _quoted(text)


def _scalar(node: Scalar) -> str:
    if node.is_null:
        return ""
    return node.text if node.plain and _can_be_plain(node.text) else _quoted(node.text)


def _can_be_plain(text: str) -> bool:
    if text != text.strip(" \t") or "\n" in text or "\t" in text or text[:3] in ("---", "..."):
        return False
    if text[0] in INDICATORS and (text[0] not in "-?:" or text[1:2] in ("", " ")):
        return False
    return ENDS_PLAIN.search(text) is None


def _quoted(text: str) -> str:
    return '"' + ESCAPED.sub(lambda found: ESCAPES[found[0]], text) + '"'
