"""The objects of a document, with those that stand inline in it."""

from __future__ import annotations

from collections.abc import Iterator
from typing import NamedTuple, Optional

from slo_tools.nodes import Fields, Items, Node, Place, Scalar, items_at, node_at, text_at

# In the order in which objects may refer to those before them.
KINDS_BY_REFERENCE = (
    "DataSource",
    "Service",
    "AlertNotificationTarget",
    "AlertCondition",
    "SLI",
    "AlertPolicy",
    "SLO",
)
BUILT_IN_POLICIES = frozenset(["workbook-page", "workbook-ticket"])


class Found(NamedTuple):
    """An object that a document defines: its kind and name, the map that it stands in, and where
    in its document that map is."""

    kind: str
    name: str
    place: Place
    node: Fields
    path: str = ""

    def at(self, path: str) -> str:
        """A path of the object, as one of its document."""
        return joined_path(self.path, path)


class Reference(NamedTuple):
    """A name of another object, and where it stands."""

    kind: str
    name: str
    place: Place
    path: str


def objects_in(document: Node) -> Iterator[Found]:
    """The objects of a document: those that stood inline, and last its own."""
    kind = text_at(document, "kind")
    if kind is not None and isinstance(document, Fields):
        yield from _objects_of(document, kind)


def _objects_of(node: Fields, kind: str, path: str = "") -> Iterator[Found]:
    for inner, inner_kind, inner_path in inline_in(node, kind):
        yield from _objects_of(inner, inner_kind, joined_path(path, inner_path))
    name = node_at(node, "metadata", "name")
    if isinstance(name, Scalar):
        yield Found(kind, name.text, name.place, node, path)


def joined_path(path: str, key: str) -> str:
    return f"{path}.{key}" if path else key


def inline_in(node: Fields, kind: str) -> Iterator[tuple[Fields, str, str]]:
    """The maps of objects that stand inline in an object, with kind and path."""
    if kind == "SLO":
        indicator = node_at(node, "spec", "indicator")
        if isinstance(indicator, Fields):
            yield indicator, "SLI", "spec.indicator"
        yield from _inline_items(node, "alertPolicies", "alertPolicyRef", "AlertPolicy")
    elif kind == "AlertPolicy":
        yield from _inline_items(node, "conditions", "conditionRef", "AlertCondition")
        yield from _inline_items(
            node, "notificationTargets", "targetRef", "AlertNotificationTarget"
        )


def _inline_items(
    node: Fields, key: str, reference: str, kind: str
) -> Iterator[tuple[Fields, str, str]]:
    for number, item in enumerate(items_at(node, "spec", key)):
        if isinstance(item, Fields) and item.get(reference) is None:
            yield item, kind, f"spec.{key}[{number}]"


def references_of(found: Found) -> Iterator[Reference]:
    """The names of other objects that stand in an object, without its inline ones."""
    spec = node_at(found.node, "spec")
    if found.kind == "SLO":
        yield from _reference(spec, "service", "Service")
        yield from _reference(spec, "indicatorRef", "SLI")
        yield from _references(spec, "alertPolicies", "alertPolicyRef", "AlertPolicy")
    elif found.kind == "AlertPolicy":
        yield from _references(spec, "conditions", "conditionRef", "AlertCondition")
        yield from _references(spec, "notificationTargets", "targetRef", "AlertNotificationTarget")
    elif found.kind == "SLI":
        for path in METRIC_PATHS:
            named = node_at(spec, *path, "metricSource", "metricSourceRef")
            if isinstance(named, Scalar):
                where = ".".join(["spec", *path, "metricSource", "metricSourceRef"])
                yield Reference("DataSource", named.text, named.place, where)


METRIC_PATHS = (
    ("thresholdMetric",),
    ("ratioMetric", "raw"),
    ("ratioMetric", "total"),
    ("ratioMetric", "good"),
    ("ratioMetric", "bad"),
)


def _reference(spec: Optional[Node], key: str, kind: str) -> Iterator[Reference]:
    named = node_at(spec, key)
    if isinstance(named, Scalar):
        yield Reference(kind, named.text, named.place, f"spec.{key}")


def _references(spec: Optional[Node], key: str, name: str, kind: str) -> Iterator[Reference]:
    items = node_at(spec, key)
    if not isinstance(items, Items):
        return
    for number, item in enumerate(items.items):
        named = node_at(item, name) if isinstance(item, Fields) else item
        if isinstance(named, Scalar):
            yield Reference(kind, named.text, named.place, f"spec.{key}[{number}]")
