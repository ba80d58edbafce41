"""The objects of an office, read from its own writing of them."""

from __future__ import annotations

from dataclasses import dataclass
from functools import cached_property, lru_cache
from typing import Any, Optional

from slo_tools import questions
from slo_tools.nodes import Fields, Items, Node, Scalar
from slo_tools.office import Office
from slo_tools.questions import Question
from slo_tools.refusals import Foreign, NotFound
from slo_tools.spelling import minutes_of_duration
from slo_tools.yaml_reading import NotWritten, read_written


@dataclass(frozen=True)
class Document:
    """An object as maps, lists and texts; numbers are as they were written."""

    kind: str
    name: str
    members: dict[str, Any]

    @property
    def spec(self) -> dict[str, Any]:
        return map_of(self.members.get("spec"))

    @property
    def display(self) -> str:
        return str(map_of(self.members.get("metadata")).get("displayName") or self.name)

    def annotation(self, key: str) -> Optional[str]:
        """The text of an annotation, None where there is none. Raises Foreign for what is no text."""
        metadata = map_of(self.members.get("metadata"))
        annotations = metadata.get("annotations")
        if annotations is not None and not isinstance(annotations, dict):
            raise Foreign(200, f"the annotations of {self.kind} {self.name} are no map")
        value = map_of(annotations).get(key)
        if value is not None and not isinstance(value, str):
            raise Foreign(200, f"the annotation {key} of {self.kind} {self.name} is no text")
        return value


@dataclass(frozen=True)
class Objective:
    """An objective: its number in the SLO, its name for people, its target as it was written."""

    number: int
    display: str
    target: str


@dataclass(frozen=True)
class Slo:
    """What the tools ask of an SLO."""

    document: Document

    @property
    def name(self) -> str:
        return self.document.name

    @property
    def service(self) -> str:
        return str(self.document.spec.get("service", ""))

    @property
    def indicator(self) -> str:
        return str(self.document.spec.get("indicatorRef", ""))

    @property
    def method(self) -> str:
        return str(self.document.spec.get("budgetingMethod", ""))

    @cached_property
    def objectives(self) -> list[Objective]:
        """Its objectives. Raises Foreign where it has none."""
        found = self.document.spec.get("objectives")
        if not isinstance(found, list) or not found:
            raise Foreign(200, f"SLO {self.name} has no objectives")
        return [_objective(number, members) for number, members in enumerate(found)]

    @property
    def policies(self) -> list[str]:
        """The names of its policies. Raises Foreign where they have another form."""
        return _references(self.document, "alertPolicies", "alertPolicyRef")

    @property
    def window(self) -> dict[str, Any]:
        """Its window. Raises Foreign where it has none."""
        found = self.document.spec.get("timeWindow")
        if not isinstance(found, list) or not found or not isinstance(found[0], dict):
            raise Foreign(200, f"SLO {self.name} has no window")
        return found[0]

    @property
    def zone(self) -> str:
        return str(map_of(self.window.get("calendar")).get("timeZone", "UTC"))


@dataclass(frozen=True)
class Condition:
    """What the tools ask of a policy's condition: its severity, and the minutes of its window."""

    severity: str
    lookback: Optional[int]


# The policies that every office has, by the shorter of their windows (docs/rules.md).
BUILT_IN = {
    "workbook-page": Condition("page", 5),
    "workbook-ticket": Condition("ticket", 360),
}


@lru_cache(maxsize=4096)
def read_document(text: str) -> Document:
    """The object that the office writes as this text. Raises Foreign where it is no object."""
    try:
        members = _plain(read_written(text))
        kind, name = members["kind"], members["metadata"]["name"]
    except (NotWritten, KeyError, TypeError) as fault:
        raise Foreign(200, f"the text is no object: {fault}") from fault
    if not isinstance(kind, str) or not isinstance(name, str):
        raise Foreign(200, "the text is no object: its kind or name is no text")
    return Document(kind, name, members)


def _plain(node: Node) -> Any:
    """A node as maps, lists and texts: no number is rounded."""
    if isinstance(node, Scalar):
        return node.text
    if isinstance(node, Items):
        return [_plain(item) for item in node.items]
    assert isinstance(node, Fields)
    return {key.text: _plain(value) for key, value in node.entries}


def map_of(value: Any) -> dict[str, Any]:
    """A map of a document; an empty one where something else or nothing stands."""
    return value if isinstance(value, dict) else {}


def document(kind: str, name: str) -> Question[Document]:
    """An object of an office, which has to be the one that is asked for."""
    text = questions.object_text(kind, name)
    return Question(text.path, lambda answer: named(read_document(text.read(answer)), kind, name))


def named(found: Document, kind: str, name: str) -> Document:
    """The object where it is of this kind and name. Raises Foreign."""
    if (found.kind, found.name) != (kind, name):
        raise Foreign(200, f"{found.kind} {found.name} came for {kind} {name}")
    return found


def object_of(office: Office, kind: str, name: str) -> Document:
    """An object of an office, asked of it."""
    return named(read_document(office.object_text(kind, name)), kind, name)


def slo_of(office: Office, name: str) -> Slo:
    return Slo(object_of(office, "SLO", name))


def conditions_of(office: Office, policy: str) -> list[Condition]:
    """A policy's conditions; none where it or one of them isn't there (any more)."""
    if policy in BUILT_IN:
        return [BUILT_IN[policy]]
    try:
        names = condition_names(object_of(office, "AlertPolicy", policy))
        return [condition_of(object_of(office, "AlertCondition", name)) for name in names]
    except NotFound:
        return []


def condition_names(policy: Document) -> list[str]:
    """The names of a policy's conditions. Raises Foreign where they have another form."""
    return _references(policy, "conditions", "conditionRef")


def condition_of(document: Document) -> Condition:
    """What is asked of a condition. Raises Foreign where it has no severity."""
    severity = document.spec.get("severity")
    if not isinstance(severity, str) or not severity:
        raise Foreign(200, f"the condition {document.name} has no severity")
    lookback = str(map_of(document.spec.get("condition")).get("lookbackWindow", ""))
    return Condition(severity, minutes_of_duration(lookback))


def _objective(number: int, members: Any) -> Objective:
    if not isinstance(members, dict):
        raise Foreign(200, f"objective {number} is no map")
    target = members.get("target")
    text = f"{members.get('targetPercent')}%" if target is None else str(target)
    return Objective(number, str(members.get("displayName") or number), text)


def _references(document: Document, field: str, key: str) -> list[str]:
    """The names that a list of an object's `spec` refers to."""
    found = document.spec.get(field)
    if found is None:
        return []
    items = found if isinstance(found, list) else [None]
    names = [item if isinstance(item, str) else map_of(item).get(key) for item in items]
    if not all(isinstance(name, str) and name for name in names):
        raise Foreign(200, f"`{field}` of {document.kind} {document.name} has another form")
    return [str(name) for name in names]
