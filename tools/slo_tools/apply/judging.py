"""The judging of a folder by a scratch office, each fault with its place in its file."""

from __future__ import annotations

from collections import Counter
from collections.abc import Iterable, Sequence
from dataclasses import dataclass
from typing import Optional

from slo_tools.apply.folder import Document, Folder, Told
from slo_tools.apply.form import MOST_FAULTS, NAME, ZONE_NAME, ZONE_NAMES, faults_of, key_of
from slo_tools.apply.hints import nearest, of_limit
from slo_tools.nodes import Fault, Fields, Items, Node, Place, Scalar, items_at, node_at, text_at
from slo_tools.openslo import BUILT_IN_POLICIES, KINDS_BY_REFERENCE, Reference, references_of
from slo_tools.past.scratch import Answer, Message, Scratch

# A text of documents has at most 1,048,576 bytes.
MOST_BYTES = 1_000_000
MOST_COMPARED = 20

Name = tuple[str, str]


@dataclass(frozen=True)
class Base:
    """The running office's objects, where they are to be judged along: names and texts, and the
    zones that they name."""

    texts: dict[Name, str]
    zones: frozenset[str]


@dataclass(frozen=True)
class Judged:
    """The faults of a folder, or else its objects as the office writes them."""

    faults: list[Told]
    texts: dict[Name, str]


def judge(program: str, folder: Folder, base: Base) -> Judged:
    """Judges all that a folder has, over what the base has."""
    faults = list(folder.faults)
    with Scratch(program) as scratch:
        faults += _put_zones(scratch, folder, base)
        base_fault = define(scratch, base.texts.values())
        if base_fault is not None:
            raise ValueError(f"the running office's objects: {base_fault.text}")
        documents = folder.in_order()
        whole = define(scratch, (document.text for document in documents))
        if whole is None and not faults and not _spread(documents):
            return Judged([], _texts(scratch, documents))
    with Scratch(program) as scratch:
        _put_zones(scratch, folder, base)
        define(scratch, base.texts.values())
        faults += _Judge(scratch, documents, base, folder.unread).faults()
        if not faults:
            if whole is not None:
                place = Told("", Fault(Place(0, 0), "refused", why=whole.text))
                return Judged([place], {})
            return Judged([], _texts(scratch, documents))
    return Judged(faults, {})


def define(scratch: Scratch, texts: Iterable[str]) -> Optional[Answer]:
    """Defines documents in as few texts as they fit in; the first refusal, if there is one."""
    for text in joined(texts):
        answer = scratch.one(Message("POST", "/objects", text))
        if answer.status != 200:
            return answer
    return None


def joined(texts: Iterable[str]) -> list[bytes]:
    """Documents as texts of several, none too large where no document is."""
    made: list[bytes] = []
    for text in texts:
        piece = b"---\n" + text.encode("utf-8")
        if made and len(made[-1]) + len(piece) <= MOST_BYTES:
            made[-1] += piece
        else:
            made.append(piece)
    return made


def _put_zones(scratch: Scratch, folder: Folder, base: Base) -> list[Told]:
    """The folder's zones; a rule of UTC stands for each that the running office alone has."""
    own = {zone.name for zone in folder.zones}
    faults = []
    for zone in folder.zones:
        # A name stands in a request's head, where a line's end begins something else.
        if not ZONE_NAME.fullmatch(zone.name):
            faults.append(Told(zone.file, Fault(Place(1, 1), "bad_name", why=ZONE_NAMES)))
            continue
        answer = scratch.one(Message("PUT", f"/zones/{zone.name}", zone.content))
        if answer.status != 200:
            word = str(answer.members.get("error", ""))
            rule = "bad_zone" if word in ("bad_zone", "not_found") else word
            why = str(answer.members.get("which", zone.name))
            faults.append(Told(zone.file, Fault(Place(1, 1), rule, why=why)))
    for name in sorted(filter(ZONE_NAME.fullmatch, base.zones - own - {"UTC"})):
        scratch.one(Message("PUT", f"/zones/{name}", b"UTC0"))
    return faults


def _names(documents: Iterable[Document]) -> Counter[Name]:
    return Counter((f.kind, f.name) for document in documents for f in document.objects)


def _spread(documents: Sequence[Document]) -> bool:
    """Whether an object stands in several documents that don't fit one text, where the office
    would take the second for a change of the first."""
    repeated = any(count > 1 for count in _names(documents).values())
    return repeated and len(joined(document.text for document in documents)) > 1


def _texts(scratch: Scratch, documents: Sequence[Document]) -> dict[Name, str]:
    names = list(_names(documents))
    answers = scratch.ask([Message("GET", f"/objects/{kind}/{name}") for kind, name in names])
    return {name: answer.text for name, answer in zip(names, answers)}


class _Judge:
    """Judges document by document, each behind those that it may refer to."""

    def __init__(
        self, scratch: Scratch, documents: Sequence[Document], base: Base, unread: set[str]
    ) -> None:
        self.scratch = scratch
        self.unread = unread
        self.documents = documents
        self.known = set(base.texts) | {("AlertPolicy", name) for name in BUILT_IN_POLICIES}
        self.counts = _names(documents)
        # Names that stand nowhere, for each of which something stands in.
        self.nowhere: set[Name] = set()
        self.first: dict[Name, tuple[str, str, Place]] = {}
        self.told: list[Told] = []

    def faults(self) -> list[Told]:
        for document in self.documents:
            if len(self.told) >= MOST_FAULTS:
                break
            self._nowhere(document)
            answer = self._post(document.text)
            if answer.status == 200:
                self.known.update((f.kind, f.name) for f in document.objects)
                self._duplicates(document)
            else:
                self._refused(document, answer)
                self._stand_in(document)
        return self.told

    def _post(self, text: str) -> Answer:
        return self.scratch.one(Message("POST", "/objects", text.encode("utf-8")))

    def _tell(self, document: Document, faults: Iterable[Fault]) -> None:
        self.told += [Told(document.file, fault) for fault in faults]

    def _duplicates(self, document: Document) -> None:
        """A second content under a name, which the office alone can tell from the first."""
        for found in document.objects:
            name = (found.kind, found.name)
            if self.counts[name] < 2:
                continue
            text = self.scratch.one(Message("GET", f"/objects/{found.kind}/{found.name}")).text
            kept = self.first.setdefault(name, (text, document.file, found.place))
            if kept[0] != text:
                why = f"{found.kind} {found.name} stands at {kept[1]}:{kept[2].line} too"
                self._tell(
                    document, [Fault(found.place, "duplicate", found.at("metadata.name"), why)]
                )

    def _nowhere(self, document: Document) -> None:
        """Tells each reference to what stands nowhere, and lets something stand there, so that
        the document is judged further."""
        own = {(found.kind, found.name) for found in document.objects}
        for found in document.objects:
            for reference in references_of(found):
                name = (reference.kind, reference.name)
                if name in self.known or name in own or not NAME.fullmatch(reference.name):
                    continue
                if len(self.told) >= MOST_FAULTS:
                    return
                if name not in self.nowhere:
                    self.nowhere.add(name)
                    self._define_stand_in(reference.kind, reference.name, None)
                if reference.name not in self.unread:
                    path = found.at(reference.path)
                    why = f"{reference.kind} {reference.name}{self._nearest(reference)}"
                    self._tell(document, [Fault(reference.place, "unresolved", path, why)])

    def _nearest(self, reference: Reference) -> str:
        """The name that was meant; for the first faults alone, since it compares all names."""
        if len(self.told) >= MOST_COMPARED:
            return ""
        return nearest(reference.name, [n for kind, n in self.known if kind == reference.kind])

    def _refused(self, document: Document, answer: Answer) -> None:
        members = answer.members
        word = str(members.get("error", ""))
        if word == "object":
            self._tell(document, _form_faults(document, members["field"], members["rule"]))
        else:
            self._tell(document, [_fault_of(document, word, answer)])

    def _stand_in(self, document: Document) -> None:
        """What refers to objects that are at fault is judged as if they stood there."""
        for found in document.objects:
            name = (found.kind, found.name)
            if name not in self.known and self._define_stand_in(*name, found.node):
                self.known.add(name)

    def _define_stand_in(self, kind: str, name: str, node: Optional[Fields]) -> bool:
        threshold = node_at(node, "spec", "thresholdMetric") is not None
        text = stand_in(kind, name, threshold)
        return text is not None and self._post(text).status == 200


def stand_in(kind: str, name: str, threshold: bool) -> Optional[str]:
    """The least object of a kind; nothing refers to SLOs."""
    metric = "metricSource: {}"
    ratio = f"ratioMetric:\n    total:\n      {metric}\n    good:\n      {metric}"
    specs = {
        "DataSource": "type: x",
        "Service": "",
        "AlertNotificationTarget": "target: x",
        "AlertCondition": "severity: x\n  condition:\n    threshold: 1\n    lookbackWindow: 1h",
        "SLI": f"thresholdMetric:\n    {metric}" if threshold else ratio,
        "AlertPolicy": "",
    }
    if kind not in specs:
        return None
    spec = f"spec:\n  {specs[kind]}\n" if specs[kind] else "spec: {}\n"
    return f"apiVersion: openslo/v1\nkind: {kind}\nmetadata:\n  name: {name}\n{spec}"


def _form_faults(document: Document, field: str, rule: str) -> list[Fault]:
    """The places of a document's faults; the office's first is always among them."""
    faults = faults_of(document.node)
    if any((key_of(fault), fault.rule) == (field, rule) for fault in faults):
        return faults
    place = _first_key(document.node, field) or document.node.place
    return [Fault(place, rule, field)]


def _first_key(node: Node, key: str) -> Optional[Place]:
    if isinstance(node, Fields):
        for name, value in node.entries:
            found = name.place if name.text == key else _first_key(value, key)
            if found is not None:
                return found
    elif isinstance(node, Items):
        for item in node.items:
            found = _first_key(item, key)
            if found is not None:
                return found
    return None


def _fault_of(document: Document, word: str, answer: Answer) -> Fault:
    members = answer.members
    if word == "needs_op":
        for found in document.objects:
            if found.kind == "SLO" and found.name == members["slo"]:
                number = members["objective"]
                items = list(items_at(found.node, "spec", "objectives"))
                return Fault(items[number].place, word, found.at(f"spec.objectives[{number}]"))
    if word == "unknown_zone":
        for found in document.objects:
            for window in items_at(found.node, "spec", "timeWindow"):
                zone = node_at(window, "calendar", "timeZone")
                if isinstance(zone, Scalar) and zone.text == members["name"]:
                    path = "spec.timeWindow[0].calendar.timeZone"
                    return Fault(zone.place, word, path, zone.text)
    if word in ("reserved", "duplicate"):
        named = [f for f in document.objects if f.name == members["name"]]
        if named:
            return Fault(named[-1].place, word, named[-1].at("metadata.name"), named[-1].name)
    why = of_limit(str(members.get("which", ""))) if word == "limit" else answer.text
    return Fault(document.node.place, word or "refused", why=why)


def calendar_zones(documents: Iterable[Node]) -> set[str]:
    """The zones that calendars name."""
    zones = set()
    for document in documents:
        for window in items_at(document, "spec", "timeWindow"):
            zone = text_at(window, "calendar", "timeZone")
            if zone is not None:
                zones.add(zone)
    return zones


def rank_of(name: Name) -> int:
    """The place of an object's kind among those that may refer to one another."""
    return KINDS_BY_REFERENCE.index(name[0])
