"""Queries of indicators that slo-feed won't read, told before they stand in an office."""

from __future__ import annotations

from collections.abc import Iterator, Mapping, Sequence
from typing import NamedTuple, Optional

from slo_tools.apply.folder import Document, Told
from slo_tools.apply.form import TRUE
from slo_tools.apply.planning import node_of
from slo_tools.feed.objects import ENGINES
from slo_tools.feed.promql import fault_of
from slo_tools.nodes import Fault, Node, Place, Scalar, node_at, text_at
from slo_tools.openslo import METRIC_PATHS, Found

UNREAD = "unread_query"
VALUES = (("thresholdMetric",), ("ratioMetric", "raw"))

Name = tuple[str, str]


def query_faults(documents: Sequence[Document], running: Mapping[Name, str]) -> list[Told]:
    """What slo-feed won't read of a folder's indicators whose DataSource it reads."""
    types = {
        name[1]: text_at(node_of(name, text), "spec", "type")
        for name, text in running.items()
        if name[0] == "DataSource"
    }
    for document in documents:
        for found in document.objects:
            if found.kind == "DataSource":
                types[found.name] = text_at(found.node, "spec", "type")
    return [
        Told(document.file, fault)
        for document in documents
        for found in document.objects
        if found.kind == "SLI"
        for fault in _faults(found, types)
    ]


class _Part(NamedTuple):
    """A part of an indicator: where its source is, the DataSource that it names, its query."""

    path: tuple[str, ...]
    place: Place
    source: Optional[str]
    query: Optional[Node]

    @property
    def word(self) -> str:
        return self.path[-1]


def _faults(sli: Found, types: Mapping[str, Optional[str]]) -> Iterator[Fault]:
    parts = list(_parts(sli))
    sources = sorted({part.source or "" for part in parts})
    # Without a name the feed's configuration says what is asked.
    if "" in sources or not any(types.get(source) in ENGINES for source in sources):
        return
    if len(sources) > 1:
        why = f"the parts are of several DataSources, {' and '.join(sources)}"
        yield _fault(sli, parts[-1], parts[-1].place, why)
        return
    is_counter = text_at(sli.node, "spec", "ratioMetric", "counter") in (None, *TRUE)
    for part in parts:
        if not isinstance(part.query, Scalar) or not part.query.text.strip():
            yield _fault(sli, part, part.place, "there is no spec.query")
        elif is_counter and part.path not in VALUES and types[sources[0]] == "Prometheus":
            refusal = fault_of(part.query.text.strip())
            if refusal is not None:
                yield _fault(sli, part, part.query.place, refusal, ".spec.query")


def _parts(sli: Found) -> Iterator[_Part]:
    for path in METRIC_PATHS:
        source = node_at(sli.node, "spec", *path, "metricSource")
        if source is not None:
            named = text_at(source, "metricSourceRef")
            yield _Part(path, source.place, named, node_at(source, "spec", "query"))


def _fault(sli: Found, part: _Part, place: Place, why: str, key: str = "") -> Fault:
    path = sli.at(".".join(["spec", *part.path, "metricSource"]))
    return Fault(
        place, UNREAD, path + key, f"slo-feed won't read {part.word} of SLI {sli.name}: {why}"
    )
