"""Which indicators have no rows any more: how old is too old, and which ended together."""

from __future__ import annotations

from collections.abc import Collection, Mapping
from dataclasses import dataclass
from typing import Optional

from slo_tools.freshness import LONGEST
from slo_tools.objects import Document
from slo_tools.spelling import minutes_of_duration

STALE = "slo-office/stale"


class BadStale(Exception):
    """An annotation in a form that isn't known; what would hold without it holds."""


def read_stale(text: str) -> int:
    """`8h` as minutes."""
    minutes = minutes_of_duration(text.strip())
    if minutes is None or not 1 <= minutes <= LONGEST:
        raise BadStale(f"{STALE}: {text!r} is no duration from 1m to 30d, as 8h")
    return minutes


def stale_of(
    slo: Document, service: Optional[Document], usual: int
) -> tuple[int, list[tuple[str, str]]]:
    """How old an SLO's newest row may be, by its own annotation, else by that of its service, else
    as it is set; and what can't be read, as places and reasons."""
    faults: list[tuple[str, str]] = []
    for document in (slo, service):
        text = None if document is None else document.annotation(STALE)
        if document is None or text is None:
            continue
        try:
            return read_stale(text), faults
        except BadStale as fault:
            faults.append((f"{document.kind} {document.name}", str(fault)))
    return usual, faults


@dataclass(frozen=True)
class Stop:
    """Indicators whose rows ended together. `newest` is the newest minute for which the office had
    a row of anything then."""

    members: tuple[str, ...]
    newest: int


def label_of(members: Collection[str]) -> str:
    """A name for people, and the receiver's for the alert."""
    first = min(members)
    return first if len(members) == 1 else f"{first} and {len(members) - 1} more"


def next_stops(before: Mapping[str, Stop], stale: Collection[str], newest: int) -> dict[str, Stop]:
    """The stops behind a round, each by the label that it got at its begin.

    What is stale first belongs to a stop since which no row of anything has come, and else to one of
    its own: a feed that dies is one stop, however many indicators it has.
    """
    stops = {}
    for label, stop in before.items():
        left = tuple(name for name in stop.members if name in stale)
        if left:
            stops[label] = Stop(left, stop.newest)
    known = {name for stop in stops.values() for name in stop.members}
    begun = sorted(name for name in stale if name not in known)
    if begun:
        same = [label for label, stop in stops.items() if stop.newest == newest]
        label = same[0] if same else label_of(begun)
        members = stops[label].members if label in stops else ()
        stops[label] = Stop(tuple(sorted({*members, *begun})), newest)
    return stops
