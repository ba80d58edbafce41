"""What becomes of notices and open alerts in a round. Nothing is asked or sent here."""

from __future__ import annotations

from collections.abc import Collection, Mapping, Sequence
from dataclasses import dataclass, field
from typing import NamedTuple, Optional

from slo_tools.answers import Notice

BREACHING, NO_DATA, QUIET = "breaching", "no_data", "quiet"


class Binding(NamedTuple):
    """An objective of an SLO and a policy that watches it."""

    slo: str
    objective: int
    policy: str


class Present(NamedTuple):
    """How a binding stands: its state, `gone` where it is no binding any more, None where the
    office didn't say; whether its indicator's newest row is too old to believe it; whether the
    policy's shortest window held a slice with data, and no alert, when it last held a whole slice;
    and whether none of the windows can hold one at this minute."""

    state: Optional[str]
    is_stale: bool
    has_slice: bool = True
    is_hollow: bool = False


@dataclass
class Decisions:
    """What is to be done, in words of bindings and notices."""

    fire: dict[Binding, Notice] = field(default_factory=dict)
    again: list[Binding] = field(default_factory=list)
    end: dict[Binding, Optional[Notice]] = field(default_factory=dict)
    unsent: list[Notice] = field(default_factory=list)
    held: list[Notice] = field(default_factory=list)

    def settled(self) -> list[Notice]:
        """The notices that need no more telling once the receiver has heard of these."""
        ends = [notice for notice in self.end.values() if notice is not None]
        return [*self.fire.values(), *ends, *self.unsent]


def binding_of(notice: Notice) -> Binding:
    return Binding(notice.slo, notice.objective, notice.policy)


def first_of_each(notices: Sequence[Notice]) -> dict[Binding, Notice]:
    """The oldest notice of each binding. One a round is passed on, so that the receiver hears
    of an alert that has begun and ended before it hears of its end."""
    first: dict[Binding, Notice] = {}
    for notice in sorted(notices, key=lambda each: each.number):
        first.setdefault(binding_of(notice), notice)
    return first


def decide(
    opened: Sequence[Binding],
    notices: Sequence[Notice],
    present: Mapping[Binding, Present],
    hollow: Collection[Notice] = (),
) -> Decisions:
    """The decisions of a round; `hollow` are the notices of `no_data` of a minute at which no
    window can hold a whole slice."""
    decisions = Decisions()
    first = first_of_each(notices)
    for binding, notice in first.items():
        if notice in hollow and present[binding].is_hollow:
            # Whether data is lacking is known once a window can hold a slice again.
            decisions.held.append(notice)
        elif notice in hollow and present[binding].state != NO_DATA:
            decisions.unsent.append(notice)
        elif notice.state != QUIET:
            decisions.fire[binding] = notice
        elif binding not in opened:
            # Nothing is ended that wasn't begun here.
            decisions.unsent.append(notice)
        elif _has_ended(present[binding]):
            decisions.end[binding] = notice
        elif present[binding].state == BREACHING:
            # It burns again: the next notice says so, and the alert was never ended.
            decisions.unsent.append(notice)
        else:
            decisions.held.append(notice)
    for binding in opened:
        if binding in decisions.fire or binding in decisions.end:
            continue
        if binding not in first and _has_ended(present[binding]):
            decisions.end[binding] = None
        else:
            decisions.again.append(binding)
    return decisions


def _has_ended(present: Present) -> bool:
    """Whether an alert's end can be believed. Without data nothing has ended."""
    if present.state == "gone":
        return True
    if not present.has_slice:
        return False
    return present.state == QUIET and not present.is_stale
