"""How an objective stands, and which one stands worst. Nothing is asked here."""

from __future__ import annotations

from collections.abc import Iterable
from dataclasses import dataclass
from enum import Enum, IntEnum
from fractions import Fraction
from typing import Optional


class Status(IntEnum):
    """What all objectives come to, each as the program's exit status."""

    QUIET = 0
    BURNING = 1
    UNKNOWN = 2


class State(Enum):
    """The states of an objective, gravest first."""

    BREACHING = "breaching"
    SPENT = "spent"
    STALE = "old data"
    NO_WINDOW = "no window"
    NO_DATA = "no data"
    QUIET = "quiet"


_ORDER = list(State)


@dataclass(frozen=True)
class Facts:
    """What the office said of an objective; `counted` is None where no window has begun. `alerts`
    are the states of its policies, None where the office didn't say one; `paging` are those of them
    that wake somebody."""

    counted: Optional[int]
    remaining: Optional[Fraction]
    age: Optional[int]
    is_stale: bool
    alerts: dict[str, Optional[str]]
    paging: frozenset[str] = frozenset()

    @property
    def breaching(self) -> list[str]:
        """The policies that breach, first those that page."""
        found = [policy for policy, state in self.alerts.items() if state == "breaching"]
        return sorted(found, key=lambda policy: policy not in self.paging)

    @property
    def is_paging(self) -> bool:
        return not self.paging.isdisjoint(self.breaching)

    @property
    def state(self) -> State:
        if self.breaching:
            return State.BREACHING
        if self.remaining is not None and self.remaining <= 0:
            return State.SPENT
        if self.counted is None:
            return State.NO_WINDOW
        if self.is_stale:
            return State.NO_DATA if self.age is None else State.STALE
        is_judged = all(state == "quiet" for state in self.alerts.values())
        return State.QUIET if self.counted and is_judged else State.NO_DATA


@dataclass(frozen=True)
class Line:
    """An objective of an SLO, with its burn rates over the lookbacks."""

    slo: str
    number: int
    facts: Facts
    burns: list[Optional[Fraction]]

    def rank(self) -> tuple[int, bool, Fraction, str, int]:
        """Worst first, what pages before what doesn't, and among equals the least budget first."""
        order = _ORDER.index(self.facts.state), not self.facts.is_paging
        return *order, self.facts.remaining or Fraction(0), self.slo, self.number


def status_of(lines: Iterable[Line]) -> Status:
    """What burns is known to burn, whatever else couldn't be told; without that, nothing is called
    quiet whose data is old or lacking."""
    states = {line.facts.state for line in lines}
    if states & {State.BREACHING, State.SPENT}:
        return Status.BURNING
    return Status.QUIET if states == {State.QUIET} else Status.UNKNOWN
