"""Rows that an office is sent, and what it answers (docs/api.md)."""

from __future__ import annotations

from dataclasses import dataclass
from fractions import Fraction
from typing import Optional

from slo_tools.told import Told


@dataclass(frozen=True)
class SampleRow:
    """A line of a batch. `total` is None for the SLIs whose amount is a decimal, and where `amount`
    is empty: then the row is withdrawn."""

    sli: str
    source: str
    minute: int
    revision: int
    amount: str
    total: Optional[int] = None

    def line(self) -> str:
        total = "" if self.total is None else str(self.total)
        return f"{self.sli},{self.source},{self.minute},{self.revision},{self.amount},{total}"


@dataclass(frozen=True)
class Batch:
    """What became of a batch; `entry` is None where nothing changed."""

    entry: Optional[int]
    new: int
    newer: int
    repeated: int
    superseded: int


@dataclass(frozen=True)
class Defined:
    """How many objects a text defined, and its entry, None where all stood already."""

    applied: int
    entry: Optional[int]


@dataclass(frozen=True)
class ObjectName:
    """The kind and name of an object."""

    kind: str
    name: str


@dataclass(frozen=True)
class KeptRow:
    """The current row of a cell: amount and total, both None where it was withdrawn."""

    revision: int
    amount: Optional[str]
    total: Optional[int]


@dataclass(frozen=True)
class Budget:
    """The budget of one objective; the fractions are None where nothing was counted."""

    objective: int
    begin: Optional[int]
    num: int
    den: int
    error: Optional[Fraction]
    burn: Optional[Fraction]
    remaining: Optional[Fraction]


@dataclass(frozen=True)
class Budgets:
    """The budgets of an SLO at a minute."""

    at: int
    entries: int
    budgets: list[Budget]


@dataclass(frozen=True)
class Burn:
    """The burn rate of an objective over a lookback."""

    at: int
    entries: int
    num: int
    den: int
    burn: Optional[Fraction]


@dataclass(frozen=True)
class Alerts:
    """The intervals [from, to) in which an alert was active, and its state at the moment."""

    entries: int
    intervals: list[tuple[int, int]]
    state: str


@dataclass(frozen=True)
class Notice:
    """A change of an alert's state that waits until it is taken."""

    number: int
    at: int
    slo: str
    objective: int
    policy: str
    state: str


@dataclass(frozen=True)
class Ticked:
    """A tick's entry and how many notices it made."""

    entry: Optional[int]
    notices: int


def budget_of(told: Told) -> Budget:
    """A budget by the members of an answer."""
    return Budget(
        told.number("objective"),
        told.number_or_none("from"),
        told.number("num"),
        told.number("den"),
        told.fraction_or_none("error"),
        told.fraction_or_none("burn"),
        told.fraction_or_none("remaining"),
    )
