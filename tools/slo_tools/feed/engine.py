"""What the feed asks of an engine that has the events."""

from __future__ import annotations

from collections.abc import Mapping
from dataclasses import dataclass, field
from enum import Enum
from typing import Optional, Protocol

from slo_tools.feed.cells import Amounts


class EngineError(Exception):
    """The engine couldn't be asked."""


class OddAnswer(EngineError):
    """An answer that isn't of its form. It says nothing of what else the engine would answer."""


class TooLarge(OddAnswer):
    """An answer of more bytes than are read."""


class QueryFault(ValueError):
    """A query that the engine can't run or the feed can't read; the text says why."""


class Form(Enum):
    """What the rows of an SLI say."""

    COUNTERS = "counters"
    COUNTS = "counts"
    VALUE = "value"


@dataclass(frozen=True)
class Indicator:
    """An SLI with its queries, and how its rows are made.

    `part` counts what the SLI's `good` or `bad` does, and is the one query of a value. The rows'
    source is the value of the label `label`, or `name` for the sum over all where there is none.
    """

    sli: str
    engine: str
    form: Form
    part: str
    total: Optional[str]
    label: Optional[str]
    name: str
    every: int
    look_back: int
    gap: int
    ratio: bool = False
    # The first minute whose rows are made this way; those before stay as they are.
    since: int = 0

    def newest(self, closed: int) -> int:
        """The newest minute whose stretch has ended, where `closed` is the newest closed one."""
        return (closed + 1) // self.every * self.every - 1


@dataclass
class Reading:
    """What an engine says of an indicator's minutes, and what a person has to know about it."""

    amounts: Amounts = field(default_factory=dict)
    # The same minutes are asked for again: the query has to be mended first, or the engine.
    unread: bool = False
    # Minutes of which all events were told: what isn't there didn't happen.
    spans: list[tuple[int, int]] = field(default_factory=list)
    # What isn't known for good, as what was counted while nothing was scraped.
    notes: list[str] = field(default_factory=list)
    _faults: dict[str, list[str]] = field(default_factory=dict)

    def fault(self, kind: str, *texts: str) -> None:
        """Note faults, of which the first one of a kind is told."""
        if texts:
            self._faults.setdefault(kind, []).extend(texts)

    def fail(self, kind: str, why: str) -> None:
        """Nothing of this reading counts."""
        self.amounts.clear()
        self.spans.clear()
        self._faults = {kind: [why]}
        self.unread = True

    def no_faults(self) -> None:
        self._faults.clear()

    @property
    def faults(self) -> dict[str, str]:
        """A line for each kind of fault."""
        more = {kind: len(texts) - 1 for kind, texts in self._faults.items()}
        return {
            kind: texts[0] + (f" (and {more[kind]} more)" if more[kind] else "")
            for kind, texts in self._faults.items()
        }


@dataclass
class Answer:
    """What an engine says in one run."""

    readings: dict[str, Reading] = field(default_factory=dict)
    # Up to where late events were looked for, for the engines that tell when an event came.
    mark: Optional[float] = None
    # Why the engine answers no more, where it stopped in the middle.
    fault: Optional[str] = None


class Engine(Protocol):
    """Prometheus, ClickHouse, or what a test puts in their place."""

    def now(self) -> float:
        """The engine's clock."""

    def settled(self) -> float:
        """How many seconds behind a minute's end the minute is asked for."""

    def read(
        self, asked: Mapping[Indicator, tuple[int, int]], mark: Optional[float] = None
    ) -> Answer:
        """The amounts of each indicator's minutes [begin, end), by SLI; and, where a mark is
        given, those of all minutes of which events came since then."""
