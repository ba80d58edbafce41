"""Holes: what was counted while a target wasn't scraped for longer than a gap isn't known, and that is
told once."""

from __future__ import annotations

from collections.abc import Iterator
from dataclasses import dataclass, field
from typing import Optional

from slo_tools.clock import date_of
from slo_tools.feed.engine import Indicator, Reading
from slo_tools.feed.watch import LOG


@dataclass
class Holes:
    """What was told of holes: each line once, and behind which row of an SLI."""

    _lines: set[str] = field(default_factory=set, init=False)
    _behind: dict[str, int] = field(default_factory=dict, init=False)

    def tell(self, indicator: Indicator, reading: Reading, rows: dict[str, int]) -> None:
        """Tell the holes of a reading; `rows` are the newest minutes that SLIs have rows of."""
        sli = indicator.sli
        before = rows.get(sli)
        if reading.notes and before is not None:
            self._behind[sli] = before
        minutes = [c.minute for c in reading.amounts if before is None or c.minute > before]
        for note in [*reading.notes, *self._passed(indicator, before, minutes)]:
            if note not in self._lines:
                self._lines.add(note)
                LOG.warning("%s: %s", sli, note)
        if minutes:
            rows[sli] = max(minutes)

    def _passed(
        self, indicator: Indicator, before: Optional[int], minutes: list[int]
    ) -> Iterator[str]:
        """A hole that passed while the feed ran: the scrape before it isn't asked for any more."""
        first = min(minutes, default=0)
        if before is None or first - before <= indicator.gap:
            return
        if self._behind.get(indicator.sli) != before:
            yield (
                f"no rows from {date_of(before + 1)} to {date_of(first)}, longer than gap = "
                f"{indicator.gap} min: what was counted meanwhile isn't known"
            )
