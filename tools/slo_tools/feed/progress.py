"""How far a back-fill is: a line a day of it."""

from __future__ import annotations

from dataclasses import dataclass, field

from slo_tools.clock import DAY, date_of
from slo_tools.feed.watch import LOG


@dataclass
class Progress:
    """The minutes [begin, closed] of an engine. What is over within a day needs no line."""

    name: str
    begin: int
    closed: int
    _days: int = field(default=0, init=False)

    def through(self, end: int) -> None:
        """All before the minute `end` is sent."""
        days = (end - self.begin) // DAY
        whole = (self.closed + 1 - self.begin) / DAY
        if whole > 1 and days > self._days:
            self._days = days
            LOG.info("%s: sent up to %s, %d of %.1f days", self.name, date_of(end), days, whole)
