"""Which minutes a round reads of an indicator, and in which pieces."""

from __future__ import annotations

from collections.abc import Iterator
from dataclasses import dataclass
from typing import Optional

from slo_tools.feed.engine import Indicator

# Minutes that are read and sent before the state is written again.
SLICE = 720


@dataclass(frozen=True)
class Due:
    """The minutes [begin, end) of an indicator that a round reads."""

    indicator: Indicator
    begin: int
    end: int


def due(
    indicator: Indicator,
    through: Optional[int],
    closed: int,
    first: int,
    origin: Optional[int],
    again: bool = False,
) -> Optional[Due]:
    """What is read of an indicator where `closed` is the newest closed minute: what is behind
    `through`, and the look-back before it, however long ago that was read; `first` minutes where
    nothing was read yet. None where no stretch has ended since, unless the look-back is to be read
    `again`."""
    newest = indicator.newest(closed)
    if through is not None and through >= newest and not again:
        return None
    begin = newest - first + 1 if through is None else first_again(indicator, through)
    begin = max(begin, origin or 0, 0)
    # A stretch is read whole, also where it begins before the first minute asked for.
    begin = max(begin - begin % indicator.every, indicator.since)
    return Due(indicator, begin, newest + 1) if begin <= newest else None


def first_again(indicator: Indicator, through: int) -> int:
    """The first minute that is read again where all up to `through` were read."""
    begin = max(through - indicator.look_back + 1, 0)
    return begin - begin % indicator.every


def nothing_of(indicator: Indicator, closed: int) -> tuple[int, int]:
    """No minute, as a span of an indicator that is asked for its late events alone."""
    end = indicator.newest(closed) + 1
    return end, end


def slices(dues: list[Due]) -> Iterator[dict[Indicator, tuple[int, int]]]:
    """The minutes that are due, cut at the same moments, the oldest first."""
    place = min((d.begin for d in dues), default=0)
    last = max((d.end for d in dues), default=0)
    while place < last:
        stop = place - place % SLICE + SLICE
        asked = {
            d.indicator: (max(d.begin, place), min(d.end, stop))
            for d in dues
            if max(d.begin, place) < min(d.end, stop)
        }
        if asked:
            yield asked
        place = stop
