"""How long an office lasts with the rows that it is sent, and what its SLOs want of them."""

from __future__ import annotations

import math
from collections.abc import Iterable
from dataclasses import dataclass
from typing import Optional

from slo_tools.clock import DAY
from slo_tools.feed.engine import Form, Indicator
from slo_tools.feed.state import State
from slo_tools.objects import Slo, conditions_of, map_of, slo_of
from slo_tools.office import CELLS, UPGRADED_CELLS, Office
from slo_tools.refusals import Members, NoAnswer, OfficeError
from slo_tools.spelling import minutes_of_duration
from slo_tools.told import is_pair

# An office is begun anew, or renewed, once a month at most.
MONTH = 31
# The window of an office that has no SLO yet.
USUAL_WINDOW = 30
FIVE = 5


@dataclass(frozen=True)
class Needs:
    """What the SLOs want: rows of so many days, and rows by the minute of these SLIs."""

    window: int = USUAL_WINDOW
    by_the_minute: frozenset[str] = frozenset()

    @property
    def days(self) -> int:
        return self.window + MONTH


def needs_of(office: Office, slos: Iterable[str]) -> Needs:
    """What an office's SLOs want. One that can't be read wants nothing."""
    windows, finest, lookbacks = [], set(), {}
    with office.kept_link():
        for name in slos:
            try:
                slo = slo_of(office, name)
                windows.append(_days_of(slo))
                for policy in slo.policies:
                    if policy not in lookbacks:
                        conditions = conditions_of(office, policy)
                        lookbacks[policy] = [c.lookback for c in conditions if c.lookback]
                minutes = _slices_of(slo) + [m for p in slo.policies for m in lookbacks[p]]
            except NoAnswer:
                raise
            except (OfficeError, KeyError, IndexError, TypeError, ValueError):
                continue
            if any(each % FIVE for each in minutes):
                finest.add(slo.indicator)
    return Needs(max(windows, default=USUAL_WINDOW), frozenset(finest))


def _days_of(slo: Slo) -> int:
    minutes = minutes_of_duration(str(slo.window.get("duration", ""))) or 0
    return math.ceil(minutes / DAY)


def _slices_of(slo: Slo) -> list[int]:
    widths = (map_of(each).get("timeSliceWindow") for each in slo.document.spec["objectives"])
    return [minutes_of_duration(str(width)) or 1 for width in widths if width is not None]


def takes_five(indicator: Indicator, kind: str, needs: Needs) -> bool:
    """Whether an SLI's rows of five minutes say the same as those by the minute: sums of events do,
    values at a moment don't."""
    is_summed = indicator.form is Form.COUNTERS or (
        indicator.form is Form.COUNTS and kind == "ClickHouse"
    )
    return is_summed and indicator.sli not in needs.by_the_minute


def cells_of(office: Office, sli: str) -> int:
    """How many cells an office has room for, when it is empty."""
    told = pair_of(office.status(), "cells")
    if told is not None and told[1] > 0:
        return told[1]
    return UPGRADED_CELLS if office.is_upgraded(sli) else CELLS


def pair_of(full: Optional[Members], key: str) -> Optional[tuple[int, int]]:
    """A count and its limit, as an office says how full it is; None where it doesn't."""
    value = (full or {}).get(key)
    return (value[0], value[1]) if isinstance(value, list) and is_pair(value) else None


def rows_a_day(indicator: Indicator, sources: int) -> float:
    return DAY / indicator.every * max(sources, 1)


def sources_of(sli: str, state: State) -> int:
    """How many sources an SLI has, as far as its rows are known."""
    return len({cell.source for cell in state.kept if cell.sli == sli}) or 1


def pace_of(indicators: Iterable[Indicator], state: State) -> float:
    """The rows of a day, by the ways that the state has."""
    pace = 0.0
    for indicator in indicators:
        way = state.ways.get(indicator.sli)
        every = indicator.every if way is None else way.every
        pace += DAY / every * sources_of(indicator.sli, state)
    return pace


def room_left(full: Optional[Members], limits: tuple[int, int], state: State) -> int:
    """How many rows the office has room for: as it says, else by those that this feed made."""
    cells, accepted = pair_of(full, "cells"), pair_of(full, "accepted")
    if cells is not None and accepted is not None:
        return min(cells[1] - cells[0], accepted[1] - accepted[0])
    return min(limits[0] - state.made, limits[1] - state.accepted)
