"""How the rows of an SLI are made: by which label, and how many minutes a row has.

The configuration may say it. Where it doesn't, an SLI that was fed before goes on as its rows stand,
and one that begins has all its sources summed, in rows of five minutes where an office by the minute
wouldn't reach through the longest window and a month. Rows that are made in two ways would be counted
twice, so a change holds from the first minute on that wasn't sent yet.
"""

from __future__ import annotations

from collections.abc import Callable
from dataclasses import dataclass, field, replace
from typing import Optional

from slo_tools.clock import date_of
from slo_tools.feed.config import Config, IndicatorConfig
from slo_tools.feed.engine import Engine, Indicator
from slo_tools.feed.objects import Catalog, DataSource
from slo_tools.feed.room import FIVE, Needs, cells_of, needs_of, pace_of, pair_of, takes_five
from slo_tools.feed.state import State, Way
from slo_tools.office import UPGRADED_CELLS, Office
from slo_tools.refusals import NotFound

# How many of the newest minutes are looked at for rows that stand.
_MINUTES = 20
# At how many moments of a back-fill they are looked for.
_MOMENTS = 7
# The label that named a Prometheus's sources up to version 1.5.6 where nothing was said.
_LABEL_BEFORE = "instance"


class Undecided(Exception):
    """How the rows of an SLI stand can't be told yet; the text says why."""


def way_of(indicator: Indicator) -> Way:
    return Way(indicator.label, indicator.name, indicator.every, indicator.since)


def with_way(indicator: Indicator, way: Way) -> Indicator:
    return replace(indicator, label=way.label, name=way.name, every=way.every, since=way.since)


def said(way: Way) -> str:
    """A way as people say it."""
    rows = "a row a minute" if way.every == 1 else f"a row each {way.every} minutes"
    return rows + (f", by {way.label}" if way.label else f", summed as {way.name}")


@dataclass
class Ways:
    """Settles how the rows of the catalog's SLIs are made, and remembers it in the state."""

    office: Office
    config: Config
    catalog: Catalog
    state: State
    tell: Callable[[str], None]
    undecided: dict[str, str] = field(default_factory=dict, init=False)
    _needs: Optional[Needs] = field(default=None, init=False)
    _cells: Optional[int] = field(default=None, init=False)
    _is_empty: Optional[bool] = field(default=None, init=False)

    def settled(
        self,
        source: DataSource,
        engine: Engine,
        indicators: list[Indicator],
        closed: int,
        begin: Optional[int],
    ) -> list[Indicator]:
        """The indicators of an engine with their ways, without those for which the engine didn't
        say by which sources their rows may stand (`undecided`). Raises OfficeError."""
        found = []
        kept: dict[Way, list[str]] = {}
        self.undecided.clear()
        for indicator in indicators:
            try:
                before = self._before(indicator, source)
                if before is None:
                    before = self._standing(indicator, source, engine, closed, begin)
            except Undecided as why:
                self.undecided[indicator.sli] = str(why)
                continue
            way = self._way(indicator, source, before)
            if before is not None and indicator.sli not in self.state.ways:
                if not _is_said(self.config.indicator(indicator.sli), source):
                    kept.setdefault(way, []).append(indicator.sli)
            self.state.ways[indicator.sli] = way
            found.append(with_way(indicator, way))
        for way, slis in kept.items():
            self._tell_kept(way, slis)
        return found

    def _before(self, indicator: Indicator, source: DataSource) -> Optional[Way]:
        """The way in which an SLI's rows were made, as far as the state knows."""
        known = self.state.ways.get(indicator.sli)
        if known is not None or indicator.sli not in self.state.through:
            return known
        return self._way_of_old(indicator, source)

    def _way_of_old(self, indicator: Indicator, source: DataSource) -> Way:
        """The way of a feed up to 1.5.6, by this configuration."""
        own = self.config.indicator(indicator.sli)
        way = way_of(indicator)
        if not _is_said(own, source) and source.type == "Prometheus":
            way = replace(way, label=_LABEL_BEFORE)
        return replace(way, every=own.every or 1)

    def _way(self, indicator: Indicator, source: DataSource, before: Optional[Way]) -> Way:
        own = self.config.indicator(indicator.sli)
        way = way_of(indicator)
        if before is not None and not _is_said(own, source):
            way = replace(way, label=before.label, name=before.name)
        if own.every is None:
            every = self._every(indicator, source) if before is None else before.every
            way = replace(way, every=every)
        if before is None:
            return way
        if replace(way, since=before.since) == before:
            return before
        newest = self.state.through.get(indicator.sli)
        since = before.since if newest is None else newest + 1
        self.tell(
            f"{indicator.sli}: from {date_of(since)} on {said(way)}; before that {said(before)}, "
            "which stays as it is"
        )
        return replace(way, since=since)

    def _tell_kept(self, way: Way, slis: list[str]) -> None:
        names = ", ".join(slis[:5]) + (f" and {len(slis) - 5} more" if len(slis) > 5 else "")
        keys = f'label = "{way.label}"' if way.label else f'sum = "{way.name}"'
        self.tell(
            f"{names}: {said(way)}, as those that stand in the office. Write {keys} and every = "
            f'{way.every} under [indicators] to keep it so; sum = "all" and every = 5 there take '
            "less room, from the next minute on"
        )

    # Rows of five minutes

    def _every(self, indicator: Indicator, source: DataSource) -> int:
        """How many minutes a new SLI's rows have: 5 where it has to be."""
        if not takes_five(indicator, source.type, self.needs):
            return 1
        pace = pace_of(self.catalog.indicators, self.state)
        return FIVE if self.cells < pace * self.needs.days else 1

    @property
    def needs(self) -> Needs:
        if self._needs is None:
            self._needs = needs_of(self.office, self.catalog.slos)
        return self._needs

    @property
    def cells(self) -> int:
        if self._cells is None:
            self._cells = cells_of(self.office, self.catalog.indicators[0].sli)
        return self._cells

    @property
    def is_upgraded(self) -> bool:
        return self.cells >= UPGRADED_CELLS

    @property
    def is_empty(self) -> bool:
        """Whether the office says that it has no rows."""
        if self._is_empty is None:
            told = pair_of(self.office.status(), "cells")
            self._is_empty = told is not None and told[0] == 0
        return self._is_empty

    # Rows that stand in the office, where the state was lost

    def _standing(
        self,
        indicator: Indicator,
        source: DataSource,
        engine: Engine,
        closed: int,
        begin: Optional[int],
    ) -> Optional[Way]:
        """The way in which rows of an SLI stand that the state doesn't know, None without any."""
        own = self.config.indicator(indicator.sli)
        if (own.every is not None and _is_said(own, source)) or self.is_empty:
            return None
        old = self._way_of_old(indicator, source)
        ways = list(dict.fromkeys([replace(way_of(indicator), every=1), replace(old, every=1)]))
        first = closed - self.config.first + 1 if begin is None else begin
        for moment in _moments(closed, first):
            for way in ways:
                minutes = self._minutes(with_way(indicator, way), engine, moment)
                if minutes:
                    five = all(minute % FIVE == FIVE - 1 for minute in minutes)
                    return replace(way, every=own.every or (FIVE if five else 1))
        return None

    def _minutes(self, indicator: Indicator, engine: Engine, moment: int) -> list[int]:
        """The minutes up to a moment at which the office has rows of the sources that the engine
        names."""
        span = (max(moment - _MINUTES + 1, 0), moment + 1)
        sources = {indicator.name}
        if indicator.label is not None:
            answer = engine.read({indicator: span})
            reading = answer.readings[indicator.sli]
            if answer.fault is not None or reading.unread:
                faults = reading.faults.values()
                raise Undecided(answer.fault or next(iter(faults), "no answer"))
            sources = {cell.source for cell in reading.amounts}
        found = []
        with self.office.kept_link():
            for name in sorted(sources)[:_MINUTES]:
                try:
                    rows = ((m, self.office.row(indicator.sli, name, m)) for m in range(*span))
                    found += [minute for minute, row in rows if row is not None]
                except NotFound:
                    return []
        return found


def _is_said(own: IndicatorConfig, source: DataSource) -> bool:
    """Whether somebody said how the sources of an SLI's rows are named."""
    return own.label is not None or own.name is not None or "source" in source.details


def _moments(closed: int, begin: int) -> list[int]:
    """The newest minute, and some of those from `begin` on."""
    step = max((closed - begin) // (_MOMENTS - 1), 1)
    return sorted({closed, *range(begin + _MINUTES - 1, closed, step)}, reverse=True)
