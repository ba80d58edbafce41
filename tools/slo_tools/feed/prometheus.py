"""Prometheus: raw samples of counters, and values at the ends of minutes."""

from __future__ import annotations

import time
from collections.abc import Iterable, Iterator, Mapping
from dataclasses import dataclass, field
from typing import Optional, Protocol

from slo_tools.clock import MINUTE, date_of
from slo_tools.feed.cells import Cell, stretch_minute, summed
from slo_tools.feed.counters import Hole, Labels, Rise, Series, holes, rises
from slo_tools.feed.engine import (
    Answer,
    EngineError,
    Form,
    Indicator,
    OddAnswer,
    QueryFault,
    Reading,
    TooLarge,
)
from slo_tools.feed.numbers import NoNumber, NotWhole, shown, whole
from slo_tools.feed.prometheus_client import Values
from slo_tools.feed.promql import selectors
from slo_tools.feed.rows import Count, SourceNames, put_counts, put_sums, put_values

# A first look behind a range for the scrape before it; most targets are scraped more often.
_NEAR_SECONDS = 120
# Minutes of raw samples in one answer, so that its size stays bounded.
_MINUTES_AT_ONCE = 360
_POINTS_AT_ONCE = 10_000
# Seconds; a large Prometheus has a long list of targets.
_TARGETS_ASKED_EACH = 600.0


class AsksPrometheus(Protocol):
    """The queries that the feed rests on."""

    def now(self) -> float:
        """Prometheus's clock."""

    def samples(self, selector: str, begin: float, end: float) -> list[Values]:
        """All samples of [begin, end]."""

    def values(self, query: str, begin: int, end: int, step: int) -> list[Values]:
        """The values of an expression at begin, begin + step, .. up to end."""

    def scrape_timeout(self) -> Optional[float]:
        """The greatest timeout of its targets, where it says so."""


def minute_of_sample(milliseconds: int) -> int:
    """The minute whose end a scrape speaks for first: one at a minute's very end still tells
    what was counted in it, as `last_over_time` at that moment does."""
    return (milliseconds - 1) // (1000 * MINUTE)


@dataclass
class Prometheus:
    """The engine: rows of indicators from the samples that a Prometheus holds."""

    client: AsksPrometheus
    wait: Optional[float] = None
    # Used where nothing is configured and the targets don't tell their timeouts.
    usual_wait: float = 15.0
    _timeout: Optional[float] = field(default=None, init=False)
    _asked: float = field(default=0.0, init=False)
    # How many minutes of an SLI one answer can have, where that was found out.
    _minutes: dict[str, int] = field(default_factory=dict, init=False)

    def now(self) -> float:
        return self.client.now()

    def settled(self) -> float:
        if self.wait is not None:
            return self.wait
        asked = time.monotonic()
        if self._timeout is None or asked - self._asked > _TARGETS_ASKED_EACH:
            self._timeout, self._asked = self.client.scrape_timeout(), asked
        return self.usual_wait if self._timeout is None else self._timeout + 1.0

    def read(
        self, asked: Mapping[Indicator, tuple[int, int]], mark: Optional[float] = None
    ) -> Answer:
        answer = Answer()
        for indicator, (begin, end) in asked.items():
            reading = answer.readings[indicator.sli] = Reading()
            if answer.fault is not None:
                reading.unread = True
                continue
            try:
                self._read_one(indicator, begin, end, reading)
            except QueryFault as fault:
                reading.fail("query", f"query: {fault}")
            except NotWhole as fault:
                # What isn't counted in whole events never will be; the minutes go by.
                reading.amounts.clear()
                reading.fault("events", f"value {fault} counts no events")
            except Exception as fault:
                why = str(fault) if isinstance(fault, EngineError) else _unforeseen(fault)
                reading.fail("answer", why)
                if not isinstance(fault, OddAnswer):
                    self._look(why, reading, answer)
        return answer

    def _look(self, why: str, reading: Reading, answer: Answer) -> None:
        """Whether Prometheus still answers; what failed was the query's alone then."""
        try:
            self.client.now()
        except (EngineError, QueryFault):
            answer.fault = why
            reading.no_faults()

    def _read_one(self, indicator: Indicator, begin: int, end: int, reading: Reading) -> None:
        if indicator.form is Form.COUNTERS:
            most = self._minutes.get(indicator.sli, _MINUTES_AT_ONCE)
            for first, last in _pieces(begin, end, indicator.every, most):
                self._count(indicator, first, last, reading)
        else:
            for first, last in _pieces(begin, end, indicator.every, _POINTS_AT_ONCE):
                self._evaluate(indicator, first, last, reading)

    # Counters

    def _count(self, indicator: Indicator, begin: int, end: int, reading: Reading) -> None:
        """Count the minutes [begin, end), by halves where the answer is too long."""
        try:
            parts, totals = self._series_behind(indicator, begin, end, reading)
        except TooLarge:
            middle = stretch_minute((begin + end) // 2, indicator.every) + 1
            if not begin < middle < end:
                raise
            self._minutes[indicator.sli] = middle - begin
            self._count(indicator, begin, middle, reading)
            self._count(indicator, middle, end, reading)
            return
        gap = indicator.gap * MINUTE * 1000
        self._add_up(indicator, rises(parts, totals, gap), (begin, end), reading)
        for hole in holes([*parts, *totals], gap):
            if hole.end > begin * MINUTE * 1000:
                reading.notes.append(_told(hole, indicator))

    def _add_up(
        self, indicator: Indicator, found: Iterable[Rise], span: tuple[int, int], reading: Reading
    ) -> None:
        names = SourceNames(indicator)
        counts = []
        for rise in found:
            minute = minute_of_sample(rise.moment)
            if span[0] <= minute < span[1]:
                source = names.of(_value(rise.key, indicator))
                cell = Cell(indicator.sli, source, stretch_minute(minute, indicator.every))
                counts.append((cell, rise.part, rise.total))
        put_sums(summed(counts), reading)
        reading.fault("source", *names.faults("their events are summed"))

    def _series_behind(
        self, indicator: Indicator, begin: int, end: int, reading: Reading
    ) -> tuple[list[Series], list[Series]]:
        """The series of the minutes [begin, end) with the scrape before each, where there is one
        within the indicator's gap. It is looked for near by first."""
        part_selectors = selectors(indicator.part)
        total_selectors = selectors(indicator.total or "")
        far = indicator.gap * MINUTE + 1
        for reach in sorted({min(_NEAR_SECONDS, far), far}):
            since = begin * MINUTE - reach
            parts = self._series(part_selectors, since, end * MINUTE, reading)
            totals = self._series(total_selectors, since, end * MINUTE, reading)
            if all(_begins_before(series, begin * MINUTE) for series in [*parts, *totals]):
                break
        return parts, totals

    def _series(self, texts: Iterable[str], begin: int, end: int, reading: Reading) -> list[Series]:
        return [
            Series(values.labels, list(_whole_samples(values, reading)))
            for text in texts
            for values in self.client.samples(text, begin, end)
        ]

    # Values at minutes' ends

    def _evaluate(self, indicator: Indicator, begin: int, end: int, reading: Reading) -> None:
        parts = self._at_ends(indicator, indicator.part, begin, end)
        if indicator.form is Form.VALUE:
            put_values(indicator, parts, reading)
            return
        totals = self._at_ends(indicator, indicator.total or "", begin, end)
        counts = [Count(label, minute, part=value) for label, minute, value in parts]
        counts += [Count(label, minute, total=value) for label, minute, value in totals]
        put_counts(indicator, counts, reading)

    def _at_ends(
        self, indicator: Indicator, query: str, begin: int, end: int
    ) -> Iterator[tuple[str, int, object]]:
        step = indicator.every * MINUTE
        first = (stretch_minute(begin, indicator.every) + 1) * MINUTE
        for values in self.client.values(query, first, end * MINUTE, step):
            label = _value(values.labels, indicator)
            for moment, value in values.values:
                minute = round(moment) // MINUTE - 1
                if not begin <= minute < end:
                    raise OddAnswer("no answer of Prometheus: a moment that wasn't asked for")
                yield label, minute, value


def _whole_samples(values: Values, reading: Reading) -> Iterator[tuple[int, int]]:
    """Milliseconds and numbers. A scrape that shows no number is as one that was missed."""
    for moment, value in values.values:
        try:
            yield round(moment * 1000), whole(value)
        except NotWhole:
            raise
        except NoNumber as fault:
            reading.fault("number", f"value {fault} is no number: that scrape counts as missed")


def _value(labels: Labels, indicator: Indicator) -> str:
    """What the indicator's label says of a series."""
    return next((value for key, value in labels if key == indicator.label), "")


def _told(hole: Hole, indicator: Indicator) -> str:
    target = dict(hole.target).get("instance", "its target")
    begin, end = (date_of(moment // 60_000) for moment in (hole.begin, hole.end))
    return (
        f"{shown(target)} wasn't scraped from {begin} to {end}, longer than gap = "
        f"{indicator.gap} min: what it counted meanwhile isn't known"
    )


def _unforeseen(fault: Exception) -> str:
    return f"no answer of Prometheus ({type(fault).__name__}: {shown(str(fault))})"


def _begins_before(series: Series, seconds: int) -> bool:
    return not series.samples or series.samples[0][0] <= seconds * 1000


def _pieces(begin: int, end: int, every: int, most: int) -> Iterator[tuple[int, int]]:
    """[begin, end) in pieces that end with stretches of `every` minutes."""
    length = max(most // every, 1) * every
    while begin < end:
        stop = min(end, begin - begin % every + length)
        yield begin, stop
        begin = stop
