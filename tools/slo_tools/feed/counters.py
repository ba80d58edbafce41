"""The rule of counters: what was counted between two readings of numbers that only rise.

A counter starts again at 0 with its process, so a number that fell was reset, and what it shows
was counted since then. `tests/counter_rule.tsv` is the rule as a table.
"""

from __future__ import annotations

from bisect import bisect_left
from collections.abc import Iterable, Iterator, Sequence
from dataclasses import dataclass
from typing import Optional


@dataclass(frozen=True)
class Reading:
    """A part and a total of one source at a moment, both since the process began."""

    source: str
    moment: int
    part: int
    total: int


@dataclass(frozen=True)
class Difference:
    """What was counted behind the reading before, up to this moment."""

    source: str
    moment: int
    part: int
    total: int


def has_fallen(before: tuple[int, int], after: tuple[int, int]) -> bool:
    """Whether one of the two numbers is lower than it was, as it is behind a reset."""
    return after[0] < before[0] or after[1] < before[1]


def rise(before: tuple[int, int], after: tuple[int, int]) -> tuple[int, int]:
    """What both numbers rose by; the numbers themselves where one of them fell."""
    if has_fallen(before, after):
        return after
    return after[0] - before[0], after[1] - before[1]


def difference(before: tuple[int, int], after: tuple[int, int]) -> tuple[int, int]:
    """The rise as a row can say it: the part is at most the total."""
    part, total = rise(before, after)
    return min(part, total), total


def rows_from_readings(readings: Iterable[Reading]) -> list[Difference]:
    """The difference at each reading but the first of its source, in the order of source and
    moment. This is what the command `counters` gives for readings of one revision."""
    rows = []
    last: dict[str, Reading] = {}
    for reading in sorted(readings, key=lambda r: (r.source, r.moment)):
        before = last.get(reading.source)
        if before is not None:
            pair = difference((before.part, before.total), (reading.part, reading.total))
            rows.append(Difference(reading.source, reading.moment, *pair))
        last[reading.source] = reading
    return rows


Labels = frozenset[tuple[str, str]]


@dataclass(frozen=True)
class Series:
    """The samples of one series: milliseconds and values, in the order of time."""

    labels: Labels
    samples: Sequence[tuple[int, int]]


# Labels that tell apart what one counter of a process shows: its metric, and a histogram's bounds.
_OF_ONE_COUNTER = ("__name__", "le")
_TARGET = ("job", "instance")


def counter_key(labels: Labels) -> Labels:
    """What two series have in common that start again together."""
    return frozenset(pair for pair in labels if pair[0] not in _OF_ONE_COUNTER)


def target_of(labels: Labels) -> Labels:
    """The scraped target of a series."""
    return frozenset(pair for pair in labels if pair[0] in _TARGET)


@dataclass(frozen=True)
class Rise:
    """What a counter rose by up to a scrape."""

    key: Labels
    moment: int
    part: int
    total: int


@dataclass
class _Scrape:
    """What a scrape shows of a counter; a number is None where no series of it was there."""

    part: Optional[int] = None
    total: Optional[int] = None


def rises(parts: Iterable[Series], totals: Iterable[Series], gap: int) -> Iterator[Rise]:
    """What each counter rose by at each of its scrapes but those without a reading before.

    The reading before is that of the scrape before, however many were missed, but not one more
    than `gap` milliseconds ago. A counter that appears in a target that was read before began
    at 0; one that comes with its target has no reading before.
    """
    scrapes = _scrapes(parts, totals)
    witnesses = _target_times(scrapes)
    for key, by_time in scrapes.items():
        seen = witnesses[target_of(key)]
        yield from _rises_of(key, by_time, seen, gap)


@dataclass(frozen=True)
class Hole:
    """A target that wasn't scraped for longer than a gap, between two milliseconds."""

    target: Labels
    begin: int
    end: int


def holes(series: Iterable[Series], gap: int) -> list[Hole]:
    """Where targets weren't scraped for more than `gap` milliseconds, and then again: what they
    counted meanwhile isn't known."""
    suspects: dict[Labels, list[Series]] = {}
    for one in series:
        suspects.setdefault(target_of(one.labels), []).append(one)
    found = []
    for target, own in suspects.items():
        if any(_has_hole([moment for moment, _ in one.samples], gap) for one in own):
            moments = sorted({moment for one in own for moment, _ in one.samples})
            pairs = zip(moments, moments[1:])
            found += [Hole(target, a, b) for a, b in pairs if b - a > gap]
    return found


def _has_hole(moments: Sequence[int], gap: int) -> bool:
    return any(after - before > gap for before, after in zip(moments, moments[1:]))


Scrapes = dict[Labels, dict[int, _Scrape]]


def _scrapes(parts: Iterable[Series], totals: Iterable[Series]) -> Scrapes:
    scrapes: Scrapes = {}
    for series in parts:
        by_time = scrapes.setdefault(counter_key(series.labels), {})
        for moment, value in series.samples:
            scrape = by_time.setdefault(moment, _Scrape())
            scrape.part = value + (scrape.part or 0)
    for series in totals:
        by_time = scrapes.setdefault(counter_key(series.labels), {})
        for moment, value in series.samples:
            scrape = by_time.setdefault(moment, _Scrape())
            scrape.total = value + (scrape.total or 0)
    return scrapes


def _target_times(scrapes: Scrapes) -> dict[Labels, list[int]]:
    times: dict[Labels, set[int]] = {}
    for key, by_time in scrapes.items():
        times.setdefault(target_of(key), set()).update(by_time)
    return {target: sorted(moments) for target, moments in times.items()}


@dataclass
class _Number:
    """One of the two numbers of a counter, as it was shown last."""

    value: int = 0
    moment: Optional[int] = None

    def before(self, moment: int, gap: int) -> Optional[int]:
        """Its value at most a gap before a moment."""
        if self.moment is None or moment - self.moment > gap:
            return None
        return self.value

    def show(self, value: int, moment: int) -> None:
        self.value = value
        self.moment = moment


def _rises_of(
    key: Labels, by_time: dict[int, _Scrape], target_times: list[int], gap: int
) -> Iterator[Rise]:
    part, total = _Number(), _Number()
    for moment in sorted(by_time):
        scrape = by_time[moment]
        known = part.before(moment, gap), total.before(moment, gap)
        if known != (None, None) or _was_read(target_times, moment, gap):
            before = known[0] or 0, known[1] or 0
            # A number whose series is missing from this scrape stands still, unless the other
            # one says that the process began again.
            still = (
                before[0] if scrape.part is None else scrape.part,
                before[1] if scrape.total is None else scrape.total,
            )
            if has_fallen(before, still):
                still = scrape.part or 0, scrape.total or 0
                part.show(still[0], moment)
                total.show(still[1], moment)
            yield Rise(key, moment, *rise(before, still))
        if scrape.part is not None:
            part.show(scrape.part, moment)
        if scrape.total is not None:
            total.show(scrape.total, moment)


def _was_read(target_times: list[int], moment: int, gap: int) -> bool:
    """Whether the target was read before a moment, at most a gap ago."""
    place = bisect_left(target_times, moment)
    return place > 0 and target_times[place - 1] >= moment - gap
