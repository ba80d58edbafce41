"""ClickHouse: one aggregate query over a table of events, and minutes whose events came late."""

from __future__ import annotations

from collections.abc import Iterable, Mapping, Sequence
from dataclasses import dataclass
from typing import Any, Optional, Protocol

from slo_tools.clock import DAY, MINUTE
from slo_tools.feed.cells import stretch_minute
from slo_tools.feed.engine import (
    Answer,
    EngineError,
    Form,
    Indicator,
    OddAnswer,
    QueryFault,
    Reading,
    TooLarge,
)
from slo_tools.feed.numbers import NoNumber, shown, whole
from slo_tools.feed.rows import Count, put_counts, put_values

Row = tuple[Any, ...]
Span = tuple[int, int]


# Stretches of time that one query names, so that its text stays within the server's limit.
SPANS_AT_ONCE = 100


class AsksClickHouse(Protocol):
    """What runs a query."""

    def rows(self, query: str) -> Sequence[Row]:
        """The rows of a query. Raises EngineError, or QueryFault where the query is to blame."""


@dataclass(frozen=True)
class Table:
    """The table of events and its columns: when an event was, and when it was inserted."""

    name: str
    time: str
    inserted: Optional[str] = None
    # An event that is older when it comes is no more looked for.
    late_days: int = 7


@dataclass
class ClickHouse:
    """The engine: rows of indicators counted from a table of events.

    An SLI's `good` or `bad` and `total` are conditions over an event, as `status < 500`. A value
    is an aggregate, as `quantileExact(0.99)(seconds)`, over the events of its `where`.
    """

    client: AsksClickHouse
    table: Table
    wait: Optional[float] = None
    usual_wait: float = 15.0
    # An insert that takes long shows its events after the moment that their column names.
    longest_insert: float = 120.0

    def now(self) -> float:
        rows = self.client.rows("SELECT toUnixTimestamp(now())")
        try:
            return float(whole(rows[0][0]))
        except (NoNumber, IndexError, TypeError) as fault:
            raise OddAnswer("no answer of ClickHouse: it doesn't say its time") from fault

    def settled(self) -> float:
        return self.usual_wait if self.wait is None else self.wait

    def read(self, asked: Mapping[Indicator, Span], mark: Optional[float] = None) -> Answer:
        answer = Answer({indicator.sli: Reading() for indicator in asked})
        if self.table.inserted is not None:
            answer.mark = self.now() - self.longest_insert
        late = self._late(list(asked), asked, mark)
        for group in _alike(asked):
            newest = max(asked[i][1] for i in group)
            spans = merged([asked[i] for i in group] + [_stretch(m, group[0]) for m in late])
            due = [(b, min(e, newest)) for b, e in spans if b < newest]
            for place in range(0, len(due), SPANS_AT_ONCE):
                self._count(group, due[place : place + SPANS_AT_ONCE], answer)
        return answer

    def _late(
        self,
        indicators: Sequence[Indicator],
        asked: Mapping[Indicator, Span],
        mark: Optional[float],
    ) -> list[int]:
        """The minutes of which events of these indicators came since the mark."""
        if mark is None or self.table.inserted is None or not indicators:
            return []
        end = max(asked[i][1] for i in indicators)
        since = max(end - self.table.late_days * DAY, 0)
        query = (
            f"SELECT DISTINCT intDiv(toUnixTimestamp({self.table.time}), {MINUTE}) AS slo_minute "
            f"FROM {self.table.name} "
            f"WHERE {self.table.time} >= toDateTime({since * MINUTE}) "
            f"AND {self.table.time} < toDateTime({end * MINUTE}) "
            f"AND {self.table.inserted} >= toDateTime({max(int(mark), 0)})"
            f"{_events_of(indicators)}"
        )
        try:
            return sorted({_minute(row[0], (since, end)) for row in self.client.rows(query)})
        except QueryFault:
            # The one that can't be run is told when it is counted; the others' events are found.
            if len(indicators) == 1:
                return []
            half = len(indicators) // 2
            first = self._late(indicators[:half], asked, mark)
            return sorted({*first, *self._late(indicators[half:], asked, mark)})
        except (IndexError, TypeError) as fault:
            raise OddAnswer("no answer of ClickHouse: a row without a minute") from fault

    def _count(self, group: Sequence[Indicator], spans: Sequence[Span], answer: Answer) -> None:
        """Count a group, by halves where the query can't be run or its answer can't be read, so
        that one indicator stops no other."""
        if answer.fault is not None:
            for indicator in group:
                answer.readings[indicator.sli].unread = True
            return
        group = [i for i in group if not answer.readings[i.sli].unread]
        if not group:
            return
        try:
            rows = self.client.rows(aggregate_query(self.table, group, spans))
            found = [_cells_of(row, group, spans) for row in rows]
        except (QueryFault, OddAnswer) as fault:
            if len(group) == 1:
                parts = _halves(spans, group[0].every) if isinstance(fault, TooLarge) else []
                if parts:
                    for part in parts:
                        self._count(group, part, answer)
                    return
                reading = answer.readings[group[0].sli]
                if isinstance(fault, QueryFault):
                    reading.fail("query", f"query: {fault}")
                else:
                    reading.fail("answer", str(fault))
                return
            half = len(group) // 2
            self._count(group[:half], spans, answer)
            self._count(group[half:], spans, answer)
        except EngineError as fault:
            answer.fault = str(fault)
            self._count(group, spans, answer)
        else:
            for place, indicator in enumerate(group):
                told = [(minute, source, pairs[place]) for minute, source, pairs in found]
                reading = answer.readings[indicator.sli]
                if not reading.unread:
                    _put(indicator, told, reading)
                    if indicator.form is not Form.VALUE and not reading.faults:
                        reading.spans.extend(spans)


Found = tuple[int, str, list[tuple[Any, Any]]]


def _cells_of(row: Row, group: Sequence[Indicator], spans: Sequence[Span]) -> Found:
    """A row of an answer: its minute, its source, and a pair of numbers for each indicator."""
    if not isinstance(row, (tuple, list)) or len(row) != 2 + 2 * len(group):
        raise OddAnswer("no answer of ClickHouse: a row of another length")
    minute = _minute(row[0], (spans[0][0], spans[-1][1] + group[0].every))
    source = "" if row[1] is None else row[1]
    if not isinstance(source, str):
        raise OddAnswer(f"no answer of ClickHouse: {shown(source)} is no source")
    return minute, source, list(zip(row[2::2], row[3::2]))


def _minute(value: Any, span: Span) -> int:
    try:
        minute = whole(value)
    except NoNumber as fault:
        raise OddAnswer(f"no answer of ClickHouse: {fault} is no minute") from fault
    if not span[0] <= minute < span[1]:
        raise OddAnswer(f"no answer of ClickHouse: minute {shown(minute)} wasn't asked for")
    return minute


def _put(
    indicator: Indicator, told: Sequence[tuple[int, str, tuple[Any, Any]]], reading: Reading
) -> None:
    """The rows of the minutes of which there are events."""
    try:
        events = [(m, s, pair) for m, s, pair in told if whole(pair[1]) > 0]
    except NoNumber as fault:
        reading.fail("answer", f"no answer of ClickHouse: {fault} events")
        return
    if indicator.form is Form.VALUE:
        put_values(
            indicator, [(source, minute, pair[0]) for minute, source, pair in events], reading
        )
    else:
        put_counts(indicator, [Count(s, m, *pair) for m, s, pair in events], reading)


def aggregate_query(table: Table, group: Sequence[Indicator], spans: Sequence[Span]) -> str:
    """The query that counts all indicators of a group by stretch and source at once. It reads the
    events of these indicators alone, so that the table's key is of use."""
    every, label = group[0].every, group[0].label
    minute = f"intDiv(toUnixTimestamp({table.time}), {MINUTE})"
    stretch = minute if every == 1 else f"intDiv({minute}, {every}) * {every} + {every - 1}"
    source = f"toString({label})" if label is not None else "''"
    columns = []
    for indicator in group:
        if indicator.form is Form.VALUE:
            columns += [f"toString({indicator.part})", "count()"]
        else:
            columns += [f"countIf({indicator.part})", f"countIf({indicator.total})"]
    times = " OR ".join(
        f"({table.time} >= toDateTime({b * MINUTE}) AND {table.time} < toDateTime({e * MINUTE}))"
        for b, e in spans
    )
    return (
        f"SELECT {stretch} AS slo_minute, {source} AS slo_source, {', '.join(columns)} "
        f"FROM {table.name} WHERE ({times}){_events_of(group)} GROUP BY slo_minute, slo_source"
    )


def _events_of(indicators: Iterable[Indicator]) -> str:
    """The condition of the events of which one of these indicators counts at least one; nothing
    where one of them is a value of all events."""
    conditions: dict[str, None] = {}
    for indicator in indicators:
        if indicator.form is not Form.VALUE:
            conditions[indicator.part] = None
        if not indicator.total:
            return ""
        conditions[indicator.total] = None
    return f" AND ({' OR '.join(f'({condition})' for condition in conditions)})"


def merged(spans: Iterable[Span]) -> list[Span]:
    """Spans of minutes without overlaps, in order."""
    joined: list[Span] = []
    for begin, end in sorted(span for span in spans if span[0] < span[1]):
        if joined and begin <= joined[-1][1]:
            joined[-1] = (joined[-1][0], max(joined[-1][1], end))
        else:
            joined.append((begin, end))
    return joined


def _halves(spans: Sequence[Span], every: int) -> list[list[Span]]:
    """Spans in two parts of whole stretches, none where there is one stretch alone."""
    if len(spans) > 1:
        half = len(spans) // 2
        return [list(spans[:half]), list(spans[half:])]
    begin, end = spans[0]
    middle = stretch_minute((begin + end) // 2, every) + 1
    return [[(begin, middle)], [(middle, end)]] if begin < middle < end else []


def _stretch(minute: int, indicator: Indicator) -> Span:
    """The stretch of a minute of which events came late, from where rows are made this way."""
    begin = minute - minute % indicator.every
    return max(begin, indicator.since), begin + indicator.every


def _alike(asked: Mapping[Indicator, Span]) -> list[list[Indicator]]:
    """Indicators that one query can count: by the same source and stretch, and made this way from
    the same minute on. A value's condition restricts its aggregate's events, so it is asked for by
    itself; values of all events go together."""
    groups: dict[tuple[Optional[str], int, int, str], list[Indicator]] = {}
    for indicator in asked:
        kind = "counts"
        if indicator.form is Form.VALUE:
            kind = f"value {indicator.sli}" if indicator.total else "values"
        key = (indicator.label, indicator.every, indicator.since, kind)
        groups.setdefault(key, []).append(indicator)
    return list(groups.values())
