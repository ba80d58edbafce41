"""What can be seen of the feed: metrics, and a line for each thing that a person has to do."""

from __future__ import annotations

import logging
from collections.abc import Mapping
from pathlib import Path

from prometheus_client import (
    CollectorRegistry,
    Counter,
    Gauge,
    start_http_server,
    write_to_textfile,
)

LOG = logging.getLogger("slo-feed")


class Notebook:
    """Lines for people. One that holds on from round to round is written once, and once more
    when it is over."""

    def __init__(self) -> None:
        self._before: dict[str, str] = {}
        self._now: dict[str, str] = {}

    def tell(self, key: str, text: str) -> None:
        """Say what a person has to do; `key` is the same while it is the same thing."""
        if key not in self._now:
            self._now[key] = text
            if key not in self._before:
                LOG.warning("%s", text)

    def end_round(self) -> int:
        """Write which lines are over; how many hold."""
        for key, text in self._before.items():
            if key not in self._now:
                LOG.info("over: %s", text)
        self._before, self._now = self._now, {}
        return len(self._before)


class Watch:
    """The feed's metrics, in a registry of their own."""

    def __init__(self) -> None:
        self.registry = CollectorRegistry()
        self.notes = Notebook()
        gauge = self._gauge
        self._rows = Counter(
            "slo_feed_rows", "Rows by what became of them", ["outcome"], registry=self.registry
        )
        self._rounds = Counter(
            "slo_feed_rounds", "Rounds by how they ended", ["end"], registry=self.registry
        )
        self._newest = gauge("slo_feed_newest_minute", "Newest minute that was sent", "sli")
        self._lag = gauge("slo_feed_lag_seconds", "Seconds since that minute's end", "sli")
        self._faults = gauge("slo_feed_faults", "Faults of an indicator in the last round", "sli")
        self._up = gauge("slo_feed_engine_up", "Whether an engine answered to the end", "engine")
        self._clock = gauge("slo_feed_clock_difference_seconds", "Engine minus here", "engine")
        self._left = gauge("slo_feed_cells_left", "Cells that the office has room for")
        self._days = gauge("slo_feed_days_until_full", "Days until then at today's pace")
        self._problems = gauge("slo_feed_problems", "Things that a person has to look at")
        self._took = gauge("slo_feed_round_seconds", "How long the last round took")
        self._last = gauge("slo_feed_last_round_timestamp_seconds", "When it ended")

    def _gauge(self, name: str, text: str, *labels: str) -> Gauge:
        return Gauge(name, text, list(labels), registry=self.registry)

    def rows(self, counts: Mapping[str, int]) -> None:
        for outcome, count in counts.items():
            self._rows.labels(outcome).inc(count)

    def newest(self, sli: str, minute: int, now: float) -> None:
        self._newest.labels(sli).set(minute)
        self._lag.labels(sli).set(now - (minute + 1) * 60)

    def faults(self, sli: str, count: int) -> None:
        self._faults.labels(sli).set(count)

    def engine(self, name: str, is_up: bool) -> None:
        self._up.labels(name).set(int(is_up))

    def clock(self, engine: str, difference: float) -> None:
        self._clock.labels(engine).set(difference)

    def room(self, left: int, days: float) -> None:
        self._left.set(left)
        self._days.set(days)

    def round(self, end: str, seconds: float, now: float) -> None:
        self._rounds.labels(end).inc()
        self._took.set(seconds)
        self._last.set(now)
        self._problems.set(self.notes.end_round())

    def serve(self, port: int) -> None:
        """Answer Prometheus at a port of this machine alone."""
        start_http_server(port, "127.0.0.1", self.registry)

    def write(self, path: Path) -> None:
        """Write the metrics for node_exporter's folder of text files."""
        write_to_textfile(str(path), self.registry)
