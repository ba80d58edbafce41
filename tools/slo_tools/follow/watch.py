"""The copy's metrics, for Prometheus or node_exporter's folder of text files."""

from __future__ import annotations

from pathlib import Path
from typing import Optional

from prometheus_client import CollectorRegistry, Gauge, start_http_server, write_to_textfile

from slo_tools.follow.state import State


class Watch:
    """Gauges of what the state file has."""

    def __init__(self, port: Optional[int], file: Optional[Path]) -> None:
        self._file = file
        self._registry = CollectorRegistry()
        self._entries = self._gauge("slo_follow_entries", "Entries of the copy")
        self._came = self._gauge(
            "slo_follow_all_came_timestamp_seconds", "When the copy last had all of the office"
        )
        self._compared = self._gauge(
            "slo_follow_compared_timestamp_seconds", "When all entries were last compared"
        )
        self._diverged = self._gauge("slo_follow_diverged", "1 where it isn't followed any more")
        if port is not None:
            start_http_server(port, "127.0.0.1", self._registry)

    def _gauge(self, name: str, text: str) -> Gauge:
        return Gauge(name, text, registry=self._registry)

    def show(self, state: State) -> None:
        """Show a state. Raises OSError where the file can't be written."""
        self._entries.set(state.entries)
        self._came.set(state.all_came or 0)
        self._compared.set(state.compared or 0)
        self._diverged.set(0 if state.diverged is None else 1)
        if self._file is not None:
            write_to_textfile(str(self._file), self._registry)
