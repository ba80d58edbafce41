"""What `slo-notify` offers to a Prometheus: the office's own numbers and its own."""

from __future__ import annotations

from prometheus_client import CollectorRegistry, Counter, Gauge, start_http_server

from slo_tools.notify.budget_metrics import BudgetMetrics


class Metrics:
    """The metrics, each by the name under which it is scraped."""

    def __init__(self) -> None:
        self.registry = CollectorRegistry()
        gauge, counter = self._gauge, self._counter
        self.up = gauge("slo_office_up", "Whether the office answered", "office")
        self.entries = gauge("slo_office_entries", "Entries of the history", "office")
        self.waiting = gauge(
            "slo_office_notices_waiting", "Notices that wait, 1000 at most", "office"
        )
        self.used = gauge("slo_office_used", "How much of a limit is used", "office", "what")
        self.limit = gauge("slo_office_limit", "The limit", "office", "what")
        self.age = gauge(
            "slo_office_newest_minute_age_minutes",
            "Minutes since the newest minute with a row of an indicator",
            "office",
            "indicator",
        )
        self.ahead = gauge(
            "slo_office_moment_ahead_minutes",
            "How far the office's moment is ahead of this machine's clock",
            "office",
        )
        self.answers = counter(
            "slo_office_answers", "Answers of the office by status", "office", "status"
        )
        self.open = gauge("slo_notify_open_alerts", "Alerts that are open", "office")
        self.held = gauge("slo_notify_held_notices", "Ends that aren't believed yet", "office")
        self.sent = counter("slo_notify_sends", "Sendings to the receiver", "outcome")
        self.taken = counter("slo_notify_taken", "Notices that were taken", "office")
        self.faults = counter(
            "slo_notify_faults", "Answers of the office that couldn't be read", "office"
        )
        self.written = gauge("slo_notify_state_written", "Whether the state's file has all")
        self.clock = gauge("slo_notify_clock_trusted", "Whether this machine's clock is trusted")
        self.round = gauge("slo_notify_round_timestamp_seconds", "When the last round ended")
        self.budgets = BudgetMetrics()
        self.registry.register(self.budgets)

    def serve(self, host: str, port: int) -> None:
        start_http_server(port, addr=host, registry=self.registry)

    def counted(self, office: str, status: int) -> None:
        self.answers.labels(office, str(status)).inc()

    def _gauge(self, name: str, text: str, *labels: str) -> Gauge:
        return Gauge(name, text, labels, registry=self.registry)

    def _counter(self, name: str, text: str, *labels: str) -> Counter:
        return Counter(name, text, labels, registry=self.registry)
