"""The budgets, burns and alerts of offices as metrics: each value is one division of whole numbers,
so it is the number nearest to the office's fraction. Where nothing was counted there is no sample.

Beside names of its own there are those that sloth's recording rules have, for dashboards that were
made for them.
"""

from __future__ import annotations

import re
from collections.abc import Iterable, Iterator, Mapping
from fractions import Fraction
from typing import Optional

from prometheus_client.core import GaugeMetricFamily
from prometheus_client.metrics_core import Metric
from prometheus_client.registry import Collector

from slo_tools.notify.watching import LOOKBACKS, ObjectiveView, SloView
from slo_tools.objects import Slo
from slo_tools.spelling import minutes_of_duration

# The lookbacks over which sloth records, beside the SLO's own window.
SLOTH_LOOKBACKS = ("5m", "30m", "1h", "2h", "6h", "1d", "3d")
STATES = ("breaching", "no_data", "quiet")
TEXTS = {
    "slo_office_moment_timestamp_seconds": "The office's moment",
    "slo_office_objective_target_ratio": "The target of an objective",
    "slo_office_budget_remaining_ratio": "What is left of the error budget",
    "slo_office_error_ratio": "The bad part over a lookback; `window` is the SLO's own",
    "slo_office_burn_rate": "The burn rate over a lookback; `window` is the SLO's own",
    "slo_office_window_events": "What was counted in the SLO's window: good, and all",
    "slo_office_alert_state": "1 at the state of an alert, 0 at the others",
}
_OF_SLOTH = "The office's number under the name of sloth's rules"
_UNITS = (("y", 525_600), ("w", 10_080), ("d", 1_440), ("h", 60), ("m", 1))

_TARGET = re.compile(r"[0-9]{1,3}(\.[0-9]{1,20})?%?", re.ASCII)

# A metric's name, its labels, its value.
Sample = tuple[str, Mapping[str, str], Fraction]


class BudgetMetrics(Collector):
    """A collector of what the offices said last. Of one that doesn't answer nothing is offered: what
    it said before isn't so any more."""

    def __init__(self) -> None:
        self._samples: dict[str, list[Sample]] = {}

    def show(self, office: str, samples: Iterable[Sample]) -> None:
        self._samples[office] = list(samples)

    def forget(self, office: str) -> None:
        self._samples.pop(office, None)

    def describe(self) -> list[Metric]:
        """Nothing is promised: which there are depends on the offices."""
        return []

    def collect(self) -> Iterator[Metric]:
        """A family for each name; of equal labels the last value counts."""
        families: dict[str, dict[tuple[tuple[str, str], ...], Fraction]] = {}
        for samples in list(self._samples.values()):
            for name, labels, value in samples:
                families.setdefault(name, {})[tuple(labels.items())] = value
        for name, values in families.items():
            names = [key for key, _ in next(iter(values))]
            family = GaugeMetricFamily(name, TEXTS.get(name, _OF_SLOTH), labels=names)
            for pairs, value in values.items():
                family.add_metric([text for _, text in pairs], nearest(value))
            yield family


def nearest(value: Fraction) -> float:
    """The nearest number of 64 bits: a division of whole numbers is rounded once."""
    try:
        return value.numerator / value.denominator
    except OverflowError:
        return float("inf") if value > 0 else float("-inf")


def lookbacks(sloth_names: bool) -> tuple[str, ...]:
    """What is asked for each objective."""
    return tuple(dict.fromkeys([*LOOKBACKS, *(SLOTH_LOOKBACKS if sloth_names else ())]))


def samples_of(
    office: str, at: Optional[int], views: Iterable[SloView], sloth_names: bool
) -> Iterator[Sample]:
    """The samples of an office at its moment."""
    if at is not None:
        yield "slo_office_moment_timestamp_seconds", {"office": office}, Fraction(at * 60)
    for view in views:
        for objective in view.objectives:
            numbers = _Numbers(objective)
            yield from _own(office, view.slo, objective, numbers)
            if sloth_names:
                yield from _of_sloth(office, view.slo, objective, numbers)


class _Numbers:
    """An objective's exact numbers: target, and the bad part of each lookback and of the window."""

    def __init__(self, view: ObjectiveView) -> None:
        self.target = target_of(view.objective.target)
        self.allowed = None if self.target is None else 1 - self.target
        budget = view.budget
        is_counted = budget is not None and budget.den > 0
        self.error = budget.error if budget is not None and is_counted else None
        self.burn = budget.burn if budget is not None and is_counted else None
        self.remaining = budget.remaining if budget is not None and is_counted else None
        self.burns = view.burns

    def error_of(self, burn: Optional[Fraction]) -> Optional[Fraction]:
        """A burn rate is the bad part divided by the part that may be bad (docs/rules.md)."""
        return None if burn is None or self.allowed is None else burn * self.allowed


def _own(office: str, slo: Slo, view: ObjectiveView, numbers: _Numbers) -> Iterator[Sample]:
    number = str(view.objective.number)
    labels = {"office": office, "service": slo.service, "slo": slo.name, "objective": number}
    yield from _sample("slo_office_objective_target_ratio", labels, numbers.target)
    yield from _sample("slo_office_budget_remaining_ratio", labels, numbers.remaining)
    for lookback in LOOKBACKS:
        burn, over = numbers.burns.get(lookback), {**labels, "lookback": lookback}
        yield from _sample("slo_office_error_ratio", over, numbers.error_of(burn))
        yield from _sample("slo_office_burn_rate", over, burn)
    yield from _sample("slo_office_error_ratio", {**labels, "lookback": "window"}, numbers.error)
    yield from _sample("slo_office_burn_rate", {**labels, "lookback": "window"}, numbers.burn)
    if view.budget is not None:
        for events, count in (("good", view.budget.num), ("all", view.budget.den)):
            yield "slo_office_window_events", {**labels, "events": events}, Fraction(count)
    for alert in view.alerts:
        of_alert = {**labels, "policy": alert.policy, "severity": alert.severity}
        for state in STATES:
            value = Fraction(alert.state == state)
            yield "slo_office_alert_state", {**of_alert, "state": state}, value


def _of_sloth(office: str, slo: Slo, view: ObjectiveView, numbers: _Numbers) -> Iterator[Sample]:
    # An SLO of sloth has one objective.
    name = slo.name if len(slo.objectives) == 1 else f"{slo.name}/{view.objective.number}"
    service = slo.service
    labels = {"office": office, "sloth_id": f"{service}-{name}", "sloth_service": service}
    labels["sloth_slo"] = name
    minutes = minutes_of_duration(str(slo.window.get("duration"))) or 0
    ratios = {each: numbers.error_of(numbers.burns.get(each)) for each in SLOTH_LOOKBACKS}
    if minutes:
        # Where the window is as long as a lookback, the window counts.
        ratios[window_name(minutes)] = numbers.error
    for window, error in ratios.items():
        of_window = {**labels, "sloth_window": window}
        yield from _sample(f"slo:sli_error:ratio_rate{window}", of_window, error)
    yield from _sample("slo:objective:ratio", labels, numbers.target)
    yield from _sample("slo:error_budget:ratio", labels, numbers.allowed)
    yield from _sample("slo:time_period:days", labels, Fraction(minutes, 1_440))
    yield from _sample("slo:current_burn_rate:ratio", labels, numbers.burns.get("5m"))
    yield from _sample("slo:period_burn_rate:ratio", labels, numbers.burn)
    yield from _sample("slo:period_error_budget_remaining:ratio", labels, numbers.remaining)
    more = {"sloth_version": "slo_office", "sloth_mode": "slo-notify", "sloth_spec": "openslo/v1"}
    if numbers.target is not None:
        percent = _decimal(numbers.target * 100)
        yield "sloth_slo_info", {**labels, **more, "sloth_objective": percent}, Fraction(1)


def _sample(name: str, labels: Mapping[str, str], value: Optional[Fraction]) -> Iterator[Sample]:
    if value is not None:
        yield name, labels, value


def target_of(text: str) -> Optional[Fraction]:
    """A target as it was written, `0.99` or `99%`; None for what is none."""
    if _TARGET.fullmatch(text) is None:
        return None
    return Fraction(text[:-1]) / 100 if text.endswith("%") else Fraction(text)


def window_name(minutes: int) -> str:
    """A window's length as Prometheus writes it: 28 days are `4w`, 30 are `30d`."""
    return next(f"{minutes // long}{unit}" for unit, long in _UNITS if minutes % long == 0)


def _decimal(value: Fraction) -> str:
    """A number of few decimals, as it is written."""
    text = f"{value.numerator * 10**12 // value.denominator:013}"
    return f"{text[:-12]}.{text[-12:]}".rstrip("0").rstrip(".")
