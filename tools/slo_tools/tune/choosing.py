"""Which candidates told best, and which target a window would have kept."""

from __future__ import annotations

from collections.abc import Mapping, Sequence
from fractions import Fraction

from slo_tools import questions
from slo_tools.past.scratch import Scratch
from slo_tools.trial.hindsight import Alert
from slo_tools.trial.incidents import Incident, Quality, quality_of
from slo_tools.tune.candidates import Candidate

HOUR = 60
# An answer has at most so many sums.
HOURS_AT_ONCE = 2_000


def rank(quality: Quality) -> tuple[int, int, int, int]:
    """The least is best: incidents that were missed, alerts for nothing, minutes until incidents
    were told, minutes that alerts went on behind them."""
    detections = quality.detections
    late = sum(each.detected or 0 for each in detections)
    longer = sum(each.reset or 0 for each in detections)
    return len(detections) - quality.found, quality.alerts - quality.true_alerts, late, longer


def best_first(
    alerts: Mapping[Candidate, Sequence[Alert]], incidents: Sequence[Incident], slack: int
) -> list[Candidate]:
    """The candidates, the best one first."""
    return sorted(alerts, key=lambda it: rank(quality_of(alerts[it], incidents, slack)))


def within(alerts: Sequence[Alert], begin: int, end: int) -> list[Alert]:
    """The alerts that began in [begin, end)."""
    return [alert for alert in alerts if begin <= alert.begin < end]


def errors_of(
    scratch: Scratch, slo: str, objective: int, origin: int, end: int, window: int
) -> list[Fraction]:
    """The error of the window up to each whole hour, in ascending order."""
    first = origin + -origin % HOUR
    last = end - end % HOUR
    step = HOUR * HOURS_AT_ONCE
    asked = [
        questions.sums(slo, objective, begin, min(begin + step, last), HOUR)
        for begin in range(first, last, step)
    ]
    hours = [each for outcome in scratch.asked(asked) for each in outcome.get()]
    reach, good, total = window // HOUR, 0, 0
    errors = []
    for place, (num, den) in enumerate(hours):
        good, total = good + num, total + den
        if place >= reach:
            good, total = good - hours[place - reach][0], total - hours[place - reach][1]
        if place >= reach - 1 and total:
            errors.append(Fraction(total - good, total))
    return sorted(errors)


def kept_target(errors: Sequence[Fraction], part: Fraction) -> Fraction:
    """The greatest target that at least a part of the errors would have met."""
    place = -(-part.numerator * len(errors) // part.denominator) - 1
    return 1 - errors[max(0, place)]
