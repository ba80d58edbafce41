"""What is wrong with an office itself, each as an alert of its own, and what ends it."""

from __future__ import annotations

from collections.abc import Mapping
from dataclasses import replace
from fractions import Fraction
from typing import NamedTuple, Optional

from slo_tools.notify.receiver import NOTIFIER
from slo_tools.notify.staleness import Stop
from slo_tools.notify.state import OpenAlert
from slo_tools.notify.wording import spelled_minutes

# Above this part of a limit the office is told to be filling.
FILLING = Fraction(9, 10)
# So many names stand in a text; the annotation `indicators` has all.
NAMES = 10
# What is known only of an office that answers, and stays as it was of one that doesn't.
AWAY, CLOCK = "away", "clock"
WATCHDOG = "Watchdog"

_ENDS = {
    "SloDataStale": "No rows are lacking any more: {indicator}.",
    "SloOfficeAway": "The office {office} answers again.",
    "SloOfficeClock": "The moment of the office {office} is this machine's again.",
    "SloOfficeFilling": "Less than nine tenths of the {what} of the office {office} are used.",
    "SloOfficeFull": "The office {office} takes changes again.",
}


class OwnFault(NamedTuple):
    """Labels and annotations of an alert about an office."""

    labels: dict[str, str]
    annotations: dict[str, str]


def stale_faults(
    stops: Mapping[str, Stop], ages: Mapping[str, Optional[int]]
) -> dict[str, OwnFault]:
    """One alert for each stop, with the list of the indicators that have no rows since."""
    return {f"stale {label}": _stale_fault(label, stop, ages) for label, stop in stops.items()}


def _stale_fault(label: str, stop: Stop, ages: Mapping[str, Optional[int]]) -> OwnFault:
    known = [age for age in map(ages.get, stop.members) if age is not None]
    names = ", ".join(stop.members[:NAMES])
    if len(stop.members) > NAMES:
        names += f" and {len(stop.members) - NAMES} more"
    span = spelled_minutes(max(known)) if known else "more than 30 days"
    who = names
    if len(stop.members) > 1:
        who, span = f"{len(stop.members)} indicators ({names})", f"up to {span}"
    text = f"No rows of {who} for {span}: look at slo-feed's log. Open alerts stay open meanwhile."
    return OwnFault(
        {"alertname": "SloDataStale", "indicator": label, "severity": "page"},
        {"indicators": ", ".join(stop.members), "summary": text},
    )


def full_faults(
    full: Optional[str], usage: Optional[Mapping[str, list[int]]]
) -> dict[str, OwnFault]:
    """What an office says of its room."""
    found = {}
    if full is not None:
        found["full"] = OwnFault(
            {"alertname": "SloOfficeFull", "severity": "page"},
            {"summary": f"the office takes no changes: {full}"},
        )
    for what, (used, limit) in (usage or {}).items():
        if limit and Fraction(used, limit) >= FILLING:
            found[f"filling {what}"] = OwnFault(
                {"alertname": "SloOfficeFilling", "severity": "ticket", "what": what},
                {"summary": f"{used} of {limit} {what} are used"},
            )
    return found


def away_fault(why: str) -> OwnFault:
    labels = {"alertname": "SloOfficeAway", "severity": "page"}
    return OwnFault(labels, {"summary": f"no answer that counts: {why}"})


def clock_fault(why: str) -> OwnFault:
    text = f"{why}: nothing of it is ticked or told. Set its clock (operating.md, 'A wrong clock')"
    return OwnFault({"alertname": "SloOfficeClock", "severity": "page"}, {"summary": text})


def own_alert(
    fault: OwnFault, office: str, now: int, link: str, before: Optional[OpenAlert]
) -> OpenAlert:
    """The alert of a fault; one that is open keeps its begin."""
    labels = {**fault.labels, "notifier": NOTIFIER, "office": office}
    return OpenAlert(labels, fault.annotations, now if before is None else before.since, link)


def ended(alert: OpenAlert) -> OpenAlert:
    """An alert of these as it is told where it is over."""
    text = _ENDS.get(alert.labels.get("alertname", ""))
    if text is None:
        return alert
    names = {name: alert.labels.get(name, "") for name in ("indicator", "office", "what")}
    return replace(alert, annotations={**alert.annotations, "summary": text.format(**names)})


def watchdog(since: int, link: str) -> OpenAlert:
    """The alert that burns as long as this program works: whoever misses it knows that it doesn't."""
    labels = {"alertname": WATCHDOG, "notifier": NOTIFIER, "severity": "none"}
    text = "slo-notify works: where this alert ends or isn't repeated, nothing is paged"
    return OpenAlert(labels, {"summary": text}, since, link)
