"""Incidents that people know of, and how well alerts told of them: precision, recall, detection time
and reset time (Site Reliability Workbook, 'Alerting on SLOs')."""

from __future__ import annotations

import csv
from collections.abc import Iterable, Sequence
from dataclasses import dataclass
from pathlib import Path
from typing import Optional

from slo_tools.clock import minute_of_date
from slo_tools.objects import Slo
from slo_tools.trial.catalogue import Watched
from slo_tools.trial.hindsight import Alert

# What stands for all SLOs.
ALL = "*"


class BadIncidents(Exception):
    """A line of a file of incidents is none; the text says which one, and why."""


@dataclass(frozen=True)
class Incident:
    """Minutes [begin, end) in which something was wrong with an SLO, a service, or all of them."""

    name: str
    about: str
    begin: int
    end: int

    def concerns(self, watched: Watched) -> bool:
        return self.about in (watched.slo, watched.service, ALL)


@dataclass(frozen=True)
class Detection:
    """How an incident was told: how long after it began, and how long an alert for it went on
    behind it; None where none told of it."""

    incident: Incident
    detected: Optional[int]
    reset: Optional[int]


@dataclass(frozen=True)
class Quality:
    """How well alerts told of incidents."""

    detections: list[Detection]
    alerts: int
    # Those that told of an incident.
    true_alerts: int

    @property
    def found(self) -> int:
        """How many incidents were told."""
        return sum(each.detected is not None for each in self.detections)


def read_incidents(path: Path, slos: Iterable[Slo]) -> list[Incident]:
    """A file of lines `NAME,SLO or SERVICE or *,FROM,TO`. Raises BadIncidents."""
    about = {ALL}.union(*({slo.name, slo.service} for slo in slos))
    found = []
    try:
        with path.open(encoding="utf-8", newline="") as file:
            for number, fields in enumerate(csv.reader(file), 1):
                words = [word.strip() for word in fields]
                if any(words) and not words[0].startswith("#"):
                    found.append(_incident(words, about, f"{path}:{number}"))
    except (UnicodeDecodeError, csv.Error) as fault:
        raise BadIncidents(f"{path}: no lines NAME,SLO,FROM,TO: {fault}") from fault
    return found


def _incident(words: list[str], about: set[str], place: str) -> Incident:
    if len(words) != 4:
        raise BadIncidents(f"{place}: isn't NAME,SLO,FROM,TO")
    try:
        begin, end = minute_of_date(words[2]), minute_of_date(words[3])
    except ValueError as fault:
        raise BadIncidents(f"{place}: {fault}") from fault
    if end <= begin:
        raise BadIncidents(f"{place}: ends before it begins")
    if words[1] not in about:
        raise BadIncidents(f"{place}: there is no SLO or service {words[1]}; * stands for all")
    return Incident(words[0], words[1], begin, end)


def quality_of(alerts: Sequence[Alert], incidents: Sequence[Incident], slack: int) -> Quality:
    """How well alerts told. One tells of an incident where it is active in it, or begins within
    `slack` minutes behind it."""
    detections, true = list[Detection](), set[int]()
    for incident in incidents:
        telling = {
            place: alert
            for place, alert in enumerate(alerts)
            if incident.concerns(alert.watched)
            and alert.begin < incident.end + slack
            and alert.end > incident.begin
        }
        true.update(telling)
        if not telling:
            detections.append(Detection(incident, None, None))
            continue
        first = min(alert.begin for alert in telling.values())
        last = max(alert.end for alert in telling.values())
        detected, reset = max(0, first - incident.begin), max(0, last - incident.end)
        detections.append(Detection(incident, detected, reset))
    return Quality(detections, len(alerts), len(true))
