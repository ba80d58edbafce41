"""A trial as tables, and as JSON."""

from __future__ import annotations

import json
from collections.abc import Iterator, Sequence
from fractions import Fraction
from typing import Any, Optional

from slo_tools.apply.telling import shown
from slo_tools.clock import DAY, date_of
from slo_tools.past.differences import differences_of
from slo_tools.spelling import percent, spelled_fraction
from slo_tools.trial.as_it_came import ticked_minutes
from slo_tools.trial.catalogue import Watched
from slo_tools.trial.hindsight import Alert, BudgetLeft
from slo_tools.trial.incidents import Incident, Quality, quality_of
from slo_tools.trial.trying import Trial

SEVERITIES = ("page", "ticket")
HINDSIGHT = "in hindsight"
Row = Sequence[str]


def lines_of(trial: Trial, slack: int) -> Iterator[str]:
    """All that people are told of a trial."""
    yield _head(trial)
    yield ""
    changes = list(differences_of(trial.now.catalogue.texts, trial.folder.catalogue.texts))
    yield from changes or ["nothing would be changed"]
    yield ""
    yield from table(list(_budget_rows(trial)))
    yield ""
    yield "Alerts in hindsight, over what is known now"
    yield from table(list(_alert_rows(trial, trial.now.told.alerts, trial.folder.told.alerts)))
    now, folder = trial.now.as_it_came, trial.folder.as_it_came
    if now is not None and folder is not None:
        ticks = ticked_minutes(trial.past, trial.begin, trial.end)
        yield ""
        yield f"Notices as it came, at the ticks of {ticks} of {trial.end - trial.begin} minutes"
        yield from table(list(_notice_rows(trial, now, folder)))
    for severity in SEVERITIES if trial.incidents else ():
        yield ""
        yield from _quality_lines(trial, severity, slack)
    yield ""
    yield from _dates(trial)
    yield from _notes(trial)


def _head(trial: Trial) -> str:
    days = (trial.end - trial.begin) / DAY
    span = f"{date_of(trial.begin)} to {date_of(trial.end)}"
    return f"{span}, {days:.3g} days, {len(trial.past.records)} entries"


def table(rows: Sequence[Row]) -> Iterator[str]:
    """Rows of cells, each column as wide as its widest cell."""
    widths = [max(len(row[column]) for row in rows) for column in range(len(rows[0]))]
    for row in rows:
        yield "  ".join(cell.ljust(width) for cell, width in zip(row, widths)).rstrip()


def _pair(now: str, folder: str) -> str:
    return now if now == folder else f"{now} -> {folder}"


def _budget_rows(trial: Trial) -> Iterator[Row]:
    yield "SLO", "OBJECTIVE", "WINDOW", "TARGET", "BUDGET LEFT"
    now = {(it.slo, it.objective): it for it in trial.now.told.budgets}
    folder = {(it.slo, it.objective): it for it in trial.folder.told.budgets}
    for key in sorted({*now, *folder}):
        old, new = now.get(key), folder.get(key)
        known = new or old
        assert known is not None
        name = f"{known.objective} {shown(known.display)}"
        before, after = old or known, new or known
        window = _pair(before.window, after.window)
        target = _pair(before.target, after.target)
        yield known.slo, name, window, target, _pair(_left(old), _left(new))


def _left(budget: Optional[BudgetLeft]) -> str:
    if budget is None:
        return "none"
    return budget.why or ("no data" if budget.remaining is None else percent(budget.remaining))


def _alert_rows(trial: Trial, now: Sequence[Alert], folder: Sequence[Alert]) -> Iterator[Row]:
    """How often each alert told, and in how many minutes; a star where that differs."""
    yield "SLO", "POLICY", "SEVERITY", "NOW", "MINUTES", "FOLDER", "MINUTES", ""
    for each in sorted({*trial.now.catalogue.watched, *trial.folder.catalogue.watched}):
        old, new = (_own(each, alerts) for alerts in (now, folder))
        cells = [*_counted(old), *_counted(new)]
        slo = f"{each.slo}/{each.objective}"
        yield slo, each.policy, each.severity, *cells, "" if old == new else "*"


def _notice_rows(trial: Trial, now: Sequence[Alert], folder: Sequence[Alert]) -> Iterator[Row]:
    """How many notices said that an alert breaches; a star where they differ."""
    yield "SLO", "POLICY", "SEVERITY", "NOW", "FOLDER", ""
    for each in sorted({*trial.now.catalogue.watched, *trial.folder.catalogue.watched}):
        old, new = (_own(each, alerts) for alerts in (now, folder))
        slo, mark = f"{each.slo}/{each.objective}", "" if old == new else "*"
        yield slo, each.policy, each.severity, str(len(old)), str(len(new)), mark


def _own(watched: Watched, alerts: Sequence[Alert]) -> list[Alert]:
    return [alert for alert in alerts if alert.watched == watched]


def _counted(alerts: Sequence[Alert]) -> list[str]:
    return [str(len(alerts)), str(sum(alert.end - alert.begin for alert in alerts))]


def _within(trial: Trial) -> list[Incident]:
    """The incidents that began in the days that are tried."""
    return [it for it in trial.incidents if trial.begin <= it.begin < trial.end]


def _quality_lines(trial: Trial, severity: str, slack: int) -> Iterator[str]:
    for word, (now, folder) in _ways(trial):
        old, new = (
            quality_of(
                [it for it in alerts if it.watched.severity == severity], _within(trial), slack
            )
            for alerts in (now, folder)
        )
        precision = f"{old.true_alerts} of {old.alerts} -> {new.true_alerts} of {new.alerts}"
        count = len(old.detections)
        recall = f"{old.found} of {count} -> {new.found} of {count}"
        yield f"{severity}s {word}: precision {precision}, recall {recall}"
        yield from table(list(_incident_rows(old, new, word == HINDSIGHT)))


def _ways(trial: Trial) -> Iterator[tuple[str, tuple[list[Alert], list[Alert]]]]:
    yield HINDSIGHT, (trial.now.told.alerts, trial.folder.told.alerts)
    now, folder = trial.now.as_it_came, trial.folder.as_it_came
    if now is not None and folder is not None:
        yield "as it came", (now, folder)


def _incident_rows(now: Quality, folder: Quality, with_ends: bool) -> Iterator[Row]:
    """When each incident was told; where the ends of alerts are known, also how long one went on."""
    head = ("INCIDENT", "BEGAN", "LASTED", "TOLD AFTER", "ENDED AFTER IT")
    yield head if with_ends else head[:-1]
    for old, new in zip(now.detections, folder.detections):
        incident = old.incident
        told = _pair(_minutes(old.detected), _minutes(new.detected))
        reset = [_pair(_minutes(old.reset), _minutes(new.reset))] if with_ends else []
        lasted = f"{incident.end - incident.begin}m"
        yield shown(incident.name), date_of(incident.begin), lasted, told, *reset


def _minutes(count: Optional[int]) -> str:
    return "-" if count is None else f"{count}m"


def _dates(trial: Trial) -> Iterator[str]:
    yield "When, in hindsight: - now alone, + the folder alone, = both"
    now, folder = set(trial.now.told.alerts), set(trial.folder.told.alerts)
    for alert in sorted(now | folder, key=lambda it: (it.begin, it.end, it.watched)):
        mark = "=" if alert in now and alert in folder else "-" if alert in now else "+"
        each = alert.watched
        lasted = f"{alert.end - alert.begin:5}m  {each.severity:6}"
        during = [
            shown(it.name)
            for it in trial.incidents
            if it.concerns(each) and it.begin < alert.end and alert.begin < it.end
        ]
        name = f"{each.slo}/{each.objective} {each.policy}"
        yield f"{mark} {date_of(alert.begin)} {lasted}  {name}  {', '.join(during)}".rstrip()


def _notes(trial: Trial) -> Iterator[str]:
    """What the tables can't tell."""
    if trial.past.origin == trial.begin:
        yield "note: the office has no minute before these"
    unfed = {it.slo for it in trial.folder.told.budgets if it.remaining is None and not it.why}
    for slo in sorted(unfed):
        yield f"note: {slo} has no rows in its window: nothing can be told of it"
    left_out = [it for it in trial.incidents if it not in _within(trial)]
    for incident in left_out:
        yield f"note: {shown(incident.name)} didn't begin in these days, and isn't counted"
    yield "note: slo-notify holds ends of alerts back while rows stop, which isn't counted"


def json_of(trial: Trial, slack: int) -> str:
    """The same as JSON, with exact fractions."""
    told: dict[str, Any] = {
        "begin": trial.begin,
        "end": trial.end,
        "entries": len(trial.past.records),
        "same": trial.is_same,
        "changes": list(differences_of(trial.now.catalogue.texts, trial.folder.catalogue.texts)),
    }
    for word, side in (("now", trial.now), ("folder", trial.folder)):
        ways = {"hindsight": side.told.alerts}
        told[word] = {
            "budgets": [_budget_json(it) for it in side.told.budgets],
            "hindsight": [
                {**it.watched._asdict(), "from": it.begin, "to": it.end} for it in side.told.alerts
            ],
        }
        if side.as_it_came is not None:
            ways["as_it_came"] = side.as_it_came
            sent = [{**it.watched._asdict(), "at": it.begin} for it in side.as_it_came]
            told[word]["as_it_came"] = sent
        if trial.incidents:
            told[word]["quality"] = {
                way: {it: _quality_json(alerts, it, trial, slack, way) for it in SEVERITIES}
                for way, alerts in ways.items()
            }
    return json.dumps(told, indent=1, sort_keys=True)


def _budget_json(budget: BudgetLeft) -> dict[str, Any]:
    left: Optional[Fraction] = budget.remaining
    return {
        "slo": budget.slo,
        "objective": budget.objective,
        "target": budget.target,
        "window": budget.window,
        "remaining": spelled_fraction(left),
        "refusal": budget.why,
    }


def _quality_json(
    alerts: Sequence[Alert], severity: str, trial: Trial, slack: int, way: str
) -> dict[str, Any]:
    chosen = [it for it in alerts if it.watched.severity == severity]
    quality = quality_of(chosen, _within(trial), slack)
    return {
        "alerts": quality.alerts,
        "true_alerts": quality.true_alerts,
        "incidents": [
            {
                "name": it.incident.name,
                "detected": it.detected,
                **({"reset": it.reset} if way == "hindsight" else {}),
            }
            for it in quality.detections
        ],
    }
