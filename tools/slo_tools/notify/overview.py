"""The file `overview.json`, which the page's overview reads (tools/OVERVIEW.md)."""

from __future__ import annotations

import json
from typing import Any, Optional

from slo_tools.notify.deciding import Binding
from slo_tools.notify.guidance import exact_decimal
from slo_tools.notify.state import OfficeState
from slo_tools.notify.watching import LOOKBACKS, AlertView, ObjectiveView, SloView, Watch
from slo_tools.spelling import spelled_fraction

VERSION = 1


def office_entry(
    name: str, path: str, watch: Watch, fault: Optional[str], is_up: bool, state: OfficeState
) -> dict[str, Any]:
    """An office with all its SLOs, as they were when it answered last."""
    return {
        "at": watch.at,
        "entries": watch.entries,
        "fault": fault,
        "name": name,
        "origin": watch.origin,
        "path": path,
        "slos": [_slo_entry(view, state) for view in watch.views],
        "up": is_up,
        "usage": watch.usage,
    }


def overview_text(
    second: int, every: int, notify: dict[str, Any], offices: list[dict[str, Any]]
) -> str:
    told = {
        "every": every,
        "notify": notify,
        "offices": offices,
        "second": second,
        "version": VERSION,
        "written": second // 60,
    }
    return json.dumps(told, ensure_ascii=False, separators=(",", ":"), sort_keys=True)


def _slo_entry(view: SloView, state: OfficeState) -> dict[str, Any]:
    slo = view.slo
    calendar = slo.window.get("calendar") or {}
    return {
        "description": str(slo.document.spec.get("description") or ""),
        "display": slo.document.display,
        "fault": view.fault,
        "indicator": slo.indicator,
        "method": slo.method,
        "name": slo.name,
        "objectives": [_objective_entry(slo.name, each, state) for each in view.objectives],
        "owner": view.owner,
        "runbook": view.runbook,
        "service": slo.service,
        "service_display": view.service_display,
        "window": {
            "duration": slo.window.get("duration"),
            "rolling": not calendar,
            "start": calendar.get("startTime"),
            "zone": slo.zone,
        },
    }


def _objective_entry(slo: str, view: ObjectiveView, state: OfficeState) -> dict[str, Any]:
    budget = view.budget
    return {
        "age": view.age,
        "alerts": [
            _alert_entry(alert, _since(state, Binding(slo, view.objective.number, alert.policy)))
            for alert in view.alerts
        ],
        "burn": None if budget is None else spelled_fraction(budget.burn),
        "burns": {name: spelled_fraction(view.burns[name]) for name in LOOKBACKS},
        "den": None if budget is None else budget.den,
        "display": view.objective.display,
        "error": None if budget is None else spelled_fraction(budget.error),
        "from": None if budget is None else budget.begin,
        "num": None if budget is None else budget.num,
        "number": view.objective.number,
        "remaining": None if budget is None else spelled_fraction(budget.remaining),
        "slice": view.slice,
        "stale": view.is_stale,
        "state": view.state,
        "target": view.objective.target,
        "trend": view.trend,
    }


def _alert_entry(alert: AlertView, since: Optional[int]) -> dict[str, Any]:
    guidance = alert.guidance
    return {
        "policy": alert.policy,
        "runbook": guidance.runbook,
        "severity": alert.severity,
        "since": since,
        "state": alert.state,
        "tells": guidance.tells,
        "terms": [
            {
                "burn": exact_decimal(rule.threshold),
                "lookback": rule.windows[0],
                "op": rule.op,
                "short": rule.windows[1] if len(rule.windows) > 1 else None,
            }
            for rule in guidance.rules
        ],
    }


def _since(state: OfficeState, binding: Binding) -> Optional[int]:
    opened = state.opened.get(binding)
    return None if opened is None else opened.since
