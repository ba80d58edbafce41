"""The alert of an objective and a policy, as it is told in a round."""

from __future__ import annotations

from collections.abc import Mapping
from fractions import Fraction
from typing import Optional

from slo_tools.answers import Budget
from slo_tools.clock import date_of
from slo_tools.notify.catalogue import Catalogue
from slo_tools.notify.deciding import Binding
from slo_tools.notify.receiver import NOTIFIER
from slo_tools.notify.wording import (
    Facts,
    carried,
    decimal_of,
    spelled_window,
    summary,
    target_text,
    window_text,
)
from slo_tools.objects import Document, Objective, map_of
from slo_tools.spelling import minutes_of_duration, percent


def labels_of(catalogue: Catalogue, office: str, binding: Binding) -> dict[str, str]:
    """What tells one alert from another, and routes it: its own labels, and those of its service,
    SLO and policy."""
    slo = catalogue.slos.get(binding.slo)
    policy = catalogue.policies.get(binding.policy)
    own = {
        "alertname": "SloBurn",
        "indicator": catalogue.indicator(binding.slo),
        "notifier": NOTIFIER,
        "objective": str(binding.objective),
        "office": office,
        "policy": binding.policy,
        "service": "" if slo is None else slo.service,
        "severity": "" if policy is None else policy.severity,
        "slo": binding.slo,
    }
    return {**own, **carried(_objects(catalogue, binding), "labels", own)}


def annotations_of(
    catalogue: Catalogue,
    binding: Binding,
    state: str,
    at: int,
    budget: Optional[Budget],
    burns: Mapping[str, Optional[Fraction]],
) -> dict[str, str]:
    """What is true of it at a minute, and the annotations of its service, SLO and policy."""
    facts = facts_of(catalogue, binding, state, at, budget, burns)
    left = facts.remaining
    own = {
        "at": date_of(at),
        "objective_name": _objective(catalogue, binding).display,
        "remaining": decimal_of(left),
        "remaining_percent": "" if left is None else percent(left),
        "state": state,
        "summary": summary(facts),
        "target": _objective(catalogue, binding).target,
        **{f"burn_{lookback}": decimal_of(burn) for lookback, burn in burns.items()},
    }
    return {**own, **carried(_objects(catalogue, binding), "annotations", own)}


def lookbacks_of(catalogue: Catalogue, binding: Binding) -> tuple[str, ...]:
    """The windows of its policy's rules, as lookbacks of burn rates."""
    policy = catalogue.policies.get(binding.policy)
    rules = () if policy is None else policy.rules
    return tuple(spelled_window(window) for rule in rules for window in rule.windows)


def facts_of(
    catalogue: Catalogue,
    binding: Binding,
    state: str,
    at: int,
    budget: Optional[Budget],
    burns: Mapping[str, Optional[Fraction]],
) -> Facts:
    """What the text of an alert rests on."""
    slo = catalogue.slos.get(binding.slo)
    policy = catalogue.policies.get(binding.policy)
    target = target_text(_objective(catalogue, binding).target)
    window, span, is_calendar = "", None, False
    if slo is not None:
        duration = str(slo.window.get("duration", ""))
        is_calendar = bool(map_of(slo.window.get("calendar")))
        window, span = window_text(duration, is_calendar), minutes_of_duration(duration)
    begin = None if budget is None else budget.begin
    return Facts(
        _name(catalogue, binding),
        target,
        window,
        binding.policy,
        "" if policy is None else policy.severity,
        state,
        () if policy is None else policy.rules,
        {minutes_of_duration(lookback) or 0: burn for lookback, burn in burns.items()},
        None if budget is None else budget.remaining,
        span,
        at - begin if is_calendar and begin is not None and begin < at else None,
    )


def _objects(catalogue: Catalogue, binding: Binding) -> list[Document]:
    """Service, SLO and policy, the most special last."""
    slo = catalogue.slos.get(binding.slo)
    policy = catalogue.policies.get(binding.policy)
    found = [
        None if slo is None else catalogue.services.get(slo.service),
        None if slo is None else slo.document,
        None if policy is None else policy.document,
    ]
    return [document for document in found if document is not None]


def _name(catalogue: Catalogue, binding: Binding) -> str:
    """The SLO's name for people, with the objective's where it has several."""
    slo = catalogue.slos.get(binding.slo)
    if slo is None:
        return binding.slo
    several = len(slo.objectives) > 1
    display = slo.document.display
    return f"{display}, {_objective(catalogue, binding).display}" if several else display


def _objective(catalogue: Catalogue, binding: Binding) -> Objective:
    slo = catalogue.slos.get(binding.slo)
    if slo is None or binding.objective >= len(slo.objectives):
        return Objective(binding.objective, str(binding.objective), "")
    return slo.objectives[binding.objective]


def link_of(pattern: str, office: str, binding: Optional[Binding]) -> str:
    """The page's address of an office, or of an objective."""
    return (
        pattern.replace("{office}", office)
        .replace("{slo}", "" if binding is None else binding.slo)
        .replace("{objective}", "" if binding is None else str(binding.objective))
    )
