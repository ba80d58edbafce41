"""The objects of an office that the notifier needs, each read for itself."""

from __future__ import annotations

from collections.abc import Iterable, Sequence
from dataclasses import dataclass, field
from typing import Optional

from slo_tools.notify.slices import BUILT_IN_WINDOWS, slice_width
from slo_tools.notify.staleness import stale_of
from slo_tools.notify.wording import BUILT_IN_RULES, Rule, rule_of
from slo_tools.objects import BUILT_IN, Document, Slo, document, map_of
from slo_tools.office import Office
from slo_tools.refusals import NotFound, OfficeError
from slo_tools.spelling import minutes_of_duration

KINDS = ("Service", "AlertCondition", "AlertPolicy", "SLO")


@dataclass(frozen=True)
class Policy:
    """A policy's severity, the minutes of its windows, its rules, and its object where it has one."""

    severity: str
    windows: tuple[int, ...]
    rules: tuple[Rule, ...] = ()
    document: Optional[Document] = None


@dataclass
class Catalogue:
    """The SLOs, services and policies of an office; `stale` is how old an SLO's newest row may be,
    `faults` are the objects that can't be read, and why."""

    names: list[tuple[str, str]] = field(default_factory=list)
    slos: dict[str, Slo] = field(default_factory=dict)
    services: dict[str, Document] = field(default_factory=dict)
    policies: dict[str, Policy] = field(default_factory=dict)
    stale: dict[str, int] = field(default_factory=dict)
    faults: dict[str, str] = field(default_factory=dict)

    def indicator(self, slo: str) -> str:
        known = self.slos.get(slo)
        return "" if known is None else known.indicator

    def indicators(self) -> dict[str, list[Slo]]:
        """Each indicator with the SLOs that count it."""
        found: dict[str, list[Slo]] = {}
        for slo in self.slos.values():
            found.setdefault(slo.indicator, []).append(slo)
        return found

    def width(self, slo: str, objective: int) -> int:
        """The minutes of an objective's slices."""
        known = self.slos.get(slo)
        if known is None or objective >= len(known.objectives):
            return 1
        return slice_width(known, objective)


def read_catalogue(office: Office, names: Sequence[tuple[str, str]], usual: int) -> Catalogue:
    """The catalogue of the objects with these kinds and names. One that can't be read is left out,
    with its fault. Raises NoAnswer."""
    made = Catalogue(list(names))
    asked = [(kind, name) for kind, name in names if kind in KINDS]
    outcomes = office.asked([document(kind, name) for kind, name in asked])
    conditions: dict[str, Document] = {}
    policies: dict[str, Document] = {}
    for (kind, name), outcome in zip(asked, outcomes):
        try:
            found = outcome.get()
            if kind == "SLO":
                made.slos[name] = _checked(Slo(found))
        except NotFound:
            # It was removed since the list was made.
            continue
        except (OfficeError, LookupError, TypeError, ValueError) as fault:
            made.faults[f"{kind} {name}"] = f"can't be read: {fault}"
            continue
        kept = {"Service": made.services, "AlertCondition": conditions, "AlertPolicy": policies}
        if kind in kept:
            kept[kind][name] = found
    _add_policies(made, policies, conditions)
    _add_stale(made, usual)
    return made


def _checked(slo: Slo) -> Slo:
    """An SLO whose members that are looked at here have the form that the office writes."""
    for objective in slo.objectives:
        slice_width(slo, objective.number)
    if not slo.objectives or not all((slo.window, slo.service, slo.indicator)):
        raise ValueError("it has no objective, window, service or indicator")
    list(slo.policies)
    return slo


def _add_policies(
    made: Catalogue, policies: dict[str, Document], conditions: dict[str, Document]
) -> None:
    for name, windows in BUILT_IN_WINDOWS.items():
        made.policies[name] = Policy(BUILT_IN[name].severity, windows, BUILT_IN_RULES[name])
    for name, policy in policies.items():
        items = policy.spec.get("conditions")
        names = [str(map_of(each).get("conditionRef")) for each in _listed(items)]
        specs = [conditions[each].spec for each in names if each in conditions]
        lookbacks = [_lookback(spec) for spec in specs]
        severity = str(specs[-1].get("severity", "")) if specs else ""
        windows = tuple(each for each in lookbacks if each)
        rules = tuple(rule for rule in map(rule_of, specs) if rule is not None)
        made.policies[name] = Policy(severity, windows, rules, policy)


def _lookback(spec: dict[str, object]) -> int:
    text = str(map_of(spec.get("condition")).get("lookbackWindow", ""))
    return minutes_of_duration(text) or 0


def _listed(value: object) -> Iterable[object]:
    return value if isinstance(value, list) else ()


def _add_stale(made: Catalogue, usual: int) -> None:
    for slo in made.slos.values():
        service = made.services.get(slo.service)
        made.stale[slo.name], faults = stale_of(slo.document, service, usual)
        made.faults.update(faults)
