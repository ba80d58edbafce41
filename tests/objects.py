"""Documents of objects, as the tests define them."""
from __future__ import annotations

from collections.abc import Iterable

VERSION = "apiVersion: openslo/v1\n"
SOURCE = "      metricSource:\n        type: t\n"
ROLLING = "  - duration: 30d\n    isRolling: true\n"


def document(kind: str, name: str, spec: str) -> str:
    """An object with the lines of its `spec`."""
    return f"{VERSION}kind: {kind}\nmetadata:\n  name: {name}\nspec:\n{spec}"


def service(name: str, labels: str = "") -> str:
    return f"{VERSION}kind: Service\nmetadata:\n  name: {name}\n{labels}spec: {{}}\n"


def ratio(name: str) -> str:
    """An indicator of good and total events."""
    return ratio_of(name, "good")


def ratio_of(name: str, reading: str) -> str:
    """An indicator of `good` or `bad` events of all, or of ratios of `success` or `failure`."""
    if reading in ("good", "bad"):
        return document("SLI", name, f"  ratioMetric:\n    total:\n{SOURCE}    {reading}:\n{SOURCE}")
    return document("SLI", name, f"  ratioMetric:\n    raw:\n{SOURCE}    rawType: {reading}\n")


def threshold(name: str) -> str:
    """An indicator of values."""
    return document("SLI", name, "  thresholdMetric:\n    metricSource:\n      type: t\n")


def slo(name: str, indicator: str, objectives: str, policies: Iterable[str] = (), method: str = "Occurrences", window: str = ROLLING) -> str:
    """An SLO of the service `shop`, with the lines of its objectives."""
    named = "".join(f"  - {it}\n" for it in policies)
    return document("SLO", name, f"  service: shop\n  indicatorRef: {indicator}\n  timeWindow:\n{window}  budgetingMethod: {method}\n"
                    f"  objectives:\n{objectives}" + (f"  alertPolicies:\n{named}" if named else ""))


def condition(name: str, threshold: str, lookback: str, op: str = "gt", more: str = "") -> str:
    return document("AlertCondition", name, "  severity: page\n  condition:\n    kind: burnrate\n"
                    f"    op: {op}\n    threshold: {threshold}\n    lookbackWindow: {lookback}\n{more}")


def policy(name: str, over: str, lines: str = "  alertWhenBreaching: true\n  alertWhenResolved: true\n") -> str:
    return document("AlertPolicy", name, f"{lines}  conditions:\n  - conditionRef: {over}\n")
