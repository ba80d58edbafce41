"""What the page tells people beside an alert's numbers: from which burn it comes, whether it tells
anybody, where the runbook is, whose the service is."""

from __future__ import annotations

from collections.abc import Iterable
from dataclasses import dataclass
from fractions import Fraction
from typing import Optional

from slo_tools.notify.wording import Rule
from slo_tools.objects import Document, map_of

# Annotations or labels, the first that stands.
RUNBOOK = ("runbook", "runbook_url")
OWNER = ("team", "owner")


@dataclass(frozen=True)
class Guidance:
    """What is told of a policy: its rules, whether it says that it breaches, its runbook."""

    rules: tuple[Rule, ...] = ()
    tells: bool = True
    runbook: Optional[str] = None


def guidance_of(rules: tuple[Rule, ...], policy: Optional[Document]) -> Guidance:
    """That of a policy by its rules and its object, which a built-in one hasn't."""
    if policy is None:
        return Guidance(rules)
    tells = str(policy.spec.get("alertWhenBreaching", "true")) == "true"
    return Guidance(rules, tells, text_of([policy], RUNBOOK))


def exact_decimal(value: Fraction) -> str:
    """A threshold as people wrote it: not rounded, as those of a text for the pager are."""
    digits = next((n for n in range(31) if (value * 10**n).denominator == 1), 30)
    text = str(int(value * 10**digits)).rjust(digits + 1, "0")
    return f"{text[:-digits]}.{text[-digits:]}" if digits else text


def text_of(documents: Iterable[Optional[Document]], keys: Iterable[str]) -> Optional[str]:
    """What the first of some objects says under one of these keys."""
    names = list(keys)
    for document in documents:
        if document is None:
            continue
        metadata = map_of(document.members.get("metadata"))
        for part in (map_of(metadata.get("annotations")), map_of(metadata.get("labels"))):
            for key in names:
                if isinstance(part.get(key), str) and part[key].strip():
                    return str(part[key]).strip()
    return None
