"""Whether a release may go ahead, by what an office answered. Nothing is asked here."""

from __future__ import annotations

from collections.abc import Iterable
from dataclasses import dataclass, field
from enum import IntEnum
from fractions import Fraction
from typing import Optional

from slo_tools.clock import date_of, minute_of_date
from slo_tools.spelling import budget_text, percent

FREEZE = "slo-office/freeze"


class Verdict(IntEnum):
    """The verdicts, each as the program's exit status."""

    RELEASE = 0
    HOLD = 1
    UNKNOWN = 2


@dataclass(frozen=True)
class Reason:
    """Why a release isn't let through, or why that couldn't be told."""

    verdict: Verdict
    why: str


@dataclass(frozen=True)
class Freeze:
    """Minutes [begin, end) in which nothing is released."""

    begin: int
    end: Optional[int]
    why: str

    def holds_at(self, minute: int) -> bool:
        return self.begin <= minute and (self.end is None or minute < self.end)


@dataclass(frozen=True)
class Page:
    """A policy that pages and its state at the moment."""

    policy: str
    state: str


@dataclass(frozen=True)
class ObjectiveFacts:
    """What the office said of one objective."""

    number: int
    display: str
    target: str
    begin: Optional[int]
    counted: int
    remaining: Optional[Fraction]
    is_fresh: bool
    pages: list[Page]


@dataclass(frozen=True)
class SloFacts:
    """What the office said of one SLO, or why it said nothing that can be judged."""

    slo: str
    service: str
    at: int
    objectives: list[ObjectiveFacts]
    freezes: list[Freeze] = field(default_factory=list)
    faults: list[str] = field(default_factory=list)


@dataclass(frozen=True)
class Terms:
    """What is asked of a release: the least remainder, and how old the newest data may be."""

    remaining: Fraction
    stale: int


@dataclass(frozen=True)
class Judged:
    """The verdict on an objective, or on a whole SLO where `objective` is None."""

    slo: str
    objective: Optional[ObjectiveFacts]
    reasons: list[Reason]

    @property
    def verdict(self) -> Verdict:
        return worst(reason.verdict for reason in self.reasons)


class BadFreeze(Exception):
    """A freeze that is declared in a form that isn't known, which lets nothing through."""


def read_freeze(text: str) -> Freeze:
    """`always WHY` or `FROM/TO WHY`, with dates as 2026-12-20 or 2026-12-20T18:00Z."""
    words = text.split(maxsplit=1)
    if not words:
        raise BadFreeze(f"{FREEZE} is empty")
    span, why = words[0], words[1] if len(words) == 2 else ""
    if span == "always":
        return Freeze(0, None, why)
    begin, slash, end = span.partition("/")
    try:
        if not slash:
            raise ValueError(f"{span}: no FROM/TO")
        freeze = Freeze(minute_of_date(begin), minute_of_date(end), why)
    except ValueError as fault:
        raise BadFreeze(f"{FREEZE}: {fault}") from fault
    if freeze.end is not None and freeze.end <= freeze.begin:
        raise BadFreeze(f"{FREEZE}: {span} ends before it begins")
    return freeze


def worst(verdicts: Iterable[Verdict]) -> Verdict:
    """What several verdicts come to: a release that is held for sure is held, whatever else
    couldn't be told, and where something couldn't be told nothing is let through."""
    found = set(verdicts)
    if Verdict.HOLD in found:
        return Verdict.HOLD
    return Verdict.UNKNOWN if Verdict.UNKNOWN in found else Verdict.RELEASE


def judge_slo(facts: SloFacts, terms: Terms) -> list[Judged]:
    """The verdicts on an SLO: one for the whole, one for each objective."""
    whole = [Reason(Verdict.UNKNOWN, fault) for fault in facts.faults]
    whole += [
        Reason(Verdict.HOLD, _freeze_text(freeze))
        for freeze in facts.freezes
        if freeze.holds_at(facts.at)
    ]
    if not facts.objectives and not whole:
        whole.append(Reason(Verdict.UNKNOWN, "no objective was judged"))
    judged = [Judged(facts.slo, None, whole)] if whole else []
    return judged + [
        Judged(facts.slo, objective, judge_objective(objective, terms))
        for objective in facts.objectives
    ]


def judge_objective(facts: ObjectiveFacts, terms: Terms) -> list[Reason]:
    """Each reason that stands against a release; none lets it through."""
    reasons = []
    if facts.remaining is None or facts.counted == 0:
        reasons.append(Reason(Verdict.UNKNOWN, "no data in its window"))
    else:
        if facts.remaining <= 0:
            reasons.append(Reason(Verdict.HOLD, budget_text(facts.remaining)))
        elif facts.remaining < terms.remaining:
            asked = percent(terms.remaining)
            reasons.append(Reason(Verdict.HOLD, f"less than {asked} of the budget is left"))
        if not facts.is_fresh:
            reasons.append(Reason(Verdict.UNKNOWN, f"no data in the last {terms.stale} minutes"))
    return reasons + [reason for page in facts.pages for reason in _page_reasons(page)]


def _page_reasons(page: Page) -> list[Reason]:
    if page.state == "breaching":
        return [Reason(Verdict.HOLD, f"{page.policy} is breaching")]
    if page.state == "quiet":
        return []
    return [Reason(Verdict.UNKNOWN, f"{page.policy} has the state {page.state}")]


def _freeze_text(freeze: Freeze) -> str:
    until = "" if freeze.end is None else f" until {date_of(freeze.end)}"
    return f"a freeze is declared{until}" + (f": {freeze.why}" if freeze.why else "")
