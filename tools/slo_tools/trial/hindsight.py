"""What definitions say of a past in hindsight: budgets and alerts over what is known now."""

from __future__ import annotations

from collections.abc import Iterable, Iterator
from dataclasses import dataclass, field
from fractions import Fraction
from typing import Optional

from slo_tools import questions
from slo_tools.answers import Budgets
from slo_tools.objects import Slo
from slo_tools.past.scratch import Scratch
from slo_tools.questions import Outcome
from slo_tools.trial.catalogue import Catalogue, Watched

Span = tuple[int, int]

# The longest timeline that an office answers.
LONGEST = 44_640


@dataclass(frozen=True)
class Alert:
    """Minutes [begin, end) in which an alert was active."""

    watched: Watched
    begin: int
    end: int


@dataclass(frozen=True)
class BudgetLeft:
    """What is left of an objective's budget; None where nothing was counted. `why` is the refusal
    of an office that can't tell it."""

    slo: str
    objective: int
    # Two budgets are told alike where the same is left of them.
    display: str = field(compare=False)
    target: str = field(compare=False)
    window: str = field(compare=False)
    remaining: Optional[Fraction]
    why: str = ""


@dataclass(frozen=True)
class Told:
    """What an office with some definitions says of a past."""

    budgets: list[BudgetLeft]
    alerts: list[Alert]


def told_by(scratch: Scratch, catalogue: Catalogue, begin: int, end: int) -> Told:
    """Budgets at `end`, and the alerts of [begin, end)."""
    slos = catalogue.slos
    answers = scratch.asked([questions.budgets(slo.name, end) for slo in slos])
    budgets = [line for slo, answer in zip(slos, answers) for line in _budgets(slo, answer)]
    pieces = [(first, min(first + LONGEST, end)) for first in range(begin, end, LONGEST)]
    asked = [
        questions.alerts(each.slo, each.objective, each.policy, *piece)
        for each in catalogue.watched
        for piece in pieces
    ]
    outcomes = iter(scratch.asked(asked))
    alerts = []
    for each in catalogue.watched:
        spans = [span for _ in pieces for span in next(outcomes).get().intervals]
        alerts += [Alert(each, first, last) for first, last in joined(spans)]
    return Told(budgets, alerts)


def joined(spans: Iterable[Span]) -> list[Span]:
    """Spans of questions that follow one another: those that touch are one."""
    made: list[Span] = []
    for begin, end in spans:
        if made and begin <= made[-1][1]:
            made[-1] = (made[-1][0], max(end, made[-1][1]))
        else:
            made.append((begin, end))
    return made


def _budgets(slo: Slo, outcome: Outcome[Budgets]) -> Iterator[BudgetLeft]:
    why = "" if outcome.fault is None else str(outcome.fault)
    left = None if outcome.found is None else outcome.found.budgets
    window = str(slo.window.get("duration", ""))
    for each in slo.objectives:
        remaining = None if left is None else left[each.number].remaining
        yield BudgetLeft(slo.name, each.number, each.display, each.target, window, remaining, why)
