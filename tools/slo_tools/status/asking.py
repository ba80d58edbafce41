"""What the status asks of an office: a few rounds of questions, each on one link."""

from __future__ import annotations

from collections.abc import Iterable, Iterator, Sequence
from dataclasses import dataclass
from fractions import Fraction
from typing import Any, Optional

from slo_tools import questions
from slo_tools.answers import Alerts, Budget, Budgets, Burn
from slo_tools.freshness import age_or_none
from slo_tools.notify.arrivals import Arrivals
from slo_tools.notify.catalogue import Catalogue, read_catalogue
from slo_tools.objects import Slo
from slo_tools.office import Office
from slo_tools.questions import Outcome, Question
from slo_tools.refusals import Foreign, NotFound, Refusal
from slo_tools.status.standing import Facts, Line

LOOKBACKS = ("5m", "1h", "6h", "3d")
# The minutes of the first of them.
SHORTEST = 5
# The severities that wake somebody.
PAGES = ("page", "critical")


@dataclass(frozen=True)
class Standing:
    """All objectives at the office's moment, worst first; `faults` are what can't be read, and
    `unread` the SLOs among it."""

    at: int
    lines: list[Line]
    faults: list[str]
    unread: list[str]


class Asker:
    """Asks an office again and again. `usual` is how old the newest row of an indicator may be."""

    def __init__(self, office: Office, usual: int) -> None:
        self.office = office
        self.usual = usual
        self._arrivals = Arrivals()
        self._catalogue = Catalogue()
        self._entries = 0
        self._at = 0

    def standing(self, service: Optional[str]) -> Standing:
        """How all SLOs stand, or those of a service. ValueError is raised where there are none."""
        with self.office.kept_link():
            self._entries, told = self.office.objects()
            names = [(each.kind, each.name) for each in told]
            self._catalogue = read_catalogue(self.office, names, self.usual)
            self._at = self._moment()
            slos = list(self._catalogue.slos.values())
            if service is not None:
                slos = [slo for slo in slos if slo.service == service]
            lines = self._lines(slos)
        faults = self._catalogue.faults
        unread = [name for kind, name in names if kind == "SLO" and f"SLO {name}" in faults]
        unread = [name for name in unread if name not in self._catalogue.slos]
        if not lines and not unread:
            place = "office" if service is None else f"service {service}"
            raise ValueError(f"the {place} has no SLO")
        told_faults = [f"{place}: {why}" for place, why in faults.items()]
        return Standing(self._at, sorted(lines, key=Line.rank), told_faults, unread)

    def _moment(self) -> int:
        status = self.office.status()
        if status is None:
            raise Foreign(404, "the office doesn't say its moment (GET /status)")
        return int(status["at"])

    def _lines(self, slos: Sequence[Slo]) -> list[Line]:
        outcomes = iter(self.office.asked([each for slo in slos for each in self._asked(slo)]))
        told = [_Told(slo, outcomes) for slo in slos]
        ages = self._ages(told)
        return [line for each in told for line in self._lines_of(each, ages)]

    def _asked(self, slo: Slo) -> list[Question[Any]]:
        at = self._at
        asked: list[Question[Any]] = [questions.budgets(slo.name, at)]
        for objective in slo.objectives:
            number = objective.number
            asked += [questions.burn(slo.name, number, lookback, at) for lookback in LOOKBACKS]
            asked += [questions.alerts(slo.name, number, each, at, at) for each in slo.policies]
        return asked

    def _lines_of(self, told: _Told, ages: dict[str, Optional[int]]) -> list[Line]:
        lines = []
        for number, (burns, alerts) in enumerate(zip(told.burns, told.alerts)):
            age = ages.get(told.slo.indicator, 0)
            facts = Facts(
                None if told.budgets is None else told.counted(number),
                told.remaining(number),
                age,
                age is None or age > self._most(told.slo),
                alerts,
                self._paging(alerts),
            )
            rates = [None if burn is None else burn.burn for burn in burns]
            lines.append(Line(told.slo.name, number, facts, rates))
        return lines

    def _paging(self, policies: Iterable[str]) -> frozenset[str]:
        known = self._catalogue.policies
        return frozenset(
            each for each in policies if each in known and known[each].severity.lower() in PAGES
        )

    def _most(self, slo: Slo) -> int:
        return self._catalogue.stale.get(slo.name, self.usual)

    def _ages(self, told: Sequence[_Told]) -> dict[str, Optional[int]]:
        """The ages of the newest rows of the indicators that had no events in the shortest lookback:
        rows of no events are rows. That asks for much more, and it is seldom needed."""
        fresh = {
            each.slo.indicator
            for each in told
            if each.has_events and self._most(each.slo) >= SHORTEST
        }
        wanted: dict[str, list[Slo]] = {}
        for each in told:
            if each.slo.indicator not in fresh or self._most(each.slo) < SHORTEST:
                wanted.setdefault(each.slo.indicator, []).append(each.slo)
        if not wanted:
            return {}
        try:
            self._arrivals.ask(self.office, self._entries, self._at, wanted)
        except (Refusal, Foreign):
            # An office, or a proxy, that doesn't hand entries out.
            self._arrivals = Arrivals()
        return {indicator: self._age(indicator, slos) for indicator, slos in wanted.items()}

    def _age(self, indicator: str, slos: Sequence[Slo]) -> Optional[int]:
        newest = self._arrivals.newest.get(indicator)
        if newest is not None:
            return self._at - newest
        # What came longer ago than was looked back.
        found = [age_or_none(self.office, slo.name, 0, self._at, SHORTEST) for slo in slos]
        return min((age for age in found if age is not None), default=None)


class _Told:
    """What the office answered of an SLO, taken from the outcomes in the order of the questions."""

    def __init__(self, slo: Slo, outcomes: Iterator[Outcome[Any]]) -> None:
        self.slo = slo
        self.budgets: Optional[list[Budget]] = _budgets(next(outcomes))
        self.burns: list[list[Optional[Burn]]] = []
        self.alerts: list[dict[str, Optional[str]]] = []
        for _ in slo.objectives:
            self.burns.append([_burn(next(outcomes)) for _ in LOOKBACKS])
            self.alerts.append({policy: _state(next(outcomes)) for policy in slo.policies})

    @property
    def has_events(self) -> bool:
        """Whether an objective had some in the shortest lookback."""
        return any(burns[0] is not None and burns[0].den > 0 for burns in self.burns)

    def counted(self, number: int) -> int:
        budget = self._budget(number)
        return 0 if budget is None else budget.den

    def remaining(self, number: int) -> Optional[Fraction]:
        budget = self._budget(number)
        return None if budget is None else budget.remaining

    def _budget(self, number: int) -> Optional[Budget]:
        budgets = self.budgets or []
        return budgets[number] if number < len(budgets) else None


def _budgets(outcome: Outcome[Budgets]) -> Optional[list[Budget]]:
    """The budgets; None where no window has begun, or where the SLO was removed meanwhile."""
    return None if isinstance(outcome.fault, NotFound) else outcome.get().budgets


def _burn(outcome: Outcome[Burn]) -> Optional[Burn]:
    """The burn rate; None where the office refuses it, as one that reaches too far back."""
    return None if isinstance(outcome.fault, Refusal) else outcome.get()


def _state(outcome: Outcome[Alerts]) -> Optional[str]:
    return None if isinstance(outcome.fault, Refusal) else outcome.get().state
