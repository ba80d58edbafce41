"""What is asked of an office in a round: objects, moment, rows, states, budgets."""

from __future__ import annotations

import time
from collections.abc import Callable, Collection, Iterator, Sequence
from dataclasses import dataclass, field
from fractions import Fraction
from typing import Any, Optional

from slo_tools import questions
from slo_tools.answers import Alerts, Budget, Budgets, Burn
from slo_tools.freshness import age_or_none, excluded_age, exclusions_of
from slo_tools.notify.arrivals import Arrivals
from slo_tools.notify.catalogue import Catalogue, read_catalogue
from slo_tools.notify.deciding import NO_DATA, QUIET, Binding, Present
from slo_tools.notify.guidance import OWNER, RUNBOOK, Guidance, guidance_of, text_of
from slo_tools.notify.slices import holds_slice, last_holding, shortest_holding
from slo_tools.notify.trends import Trends
from slo_tools.objects import Objective, Slo
from slo_tools.office import Office
from slo_tools.origin import origin_of
from slo_tools.questions import Outcome, Question
from slo_tools.refusals import Foreign, NoAnswer, NotFound, Refusal

# The Workbook's windows.
LOOKBACKS = ("5m", "30m", "1h", "6h", "3d")
# The objects are asked for again after so many rounds, or when their list is another.
ROUNDS_BETWEEN = 5


@dataclass
class CountedOffice(Office):
    """An office whose answers are counted by their status, and of which nothing is asked any more
    once the time of its round is over."""

    counted: Callable[[int], None] = lambda status: None
    most_seconds: float = 60.0
    _end: Optional[float] = field(default=None, init=False, repr=False)

    def begin(self) -> None:
        """The time of a round begins here."""
        self._end = time.monotonic() + self.most_seconds

    def answered(self, status: int) -> None:
        self.counted(status)
        if self._end is not None and time.monotonic() > self._end:
            raise NoAnswer(f"a round's questions took more than {self.most_seconds:.0f} s")


@dataclass(frozen=True)
class AlertView:
    """A policy of an objective, and its state at the moment."""

    policy: str
    severity: str
    state: str
    guidance: Guidance = Guidance()


@dataclass(frozen=True)
class ObjectiveView:
    """An objective's numbers at the moment."""

    objective: Objective
    budget: Optional[Budget]
    burns: dict[str, Optional[Fraction]]
    age: Optional[int]
    is_stale: bool
    alerts: list[AlertView]
    slice: int = 1
    trend: Optional[dict[str, Any]] = None

    @property
    def state(self) -> str:
        """The gravest of its states."""
        states = {alert.state for alert in self.alerts}
        if "breaching" in states:
            return "breaching"
        if self.is_stale:
            return "stale"
        has_none = self.budget is None or self.budget.den == 0
        return NO_DATA if NO_DATA in states or has_none else QUIET


@dataclass(frozen=True)
class SloView:
    """An SLO's numbers at the moment, or why there are none."""

    slo: Slo
    service_display: str
    fault: Optional[str]
    objectives: list[ObjectiveView]
    owner: Optional[str] = None
    runbook: Optional[str] = None


class Watch:
    """An office that is asked round after round."""

    def __init__(self, office: CountedOffice, usual: int, arrivals: Optional[Arrivals] = None):
        self.office = office
        self.usual = usual
        self.arrivals = arrivals or Arrivals()
        self.catalogue = Catalogue()
        self.ages: dict[str, Optional[int]] = {}
        self.at: Optional[int] = None
        self.origin: Optional[int] = None
        self.entries: Optional[int] = None
        self.usage: Optional[dict[str, list[int]]] = None
        self.views: list[SloView] = []
        self.trends = Trends()
        # Whether another office has taken the place of the one that was asked before.
        self.is_another = False
        self._exclusions: list[Any] = []
        self._sought: set[str] = set()
        self._rounds = 0

    def begin(self) -> None:
        """Asks for what the round rests on: the objects, the moment, where the history begins."""
        self.office.begin()
        self._objects()
        self.ask_moment()
        self._origin()
        self._rounds += 1

    def _objects(self) -> None:
        before = self.entries or self.arrivals.position or 0
        self.entries, told = self.office.objects()
        self.is_another = self.entries < before
        if self.is_another:
            self.origin = None
            self._sought = set()
        names = [(each.kind, each.name) for each in told]
        if names == self.catalogue.names and self._rounds % ROUNDS_BETWEEN:
            return
        self.catalogue = read_catalogue(self.office, names, self.usual)

    def _origin(self) -> None:
        """It stays as it is, so it is looked for once."""
        if self.origin is None and self.at is not None:
            for name in self.catalogue.slos:
                self.origin = origin_of(self.office, name, self.at)
                return

    def ask_moment(self) -> None:
        status = self.office.status()
        self.at = None if status is None else int(status["at"])
        self.usage = None if status is None else _usage(status)
        if status is not None:
            self.origin = status.get("origin", self.origin)
        for name in self.catalogue.slos:
            if self.at is not None:
                return
            try:
                self.at = self.office.budgets(name).at
            except NotFound as refusal:
                self.at = refusal.members.get("at")

    def ask_ages(self) -> None:
        """The age of each indicator's newest row, None where it never had one."""
        if self.at is None or self.entries is None:
            return
        self._exclusions = exclusions_of(self.office)
        wanted = self.catalogue.indicators()
        try:
            self.arrivals.ask(self.office, self.entries, self.at, wanted)
            by_rows = True
        except (Refusal, Foreign):
            # An office, or a proxy, that doesn't hand entries out.
            by_rows = False
        for indicator, slos in wanted.items():
            if by_rows and (indicator in self.arrivals.newest or indicator in self._sought):
                continue
            # What came longer ago than was looked back.
            self._sought.add(indicator)
            self._seek(indicator, slos)
        newest = self.arrivals.newest
        self.ages = {name: self.at - newest[name] if name in newest else None for name in wanted}

    def _seek(self, indicator: str, slos: list[Slo]) -> None:
        """Finds the newest minute with events of an indicator, by its SLOs' burn rates."""
        assert self.at is not None
        known = self.arrivals.newest.get(indicator, 0)
        guess = self.at - known if known else 1
        found = [age_or_none(self.office, slo.name, 0, self.at, guess) for slo in slos]
        ages = [age for age in found if age is not None]
        if ages:
            self.arrivals.newest[indicator] = max(known, self.at - min(ages))

    def presents(self, bindings: Collection[Binding]) -> dict[Binding, Present]:
        """How each binding stands, and whether its end can be believed."""
        if self.at is None:
            return {binding: Present(None, True) for binding in bindings}
        asked: list[Question[Any]] = []
        for binding in bindings:
            window, at = self._judged(binding)
            end = at if at == self.at else at + 1
            asked.append(questions.alerts(*binding, at, end))
            asked.append(questions.burn(binding.slo, binding.objective, f"{window}m", at))
        outcomes: Iterator[Outcome[Any]] = iter(self.office.asked(asked))
        return {each: self._present(each, next(outcomes), next(outcomes)) for each in bindings}

    def _judged(self, binding: Binding) -> tuple[int, int]:
        """The shortest window of a binding's policy that can hold a whole slice, and the last
        minute at which it held one: of an outage nothing is known at the others."""
        at = self.at or 0
        policy = self.catalogue.policies.get(binding.policy)
        width = self.catalogue.width(binding.slo, binding.objective)
        windows = () if policy is None else policy.windows
        window = shortest_holding(windows, width)
        if window is None:
            window = max([width, *windows])
        return window, last_holding(at, window, width)

    def _present(self, binding: Binding, told: Outcome[Alerts], burn: Outcome[Burn]) -> Present:
        if isinstance(told.fault, NotFound):
            return Present("gone", False)
        alerts = told.get()
        age = self.ages.get(self.catalogue.indicator(binding.slo))
        is_stale = age is None or age > self.catalogue.stale.get(binding.slo, self.usual)
        has_slice = burn.fault is None and burn.get().den > 0
        # Minutes that people took out count for nothing, whether their data has come or not.
        excluded = self.excluded_age(binding.slo)
        if excluded is not None and excluded <= min(self.usual, self._judged(binding)[0]):
            is_stale, has_slice = False, True
        has_slice = has_slice and not alerts.intervals
        return Present(alerts.state, is_stale, has_slice, self.is_hollow(binding, self.at or 0))

    def excluded_age(self, slo: str) -> Optional[int]:
        """The age of the newest minute that is excluded for an SLO."""
        return excluded_age(self._exclusions, slo, self.at or 0)

    def stale(self) -> set[str]:
        """The indicators whose newest row is too old for one of the SLOs that count them. Minutes
        that people took out lack nothing."""
        found = set()
        for slo in self.catalogue.slos.values():
            most, excluded = self.catalogue.stale[slo.name], self.excluded_age(slo.name)
            age = self.ages.get(slo.indicator)
            is_excluded = excluded is not None and excluded <= most
            if not is_excluded and (age is None or age > most):
                found.add(slo.indicator)
        return found

    def is_hollow(self, binding: Binding, at: int) -> bool:
        """Whether none of a policy's windows can hold a whole slice at a minute, though one can at
        others: that its state is `no_data` then says nothing."""
        policy = self.catalogue.policies.get(binding.policy)
        width = self.catalogue.width(binding.slo, binding.objective)
        windows = () if policy is None else policy.windows
        if shortest_holding(windows, width) is None:
            return False
        return not any(holds_slice(at, window, width) for window in windows)

    def numbers(
        self, slo: str, objective: int, at: Optional[int], more: Collection[str] = ()
    ) -> tuple[Optional[Budget], dict[str, Optional[Fraction]]]:
        """Budget and burns of an objective at a minute, as far as the office gives them; `more` are
        lookbacks beside the usual ones."""
        lookbacks = tuple(dict.fromkeys([*LOOKBACKS, *more]))
        burns = _burns(slo, objective, at, lookbacks)
        asked: list[Question[Any]] = [questions.budgets(slo, at), *burns]
        outcomes: Iterator[Outcome[Any]] = iter(self.office.asked(asked))
        budgets = _budgets_of(next(outcomes))[0]
        budget = budgets[objective] if objective < len(budgets) else None
        return budget, _burns_of(outcomes, lookbacks)

    def ask_views(self, lookbacks: Sequence[str] = LOOKBACKS) -> None:
        """The numbers of all SLOs, for the overview and the metrics."""
        slos = list(self.catalogue.slos.values())
        if self.at is not None:
            self.trends.ask(self.office, slos, self.at, self.origin)
        asked: list[Question[Any]] = []
        for slo in slos:
            asked.append(questions.budgets(slo.name, self.at))
            for objective in slo.objectives:
                asked += _burns(slo.name, objective.number, self.at, lookbacks)
                if self.at is not None:
                    asked += [
                        questions.alerts(slo.name, objective.number, policy, self.at, self.at)
                        for policy in slo.policies
                    ]
        outcomes: Iterator[Outcome[Any]] = iter(self.office.asked(asked))
        self.views = [self._slo_view(slo, outcomes, lookbacks) for slo in slos]

    def _slo_view(
        self, slo: Slo, outcomes: Iterator[Outcome[Any]], lookbacks: Sequence[str]
    ) -> SloView:
        service = self.catalogue.services.get(slo.service)
        display = slo.service if service is None else service.display
        budgets, fault = _budgets_of(next(outcomes))
        age = self.ages.get(slo.indicator)
        objectives = []
        for objective in slo.objectives:
            known = objective.number < len(budgets)
            objectives.append(
                ObjectiveView(
                    objective,
                    budgets[objective.number] if known else None,
                    _burns_of(outcomes, lookbacks),
                    age,
                    age is None or age > self.catalogue.stale.get(slo.name, self.usual),
                    self._alert_views(slo, outcomes),
                    self.catalogue.width(slo.name, objective.number),
                    self.trends.by_objective.get((slo.name, objective.number)),
                )
            )
        owner, runbook = (text_of((slo.document, service), keys) for keys in (OWNER, RUNBOOK))
        return SloView(slo, display, fault, objectives, owner, runbook)

    def _alert_views(self, slo: Slo, outcomes: Iterator[Outcome[Any]]) -> list[AlertView]:
        views = []
        for name in slo.policies if self.at is not None else []:
            outcome = next(outcomes)
            policy = self.catalogue.policies.get(name)
            if outcome.fault is None:
                severity = "" if policy is None else policy.severity
                guidance = Guidance()
                if policy is not None:
                    guidance = guidance_of(policy.rules, policy.document)
                views.append(AlertView(name, severity, outcome.get().state, guidance))
        return views


def _budgets_of(outcome: Outcome[Budgets]) -> tuple[list[Budget], Optional[str]]:
    """The budgets of an SLO, or the word by which the office refuses them."""
    if outcome.fault is None:
        return outcome.get().budgets, None
    fault = outcome.fault
    return [], fault.word if isinstance(fault, Refusal) else str(fault)


def _burns(
    slo: str, objective: int, at: Optional[int], lookbacks: Sequence[str] = LOOKBACKS
) -> list[Question[Burn]]:
    return [questions.burn(slo, objective, lookback, at) for lookback in lookbacks]


def _burns_of(
    outcomes: Iterator[Outcome[Burn]], lookbacks: Sequence[str] = LOOKBACKS
) -> dict[str, Optional[Fraction]]:
    burns: dict[str, Optional[Fraction]] = {}
    for lookback in lookbacks:
        outcome = next(outcomes)
        burns[lookback] = None if outcome.fault is not None else outcome.get().burn
    return burns


def _usage(status: dict[str, Any]) -> dict[str, list[int]]:
    return {
        name: value for name, value in status.items() if isinstance(value, list) and len(value) == 2
    }
