"""What the gate asks of an office: a few rounds of questions, each on one link."""

from __future__ import annotations

from collections.abc import Iterable, Sequence
from dataclasses import dataclass, field
from typing import Optional

from slo_tools import questions
from slo_tools.answers import Budgets
from slo_tools.freshness import LONGEST, excluded_age, exclusions_of
from slo_tools.gate.judging import (
    FREEZE,
    BadFreeze,
    Freeze,
    ObjectiveFacts,
    Page,
    SloFacts,
    read_freeze,
)
from slo_tools.notify.slices import slice_width
from slo_tools.objects import (
    BUILT_IN,
    Document,
    Objective,
    Slo,
    condition_names,
    condition_of,
    document,
    map_of,
)
from slo_tools.office import Office
from slo_tools.questions import Outcome
from slo_tools.refusals import Foreign, NotFound, OfficeError, Refusal

PAGE = "page"
# The fields that an office writes (docs/objects.md). In another one may stand what speaks against a
# release, so nothing is let through that has one.
_METADATA = frozenset(["name", "displayName", "labels", "annotations"])
_SPEC = frozenset(
    "description service indicatorRef timeWindow budgetingMethod objectives alertPolicies".split()
)
_Binding = tuple[str, int, str]


@dataclass
class _Asked:
    """What is known of an SLO so far; `faults` says what keeps it from being judged."""

    name: str
    slo: Optional[Slo] = None
    objectives: list[Objective] = field(default_factory=list)
    budgets: Optional[Budgets] = None
    pages: list[str] = field(default_factory=list)
    freezes: list[Freeze] = field(default_factory=list)
    faults: list[str] = field(default_factory=list)


class Asker:
    """Asks an office about SLOs. `stale` is how many minutes back data has to lie."""

    def __init__(self, office: Office, stale: int) -> None:
        self.office = office
        self.stale = stale
        self._documents: dict[tuple[str, str], Outcome[Document]] = {}
        self._fresh: dict[tuple[str, int], bool] = {}
        self._states: dict[_Binding, str] = {}

    def slos_of_service(self, service: str) -> list[str]:
        """The names of a service's SLOs."""
        names = [each.name for each in self.office.objects()[1] if each.kind == "SLO"]
        self._ask(("SLO", name) for name in names)
        return [name for name in names if Slo(self._document("SLO", name)).service == service]

    def facts(self, names: Sequence[str]) -> list[SloFacts]:
        """All that the verdict on some SLOs rests on."""
        asked = [_Asked(name) for name in names]
        self._ask(("SLO", name) for name in names)
        for each in asked:
            self._read_slo(each)
        self._ask_behind([each for each in asked if each.slo is not None])
        judged = [each for each in asked if each.budgets is not None]
        self._ask_states(judged)
        return [self._facts(each) for each in asked]

    def _ask(self, wanted: Iterable[tuple[str, str]]) -> None:
        """Asks for the objects that weren't asked for yet."""
        new = [each for each in dict.fromkeys(wanted) if each not in self._documents]
        outcomes = self.office.asked([document(*each) for each in new])
        self._documents.update(zip(new, outcomes))

    def _document(self, kind: str, name: str) -> Document:
        return self._documents[kind, name].get()

    def _read_slo(self, asked: _Asked) -> None:
        try:
            slo = Slo(_known(self._document("SLO", asked.name), _SPEC))
            asked.objectives, asked.pages = slo.objectives, slo.policies
            if not slo.service:
                raise Foreign(200, "it has no service")
            asked.slo = slo
        except NotFound:
            asked.faults.append("there is no such SLO")
        except OfficeError as fault:
            asked.faults.append(f"the SLO can't be read: {fault}")

    def _ask_behind(self, asked: list[_Asked]) -> None:
        """Services, policies, their conditions, and budgets."""
        slos = [each.slo for each in asked if each.slo is not None]
        policies = {name for slo in slos for name in slo.policies if name not in BUILT_IN}
        self._ask(
            [
                *(("Service", slo.service) for slo in slos),
                *(("AlertPolicy", name) for name in sorted(policies)),
            ]
        )
        self._ask(("AlertCondition", name) for policy in policies for name in self._names(policy))
        budgets = self.office.asked([questions.budgets(each.name) for each in asked])
        for each, outcome in zip(asked, budgets):
            self._read_freezes(each)
            self._read_pages(each)
            self._read_budgets(each, outcome)

    def _names(self, policy: str) -> list[str]:
        try:
            return condition_names(self._document("AlertPolicy", policy))
        except OfficeError:
            return []

    def _read_freezes(self, asked: _Asked) -> None:
        assert asked.slo is not None
        documents = [asked.slo.document]
        try:
            documents.append(_known(self._document("Service", asked.slo.service)))
        except OfficeError as fault:
            asked.faults.append(f"its service can't be read: {_why(fault)}")
        for each in documents:
            try:
                text = each.annotation(FREEZE)
                if text is not None:
                    asked.freezes.append(read_freeze(text))
            except (BadFreeze, Foreign) as fault:
                asked.faults.append(f"{each.kind} {each.name}: {fault}")

    def _read_pages(self, asked: _Asked) -> None:
        """Leaves the policies that page. One that can't be judged keeps the SLO from being let
        through: it may page."""
        pages = []
        for policy in asked.pages:
            try:
                if PAGE in self._severities_of(policy):
                    pages.append(policy)
            except OfficeError as fault:
                asked.faults.append(f"the policy {policy}: {_why(fault)}")
        asked.pages = pages

    def _severities_of(self, policy: str) -> list[str]:
        if policy in BUILT_IN:
            return [BUILT_IN[policy].severity]
        names = condition_names(self._document("AlertPolicy", policy))
        if not names:
            raise Foreign(200, "it has no condition")
        found = []
        for name in names:
            try:
                condition = condition_of(self._document("AlertCondition", name))
            except NotFound:
                raise Foreign(200, f"its condition {name} isn't there") from None
            found.append(condition.severity.lower())
        return found

    def _read_budgets(self, asked: _Asked, outcome: Outcome[Budgets]) -> None:
        try:
            found = outcome.get()
        except NotFound:
            asked.faults.append("no window has begun")
            return
        except (Refusal, Foreign) as fault:
            asked.faults.append(f"its budgets can't be told: {fault}")
            return
        numbers = [budget.objective for budget in found.budgets]
        if numbers != [objective.number for objective in asked.objectives]:
            asked.faults.append("its objectives changed while they were asked for")
        else:
            asked.budgets = found

    def _ask_states(self, asked: list[_Asked]) -> None:
        """The states of the alerts that page, and whether data is fresh."""
        at = {each.name: each.budgets.at for each in asked if each.budgets is not None}
        objectives = [(each.name, found.number) for each in asked for found in each.objectives]
        lookbacks = {each.name: self._lookbacks(each) for each in asked}
        burns = self.office.asked(
            [questions.burn(slo, n, lookbacks[slo][n], at[slo]) for slo, n in objectives]
        )
        for key, burn in zip(objectives, burns):
            told = burn.get()
            if told.at != at[key[0]]:
                raise Foreign(200, "a burn rate of another minute came")
            self._fresh[key] = told.den > 0
        if not all(self._fresh.values()):
            exclusions = exclusions_of(self.office)
            for key in [key for key, is_fresh in self._fresh.items() if not is_fresh]:
                age = excluded_age(exclusions, key[0], at[key[0]])
                self._fresh[key] = age is not None and age <= self.stale
        bindings = [
            (each.name, objective.number, policy)
            for each in asked
            for objective in each.objectives
            for policy in each.pages
        ]
        states = self.office.asked(
            [questions.alerts(*binding, at[binding[0]], at[binding[0]]) for binding in bindings]
        )
        self._states = {key: outcome.get().state for key, outcome in zip(bindings, states)}

    def _lookbacks(self, asked: _Asked) -> list[str]:
        """How far back a slice with data has to lie, for each objective. The newest row may stand in
        a slice that isn't over, so that the one before it is the newest that counts."""
        assert asked.slo is not None
        widths = [slice_width(asked.slo, objective.number) for objective in asked.objectives]
        spans = [self.stale + (2 * width - 1 if width > 1 else 0) for width in widths]
        return [f"{min(span, LONGEST)}m" for span in spans]

    def _facts(self, asked: _Asked) -> SloFacts:
        service = "" if asked.slo is None else asked.slo.service
        if asked.budgets is None:
            return SloFacts(asked.name, service, 0, [], asked.freezes, asked.faults)
        objectives = [
            ObjectiveFacts(
                objective.number,
                objective.display,
                objective.target,
                budget.begin,
                budget.den,
                budget.remaining,
                self._fresh[asked.name, objective.number],
                [
                    Page(name, self._states[asked.name, objective.number, name])
                    for name in asked.pages
                ],
            )
            for objective, budget in zip(asked.objectives, asked.budgets.budgets)
        ]
        return SloFacts(
            asked.name, service, asked.budgets.at, objectives, asked.freezes, asked.faults
        )


def _known(document: Document, spec: Optional[frozenset[str]] = None) -> Document:
    """A document whose fields are known. Raises Foreign."""
    others = set(map_of(document.members.get("metadata"))) - _METADATA
    if spec is not None:
        others |= set(document.spec) - spec
    if others:
        raise Foreign(200, f"`{min(others)}` isn't a field that is known here")
    return document


def _why(fault: OfficeError) -> str:
    return "it isn't there" if isinstance(fault, NotFound) else str(fault)
