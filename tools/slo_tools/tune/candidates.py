"""Alerts that are tried beside an SLO's own, each a policy of a copy of it in a scratch office, so that
all are judged by the office's program over the same rows."""

from __future__ import annotations

from collections.abc import Iterator, Sequence
from itertools import product
from typing import NamedTuple

from slo_tools import questions
from slo_tools.objects import Slo
from slo_tools.past.scratch import Message, Scratch
from slo_tools.trial.catalogue import Catalogue, Watched
from slo_tools.trial.hindsight import LONGEST, Alert, joined
from slo_tools.trial.trying import CantTry

THRESHOLDS = ("1", "2", "3", "4.5", "6", "10", "14.4")
LOOKBACKS = ("5m", "15m", "30m", "1h", "2h", "6h")
AFTERS = ("0m", "5m", "15m")
# Policies of a copy, and bindings of an office.
OF_A_COPY = 10
BINDINGS = 400


class Candidate(NamedTuple):
    """A condition: the burn rate stays above a threshold over a lookback, for a while."""

    threshold: str
    lookback: str
    after: str

    def __str__(self) -> str:
        held = "" if self.after == "0m" else f" for {self.after}"
        return f"above {self.threshold} over {self.lookback}{held}"

    def document(self, name: str) -> str:
        """It as a policy of a name."""
        return (
            f"apiVersion: openslo/v1\nkind: AlertPolicy\nmetadata:\n  name: {name}\nspec:\n"
            "  alertWhenBreaching: true\n  alertWhenResolved: true\n"
            f"  conditions:\n  - kind: AlertCondition\n    metadata:\n      name: {name}\n"
            "    spec:\n      severity: page\n      condition:\n        kind: burnrate\n"
            f"        op: gt\n        threshold: {self.threshold}\n"
            f"        lookbackWindow: {self.lookback}\n        alertAfter: {self.after}\n"
        )


EVERY = [Candidate(*words) for words in product(THRESHOLDS, LOOKBACKS, AFTERS)]


def alerts_of(
    scratch: Scratch, catalogue: Catalogue, slo: Slo, objective: int, begin: int, end: int
) -> dict[Candidate, list[Alert]]:
    """When each candidate would have been active in [begin, end). All SLOs and policies go from the
    scratch office, which has room for so many bindings only."""
    gone = [
        name
        for kind in ("SLO", "AlertPolicy", "AlertCondition")
        for name in catalogue.texts
        if name[0] == kind
    ]
    _ask(scratch, [Message("DELETE", f"/objects/{kind}/{name}") for kind, name in gone])
    together = max(1, BINDINGS // (OF_A_COPY * len(slo.objectives))) * OF_A_COPY
    found: dict[Candidate, list[Alert]] = {}
    for first in range(0, len(EVERY), together):
        some = EVERY[first : first + together]
        texts = list(_documents(catalogue.texts["SLO", slo.name], some))
        _ask(scratch, [Message("POST", "/objects", "---\n".join(texts).encode("utf-8"))])
        found.update(_told(scratch, slo, objective, some, begin, end))
    return found


def _name(number: int) -> str:
    return f"candidate-{number}"


def _documents(text: str, some: Sequence[Candidate]) -> Iterator[str]:
    """The candidates, and copies of an SLO, as the office writes it, that have them."""
    for number, candidate in enumerate(some):
        yield candidate.document(_name(number))
    # Behind the policies stands nothing, and each text of the office's is on a line of its own.
    front = text.partition("\n  alertPolicies:")[0].rstrip("\n").split("\n")
    place = next(number for number, line in enumerate(front) if line.startswith("  name:"))
    for first in range(0, len(some), OF_A_COPY):
        front[place] = f"  name: {_name(first)}"
        policies = range(first, min(first + OF_A_COPY, len(some)))
        named = "".join(f"    - alertPolicyRef: {_name(number)}\n" for number in policies)
        yield "\n".join(front) + "\n  alertPolicies:\n" + named


def _ask(scratch: Scratch, messages: Sequence[Message]) -> None:
    for message, answer in zip(messages, scratch.ask(messages)):
        if answer.status != 200:
            what = f"{message.method} {message.path}"
            raise CantTry(f"the scratch office refuses {what}: {answer.status} {answer.text}")


def _told(
    scratch: Scratch, slo: Slo, objective: int, some: Sequence[Candidate], begin: int, end: int
) -> Iterator[tuple[Candidate, list[Alert]]]:
    pieces = [(first, min(first + LONGEST, end)) for first in range(begin, end, LONGEST)]
    asked = [
        questions.alerts(_name(number - number % OF_A_COPY), objective, _name(number), *piece)
        for number in range(len(some))
        for piece in pieces
    ]
    outcomes = iter(scratch.asked(asked))
    for candidate in some:
        spans = [span for _ in pieces for span in next(outcomes).get().intervals]
        watched = Watched(slo.name, slo.service, objective, str(candidate), "page")
        yield candidate, [Alert(watched, first, last) for first, last in joined(spans)]
