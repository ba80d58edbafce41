"""The objects of a scratch office, and which alerts they make."""

from __future__ import annotations

from dataclasses import dataclass, field
from functools import cached_property
from typing import Any, NamedTuple, Optional

from slo_tools import questions
from slo_tools.objects import BUILT_IN, Slo, map_of, read_document
from slo_tools.past.scratch import Scratch

Name = tuple[str, str]


class Watched(NamedTuple):
    """An alert: a policy of an objective, with what people are told of it."""

    slo: str
    service: str
    objective: int
    policy: str
    severity: str


@dataclass(frozen=True)
class Catalogue:
    """All objects of an office as it writes them, and the zones that it keeps."""

    texts: dict[Name, str]
    zones: dict[str, bytes] = field(default_factory=dict)

    @cached_property
    def slos(self) -> list[Slo]:
        names = sorted(name for name in self.texts if name[0] == "SLO")
        return [Slo(read_document(self.texts[name])) for name in names]

    @cached_property
    def watched(self) -> list[Watched]:
        """Each objective's policies that have a condition; others never alert."""
        return [
            Watched(slo.name, slo.service, objective.number, policy, severity)
            for slo in self.slos
            for objective in slo.objectives
            for policy in slo.policies
            if (severity := self._severity(policy)) is not None
        ]

    def of_slo(self, name: str) -> Catalogue:
        """The same without all other SLOs."""
        kept = {it: text for it, text in self.texts.items() if it[0] != "SLO" or it[1] == name}
        return Catalogue(kept, self.zones)

    def _severity(self, policy: str) -> Optional[str]:
        if policy in BUILT_IN:
            return BUILT_IN[policy].severity
        for item in self._spec("AlertPolicy", policy).get("conditions") or []:
            spec = self._spec("AlertCondition", str(map_of(item).get("conditionRef")))
            return str(spec.get("severity", "")).lower()
        return None

    def _spec(self, kind: str, name: str) -> dict[str, Any]:
        return read_document(self.texts[kind, name]).spec


def catalogue_of(scratch: Scratch, zones: dict[str, bytes]) -> Catalogue:
    """What a scratch office has, which keeps these zones."""
    [objects] = scratch.asked([questions.objects()])
    names = [(each.kind, each.name) for each in objects.get()[1]]
    texts = scratch.asked([questions.object_text(*name) for name in names])
    return Catalogue({name: it.get() for name, it in zip(names, texts)}, zones)
