"""Policies that an objective's slices are too wide for.

A slice counts where it lies wholly in a policy's window. With slices of W minutes a window of L
minutes that ends at any minute holds a whole one in L - W + 1 of W minutes, those behind a slice's
end: never below W minutes, always from 2W - 1 on.
"""

from __future__ import annotations

from collections.abc import Iterator, Mapping, Sequence
from dataclasses import dataclass, field
from typing import NamedTuple, Optional

from slo_tools.apply.folder import Document, Told
from slo_tools.apply.form import policy_name, slice_minutes
from slo_tools.apply.planning import node_of
from slo_tools.nodes import Fault, Fields, Node, Scalar, items_at, node_at, text_at
from slo_tools.objects import BUILT_IN
from slo_tools.openslo import Found
from slo_tools.spelling import minutes_of_duration

SLICED = ("Timeslices", "RatioTimeslices")
WIDTHS = (1, 2, 3, 4, 5, 6, 10, 12, 15, 20, 30, 60)
NEVER, SELDOM = "no_slice", "few_slices"

Name = tuple[str, str]


@dataclass(frozen=True)
class Sight:
    """The shortest window of a policy, and how long its condition has to hold before it fires."""

    policy: str
    window: int
    after: int = 0

    def held(self, width: int) -> int:
        """In how many of each `width` minutes the window holds a whole slice."""
        return max(0, min(width, self.window - width + 1))

    def active(self, width: int) -> int:
        """In how many of each `width` minutes the policy can be active at most."""
        held = self.held(width)
        return width if held == width else max(0, held - self.after)

    def why(self, width: int) -> str:
        """What slices of a width lack, and what would do."""
        held, active = self.held(width), self.active(width)
        widest = max(w for w in WIDTHS if self.held(w) == w)
        wanted = (
            f"it wants slices of at most {widest}m, or a policy with a window of {_least(width)}m"
        )
        if held == 0:
            return f"no whole slice of {width}m lies in its window of {self.window}m; {wanted}"
        seen = (
            f"its window of {self.window}m holds a whole slice of {width}m in {held} of {width} min"
        )
        if active == 0:
            return f"{seen}, and alertAfter lets it fire in none of them; {wanted}"
        what = "the pair of that window" if self.policy in BUILT_IN else "it"
        return f"{seen}, so {what} is active in at most {active} of {width}; {wanted}"


def _least(width: int) -> int:
    """The shortest window that holds a whole slice at each minute."""
    return 2 * width - 1


@dataclass
class Sights:
    """What a folder's policies don't see: faults where one can never fire, else warnings."""

    faults: list[Told] = field(default_factory=list)
    warnings: list[Told] = field(default_factory=list)


def sights_of(documents: Sequence[Document], running: Mapping[Name, str]) -> Sights:
    """Judges each policy of each SLO of a folder, beside the objects that run."""
    objects = _objects(documents, running)
    sights = Sights()
    for document in documents:
        for found in document.objects:
            if found.kind == "SLO" and text_at(found.node, "spec", "budgetingMethod") in SLICED:
                for fault in _faults(found, objects):
                    told = sights.faults if fault.rule == NEVER else sights.warnings
                    told.append(Told(document.file, fault))
    return sights


def _objects(documents: Sequence[Document], running: Mapping[Name, str]) -> dict[Name, Fields]:
    known: dict[Name, Fields] = {}
    for name, text in running.items():
        if name[0] in ("AlertPolicy", "AlertCondition"):
            known[name] = node_of(name, text)
    for document in documents:
        known.update({(found.kind, found.name): found.node for found in document.objects})
    return known


def _faults(slo: Found, objects: Mapping[Name, Fields]) -> Iterator[Fault]:
    objectives = list(items_at(slo.node, "spec", "objectives"))
    widths = [slice_minutes(text_at(item, "timeSliceWindow") or "") for item in objectives]
    for number, item in enumerate(items_at(slo.node, "spec", "alertPolicies")):
        sight = _sight(policy_name(item), objects)
        for objective, width in enumerate(widths):
            if sight is None or width not in WIDTHS or sight.active(width) == width:
                continue
            rule = SELDOM if sight.active(width) else NEVER
            why = f"{sight.policy} on objective {objective}: {sight.why(width)}"
            yield Fault(item.place, rule, slo.at(f"spec.alertPolicies[{number}]"), why)


def _sight(named: Optional[Scalar], objects: Mapping[Name, Fields]) -> Optional[Sight]:
    """The sight of a policy; None where it has no condition, or none that can be read."""
    if named is None:
        return None
    if named.text in BUILT_IN:
        shortest = BUILT_IN[named.text].lookback
        return None if shortest is None else Sight(named.text, shortest)
    for item in items_at(objects.get(("AlertPolicy", named.text)), "spec", "conditions"):
        condition = node_at(_condition(item, objects), "spec", "condition")
        window = minutes_of_duration(text_at(condition, "lookbackWindow") or "")
        after = minutes_of_duration(text_at(condition, "alertAfter") or "0m")
        if window and after is not None:
            return Sight(named.text, window, after)
    return None


def _condition(item: Node, objects: Mapping[Name, Fields]) -> Optional[Node]:
    """A condition that stands in a policy, or the one that it names."""
    name = text_at(item, "conditionRef")
    return item if name is None else objects.get(("AlertCondition", name))
