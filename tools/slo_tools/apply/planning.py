"""What would make a running office hold what a folder says."""

from __future__ import annotations

import difflib
from collections.abc import Callable, Iterator, Mapping
from dataclasses import dataclass, field
from typing import Optional

from slo_tools.apply.folder import Zone
from slo_tools.apply.hints import of_refusal
from slo_tools.apply.judging import Name, calendar_zones, joined, rank_of
from slo_tools.freshness import LONGEST
from slo_tools.nodes import Fields, node_at, text_at
from slo_tools.office import Office
from slo_tools.openslo import METRIC_PATHS
from slo_tools.refusals import NotFound, Refusal
from slo_tools.yaml_reading import NotWritten, read_written


@dataclass(frozen=True)
class Running:
    """The objects of a running office with their texts, the zones that it is known to keep, and
    those of them that no calendar of it names."""

    texts: dict[Name, str]
    zones: frozenset[str]
    unnamed: frozenset[str]


@dataclass(frozen=True)
class Definition:
    """An object to be defined: its text, and the text that it takes the place of."""

    name: Name
    text: str
    before: Optional[str]


@dataclass(frozen=True)
class Plan:
    """Changes of an office, in the order in which they are made."""

    zones: list[Zone] = field(default_factory=list)
    # Kept already, under a name that no calendar names yet: sent again, so that others are told.
    kept: list[Zone] = field(default_factory=list)
    definitions: list[Definition] = field(default_factory=list)
    removals: list[Name] = field(default_factory=list)
    # The texts of what is removed.
    gone: dict[Name, str] = field(default_factory=dict)
    same: int = 0
    beside: list[Name] = field(default_factory=list)
    sampled: list[Name] = field(default_factory=list)

    @property
    def is_empty(self) -> bool:
        return not (self.zones or self.definitions or self.removals)


@dataclass
class Done:
    """What a run did, and what the office refused of it."""

    lines: list[str] = field(default_factory=list)
    faults: list[str] = field(default_factory=list)


def running_of(office: Office) -> Running:
    """All objects of an office."""
    names = [(o.kind, o.name) for o in office.objects()[1]]
    texts = {name: office.object_text(*name) for name in names}
    nodes = [node_of(name, text) for name, text in texts.items() if name[0] == "SLO"]
    named, kept = frozenset(calendar_zones(nodes)), _kept_zones(office)
    return Running(texts, named | kept, kept - named)


def node_of(name: Name, text: str) -> Fields:
    """An object as the office writes it. Raises ValueError where it isn't written so."""
    try:
        return read_written(text)
    except NotWritten as fault:
        raise ValueError(f"the office's {spelled(name)} isn't written as it should be: {fault}")


def _kept_zones(office: Office) -> frozenset[str]:
    """The zones that an office says it keeps. One without that query keeps at least those of its
    calendars."""
    try:
        return frozenset(office.zones())
    except NotFound:
        return frozenset()


def plan_of(
    wanted: Mapping[Name, str],
    zones: list[Zone],
    running: Running,
    prune: bool,
    has_samples: Callable[[str], bool],
) -> Plan:
    """The changes from what runs to what is wanted. An indicator with samples is never removed."""
    changed = [name for name, text in wanted.items() if running.texts.get(name) != text]
    beside = sorted(set(running.texts) - set(wanted), key=lambda name: (-rank_of(name), name))
    sampled = [n for n in beside if prune and n[0] == "SLI" and has_samples(n[1])]
    removals = [name for name in beside if prune and name not in sampled]
    return Plan(
        zones=[zone for zone in zones if zone.name not in running.zones],
        kept=[zone for zone in zones if zone.name in running.unnamed],
        definitions=[
            Definition(name, wanted[name], running.texts.get(name))
            for name in sorted(changed, key=lambda name: (rank_of(name), name))
        ],
        removals=removals,
        gone={name: running.texts[name] for name in removals},
        same=len(wanted) - len(changed),
        beside=[] if prune else beside,
        sampled=sampled,
    )


def refused_readings(plan: Plan, has_samples: Callable[[str], bool]) -> list[str]:
    """The indicators that have samples and would get another reading, which the office refuses."""
    return [
        definition.name[1]
        for definition in plan.definitions
        if definition.name[0] == "SLI"
        and definition.before is not None
        and _reading(definition.name, definition.before)
        != _reading(definition.name, definition.text)
        and has_samples(definition.name[1])
    ]


def _reading(name: Name, text: str) -> tuple[Optional[str], ...]:
    """What an indicator's amounts are read as."""
    document = node_of(name, text)
    raw_type = text_at(document, "spec", "ratioMetric", "rawType")
    for path in METRIC_PATHS:
        # A total stands beside good or bad, which say how it is read.
        if path[-1] != "total" and node_at(document, "spec", *path) is not None:
            return (*path, raw_type)
    return ()


def sampled_by(office: Office, running: Running, sli: str) -> bool:
    """Whether an SLO that runs has counted events of an indicator, excluded minutes left out."""
    for name, text in running.texts.items():
        if name[0] == "SLO":
            document = node_of(name, text)
            if text_at(document, "spec", "indicatorRef") == sli and _has_counted(office, name[1]):
                return True
    return False


def _has_counted(office: Office, slo: str) -> bool:
    at: Optional[int] = None
    while True:
        try:
            burn = office.burn(slo, 0, f"{LONGEST}m", at)
        except Refusal:
            # Before the origin, where the office has no minute.
            return False
        if burn.den > 0:
            return True
        at = burn.at - LONGEST
        if at < 0:
            return False


def lines_of(plan: Plan) -> Iterator[str]:
    """A line for each change, as a plan tells it and a run does it."""
    for zone in plan.zones:
        yield f"+ zone {zone.name}"
    for definition in plan.definitions:
        yield _definition_line(definition)
    for name in plan.removals:
        yield _removal_line(name)


def differences_of(definition: Definition) -> Iterator[str]:
    """The difference of the texts of an object that changes."""
    if definition.before is None:
        return
    # Other characters that count as a line's end elsewhere stand inside texts.
    before, after = definition.before.split("\n")[:-1], definition.text.split("\n")[:-1]
    for line in difflib.unified_diff(before, after, "office", "folder", lineterm="", n=2):
        yield f"    {line}"


def _definition_line(definition: Definition) -> str:
    return f"{'+' if definition.before is None else '~'} {spelled(definition.name)}"


def _removal_line(name: Name) -> str:
    return f"- {spelled(name)}"


def spelled(name: Name) -> str:
    """An object's kind and name."""
    return " ".join(name)


def carry_out(office: Office, plan: Plan) -> Done:
    """Makes the changes. What is refused is told, and what rests on it isn't tried."""
    done = Done()
    for zone in [*plan.kept, *plan.zones]:
        try:
            office.keep_zone(zone.name, zone.content)
        except Refusal as refusal:
            done.faults.append(f"{zone.file}: {_hinted(refusal)}")
            return done
        if zone not in plan.kept:
            done.lines.append(f"+ zone {zone.name}")
    for definitions, text in _batches(plan.definitions):
        try:
            office.define(text)
        except Refusal as refusal:
            done.faults.append(f"the office refuses to define: {_hinted(refusal)}")
            return done
        done.lines += [_definition_line(definition) for definition in definitions]
    for name in plan.removals:
        try:
            office.remove(*name)
        except Refusal as refusal:
            done.faults.append(f"the office refuses to remove {spelled(name)}: {_hinted(refusal)}")
        else:
            done.lines.append(_removal_line(name))
    return done


def _hinted(refusal: Refusal) -> str:
    return f"{refusal}{of_refusal(refusal.word, refusal.members)}"


def _batches(definitions: list[Definition]) -> Iterator[tuple[list[Definition], bytes]]:
    """Definitions by the text that they are sent in; each text is taken whole or not at all."""
    batch: list[Definition] = []
    for definition in definitions:
        if len(joined(each.text for each in [*batch, definition])) > 1:
            yield batch, joined(each.text for each in batch)[0]
            batch = []
        batch.append(definition)
    if batch:
        yield batch, joined(each.text for each in batch)[0]
