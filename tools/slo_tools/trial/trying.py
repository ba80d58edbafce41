"""A trial: a folder's definitions and those that stand, over the same past."""

from __future__ import annotations

from collections.abc import Sequence
from dataclasses import dataclass, replace
from pathlib import Path
from typing import Optional

from slo_tools.apply.folder import read_folder
from slo_tools.apply.judging import Base, calendar_zones, define, judge
from slo_tools.apply.planning import Plan, Running, plan_of, refused_readings
from slo_tools.apply.telling import fault_line, in_order
from slo_tools.clock import DAY
from slo_tools.journal.records import Kind, PutZone, Samples, read_entry
from slo_tools.past.entries import Past, kind_of
from slo_tools.past.scratch import Answer, Message, Scratch
from slo_tools.trial.as_it_came import breaches_in, notices_of, retold
from slo_tools.trial.catalogue import Catalogue, catalogue_of
from slo_tools.trial.hindsight import Alert, Told, told_by
from slo_tools.trial.incidents import Incident, read_incidents


class CantTry(Exception):
    """Why a folder can't be tried, in a line each."""


@dataclass(frozen=True)
class Terms:
    """What is tried, and how."""

    program: str
    folder: Path
    days: int
    prune: bool = False
    with_office: bool = False
    as_it_came: bool = False
    incidents: Optional[Path] = None


@dataclass(frozen=True)
class Side:
    """One set of definitions: what it says in hindsight, and as it came where that was asked."""

    catalogue: Catalogue
    told: Told
    as_it_came: Optional[list[Alert]] = None


@dataclass(frozen=True)
class Trial:
    """The minutes [begin, end) of a past by the definitions that stand and by a folder's."""

    past: Past
    begin: int
    end: int
    now: Side
    folder: Side
    incidents: list[Incident]

    @property
    def is_same(self) -> bool:
        """Whether both tell the same budgets and alerts."""
        return self.now.told == self.folder.told and self.now.as_it_came == self.folder.as_it_came


def tried(past: Past, terms: Terms) -> Trial:
    """Tries a folder. Raises CantTry, and ScratchFault where the past can't be told so."""
    end = past.moment
    begin = max(past.origin, end - terms.days * DAY)
    # Ticks and takings change no timeline, and each tick judges all alerts again.
    known = past.without(Kind.TICK, Kind.TAKING)
    with Scratch(terms.program, past=known) as scratch:
        # The first question opens the copy, which judges each entry before one is read here.
        before = replace(catalogue_of(scratch, {}), zones=_zones(known))
        now = told_by(scratch, before, begin, end)
        after = _applied(scratch, before, known, terms)
        folder = told_by(scratch, after, begin, end)
    incidents: list[Incident] = []
    if terms.incidents is not None:
        incidents = read_incidents(terms.incidents, [*before.slos, *after.slos])
    came = [_as_it_came(terms, past, it, begin) for it in (before, after)]
    sides = Side(before, now, came[0]), Side(after, folder, came[1])
    return Trial(past, begin, end, *sides, incidents)


def _as_it_came(
    terms: Terms, past: Past, catalogue: Catalogue, begin: int
) -> Optional[list[Alert]]:
    if not terms.as_it_came:
        return None
    with Scratch(terms.program, past=retold(past, catalogue)) as scratch:
        return breaches_in(notices_of(scratch, catalogue), begin, past.moment)


def _applied(scratch: Scratch, before: Catalogue, past: Past, terms: Terms) -> Catalogue:
    """The catalogue of a scratch office in which a folder was applied."""
    folder = read_folder(terms.folder)
    if not folder.documents and not folder.faults:
        raise CantTry(f"{terms.folder}: no documents")
    base = Base({}, frozenset())
    if terms.with_office:
        base = Base(before.texts, frozenset(before.zones))
    judged = judge(terms.program, folder, base)
    if judged.faults:
        raise CantTry("\n".join(map(fault_line, in_order(folder.let_out(judged.faults)))))

    def has_samples(sli: str) -> bool:
        return has_rows(past, sli)

    named = calendar_zones(document.node for document in folder.documents)
    zones = [zone for zone in folder.zones if zone.name in named]
    running = Running(before.texts, frozenset(before.zones), frozenset())
    plan = plan_of(judged.texts, zones, running, terms.prune, has_samples)
    refused = refused_readings(plan, has_samples)
    if refused:
        why = "has samples, and another reading of them is refused"
        raise CantTry("\n".join(f"SLI {name} {why}" for name in refused))
    _carry_out(scratch, plan)
    return catalogue_of(scratch, {**before.zones, **{it.name: it.content for it in plan.zones}})


def _carry_out(scratch: Scratch, plan: Plan) -> None:
    """Makes the changes as slo-apply does. Raises CantTry where the office would refuse one."""
    for zone in plan.zones:
        _check(scratch.one(Message("PUT", f"/zones/{zone.name}", zone.content)), zone.file)
    refused = define(scratch, (definition.text for definition in plan.definitions))
    if refused is not None:
        _check(refused, "its definitions")
    for kind, name in plan.removals:
        _check(scratch.one(Message("DELETE", f"/objects/{kind}/{name}")), f"the end of {name}")


def _check(answer: Answer, what: str) -> None:
    if answer.status != 200:
        why = " ".join(f"{key}={value}" for key, value in answer.members.items())
        raise CantTry(f"the office would refuse {what}: {answer.status} {why}")


def _zones(past: Past) -> dict[str, bytes]:
    zones = {}
    for record in past.records:
        if kind_of(record) is Kind.ZONE:
            command = read_entry(record).command
            assert isinstance(command, PutZone)
            zones[command.name] = command.content
    return zones


def has_rows(past: Past, sli: str) -> bool:
    """Whether a past has a row of an indicator. What can't have one isn't read."""
    label = bytes([len(sli)]) + sli.encode("ascii")
    return any(
        kind_of(record) is Kind.SAMPLES and label in record and sli in _slis(record)
        for record in past.records
    )


def _slis(record: bytes) -> Sequence[str]:
    command = read_entry(record).command
    assert isinstance(command, Samples)
    return [row.sli for row in command.rows]
