"""What definitions would have told as the past came: the notices of an office that had had them from
its first minute on, and had been sent the same rows, corrections, exclusions and ticks at the same
moments."""

from __future__ import annotations

from collections.abc import Sequence
from typing import NamedTuple

from slo_tools import questions
from slo_tools.apply.judging import joined, rank_of
from slo_tools.journal.records import (
    Exclude,
    Kind,
    Lift,
    definition_record,
    read_entry,
    zone_record,
)
from slo_tools.past.entries import Past, kind_of, moment_of
from slo_tools.past.scratch import Message, Scratch, ScratchFault
from slo_tools.trial.catalogue import Catalogue, Watched
from slo_tools.trial.hindsight import Alert

# The most notices of an answer.
NOTICES = 1_000


class Sent(NamedTuple):
    """A notice that an office would have made."""

    watched: Watched
    at: int
    state: str


def retold(past: Past, catalogue: Catalogue) -> Past:
    """The past of an office that had these definitions from its first minute on: zones and objects
    stand there, exclusions go with an SLO that isn't among them, and notices aren't taken. No row
    goes, since no indicator that has rows does."""
    slos = {name for kind, name in catalogue.texts if kind == "SLO"}
    records = [zone_record(past.origin, name, text) for name, text in catalogue.zones.items()]
    names = sorted(catalogue.texts, key=lambda name: (rank_of(name), name))
    for text in joined(catalogue.texts[name] for name in names):
        records.append(definition_record(past.origin, text))
    gone: set[str] = set()
    for record in past.records:
        kind = kind_of(record)
        if kind in (Kind.SAMPLES, Kind.TICK, Kind.UPGRADE):
            records.append(record)
        elif kind in (Kind.EXCLUSION, Kind.LIFTING) and not _goes(record, slos, gone):
            records.append(record)
    return Past(past.origin, records)


def _goes(record: bytes, slos: set[str], gone: set[str]) -> bool:
    """Whether an exclusion or its lifting is of an SLO that isn't there."""
    command = read_entry(record).command
    assert isinstance(command, (Exclude, Lift))
    if isinstance(command, Exclude) and command.slo not in slos:
        gone.add(command.id)
    return command.id in gone


def notices_of(scratch: Scratch, catalogue: Catalogue) -> list[Sent]:
    """All notices of a scratch office in which none was taken."""
    known = {(it.slo, it.objective, it.policy): it for it in catalogue.watched}
    found: list[Sent] = []
    while True:
        [outcome] = scratch.asked([questions.notices()])
        told = outcome.get()
        found += [
            Sent(known[it.slo, it.objective, it.policy], it.at, it.state)
            for it in told
            if (it.slo, it.objective, it.policy) in known
        ]
        if len(told) < NOTICES:
            return found
        taken = scratch.ask([Message("POST", f"/notices/{it.number}/take") for it in told])
        if any(answer.status != 200 for answer in taken):
            raise ScratchFault("the office's program takes no notices")


def breaches_in(sent: Sequence[Sent], begin: int, end: int) -> list[Alert]:
    """The notices behind `begin`, up to `end`, that an alert breaches. How long it went on isn't told, since a
    policy need not tell its end."""
    return [
        Alert(it.watched, it.at, it.at + 1)
        for it in sent
        if it.state == "breaching" and begin < it.at <= end
    ]


def ticked_minutes(past: Past, begin: int, end: int) -> int:
    """How many minutes behind `begin`, up to `end`, have a tick."""
    ticks = (moment_of(it) for it in past.records if kind_of(it) is Kind.TICK)
    return len({moment for moment in ticks if begin < moment <= end})
