"""What people changed in an office: definitions, removals, zones, exclusions and their liftings, the
upgrade. A scratch office is led through them, so that the texts that differ are the office's own."""

from __future__ import annotations

import json
from collections.abc import Iterable, Iterator, Mapping
from dataclasses import dataclass
from typing import NamedTuple, Optional

from slo_tools import questions
from slo_tools.apply.telling import shown
from slo_tools.clock import date_of
from slo_tools.journal.access_log import Log
from slo_tools.journal.file import Damage
from slo_tools.journal.history import Change, History
from slo_tools.journal.records import (
    Command,
    Define,
    Entry,
    Kind,
    NotAnEntry,
    PutZone,
    Remove,
    read_entry,
)
from slo_tools.openslo import objects_in
from slo_tools.past.differences import Name, differences_of
from slo_tools.past.entries import kind_of
from slo_tools.past.fronts import gates_of
from slo_tools.past.scratch import Message, Scratch, ScratchFault
from slo_tools.yaml_reading import read_yaml

# The others come from programs, minute by minute.
BY_PROGRAMS = (Kind.SAMPLES, Kind.TICK, Kind.TAKING)


class PeoplesChange(NamedTuple):
    """An entry that people asked for: its number and minute, what it changed, who may have asked,
    and how the objects' texts differ behind it."""

    number: int
    moment: int
    change: Change
    who: list[str]
    differences: list[str]


@dataclass(frozen=True)
class ToldChanges:
    """The changes of a journal that people asked for, and what ends it before a closed gate."""

    changes: list[PeoplesChange]
    damage: Optional[Damage]

    def lines(self) -> Iterator[str]:
        for each in self.changes:
            who = f" [{' or '.join(each.who)}]" if each.who else ""
            what = f"{each.change.word} {each.change.text}".rstrip()
            yield f"{each.number} {date_of(each.moment)} {what}{who}"
            yield from (f"    {shown(line)}" for line in each.differences)
        if self.damage is not None:
            yield str(self.damage)

    def as_json(self) -> Iterator[str]:
        changes = [
            {
                "change": each.change.word,
                "differences": each.differences,
                "entry": each.number,
                "minute": each.moment,
                "text": each.change.text,
                "who": each.who,
            }
            for each in self.changes
        ]
        damage = None
        if self.damage is not None:
            damage = {"place": self.damage.place, "why": self.damage.why}
        yield json.dumps({"changes": changes, "damage": damage}, indent=1, sort_keys=True)


def told_changes(data: bytes, program: str, log: Log, begin: int, end: int) -> ToldChanges:
    """The changes of a journal's bytes in the minutes [begin, end). Raises Damaged where they have
    no header, and ScratchFault."""
    gates = gates_of(data)
    origin = int.from_bytes(data[9:13], "big")
    changes = changes_in(program, origin, gates.records, log)
    return ToldChanges([it for it in changes if begin <= it.moment < end], gates.damage)


def changes_in(
    program: str, origin: int, records: Iterable[bytes], log: Log
) -> Iterator[PeoplesChange]:
    """The changes among the records of a history that begins at an origin."""
    history = History()
    texts: dict[Name, str] = {}
    with Scratch(program, origin) as scratch:
        for number, record in enumerate(records):
            if kind_of(record) in BY_PROGRAMS:
                continue
            entry = _entry(record, number)
            after = _texts_behind(scratch, entry.command, texts, number)
            differences = list(differences_of(texts, after))
            change = history.take(entry)
            yield PeoplesChange(number, entry.moment, change, log.who(entry), differences)
            texts = after


def _entry(record: bytes, number: int) -> Entry:
    try:
        return read_entry(record)
    except NotAnEntry as fault:
        raise ScratchFault(f"entry {number} is no entry: {fault}") from fault


def _texts_behind(
    scratch: Scratch, command: Command, before: Mapping[Name, str], number: int
) -> dict[Name, str]:
    """All objects' texts behind a change. Only what may differ is asked for."""
    message = _message(command)
    if message is None:
        return dict(before)
    answer = scratch.one(message)
    if answer.status != 200:
        raise ScratchFault(f"entry {number} can't stand there: the office's program refuses it")
    named = _named(command)
    [objects] = scratch.asked([questions.objects()])
    names = [(each.kind, each.name) for each in objects.get()[1]]
    asked = [name for name in names if name not in before or named is None or name in named]
    texts = scratch.asked([questions.object_text(*name) for name in asked])
    found = {name: outcome.get() for name, outcome in zip(asked, texts)}
    return {name: found[name] if name in found else before[name] for name in names}


def _named(command: Command) -> Optional[set[Name]]:
    """The objects that a change names; None where its text can't be read whole here."""
    if not isinstance(command, Define):
        return set()
    reading = read_yaml(command.text.decode("utf-8", "replace"))
    if reading.faults:
        return None
    return {(it.kind, it.name) for document in reading.documents for it in objects_in(document)}


def _message(command: Command) -> Optional[Message]:
    """The request of a change of objects or zones."""
    if isinstance(command, Define):
        return Message("POST", "/objects", command.text)
    if isinstance(command, Remove):
        return Message("DELETE", f"/objects/{command.kind}/{command.name}")
    if isinstance(command, PutZone):
        return Message("PUT", f"/zones/{command.name}", command.content)
    return None
