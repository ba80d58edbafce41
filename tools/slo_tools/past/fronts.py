"""Fronts of a journal: its file as it was when it had fewer entries.

A journal only grows, so the records before a gate are what was known then; a closed gate behind
them makes a journal of its own.
"""

from __future__ import annotations

from dataclasses import dataclass
from typing import Optional

from slo_tools.journal.file import (
    HEADER_BYTES,
    Broken,
    Damage,
    beyond_tail,
    header_faults,
    read_journal,
    records_in,
)
from slo_tools.past.entries import entries_before, has_head, moment_of


class NoFront(Exception):
    """The front that is asked for can't be told; the text says why."""


class Damaged(NoFront):
    """The file is no journal up to where the front would end."""


@dataclass(frozen=True)
class Front:
    """A journal's file: its bytes, its entries, and the moment of the last one."""

    content: bytes
    entries: int
    last: Optional[int]


@dataclass(frozen=True)
class Gates:
    """The places of the gates of all entries, with their records, and what ends them before a
    closed gate."""

    places: list[int]
    records: list[bytes]
    tail: int
    damage: Optional[Damage]


def front_of(data: bytes, entries: int) -> Front:
    """The first entries. Raises NoFront."""
    gates = gates_of(data)
    if entries > len(gates.places):
        if gates.damage is not None:
            raise Damaged(str(gates.damage))
        raise NoFront(f"there are {len(gates.places)} entries")
    return _front(data, gates, entries)


def front_before(data: bytes, minute: int) -> Front:
    """The entries that were made before a minute. Raises NoFront."""
    gates = gates_of(data)
    entries = entries_before(gates.records, minute)
    if entries == len(gates.places) and gates.damage is not None:
        # Behind the damage may stand more of them.
        raise Damaged(str(gates.damage))
    return _front(data, gates, entries)


def _front(data: bytes, gates: Gates, entries: int) -> Front:
    end = gates.places[entries] if entries < len(gates.places) else gates.tail
    last = moment_of(gates.records[entries - 1]) if entries else None
    return Front(data[:end] + b"\0", entries, last)


def gates_of(data: bytes) -> Gates:
    """The gates of a journal's file. Raises Damaged where it has no header."""
    for fault in header_faults(data):
        raise Damaged(f"foreign: {fault}")
    places, records, tail = list[int](), list[bytes](), HEADER_BYTES
    damage: Optional[Damage] = None
    try:
        for place, record in records_in(data):
            if not has_head(record):
                raise Broken(Damage(place, "its record is no entry"))
            places.append(place)
            records.append(record)
            tail = place + 5 + len(record)
    except Broken as end:
        damage = end.damage
    if damage is None and _is_followed(data, tail):
        why = "the gate reads as closed, and records stand behind it"
        damage = Damage(tail, why)
    return Gates(places, records, tail, damage)


def _is_followed(data: bytes, tail: int) -> bool:
    """Whether acknowledged records stand behind the closed gate."""
    if tail + 1 >= len(data):
        return False
    journal = read_journal(data)
    return journal.damage is None and beyond_tail(data, journal).was_acknowledged
