"""The journal's file, gate by gate (docs/journal.md), read from bytes alone.

The file is never locked and never written: a copy, or the file of an office that runs, reads the
same, since whoever reads an open gate reads a whole record behind it.
"""

from __future__ import annotations

from collections.abc import Callable, Iterator
from dataclasses import dataclass, field
from pathlib import Path
from typing import Optional

from slo_tools.clock import RANGE_MINUTES
from slo_tools.journal.records import MAX_MINUTE, Entry, NotAnEntry, read_entry

LETTERS = b"OSLOJRN1"
HEADER_BYTES = 13
FIRST_GATE = 13
MAX_RECORD_BYTES = 1_100_000
MAX_JOURNAL_BYTES = 268_435_456


@dataclass(frozen=True)
class Damage:
    """A place up to which the file is a journal, and what is wrong with what stands there."""

    place: int
    why: str

    def __str__(self) -> str:
        return f"damaged at {self.place}: {self.why}"


@dataclass(frozen=True)
class Record:
    """An entry of the journal: its number, the place of its gate, its bytes, its moment."""

    number: int
    place: int
    length: int
    moment: int

    @property
    def next_gate(self) -> int:
        return self.place + 5 + self.length


Heard = Callable[[Record, Entry], None]


@dataclass
class Journal:
    """What a reader makes of a file: its header's faults, its records, where they end and why."""

    origin: int
    foreign: list[str]
    records: list[Record] = field(default_factory=list)
    tail: int = FIRST_GATE
    damage: Optional[Damage] = None

    @property
    def is_whole(self) -> bool:
        return not self.foreign and self.damage is None


class Broken(Exception):
    """The walk from gate to gate ends here, and not at a closed gate."""

    def __init__(self, damage: Damage) -> None:
        super().__init__(damage.why)
        self.damage = damage


def header_of(origin: int) -> bytes:
    """The header of a journal whose history begins at a minute."""
    return b"\1" + LETTERS + origin.to_bytes(4, "big")


def read_bytes(path: Path) -> bytes:
    """The bytes of a file that a reader of journals looks at, from front to end."""
    with path.open("rb") as file:
        return file.read(MAX_JOURNAL_BYTES)


def header_faults(data: bytes) -> list[str]:
    """Why the office says `not a journal`, in the order of the header's bytes."""
    if len(data) < HEADER_BYTES:
        return [f"the file has {len(data)} bytes, and a header has {HEADER_BYTES}"]
    faults = []
    if data[0] == 0:
        faults.append("the header's gate, the byte at 0, is closed")
    letters = data[1:9]
    if letters != LETTERS:
        faults.append(f"the letters at 1 are {letters!r} and not {LETTERS!r}")
    origin = int.from_bytes(data[9:13], "big")
    if origin > MAX_MINUTE:
        faults.append(f"the origin at 9 is {origin}, above {MAX_MINUTE}")
    return faults


def framed(data: bytes, place: int) -> Optional[bytes]:
    """The bytes of the record whose gate stands at a place; none at a closed gate."""
    if place >= len(data):
        raise Broken(Damage(place, "the file ends where a gate has to stand"))
    if data[place] == 0:
        return None
    return record_behind(data, place)


def record_behind(data: bytes, place: int) -> bytes:
    """The bytes of the record behind a gate, whether it is open or closed."""
    if place + 5 > len(data):
        raise Broken(Damage(place, "the file ends inside a record's length"))
    length = int.from_bytes(data[place + 1 : place + 5], "big")
    if not 1 <= length <= MAX_RECORD_BYTES:
        raise Broken(Damage(place, f"the record's length is {length}"))
    # The gate behind the record has to stand in the file too, within its limit.
    if place + 5 + length > len(data):
        raise Broken(Damage(place, f"the record has {length} bytes and runs past the file's end"))
    return data[place + 5 : place + 5 + length]


def records_in(data: bytes) -> Iterator[tuple[int, bytes]]:
    """Each record with the place of its gate, to the closed gate; no record is read. Raises Broken
    where there is no closed gate."""
    place = FIRST_GATE
    while (record := framed(data, place)) is not None:
        yield place, record
        place += 5 + len(record)


def entry_at(data: bytes, place: int, present: int, origin: int) -> Optional[tuple[Entry, int]]:
    """The entry behind the gate at a place and its record's length; none at a closed gate."""
    record = framed(data, place)
    if record is None:
        return None
    return checked_entry(record, place, present, origin), len(record)


def checked_entry(record: bytes, place: int, present: int, origin: int) -> Entry:
    try:
        entry = read_entry(record)
    except NotAnEntry as fault:
        where = place + 5 + fault.at
        raise Broken(Damage(place, f"its record is no entry: at {where} {fault.why}")) from fault
    if not present <= entry.moment < origin + RANGE_MINUTES:
        raise Broken(
            Damage(
                place, f"its moment is {entry.moment}, where {present} is the least that follows"
            )
        )
    return entry


def walk(
    data: bytes, place: int, origin: int, present: int, number: int
) -> Iterator[tuple[Record, Entry]]:
    """The records from a gate on, to the closed gate, or `Broken` where there is none."""
    while True:
        found = entry_at(data, place, present, origin)
        if found is None:
            return
        entry, length = found
        record = Record(number, place, length, entry.moment)
        yield record, entry
        place, present, number = record.next_gate, entry.moment, number + 1


def read_journal(data: bytes, heard: Optional[Heard] = None) -> Journal:
    """A journal's records; `heard` is told of each with its entry, which isn't kept.

    One that is foreign is read as well, as far as its bytes go.
    """
    journal = Journal(int.from_bytes(data[9:13], "big"), header_faults(data))
    if len(data) < HEADER_BYTES:
        return journal
    try:
        for record, entry in walk(data, FIRST_GATE, journal.origin, 0, 0):
            journal.records.append(record)
            journal.tail = record.next_gate
            if heard is not None:
                heard(record, entry)
    except Broken as end:
        journal.damage = end.damage
    return journal


@dataclass(frozen=True)
class Beyond:
    """What stands behind the closed gate: whole records, and whether a gate ends them."""

    records: list[tuple[Record, Entry]]
    ends_at: int
    is_closed: bool

    @property
    def was_acknowledged(self) -> bool:
        """A record is only written once the one before it was acknowledged."""
        return len(self.records) > 1


def beyond_tail(data: bytes, journal: Journal) -> Beyond:
    """The records that follow the closed gate, as if it stood open."""
    present = journal.records[-1].moment if journal.records else 0
    number = len(journal.records)
    found: list[tuple[Record, Entry]] = []
    end = journal.tail
    try:
        bytes_behind = record_behind(data, end)
        entry = checked_entry(bytes_behind, end, present, journal.origin)
        found.append((Record(number, end, len(bytes_behind), entry.moment), entry))
        end = found[-1][0].next_gate
        for further in walk(data, end, journal.origin, entry.moment, number + 1):
            found.append(further)
            end = further[0].next_gate
    except Broken:
        return Beyond(found, end, False)
    return Beyond(found, end, True)
