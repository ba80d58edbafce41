"""Repairs of a journal that one flipped bit or a torn tail broke.

A repair is taken where it is the only one that makes a whole journal of the file. The file itself
is never written; a repair is a new text of bytes.
"""

from __future__ import annotations

from collections.abc import Iterator
from dataclasses import dataclass
from typing import Optional

from slo_tools.journal.file import (
    FIRST_GATE,
    HEADER_BYTES,
    Beyond,
    Broken,
    Journal,
    Record,
    beyond_tail,
    framed,
    header_faults,
    read_journal,
    walk,
)
from slo_tools.journal.records import NotAnEntry, read_entry

# Of a long record only the bytes at its fault are tried: a flipped bit shows itself near where the
# fields stop making sense.
NEAR = 512
MOMENT = 5


@dataclass(frozen=True)
class Repair:
    """A repaired text of a journal's bytes, how many entries it has, and what was done."""

    content: bytes
    entries: int
    text: str


@dataclass(frozen=True)
class Mending:
    """What can be done: nothing has to be, one repair, or a reason why there is none."""

    repair: Optional[Repair]
    is_sound: bool
    text: str


def mending_of(data: bytes, open_gate: Optional[int] = None) -> Mending:
    """The repair of a journal's bytes, if there is exactly one. A closed gate with records behind
    it is opened only where its place is named: a person may have closed it."""
    journal = read_journal(data)
    if len(data) < HEADER_BYTES:
        return Mending(None, False, "the header isn't whole")
    if journal.foreign:
        return _only(list(_header_repairs(data)), "no single bit makes its header one")
    if journal.damage is None:
        return _closed_gate(data, journal, beyond_tail(data, journal), open_gate)
    repairs = list(_bit_repairs(data, journal))
    if repairs:
        most = max(repair.entries for repair in repairs)
        return _only([repair for repair in repairs if repair.entries == most], "")
    if _is_torn(data, journal):
        return Mending(_cut(data, journal), False, "")
    return Mending(None, False, "what is wrong is neither one bit nor a torn tail")


def _only(repairs: list[Repair], otherwise: str) -> Mending:
    if len(repairs) == 1:
        return Mending(repairs[0], False, "")
    if not repairs:
        return Mending(None, False, otherwise)
    told = "; ".join(repair.text for repair in repairs[:8])
    return Mending(None, False, f"{len(repairs)} repairs fit, and none is surer: {told}")


def _closed_gate(
    data: bytes, journal: Journal, beyond: Beyond, open_gate: Optional[int]
) -> Mending:
    if not beyond.was_acknowledged:
        return Mending(None, True, "there is nothing to mend")
    if not beyond.is_closed:
        return Mending(None, False, "the records behind the closed gate don't end at a gate")
    if open_gate != journal.tail:
        why = (
            f"the gate at {journal.tail} reads as closed, with {len(beyond.records)} records behind"
            f" it. Where nobody closed it, `--open-gate {journal.tail}` opens it; where somebody"
            f" did, `truncate -s {journal.tail + 1}` of a copy leaves out what stands behind it"
        )
        return Mending(None, False, why)
    text = f"the gate at {journal.tail} opened, with {len(beyond.records)} records behind it"
    entries = len(journal.records) + len(beyond.records)
    return Mending(Repair(_with(data, journal.tail, 1), entries, text), False, "")


def _with(data: bytes, place: int, byte: int) -> bytes:
    return data[:place] + bytes([byte]) + data[place + 1 :]


def _header_repairs(data: bytes) -> Iterator[Repair]:
    for place in range(HEADER_BYTES):
        for bit in range(8):
            repaired = _with(data, place, data[place] ^ (1 << bit))
            if header_faults(repaired):
                continue
            journal = read_journal(repaired)
            # A file whose making was stopped has no records: nothing is lost by making it again.
            if journal.is_whole and journal.records:
                yield Repair(repaired, len(journal.records), _flip_text(data, place, bit))


def _flip_text(data: bytes, place: int, bit: int) -> str:
    before = data[place]
    return f"the byte at {place} from {before:#04x} to {before ^ (1 << bit):#04x}"


def _is_torn(data: bytes, journal: Journal) -> bool:
    """Whether the file ends too early, inside a record whose front makes sense."""
    at = journal.tail
    if at + 5 > len(data):
        return True
    if at + 5 + int.from_bytes(data[at + 1 : at + 5], "big") <= len(data):
        return False
    try:
        read_entry(data[at + 5 :])
    except NotAnEntry as fault:
        return fault.is_short
    return False


def _cut(data: bytes, journal: Journal) -> Repair:
    lost = len(data) - journal.tail
    text = f"cut at {journal.tail}, where a closed gate stands now; {lost} bytes behind it are left out"
    return Repair(data[: journal.tail] + b"\0", len(journal.records), text)


def _bit_repairs(data: bytes, journal: Journal) -> Iterator[Repair]:
    at = journal.tail
    for place in _suspects(data, journal):
        for bit in range(8):
            repaired = _with(data, place, data[place] ^ (1 << bit))
            records = _records_with(repaired, journal, place)
            if records is not None:
                yield Repair(repaired, records, _flip_text(data, place, bit))
    # A written gate is 0 or 1, so another single bit is one that flipped in a closed gate.
    if at < len(data) and data[at] in (2, 4, 8, 16, 32, 64, 128):
        repaired = _with(data, at, 0)
        yield Repair(repaired, len(journal.records), f"the gate at {at} closed")


def _suspects(data: bytes, journal: Journal) -> Iterator[int]:
    """The places at which one flipped bit may be what is wrong at the journal's damage."""
    at = journal.tail
    end = len(data)
    if journal.records:
        last = journal.records[-1].place
        # A moment that became too great is found at the record behind it.
        yield from range(last + MOMENT, last + MOMENT + 4)
    yield from range(at + 1, min(at + 5, end))
    try:
        record = framed(data, at)
    except Broken:
        return
    if record is None:
        return
    yield from _suspects_inside(record, at + 5)


def _suspects_inside(record: bytes, begin: int) -> Iterator[int]:
    """The bytes near the fault of a record that is no entry, or those of its moment."""
    try:
        read_entry(record)
    except NotAnEntry as fault:
        least = 0 if len(record) <= 2 * NEAR else max(0, fault.at - NEAR)
        yield from range(begin + least, begin + min(len(record), fault.at + 1))
    else:
        yield from range(begin, begin + 4)


def _records_with(data: bytes, journal: Journal, place: int) -> Optional[int]:
    """How many records there are once a byte is changed, None where the walk still breaks."""
    keep = len(journal.records)
    while keep > 0 and journal.records[keep - 1].place + MOMENT <= place:
        if journal.records[keep - 1].next_gate <= place:
            break
        keep -= 1
    before = journal.records[:keep]
    at = before[-1].next_gate if before else FIRST_GATE
    present = before[-1].moment if before else 0
    found: list[Record] = []
    try:
        found.extend(record for record, _ in walk(data, at, journal.origin, present, keep))
    except Broken:
        return None
    total = keep + len(found)
    return total if total > len(journal.records) else None
