"""The entries of an office from the first one on, as records (docs/records.md).

Entries are an interface: whoever opens a journal judges each of them where it stands, at its own
moment. So a past that was rewritten here is one that an office could have had, or it is refused.
"""

from __future__ import annotations

from bisect import bisect_left
from collections.abc import Iterator
from dataclasses import dataclass
from pathlib import Path

from slo_tools.clock import date_of
from slo_tools.follow.feeds import Fewer, NoFeed, Source, asking
from slo_tools.journal.file import (
    FIRST_GATE,
    Broken,
    header_faults,
    header_of,
    read_bytes,
    records_in,
)
from slo_tools.journal.records import HEAD, Kind
from slo_tools.office import Office


class NotAPast(Exception):
    """A file or an office has no entries that can be read; the text says why."""


@dataclass(frozen=True)
class Past:
    """Where a history begins, and its records."""

    origin: int
    records: list[bytes]

    @property
    def moment(self) -> int:
        """That of the last entry."""
        return moment_of(self.records[-1]) if self.records else self.origin

    def without(self, *kinds: Kind) -> Past:
        """The same without the entries of some kinds."""
        return Past(self.origin, [it for it in self.records if kind_of(it) not in kinds])

    def journal(self) -> Iterator[bytes]:
        """The journal's file, in pieces (docs/journal.md)."""
        yield header_of(self.origin)
        for record in self.records:
            yield b"\1" + len(record).to_bytes(4, "big")
            yield record
        yield b"\0"

    def told_of(self, place: int) -> str:
        """The entry whose gate stands at a place of the journal's file."""
        gate = FIRST_GATE
        for number, record in enumerate(self.records):
            if gate == place:
                kind = kind_of(record).name.lower()
                return f"entry {number}, {kind} of {date_of(moment_of(record))}"
            gate += 5 + len(record)
        return f"what stands at {place}"


def has_head(record: bytes) -> bool:
    """Whether a record has a moment and a kind; the office's program judges the rest."""
    return len(record) >= HEAD.size and 1 <= record[4] <= max(Kind)


def moment_of(record: bytes) -> int:
    moment: int = HEAD.unpack_from(record)[0]
    return moment


def kind_of(record: bytes) -> Kind:
    return Kind(record[4])


def entries_before(records: list[bytes], minute: int) -> int:
    """How many entries were made before a minute."""
    return bisect_left(records, minute, key=moment_of)


def past_of_journal(path: Path) -> Past:
    """The history in a journal's file, also in that of a running office. Raises NotAPast."""
    data = read_bytes(path)
    for fault in header_faults(data):
        raise NotAPast(f"{path}: {fault}")
    try:
        records = [record for _, record in records_in(data)]
    except Broken as end:
        raise NotAPast(f"{path}: damaged at {end.damage.place}: {end.damage.why}") from end
    return Past(int.from_bytes(data[9:13], "big"), _with_heads(records))


def past_of_office(office: Office) -> Past:
    """The whole history of a running office, feed after feed. Raises NotAPast."""
    source = Source(asking(office))
    records: list[bytes] = []
    try:
        feed = source.feed(0)
        origin = feed.origin
        while feed.records:
            records += feed.records
            feed = source.feed(len(records))
            if feed.origin != origin:
                raise NotAPast("the office became another one while it was read")
    except NoFeed as fault:
        raise NotAPast(f"the office's entries can't be read: {fault}") from fault
    except Fewer as fault:
        raise NotAPast("the office lost entries while it was read") from fault
    return Past(origin, _with_heads(records))


def _with_heads(records: list[bytes]) -> list[bytes]:
    for number, record in enumerate(records):
        if not has_head(record):
            raise NotAPast(f"entry {number} is of no kind that is known here")
    return records
