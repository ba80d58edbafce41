"""The newest minute for which rows have come, by the entries that an office hands out.

A row of no events is a row: whoever sent it has asked and found none. So this is older than a
feed's delay only where the feed, or what it asks, has stopped (docs/records.md, 'Feeds').
"""

from __future__ import annotations

from collections.abc import Iterable, Iterator
from dataclasses import dataclass, field
from typing import Optional

from slo_tools.journal.records import NotAnEntry, Samples, read_entry
from slo_tools.office import Office
from slo_tools.refusals import Foreign

# Entries that are read where nothing is known yet: first so many from the end, then four times as
# many, as long as an indicator has no row in them and there are fewer than the most.
FIRST, MOST = 256, 4096
# An answer has at most 1 MiB of entries; in a round so many are asked for.
PAGES = 16

_LETTERS = b"OSLOFEED"
_HEAD = 20
_SAMPLES = 4


@dataclass
class Arrivals:
    """The newest minute with a row of each indicator, and the position of the first entry that
    wasn't read."""

    newest: dict[str, int] = field(default_factory=dict)
    position: Optional[int] = None

    def ask(self, office: Office, entries: int, at: int, wanted: Iterable[str]) -> None:
        """Reads what came since the last time, and looks back for wanted indicators at first; `at`
        is the office's moment, which no row has reached.

        Raises a Refusal where the office doesn't hand its entries out, or Foreign.
        """
        if self.position is not None and entries < self.position:
            # It is another office, or an older copy.
            self.newest, self.position = {}, None
        if self.position is not None and entries - self.position <= MOST:
            self._read(office, self.position, entries, at)
            return
        length = FIRST
        begin = end = entries
        while begin > 0 and length <= MOST:
            begin = max(0, entries - length)
            self._read(office, begin, end, at)
            if all(name in self.newest for name in wanted):
                break
            end, length = begin, length * 4
        self.position = entries

    def _read(self, office: Office, begin: int, end: int, at: int) -> None:
        """Takes the rows of the entries [begin, end), as far as the pages of a round go."""
        for _ in range(PAGES):
            if begin >= end:
                break
            records = _page(office, begin)
            for record in records:
                for sli, minute in _rows_of(record, at):
                    self.newest[sli] = max(minute, self.newest.get(sli, 0))
            begin += len(records)
            if not records:
                break
        self.position = max(begin, self.position or 0)


def _page(office: Office, begin: int) -> list[bytes]:
    answer = office.answer("GET", ["entries"], {"from": begin})
    if answer.status != 200:
        answer.told()
    return list(records_of(answer.content, begin))


def records_of(content: bytes, begin: int) -> Iterator[bytes]:
    """The records of a feed that begins at a position. Raises Foreign for other bytes."""
    if content[:8] != _LETTERS or int.from_bytes(content[12:16], "big") != begin:
        raise Foreign(200, f"the answer is no feed of the entries from {begin} on")
    place = _HEAD
    for _ in range(int.from_bytes(content[16:20], "big")):
        length = int.from_bytes(content[place : place + 4], "big")
        record = content[place + 4 : place + 4 + length]
        if len(record) < max(length, 5):
            raise Foreign(200, "the feed of entries ends inside an entry")
        yield record
        place += 4 + length


def _rows_of(record: bytes, at: int) -> Iterator[tuple[str, int]]:
    """Indicator and minute of each row of a batch that wasn't withdrawn. Raises Foreign for bytes
    that no office keeps."""
    if record[4] != _SAMPLES:
        return
    try:
        command = read_entry(record).command
    except NotAnEntry as fault:
        raise Foreign(200, f"the feed of entries has another form: {fault.why}") from fault
    if isinstance(command, Samples):
        if any(row.minute >= at for row in command.rows):
            raise Foreign(200, f"the feed of entries has rows behind the office's moment {at}")
        for row in command.rows:
            if row.amount is not None:
                yield row.sli, row.minute
