"""Amounts become rows that the office holds: batches, conflicts, and rows that are hidden."""

from __future__ import annotations

from collections import Counter
from collections.abc import Sequence
from dataclasses import dataclass, field
from typing import Optional, Protocol

from slo_tools.answers import Batch, KeptRow, SampleRow
from slo_tools.feed.cells import Amount, Cell
from slo_tools.feed.history import TakenBack
from slo_tools.feed.revisions import (
    MOST_REVISION,
    Kept,
    Pending,
    behind_conflict,
    behind_superseded,
)
from slo_tools.office import ROWS_OF_A_BATCH
from slo_tools.refusals import Conflict, Foreign, Refusal, Unprocessable

# A refused batch is sent again, so batches stay small where refusals are to be expected.
SMALL_BATCH = 50


class TakesSamples(Protocol):
    """The part of an office that takes rows."""

    def post_samples(self, rows: Sequence[SampleRow]) -> Batch:
        """Send a batch."""

    def row(self, sli: str, source: str, minute: int) -> Optional[KeptRow]:
        """The current row of a cell."""


@dataclass
class Sent:
    """What became of the rows that were sent."""

    kept: dict[Cell, Kept] = field(default_factory=dict)
    counts: Counter[str] = field(default_factory=Counter)
    # The newest entry that an answer named.
    entry: Optional[int] = None
    # The office's origin, where a row was too early for it.
    origin: Optional[int] = None
    # The office's moment, where it was behind a row's minute.
    moment: Optional[int] = None
    dropped: list[tuple[str, Pending]] = field(default_factory=list)
    fully_sent: bool = False


class Sender:
    """Sends rows until the office holds each of them or has refused it for good.

    `sent` tells what became of them, also where an exception ended the sending: NoAnswer, Full
    or a refusal that concerns no row; TakenBack where the office counts fewer entries than the
    `entries` that it is known to have.
    """

    def __init__(self, office: TakesSamples, entries: int = 0) -> None:
        self._office = office
        self._entries = entries
        self._has_rows_query = True
        self.sent = Sent()

    def send(self, rows: Sequence[Pending]) -> Sent:
        """Send what is pending. Corrections go in small batches, new rows in large ones."""
        self.sent = Sent()
        queue = [row for row in rows if row.known]
        self._drain(queue, SMALL_BATCH)
        self._drain([row for row in rows if not row.known], ROWS_OF_A_BATCH)
        self.sent.fully_sent = True
        return self.sent

    def _drain(self, queue: list[Pending], most: int) -> None:
        size = most
        while queue:
            batch = queue[:size]
            try:
                answer = self._post(batch)
            except Conflict as refusal:
                place = _place(refusal, batch)
                kept = Kept(refusal.number("revision"), Amount.told(refusal.text("amount")))
                if kept.revision != batch[place].revision:
                    raise Foreign(refusal.status, f"a conflict of another revision: {refusal}")
                self.sent.counts["conflict"] += 1
                queue[place] = behind_conflict(batch[place], kept)
                # The rows before it met no conflict, and go by themselves next.
                size = place or SMALL_BATCH
                continue
            except Unprocessable as refusal:
                queue[:] = self._without_refused(queue, batch, refusal)
                continue
            del queue[: len(batch)]
            queue[:0] = self._taken(batch, answer)
            size = min(most, max(size, SMALL_BATCH) * 2)

    def _post(self, batch: Sequence[Pending]) -> Batch:
        rows = [row.amount.row(row.cell, row.revision) for row in batch]
        answer = self._office.post_samples(rows)
        if answer.entry is not None:
            if answer.entry < self._entries:
                raise TakenBack(
                    f"its newest entry is {answer.entry}, and it had {self._entries} already"
                )
            self.sent.entry = answer.entry
            self._entries = answer.entry + 1
        return answer

    def _taken(self, batch: list[Pending], answer: Batch) -> list[Pending]:
        """Keep account of an accepted batch; the rows that have to be sent again."""
        self.sent.counts["new"] += answer.new
        self.sent.counts["newer"] += answer.newer
        self.sent.counts["repeated"] += answer.repeated
        hidden = self._superseded(batch, answer.superseded)
        self.sent.counts["superseded"] += len(hidden)
        places = set(id(row) for row in hidden)
        for row in batch:
            if id(row) not in places:
                self.sent.kept[row.cell] = Kept(row.revision, row.amount)
        return [again for row in hidden if (again := self._again(row)) is not None]

    def _superseded(self, batch: list[Pending], count: int) -> list[Pending]:
        """Which rows of an accepted batch are hidden by greater revisions: halves are sent again,
        where they change nothing, until their counts tell."""
        if count <= 0:
            return []
        if count >= len(batch):
            return batch
        half = len(batch) // 2
        first = self._post(batch[:half]).superseded
        return self._superseded(batch[:half], first) + self._superseded(batch[half:], count - first)

    def _again(self, row: Pending) -> Optional[Pending]:
        """A hidden row with the revision with which it goes next, None where it stands already or
        has to be dropped."""
        kept = self._asked(row.cell)
        if kept is not None:
            if kept.amount == row.amount:
                self.sent.kept[row.cell] = kept
                return None
            row = behind_conflict(row, kept)
        else:
            row = behind_superseded(row)
        if row.revision > MOST_REVISION:
            self._drop("revisions", row)
            return None
        return row

    def _asked(self, cell: Cell) -> Optional[Kept]:
        """The office's row, None where the office can't be asked for it."""
        if not self._has_rows_query:
            return None
        try:
            row = self._office.row(cell.sli, cell.source, cell.minute)
        except Refusal:
            self._has_rows_query = False
            return None
        if row is None or row.amount is None:
            return None
        return Kept(row.revision, Amount(row.amount, row.total))

    def _without_refused(
        self, queue: list[Pending], batch: list[Pending], refusal: Unprocessable
    ) -> list[Pending]:
        """The queue without what the office won't take for the reason that it gave."""
        row = batch[_place(refusal, batch)]
        if refusal.word == "open_minute":
            self.sent.moment = refusal.number("moment")
            return [r for r in queue if r.cell.minute < self.sent.moment]
        if refusal.word == "early":
            self.sent.origin = refusal.number("origin")
            refused = [r for r in queue if r.cell.minute < self.sent.origin]
        elif refusal.word == "unknown_sli":
            refused = [r for r in queue if r.cell.sli == row.cell.sli]
        else:
            refused = [row]
        for each in refused:
            self._drop(refusal.word, each)
        gone = set(id(r) for r in refused)
        return [r for r in queue if id(r) not in gone]

    def _drop(self, why: str, row: Pending) -> None:
        self.sent.counts[why] += 1
        self.sent.dropped.append((why, row))


def _place(refusal: Refusal, batch: Sequence[Pending]) -> int:
    """Which row of a batch a refusal names."""
    row = refusal.number("row")
    if not 1 <= row <= len(batch):
        raise Foreign(refusal.status, f"the batch has no row {row}: {refusal}")
    return row - 1
