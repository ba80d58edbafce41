"""Which revision an amount goes with, and what is known of the office's rows."""

from __future__ import annotations

from collections.abc import Iterable, Mapping
from dataclasses import dataclass
from typing import Optional

from slo_tools.feed.cells import Amount, Amounts, Cell

MOST_REVISION = 1_000_000_000


@dataclass(frozen=True)
class Kept:
    """The row that the office holds for a cell."""

    revision: int
    amount: Amount


@dataclass(frozen=True)
class Pending:
    """An amount that is to be the office's, and the revision with which it is sent next.

    `known` says that the office's row was told, so that the revision is the kept one and one.
    """

    cell: Cell
    amount: Amount
    revision: int
    known: bool


def revision_for(kept: Optional[Kept], amount: Amount) -> Optional[int]:
    """The revision that an amount goes with, None where the office has it already."""
    if kept is None:
        return 1
    return None if kept.amount == amount else kept.revision + 1


def pending(kept: Mapping[Cell, Kept], amounts: Amounts) -> list[Pending]:
    """What has to be sent so that the office holds these amounts, older minutes first."""
    rows = []
    for cell in sorted(amounts, key=lambda c: (c.minute, c.sli, c.source)):
        before = kept.get(cell)
        revision = revision_for(before, amounts[cell])
        if revision is not None:
            rows.append(Pending(cell, amounts[cell], revision, before is not None))
    return rows


def behind_conflict(row: Pending, kept: Kept) -> Pending:
    """A row again, after the office named the one that it holds."""
    return Pending(row.cell, row.amount, kept.revision + 1, True)


def behind_superseded(row: Pending) -> Pending:
    """A row again, after the office said that it holds a greater revision without naming it.

    One step at a time: the row meets the kept revision, as a repetition or a conflict, and never
    passes it, so that an amount that stands isn't accepted a second time.
    """
    return Pending(row.cell, row.amount, row.revision + 1, False)


def without_old(kept: Mapping[Cell, Kept], keep: Iterable[tuple[str, int]]) -> dict[Cell, Kept]:
    """What is known, without the minutes of each SLI that aren't read again."""
    first = dict(keep)
    return {cell: row for cell, row in kept.items() if cell.minute >= first.get(cell.sli, 0)}
