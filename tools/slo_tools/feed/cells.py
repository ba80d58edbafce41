"""Cells of the office, what is counted for them, and the names of their sources."""

from __future__ import annotations

import hashlib
import re
from collections.abc import Iterable, Mapping
from dataclasses import dataclass
from decimal import ROUND_HALF_EVEN, Decimal
from typing import Optional

from slo_tools.answers import SampleRow

# What the office takes as a row's total, and as a decimal.
MOST_EVENTS = 1_000_000_000
MOST_VALUE = Decimal(1_000_000_000)
_BILLIONTH = Decimal("0.000000001")

_NO_LABEL = re.compile(r"[^A-Za-z0-9._-]")
LABEL_BYTES = 63
_FRONT_BYTES = LABEL_BYTES - 9


@dataclass(frozen=True, order=True)
class Cell:
    """An SLI, a source and a minute."""

    sli: str
    source: str
    minute: int


@dataclass(frozen=True)
class Amount:
    """What a row says: a part and a total, or a decimal where `total` is None."""

    amount: str
    total: Optional[int] = None

    @staticmethod
    def counts(part: int, total: int) -> Amount:
        """The part, at most the total."""
        return Amount(str(min(part, total)), total)

    @staticmethod
    def value(number: Decimal) -> Amount:
        """A decimal to the nearest billionth, without zeros at its end."""
        text = format(number.quantize(_BILLIONTH, ROUND_HALF_EVEN), "f")
        return Amount(text.rstrip("0").rstrip("."))

    @staticmethod
    def told(text: str) -> Amount:
        """An amount as a conflict names it: `9990,10000` or a decimal."""
        part, comma, total = text.partition(",")
        return Amount(part, int(total)) if comma else Amount(part)

    def row(self, cell: Cell, revision: int) -> SampleRow:
        return SampleRow(cell.sli, cell.source, cell.minute, revision, self.amount, self.total)


Amounts = dict[Cell, Amount]


def source_name(text: str) -> str:
    """The name that a label's value gets as a source.

    Each character that a source can't have becomes `_`, so `web-1:8080` is `web-1_8080`. What is
    longer than 63 keeps its first 54, `-`, and eight digits of its SHA-256. No value is `none`.
    """
    if not text:
        return "none"
    name = _NO_LABEL.sub("_", text)
    if len(name) <= LABEL_BYTES:
        return name
    return f"{name[:_FRONT_BYTES]}-{hashlib.sha256(text.encode('utf-8')).hexdigest()[:8]}"


def stretch_minute(minute: int, every: int) -> int:
    """The minute whose row speaks for the stretch of `every` minutes in which a minute lies: the
    stretch's last one, so that the row is closed exactly when all of the stretch is."""
    return minute - minute % every + every - 1


def summed(counts: Iterable[tuple[Cell, int, int]]) -> dict[Cell, tuple[int, int]]:
    """The sums of parts and totals by cell."""
    sums: dict[Cell, tuple[int, int]] = {}
    for cell, part, total in counts:
        before = sums.get(cell, (0, 0))
        sums[cell] = (before[0] + part, before[1] + total)
    return sums


def amounts_of(sums: Mapping[Cell, tuple[int, int]]) -> tuple[Amounts, list[Cell]]:
    """The amounts of sums, and the cells with more events than a row can have."""
    amounts: Amounts = {}
    too_many: list[Cell] = []
    for cell, (part, total) in sums.items():
        if total > MOST_EVENTS:
            too_many.append(cell)
        else:
            amounts[cell] = Amount.counts(part, total)
    return amounts, too_many
