"""What an engine says of an indicator becomes the amounts of its rows, or its faults."""

from __future__ import annotations

from collections.abc import Iterable
from dataclasses import dataclass, field
from typing import Optional

from slo_tools.clock import date_of
from slo_tools.feed.cells import MOST_VALUE, Amount, Amounts, Cell, amounts_of, source_name, summed
from slo_tools.feed.engine import Indicator, Reading
from slo_tools.feed.numbers import NoNumber, number_of, shown, whole


@dataclass
class SourceNames:
    """The sources of an indicator, with the label's values that got the same name."""

    indicator: Indicator
    _names: dict[str, str] = field(default_factory=dict, init=False)
    _values: dict[str, set[str]] = field(default_factory=dict, init=False)

    def of(self, value: str) -> str:
        """The source that a value of the label names; that of the sum where there is no label."""
        if self.indicator.label is None:
            return self.indicator.name
        name = self._names.get(value)
        if name is None:
            name = self._names[value] = source_name(value)
            self._values.setdefault(name, set()).add(value)
        return name

    def faults(self, what: str) -> list[str]:
        """Each name that several values got, and what became of their rows."""
        return [
            f"source {name} stands for {', '.join(sorted(map(shown, values))[:5])}: {what}"
            for name, values in self._values.items()
            if len(values) > 1
        ]


@dataclass(frozen=True)
class Count:
    """Events of a source in a minute, as the engine tells their numbers. None says nothing of it."""

    source: str
    minute: int
    part: object = None
    total: object = None


def put_counts(indicator: Indicator, counts: Iterable[Count], reading: Reading) -> None:
    """Counts are summed up by cell: sources that get one name are one. A cell of which a number
    can't be read, or that has no total, has no row."""
    names = SourceNames(indicator)
    pairs: list[tuple[Cell, int, int]] = []
    with_total: set[Cell] = set()
    odd: set[Cell] = set()
    for count in counts:
        cell = Cell(indicator.sli, names.of(count.source), count.minute)
        try:
            part = 0 if count.part is None else whole(count.part)
            total = 0 if count.total is None else whole(count.total)
        except NoNumber as fault:
            odd.add(cell)
            reading.fault("events", f"value {fault} counts no events")
            continue
        pairs.append((cell, part, total))
        if count.total is not None:
            with_total.add(cell)
    sums = {c: pair for c, pair in summed(pairs).items() if c in with_total - odd}
    put_sums(sums, reading)
    reading.fault("source", *names.faults("their events are summed"))


def put_sums(sums: dict[Cell, tuple[int, int]], reading: Reading) -> None:
    """The amounts of sums; a fault for each that no row can have."""
    amounts, too_many = amounts_of(sums)
    reading.amounts.update(amounts)
    reading.fault("many", *(f"{_place(cell)}: more than 10^9 events" for cell in too_many))


def put_values(
    indicator: Indicator, values: Iterable[tuple[str, int, object]], reading: Reading
) -> None:
    """Values by the label's value and the minute. Two of one cell can't be made one: then none of
    the indicator's is a row."""
    names = SourceNames(indicator)
    amounts: Amounts = {}
    for label, minute, value in values:
        cell = Cell(indicator.sli, names.of(label), minute)
        if cell in amounts:
            told = names.faults("no value is sent")
            reading.fault("source", *(told or [f"{cell.source}: several series give one value"]))
            return
        amount = _amount(indicator, cell, value, reading)
        if amount is not None:
            amounts[cell] = amount
    reading.amounts.update(amounts)
    reading.fault("source", *names.faults("each minute has one of them"))


def _amount(indicator: Indicator, cell: Cell, value: object, reading: Reading) -> Optional[Amount]:
    try:
        number = number_of(value)
    except NoNumber as fault:
        reading.fault("number", f"{_place(cell)}: {fault} is no number")
        return None
    if number is None:
        return None
    if not 0 <= number <= (1 if indicator.ratio else MOST_VALUE):
        reading.fault("range", f"{_place(cell)}: {shown(value)} is out of range")
        return None
    return Amount.value(number)


def _place(cell: Cell) -> str:
    return f"{cell.source} {date_of(cell.minute)}"
