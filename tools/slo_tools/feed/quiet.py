"""Minutes without events, where the engine would have told them: a row 0/0 says that it was asked."""

from __future__ import annotations

from collections.abc import Mapping

from slo_tools.feed.cells import Amount, Amounts, Cell, stretch_minute
from slo_tools.feed.engine import Indicator, Reading
from slo_tools.feed.revisions import Kept

NOTHING = Amount("0", 0)


def quiet_rows(indicator: Indicator, reading: Reading, kept: Mapping[Cell, Kept]) -> Amounts:
    """Rows 0/0 for the minutes in which nothing was counted of an indicator: of each source that had
    a row in the look-back before. None takes the place of a row with events."""
    own = {cell: row.amount for cell, row in kept.items() if cell.sli == indicator.sli}
    asked = {stretch_minute(m, indicator.every) for span in reading.spans for m in range(*span)}
    with_events = {cell.minute for cell in reading.amounts}
    with_events |= {cell.minute for cell, amount in own.items() if amount.total}
    sources: dict[int, set[str]] = {}
    for cell in [*own, *reading.amounts]:
        sources.setdefault(cell.minute, set()).add(cell.source)
    reach = max(indicator.look_back, indicator.every)
    found: Amounts = {}
    last: dict[str, int] = {}
    for minute in sorted(asked.union(sources)):
        known = sources.get(minute, set())
        if minute in asked - with_events:
            known = known.union(s for s, at in last.items() if minute - at <= reach)
            found.update((Cell(indicator.sli, source, minute), NOTHING) for source in known)
        last.update((source, minute) for source in known)
    return found
