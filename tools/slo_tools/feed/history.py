"""Whether the office still has the history that it told the feed of.

An office that was restored from a copy, renewed or served from another's copy has lost what was
acknowledged since, and soon has as many entries again. So the feed remembers some rows that the office
acknowledged, witnesses, and asks for the newest one each round. Where it isn't there, the newest one
that is tells from when on all has to be read again.
"""

from __future__ import annotations

from collections.abc import Iterable, Mapping, Sequence
from typing import Optional

from slo_tools.clock import DAY, MINUTE, date_of
from slo_tools.feed.cells import Amount, Cell
from slo_tools.feed.revisions import Kept
from slo_tools.feed.state import State, Witness
from slo_tools.office import Office
from slo_tools.refusals import Refusal

HOUR = 60
# One witness an hour for two days, then one a day for two months.
_HOURS = 48
_DAYS = 62


# No engine is asked for more than this of what was lost.
MOST_MINUTES = _DAYS * DAY


class TakenBack(Exception):
    """The office hasn't what it acknowledged; the text says how that is seen."""


def stands(office: Office, witness: Witness) -> Optional[bool]:
    """Whether the office has a witness, or a newer row in its place; None where it can't tell."""
    cell = witness.cell
    try:
        row = office.row(cell.sli, cell.source, cell.minute)
    except Refusal:
        return None
    if row is None or row.revision < witness.kept.revision:
        return False
    if row.revision > witness.kept.revision:
        return True
    return row.amount is not None and Amount(row.amount, row.total) == witness.kept.amount


def newest_standing(office: Office, witnesses: Sequence[Witness]) -> Optional[Witness]:
    """The newest witness that the office has."""
    with office.kept_link():
        return next((w for w in reversed(witnesses) if stands(office, w)), None)


def with_newest(witnesses: Sequence[Witness], newest: Witness) -> list[Witness]:
    """The witnesses with a new one, and without those that lie too close to their neighbours."""
    found: dict[tuple[str, int], Witness] = {}
    for each in [*(w for w in witnesses if w.at <= newest.at), newest]:
        age = newest.at - each.at
        if age < _HOURS * HOUR:
            found.setdefault(("hour", each.at // HOUR), each)
        elif age < _DAYS * DAY:
            found.setdefault(("day", each.at // DAY), each)
    kept = list(found.values())
    return kept if kept and kept[-1] == newest else [*kept, newest]


def newest_of(kept: Iterable[tuple[Cell, Kept]]) -> Optional[tuple[Cell, Kept]]:
    """The row of the newest minute; of several the same one each time."""
    newest: Optional[tuple[Cell, Kept]] = None
    for row in kept:
        if newest is None or (row[0].minute, row[0]) > (newest[0].minute, newest[0]):
            newest = row
    return newest


def look_at_history(office: Office, state: State, slis: set[str], now: int) -> None:
    """See whether the office has the newest row that it acknowledged of these SLIs. Raises
    TakenBack."""
    kept = newest_of((cell, row) for cell, row in state.kept.items() if cell.sli in slis)
    newest: Optional[Witness] = None
    if kept is not None:
        newest = Witness(now, *kept)
    else:
        known = (w for w in reversed(state.witnesses) if w.cell.sli in slis)
        newest = next(known, None)
    if newest is not None and stands(office, newest) is False:
        cell = newest.cell
        place = f"{cell.sli} {cell.source} {date_of(cell.minute)}"
        raise TakenBack(f"it doesn't have the row {place}, which it acknowledged")


def keep_witness(state: State, kept: Mapping[Cell, Kept], now: int) -> None:
    """Remember the newest of the rows that the office has acknowledged just now."""
    newest = newest_of(kept.items())
    if newest is not None:
        behind = {sli: m for sli, m in state.through.items() if m < newest[0].minute}
        state.witnesses = with_newest(state.witnesses, Witness(now, *newest, behind))


def what_is_left(office: Office, state: State, now: int) -> tuple[State, Optional[int]]:
    """The state of a feed whose office was taken back, and from which minute on all is read again:
    behind the newest row that still stands; all that was ever read where none stands; None where
    that isn't known."""
    last = newest_standing(office, state.witnesses)
    left = State(ways=state.ways, began=state.began)
    begin = state.began
    if last is not None:
        begin = last.cell.minute
        left.witnesses = state.witnesses[: state.witnesses.index(last) + 1]
    elif begin is not None:
        begin = max(begin, now - MOST_MINUTES)
    if begin is not None:
        behind = {} if last is None else last.behind
        left.through = {sli: min(m, behind.get(sli, begin)) for sli, m in state.through.items()}
        left.marks = {name: min(m, float(begin * MINUTE)) for name, m in state.marks.items()}
    return left, begin
