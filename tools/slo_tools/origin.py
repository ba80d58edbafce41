"""Where the history of an office begins, by the questions that any office answers or refuses."""

from __future__ import annotations

from slo_tools.clock import RANGE_MINUTES
from slo_tools.office import Office
from slo_tools.refusals import Unprocessable


def origin_of(office: Office, slo: str, at: int) -> int:
    """The first minute of an office whose moment is `at`.

    A burn rate is refused at each minute before it and answered at each from it on, so it is found
    by halves.
    """
    before, first = max(at - RANGE_MINUTES, -1), at
    while first - before > 1:
        middle = (before + first) // 2
        if _is_answered(office, slo, middle):
            first = middle
        else:
            before = middle
    return first


def _is_answered(office: Office, slo: str, at: int) -> bool:
    try:
        office.burn(slo, 0, "1m", at)
    except Unprocessable:
        return False
    return True
