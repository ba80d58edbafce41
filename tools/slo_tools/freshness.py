"""How old the newest minute of an objective is, by the burn rates that any office answers."""

from __future__ import annotations

from collections.abc import Iterable, Mapping
from typing import Any, Optional

from slo_tools.office import Office
from slo_tools.refusals import BadRequest, NotFound, Refusal

# The longest lookback that an office answers: 30 days.
LONGEST = 43_200


def has_events(office: Office, slo: str, objective: int, minutes: int, at: int) -> bool:
    """Whether a slice with data lies wholly in the minutes before a moment."""
    return office.burn(slo, objective, f"{minutes}m", at).den > 0


def age_of_newest(
    office: Office, slo: str, objective: int, at: int, guess: int = 1
) -> Optional[int]:
    """The minutes from the begin of the newest slice with data to a moment, None above 30 days.

    Whether a lookback has events doesn't change back as it grows, so the least one is found by
    halves, beginning at what it was the last time.
    """
    least, most = 0, max(1, min(guess, LONGEST))
    while not has_events(office, slo, objective, most, at):
        if most == LONGEST:
            return None
        least, most = most, min(most * 4, LONGEST)
    while most - least > 1:
        middle = (least + most) // 2
        if has_events(office, slo, objective, middle, at):
            most = middle
        else:
            least = middle
    return most


def age_or_none(office: Office, slo: str, objective: int, at: int, guess: int) -> Optional[int]:
    """The same, None too where the office's range doesn't reach that far back."""
    try:
        return age_of_newest(office, slo, objective, at, guess)
    except Refusal:
        return None


def exclusions_of(office: Office) -> list[Mapping[str, Any]]:
    """All exclusions; none from an office that hasn't this query, where excluded minutes look
    as if their data were lacking."""
    try:
        return list(office.exclusions())
    except (BadRequest, NotFound):
        return []


def excluded_age(exclusions: Iterable[Mapping[str, Any]], slo: str, at: int) -> Optional[int]:
    """The age of the newest minute that is excluded for an SLO: it counts for nothing there,
    whether its data has come or not."""
    ages = [
        at - min(int(each["to"]), at) + 1
        for each in exclusions
        if each["live"] and each["slo"] == slo and each["from"] < min(int(each["to"]), at)
    ]
    return min(ages, default=None)
