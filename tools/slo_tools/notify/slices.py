"""When a policy's windows hold a whole slice (docs/rules.md, 'Slices and leaves', 'Alerts').

A slice of some minutes lies wholly in a window as long as itself in one minute of its width alone,
and in a shorter window never. In between an alert's state says nothing of the service.
"""

from __future__ import annotations

from collections.abc import Iterable
from typing import Optional

from slo_tools.objects import Slo, map_of
from slo_tools.spelling import minutes_of_duration

# The windows of the policies that every office has, in minutes (docs/rules.md).
BUILT_IN_WINDOWS = {
    "workbook-page": (5, 30, 60, 360),
    "workbook-ticket": (360, 4320),
}
# What the office divides into slices: an hour (docs/rules.md).
WIDEST = 60


def slice_width(slo: Slo, objective: int) -> int:
    """The minutes of an objective's slices; where its budget counts events they are minutes."""
    if slo.method not in ("Timeslices", "RatioTimeslices"):
        return 1
    members = map_of(slo.document.spec["objectives"][objective])
    text = str(members.get("timeSliceWindow", ""))
    # Digits alone are minutes (docs/objects.md).
    width = minutes_of_duration(f"{text}m" if text.isascii() and text.isdigit() else text)
    return width if width is not None and 1 <= width <= WIDEST else 1


def shortest_holding(windows: Iterable[int], width: int) -> Optional[int]:
    """The shortest of some windows that can hold a whole slice; None where none can."""
    return min((window for window in windows if window >= width), default=None)


def last_holding(at: int, window: int, width: int) -> int:
    """The last minute up to a moment at which a window that can hold a whole slice holds one."""
    return at - max(0, at % width - (window - width))


def holds_slice(at: int, window: int, width: int) -> bool:
    """Whether a window holds a whole slice at a minute."""
    return window >= width and last_holding(at, window, width) == at
