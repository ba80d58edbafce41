"""Minutes since 1970-01-01T00:00Z, dates, and a clock that a test can hold."""

from __future__ import annotations

import time
from datetime import datetime, timedelta, timezone
from typing import Protocol

MINUTE = 60
DAY = 1440
# The office takes no minute at or above this one (docs/guide.md).
MINUTES_END = 67_108_864
# From its origin on an office has so many.
RANGE_MINUTES = 2_097_152


class Clock(Protocol):
    """What tells the time and waits."""

    def now(self) -> float:
        """Seconds since 1970-01-01T00:00Z."""

    def sleep(self, seconds: float) -> None:
        """Return after so many seconds."""


class SystemClock:
    """The clock of this machine."""

    def now(self) -> float:
        return time.time()

    def sleep(self, seconds: float) -> None:
        if seconds > 0:
            time.sleep(seconds)


def minute_of(seconds: float) -> int:
    """The minute in which a moment lies."""
    return int(seconds // MINUTE)


def date_of(minute: int) -> str:
    """A minute as people write it."""
    moment = datetime(1970, 1, 1, tzinfo=timezone.utc) + timedelta(minutes=minute)
    return moment.strftime("%Y-%m-%dT%H:%MZ")


def minute_of_date(text: str) -> int:
    """The minute of `2026-11-29`, `2026-11-29T13:05` or `2026-11-29T13:05Z`, all in UTC.

    Digits alone are a minute already. Raises ValueError with a line for people.
    """
    if text.isascii() and text.isdigit():
        minute = int(text)
    else:
        minute = _minute_of_words(text)
    if not 0 <= minute < MINUTES_END:
        raise ValueError(f"{text}: outside the minutes of an office")
    return minute


def _minute_of_words(text: str) -> int:
    for form in ("%Y-%m-%d", "%Y-%m-%dT%H:%M", "%Y-%m-%dT%H:%MZ"):
        try:
            moment = datetime.strptime(text, form)
        except ValueError:
            continue
        return minute_of((moment - datetime(1970, 1, 1)).total_seconds())
    raise ValueError(f"{text}: no date as 2026-11-29 or 2026-11-29T13:05Z, and no minute")
