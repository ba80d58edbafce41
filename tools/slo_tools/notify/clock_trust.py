"""Whether this machine's clock can be trusted: a tick at a wrong time holds the office there."""

from __future__ import annotations

import ctypes
import os
import time
from collections.abc import Callable
from dataclasses import dataclass
from email.utils import parsedate_to_datetime
from typing import Optional

TIME_ERROR = 5
STA_UNSYNC = 0x40
MOST_SKEW = 60
WHAT_TO_SET = (
    "nothing is ticked or paged; let chrony or systemd-timesyncd keep the clock, or set"
    ' clock = "receiver", which compares it with the receiver\'s alone'
)


class _Timex(ctypes.Structure):
    """The front of the kernel's `struct timex`; with `modes` 0 nothing is set."""

    _fields_ = [
        ("modes", ctypes.c_uint),
        ("offset", ctypes.c_long),
        ("freq", ctypes.c_long),
        ("maxerror", ctypes.c_long),
        ("esterror", ctypes.c_long),
        ("status", ctypes.c_int),
        ("rest", ctypes.c_char * 512),
    ]


def kernel_is_synchronised() -> bool:
    """What the kernel says, whoever keeps its clock (chrony, ntpd, systemd-timesyncd); in a
    container it is the host's. Raises OSError where it may not be asked."""
    told = _Timex()
    state = ctypes.CDLL(None, use_errno=True).adjtimex(ctypes.byref(told))
    if state < 0:
        number = ctypes.get_errno()
        raise OSError(number, os.strerror(number))
    return state < TIME_ERROR and not told.status & STA_UNSYNC


@dataclass
class ClockTrust:
    """Judges the clock by the kernel's word and by the times at which the receiver answered.

    Between its answers the receiver's time goes on by the clock that nobody sets.
    """

    rule: str
    now: Callable[[], float] = time.time
    steady: Callable[[], float] = time.monotonic
    is_synchronised: Callable[[], bool] = kernel_is_synchronised
    _ahead: Optional[float] = None

    def heard(self, date: Optional[str]) -> None:
        """Takes note of the field `Date` of an answer of the receiver."""
        if date is None:
            return
        try:
            seconds = parsedate_to_datetime(date).timestamp()
        except (TypeError, ValueError, OverflowError):
            return
        self._ahead = seconds - self.steady()

    def fault(self) -> Optional[str]:
        """Why nothing may be ticked or sent, if something speaks against it."""
        if self.rule == "trusted":
            return None
        unkept = self._kernel_fault() if self.rule == "kernel" else None
        if unkept is not None:
            return f"{unkept}: {WHAT_TO_SET}"
        if self._ahead is None:
            return "the receiver's clock isn't known yet" if self.rule == "receiver" else None
        skew = self.now() - (self._ahead + self.steady())
        if abs(skew) > MOST_SKEW:
            return f"this machine's clock differs from the receiver's by {skew:.0f} seconds"
        return None

    def _kernel_fault(self) -> Optional[str]:
        try:
            if self.is_synchronised():
                return None
        except OSError as fault:
            return f"the kernel may not be asked about this machine's clock ({fault.strerror})"
        return "this machine's clock isn't synchronised, by the kernel's word"


def office_fault(at: Optional[int], now: int) -> Optional[str]:
    """Why an office isn't ticked: its moment lies ahead of this machine's clock, or behind it."""
    if at is not None and abs(at - now) > 1:
        return f"the office's moment differs from this machine's clock by {at - now} minutes"
    return None
