"""Fractions and durations, as the tools write and read them."""

from __future__ import annotations

import re
from fractions import Fraction
from typing import Optional

_DURATION = re.compile(r"(\d+)([mhdwMQY])", re.ASCII)
# Above every range, and far below where Python refuses to read a number.
_MOST_DIGITS = 18
_MOST = 1_000_000_000_000_000_000
_UNITS = {"m": 1, "h": 60, "d": 1440, "w": 10_080, "M": 43_200, "Q": 129_600, "Y": 525_600}


def percent(part: Fraction) -> str:
    """A part in percent with two decimals, rounded down."""
    hundredths = part.numerator * 10_000 // part.denominator
    sign = "-" if hundredths < 0 else ""
    return f"{sign}{abs(hundredths) // 100}.{abs(hundredths) % 100:02}%"


def printable(text: str, most: int = 500) -> str:
    """A text of others as it may stand in a line of a log or a terminal: no controls, and cut."""
    shown = text if len(text) <= most else f"{text[:most]} .."
    return "".join(sign if sign.isprintable() else "?" for sign in shown)


def times(value: Fraction) -> str:
    """A number for people, rounded down: with two decimals below 2, with one below 100."""
    digits = 2 if value < 2 else 1 if value < 100 else 0
    scaled = value.numerator * 10**digits // value.denominator
    text = f"{scaled // 10**digits}.{scaled % 10**digits:0{digits}}" if digits else str(scaled)
    return text.rstrip("0").rstrip(".") if digits else text


def budget_text(remaining: Fraction) -> str:
    """What is left of a budget, or how far it is spent."""
    if remaining >= Fraction(1, 10_000):
        return f"{percent(remaining)} of the budget is left"
    if remaining > 0:
        return "less than 0.01% of the budget is left"
    spent = 1 - remaining
    if spent < Fraction(101, 100):
        return "the budget is spent"
    return f"the budget is spent {times(spent)} times over"


def spelled_fraction(value: Optional[Fraction]) -> Optional[str]:
    """A fraction as the office writes it, `13/25`; None stays None."""
    return None if value is None else f"{value.numerator}/{value.denominator}"


def minutes_of_duration(text: str) -> Optional[int]:
    """The minutes of a duration of OpenSLO, as `5m` or `1w`; None where it is none."""
    found = _DURATION.fullmatch(text)
    if found is None:
        return None
    digits = found[1].lstrip("0")
    number = int(digits or "0") if len(digits) <= _MOST_DIGITS else _MOST
    return number * _UNITS[found[2]]
