"""Numbers as engines tell them. What an engine answers is its own: each value is read here, and is a
number, or nothing, or the fault of the indicator that asked for it."""

from __future__ import annotations

import re
from decimal import Decimal
from typing import Optional

# A double takes at most 325 characters where it is written without an exponent.
_MOST_CHARACTERS = 400
_NUMBER = re.compile(r"[+-]?(?:[0-9]+(?:\.[0-9]*)?|\.[0-9]+)(?:[eE][+-]?[0-9]{1,3})?")
_NONE = re.compile(r"[+-]?nan", re.IGNORECASE)
# As much of a value as a line for people has.
_SHOWN = 40


class NoNumber(ValueError):
    """A value that can't be read as what was asked for; the text shows it."""

    def __init__(self, value: object) -> None:
        super().__init__(shown(value))


class NotWhole(NoNumber):
    """A number that counts no events."""


def number_of(value: object) -> Optional[Decimal]:
    """The number of a value; None where it says that there is none, as NaN and null do. Raises
    NoNumber, for endless ones too, before anything is computed of many digits."""
    if value is None:
        return None
    if isinstance(value, bool) or not isinstance(value, (str, int, float)):
        raise NoNumber(value)
    if isinstance(value, int) and value.bit_length() > _MOST_CHARACTERS:
        raise NoNumber(value)
    text = value if isinstance(value, str) else str(value)
    if len(text) > _MOST_CHARACTERS:
        raise NoNumber(text)
    if _NUMBER.fullmatch(text) is not None:
        return Decimal(text)
    if _NONE.fullmatch(text) is not None:
        return None
    raise NoNumber(text)


def whole(value: object) -> int:
    """A value as a number of events: 0 or more, without a fraction. Raises NotWhole for another
    number, and NoNumber for what is none."""
    if isinstance(value, str) and value.isascii() and value.isdigit():
        if len(value) <= _MOST_CHARACTERS:
            return int(value)
    number = number_of(value)
    if number is None:
        raise NoNumber(value)
    if number < 0 or number != number.to_integral_value():
        raise NotWhole(value)
    return int(number)


def shown(value: object) -> str:
    """A value of an engine in a line for people: short, and without what a terminal would obey."""
    if isinstance(value, int) and value.bit_length() > _MOST_CHARACTERS:
        return "a number of many digits"
    if not isinstance(value, (str, int, float)) and value is not None:
        return f"a {type(value).__name__}"
    text = str(value)
    short = text if len(text) <= _SHOWN else text[:_SHOWN] + ".."
    return short if short.isprintable() and short else repr(short)
