"""What an answer says, read member by member: each is of the type that is asked for, or the answer
is none of an office's (Foreign)."""

from __future__ import annotations

import json
import re
from collections.abc import Callable, Mapping
from fractions import Fraction
from typing import Any, NoReturn, Optional, TypeVar

from slo_tools.refusals import Foreign

Read = TypeVar("Read")

# Whole numbers of an office have at most 20 digits; sums and products of them, in fractions, more.
MOST_NUMBER = 10**40
_FRACTION = re.compile(r"-?[0-9]{1,400}/[0-9]{1,400}")


def json_members(content: bytes) -> Optional[dict[str, Any]]:
    """The members of a JSON object; None where the content is none, nests too deeply, or has
    numbers that no program reads."""
    try:
        found = json.loads(content.decode("utf-8"), parse_constant=_no_constant)
    except (ValueError, RecursionError):
        return None
    return found if isinstance(found, dict) else None


def _no_constant(word: str) -> NoReturn:
    raise ValueError(word)


class Told:
    """The members of an answer, or of an object inside one."""

    def __init__(self, members: Any, what: str = "the answer") -> None:
        if not isinstance(members, dict):
            raise Foreign(200, f"{what} is no JSON object")
        self.members: Mapping[str, Any] = members

    def number(self, name: str) -> int:
        """A whole number from 0 on."""
        value: Any = self.members.get(name)
        return int(value) if is_number(value) else self._fault(name, "a whole number")

    def number_or_none(self, name: str) -> Optional[int]:
        """The same, or null; the member has to be there."""
        return None if self._is_null(name) else self.number(name)

    def text(self, name: str) -> str:
        value = self.members.get(name)
        return value if isinstance(value, str) else self._fault(name, "a text")

    def truth(self, name: str) -> bool:
        value = self.members.get(name)
        return value if isinstance(value, bool) else self._fault(name, "true or false")

    def fraction_or_none(self, name: str) -> Optional[Fraction]:
        """A fraction as `13/25`, or null; the member has to be there."""
        if self._is_null(name):
            return None
        text = self.text(name)
        if _FRACTION.fullmatch(text) is None or not text.partition("/")[2].strip("0"):
            self._fault(name, "a fraction")
        return Fraction(text)

    def items(self, name: str) -> list[Any]:
        value = self.members.get(name)
        return value if isinstance(value, list) else self._fault(name, "a list")

    def each(self, name: str, read: Callable[[Told], Read]) -> list[Read]:
        """The objects of a list, each as it is read."""
        return [read(Told(item, f"an item of `{name}`")) for item in self.items(name)]

    def texts(self, name: str) -> list[str]:
        found = self.items(name)
        if not all(isinstance(item, str) for item in found):
            self._fault(name, "a list of texts")
        return found

    def pairs(self, name: str) -> list[tuple[int, int]]:
        """A list of pairs of whole numbers."""
        found = self.items(name)
        if not all(is_pair(item) for item in found):
            self._fault(name, "a list of pairs of numbers")
        return [(item[0], item[1]) for item in found]

    def _is_null(self, name: str) -> bool:
        return name in self.members and self.members[name] is None

    def _fault(self, name: str, what: str) -> NoReturn:
        raise Foreign(200, f"`{name}` of the answer isn't {what}")


def is_number(value: Any) -> bool:
    return isinstance(value, int) and not isinstance(value, bool) and 0 <= value < MOST_NUMBER


def is_pair(value: Any) -> bool:
    return isinstance(value, list) and len(value) == 2 and all(map(is_number, value))
