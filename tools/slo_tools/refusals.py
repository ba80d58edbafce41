"""What an office says no with, and what keeps it from answering (docs/api.md, 'Refusals')."""

from __future__ import annotations

from typing import Any

from slo_tools.spelling import printable

Members = dict[str, Any]


class OfficeError(Exception):
    """Whatever kept the office from doing what was asked."""


class NoAnswer(OfficeError):
    """All tries ended without an answer that says what was done.

    A change may have been kept or not. Sent again it acts once.
    """


class Foreign(OfficeError):
    """An answer that no office gives: a proxy's password page, or another server at that port."""

    def __init__(self, status: int, why: str) -> None:
        super().__init__(printable(f"status {status}: {why}"))
        self.status = status


class Refusal(OfficeError):
    """The office said no: the status, the word of `error`, and the members beside it."""

    def __init__(self, status: int, members: Members) -> None:
        self.status = status
        self.word = str(members.get("error", ""))
        self.members = {key: value for key, value in members.items() if key != "error"}
        told = " ".join(f"{key}={value}" for key, value in self.members.items())
        super().__init__(printable(f"{status} {self.word} {told}".rstrip()))

    def number(self, name: str) -> int:
        """A member that is a whole number, as `row`, `minute`, `revision`, `origin`, `moment`.
        Raises Foreign where it is none."""
        value = self.members.get(name)
        if not isinstance(value, int) or isinstance(value, bool):
            raise Foreign(self.status, f"`{name}` of the refusal isn't a whole number")
        return value

    def text(self, name: str) -> str:
        """A member that is a text, as `name`, `kind`, `which`, `amount`. Raises Foreign where it
        isn't there."""
        if name not in self.members:
            raise Foreign(self.status, f"the refusal has no `{name}`")
        return str(self.members[name])


class BadRequest(Refusal):
    """400, 405, 413, 431, 501: the request has a form that the office doesn't take."""


class NotFound(Refusal):
    """404: no such object, or no such route in this version of the office."""


class Conflict(Refusal):
    """409: something else is kept there already."""


class Unprocessable(Refusal):
    """422: the content breaks a rule."""


class ClockRange(Refusal):
    """500 `clock_range`: the office's clock is behind the end of its range."""


class Full(Refusal):
    """507: a limit is reached, or the journal is full. This is for people to look at."""


KINDS: dict[int, type[Refusal]] = {
    400: BadRequest,
    404: NotFound,
    405: BadRequest,
    409: Conflict,
    413: BadRequest,
    422: Unprocessable,
    431: BadRequest,
    500: ClockRange,
    501: BadRequest,
    507: Full,
}
