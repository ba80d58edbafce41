"""The queries of the office's interface: where each is asked, and how its answer is read."""

from __future__ import annotations

import re
from collections.abc import Callable, Mapping, Sequence
from dataclasses import dataclass
from typing import Any, Generic, Optional, TypeVar, Union

from slo_tools.answers import Alerts, Budgets, Burn, KeptRow, Notice, ObjectName, budget_of
from slo_tools.refusals import KINDS, Foreign, Members, OfficeError, Refusal
from slo_tools.told import Told, is_number, is_pair, json_members
from slo_tools.wire import Reply

Found = TypeVar("Found")
Parts = Sequence[Union[str, int]]
Keys = Mapping[str, Union[str, int]]

# Parts of paths are read as they stand, without percent signs; a zone's name may have `/` and `+`.
_PART = re.compile(r"[A-Za-z0-9._+/-]+")


@dataclass(frozen=True)
class Answer:
    """An answer of any status. `members` is None where the content is no JSON object by its kind
    and by its form; `date` is the field `Date`, which the office itself doesn't send and a proxy
    does."""

    status: int
    members: Optional[Members]
    content: bytes
    date: Optional[str]
    kind: str = "application/json"

    @property
    def word(self) -> str:
        """The word of `error`, or nothing."""
        return str((self.members or {}).get("error", ""))

    @property
    def passes(self) -> bool:
        """Whether the same request may be answered otherwise in a moment."""
        if self.status == 500:
            return self.word == "disk_fault"
        return self.status in (502, 503, 504)

    def told(self) -> Told:
        """The members of an answer of status 200. Raises a Refusal, or Foreign."""
        if self.status != 200:
            raise self.refusal()
        if self.members is None:
            raise Foreign(200, "the answer is no JSON object")
        return Told(self.members)

    def text(self, kind: str) -> str:
        """The text of an answer of status 200 that is of this kind."""
        if self.status != 200:
            raise self.refusal()
        if self.kind != kind:
            raise Foreign(200, f"the answer isn't of the kind {kind}")
        try:
            return self.content.decode("utf-8")
        except UnicodeDecodeError as fault:
            raise Foreign(200, "the answer is no text") from fault

    def refusal(self) -> OfficeError:
        """What an answer of another status than 200 says."""
        kind = KINDS.get(self.status)
        if kind is None or self.members is None or not self.word:
            return Foreign(self.status, "no answer of an office")
        return kind(self.status, self.members)


def answer_of(reply: Reply) -> Answer:
    """An answer as it came over the wire. Raises Silence where it may have been cut."""
    content = reply.whole()
    members = json_members(content) if reply.kind == "application/json" else None
    return Answer(reply.status, members, content, reply.date, reply.kind)


@dataclass(frozen=True)
class Question(Generic[Found]):
    """A query, and what is read of its answer: `read` raises a Refusal, or Foreign."""

    path: str
    read: Callable[[Answer], Found]


@dataclass(frozen=True)
class Outcome(Generic[Found]):
    """What a question came to: what was found, or the refusal."""

    found: Optional[Found] = None
    fault: Optional[OfficeError] = None

    def get(self) -> Found:
        """What was found. Raises the refusal, or Foreign."""
        if self.fault is not None:
            raise self.fault
        assert self.found is not None or self.fault is None
        return self.found  # type: ignore[return-value]


def outcome_of(question: Question[Found], answer: Answer) -> Outcome[Found]:
    try:
        return Outcome(question.read(answer))
    except (Refusal, Foreign) as fault:
        return Outcome(fault=fault)


def path_of(parts: Parts, keys: Optional[Keys] = None) -> str:
    """`/part/part?key=value`. Raises ValueError where something can't stand there."""
    for text in [*parts, *(keys or {}).values()]:
        if _PART.fullmatch(str(text)) is None:
            raise ValueError(f"{text!r} can't stand in a request to the office")
    path = "".join(f"/{part}" for part in parts)
    if keys:
        path += "?" + "&".join(f"{key}={value}" for key, value in keys.items())
    return path


def objects() -> Question[tuple[int, list[ObjectName]]]:
    """How many entries the history has, and the kinds and names of all objects."""
    return Question("/objects", lambda answer: _objects(answer.told()))


def object_text(kind: str, name: str) -> Question[str]:
    """The document of an object, in the office's writing of YAML."""
    path = path_of(["objects", kind, name])
    return Question(path, lambda answer: answer.text("application/yaml"))


def row(sli: str, source: str, minute: int) -> Question[Optional[KeptRow]]:
    """The current row of a cell, None where it has none."""
    path = path_of(["samples", sli, source, minute])
    return Question(path, lambda answer: _row(answer.told()))


def notices() -> Question[list[Notice]]:
    """The first 1,000 notices that wait."""
    return Question("/notices", lambda answer: answer.told().each("notices", _notice))


def budgets(slo: str, at: Optional[int] = None) -> Question[Budgets]:
    """The budget of each objective, at the moment or at a minute."""
    path = path_of(["budgets", slo], _at(at))
    return Question(path, lambda answer: _budgets(answer.told()))


def burn(slo: str, objective: int, lookback: str, at: Optional[int] = None) -> Question[Burn]:
    """The burn rate over a lookback as `1h`."""
    path = path_of(["burns", slo, objective], {"lookback": lookback, **_at(at)})
    return Question(path, lambda answer: _burn(answer.told()))


def alerts(slo: str, objective: int, policy: str, begin: int, end: int) -> Question[Alerts]:
    """When an alert was active in [begin, end), and its state at the moment."""
    path = path_of(["alerts", slo, objective, policy], {"from": begin, "to": end})
    return Question(path, lambda answer: _alerts(answer.told()))


def status() -> Question[Members]:
    """How full the office is: numbers, texts, and pairs of a count and its limit."""
    return Question("/status", lambda answer: _status(answer.told()))


def sums(
    slo: str, objective: int, begin: int, end: int, step: int
) -> Question[list[tuple[int, int]]]:
    """The sums of each step of [begin, end)."""
    keys = {"from": begin, "to": end, "step": step}
    path = path_of(["sums", slo, objective], keys)
    return Question(path, lambda answer: answer.told().pairs("sums"))


def exclusions() -> Question[list[Members]]:
    """All exclusions, lifted ones too."""
    return Question("/exclusions", lambda answer: answer.told().each("exclusions", _exclusion))


def zones() -> Question[list[str]]:
    """The names of the zones that were put."""
    return Question("/zones", lambda answer: answer.told().texts("zones"))


def _at(minute: Optional[int]) -> dict[str, Union[str, int]]:
    return {} if minute is None else {"at": minute}


def _objects(told: Told) -> tuple[int, list[ObjectName]]:
    names = told.each("objects", lambda each: ObjectName(each.text("kind"), each.text("name")))
    return told.number("entries"), names


def _row(told: Told) -> Optional[KeptRow]:
    if told.members.get("row", "") is None:
        return None
    kept = Told(told.members.get("row"), "`row`")
    amount = kept.members.get("amount", "")
    if amount is None:
        return KeptRow(kept.number("revision"), None, kept.number_or_none("total"))
    text = str(kept.number("amount")) if is_number(amount) else kept.text("amount")
    return KeptRow(kept.number("revision"), text, kept.number_or_none("total"))


def _notice(told: Told) -> Notice:
    return Notice(
        told.number("number"),
        told.number("at"),
        told.text("slo"),
        told.number("objective"),
        told.text("policy"),
        told.text("state"),
    )


def _budgets(told: Told) -> Budgets:
    return Budgets(told.number("at"), told.number("entries"), told.each("budgets", budget_of))


def _burn(told: Told) -> Burn:
    return Burn(
        told.number("at"),
        told.number("entries"),
        told.number("num"),
        told.number("den"),
        told.fraction_or_none("burn"),
    )


def _alerts(told: Told) -> Alerts:
    return Alerts(told.number("entries"), told.pairs("intervals"), told.text("state"))


def _status(told: Told) -> Members:
    for name in ("at", "entries", "origin"):
        told.number(name)
    known: dict[str, Any] = dict(told.members)
    return {
        name: value
        for name, value in known.items()
        if value is None or isinstance(value, str) or is_number(value) or is_pair(value)
    }


def _exclusion(told: Told) -> Members:
    begin, end = told.number("from"), told.number("to")
    names = {name: told.text(name) for name in ("id", "slo")}
    return {"from": begin, "to": end, "live": told.truth("live"), **names}
