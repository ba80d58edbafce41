"""A client of the office's interface (docs/api.md).

Each answer of status 200 is returned, each refusal is raised as an exception of its own kind
with the members that the office gave. What may pass by itself is tried again with growing pauses:
no answer, 500 `disk_fault`, 503 `no_memory`, and a proxy's 502, 503 and 504. That is safe for every
change but a tick, since a change that was kept and is sent again acts once.

    office = Office("http://127.0.0.1:8080")
    office.define(Path("shop.yaml").read_bytes())      # Defined(applied=5, entry=0)
    office.post_samples([SampleRow("shop-good", "web", 29000000, 1, "9990", 10000)])
    office.budgets("shop-slo").budgets[0].remaining    # Fraction(1, 2)
"""

from __future__ import annotations

import re
import time
from collections.abc import Callable, Iterator, Sequence
from contextlib import contextmanager
from dataclasses import dataclass, field
from typing import Optional, TypeVar

from slo_tools import questions
from slo_tools.answers import (
    Alerts,
    Batch,
    Budgets,
    Burn,
    Defined,
    KeptRow,
    Notice,
    ObjectName,
    SampleRow,
    Ticked,
)
from slo_tools.clock import MINUTES_END
from slo_tools.questions import Answer, Keys, Outcome, Parts, Question, answer_of, path_of
from slo_tools.refusals import Foreign, Members, NoAnswer, NotFound, Refusal
from slo_tools.told import Told
from slo_tools.wire import Address, Link, Peer, Silence, TooLong, Verify, address_of

Found = TypeVar("Found")

ROWS_OF_A_BATCH = 1_000
BODY_BYTES = 1_048_576
# The cells, and the new and newer rows, that an office has room for, and an upgraded one.
CELLS, ACCEPTED = 2_000_000, 4_000_000
UPGRADED_CELLS, UPGRADED_ACCEPTED = 4_000_000, 8_000_000

# A link is closed behind so many answers.
ANSWERS_OF_A_LINK = 1_000
# What a question that is asked together with others adds to the time that their answers may take:
# ten times what the slowest of them takes, a timeline of a month.
SECONDS_OF_A_QUESTION = 0.02

_LABEL = re.compile(r"[A-Za-z0-9._-]{1,63}")


def is_label(text: str) -> bool:
    """Whether the office takes this as a source, an SLI's name or an exclusion's id."""
    return _LABEL.fullmatch(text) is not None


@dataclass(frozen=True)
class Pauses:
    """How often something is tried, and how long the pauses between the tries grow."""

    tries: int = 6
    first: float = 0.5
    factor: float = 2.0
    longest: float = 30.0

    def lengths(self) -> Iterator[float]:
        """The pauses in seconds, one less than there are tries."""
        length = self.first
        for _ in range(self.tries - 1):
            yield min(length, self.longest)
            length *= self.factor


@dataclass
class Office:
    """An office at an address as `http://127.0.0.1:8080`, or behind a proxy with a password.

    `timeout` is the whole time of an answer in seconds; `verify` is True, False or the file of a
    certificate; `heard` is told of each try that failed and of the pause in seconds before the
    next one. ValueError is raised for what is no address.
    """

    address: str
    timeout: float = 30.0
    pauses: Pauses = Pauses()
    credentials: Optional[tuple[str, str]] = None
    verify: Verify = True
    sleep: Callable[[float], None] = time.sleep
    heard: Optional[Callable[[str, float], None]] = None
    token: Optional[str] = None
    _peer: Peer = field(init=False, repr=False)
    _keeps: bool = field(default=False, init=False, repr=False)
    _link: Optional[Link] = field(default=None, init=False, repr=False)

    def __post_init__(self) -> None:
        address = office_address(self.address)
        self._peer = Peer(address, self.credentials, self.token, self.verify, self.timeout)

    def answered(self, status: int) -> None:
        """Called for each answer that came, with its status."""

    @contextmanager
    def kept_link(self) -> Iterator[None]:
        """Use one link for all requests inside. The office closes a link that waits for long, or
        for another one, so this is for requests that follow one another at once."""
        if self._keeps:
            yield
            return
        self._keeps = True
        try:
            yield
        finally:
            self._keeps = False
            self._close()

    def ask(
        self,
        method: str,
        parts: Parts,
        keys: Optional[Keys] = None,
        body: bytes = b"",
        pauses: Optional[Pauses] = None,
    ) -> Told:
        """The members of the answer of status 200 to a request at `/part/part?key=value`.

        Raises a Refusal, NoAnswer after the last try, or Foreign.
        """
        return self.answer(method, parts, keys, body, pauses).told()

    def answer(
        self,
        method: str,
        parts: Parts,
        keys: Optional[Keys] = None,
        body: bytes = b"",
        pauses: Optional[Pauses] = None,
    ) -> Answer:
        """The answer, whatever its status is, that doesn't pass by itself. Raises NoAnswer, or
        Foreign for an answer that is longer than any of an office."""
        return self._answer(method, path_of(parts, keys), body, pauses)

    def one(self, question: Question[Found]) -> Found:
        """What is found by a question. Raises a Refusal, NoAnswer after the last try, or Foreign."""
        return question.read(self._answer("GET", question.path, b"", None))

    def asked(self, asked: Sequence[Question[Found]]) -> list[Outcome[Found]]:
        """What many questions come to, in their order: they are written one behind another on one
        link, at most 1,000 at a time. Where the link ends early, those that weren't answered are
        asked again. Raises NoAnswer after the last try without an answer, or Foreign."""
        found: list[Outcome[Found]] = []
        for first in range(0, len(asked), ANSWERS_OF_A_LINK):
            together = asked[first : first + ANSWERS_OF_A_LINK]
            answers = self._together([question.path for question in together])
            found += map(questions.outcome_of, together, answers)
        return found

    def _answer(self, method: str, path: str, body: bytes, pauses: Optional[Pauses]) -> Answer:
        why = ""
        for pause in [*(pauses or self.pauses).lengths(), None]:
            try:
                answer = self._sent(method, path, body)
            except Silence as silence:
                why = self._why(silence)
            else:
                if not answer.passes:
                    return answer
                why = f"status {answer.status} {answer.word}".rstrip()
            self._pause(why, pause)
        raise self._no_answer(why)

    def _together(self, paths: Sequence[str]) -> list[Answer]:
        answers: dict[int, Answer] = {}
        lengths = self.pauses.lengths()
        while True:
            end = time.monotonic() + self.timeout + SECONDS_OF_A_QUESTION * len(paths)
            why = self._round_of(paths, answers, end)
            if len(answers) == len(paths):
                return [answers[number] for number in range(len(paths))]
            pause = next(lengths, None)
            self._pause(why, pause)
            if pause is None:
                raise self._no_answer(why)

    def _round_of(self, paths: Sequence[str], answers: dict[int, Answer], end: float) -> str:
        """Asks what isn't answered, again on each new link as long as that brings an answer; why
        the rest has none."""
        why = ""
        while left := [number for number in range(len(paths)) if number not in answers]:
            before = len(answers)
            try:
                why = self._on_a_link([(number, paths[number]) for number in left], answers, end)
            except Silence as silence:
                why = self._why(silence)
            if len(answers) == before:
                return why
        return why

    def _on_a_link(
        self, asked: Sequence[tuple[int, str]], answers: dict[int, Answer], end: float
    ) -> str:
        why = "no answer: the link was closed"
        link = self._new_link(end)
        try:
            requests = [self._peer.request("GET", path) for _, path in asked]
            for (number, _), reply in zip(asked, link.replies(requests, self._peer.most, end)):
                answer = answer_of(reply)
                self.answered(answer.status)
                if answer.passes:
                    why = f"status {answer.status} {answer.word}".rstrip()
                else:
                    answers[number] = answer
        finally:
            self._let_go(link)
        return why

    def _sent(self, method: str, path: str, body: bytes) -> Answer:
        end = time.monotonic() + self.timeout
        link = self._new_link(end)
        try:
            link.send(self._peer.request(method, path, body, is_last=not self._keeps), end)
            answer = answer_of(link.reply(method, self._peer.most, end))
        finally:
            self._let_go(link)
        self.answered(answer.status)
        return answer

    def _new_link(self, end: float) -> Link:
        kept, self._link = self._link, None
        if kept is not None:
            if kept.answers < ANSWERS_OF_A_LINK and kept.is_quiet():
                return kept
            kept.close()
        return Link(self._peer, end)

    def _let_go(self, link: Link) -> None:
        if self._keeps and not link.is_ended:
            self._link = link
        else:
            link.close()

    def _close(self) -> None:
        if self._link is not None:
            self._link.close()
            self._link = None

    def _pause(self, why: str, pause: Optional[float]) -> None:
        if pause is not None:
            if self.heard is not None:
                self.heard(why, pause)
            self.sleep(pause)

    def _why(self, silence: Silence) -> str:
        """Why there was no answer. Raises NoAnswer, or Foreign, where no other try helps."""
        if isinstance(silence, TooLong):
            raise Foreign(200, str(silence)) from silence
        if not silence.passes:
            raise self._no_answer(str(silence)) from silence
        return str(silence)

    def _no_answer(self, why: str) -> NoAnswer:
        return NoAnswer(f"{self._peer.address.place}: {why}")

    # Changes

    def define(self, documents: bytes) -> Defined:
        """Define the objects of a text of OpenSLO documents."""
        told = self.ask("POST", ["objects"], body=documents)
        return Defined(told.number("applied"), _entry(told))

    def remove(self, kind: str, name: str) -> Optional[int]:
        """Remove an object; its entry."""
        return _entry(self.ask("DELETE", ["objects", kind, name]))

    def keep_zone(self, name: str, content: bytes) -> Optional[int]:
        """Keep a time zone's file or rule; its entry."""
        return _entry(self.ask("PUT", ["zones", name], body=content))

    def post_samples(self, rows: Sequence[SampleRow]) -> Batch:
        """Send a batch of at most 1,000 rows."""
        if len(rows) > ROWS_OF_A_BATCH:
            raise ValueError(f"{len(rows)} rows are more than a batch has")
        body = "".join(row.line() + "\n" for row in rows).encode("ascii")
        told = self.ask("POST", ["samples"], body=body)
        counts = map(told.number, ("new", "newer", "repeated", "superseded"))
        return Batch(_entry(told), *counts)

    def upgrade(self) -> Optional[int]:
        """Let the office take withdrawn rows, and more of all rows; its entry."""
        return _entry(self.ask("POST", ["upgrade"]))

    def exclude(self, name: str, slo: str, begin: int, end: int) -> Optional[int]:
        """Exclude the minutes [begin, end) of an SLO under an id of its own; its entry."""
        body = f'{{"from":{begin},"slo":"{slo}","to":{end}}}'.encode("ascii")
        return _entry(self.ask("PUT", ["exclusions", name], body=body))

    def lift(self, name: str) -> Optional[int]:
        """Lift an exclusion; its entry."""
        return _entry(self.ask("DELETE", ["exclusions", name]))

    def tick(self) -> Ticked:
        """Judge all alerts. It is tried once, since a second tick is a change of its own."""
        told = self.ask("POST", ["tick"], pauses=Pauses(tries=1))
        return Ticked(_entry(told), told.number("notices"))

    def take(self, number: int) -> Optional[int]:
        """Take a notice; its entry, None where it was taken before."""
        return _entry(self.ask("POST", ["notices", number, "take"]))

    def is_upgraded(self, sli: str) -> bool:
        """Whether the office is upgraded. It is told by how a withdrawn row is refused whose minute
        is never over, so that no office takes it."""
        try:
            self.post_samples([SampleRow(sli, "upgraded", MINUTES_END - 1, 1, "")])
        except Refusal as refusal:
            return refusal.word == "open_minute"
        return False

    # Queries: questions.py says what each one answers.

    def objects(self) -> tuple[int, list[ObjectName]]:
        """How many entries the history has, and the kinds and names of all objects."""
        return self.one(questions.objects())

    def object_text(self, kind: str, name: str) -> str:
        """The document of an object, in the office's writing of YAML."""
        return self.one(questions.object_text(kind, name))

    def row(self, sli: str, source: str, minute: int) -> Optional[KeptRow]:
        """The current row of a cell, None where it has none.

        NotFound is raised for an unknown SLI, and by an office that hasn't this query.
        """
        return self.one(questions.row(sli, source, minute))

    def notices(self) -> list[Notice]:
        """The first 1,000 notices that wait."""
        return self.one(questions.notices())

    def budgets(self, slo: str, at: Optional[int] = None) -> Budgets:
        """The budget of each objective, at the moment or at a minute."""
        return self.one(questions.budgets(slo, at))

    def burn(self, slo: str, objective: int, lookback: str, at: Optional[int] = None) -> Burn:
        """The burn rate over a lookback as `1h`."""
        return self.one(questions.burn(slo, objective, lookback, at))

    def alerts(self, slo: str, objective: int, policy: str, begin: int, end: int) -> Alerts:
        """When an alert was active in [begin, end), and its state at the moment."""
        return self.one(questions.alerts(slo, objective, policy, begin, end))

    def status(self) -> Optional[Members]:
        """How full the office is, None for an office that hasn't this query."""
        try:
            return self.one(questions.status())
        except NotFound:
            return None

    def sums(
        self, slo: str, objective: int, begin: int, end: int, step: int
    ) -> list[tuple[int, int]]:
        """The sums of each step of [begin, end). NotFound where the office hasn't this query."""
        return self.one(questions.sums(slo, objective, begin, end, step))

    def exclusions(self) -> list[Members]:
        """All exclusions. BadRequest or NotFound where the office hasn't this query."""
        return self.one(questions.exclusions())

    def zones(self) -> list[str]:
        """The names of the zones that were put. BadRequest or NotFound as for exclusions."""
        return self.one(questions.zones())


def office_address(text: str) -> Address:
    """An office's address: all paths begin with its own. Raises ValueError."""
    try:
        address = address_of(text.rstrip("/"))
    except ValueError as fault:
        raise ValueError(f"the office's address {fault}") from None
    if "?" in address.path:
        raise ValueError("the office's address has a query (`?`), which no path can follow")
    return address


def _entry(told: Told) -> Optional[int]:
    return told.number_or_none("entry")
