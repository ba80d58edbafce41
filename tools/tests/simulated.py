"""A Prometheus and an office in memory, with faults: for many histories in little time."""

from __future__ import annotations

from collections.abc import Sequence
from dataclasses import dataclass, field
from functools import lru_cache
from typing import Optional

from slo_tools.answers import Batch, Budgets, KeptRow, ObjectName, SampleRow
from slo_tools.apply.profile import written
from slo_tools.feed.prometheus_client import Values
from slo_tools.refusals import Conflict, Members, NoAnswer, NotFound, Unprocessable
from slo_tools.yaml_reading import read_yaml


@dataclass
class HeldClock:
    """A clock that a test sets."""

    seconds: float

    def now(self) -> float:
        return self.seconds

    def sleep(self, seconds: float) -> None:
        self.seconds += seconds


Labels = frozenset[tuple[str, str]]


@dataclass
class Sample:
    """A sample of a series: when it was scraped, and when it can be read."""

    labels: Labels
    moment: float
    value: int
    shown: float


@dataclass
class SimulatedPrometheus:
    """Answers range selectors by one label matcher: `m` or `m{code="500"}`."""

    clock: HeldClock
    samples_held: list[Sample] = field(default_factory=list)

    def now(self) -> float:
        return self.clock.now()

    def scrape_timeout(self) -> Optional[float]:
        return 10.0

    def samples(self, selector: str, begin: float, end: float) -> list[Values]:
        wanted = 'code="500"' in selector
        now = self.clock.now()
        found: dict[Labels, list[tuple[float, str]]] = {}
        for sample in self.samples_held:
            if begin <= sample.moment <= end and sample.shown <= now:
                if not wanted or ("code", "500") in sample.labels:
                    found.setdefault(sample.labels, []).append((sample.moment, str(sample.value)))
        return [Values(labels, sorted(values)) for labels, values in found.items()]

    def values(self, query: str, begin: int, end: int, step: int) -> list[Values]:
        raise NotImplementedError


CELL = tuple[str, str, int]
# The amount of a withdrawn row, as a conflict tells it.
WITHDRAWN = "withdrawn"


@lru_cache(maxsize=4096)
def as_an_office_writes(text: str) -> str:
    """A document in the office's own writing."""
    return written(read_yaml(text).documents[0])


@dataclass
class SimulatedOffice:
    """The office's rule of rows, and answers that are lost before or after the batch was kept.

    `losses` says of each batch to come: None for an answer, False for a batch that isn't kept and
    True for one that is, both without an answer.
    """

    clock: HeldClock
    texts: dict[str, str] = field(default_factory=dict)
    origin: int = 0
    kept: dict[CELL, tuple[int, str]] = field(default_factory=dict)
    losses: list[Optional[bool]] = field(default_factory=list)
    has_rows_query: bool = False
    upgraded: bool = False
    entries: int = 1
    accepted: int = 0
    batches: int = 0
    again: int = 0

    def post_samples(self, rows: Sequence[SampleRow]) -> Batch:
        assert 0 < len(rows) <= 1000
        self.batches += 1
        loss = self.losses.pop() if self.losses else None
        if loss is False:
            raise NoAnswer("lost before")
        batch = self._judged(rows)
        if loss is True:
            raise NoAnswer("lost behind")
        return batch

    def _judged(self, rows: Sequence[SampleRow]) -> Batch:
        kept = dict(self.kept)
        counts = {"new": 0, "newer": 0, "repeated": 0, "superseded": 0}
        again = 0
        for number, row in enumerate(rows, 1):
            self._check(row, number)
            amount = row.amount if row.total is None else f"{row.amount},{row.total}"
            amount = amount or WITHDRAWN
            cell = (row.sli, row.source, row.minute)
            before = kept.get(cell)
            if before is None:
                counts["new"] += 1
                kept[cell] = (row.revision, amount)
            elif row.revision > before[0]:
                counts["newer"] += 1
                again += amount == before[1]
                kept[cell] = (row.revision, amount)
            elif row.revision < before[0]:
                counts["superseded"] += 1
            elif amount == before[1]:
                counts["repeated"] += 1
            else:
                told = {"error": "conflict", "amount": before[1], "revision": before[0]}
                raise Conflict(409, {**told, "row": number})
        entry = None
        if counts["new"] or counts["newer"]:
            entry, self.entries = self.entries, self.entries + 1
            self.accepted += counts["new"] + counts["newer"]
            self.again += again
            self.kept = kept
        return Batch(entry, **counts)

    def _check(self, row: SampleRow, number: int) -> None:
        moment = int(self.clock.now() // 60)
        if f"SLI/{row.sli}" not in self.texts:
            raise Unprocessable(422, {"error": "unknown_sli", "name": row.sli, "row": number})
        if not row.amount and not self.upgraded:
            raise Unprocessable(422, {"error": "version", "row": number})
        if row.minute < self.origin:
            told: Members = {"error": "early", "minute": row.minute, "origin": self.origin}
            raise Unprocessable(422, {**told, "row": number})
        if row.minute >= moment:
            told = {"error": "open_minute", "minute": row.minute, "moment": moment}
            raise Unprocessable(422, {**told, "row": number})

    def row(self, sli: str, source: str, minute: int) -> Optional[KeptRow]:
        if not self.has_rows_query:
            raise NotFound(404, {"error": "not_found"})
        before = self.kept.get((sli, source, minute))
        if before is None:
            return None
        if before[1] == WITHDRAWN:
            return KeptRow(before[0], None, None)
        amount, _, total = before[1].partition(",")
        return KeptRow(before[0], amount, int(total))

    def is_upgraded(self, sli: str) -> bool:
        return self.upgraded

    def status(self) -> Optional[Members]:
        if not self.has_rows_query:
            return None
        limits = (4_000_000, 8_000_000) if self.upgraded else (2_000_000, 4_000_000)
        return {"cells": [len(self.kept), limits[0]], "accepted": [self.accepted, limits[1]]}

    def objects(self) -> tuple[int, list[ObjectName]]:
        names = [ObjectName(*key.split("/")) for key in self.texts]
        return self.entries, names

    def object_text(self, kind: str, name: str) -> str:
        return as_an_office_writes(self.texts[f"{kind}/{name}"])

    def budgets(self, slo: str) -> Budgets:
        return Budgets(int(self.clock.now() // 60), self.entries, [])

    def kept_link(self) -> "SimulatedOffice":
        return self

    def __enter__(self) -> None:
        return None

    def __exit__(self, *_: object) -> None:
        return None
