"""What each entry of a journal changed, and what an office has after all of them.

Entries were judged before they were kept, so nothing is judged here again: rows of a cell are
told apart by their revisions, and objects are listed by name.
"""

from __future__ import annotations

from collections import Counter
from dataclasses import dataclass, field
from typing import Optional

from slo_tools.clock import DAY, date_of
from slo_tools.journal.records import (
    Command,
    Define,
    Entry,
    Exclude,
    Lift,
    PutZone,
    Remove,
    Row,
    Samples,
    Take,
    Tick,
    Upgrade,
)
from slo_tools.nodes import Fields, Items, node_at, text_at
from slo_tools.openslo import BUILT_IN_POLICIES, Found, objects_in, references_of
from slo_tools.yaml_reading import read_yaml

# What an office has room for (docs/rules.md).
LIMITS = {
    "accepted": 4_000_000,
    "bindings": 400,
    "bytes": 268_435_456,
    "cells": 2_000_000,
    "days": 80_000,
    "entries": 30_000_000,
    "exclusions": 2_000,
    "objects": 2_000,
    "slis": 200,
    "slos": 200,
    "zones": 50,
}
# And once it was upgraded.
UPGRADED_LIMITS = {**LIMITS, "accepted": 8_000_000, "cells": 4_000_000}


@dataclass(frozen=True)
class Change:
    """What an entry did: a word for its kind, and a line for people."""

    word: str
    text: str


@dataclass
class _Cells:
    """The revision of each cell's row, by a number for the cell."""

    sources: dict[tuple[str, str], int] = field(default_factory=dict)
    revisions: dict[int, int] = field(default_factory=dict)
    days: dict[str, set[int]] = field(default_factory=dict)
    accepted: int = 0

    def take(self, row: Row) -> str:
        """Takes a row in, and says what became of it."""
        number = self.sources.setdefault((row.sli, row.source), len(self.sources))
        cell = number << 26 | row.minute
        kept = self.revisions.get(cell)
        if kept is not None and row.revision <= kept:
            return "repeated" if row.revision == kept else "superseded"
        self.revisions[cell] = row.revision
        self.accepted += 1
        if kept is not None:
            return "newer"
        self.days.setdefault(row.sli, set()).add(row.minute // DAY)
        return "new"


class History:
    """An office as its entries leave it, one after another."""

    def __init__(self) -> None:
        self.entries = 0
        self.objects: dict[tuple[str, str], Found] = {}
        self.zones: set[str] = set()
        self.live: dict[str, Exclude] = {}
        self.exclusions = 0
        self.ticks = 0
        self.is_upgraded = False
        self.unread: list[int] = []
        self._cells = _Cells()

    def take(self, entry: Entry) -> Change:
        """Takes the next entry in, and says what it changed."""
        change = self._change(entry.command)
        self.entries += 1
        return change

    def limits(self) -> dict[str, int]:
        """What the office has room for."""
        return UPGRADED_LIMITS if self.is_upgraded else LIMITS

    def usage(self, tail: int) -> dict[str, int]:
        """How much of each limit is used, for a journal whose closed gate stands at `tail`."""
        slos = self._of_kind("SLO")
        return {
            "accepted": self._cells.accepted,
            "bindings": sum(_objectives(slo) * self._conditions(slo) for slo in slos),
            "bytes": tail,
            "cells": len(self._cells.revisions),
            "days": sum(_objectives(slo) * self._days(slo) for slo in slos),
            "entries": self.entries,
            "exclusions": self.exclusions,
            "objects": len(self.objects),
            "slis": len(self._of_kind("SLI")),
            "slos": len(slos),
            "zones": len(self.zones),
        }

    def _change(self, command: Command) -> Change:
        if isinstance(command, Samples):
            return self._samples(command.rows)
        if isinstance(command, Define):
            return self._define(command.text)
        if isinstance(command, Remove):
            self.objects.pop((command.kind, command.name), None)
            return Change("remove", f"{command.kind} {command.name}")
        if isinstance(command, PutZone):
            self.zones.add(command.name)
            return Change("zone", f"{command.name}, {len(command.content)} bytes")
        if isinstance(command, Exclude):
            self.exclusions += 1
            self.live[command.id] = command
            return Change("exclude", f"{command.id}: {_exclusion(command)}")
        if isinstance(command, Lift):
            lifted = self.live.pop(command.id, None)
            what = "" if lifted is None else f": {_exclusion(lifted)}"
            return Change("lift", command.id + what)
        if isinstance(command, Take):
            return Change("take", f"notice {command.number}")
        if isinstance(command, Upgrade):
            self.is_upgraded = True
            return Change("upgrade", "")
        assert isinstance(command, Tick)
        self.ticks += 1
        return Change("tick", "")

    def _samples(self, rows: list[Row]) -> Change:
        became = Counter(self._cells.take(row) for row in rows)
        counts = ", ".join(
            f"{became[word]} {word}"
            for word in ("new", "newer", "repeated", "superseded")
            if became[word]
        )
        slis = sorted({row.sli for row in rows})
        named = ", ".join(slis[:4]) + (f" and {len(slis) - 4} more" if len(slis) > 4 else "")
        minutes = [row.minute for row in rows]
        span = date_of(min(minutes))
        if max(minutes) > min(minutes):
            span += f" to {date_of(max(minutes))}"
        return Change("samples", f"{named}: {counts}; {span}")

    def _define(self, text: bytes) -> Change:
        reading = read_yaml(text.decode("utf-8", "replace"))
        found = [each for document in reading.documents for each in objects_in(document)]
        if reading.faults:
            # The office's profile takes some texts that YAML doesn't; they are rare.
            self.unread.append(self.entries)
        told = []
        for each in found:
            key = (each.kind, each.name)
            told.append(("" if key not in self.objects else "again ") + f"{each.kind} {each.name}")
            self.objects[key] = each
        return Change("define", ", ".join(told) or f"{len(text)} bytes that couldn't be read here")

    def _of_kind(self, kind: str) -> list[Found]:
        return [found for key, found in self.objects.items() if key[0] == kind]

    def _days(self, slo: Found) -> int:
        indicator = text_at(slo.node, "spec", "indicatorRef")
        inline = text_at(slo.node, "spec", "indicator", "metadata", "name")
        return len(self._cells.days.get(indicator or inline or "", ()))

    def _conditions(self, slo: Found) -> int:
        named = [r.name for r in references_of(slo) if r.kind == "AlertPolicy"]
        inline = node_at(slo.node, "spec", "alertPolicies")
        if isinstance(inline, Items):
            named += [
                name
                for item in inline.items
                if isinstance(item, Fields) and (name := text_at(item, "metadata", "name"))
            ]
        return sum(self._has_condition(name) for name in named)

    def _has_condition(self, policy: str) -> bool:
        if policy in BUILT_IN_POLICIES:
            return True
        found = self.objects.get(("AlertPolicy", policy))
        conditions = None if found is None else node_at(found.node, "spec", "conditions")
        return isinstance(conditions, Items) and bool(conditions.items)


def _objectives(slo: Found) -> int:
    objectives = node_at(slo.node, "spec", "objectives")
    return len(objectives.items) if isinstance(objectives, Items) else 0


def _exclusion(value: Exclude) -> str:
    return f"{value.slo} from {date_of(value.start)} to {date_of(value.end)}"


def changes_of(entries: list[Entry], history: Optional[History] = None) -> list[Change]:
    """What each of some entries changed, from an empty office on."""
    office = History() if history is None else history
    return [office.take(entry) for entry in entries]
