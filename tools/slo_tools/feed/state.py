"""What the feed remembers. It may be lost at any time: the office and the engine have it all."""

from __future__ import annotations

import json
import math
from collections.abc import Mapping
from dataclasses import dataclass, field
from pathlib import Path
from typing import Any, Optional

from slo_tools.clock import MINUTES_END
from slo_tools.feed.cells import Amount, Cell
from slo_tools.feed.revisions import MOST_REVISION, Kept
from slo_tools.whole_file import write_whole

# The first form, up to 1.5.6, has no ways and no witnesses.
VERSIONS = (1, 2)
MOST_BYTES = 256 * 1024 * 1024
_MOST = 2**53


@dataclass(frozen=True)
class Way:
    """How the rows of an SLI are made: by a label or summed under a name, so many minutes a row,
    from a minute on."""

    label: Optional[str]
    name: str
    every: int
    since: int = 0


@dataclass(frozen=True)
class Witness:
    """A row that the office acknowledged at a minute, and the SLIs that weren't read so far by
    then, each with its newest minute."""

    at: int
    cell: Cell
    kept: Kept
    behind: dict[str, int] = field(default_factory=dict, hash=False)


@dataclass
class State:
    """Rows that the office holds, as far as they are read again; up to which minute each SLI was
    read, and had a row; where an engine's late events were last looked for."""

    kept: dict[Cell, Kept] = field(default_factory=dict)
    through: dict[str, int] = field(default_factory=dict)
    marks: dict[str, float] = field(default_factory=dict)
    entries: int = 0
    origin: Optional[int] = None
    made: int = 0
    accepted: int = 0
    ways: dict[str, Way] = field(default_factory=dict)
    rows: dict[str, int] = field(default_factory=dict)
    witnesses: list[Witness] = field(default_factory=list)
    # The first minute of what was ever read.
    began: Optional[int] = None


def read_state(path: Path) -> tuple[State, Optional[str]]:
    """The state of a file, and why there is none where it can't be used."""
    try:
        with path.open("rb") as file:
            content = file.read(MOST_BYTES + 1)
        if len(content) > MOST_BYTES:
            return State(), f"{path}: too large"
        told = json.loads(content)
        if not isinstance(told, dict) or told.get("version") not in VERSIONS:
            return State(), f"{path}: of another version"
        return _state(told), None
    except FileNotFoundError:
        return State(), f"{path}: not there"
    except OSError as fault:
        return State(), f"{path}: {fault.strerror}"
    except (ValueError, KeyError, TypeError, AttributeError, RecursionError, MemoryError):
        return State(), f"{path}: damaged"


def write_state(path: Path, state: State) -> None:
    """Keep a state in a file. Raises OSError."""
    write_whole(path, json.dumps(_told(state), separators=(",", ":")))


def _told(state: State) -> Mapping[str, Any]:
    cells: dict[str, dict[str, dict[str, list[Any]]]] = {}
    for cell, row in state.kept.items():
        minutes = cells.setdefault(cell.sli, {}).setdefault(cell.source, {})
        minutes[str(cell.minute)] = [row.revision, row.amount.amount, row.amount.total]
    return {
        "version": VERSIONS[-1],
        "cells": cells,
        "through": state.through,
        "marks": state.marks,
        "entries": state.entries,
        "origin": state.origin,
        "made": state.made,
        "accepted": state.accepted,
        "ways": {sli: [w.label, w.name, w.every, w.since] for sli, w in state.ways.items()},
        "rows": state.rows,
        "began": state.began,
        "witnesses": [_told_witness(witness) for witness in state.witnesses],
    }


def _told_witness(witness: Witness) -> list[Any]:
    cell, kept = witness.cell, witness.kept
    row = [kept.revision, kept.amount.amount, kept.amount.total]
    return [witness.at, cell.sli, cell.source, cell.minute, row, witness.behind]


def _state(told: Mapping[str, Any]) -> State:
    kept = {}
    for sli, sources in told["cells"].items():
        for source, minutes in sources.items():
            for minute, row in minutes.items():
                kept[Cell(sli, source, _minute(int(minute[:12])))] = _kept(row)
    origin, began = told["origin"], told.get("began")
    return State(
        kept,
        _minutes(told["through"]),
        {engine: _mark(mark) for engine, mark in told["marks"].items()},
        _whole(told["entries"]),
        None if origin is None else _minute(origin),
        _whole(told["made"]),
        _whole(told["accepted"]),
        {sli: _way(way) for sli, way in told.get("ways", {}).items()},
        _minutes(told.get("rows", {})),
        [_witness(each) for each in told.get("witnesses", [])],
        None if began is None else _minute(began),
    )


def _whole(value: Any, least: int = 0, end: int = _MOST) -> int:
    if isinstance(value, bool) or not isinstance(value, int) or not least <= value < end:
        raise ValueError("no number")
    return value


def _minute(value: Any) -> int:
    return _whole(value, 0, MINUTES_END)


def _minutes(told: Mapping[str, Any]) -> dict[str, int]:
    return {sli: _minute(minute) for sli, minute in told.items()}


def _mark(value: Any) -> float:
    mark = float(value)
    if not math.isfinite(mark):
        raise ValueError("no moment")
    return mark


def _text(value: Any) -> str:
    if not isinstance(value, str):
        raise ValueError("no text")
    return value


def _kept(told: Any) -> Kept:
    revision, amount, total = told
    whole = None if total is None else _whole(total)
    return Kept(_whole(revision, 0, MOST_REVISION + 1), Amount(_text(amount), whole))


def _way(told: Any) -> Way:
    label, name, every, since = told
    named = None if label is None else _text(label)
    return Way(named, _text(name), _whole(every, 1, 61), _minute(since))


def _witness(told: Any) -> Witness:
    at, sli, source, minute, row, behind = told
    cell = Cell(_text(sli), _text(source), _minute(minute))
    return Witness(_minute(at), cell, _kept(row), _minutes(behind))
