"""What `slo-notify` remembers between its runs, in a file that is written whole or not at all."""

from __future__ import annotations

import json
from collections.abc import Mapping
from dataclasses import dataclass, field
from pathlib import Path
from threading import Lock
from typing import Any, NamedTuple, Optional

from slo_tools.notify.deciding import Binding
from slo_tools.notify.staleness import Stop
from slo_tools.whole_file import write_whole

VERSION = 1


@dataclass
class OpenAlert:
    """An alert that the receiver was told of and that hasn't ended; `state` is that of the notice
    by which it was told last."""

    labels: dict[str, str]
    annotations: dict[str, str]
    since: int
    link: str
    state: str = ""


class Mark(NamedTuple):
    """A notice by its number and its minute: another office has other minutes."""

    number: int
    at: int


@dataclass
class OfficeState:
    """The open alerts of an office, the indicators that have had rows with their newest minutes,
    those whose rows ended, up to which entry all is known, since when it is away, and the notices
    that need no more telling and weren't taken yet."""

    opened: dict[Binding, OpenAlert] = field(default_factory=dict)
    own: dict[str, OpenAlert] = field(default_factory=dict)
    seen: set[str] = field(default_factory=set)
    told: set[Mark] = field(default_factory=set)
    is_known: bool = False
    newest: dict[str, int] = field(default_factory=dict)
    position: Optional[int] = None
    stops: dict[str, Stop] = field(default_factory=dict)
    away_since: Optional[int] = None


class BadState(Exception):
    """The file has another form."""


def read_state(path: Path) -> dict[str, OfficeState]:
    """The states by office; nothing where there is no file."""
    try:
        told = json.loads(path.read_text(encoding="utf-8"))
    except FileNotFoundError:
        return {}
    except RecursionError as fault:
        raise BadState(f"{path}: nested too deep for a state: move it away") from fault
    except ValueError as fault:
        raise BadState(f"{path}: {fault}: move it away") from fault
    try:
        if told["version"] != VERSION:
            raise BadState(f"{path}: version {told['version']}: of another slo-notify")
        return {name: _read_office(entry) for name, entry in told["offices"].items()}
    except (LookupError, TypeError, ValueError, AttributeError) as fault:
        raise BadState(f"{path}: another form: {fault}: move it away") from fault


class StateFile:
    """The file, written where what it has to say is another. Each office notes its own part."""

    def __init__(self, path: Path) -> None:
        self.path = path
        self.fault: Optional[str] = None
        self._offices: dict[str, Any] = {}
        self._lock = Lock()
        self._written = ""

    def note(self, name: str, state: OfficeState) -> None:
        """Takes over what an office is to be remembered by."""
        spelled = _spelled_office(state)
        with self._lock:
            self._offices[name] = spelled

    def write(self) -> bool:
        """Writes what was noted; whether the file has it. Where it hasn't, `fault` says why."""
        with self._lock:
            told = {"offices": self._offices, "version": VERSION}
            text = json.dumps(told, indent=1, sort_keys=True)
            if text != self._written:
                try:
                    write_whole(self.path, text)
                except OSError as fault:
                    why = fault.strerror or type(fault).__name__
                    self.fault = f"{self.path}: {why}: make room; notices aren't taken until then"
                    return False
                self._written = text
            self.fault = None
            return True


def _read_office(told: Mapping[str, Any]) -> OfficeState:
    opened = {
        Binding(_text(entry["slo"]), _number(entry["objective"]), _text(entry["policy"])): (
            _read_alert(entry)
        )
        for entry in told["opened"]
    }
    away = told.get("away_since")
    position = told.get("position")
    return OfficeState(
        opened,
        {key: _read_alert(entry) for key, entry in told["own"].items()},
        {_text(name) for name in told["seen"]},
        {Mark(_number(number), _number(at)) for number, at in told.get("told", [])},
        True,
        {name: _number(minute) for name, minute in told.get("newest", {}).items()},
        None if position is None else _number(position),
        {label: _read_stop(entry) for label, entry in told.get("stops", {}).items()},
        None if away is None else _number(away),
    )


def _read_alert(told: Mapping[str, Any]) -> OpenAlert:
    return OpenAlert(
        _texts(told["labels"]),
        _texts(told["annotations"]),
        _number(told["since"]),
        _text(told["link"]),
        # Files of 1.5 have it among what was told.
        _text(told.get("state", told["annotations"].get("state", ""))),
    )


def _read_stop(told: Mapping[str, Any]) -> Stop:
    return Stop(tuple(_text(name) for name in told["members"]), _number(told["newest"]))


def _text(value: Any) -> str:
    if not isinstance(value, str):
        raise TypeError(f"{value!r:.60} is no text")
    return value


def _number(value: Any) -> int:
    if not isinstance(value, int) or isinstance(value, bool) or value < 0:
        raise TypeError(f"{value!r:.60} is no number")
    return value


def _texts(value: Any) -> dict[str, str]:
    return {_text(name): _text(text) for name, text in value.items()}


def _spelled_office(state: OfficeState) -> dict[str, Any]:
    return {
        "away_since": state.away_since,
        "newest": dict(state.newest),
        "opened": [
            {**binding._asdict(), **_spelled_alert(alert)}
            for binding, alert in sorted(state.opened.items())
        ],
        "own": {key: _spelled_alert(alert) for key, alert in state.own.items()},
        "position": state.position,
        "seen": sorted(state.seen),
        "stops": {
            label: {"members": list(stop.members), "newest": stop.newest}
            for label, stop in state.stops.items()
        },
        "told": sorted(state.told),
    }


def _spelled_alert(alert: OpenAlert) -> dict[str, Any]:
    return {
        "annotations": dict(alert.annotations),
        "labels": dict(alert.labels),
        "link": alert.link,
        "since": alert.since,
        "state": alert.state,
    }
