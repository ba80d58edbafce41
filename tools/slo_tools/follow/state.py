"""What is remembered of a copy, in a small file beside it that a monitor may watch."""

from __future__ import annotations

import json
from dataclasses import asdict, dataclass
from pathlib import Path
from typing import Any, Optional

from slo_tools.whole_file import write_whole

FILE = "follow.json"


@dataclass
class State:
    """How many entries the copy had on the disk; the seconds since 1970 of the last time when it
    had all that the office had, and when the last comparison of all entries ended; why it isn't
    followed any more, where it diverged."""

    entries: int = 0
    all_came: Optional[int] = None
    compared: Optional[int] = None
    diverged: Optional[str] = None


def read_state(path: Path) -> tuple[State, Optional[str]]:
    """The state of a file, and why there is none where it can't be used."""
    try:
        return _state(json.loads(path.read_bytes())), None
    except FileNotFoundError:
        return State(), None
    except OSError as fault:
        return State(), f"{path}: {fault.strerror}"
    except (ValueError, KeyError, TypeError, RecursionError):
        return State(), f"{path}: damaged"


def write_state(path: Path, state: State) -> None:
    """Keep a state in a file. Raises OSError."""
    write_whole(path, json.dumps(asdict(state), sort_keys=True) + "\n", 0o644)


def _state(told: Any) -> State:
    diverged = told["diverged"]
    if diverged is not None and not isinstance(diverged, str):
        raise TypeError
    return State(
        int(told["entries"]), _second(told["all_came"]), _second(told["compared"]), diverged
    )


def _second(value: Any) -> Optional[int]:
    return None if value is None else int(value)
