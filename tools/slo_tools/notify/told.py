"""Lines for people."""

from __future__ import annotations

from collections.abc import Callable
from dataclasses import dataclass, field
from threading import Lock


@dataclass
class Told:
    """Each matter's line once, until it is another."""

    print: Callable[[str], None]
    last: dict[str, str] = field(default_factory=dict)
    _lock: Lock = field(default_factory=Lock, init=False, repr=False)

    def say(self, matter: str, line: str) -> None:
        with self._lock:
            if self.last.get(matter, "") != line:
                self.last[matter] = line
                self.print(f"{matter}: {line}" if line else f"{matter}: well again")
