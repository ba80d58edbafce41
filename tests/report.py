"""What a group of tests tells as it runs: cases that passed, failed or were left out."""
from __future__ import annotations

import traceback
from collections.abc import Callable, Iterator, Sequence
from concurrent.futures import ThreadPoolExecutor
from contextlib import contextmanager
from dataclasses import dataclass, field
from pathlib import Path


class Skipped(Exception):
    """Why a case can't be tried here."""


@dataclass
class Report:
    """The cases of one group, tried on a program in a folder of the group's own, in short or whole."""

    program: Path
    room: Path
    whole: bool = False
    passed: list[str] = field(default_factory=list)
    failed: list[tuple[str, str]] = field(default_factory=list)
    skipped: list[tuple[str, str]] = field(default_factory=list)

    @contextmanager
    def case(self, name: str) -> Iterator[None]:
        """A case passes where its body ends, and fails with what it raises."""
        try:
            yield
        except Skipped as why:
            self.skipped.append((name, str(why)))
        except AssertionError as why:
            self.failed.append((name, str(why) or traceback.format_exc(limit=-1)))
        except Exception:
            self.failed.append((name, traceback.format_exc(limit=-3)))
        else:
            self.passed.append(name)

    def folder(self, name: str) -> Path:
        """A new folder in the group's room."""
        path = self.room / name
        path.mkdir(parents=True)
        return path

    def side_by_side(self, parts: Sequence[Callable[[], None]], at_once: int) -> None:
        """Parts that mostly wait, each with a program of its own, at the same time."""
        with ThreadPoolExecutor(at_once) as pool:
            for it in [pool.submit(part) for part in parts]:
                it.result()
