"""The office's program over the copy: it makes the journal, and takes feeds as they come."""

from __future__ import annotations

import os
import shutil
import subprocess
import time
from collections.abc import Callable
from pathlib import Path
from typing import NoReturn, Optional

from slo_tools.follow.comparing import Diverged
from slo_tools.follow.copy_file import CopyFile, Damaged
from slo_tools.follow.feeds import Feed

JOURNAL = "office.journal"
# What one run of `slo_office follow` takes.
MOST_FEEDS_BYTES = 536_870_912
# The statuses of `slo_office` that say more than that it failed.
_DAMAGED, _DISK, _RULE = 3, 4, 9
_FIRST_PAUSE, _LONGEST_PAUSE = 0.002, 0.1


class CopyFault(Exception):
    """The copy can't take entries now; the text says why."""


class NotTaken(Exception):
    """An entry that the copy's program refuses, though all before it is alike."""


def make_copy(program: str, folder: Path, origin: int) -> None:
    """Make the journal of an office of this origin. It is made beside its place, so that a stop
    leaves it whole or leaves none. Raises CopyFault, and OSError."""
    made = folder / "made"
    shutil.rmtree(made, ignore_errors=True)
    made.mkdir()
    ended = subprocess.run(
        [program, "init", str(origin)], cwd=made, capture_output=True, text=True, check=False
    )
    if ended.returncode != 0:
        raise CopyFault(_said(ended.stderr, ended.returncode))
    os.replace(made / JOURNAL, folder / JOURNAL)
    made.rmdir()
    place = os.open(folder, os.O_RDONLY | os.O_DIRECTORY)
    try:
        os.fsync(place)
    finally:
        os.close(place)


class Follower:
    """One `slo_office follow`, which stays and applies each feed as it comes. It opens the journal
    once, and while it is there nothing else can change the copy."""

    def __init__(
        self, program: str, folder: Path, sleep: Callable[[float], None] = time.sleep
    ) -> None:
        self._words = [program, "follow"]
        self._folder = folder
        self._sleep = sleep
        self._child: Optional[subprocess.Popen[bytes]] = None
        self._given = 0

    def start(self) -> None:
        """Start it, where it isn't there. Raises CopyFault where there is no such program."""
        if self._child is not None:
            return
        pipe = subprocess.PIPE
        try:
            self._child = subprocess.Popen(
                self._words, cwd=self._folder, stdin=pipe, stdout=pipe, stderr=pipe
            )
        except OSError as fault:
            raise CopyFault(f"{self._words[0]}: {fault.strerror}") from fault
        self._given = 0

    def look(self) -> None:
        """Raises what it ended with, where it isn't there any more."""
        if self._child is not None and self._child.poll() is not None:
            self._ended()
            raise CopyFault(f"{self._words[0]} ended before it had all")

    def give(self, feed: Feed, copy: CopyFile) -> None:
        """Return once the copy's file has all entries of a feed."""
        if self._given + len(feed.content) > MOST_FEEDS_BYTES:
            self.end()
        self.start()
        assert self._child is not None and self._child.stdin is not None
        try:
            self._child.stdin.write(feed.content)
            self._child.stdin.flush()
        except BrokenPipeError:
            self._child.wait()
            self.look()
        self._given += len(feed.content)
        pause = _FIRST_PAUSE
        copy.advance()
        while copy.entries < feed.end:
            self.look()
            self._sleep(pause)
            pause = min(2 * pause, _LONGEST_PAUSE)
            copy.advance()

    def end(self) -> None:
        """Let it come to its end. Raises what it ends with, where it isn't well."""
        if self._child is not None:
            self._ended()

    def _ended(self) -> None:
        child, self._child = self._child, None
        assert child is not None
        out, err = child.communicate()
        if child.returncode != 0:
            _raise(_said(err.decode("utf-8", "replace"), child.returncode), child.returncode)


def _said(text: str, status: int) -> str:
    lines = text.strip().splitlines()
    if lines:
        return lines[-1]
    return f"slo_office: signal {-status}" if status < 0 else f"slo_office: status {status}"


def _raise(line: str, status: int) -> NoReturn:
    told = line.removeprefix("slo_office: ")
    if status == _RULE and told.startswith(("diverges at ", "other origin ")):
        raise Diverged(told)
    if status == _RULE:
        raise NotTaken(told)
    if status == _DAMAGED:
        raise Damaged(told)
    if status == _DISK:
        raise CopyFault(
            f"{line}: the copy's disk is full or fails, or another program has the copy"
        )
    raise CopyFault(line)
