"""Following an office: askings that overlap, and the comparison of all entries."""

from __future__ import annotations

import logging
from collections.abc import Callable
from pathlib import Path
from typing import Optional

from slo_tools.clock import Clock
from slo_tools.follow.comparing import Diverged, Held, compare, feed_at
from slo_tools.follow.copy_file import CopyFile, Damaged
from slo_tools.follow.feeds import Feed, Source
from slo_tools.follow.state import FILE, State, read_state, write_state
from slo_tools.follow.taking import JOURNAL, CopyFault, Follower, NotTaken, make_copy

LOG = logging.getLogger("slo-follow")
HOUR = 3600
# The state is written at most so often while nothing comes.
STATE_SECONDS = 30


class Following:
    """A copy in a folder, and the office that it follows.

    Raises NoFeed and CopyFault for what may pass by itself; Diverged and Damaged for good, with
    the copy's journal as it was.
    """

    def __init__(
        self, source: Source, program: str, folder: Path, clock: Clock, compare_hours: int
    ) -> None:
        self.source = source
        self._program = program
        self._folder = folder
        self._clock = clock
        self._compare_hours = compare_hours
        self._follower = Follower(program, folder, clock.sleep)
        self._copy: Optional[CopyFile] = None
        self._held: Optional[Held] = None
        self._written = 0.0
        self._is_in_doubt = False
        self.state = State()
        self.after_comparison: Callable[[Path], None] = lambda journal: None

    @property
    def journal(self) -> Path:
        return self._folder / JOURNAL

    def open(self) -> None:
        """Read what is remembered of the copy. Raises Diverged where it isn't followed any more,
        and Damaged where it has lost entries."""
        if not self.journal.exists():
            return
        self.state, why = read_state(self._folder / FILE)
        if why is not None:
            LOG.warning("no state (%s): all entries are compared anew", why)
        copy = self._opened()
        if copy.entries < self.state.entries:
            raise Damaged(
                f"{self.journal} has {copy.entries} entries, and had {self.state.entries}"
            )
        self._sync(copy)
        self.state.entries = copy.entries

    def start(self) -> None:
        """Open the copy for what comes, before anything comes."""
        if self.journal.exists():
            self._follower.start()

    def end(self) -> None:
        """Let the copy's program come to its end. Raises what it ends with."""
        self._follower.end()

    def round(self) -> int:
        """Bring the copy to all that the office has; how many entries came."""
        begun = int(self._clock.now())
        if self._is_in_doubt:
            self._settle()
        copy = self._opened()
        before = copy.entries
        self._follower.look()
        try:
            self._take_all(copy)
        except NotTaken as fault:
            LOG.warning("the copy's program takes no entry: %s; it is asked for once more", fault)
            self._take_again(copy)
        self._sync(copy)
        self.state.entries, self.state.all_came = copy.entries, begun
        return copy.entries - before

    def _sync(self, copy: CopyFile) -> None:
        try:
            copy.sync()
        except OSError:
            self._is_in_doubt = True
            raise

    def _settle(self) -> None:
        """A sync that failed may have dropped what it couldn't write, and a later one doesn't tell:
        the program's next opening writes it again, and syncs."""
        self.close()
        self._follower.start()
        self._follower.end()
        self._is_in_doubt = False

    def _take_all(self, copy: CopyFile) -> None:
        before: Optional[Feed] = None
        while True:
            feed = self._overlapping(copy)
            if feed.end == copy.entries:
                feed = self._behind(copy)
                if not feed.records:
                    return
            first = feed.records[copy.entries - feed.first]
            self._follower.give(feed, copy)
            # Where this one's first new entry would have fitted into the feed before, that one had
            # all that there was.
            if before is not None and before.has_room(first):
                return
            before = feed

    def _overlapping(self, copy: CopyFile) -> Feed:
        """A feed that begins before the copy's end; what both have is alike."""
        last = copy.last_records()
        held = Held(iter(last), copy.entries - len(last))
        feed = feed_at(self.source, held.at, copy.origin)
        compare(feed, held)
        return feed

    def _behind(self, copy: CopyFile) -> Feed:
        """The feed from the copy's end on: a long entry has no room behind one that both have. Then
        these are compared once more, since the office may have been another one meanwhile."""
        feed = feed_at(self.source, copy.entries, copy.origin)
        if feed.records:
            self._overlapping(copy)
        return feed

    def _take_again(self, copy: CopyFile) -> None:
        """A bit may have flipped on the way; else the histories differ somewhere before."""
        try:
            self._take_all(copy)
        except NotTaken as fault:
            if str(fault).startswith("illegal at "):
                raise Diverged(str(fault)) from fault
            raise CopyFault(f"the copy's program takes no entry: {fault}") from fault

    def _opened(self) -> CopyFile:
        """The copy's file. It is made where there is none."""
        if self._copy is not None and not self._copy.is_replaced():
            return self._copy
        if self._copy is not None:
            LOG.warning("%s was replaced or moved", self.journal)
            self.close()
            self.state = State()
        if not self.journal.exists():
            self._make()
        self._copy = CopyFile(self.journal)
        return self._copy

    def _make(self) -> None:
        self._folder.mkdir(mode=0o700, parents=True, exist_ok=True)
        feed = self.source.feed(0)
        make_copy(self._program, self._folder, feed.origin)
        LOG.info("%s: a new copy, of an office of origin %d", self.journal, feed.origin)

    def close(self) -> None:
        """Let go of the copy; its program ends by itself."""
        if self._copy is not None:
            self._copy.close()
        self._copy = self._held = None
        try:
            self._follower.end()
        except (CopyFault, NotTaken, Damaged, Diverged) as fault:
            LOG.info("the copy's program: %s", fault)

    # The comparison of all entries

    @property
    def is_comparing(self) -> bool:
        return self._held is not None

    def begin_comparison(self, is_asked_for: bool = False) -> None:
        """Begin it where it is due, or asked for, and isn't under way."""
        last = self.state.compared
        age = None if last is None else self._clock.now() - last
        is_due = age is None or not 0 <= age < self._compare_hours * HOUR
        if self._held is None and (is_due or is_asked_for):
            self._held = Held(self._opened().records(), 0)

    def compare_some(self) -> None:
        """Compare one feed's entries. Raises Diverged, and NoFeed: then it goes on later."""
        assert self._held is not None
        feed = feed_at(self.source, self._held.at, self._opened().origin)
        if compare(feed, self._held):
            LOG.info("all %d entries are those of the office", self._held.at)
            self._held = None
            self.state.compared = int(self._clock.now())
            self.after_comparison(self.journal)

    # What is remembered

    def remember(self, is_news: bool) -> None:
        """Keep the state, at once where there is news. Raises OSError."""
        now = self._clock.now()
        if is_news or not 0 <= now - self._written < STATE_SECONDS:
            write_state(self._folder / FILE, self.state)
            self._written = now
