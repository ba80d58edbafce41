"""A round of the feed: ask each engine for the minutes that are due, send what differs."""

from __future__ import annotations

import errno
import hashlib
import time
from collections.abc import Callable, Mapping
from dataclasses import dataclass, field
from enum import IntEnum
from typing import Optional

from slo_tools.clock import MINUTE, Clock, date_of, minute_of
from slo_tools.feed.cells import Amounts
from slo_tools.feed.config import Config
from slo_tools.feed.dues import Due, due, first_again, nothing_of, slices
from slo_tools.feed.engine import Answer, Engine, EngineError, Indicator
from slo_tools.feed.history import TakenBack, keep_witness, look_at_history, what_is_left
from slo_tools.feed.holes import Holes
from slo_tools.feed.numbers import shown
from slo_tools.feed.objects import Catalog, DataSource, read_catalog
from slo_tools.feed.progress import Progress
from slo_tools.feed.quiet import quiet_rows
from slo_tools.feed.revisions import pending, without_old
from slo_tools.feed.room import pace_of, room_left
from slo_tools.feed.sending import Sender, Sent
from slo_tools.feed.state import State, write_state
from slo_tools.feed.watch import LOG, Watch
from slo_tools.feed.ways import Ways
from slo_tools.office import ACCEPTED, CELLS, UPGRADED_ACCEPTED, UPGRADED_CELLS, Office
from slo_tools.refusals import Full, Members, NoAnswer, NotFound, OfficeError

CLOCKS_APART = 60.0
# An office that is taken back in the middle of a round is fed anew in the same round, once.
PASSES = 2


class End(IntEnum):
    """How a round ended; a greater one is the worse. These are the program's exit statuses."""

    DONE = 0
    LEFT_OUT = 1
    OFFICE = 3
    ENGINE = 4
    CLOCK = 5
    FULL = 6
    STATE = 7


@dataclass
class Feed:
    """A feed with its office, its engines and what it remembers."""

    config: Config
    office: Office
    engine_of: Callable[[DataSource], Engine]
    state: State
    clock: Clock
    watch: Watch
    save: bool = True
    _catalog: Optional[Catalog] = field(default=None, init=False)
    _catalog_at: float = field(default=0.0, init=False)
    _full: Optional[Members] = field(default=None, init=False)
    _is_upgraded: bool = field(default=False, init=False)
    _engines: dict[DataSource, Engine] = field(default_factory=dict, init=False)
    _end: End = field(default=End.DONE, init=False)
    # A feed that begins reads the look-back at once, whatever its state says of it.
    _were_read: set[str] = field(default_factory=set, init=False)
    _ways: Optional[Ways] = field(default=None, init=False)
    _holes: Holes = field(default_factory=Holes, init=False)

    def round(self, begin: Optional[int] = None) -> End:
        """Read and send what is due, or all from the minute `begin` on. Whatever comes from the
        office or an engine ends the round at most, never the program."""
        self._end = End.DONE
        started = time.monotonic()
        try:
            self._passes(begin)
        except Full as refusal:
            text = f"the office is full ({refusal}): begin another; nothing more is sent"
            self._ended(End.FULL, "full", text)
        except NoAnswer as fault:
            self._ended(End.OFFICE, "office", f"the office gave no answer ({fault}): start it")
        except OfficeError as fault:
            self._ended(End.OFFICE, "office", f"the office refused what isn't about a row: {fault}")
        except Exception as fault:
            LOG.debug("the round ended", exc_info=True)
            text = f"the round ended by a fault of slo-feed's own ({unforeseen(fault)}): report it"
            self._ended(End.OFFICE, "round", text)
        now = self.clock.now()
        self._tell_room()
        self.watch.round(self._end.name.lower(), time.monotonic() - started, now)
        return self._end

    def _passes(self, begin: Optional[int]) -> None:
        for _ in range(PASSES):
            try:
                catalog = self._objects()
                slis = {indicator.sli for indicator in catalog.indicators}
                look_at_history(self.office, self.state, slis, minute_of(self.clock.now()))
                if self._office_can_be_sent_to(catalog):
                    for source in catalog.sources.values():
                        indicators = [i for i in catalog.indicators if i.engine == source.name]
                        if indicators:
                            self._feed_from(source, indicators, begin)
                return
            except TakenBack as why:
                self._read_again(str(why))
        text = "the office was taken back again and again: see who restores it"
        self._ended(End.OFFICE, "office", text)

    def behind(self) -> float:
        """How many seconds behind the end of a minute the next round begins. Feeds of several
        offices begin at different ones, so that an engine isn't asked for all at once."""
        waits = []
        for engine in self._engines.values():
            try:
                waits.append(engine.settled())
            except Exception:
                # What it says is told where it is read.
                continue
        return (max(waits, default=15.0) + spread_of(self.config)) % MINUTE

    def _ended(self, end: End, key: str, text: str) -> None:
        self._end = max(self._end, end)
        self.watch.notes.tell(key, text)

    # The office

    def _objects(self) -> Catalog:
        now = self.clock.now()
        age = now - self._catalog_at
        if self._catalog is None or not 0 <= age < self.config.reread_objects * MINUTE:
            self._catalog = read_catalog(self.office, self.config)
            self._catalog_at = now
            self._full = self.office.status()
            if self._full is None and self._catalog.indicators:
                self._is_upgraded = self.office.is_upgraded(self._catalog.indicators[0].sli)
            if self._catalog.entries < self.state.entries:
                had = f"it has {self._catalog.entries} entries and had {self.state.entries}"
                raise TakenBack(had)
            self.state.entries = self._catalog.entries
            self._ways = Ways(self.office, self.config, self._catalog, self.state, LOG.info)
        for sli, why in self._catalog.left_out.items():
            LOG.debug("%s isn't fed: %s", sli, why)
        for name, why in self._catalog.odd.items():
            self._ended(End.LEFT_OUT, f"object {name}", f"{name} isn't fed: {why}")
        return self._catalog

    def _read_again(self, why: str) -> None:
        """Forget what the office no longer has, and read it again."""
        self.state, begin = what_is_left(self.office, self.state, minute_of(self.clock.now()))
        self._catalog = None
        self._were_read = set()
        text = f"the office was taken back to an older journal: {why}. "
        if begin is None:
            text += "Run slo-feed --from the day of that journal"
        else:
            text += f"All since {date_of(begin)} is read again, as far as the engines still have it"
        self.watch.notes.tell("restored", text)

    def _office_can_be_sent_to(self, catalog: Catalog) -> bool:
        """Whether the office's moment is near this clock: a batch keeps it there for good."""
        if not catalog.slos:
            return True
        try:
            moment = self.office.budgets(catalog.slos[0]).at
        except NotFound as refusal:
            if "at" not in refusal.members:
                return True
            moment = refusal.number("at")
        here = minute_of(self.clock.now())
        if abs(moment - here) <= 1:
            return True
        self._ended(
            End.CLOCK,
            "moment",
            f"the office's moment is {date_of(moment)} and this clock reads {date_of(here)}: "
            "set the clocks; nothing is sent",
        )
        return False

    # An engine

    def _feed_from(
        self, source: DataSource, indicators: list[Indicator], begin: Optional[int]
    ) -> None:
        """Feed what an engine has. Whatever it answers is its own fault alone."""
        try:
            engine = self._engine(source)
            closed = self._closed(source.name, engine)
            if closed is None:
                return
            assert self._ways is not None
            indicators = self._ways.settled(source, engine, indicators, closed, begin)
            for sli, why in self._ways.undecided.items():
                self.watch.faults(sli, 1)
                self._ended(End.LEFT_OUT, f"{sli} answer", f"{sli}: {why}")
            dues = self._dues(indicators, closed, begin)
            is_well = self._read_slices(source.name, engine, dues, indicators, closed)
            self.watch.engine(source.name, is_well)
        except (OfficeError, TakenBack):
            raise
        except EngineError as fault:
            self._no_answer(source.name, str(fault))
        except Exception as fault:
            LOG.debug("%s", source.name, exc_info=True)
            self._no_answer(source.name, unforeseen(fault))

    def _no_answer(self, name: str, why: str) -> None:
        text = f"{name} gave no answer ({why}): start it, or mend its DataSource"
        self._ended(End.ENGINE, f"engine {name}", text)
        self.watch.engine(name, False)

    def _read_slices(
        self,
        name: str,
        engine: Engine,
        dues: list[Due],
        indicators: list[Indicator],
        closed: int,
    ) -> bool:
        """Read and send slice by slice; whether the engine answered to the end."""
        mark = self.state.marks.get(name)
        progress = Progress(name, min((d.begin for d in dues), default=closed), closed)
        unread: set[str] = set()
        for number, asked in enumerate(slices(dues)):
            asked = {i: span for i, span in asked.items() if i.sli not in unread}
            if number == 0 and mark is not None:
                # Late events concern those too whose stretch hasn't ended since the last run.
                asked = {**{i: nothing_of(i, closed) for i in indicators}, **asked}
            answer = engine.read(asked, mark if number == 0 else None)
            if number > 0:
                # What comes late during the later slices is looked for from the first on.
                answer.mark = None
            unread.update(sli for sli, r in answer.readings.items() if r.unread)
            self._take(name, asked, answer)
            if answer.fault is not None:
                self._no_answer(name, answer.fault)
                return False
            progress.through(max((end for _, end in asked.values()), default=closed))
        return True

    def _engine(self, source: DataSource) -> Engine:
        if source not in self._engines:
            self._engines[source] = self.engine_of(source)
        return self._engines[source]

    def _closed(self, name: str, engine: Engine) -> Optional[int]:
        """The newest minute that can be asked for, None where the clocks differ."""
        here = self.clock.now()
        there = engine.now()
        self.watch.clock(name, there - here)
        if abs(there - here) > CLOCKS_APART:
            self._ended(
                End.CLOCK,
                f"clock {name}",
                f"the clock of {name} is {there - here:+.0f} s from this one: set the clocks; "
                "nothing is sent",
            )
            return None
        return minute_of(min(here, there) - engine.settled()) - 1

    def _dues(self, indicators: list[Indicator], closed: int, begin: Optional[int]) -> list[Due]:
        dues = []
        for indicator in indicators:
            through = self.state.through.get(indicator.sli)
            first = self.config.first
            if begin is not None:
                through, first = None, max(indicator.newest(closed) - begin + 1, 0)
            again = indicator.sli not in self._were_read
            one = due(indicator, through, closed, first, self.state.origin, again)
            if one is not None:
                dues.append(one)
        return dues

    def _take(self, name: str, asked: Mapping[Indicator, tuple[int, int]], answer: Answer) -> None:
        """Send what an engine said, and remember what became of it, also where that broke off."""
        amounts: Amounts = {}
        for indicator in asked:
            reading = answer.readings[indicator.sli]
            amounts.update(reading.amounts)
            amounts.update(quiet_rows(indicator, reading, self.state.kept))
            for kind, fault in reading.faults.items():
                self._ended(End.LEFT_OUT, f"{indicator.sli} {kind}", f"{indicator.sli}: {fault}")
            self.watch.faults(indicator.sli, len(reading.faults))
            self._holes.tell(indicator, reading, self.state.rows)
        sender = Sender(self.office, self.state.entries)
        try:
            with self.office.kept_link():
                sender.send(pending(self.state.kept, amounts))
        finally:
            self._remember(name, asked, answer, sender.sent)

    def _remember(
        self,
        name: str,
        asked: Mapping[Indicator, tuple[int, int]],
        answer: Answer,
        sent: Sent,
    ) -> None:
        state = self.state
        state.kept.update(sent.kept)
        state.made += sent.counts["new"]
        state.accepted += sent.counts["new"] + sent.counts["newer"]
        if sent.entry is not None:
            state.entries = max(state.entries, sent.entry + 1)
        if sent.origin is not None:
            state.origin = sent.origin
        if sent.fully_sent:
            read = {i: s for i, s in asked.items() if not answer.readings[i.sli].unread}
            self._move_on(read, sent)
            begins = [begin for begin, end in read.values() if begin < end]
            if begins:
                state.began = min([*begins, *([] if state.began is None else [state.began])])
            if answer.mark is not None:
                state.marks[name] = answer.mark
        keep_witness(state, sent.kept, minute_of(self.clock.now()))
        self.watch.rows(sent.counts)
        self._tell_dropped(sent)
        if self.save:
            self._write()

    def _move_on(self, asked: Mapping[Indicator, tuple[int, int]], sent: Sent) -> None:
        now = self.clock.now()
        first = {}
        for indicator, (begin, end) in asked.items():
            if begin == end:
                continue
            newest = end - 1 if sent.moment is None else min(end - 1, sent.moment - 1)
            newest = max(newest, self.state.through.get(indicator.sli, 0))
            self.state.through[indicator.sli] = newest
            self._were_read.add(indicator.sli)
            first[indicator.sli] = first_again(indicator, newest)
            self.watch.newest(indicator.sli, newest, now)
        self.state.kept = without_old(self.state.kept, first.items())

    def _tell_dropped(self, sent: Sent) -> None:
        for why, row in sent.dropped:
            cell = row.cell
            if why == "early":
                text = (
                    f"rows before the office's origin {date_of(sent.origin or 0)} were left "
                    "out: an office with an earlier origin takes them"
                )
                self._ended(End.LEFT_OUT, "early", text)
                continue
            if why == "unknown_sli":
                self._catalog = None
            place = f"{cell.sli} {cell.source} {date_of(cell.minute)}"
            self._ended(End.LEFT_OUT, f"{why} {cell.sli}", f"{place}: refused, {why}")

    def _write(self) -> None:
        try:
            write_state(self.config.state, self.state)
        except OSError as fault:
            text = f"{self.config.state}: {why_not_written(fault)}; the feed goes on without"
            self._ended(End.STATE, "state", text)

    def _tell_room(self) -> None:
        if self._catalog is not None:
            limits = (UPGRADED_CELLS, UPGRADED_ACCEPTED) if self._is_upgraded else (CELLS, ACCEPTED)
            left = room_left(self._full, limits, self.state)
            pace = pace_of(self._catalog.indicators, self.state)
            self.watch.room(left, left / pace if pace else float("inf"))


def spread_of(config: Config) -> int:
    """So many seconds later than others an office is fed, by its address."""
    digest = hashlib.sha256(config.office.encode("utf-8")).digest()
    return int.from_bytes(digest[:4], "big") % (config.spread + 1)


def unforeseen(fault: Exception) -> str:
    """A fault that no line of the feed speaks of."""
    return f"{type(fault).__name__}: {shown(str(fault))}"


def why_not_written(fault: OSError) -> str:
    """Why the state couldn't be kept, and what to do."""
    if fault.errno in (errno.ENOENT, errno.ENOTDIR):
        return "its folder isn't there: make it, or start slo-feed.service once, which makes it"
    if fault.errno in (errno.ENOSPC, errno.EDQUOT, errno.EFBIG):
        return f"{fault.strerror}: make room"
    return f"{fault.strerror}: let this user write there"
