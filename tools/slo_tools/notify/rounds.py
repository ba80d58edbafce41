"""A round over all offices, side by side; the watchdog, the state's file and the overview."""

from __future__ import annotations

import sys
import time
from concurrent.futures import Future, ThreadPoolExecutor, wait
from typing import Any, Optional

from slo_tools.clock import Clock
from slo_tools.notify import own_alerts
from slo_tools.notify.alerts import link_of
from slo_tools.notify.clock_trust import ClockTrust
from slo_tools.notify.config import Config
from slo_tools.notify.metrics import Metrics
from slo_tools.notify.office_round import Around, OfficeRound
from slo_tools.notify.overview import overview_text
from slo_tools.notify.receiver import NotTaken, Receiver, Sending
from slo_tools.notify.state import OfficeState, StateFile
from slo_tools.notify.told import Told
from slo_tools.whole_file import write_whole

# So many offices are asked at once: the unit allows 32 threads (TasksMax).
AT_ONCE = 16
# Alertmanager ends a watchdog that wasn't repeated for so many minutes, or three rounds.
WATCHDOG_MINUTES = 3
# A clock that can't be trusted for so many rounds won't be by itself.
MOST_UNTRUSTED = 10


class Rounds:
    """All offices, the receiver, and what is remembered."""

    def __init__(
        self,
        config: Config,
        clock: Clock,
        trust: ClockTrust,
        receiver: Receiver,
        states: dict[str, OfficeState],
        metrics: Metrics,
    ) -> None:
        self.config = config
        self.clock = clock
        self.trust = trust
        self.metrics = metrics
        self.receiver_fault: Optional[str] = None
        self.told = Told(lambda line: print(line, file=sys.stderr, flush=True))
        self.file = StateFile(config.state)
        self.untrusted = 0
        self._since: Optional[int] = None
        around = Around(config, clock, trust, receiver, metrics, self.told, self.file)
        self.around = around
        self.offices = [
            OfficeRound(around, office, states.setdefault(office.name, OfficeState()))
            for office in config.offices
        ]
        self._pool = ThreadPoolExecutor(min(AT_ONCE, len(self.offices)), "office")
        self._running: dict[str, Future[bool]] = {}

    def round(self, most: Optional[float] = None) -> bool:
        """One round; whether everything went well. It waits for all offices, or, with a number, so
        many seconds for those that had a fault, and half of the time between rounds for the others:
        one that isn't done by then goes on by itself, and is told as silent."""
        clock_fault = self._clock()
        self.untrusted = 0 if clock_fault is None else self.untrusted + 1
        is_well = self._offices(clock_fault, most) and clock_fault is None
        is_watched = clock_fault is not None or self._watchdog()
        self._receiver()
        is_written = self.file.write()
        self.told.say("state", self.file.fault or "")
        self.metrics.written.set(is_written)
        self._overview(clock_fault)
        self.metrics.round.set(self.clock.now())
        return is_well and is_watched and is_written and self.receiver_fault is None

    @property
    def receiver(self) -> Receiver:
        return self.around.receiver

    @property
    def cannot_tick(self) -> bool:
        """Whether the clock wasn't to be trusted for so many rounds that people have to look."""
        return self.untrusted >= MOST_UNTRUSTED

    def _clock(self) -> Optional[str]:
        self.receiver_fault = None
        if self.receiver.kind != "none":
            try:
                self.trust.heard(self.receiver.date())
            except NotTaken as silence:
                self.receiver_fault = str(silence)
        fault = self.trust.fault()
        self.told.say("clock", fault or "")
        self.metrics.clock.set(fault is None)
        return fault

    def _offices(self, clock_fault: Optional[str], most: Optional[float]) -> bool:
        """The rounds of all offices, those first that were well the last time."""
        for office in sorted(self.offices, key=lambda each: each.fault is not None):
            running = self._running.get(office.config.name)
            if running is None or running.done():
                work = self._pool.submit(office.round, clock_fault)
                self._running[office.config.name] = work
        self._wait(most)
        return all([self._is_well(office) for office in self.offices])

    def _wait(self, most: Optional[float]) -> None:
        begin = time.monotonic()
        well = [self._running[each.config.name] for each in self.offices if each.fault is None]
        wait(well, timeout=None if most is None else max(most, self.config.every / 2))
        left = None if most is None else max(0, most - (time.monotonic() - begin))
        wait(self._running.values(), timeout=left)

    def _is_well(self, office: OfficeRound) -> bool:
        running = self._running[office.config.name]
        if running.done():
            return running.result()
        late = office.fault or "its answers take longer than half a round"
        self.told.say(f"office {office.config.name}", late)
        self.metrics.up.labels(office.config.name).set(0)
        self.metrics.budgets.forget(office.config.name)
        office.entry = {**office.entry, "fault": late, "up": False}
        return False

    def _watchdog(self) -> bool:
        """Tells the receiver that this program works, where that is wanted."""
        if not self.config.watchdog or self.receiver.kind == "none":
            return True
        now = self.around.now()
        self._since = now if self._since is None else self._since
        alert = own_alerts.watchdog(self._since, link_of(self.config.link, "", None))
        # An Alertmanager ends it by itself where it isn't repeated; another one is told each time.
        lasts = max(WATCHDOG_MINUTES, -(-3 * self.config.every // 60))
        end = now + lasts if self.receiver.kind == "alertmanager" else None
        try:
            self.trust.heard(self.receiver.send([Sending(alert, end, True)], now))
        except NotTaken as fault:
            self.receiver_fault = str(fault)
            return False
        return True

    def _receiver(self) -> None:
        """What the receiver said no with, to whichever office."""
        for office in self.offices:
            self.receiver_fault = self.receiver_fault or office.receiver_fault
        self.told.say("receiver", self.receiver_fault or "")

    def _overview(self, clock_fault: Optional[str]) -> None:
        if self.config.overview is None:
            return
        notify: dict[str, Any] = {
            "clock": clock_fault,
            "link": self.config.receiver.link,
            "receiver": self.receiver.kind,
            "receiver_fault": self.receiver_fault,
            "waiting": sum(office.waiting for office in self.offices),
        }
        entries = [office.entry for office in self.offices]
        second = int(self.clock.now())
        text = overview_text(second, self.config.every, notify, entries)
        try:
            write_whole(self.config.overview, text, mode=0o644)
        except OSError as fault:
            self.told.say("overview", str(fault))
        else:
            self.told.say("overview", "")
