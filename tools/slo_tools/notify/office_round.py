"""An office's part of a round: tick, hear what changed, tell the receiver, take what it took.

Whatever one office answers is a fault of that office alone.
"""

from __future__ import annotations

import traceback
from collections.abc import Callable
from contextlib import suppress
from dataclasses import dataclass, replace
from typing import Any, Optional

from slo_tools.answers import Notice
from slo_tools.clock import Clock, minute_of
from slo_tools.notify import own_alerts
from slo_tools.notify.alerts import annotations_of, labels_of, link_of, lookbacks_of
from slo_tools.notify.arrivals import Arrivals
from slo_tools.notify.budget_metrics import lookbacks, samples_of
from slo_tools.notify.clock_trust import ClockTrust, office_fault
from slo_tools.notify.config import Config, OfficeConfig
from slo_tools.notify.deciding import (
    NO_DATA,
    QUIET,
    Binding,
    Decisions,
    Present,
    binding_of,
    decide,
)
from slo_tools.notify.metrics import Metrics
from slo_tools.notify.overview import office_entry
from slo_tools.notify.own_alerts import AWAY, CLOCK, OwnFault
from slo_tools.notify.receiver import NotTaken, Receiver, Sending
from slo_tools.notify.staleness import next_stops
from slo_tools.notify.state import Mark, OfficeState, OpenAlert, StateFile
from slo_tools.notify.told import Told
from slo_tools.notify.watching import CountedOffice, Watch
from slo_tools.office import Pauses
from slo_tools.refusals import Full, OfficeError


@dataclass
class Around:
    """What the rounds of all offices share."""

    config: Config
    clock: Clock
    trust: ClockTrust
    receiver: Receiver
    metrics: Metrics
    told: Told
    file: StateFile

    def now(self) -> int:
        return minute_of(self.clock.now())


class OfficeRound:
    """An office with what is known of it."""

    def __init__(self, around: Around, config: OfficeConfig, state: OfficeState) -> None:
        self.around = around
        self.config = config
        self.state = state
        office = CountedOffice(
            config.address,
            timeout=around.config.timeout,
            pauses=Pauses(tries=2, first=0.2),
            credentials=config.login.credentials,
            verify=config.login.verify,
            token=config.login.token,
            counted=lambda status: around.metrics.counted(config.name, status),
            most_seconds=max(around.config.every, around.config.timeout),
        )
        arrivals = Arrivals(state.newest, state.position)
        self.watch = Watch(office, around.config.stale, arrivals)
        self.fault: Optional[str] = None
        self.receiver_fault: Optional[str] = None
        self.full: Optional[str] = None
        self.waiting = 0
        self.clock_fault: Optional[str] = None
        self._lines: set[str] = set()
        self.entry = self._entry("not asked yet", False)
        around.file.note(config.name, state)

    def round(self, clock_fault: Optional[str]) -> bool:
        """One round; whether everything went well. Raises nothing."""
        self.receiver_fault = None
        try:
            with self.watch.office.kept_link():
                self._ask_and_tell(clock_fault)
            self.fault, self.state.away_since = None, None
        except OfficeError as fault:
            self.fault = str(fault)
        except Exception as fault:
            self.around.metrics.faults.labels(self.config.name).inc()
            self.fault = odd(fault)
        if self.fault is not None:
            self._without(self._away, clock_fault)
        self._without(self._end)
        return self.fault is None and self.receiver_fault is None and self.clock_fault is None

    def _without(self, what: Callable[..., None], *words: object) -> None:
        """Does what may be odd too, behind a fault that is told already."""
        try:
            what(*words)
        except Exception as fault:
            self.around.metrics.faults.labels(self.config.name).inc()
            self.fault = odd(fault)

    def _end(self) -> None:
        self._say("", self.fault)
        self._measure()
        self.around.file.note(self.config.name, self.state)
        self.entry = self._entry(self.fault or self.clock_fault, self.fault is None)

    def _entry(self, fault: Optional[str], is_up: bool) -> dict[str, Any]:
        """What the overview tells of it."""
        config = self.config
        return office_entry(config.name, config.path, self.watch, fault, is_up, self.state)

    def _say(self, matter: str, line: Optional[str]) -> None:
        place = f"office {self.config.name}" + (f", {matter}" if matter else "")
        self.around.told.say(place, line or "")

    def _ask_and_tell(self, clock_fault: Optional[str]) -> None:
        watch, state = self.watch, self.state
        watch.begin()
        if watch.is_another:
            # What this one says of them is news.
            state.opened = {b: replace(alert, state="") for b, alert in state.opened.items()}
        self._say_faults()
        self.clock_fault = None if clock_fault else office_fault(watch.at, self.around.now())
        self._say("clock", self.clock_fault)
        watch.ask_ages()
        state.newest, state.position = watch.arrivals.newest, watch.arrivals.position
        state.seen.update(state.newest)
        if clock_fault is None and self.clock_fault is None:
            self._tick()
            notices = watch.office.notices()
            self.waiting = len(notices)
            if self.around.receiver.kind != "none" and self._adopt():
                self._tell(notices)
        elif self.clock_fault is not None:
            own = {key: alert for key, alert in state.own.items() if key != AWAY}
            own[CLOCK] = self._own(CLOCK, own_alerts.clock_fault(self.clock_fault))
            self._repeat(own, clock_fault)
        around = self.around.config
        if around.overview is not None or around.metrics is not None:
            watch.ask_views(lookbacks(around.sloth_names))

    def _say_faults(self) -> None:
        """What this office has that can't be read, a line for each."""
        lacking = "it doesn't say how full it is (GET /status): its limits aren't watched"
        self._say("usage", None if self.watch.usage else lacking)
        faults = self.watch.catalogue.faults
        for matter in self._lines - set(faults):
            self._say(matter, None)
        for matter, why in faults.items():
            self._say(matter, why)
        self._lines = set(faults)

    def _tick(self) -> None:
        if self.around.config.tick:
            self._has_room("tick", self.watch.office.tick)
            self.watch.ask_moment()

    def _adopt(self) -> bool:
        """Where nothing is remembered, what the receiver has open was opened here before."""
        if self.state.is_known:
            return True
        try:
            for labels in self.around.receiver.opened(self.config.name):
                with suppress(KeyError, ValueError):
                    binding = Binding(labels["slo"], int(labels["objective"]), labels["policy"])
                    alert = OpenAlert(labels, {}, self.around.now(), self._link(binding))
                    self.state.opened[binding] = alert
        except NotTaken as fault:
            self.receiver_fault = str(fault)
            return False
        self.state.is_known = True
        return True

    def _tell(self, notices: list[Notice]) -> None:
        state = self.state
        told = [notice for notice in notices if _mark_of(notice) in state.told]
        state.told = {_mark_of(notice) for notice in told}
        self._take(told)
        news = [notice for notice in notices if notice not in told]
        hollow = [n for n in news if n.state == NO_DATA and self._is_hollow(n)]
        asked = {*state.opened, *(binding_of(n) for n in [*news, *hollow] if n.state == QUIET)}
        asked.update(map(binding_of, hollow))
        present = self.watch.presents(sorted(asked))
        decisions = decide(list(state.opened), news, present, hollow)
        fires = {b: self._alert(b, n.state, n.at) for b, n in decisions.fire.items()}
        self._refresh(decisions, present)
        own = self._own_alerts()
        if not self._send(self._sendings(decisions, fires, own)):
            return
        settled = decisions.settled()
        state.told.update(map(_mark_of, settled))
        self._remember(decisions, fires, own)
        self._take(settled)
        self.around.metrics.held.labels(self.config.name).set(len(decisions.held))

    def _is_hollow(self, notice: Notice) -> bool:
        return self.watch.is_hollow(binding_of(notice), notice.at)

    def _take(self, notices: list[Notice]) -> None:
        """Takes notices that need no more telling, once the file has what was opened by them. A full
        office keeps them until it has room, and so does one whose state can't be written."""
        if not notices or not self._is_written():
            return
        for notice in notices:
            if not self._has_room("take", lambda: self.watch.office.take(notice.number)):
                return
            self.state.told.discard(_mark_of(notice))
            self.waiting -= 1
            self.around.metrics.taken.labels(self.config.name).inc()

    def _is_written(self) -> bool:
        self.around.file.note(self.config.name, self.state)
        return self.around.file.write()

    def _has_room(self, what: str, change: Callable[[], object]) -> bool:
        """Makes a change; whether the office had room for it."""
        try:
            change()
            self.full = None
        except Full as refusal:
            self.full = str(refusal)
        self._say(what, self.full)
        return self.full is None

    def _sendings(
        self, decisions: Decisions, fires: dict[Binding, OpenAlert], own: dict[str, OpenAlert]
    ) -> list[Sending]:
        now, opened = self.around.now(), self.state.opened
        sendings = []
        for binding, alert in fires.items():
            before = opened.get(binding)
            # One that is open already is no news, unless it is open for another reason.
            sendings.append(Sending(alert, None, before is None or before.state != alert.state))
        sendings += [Sending(opened[binding], None, False) for binding in decisions.again]
        for binding, notice in decisions.end.items():
            sendings.append(Sending(opened[binding], self._end_of(binding, notice), True))
        for key, alert in own.items():
            sendings.append(Sending(alert, None, key not in self.state.own))
        for key, alert in self.state.own.items():
            if key not in own:
                sendings.append(Sending(own_alerts.ended(alert), now, True))
        return sendings

    def _end_of(self, binding: Binding, notice: Optional[Notice]) -> int:
        """The minute at which an alert ended. Where slices are wider than a minute the notice may
        be of one at which none was judged."""
        is_wide = self.watch.catalogue.width(binding.slo, binding.objective) > 1
        return self.around.now() if notice is None or is_wide else notice.at

    def _send(self, sendings: list[Sending]) -> bool:
        if not sendings:
            return True
        around = self.around
        try:
            around.trust.heard(around.receiver.send(sendings, around.now()))
        except NotTaken as fault:
            self.receiver_fault = str(fault)
            around.metrics.sent.labels("refused").inc()
            return False
        around.metrics.sent.labels("accepted").inc()
        return True

    def _remember(
        self, decisions: Decisions, fires: dict[Binding, OpenAlert], own: dict[str, OpenAlert]
    ) -> None:
        for binding, alert in fires.items():
            self.state.opened[binding] = alert
        for binding in decisions.end:
            self.state.opened.pop(binding, None)
        self.state.own = own

    def _alert(self, binding: Binding, state: str, at: int) -> OpenAlert:
        """An alert as it stands at a minute. One that is open keeps its begin and its labels."""
        watch = self.watch
        more = lookbacks_of(watch.catalogue, binding)
        budget, burns = watch.numbers(binding.slo, binding.objective, at, more)
        before = self.state.opened.get(binding)
        if before is None:
            labels, since = labels_of(watch.catalogue, self.config.name, binding), at
        else:
            labels, since = before.labels, before.since
        annotations = annotations_of(watch.catalogue, binding, state, at, budget, burns)
        return OpenAlert(labels, annotations, since, self._link(binding), state)

    def _refresh(self, decisions: Decisions, present: dict[Binding, Present]) -> None:
        """What goes on is told by the numbers of this minute, and so is what ends."""
        at = self.watch.at
        for binding in [*decisions.again, *decisions.end]:
            before, state = self.state.opened[binding], present[binding].state
            if at is not None and state is not None:
                said = state if binding in decisions.end else before.state or "breaching"
                now = self._alert(binding, said, at)
                self.state.opened[binding] = replace(now, state=before.state)

    def _link(self, binding: Optional[Binding]) -> str:
        return link_of(self.around.config.link, self.config.name, binding)

    def _own_alerts(self) -> dict[str, OpenAlert]:
        """What is wrong with the office itself, each as an alert of its own."""
        state, watch = self.state, self.watch
        stale = watch.stale() & state.seen
        state.stops = next_stops(state.stops, stale, max(state.newest.values(), default=0))
        found = own_alerts.stale_faults(state.stops, watch.ages)
        found.update(own_alerts.full_faults(self.full, watch.usage))
        return {key: self._own(key, fault) for key, fault in found.items()}

    def _own(self, key: str, fault: OwnFault) -> OpenAlert:
        before = self.state.own.get(key)
        return own_alerts.own_alert(
            fault, self.config.name, self.around.now(), self._link(None), before
        )

    def _away(self, clock_fault: Optional[str]) -> None:
        """Nothing is known of an office that doesn't answer: what was open stays open, and its
        silence is an alert after some minutes."""
        now = self.around.now()
        if self.state.away_since is None:
            self.state.away_since = now
        own = dict(self.state.own)
        if now - self.state.away_since >= self.around.config.away:
            own[AWAY] = self._own(AWAY, own_alerts.away_fault(self.fault or ""))
        self._repeat(own, clock_fault)

    def _repeat(self, own: dict[str, OpenAlert], clock_fault: Optional[str]) -> None:
        """Tells the alerts of the office itself, and that what was open goes on."""
        if clock_fault is not None or self.around.receiver.kind == "none":
            return
        decisions = Decisions(again=list(self.state.opened))
        if self._send(self._sendings(decisions, {}, own)):
            self._remember(decisions, {}, own)

    def _measure(self) -> None:
        name, watch, metrics = self.config.name, self.watch, self.around.metrics
        metrics.up.labels(name).set(self.fault is None)
        if self.fault is None and self.around.config.metrics is not None:
            sloth_names = self.around.config.sloth_names
            metrics.budgets.show(name, samples_of(name, watch.at, watch.views, sloth_names))
        else:
            metrics.budgets.forget(name)
        metrics.open.labels(name).set(len(self.state.opened))
        metrics.waiting.labels(name).set(self.waiting)
        if watch.at is not None:
            metrics.ahead.labels(name).set(watch.at - self.around.now())
        if watch.entries is not None:
            metrics.entries.labels(name).set(watch.entries)
        for indicator, age in watch.ages.items():
            metrics.age.labels(name, indicator).set(float("inf") if age is None else age)
        for what, (used, limit) in (watch.usage or {}).items():
            metrics.used.labels(name, what).set(used)
            metrics.limit.labels(name, what).set(limit)


def odd(fault: BaseException) -> str:
    """What can't be read, in a line for people and for whoever mends this program."""
    place = traceback.extract_tb(fault.__traceback__)[-1]
    name = place.filename.rpartition("/")[2]
    text = " ".join(str(fault).split())[:200]
    return f"its answer can't be read: {type(fault).__name__}: {text} ({name}, {place.lineno})"


def _mark_of(notice: Notice) -> Mark:
    return Mark(notice.number, notice.at)
