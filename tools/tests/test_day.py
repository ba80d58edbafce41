"""A day on call, in a quarter of an hour: bursts, a reset, a dead feed, a killed office, a full disk, a clock that jumps.

Real engines, Alertmanager and nginx; the office, slo-feed and slo-notify as their own processes.
Each word to the pager is expected by a list, each within a minute of the last row of its cause, and
none else comes. SLO_TOOLS_DAY=whole lives through all of it; else there are three minutes with a
burst in each engine, a reset, an office that is killed and a moment without room on the disk.
"""

from __future__ import annotations

import json
import os
import tempfile
import time
import unittest
import urllib.request
from collections.abc import Callable
from dataclasses import dataclass
from pathlib import Path

from engines import ClickHouseServer, Exporter, PrometheusServer, data_source, sli
from notify_support import LIBRARY
from support import OfficeServer, needed, until

from day_servers import (
    BURST,
    RATE,
    TABLE,
    Act,
    FedOffice,
    Pager,
    PageServer,
    PagingManager,
    SmallDisk,
    Told,
    Tool,
    Traffic,
    Watching,
    moved_clock,
    play,
    show_clock,
)

IS_WHOLE = os.environ.get("SLO_TOOLS_DAY") == "whole"
# The history before the day: what the windows of six hours see.
HISTORY = 400
# A word has to come so many seconds after what it rests on.
SOON = 60.0
# A round of slo-notify, which notices what no row tells of.
ROUND = 60.0
# Minutes: without rows an indicator is stale, and without an answer an office is away.
STALE, AWAY = 3, 1
SLO = """---
apiVersion: openslo/v1
kind: SLO
metadata:
  name: {name}{annotations}
spec:
  service: day
  indicatorRef: {indicator}
  timeWindow:
  - duration: 30d
    isRolling: true
  budgetingMethod: {method}
  objectives:
  - displayName: {name}
    target: {target}{slices}
  alertPolicies:
"""
SERVICE = """---
apiVersion: openslo/v1
kind: Service
metadata:
  name: day
spec: {}
"""
# It looks at one minute, so that a day of three minutes has a begin and an end.
QUICK = """---
apiVersion: openslo/v1
kind: AlertCondition
metadata:
  name: quick
spec:
  severity: page
  condition:
    kind: burnrate
    op: gt
    threshold: 14.4
    lookbackWindow: 1m
---
apiVersion: openslo/v1
kind: AlertPolicy
metadata:
  name: quick
spec:
  alertWhenBreaching: true
  alertWhenResolved: true
  conditions:
  - conditionRef: quick
"""
# No burn reaches this: an alert of it would be a wrong word.
NEVER = QUICK.replace("quick", "never").replace("14.4", "1000")
# Nobody buys at night: that no row comes is no fault.
QUIET_NIGHT = "\n  annotations:\n    slo-office/stale: 8h"
SLICES = "\n    timeSliceTarget: 0.9\n    timeSliceWindow: 5m"


def slo(
    name: str,
    indicator: str,
    policies: list[str],
    slices: bool = False,
    annotations: str = "",
) -> str:
    method = "Timeslices" if slices else "Occurrences"
    text = SLO.format(
        name=name,
        indicator=indicator,
        annotations=annotations,
        method=method,
        target="0.995" if slices else "0.99",
        slices=SLICES if slices else "",
    )
    return text + "".join(f"  - {policy}\n" for policy in policies)


@dataclass(frozen=True)
class Wanted:
    """A word that has to come between two moments, which are known when the day is over."""

    alert: str
    status: str
    first: Callable[[], float]
    within: float = SOON


def differences(told: list[Told], wanted: list[Wanted], begin: float) -> list[str]:
    """What didn't come, what came beside it, and what came too early or too late."""
    faults = []
    for alert in sorted({each.alert for each in told} | {each.alert for each in wanted}):
        came = [each for each in told if each.alert == alert]
        due = [each for each in wanted if each.alert == alert]
        words = [each.status for each in came]
        if words != [each.status for each in due]:
            moments = [f"{each.status} at {each.moment - begin:.0f}: {each.text}" for each in came]
            wants = [f"{each.status} from {each.first() - begin:.0f}" for each in due]
            faults.append(f"{alert}: {wants} wanted, {moments} came")
            continue
        for each, word in zip(came, due):
            late = each.moment - word.first()
            if not 0 <= late <= word.within:
                faults.append(f"{alert}: {each.status} {late:.1f} s behind its cause")
    return faults


class Day(unittest.TestCase):
    """The servers of a day, and what they have to say."""

    def setUp(self) -> None:
        for name in ("prometheus", "clickhouse-server", "prometheus-alertmanager", "nginx"):
            needed(name)
        if not os.path.exists(LIBRARY):
            self.skipTest("libfaketime isn't installed")
        if os.geteuid() != 0:
            self.skipTest("root alone has a small disk for an office")
        self.folder = Path(self.enterContext(tempfile.TemporaryDirectory(prefix="slo-tools-")))
        self.folder.chmod(0o755)
        self.offices: dict[str, FedOffice] = {}
        self.start_engines()
        self.disk = SmallDisk(self.folder / "depot")
        self.disk.mount()
        self.addCleanup(self.disk.unmount)
        self.clock = self.folder / "clock"
        self.origin = int(time.time()) // 60 - HISTORY - 10
        self.pager = Pager()
        self.addCleanup(self.pager.close)

    def start_engines(self) -> None:
        self.exporter = Exporter().start()
        self.addCleanup(self.exporter.stop)
        self.prometheus = PrometheusServer(self.folder / "prometheus")
        self.prometheus.jobs = {"web": [self.exporter.target]}
        self.addCleanup(self.prometheus.kill)
        self.prometheus.start()
        self.bank = ClickHouseServer(self.folder / "clickhouse")
        self.addCleanup(self.bank.kill)
        self.bank.start()
        self.bank.run(TABLE)
        self.traffic = Traffic(self.exporter, self.bank)
        self.traffic.start()
        self.addCleanup(self.traffic.over.set)

    def web_objects(self) -> str:
        good, total = 'requests_total{code="200"}', "sum(requests_total)"
        source = data_source("prometheus", "Prometheus", url=self.prometheus.url)
        return source + sli("web", "prometheus", good, total) + SERVICE

    def bank_objects(self) -> str:
        details = {"table": "events", "time": "at", "inserted": "came", "source": "host"}
        place = {"host": "127.0.0.1", "port": self.bank.port}
        source = data_source("events", "ClickHouse", **details, **place)
        for name in ("payments", "night"):
            events = f"service = ''{name}''"
            source += sli(name, "events", f"{events} AND status < 500", events)
        return source + SERVICE

    def office(self, name: str, objects: str, *indicators: str, clock: bool = False) -> None:
        """An office with a history of some indicators, and its feed."""
        environment = moved_clock(self.clock, 0) if clock else None
        server = OfficeServer(self.folder / name, self.origin, environment=environment).start()
        self.addCleanup(server.kill)
        client = server.client()
        client.define(objects.encode())
        last = int(time.time()) // 60 - 2
        for indicator in indicators:
            rows = [f"{indicator},past,{last - n},1,600,600\n" for n in range(HISTORY)]
            client.ask("POST", ["samples"], body="".join(rows).encode())
        feed = Tool("slo-feed", self.folder / f"{name}-feed", ("--config", "feed.toml"))
        feed.folder.mkdir()
        (feed.folder / "password").write_text("counts\n")
        (feed.folder / "feed.toml").write_text(
            f'[office]\naddress = "{server.address}"\n[feed]\nstate = "state.json"\nfirst = 5\n'
            f'[engine.events]\nuser = "feed"\npassword_file = "password"\nhost = "127.0.0.1"\n'
            f'port = "{self.bank.port}"\nwait = 3\n'
        )
        self.addCleanup(feed.kill)
        feed.start()
        self.offices[name] = FedOffice(name, server, feed)

    def watch(self, more: str = "") -> None:
        """Alertmanager, slo-notify, the page, and the eye on the journals."""
        manager = PagingManager(self.folder / "manager", self.pager.address)
        self.addCleanup(manager.kill)
        manager.start()
        addresses = {name: each.server.address for name, each in self.offices.items()}
        self.page = PageServer(self.folder / "desk", addresses)
        self.addCleanup(self.page.stop)
        self.page.start()
        text = (
            f'state = "state.json"\noverview = "{self.page.folder}/page/overview.json"\n'
            f'clock = "receiver"\nstale = {STALE}\naway = {AWAY}\ntimeout = 5\n{more}'
        )
        for name, address in addresses.items():
            text += (
                f'[[office]]\nname = "{name}"\naddress = "{address}"\npath = "/office/{name}/"\n'
            )
        self.notify = Tool("slo-notify", self.folder / "notify", ("notify.toml",))
        self.notify.folder.mkdir()
        (self.notify.folder / "notify.toml").write_text(
            f'{text}[alertmanager]\naddress = "{manager.address}"\n'
        )
        self.addCleanup(self.notify.kill)
        self.watched = time.time()
        self.notify.start()
        journals = {n: each.server.folder / "office.journal" for n, each in self.offices.items()}
        self.watching = Watching(journals)
        self.watching.start()
        self.addCleanup(self.watching.over.set)

    def full(self) -> None:
        self.disk.fill(self.offices["depot"].server.client(tries=1))

    def row(self, office: str, indicator: str, minute: int) -> Callable[[], float]:
        """When the row of a minute of the day was there."""
        cell = (office, indicator, self.minute + minute)
        return lambda: self.watching.seen.get(cell, float("inf"))

    def live(self, acts: list[Act], wanted: list[Wanted], seconds: int) -> None:
        """Play the day to its end, and judge what the pager was told."""
        done = play([*acts, Act(seconds, "the end", lambda: None)], self.begin)
        self.done.update(done)
        faults = differences(self.pager.told, wanted, self.begin)
        logs = [self.notify.log, *(each.feed.log for each in self.offices.values())]
        said = "".join(f"\n== {log.parent.name}\n{log.read_text()[-1500:]}" for log in logs)
        said += "".join(f"\n== traffic {fault}" for fault in self.traffic.faults)
        self.assertFalse(faults, "\n" + "\n".join(faults) + said)

    def nothing_is_lost(self, office: str, indicator: str) -> None:
        """The failures of a burst are all there, once."""
        rows = self.offices[office].server.rows()
        failed = 0
        for (name, _, minute), amount in rows.items():
            if name == indicator and minute >= self.minute:
                part, total = map(int, amount.split(","))
                failed += total - part
        self.assertEqual(failed, BURST, office)

    def the_page_is_fresh(self) -> None:
        with urllib.request.urlopen(f"{self.page.address}/page/overview.json", timeout=5) as told:
            overview = json.load(told)
        self.assertLessEqual(abs(overview["written"] - time.time() // 60), 2)
        for office in overview["offices"]:
            self.assertIsNone(office["fault"], office["name"])
            slos = [each["name"] for each in office["slos"]]
            self.assertTrue(slos, office["name"])
            path = f"{self.page.address}{office['path']}budgets/{slos[0]}"
            with urllib.request.urlopen(path, timeout=5) as answer:
                self.assertGreater(json.load(answer)["budgets"][0]["den"], 0)

    def begin_at(self, step: int) -> None:
        """The day begins with a minute whose number is a multiple."""
        self.begin = (int(time.time()) // (60 * step) + 1) * 60.0 * step
        self.minute = int(self.begin) // 60
        self.done: dict[str, float] = {}


@unittest.skipIf(IS_WHOLE, "it is part of the whole day")
class ShortDay(Day):
    def test_three_minutes(self) -> None:
        """A burst in each engine, a reset, an office that is killed, a disk that is full."""
        self.office("shop", self.web_objects() + QUICK + slo("checkout", "web", ["quick"]), "web")
        bank = self.bank_objects() + QUICK + slo("transfers", "payments", ["quick"])
        self.office("bank", bank, "payments")
        depot = self.web_objects() + NEVER + slo("parcels", "web", ["never"])
        self.office("depot", depot, "web", clock=True)
        # It looks at single minutes, so it leaves slow rows more of each one.
        self.watch("second = 45\n")
        self.begin_at(1)
        shop = self.offices["shop"].server
        acts = [
            Act(5, "web burst", self.traffic.burst),
            Act(10, "bank burst", lambda: self.traffic.pay(BURST, 500)),
            Act(70, "reset", self.exporter.reset),
            Act(110, "shop killed", shop.kill),
            Act(118, "shop back", shop.start),
            Act(58, "full", self.full),
            Act(110, "room", self.disk.free),
        ]
        wanted = [
            Wanted("shop checkout quick", "firing", self.row("shop", "web", 0)),
            Wanted("shop checkout quick", "resolved", self.row("shop", "web", 1)),
            Wanted("bank transfers quick", "firing", self.row("bank", "payments", 0)),
            Wanted("bank transfers quick", "resolved", self.row("bank", "payments", 1)),
        ]
        self.live(acts, wanted, 175)
        for office, indicator in (("shop", "web"), ("bank", "payments"), ("depot", "web")):
            self.nothing_is_lost(office, indicator)
        self.the_page_is_fresh()


@unittest.skipUnless(IS_WHOLE, "a quarter of an hour: SLO_TOOLS_DAY=whole")
class WholeDay(Day):
    def test_a_day_on_call(self) -> None:
        """Everything, with the policies of the Workbook."""
        shop = slo("checkout", "web", ["workbook-page", "workbook-ticket"])
        slices = slo("slices", "web", ["workbook-page"], slices=True)
        self.office("shop", self.web_objects() + shop + slices, "web")
        bank = slo("transfers", "payments", ["workbook-page"])
        night = slo("night-orders", "night", ["workbook-page"], annotations=QUIET_NIGHT)
        self.office("bank", self.bank_objects() + bank + night, "payments", "night")
        depot = slo("parcels", "web", ["never"])
        self.office("depot", self.web_objects() + NEVER + depot, "web", clock=True)
        self.watch("watchdog = true\n")
        self.begin_at(5)
        self.live(self.acts(), self.wanted(), 860)
        for office, indicator in (("shop", "web"), ("bank", "payments"), ("depot", "web")):
            self.nothing_is_lost(office, indicator)
        self.the_page_is_fresh()

    def acts(self) -> list[Act]:
        shop, bank = self.offices["shop"].server, self.offices["bank"].feed
        return [
            Act(70, "web burst", self.traffic.burst),
            Act(130, "bank burst", lambda: self.traffic.pay(BURST, 500)),
            Act(150, "reset", self.exporter.reset),
            Act(200, "full", self.full),
            Act(350, "room", self.disk.free),
            Act(340, "shop killed", shop.kill),
            Act(460, "shop back", shop.start),
            Act(510, "feed dead", bank.kill),
            Act(770, "feed back", bank.start),
            Act(560, "clock ahead", lambda: show_clock(self.clock, 3 * 3600)),
            Act(680, "clock right", lambda: show_clock(self.clock, 0)),
        ]

    def wanted(self) -> list[Wanted]:
        def behind(what: str, minutes: int = 0) -> Callable[[], float]:
            return lambda: self.done[what] + 60 * minutes

        shop, bank = "shop checkout", "bank transfers workbook-page"
        late = SOON + ROUND
        return [
            Wanted("Watchdog", "firing", lambda: self.watched),
            Wanted(f"{shop} workbook-page", "firing", self.row("shop", "web", 1)),
            Wanted(f"{shop} workbook-page", "resolved", self.row("shop", "web", 6)),
            Wanted(f"{shop} workbook-ticket", "firing", self.row("shop", "web", 1)),
            # The slices of five minutes that are over with these minutes.
            Wanted("shop slices workbook-page", "firing", self.row("shop", "web", 4)),
            Wanted("shop slices workbook-page", "resolved", self.row("shop", "web", 9)),
            Wanted(bank, "firing", self.row("bank", "payments", 2)),
            Wanted(bank, "resolved", self.row("bank", "payments", 7)),
            Wanted("depot SloOfficeAway", "firing", behind("full", AWAY), late),
            Wanted("depot SloOfficeAway", "resolved", behind("room"), late),
            Wanted("shop SloOfficeAway", "firing", behind("shop killed", AWAY), late),
            Wanted("shop SloOfficeAway", "resolved", behind("shop back"), late),
            # The newest row is that of minute 7.
            Wanted("bank SloDataStale", "firing", lambda: self.begin + 60 * (8 + STALE), late),
            Wanted("bank SloDataStale", "resolved", self.row("bank", "payments", 11)),
            Wanted("depot SloOfficeClock", "firing", behind("clock ahead"), late),
            Wanted("depot SloOfficeClock", "resolved", behind("clock right"), late),
        ]


if __name__ == "__main__":
    unittest.main()
