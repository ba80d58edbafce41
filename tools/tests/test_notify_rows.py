"""slo-notify over slices, quiet nights and feeds that stop: which silence is told, and when a page
ends."""

from __future__ import annotations

import struct
import time
import unittest
from collections.abc import Sequence
from typing import Any
from unittest import mock

import yaml

from notify_support import Desk, HeldClock, Hook, timed_office
from support import SHOP, OfficeServer

from slo_tools.notify.arrivals import Arrivals
from slo_tools.notify.rounds import Rounds
from slo_tools.notify.slices import holds_slice, last_holding, shortest_holding
from slo_tools.notify.staleness import BadStale, Stop, label_of, next_stops, read_stale
from slo_tools.office import Office
from slo_tools.questions import Answer
from slo_tools.refusals import Foreign


def document(kind: str, name: str, spec: dict[str, Any], stale: str = "") -> str:
    """A document in the office's own writing of YAML."""
    metadata: dict[str, Any] = {"name": name}
    if stale:
        metadata["annotations"] = {"slo-office/stale": stale}
    members = {"apiVersion": "openslo/v1", "kind": kind, "metadata": metadata, "spec": spec}
    text: str = yaml.safe_dump(members, default_flow_style=False)
    return "---\n" + text


def sli(name: str) -> str:
    metric: dict[str, Any] = {part: {"metricSource": {}} for part in ("total", "good")}
    return document("SLI", name, {"ratioMetric": metric})


def slo(
    name: str,
    indicator: str,
    width: int = 0,
    policy: str = "workbook-page",
    stale: str = "",
    service: str = "shop",
) -> str:
    """An SLO over events, or over slices of some minutes."""
    objective: dict[str, Any] = {"target": 0.99}
    if width:
        objective.update(timeSliceTarget=0.9, timeSliceWindow=f"{width}m")
    spec = {
        "service": service,
        "indicatorRef": indicator,
        "timeWindow": [{"duration": "28d", "isRolling": True}],
        "budgetingMethod": "Timeslices" if width else "Occurrences",
        "objectives": [objective],
        "alertPolicies": [policy],
    }
    return document("SLO", name, spec, stale)


def policy(name: str, lookback: str) -> str:
    """A policy of one's own that tells of everything."""
    condition = {"kind": "burnrate", "op": "gt", "threshold": 10, "lookbackWindow": lookback}
    flags = dict.fromkeys(["alertWhenBreaching", "alertWhenResolved", "alertWhenNoData"], True)
    return document(
        "AlertCondition", name, {"severity": "page", "condition": {**condition, "alertAfter": "0m"}}
    ) + document("AlertPolicy", name, {**flags, "conditions": [{"conditionRef": name}]})


class Rows(Desk):
    """An office under a held clock, a webhook, and rows as a feed sends them."""

    def begun(self, documents: str, back: int = 5000) -> tuple[HeldClock, OfficeServer, Hook]:
        clock = HeldClock(self.folder / "clock")
        place = self.folder / "office"
        place.mkdir()
        office = timed_office(place, clock, back)
        office.start()
        self.addCleanup(office.kill)
        office.client().define((SHOP + documents).encode())
        hook = Hook()
        self.addCleanup(hook.close)
        return clock, office, hook

    def send(
        self,
        office: OfficeServer,
        names: Sequence[str],
        minutes: Sequence[int],
        good: int,
        all_: int,
    ) -> None:
        rows = [f"{name},web,{minute},1,{good},{all_}\n" for name in names for minute in minutes]
        for first in range(0, len(rows), 1000):
            body = "".join(rows[first : first + 1000]).encode()
            office.client().ask("POST", ["samples"], body=body)

    def go_on(
        self,
        clock: HeldClock,
        office: OfficeServer,
        rounds: Rounds,
        minutes: int,
        good: int = 1000,
        all_: int = 1000,
        names: Sequence[str] = ("good",),
    ) -> None:
        """So many rounds, each behind the row of the minute before."""
        for _ in range(minutes):
            clock.go_on()
            self.send(office, names, [clock.minute() - 1], good, all_)
            self.assertTrue(rounds.round(), self.said.getvalue())

    def whole_hour(self, clock: HeldClock) -> None:
        """Stands at the begin of the next hour, where slices of each width begin."""
        clock.seconds += 3620 - clock.seconds % 3600
        clock.show(clock.seconds)


class Slices(Rows):
    def outage(self, width: int, bad: int, well: int) -> tuple[Hook, HeldClock]:
        clock, office, hook = self.begun(slo("sliced", "good", width))
        self.whole_hour(clock)
        now = clock.minute()
        self.send(office, ["good"], range(now - 1440, now), 1000, 1000)
        rounds = self.hooked(clock, office, hook)
        self.assertTrue(rounds.round(), self.said.getvalue())
        self.go_on(clock, office, rounds, bad, good=0)
        self.assertEqual(hook.told(), [("workbook-page", "firing")])
        self.go_on(clock, office, rounds, well)
        return hook, clock

    def test_a_total_outage_over_slices_is_one_alert(self) -> None:
        hook, clock = self.outage(5, 61, 40)
        self.assertEqual(hook.told(), [("workbook-page", "firing"), ("workbook-page", "resolved")])
        # It ended where the slice with the last bad minute had left the window of 30 minutes.
        ended = clock.minute() - 40 + 34
        self.assertEqual(ended % 5, 0)
        text = time.strftime("%Y-%m-%dT%H:%M:%SZ", time.gmtime(ended * 60))
        self.assertEqual(hook.alerts[1]["endsAt"], text)

    def test_an_alert_of_slices_longer_than_the_shortest_window_ends(self) -> None:
        # Slices of 30 minutes: the window of 5 minutes never holds one, that of 30 in one minute
        # of 30.
        hook, _ = self.outage(30, 60, 35)
        self.assertEqual(hook.told(), [("workbook-page", "firing"), ("workbook-page", "resolved")])

    def test_minutes_without_a_whole_slice_are_no_lack_of_data(self) -> None:
        clock, office, hook = self.begun(policy("own", "6m") + slo("sliced", "good", 5, "own"))
        self.whole_hour(clock)
        now = clock.minute()
        self.send(office, ["good"], range(now - 60, now), 1000, 1000)
        rounds = self.hooked(clock, office, hook, "stale = 60")
        self.go_on(clock, office, rounds, 16)
        self.assertEqual(hook.told(), [])
        # Where no rows come any more it is one.
        for _ in range(11):
            clock.go_on()
            rounds.round()
        self.assertEqual(hook.told(), [("own", "firing")])
        self.assertEqual(hook.alerts[0]["annotations"]["state"], "no_data")

    def test_windows_hold_slices_at_the_minutes_that_the_rules_say(self) -> None:
        held = [at for at in range(100, 116) if holds_slice(at, 6, 5)]
        self.assertEqual(held, [100, 101, 105, 106, 110, 111, 115])
        for window, width in ((5, 5), (6, 5), (9, 5), (30, 20), (60, 60), (5, 1)):
            for at in range(120, 240):
                ends = [end for end in range(0, at + 1, width) if end - width >= at - window]
                with self.subTest(window=window, width=width, at=at):
                    self.assertEqual(holds_slice(at, window, width), bool(ends))
                    last = last_holding(at, window, width)
                    self.assertTrue(holds_slice(last, window, width))
                    between = range(last + 1, at + 1)
                    self.assertFalse(any(holds_slice(m, window, width) for m in between))
        self.assertEqual(shortest_holding((5, 30, 60, 360), 20), 30)
        self.assertIsNone(shortest_holding((5, 10), 20))


class Silence(Rows):
    def test_rows_of_long_slices_are_as_old_as_they_are(self) -> None:
        clock, office, hook = self.begun(slo("sliced", "good", 10))
        self.whole_hour(clock)
        self.send(office, ["good"], range(clock.minute() - 60, clock.minute()), 1000, 1000)
        rounds = self.hooked(clock, office, hook, "stale = 9")
        self.go_on(clock, office, rounds, 21)
        self.assertEqual(hook.told(), [])
        self.assertEqual(self.overview()["offices"][0]["slos"][0]["objectives"][0]["age"], 1)

    def test_rows_of_no_events_are_rows(self) -> None:
        clock, office, hook = self.begun(slo("quiet", "good"))
        self.send(office, ["good"], range(clock.minute() - 60, clock.minute()), 1000, 1000)
        rounds = self.hooked(clock, office, hook)
        self.go_on(clock, office, rounds, 15, good=0, all_=0)
        self.assertEqual(hook.told(), [])
        # Rows of none aren't an end: the alert of an outage stays open through a silent night.
        self.go_on(clock, office, rounds, 6, good=0)
        self.assertEqual(hook.told(), [("workbook-page", "firing")])
        self.go_on(clock, office, rounds, 15, good=0, all_=0)
        self.assertEqual(hook.told(), [("workbook-page", "firing")])

    def test_an_old_exclusion_is_no_data_that_ended(self) -> None:
        clock, office, hook = self.begun(slo("new", "good"))
        now = clock.minute()
        office.client().exclude("old", "new", now - 3000, now - 2000)
        rounds = self.hooked(clock, office, hook)
        for _ in range(3):
            self.assertTrue(rounds.round(), self.said.getvalue())
            clock.go_on()
        self.assertEqual(hook.told(), [])

    def test_excluded_minutes_lack_nothing_and_the_text_tells_the_newest_row(self) -> None:
        clock, office, hook = self.begun(slo("down", "good"))
        now = clock.minute()
        self.send(office, ["good"], range(now - 60, now), 1000, 1000)
        office.client().exclude("work", "down", now, now + 15)
        rounds = self.hooked(clock, office, hook)
        for minutes, told in ((15, []), (9, []), (1, [("SloDataStale", "firing")])):
            clock.go_on(minutes)
            self.assertTrue(rounds.round(), self.said.getvalue())
            self.assertEqual(hook.told(), told)
        self.assertEqual(
            hook.alerts[0]["annotations"]["summary"],
            "No rows of good for 26 min: look at slo-feed's log. Open alerts stay open meanwhile.",
        )

    def test_a_feed_that_stops_is_one_page_with_the_list(self) -> None:
        names = ["good", "cart", "pay", "find"]
        slos = "".join(slo(f"{name}-slo", name) for name in names)
        clock, office, hook = self.begun("".join(map(sli, names[1:])) + slos)
        self.send(office, names, range(clock.minute() - 60, clock.minute()), 1000, 1000)
        rounds = self.hooked(clock, office, hook)
        self.go_on(clock, office, rounds, 2, names=names)
        # One ends alone; the feed of the others stops later.
        self.go_on(clock, office, rounds, 11, names=names[:3])
        self.assertEqual(hook.told(), [("SloDataStale", "firing")])
        self.assertEqual(hook.alerts[0]["labels"]["indicator"], "find")
        for _ in range(12):
            clock.go_on()
            self.assertTrue(rounds.round(), self.said.getvalue())
        self.assertEqual(hook.told(), [("SloDataStale", "firing")] * 2)
        told = hook.alerts[1]["annotations"]
        self.assertEqual(told["indicators"], "cart, good, pay")
        self.assertIn("No rows of 3 indicators (cart, good, pay) for up to 11 min", told["summary"])
        self.go_on(clock, office, rounds, 1, names=names[:3])
        self.assertEqual(hook.told()[2:], [("SloDataStale", "resolved")])
        self.assertEqual(hook.alerts[2]["labels"], hook.alerts[1]["labels"])
        self.assertIn("No rows are lacking any more", hook.alerts[2]["annotations"]["summary"])
        self.go_on(clock, office, rounds, 1, names=names)
        self.assertEqual(hook.told()[3:], [("SloDataStale", "resolved")])

    def test_what_was_seen_is_known_again_behind_a_stop(self) -> None:
        clock, office, hook = self.begun(slo("quiet", "good"))
        self.send(office, ["good"], [clock.minute() - 4000], 1000, 1000)
        rounds = self.hooked(clock, office, hook, "stale = 4100")
        self.assertTrue(rounds.round(), self.said.getvalue())
        for _ in range(101):
            clock.go_on()
            self.assertTrue(self.hooked(clock, office, hook, "stale = 4100").round())
        self.assertEqual(hook.told(), [("SloDataStale", "firing")])

    def test_entries_that_no_office_keeps_move_nothing(self) -> None:
        feed = b"OSLOFEED" + struct.pack(">III", 0, 7, 1)
        row = b"\x04good\x03web" + struct.pack(">IIBII", 500, 1, 0, 1, 1)
        record = struct.pack(">IBH", 501, 4, 1) + row
        whole = feed + struct.pack(">I", len(record)) + record
        self.assertEqual(self.newest(whole), {"good": 500})
        spoilt = [
            whole[:-1],
            whole[:-20],
            b"OSLOJRN1" + whole[8:],
            feed[:12] + struct.pack(">I", 8) + whole[16:],
            # A row of the future would hide for years that none come.
            whole.replace(struct.pack(">I", 500), struct.pack(">I", 60_000_000)),
            whole.replace(b"good", b"go\xffd"),
            b"",
        ]
        for content in spoilt:
            with self.subTest(content=content), self.assertRaises(Foreign):
                self.newest(content)

    def newest(self, content: bytes) -> dict[str, int]:
        office = Office("http://127.0.0.1:1")
        answer = Answer(200, None, content, None, "application/octet-stream")
        arrivals = Arrivals(position=7)
        with mock.patch.object(office, "answer", return_value=answer):
            arrivals.ask(office, 8, 600, ["good"])
        return arrivals.newest

    def test_a_quiet_night_is_set_by_objective_or_service(self) -> None:
        night = document("Service", "night", {}, "30m")
        names = ["good", "cart", "pay"]
        clock, office, hook = self.begun(
            night
            + "".join(map(sli, [*names[1:], "find"]))
            + slo("by-slo", "good", stale="20m", service="night")
            + slo("by-service", "cart", service="night")
            + slo("odd", "pay", stale="soon")
        )
        self.send(office, names, range(clock.minute() - 60, clock.minute()), 1000, 1000)
        rounds = self.hooked(clock, office, hook)
        for label in ("", "pay", "", "good", "", "cart"):
            clock.go_on(1 if label else 9)
            # Another indicator goes on, so each of these stops by itself.
            self.send(office, ["find"], [clock.minute() - 1], 1000, 1000)
            before = len(hook.alerts)
            self.assertTrue(rounds.round(), self.said.getvalue())
            told = [each["labels"]["indicator"] for each in hook.alerts[before:]]
            with self.subTest(label=label):
                self.assertEqual(told, [label] if label else [])
        self.assertIn("SLO odd: slo-office/stale: 'soon' is no duration", self.said.getvalue())

    def test_durations_of_the_annotation(self) -> None:
        self.assertEqual(
            [read_stale("8h"), read_stale(" 1d "), read_stale("30d")], [480, 1440, 43200]
        )
        for text in ("", "8", "8 h", "0m", "31d", "never", "-1h", "8H"):
            with self.subTest(text=text), self.assertRaises(BadStale):
                read_stale(text)

    def test_what_stops_together_is_one_stop(self) -> None:
        one = next_stops({}, {"b", "a", "c"}, 100)
        self.assertEqual(one, {"a and 2 more": Stop(("a", "b", "c"), 100)})
        # No row of anything came: the same stop. A row of another came: another one.
        self.assertEqual(
            next_stops(one, {"a", "b", "c", "d"}, 100),
            {"a and 2 more": Stop(("a", "b", "c", "d"), 100)},
        )
        other = next_stops(one, {"b", "c", "d"}, 101)
        self.assertEqual(other, {"a and 2 more": Stop(("b", "c"), 100), "d": Stop(("d",), 101)})
        self.assertEqual(next_stops(other, {"d"}, 102), {"d": Stop(("d",), 101)})
        self.assertEqual(label_of(["x"]), "x")


if __name__ == "__main__":
    unittest.main()
