"""Rounds over a simulated engine and office: what is sent, held back, dropped, told."""

from __future__ import annotations

import json
import logging
import os
import subprocess
import tempfile
import unittest
from collections.abc import Sequence
from dataclasses import replace
from pathlib import Path
from typing import Any, Optional, cast
from unittest import mock

from engines import data_source, sli
from simulated import HeldClock, Sample, SimulatedOffice, SimulatedPrometheus, as_an_office_writes

from slo_tools.answers import Batch, KeptRow, SampleRow
from slo_tools.feed.cells import Amount, Cell
from slo_tools.feed.command import seconds_to_next
from slo_tools.feed.config import Config, IndicatorConfig
from slo_tools.feed.dues import due
from slo_tools.feed.engine import Engine
from slo_tools.feed.history import stands, with_newest
from slo_tools.feed.prometheus import Prometheus
from slo_tools.feed.revisions import Kept, Pending, pending
from slo_tools.feed.rounds import End, Feed, why_not_written
from slo_tools.feed.sending import Sender
from slo_tools.feed.state import State, Way, Witness, read_state, write_state
from slo_tools.feed.watch import Watch
from slo_tools.office import Office
from slo_tools.refusals import Full, NotFound
from slo_tools.settings import Login

BEGIN = 29_000_000
LABELS = frozenset({"job": "web", "instance": "web:0", "code": "200", "__name__": "m"}.items())


class Rounds(unittest.TestCase):
    """A feed of one indicator, a counter that rises by 10 a scrape, scraped each 20 s."""

    def setUp(self) -> None:
        self.logs = self.enterContext(self.assertLogs("slo-feed", logging.INFO))
        logging.getLogger("slo-feed").info("begun")
        self.folder = Path(self.enterContext(tempfile.TemporaryDirectory()))
        self.clock = HeldClock((BEGIN + 30) * 60.0 + 12)
        samples = [
            Sample(LABELS, BEGIN * 60 + n * 20.0, n * 10, BEGIN * 60 + n * 20.0) for n in range(300)
        ]
        self.prometheus = SimulatedPrometheus(self.clock, samples)
        texts = {
            "DataSource/prom": data_source("prom", "Prometheus", url="http://x"),
            "SLI/shop": sli("shop", "prom", "m", "m"),
            "SLO/shop-slo": "",
        }
        self.office = SimulatedOffice(self.clock, texts, BEGIN)
        self.feed = self.made(State())

    def made(self, state: State, every: int = 1, save: bool = False) -> Feed:
        config = Config(
            "",
            Login(),
            self.folder / "state.json",
            first=60,
            usual=IndicatorConfig(label="instance", every=every, look_back=5),
        )
        engine = cast(Engine, Prometheus(self.prometheus))
        office = cast(Office, self.office)
        return Feed(config, office, lambda _: engine, state, self.clock, Watch(), save)

    def lines(self) -> str:
        return "\n".join(self.logs.output)

    def minutes(self) -> list[int]:
        return sorted(minute - BEGIN for _, _, minute in self.office.kept)

    def test_closed_minutes_alone_are_sent(self) -> None:
        self.assertEqual(self.feed.round(), End.DONE)
        self.assertEqual(self.minutes(), list(range(30)))
        # The first scrape counts nothing; the one at the minute's end counts in it.
        self.assertEqual(self.office.kept["shop", "web_0", BEGIN], (1, "30,30"))

    def test_a_minute_is_asked_for_behind_the_scrape_timeout(self) -> None:
        self.clock.seconds = (BEGIN + 30) * 60.0 + 10
        self.feed.round()
        self.assertEqual(self.minutes(), list(range(29)))

    def test_a_feed_begins_later_than_others_by_its_offices_address(self) -> None:
        """Behind the scrape timeout of 10 s and a second, 0 to 10 s by the SHA-256 of it."""
        for address, seconds in (("http://127.0.0.1:8082", 9), ("http://127.0.0.1:8083", 10)):
            self.feed.config = replace(self.feed.config, office=address)
            self.feed.round()
            self.assertEqual(self.feed.behind(), 11 + seconds)

    def test_nothing_is_sent_where_nothing_changed(self) -> None:
        self.feed.round()
        self.clock.seconds += 60
        batches = self.office.batches
        self.feed.round()
        self.assertEqual(self.office.batches, batches + 1)
        self.assertEqual(self.office.accepted, 31)

    def test_a_feed_that_begins_reads_the_look_back_at_once(self) -> None:
        self.feed.round()
        late = (BEGIN + 29) * 60 + 50.0
        self.prometheus.samples_held.append(Sample(LABELS, late, 895, late))
        self.prometheus.samples_held.append(Sample(LABELS, late + 9, 999, late))
        self.feed.round()
        self.assertEqual(self.office.kept["shop", "web_0", BEGIN + 29], (1, "30,30"))
        self.feed = self.made(self.feed.state)
        self.feed.round()
        # From 890 to 999, then a fall to 900.
        self.assertEqual(self.office.kept["shop", "web_0", BEGIN + 29], (2, "1029,1029"))

    def test_stretches_of_five_minutes(self) -> None:
        self.feed = self.made(State(), every=5)
        self.feed.round()
        self.assertEqual(self.minutes(), [4, 9, 14, 19, 24, 29])
        self.assertEqual(self.office.kept["shop", "web_0", BEGIN + 4], (1, "150,150"))
        self.clock.seconds += 240
        self.feed.round()
        self.assertEqual(self.minutes()[-1], 29)

    def test_clocks_apart(self) -> None:
        for difference in (61.0, -61.0):
            self.prometheus.clock = HeldClock(self.clock.seconds + difference)
            self.assertEqual(self.feed.round(), End.CLOCK)
        self.assertEqual(self.office.batches, 0)
        self.assertIn("the clock of prom is +61 s from this one", self.lines())

    def test_the_offices_moment_is_apart(self) -> None:
        self.office.clock = HeldClock(self.clock.seconds + 3600)
        self.assertEqual(self.feed.round(), End.CLOCK)
        self.assertEqual(self.office.batches, 0)

    def test_an_office_whose_clock_is_behind_gets_the_rest_later(self) -> None:
        self.office.clock = HeldClock(self.clock.seconds - 60)
        self.assertEqual(self.feed.round(), End.DONE)
        self.assertEqual(self.minutes(), list(range(29)))
        self.office.clock = self.clock
        self.clock.seconds += 60
        self.feed.round()
        self.assertEqual(self.minutes(), list(range(31)))

    def test_a_long_stop_of_the_office(self) -> None:
        self.feed.round()
        for _ in range(12):
            self.clock.seconds += 60
            self.office.losses = [False]
            self.assertEqual(self.feed.round(), End.OFFICE)
        self.clock.seconds += 60
        self.assertEqual(self.feed.round(), End.DONE)
        self.assertEqual(self.minutes(), list(range(43)))

    def test_early_rows_are_told_and_dropped(self) -> None:
        self.office.origin = BEGIN + 10
        self.assertEqual(self.feed.round(), End.LEFT_OUT)
        self.assertEqual(self.minutes(), list(range(10, 30)))
        self.assertIn("before the office's origin 2025-02-19T21:30Z", self.lines())
        self.clock.seconds += 60
        self.assertEqual(self.feed.round(), End.DONE)

    def test_a_query_that_is_mended(self) -> None:
        self.feed.round()
        self.office.texts["SLI/shop"] = sli("shop", "prom", "rate(m)", "m")
        for _ in range(20):
            self.clock.seconds += 60
            self.feed.round()
        self.assertIn("shop: query: rate(..) is no counter", self.lines())
        self.office.texts["SLI/shop"] = sli("shop", "prom", "m", "m")
        self.clock.seconds += 360
        self.assertEqual(self.feed.round(), End.DONE)
        self.assertEqual(self.minutes(), list(range(56)))

    def test_an_sli_that_was_removed_meanwhile(self) -> None:
        self.feed.round()
        del self.office.texts["SLI/shop"]
        self.clock.seconds += 60
        self.assertEqual(self.feed.round(), End.LEFT_OUT)
        self.assertIn("refused, unknown_sli", self.lines())
        self.clock.seconds += 60
        self.assertEqual(self.feed.round(), End.DONE)

    def test_how_long_there_is_room(self) -> None:
        for has_query, upgraded, room in (
            (False, False, 2_000_000 - 36),
            (True, False, 2_000_000 - 36),
            (False, True, 4_000_000 - 48),
            (True, True, 4_000_000 - 48),
        ):
            with self.subTest(has_query=has_query, upgraded=upgraded):
                self.office.has_rows_query, self.office.upgraded = has_query, upgraded
                self.feed.round()
                self.clock.seconds += 360
                self.feed.round()
                registry = self.feed.watch.registry
                left = registry.get_sample_value("slo_feed_cells_left")
                days = registry.get_sample_value("slo_feed_days_until_full")
                self.assertEqual(left, room)
                self.assertAlmostEqual(days or 0, room / 1440)

    def test_a_full_office(self) -> None:
        def full(rows: Sequence[SampleRow]) -> Batch:
            raise Full(507, {"error": "limit", "which": "cells"})

        self.office.post_samples = full  # type: ignore[assignment]
        self.assertEqual(self.feed.round(), End.FULL)
        self.assertIn("the office is full (507 limit which=cells)", self.lines())

    def test_an_office_that_was_restored(self) -> None:
        self.feed.round()
        self.assertEqual(len(self.feed.state.kept), 5)
        self.office.kept, self.office.entries = {}, 1
        self.clock.seconds += 360
        self.feed.round()
        said = "taken back to an older journal: it has 1 entries and had 2. All since 2025-02-19T20:50Z"
        self.assertIn(said, self.lines())
        self.assertEqual(self.minutes(), list(range(36)))

    def restored(self, copy: dict[tuple[str, str, int], tuple[int, str]], entries: int) -> None:
        """The office goes on from a copy, and has so many entries by now."""
        self.office.kept, self.office.entries = dict(copy), entries

    def test_an_office_that_was_restored_and_ticked(self) -> None:
        self.office.has_rows_query = True
        self.feed.round()
        copy = dict(self.office.kept)
        for _ in range(6):
            self.clock.seconds += 600
            self.feed.round()
        self.restored(copy, self.office.entries)
        self.clock.seconds += 60
        self.assertEqual(self.feed.round(), End.DONE)
        self.assertIn("it doesn't have the row shop web_0 2025-02-19T22:49Z", self.lines())
        self.assertIn("All since 2025-02-19T21:49Z is read again", self.lines())
        self.assertEqual(self.minutes(), list(range(91)))
        self.assertEqual(self.office.again, 0)

    def test_an_office_that_cant_be_asked_for_rows_is_seen_by_its_entries(self) -> None:
        self.feed.round()
        copy, entries = dict(self.office.kept), self.office.entries
        for _ in range(3):
            self.clock.seconds += 60
            self.feed.round()
        # Fewer entries than the state knows, at a moment at which the objects aren't read again.
        self.restored(copy, entries)
        self.clock.seconds += 60
        self.assertEqual(self.feed.round(), End.DONE)
        self.assertIn("its newest entry is 2, and it had 5 already", self.lines())
        self.assertEqual(self.minutes(), list(range(34)))

    def test_a_row_that_somebody_corrected_is_no_other_history(self) -> None:
        self.office.has_rows_query = True
        self.feed.round()
        cell = ("shop", "web_0", BEGIN + 29)
        self.office.kept[cell] = (7, "1,1")
        self.clock.seconds += 60
        self.assertEqual(self.feed.round(), End.DONE)
        self.assertNotIn("taken back", self.lines())

    def test_a_new_office_gets_all_that_was_ever_read(self) -> None:
        self.office.has_rows_query = True
        self.feed.round()
        for _ in range(4):
            self.clock.seconds += 900
            self.feed.round()
        self.restored({}, self.office.entries + 9)
        self.clock.seconds += 60
        self.assertEqual(self.feed.round(), End.DONE)
        self.assertEqual(self.minutes(), list(range(91)))

    def test_witnesses_of_two_months_are_few(self) -> None:
        witnesses: list[Witness] = []
        for minute in range(BEGIN, BEGIN + 70 * 1440, 7):
            cell = Cell("shop", "all", minute)
            newest = Witness(minute, cell, Kept(1, Amount("1", 1)))
            witnesses = with_newest(witnesses, newest)
            self.assertEqual(witnesses[-1], newest)
        self.assertLess(len(witnesses), 130)
        ages = [newest.at - w.at for w in witnesses]
        self.assertEqual(ages, sorted(ages, reverse=True))
        steps = [a - b for a, b in zip(ages, ages[1:])]
        self.assertLessEqual(max(steps), 1447)
        self.assertLessEqual(max(s for a, s in zip(ages, steps) if a < 2800), 67)
        self.assertGreater(ages[0], 60 * 1440)

    def test_a_state_file_that_cant_be_written(self) -> None:
        self.feed = self.made(State(), save=True)
        (self.folder / "state.json").mkdir()
        self.assertEqual(self.feed.round(), End.STATE)
        self.assertEqual(len(self.minutes()), 30)

    def test_more_events_than_a_row_has(self) -> None:
        self.prometheus.samples_held.append(
            Sample(LABELS, (BEGIN + 5) * 60 + 30.0, 10**10, BEGIN * 60.0)
        )
        self.assertEqual(self.feed.round(), End.LEFT_OUT)
        self.assertIn("shop: web_0 2025-02-19T21:25Z: more than 10^9 events", self.lines())
        self.assertNotIn(5, self.minutes())

    def test_an_hour_without_scrapes_that_passed_while_it_ran_is_told(self) -> None:
        """The first row behind it has nothing before it, so nobody knows what was counted."""
        self.feed.round()
        held = self.prometheus.samples_held
        away = [s for s in held if not 30 <= (s.moment // 60 - BEGIN) < 95]
        self.prometheus.samples_held = away
        for _ in range(70):
            self.clock.seconds += 60
            self.feed.round()
        # Read a second time the scrape before lies within what is asked for.
        told = "shop: web:0 wasn't scraped from 2025-02-19T21:49Z to 2025-02-19T22:55Z, longer than"
        self.assertEqual(self.lines().count(told), 1, self.lines())
        self.assertEqual(self.lines().count("isn't known"), 1)

    def test_four_hours_without_scrapes(self) -> None:
        self.feed.round()
        held = self.prometheus.samples_held
        last = [Sample(s.labels, s.moment + 14400, s.value, s.shown + 14400) for s in held[-90:]]
        self.prometheus.samples_held = held[:90] + last
        for _ in range(400):
            self.clock.seconds += 60
            self.feed.round()
        told = "shop: no rows from 2025-02-19T21:50Z to 2025-02-20T02:30Z, longer than gap = 60 min"
        self.assertEqual(self.lines().count(told), 1, self.lines())
        self.assertEqual(self.lines().count("isn't known"), 1)

    def test_a_fault_of_its_own_ends_no_loop(self) -> None:
        with mock.patch.object(self.office, "objects", side_effect=KeyError("entries")):
            self.assertEqual(self.feed.round(), End.OFFICE)
        self.assertIn("the round ended by a fault of slo-feed's own (KeyError: ", self.lines())
        self.assertEqual(self.feed.round(), End.DONE)

    def test_an_engine_that_breaks_stops_no_other(self) -> None:
        texts = self.office.texts
        texts["DataSource/a"] = data_source("a", "Prometheus", url="http://y")
        texts["SLI/other"] = sli("other", "a", "m", "m")
        engine, broken = self.feed.engine_of, mock.Mock()
        broken.now.side_effect = ZeroDivisionError("x")
        self.feed.engine_of = lambda s: broken if s.name == "a" else engine(s)
        self.assertEqual(self.feed.round(), End.ENGINE)
        self.assertIn("a gave no answer (ZeroDivisionError: x)", self.lines())
        self.assertEqual(self.minutes(), list(range(30)))

    def test_an_object_that_cant_be_read_stops_no_other(self) -> None:
        self.office.texts["SLI/odd"] = "odd"
        with mock.patch("simulated.as_an_office_writes", side_effect=lambda t: t):
            texts = {
                k: as_an_office_writes(t) for k, t in self.office.texts.items() if t and t != "odd"
            }
            self.office.texts = {**texts, "SLI/odd": "odd: ["}
            self.assertEqual(self.feed.round(), End.LEFT_OUT)
        self.assertIn("SLI odd isn't fed: its object can't be read", self.lines())
        self.assertEqual(self.minutes(), list(range(30)))

    def test_a_line_that_holds_on_is_written_once(self) -> None:
        self.prometheus.clock = HeldClock(self.clock.seconds + 90)
        for _ in range(3):
            self.feed.round()
        self.prometheus.clock = self.clock
        self.feed.round()
        self.assertEqual(self.lines().count("set the clocks"), 2)
        self.assertIn("over: the clock of prom", self.lines())


class WitnessTest(unittest.TestCase):
    """Whether the office has a row that it acknowledged with revision 3 and 1 of 2 events."""

    def test_stands(self) -> None:
        witness = Witness(BEGIN, Cell("shop", "all", BEGIN), Kept(3, Amount("1", 2)))
        table: list[tuple[Optional[KeptRow], bool]] = [
            (KeptRow(3, "1", 2), True),
            (KeptRow(4, "9", 9), True),
            (KeptRow(4, None, None), True),
            (KeptRow(3, "2", 2), False),
            (KeptRow(3, None, None), False),
            (KeptRow(2, "1", 2), False),
            (None, False),
        ]
        office = mock.Mock()
        for row, answer in table:
            with self.subTest(row=row):
                office.row.return_value = row
                self.assertIs(stands(cast(Office, office), witness), answer)
        office.row.side_effect = NotFound(404, {"error": "not_found"})
        self.assertIsNone(stands(cast(Office, office), witness))


def pending_rows(count: int, revision: int = 1) -> list[Pending]:
    return [
        Pending(Cell("shop", "a", BEGIN + n), Amount("1", n + 1), revision, revision > 1)
        for n in range(count)
    ]


class SendingTest(unittest.TestCase):
    def setUp(self) -> None:
        clock = HeldClock((BEGIN + 5000) * 60.0)
        self.office = SimulatedOffice(clock, {"SLI/shop": ""}, BEGIN)

    def put(self, minute: int, revision: int, total: int) -> None:
        self.office.kept["shop", "a", BEGIN + minute] = (revision, f"1,{total}")

    def totals(self) -> list[str]:
        cells = sorted(self.office.kept)
        return [self.office.kept[cell][1] for cell in cells]

    def send(self, rows: list[Pending]) -> Sender:
        sender = Sender(self.office)
        sender.send(rows)
        return sender

    def test_batches_have_a_thousand_rows(self) -> None:
        sender = self.send(pending_rows(2500))
        self.assertEqual(self.office.batches, 3)
        self.assertEqual(sender.sent.counts, {"new": 2500, **ZEROS})

    def test_conflicts_and_hidden_rows(self) -> None:
        for has_query in (False, True):
            with self.subTest(has_query=has_query):
                self.setUp()
                self.office.has_rows_query = has_query
                for minute in range(0, 1000, 7):
                    self.put(minute, minute % 5 + 1, minute + 1 + minute % 3)
                same = [c for c, r in self.office.kept.items() if r[1] == f"1,{c[2] - BEGIN + 1}"]
                before = {c: self.office.kept[c] for c in same}
                sender = self.send(pending_rows(1000))
                self.assertEqual(self.totals(), [f"1,{n + 1}" for n in range(1000)])
                self.assertEqual(self.office.again, 0)
                self.assertEqual(before, {c: self.office.kept[c] for c in same})
                kept = {
                    (c.sli, c.source, c.minute): k.revision for c, k in sender.sent.kept.items()
                }
                self.assertEqual(kept, {c: r[0] for c, r in self.office.kept.items()})
                self.assertLess(self.office.batches, 900)

    def test_withdrawn_rows_give_way_to_what_the_engine_says(self) -> None:
        for has_query in (False, True):
            with self.subTest(has_query=has_query):
                self.setUp()
                self.office.has_rows_query = has_query
                for minute in range(0, 100, 7):
                    self.office.kept["shop", "a", BEGIN + minute] = (minute % 3 + 1, "withdrawn")
                sender = self.send(pending_rows(100))
                self.assertEqual(self.totals(), [f"1,{n + 1}" for n in range(100)])
                self.assertEqual(sender.sent.dropped, [])

    def test_corrections_go_in_small_batches(self) -> None:
        for minute in range(120):
            self.put(minute, 1, 9000)
        self.send(pending_rows(120, revision=2))
        self.assertEqual(self.office.batches, 3)
        self.assertEqual(self.totals(), [f"1,{n + 1}" for n in range(120)])


ZEROS = {"newer": 0, "repeated": 0, "superseded": 0}


class DueTest(unittest.TestCase):
    def asked(
        self,
        through: Optional[int],
        closed: int,
        every: int = 1,
        origin: Optional[int] = None,
        again: bool = False,
    ) -> Optional[tuple[int, int]]:
        from slo_tools.feed.engine import Form, Indicator

        indicator = Indicator("s", "e", Form.COUNTERS, "m", "m", None, "all", every, 10, 60)
        found = due(indicator, through, closed, 60, origin, again)
        return None if found is None else (found.begin, found.end)

    def test_minutes(self) -> None:
        self.assertEqual(self.asked(None, 1000), (941, 1001))
        self.assertEqual(self.asked(999, 1000), (990, 1001))
        self.assertEqual(self.asked(1000, 1000), None)
        self.assertEqual(self.asked(1000, 1000, again=True), (991, 1001))
        self.assertEqual(self.asked(500, 1000), (491, 1001))
        self.assertEqual(self.asked(None, 1000, origin=980), (980, 1001))
        self.assertEqual(self.asked(None, 1000, every=5), (940, 1000))
        self.assertEqual(self.asked(None, 1000, every=5, origin=982), (980, 1000))
        self.assertEqual(self.asked(999, 1003, every=5), None)
        self.assertEqual(self.asked(999, 1004, every=5), (990, 1005))
        self.assertEqual(self.asked(None, 10), (0, 11))

    def test_waiting_for_the_next_minute(self) -> None:
        self.assertEqual(seconds_to_next(120.0, 11), 11)
        self.assertEqual(seconds_to_next(130.0, 11), 1)
        self.assertEqual(seconds_to_next(131.0, 11), 60)
        self.assertEqual(seconds_to_next(132.0, 11), 59)


class StateTest(unittest.TestCase):
    def setUp(self) -> None:
        self.file = Path(self.enterContext(tempfile.TemporaryDirectory())) / "state.json"

    def test_both_ways(self) -> None:
        kept = {
            Cell("shop", "web_0", 5): Kept(3, Amount("1", 2)),
            Cell("slow", "all", 6): Kept(1, Amount("0.25")),
        }
        state = State(kept, {"shop": 5}, {"events": 99.5}, 7, 3, 2, 4)
        write_state(self.file, state)
        self.assertEqual(read_state(self.file), (state, None))

    def test_what_cant_be_used_is_as_nothing(self) -> None:
        texts = ["", "{", "[]", '{"version":2}', '{"version":1}', "null", '"x"', "[" * 100_000]
        texts += ["{" + '"a":{' * 100_000, "9" * 100_000, '{"version":[]}']
        for text in texts:
            with self.subTest(text[:20]):
                self.file.write_text(text)
                state, why = read_state(self.file)
                self.assertEqual(state, State())
                self.assertIsNotNone(why)

    def test_each_part_of_another_form_is_damage(self) -> None:
        write_state(self.file, self.whole())
        told = json.loads(self.file.read_text())
        odd: list[Any] = [None, [], "x", -1, 2**60, 1e300, float("nan"), float("inf"), True]
        odd += [
            {"x": None},
            {"x": float("inf")},
            {"x": {"y": {"z": 1}}},
            {"x": [1, 2, 3]},
            [[1, 2]],
        ]
        judged = 0
        for key in told.keys() - {"version"}:
            for value in odd:
                self.file.write_text(json.dumps({**told, key: value}))
                state, why = read_state(self.file)
                if why is None:
                    # What is taken can be written again, and a feed can go on with it.
                    write_state(self.file, state)
                    self.assertEqual(read_state(self.file), (state, None))
                judged += why is not None
        self.assertGreater(judged, 100)

    def whole(self) -> State:
        cell, kept = Cell("shop", "all", BEGIN), Kept(3, Amount("1", 2))
        witness = Witness(BEGIN + 2, cell, kept, {"slow": BEGIN - 9})
        return State(
            kept={cell: kept},
            through={"shop": BEGIN},
            marks={"events": 99.5},
            entries=7,
            origin=3,
            ways={"shop": Way("pod", "all", 5, 15)},
            rows={"shop": BEGIN},
            witnesses=[witness],
            began=BEGIN - 60,
        )

    def test_all_of_it_both_ways(self) -> None:
        write_state(self.file, self.whole())
        self.assertEqual(read_state(self.file), (self.whole(), None))

    def test_one_of_an_older_version(self) -> None:
        told = {"version": 1, "cells": {"s": {"a": {"5": [2, "1", 3]}}}, "through": {"s": 5}}
        told |= {"marks": {}, "entries": 4, "origin": None, "made": 2, "accepted": 3}
        self.file.write_text(json.dumps(told))
        state, why = read_state(self.file)
        self.assertIsNone(why)
        self.assertEqual(state.kept, {Cell("s", "a", 5): Kept(2, Amount("1", 3))})
        self.assertEqual((state.ways, state.witnesses), ({}, []))

    def test_a_full_disk(self) -> None:
        """Over a file system of 64 KiB, as root; the old state stands."""
        place = self.file.parent / "small"
        place.mkdir()
        words = ["mount", "-t", "tmpfs", "-o", "size=64k", "tmpfs", str(place)]
        if os.geteuid() != 0 or subprocess.run(words, capture_output=True).returncode != 0:
            self.skipTest("no file system can be mounted here")
        self.addCleanup(lambda: subprocess.run(["umount", str(place)], check=True))
        file = place / "state.json"
        write_state(file, State(entries=5))
        large = {Cell("s", "a", n): Kept(1, Amount("1", 1)) for n in range(9000)}
        with self.assertRaises(OSError) as caught:
            write_state(file, State(large))
        self.assertEqual(why_not_written(caught.exception), "No space left on device: make room")
        self.assertEqual(read_state(file)[0].entries, 5)

    def test_a_torn_new_file_is_no_harm(self) -> None:
        write_state(self.file, State(entries=5))
        self.file.with_name("state.json.new").write_text('{"vers')
        self.assertEqual(read_state(self.file)[0].entries, 5)
        write_state(self.file, State(entries=6))
        self.assertEqual(json.loads(self.file.read_text())["entries"], 6)

    def test_a_write_that_breaks_off_leaves_the_old_one(self) -> None:
        write_state(self.file, State(entries=5))
        with mock.patch("os.fsync", side_effect=OSError(28, "No space left on device")):
            with self.assertRaises(OSError):
                write_state(self.file, State(entries=6))
        self.assertEqual(read_state(self.file)[0].entries, 5)

    def test_only_what_differs_is_pending(self) -> None:
        a, b, c = (Cell("s", "x", m) for m in (3, 2, 1))
        kept = {a: Kept(4, Amount("1", 2)), b: Kept(2, Amount("1", 1))}
        found = pending(kept, {a: Amount("1", 2), b: Amount("1", 3), c: Amount("0", 1)})
        self.assertEqual(
            found, [Pending(c, Amount("0", 1), 1, False), Pending(b, Amount("1", 3), 3, True)]
        )


if __name__ == "__main__":
    unittest.main()
