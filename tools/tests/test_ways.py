"""How the rows of an SLI are made where the configuration doesn't say it, and that rows made in two
ways are never counted twice."""

from __future__ import annotations

import contextlib
import io
import logging
import tempfile
import unittest
from collections.abc import Mapping
from pathlib import Path
from typing import Optional, cast
from unittest import mock

from engines import data_source, sli
from simulated import HeldClock, Sample, SimulatedOffice, SimulatedPrometheus

from slo_tools.feed.checking import check
from slo_tools.feed.config import Config, IndicatorConfig
from slo_tools.feed.engine import Engine, OddAnswer
from slo_tools.feed.prometheus import Prometheus
from slo_tools.feed.rounds import End, Feed, spread_of
from slo_tools.feed.state import State, Way, read_state, write_state
from slo_tools.feed.watch import Watch
from slo_tools.office import Office
from slo_tools.settings import Login

BEGIN = 29_000_000
# Two targets count 10 events each 20 seconds.
EVENTS_A_MINUTE = 60


def samples() -> list[Sample]:
    found = []
    for target in ("web:0", "web:1"):
        labels = frozenset({"job": "web", "instance": target, "__name__": "m"}.items())
        moments = (BEGIN * 60 + n * 20.0 for n in range(900))
        found += [Sample(labels, t, n * 10, t) for n, t in enumerate(moments)]
    return found


def slo(name: str, indicator: str, more: str = "", duration: str = "30d") -> str:
    return f"""apiVersion: openslo/v1
kind: SLO
metadata:
  name: {name}
spec:
  service: web
  indicatorRef: {indicator}
  timeWindow:
  - duration: {duration}
    isRolling: true
  budgetingMethod: Occurrences
  objectives:
  - target: 0.99
{more}"""


SLICES = "    timeSliceTarget: 0.9\n    timeSliceWindow: 1m\n"


class Scene(unittest.TestCase):
    def setUp(self) -> None:
        self.logs = self.enterContext(self.assertLogs("slo-feed", logging.INFO))
        logging.getLogger("slo-feed").info("begun")
        self.folder = Path(self.enterContext(tempfile.TemporaryDirectory()))
        self.clock = HeldClock((BEGIN + 32) * 60.0 + 12)
        self.prometheus = SimulatedPrometheus(self.clock, samples())
        texts = {
            "DataSource/prom": data_source("prom", "Prometheus", url="http://x"),
            "SLI/shop": sli("shop", "prom", "m", "m"),
        }
        self.office = SimulatedOffice(self.clock, texts, BEGIN, has_rows_query=True)
        self.engine = cast(Engine, Prometheus(self.prometheus))

    def config(self, own: IndicatorConfig = IndicatorConfig()) -> Config:
        return Config("", Login(), self.folder / "state.json", usual=own)

    def fed(
        self, state: State, minutes: int = 1, begin: Optional[int] = None, **said: object
    ) -> State:
        """A feed that begins with a state, and what it remembers behind some minutes."""
        own = IndicatorConfig(**said)  # type: ignore[arg-type]
        office = cast(Office, self.office)
        feed = Feed(
            self.config(own), office, lambda _: self.engine, state, self.clock, Watch(), False
        )
        for _ in range(minutes):
            self.assertEqual(feed.round(begin), End.DONE, self.lines())
            self.clock.seconds += 60
        return feed.state

    def lines(self) -> str:
        return "\n".join(self.logs.output)

    def sources(self) -> Mapping[str, list[int]]:
        found: dict[str, list[int]] = {}
        for _, source, minute in sorted(self.office.kept):
            found.setdefault(source, []).append(minute - BEGIN)
        return found

    def events(self) -> int:
        return sum(int(row.split(",")[1]) for _, row in self.office.kept.values())

    def check_each_event_counts_once(self, newest: int) -> None:
        """All of both targets up to the end of a minute, but for their first scrapes."""
        self.assertEqual(self.events(), EVENTS_A_MINUTE * (newest + 1))

    def old(self, state: State) -> State:
        """A state as it was written up to version 1.5.6."""
        return State(state.kept, state.through, state.marks, state.entries)


class SourcesTest(Scene):
    def test_a_new_sli_has_its_sources_summed(self) -> None:
        self.fed(State(), 3)
        self.assertEqual(list(self.sources()), ["all"])
        self.check_each_event_counts_once(33)

    def test_an_sli_that_was_fed_by_an_older_version_keeps_its_sources(self) -> None:
        before = self.fed(State(), 2, label="instance")
        self.fed(self.old(before), 5)
        self.assertEqual(list(self.sources()), ["web_0", "web_1"])
        self.assertIn("shop: a row a minute, by instance, as those that stand", self.lines())
        self.assertIn('Write label = "instance" and every = 1 under [indicators]', self.lines())
        self.assertEqual(self.lines().count("as those that stand"), 1)
        self.check_each_event_counts_once(37)

    def test_a_change_holds_from_the_next_minute_on(self) -> None:
        before = self.fed(State(), 2, label="instance")
        after = self.fed(before, 5, name="all")
        self.assertEqual(self.sources()["web_0"], list(range(33)))
        self.assertEqual(self.sources()["all"], list(range(33, 38)))
        self.check_each_event_counts_once(37)
        self.assertIn("shop: from 2025-02-19T21:53Z on a row a minute, summed as all", self.lines())
        self.assertEqual(after.ways["shop"], Way(None, "all", 1, BEGIN + 33))
        # Neither does a back-fill count the minutes before twice.
        self.fed(after, 2, begin=BEGIN, name="all")
        self.check_each_event_counts_once(39)

    def test_rows_of_five_minutes_from_the_next_minute_on(self) -> None:
        before = self.fed(State(), 2, every=1)
        after = self.fed(before, 20, every=5)
        self.assertEqual(self.sources()["all"][:38], [*range(33), 34, 39, 44, 49])
        self.check_each_event_counts_once(49)
        # And back, with one more change in the middle of a stretch.
        self.fed(after, 12, every=1)
        self.check_each_event_counts_once(int(self.clock.seconds // 60) - BEGIN - 2)

    def test_a_lost_state_is_made_up_for_by_the_rows_that_stand(self) -> None:
        self.fed(State(), 2, label="instance")
        self.fed(State(), 3)
        self.assertEqual(list(self.sources()), ["web_0", "web_1"])
        self.check_each_event_counts_once(35)
        self.clock.seconds += 40 * 60
        self.fed(State(), 2)
        self.fed(State(), 2, begin=BEGIN)
        self.assertEqual(list(self.sources()), ["web_0", "web_1"])
        self.check_each_event_counts_once(79)

    def test_a_lost_state_and_rows_of_five_minutes(self) -> None:
        self.fed(State(), 2, every=5)
        self.fed(State(), 9)
        self.assertTrue(all(minute % 5 == 4 for minute in self.sources()["all"]))

    def test_an_engine_that_doesnt_say_its_sources_leaves_the_sli_undecided(self) -> None:
        self.fed(State(), 2, label="instance")
        office = cast(Office, self.office)
        feed = Feed(
            self.config(), office, lambda _: self.engine, State(), self.clock, Watch(), False
        )
        samples = self.prometheus.samples
        with mock.patch.object(self.prometheus, "samples", side_effect=OddAnswer("odd")):
            self.assertEqual(feed.round(), End.LEFT_OUT)
        self.assertIn("shop: odd", self.lines())
        self.assertEqual(feed.state.ways, {})
        self.assertEqual(self.prometheus.samples, samples)
        self.assertEqual(feed.round(), End.DONE)
        self.assertEqual(list(self.sources()), ["web_0", "web_1"])

    def test_the_state_keeps_it(self) -> None:
        state = self.fed(State(), 1, label="instance", every=5)
        write_state(self.folder / "s", state)
        kept, why = read_state(self.folder / "s")
        self.assertEqual((kept, why), (state, None))
        self.assertEqual(kept.ways["shop"], Way("instance", "all", 5))


class RoomTest(Scene):
    """The office has room for so many days of one row a minute."""

    def room(self, days: float) -> None:
        self.enterContext(mock.patch("slo_tools.feed.ways.cells_of", lambda *_: int(days * 1440)))

    def checked(self, **said: object) -> str:
        own = IndicatorConfig(**said)  # type: ignore[arg-type]
        told = io.StringIO()
        with contextlib.redirect_stdout(told):
            office = cast(Office, self.office)
            self.status = check(self.config(own), office, lambda _: self.engine, self.clock)
        return told.getvalue()

    def test_rows_of_five_minutes_where_the_office_wouldnt_reach(self) -> None:
        self.room(60.9)
        self.fed(State(), 3)
        self.assertEqual(self.sources()["all"], [4, 9, 14, 19, 24, 29])

    def test_rows_by_the_minute_where_it_reaches(self) -> None:
        self.room(61)
        self.fed(State(), 1)
        self.assertEqual(len(self.sources()["all"]), 32)

    def test_the_longest_window_counts(self) -> None:
        self.office.texts["SLO/long"] = slo("long", "shop", duration="90d")
        self.room(120)
        self.fed(State(), 3)
        self.assertEqual(self.sources()["all"], [4, 9, 14, 19, 24, 29])

    def test_slices_of_a_minute_keep_their_rows(self) -> None:
        self.office.texts["SLO/fine"] = slo("fine", "shop", SLICES)
        self.room(10)
        self.fed(State(), 1)
        self.assertEqual(len(self.sources()["all"]), 32)

    def test_what_is_said_stays(self) -> None:
        self.room(1)
        self.fed(State(), 1, every=1)
        self.assertEqual(len(self.sources()["all"]), 32)

    def test_an_sli_that_was_fed_before_keeps_its_rows(self) -> None:
        before = self.fed(State(), 1, label="instance")
        self.room(1)
        self.fed(self.old(before), 3)
        self.assertEqual(self.sources()["web_0"], list(range(35)))

    def test_check_says_how_long_the_office_lasts(self) -> None:
        self.room(244)
        self.assertIn(
            "room: 1440 rows a day, so an empty office lasts 244 days; its longest window and a "
            "month are 61 days\n",
            self.checked(),
        )
        self.assertEqual(self.office.kept, {})

    def test_check_says_what_to_change(self) -> None:
        self.room(40)
        told = self.checked(label="instance", every=1)
        self.assertIn("room: 2880 rows a day, so an empty office lasts 20 days;", told)
        self.assertIn('room: too little: write sum = "all" in place of a label; or', told)
        self.assertIn("write every = 5; or upgrade the office", told)
        self.assertIn("make 4 offices of it", told)
        self.assertEqual(self.status, End.DONE)

    def test_check_remembers_nothing(self) -> None:
        self.checked()
        self.assertEqual(list(self.folder.iterdir()), [])


class SpreadTest(unittest.TestCase):
    def test_feeds_of_many_offices_begin_at_other_seconds(self) -> None:
        def config(number: int, spread: int) -> Config:
            return Config(f"http://127.0.0.1:{8000 + number}", Login(), Path("s"), spread=spread)

        seconds = [spread_of(config(n, 10)) for n in range(50)]
        self.assertGreater(len(set(seconds)), 8)
        self.assertTrue(all(0 <= s <= 10 for s in seconds))
        self.assertLess(max(seconds.count(s) for s in set(seconds)), 12)
        self.assertEqual(seconds, [spread_of(config(n, 10)) for n in range(50)])
        self.assertEqual({spread_of(config(n, 0)) for n in range(50)}, {0})


if __name__ == "__main__":
    unittest.main()
