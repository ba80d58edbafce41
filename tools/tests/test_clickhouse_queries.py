"""What ClickHouse is asked, and what becomes of its rows, without a server."""

from __future__ import annotations

import re
import unittest
from collections.abc import Iterable, Mapping, Sequence
from dataclasses import dataclass, field, replace
from pathlib import Path
from typing import Any, Optional, cast

from engines import data_source, sli
from simulated import HeldClock, SimulatedOffice

from slo_tools.feed.cells import Amount, Cell
from slo_tools.feed.clickhouse import ClickHouse, Table, merged
from slo_tools.feed.config import Config, IndicatorConfig
from slo_tools.feed.engine import Engine, Form, Indicator, QueryFault, Reading, TooLarge
from slo_tools.feed.quiet import quiet_rows
from slo_tools.feed.revisions import Kept
from slo_tools.feed.rounds import End, Feed
from slo_tools.feed.state import State
from slo_tools.feed.watch import Watch
from slo_tools.office import Office
from slo_tools.settings import Login


@dataclass
class Asked:
    """A ClickHouse that keeps the queries, tells of late events at one minute or at some, and
    refuses what names a word."""

    late: int
    minutes: Iterable[int] = ()
    refused: str = "no word"
    found: Sequence[tuple[Any, ...]] = ()
    queries: list[str] = field(default_factory=list)

    def rows(self, query: str) -> Sequence[tuple[Any, ...]]:
        self.queries.append(query)
        if self.refused in query:
            raise QueryFault("it can't be run")
        if "DISTINCT" in query:
            return [(minute,) for minute in self.minutes or [self.late]]
        return [(10**6 * 60,)] if "now()" in query else self.found


def made(name: str, part: str, total: Optional[str]) -> Indicator:
    return Indicator(name, "events", Form.COUNTS, part, total, None, "all", 1, 5, 60)


def indicator(name: str, every: int) -> Indicator:
    return replace(made(name, "a", "b"), every=every)


class QuietTest(unittest.TestCase):
    """Minutes without events."""

    def rows(self, counted: Mapping[int, int], kept: Mapping[int, int], end: int = 20) -> list[int]:
        """The minutes of rows 0/0 where so many events were told, and kept before."""
        one = replace(made("a", "p", "t"), look_back=3)
        told = {Cell("a", "all", m): Amount.counts(n, n) for m, n in counted.items()}
        reading = Reading(amounts=told, spans=[(10, end)])
        held = {Cell("a", "all", m): Kept(1, Amount.counts(n, n)) for m, n in kept.items()}
        found = quiet_rows(one, reading, held)
        self.assertEqual(set(found.values()) - {Amount("0", 0)}, set())
        return sorted(cell.minute for cell in found)

    def test_behind_events(self) -> None:
        self.assertEqual(self.rows({12: 5, 15: 1}, {}), [13, 14, 16, 17, 18, 19])
        self.assertEqual(self.rows({}, {9: 5}), list(range(10, 20)))
        self.assertEqual(self.rows({}, {9: 0}), list(range(10, 20)))

    def test_not_without_any_events_before(self) -> None:
        self.assertEqual(self.rows({}, {}), [])
        self.assertEqual(self.rows({}, {6: 5}), [])
        self.assertEqual(self.rows({19: 5}, {}), [])

    def test_never_in_place_of_events(self) -> None:
        """A replica that is behind tells of none where there were some."""
        self.assertEqual(self.rows({}, {9: 1, 10: 7, 11: 8}, 12), [])

    def test_each_source_of_the_look_back(self) -> None:
        one = replace(made("a", "p", "t"), label="host", look_back=3)
        told = {Cell("a", host, m): Amount("1", 1) for host, m in (("x", 10), ("y", 12))}
        found = quiet_rows(one, Reading(amounts=told, spans=[(10, 15)]), {})
        self.assertEqual(
            sorted((c.minute, c.source) for c in found),
            [(11, "x"), (13, "x"), (13, "y"), (14, "x"), (14, "y")],
        )

    def test_stretches_of_five_minutes(self) -> None:
        one = replace(made("a", "p", "t"), every=5, look_back=10)
        reading = Reading(amounts={Cell("a", "all", 14): Amount("1", 1)}, spans=[(10, 25)])
        self.assertEqual(sorted(c.minute for c in quiet_rows(one, reading, {})), [19, 24])

    def test_what_tells_of_no_events_isnt_taken_for_none(self) -> None:
        one = replace(made("a", "p", "t"), look_back=3)
        reading = Reading(amounts={Cell("a", "all", 10): Amount("1", 1)})
        self.assertEqual(quiet_rows(one, reading, {}), {})


class QuietRounds(unittest.TestCase):
    def test_a_quiet_quarter_of_an_hour_has_rows(self) -> None:
        """Events come in the first of each twenty minutes."""
        begin = 29_000_000
        clock = HeldClock(begin * 60.0 + 20)

        class Events:
            def rows(self, query: str) -> Sequence[tuple[Any, ...]]:
                if "now()" in query:
                    return [(int(clock.seconds),)]
                spans = re.findall(r"toDateTime\((\d+)\) AND at < toDateTime\((\d+)\)", query)
                minutes = [m for b, e in spans for m in range(int(b) // 60, int(e) // 60)]
                return [(minute, "", 3, 4) for minute in minutes if minute % 20 == 0]

        texts = {
            "DataSource/e": data_source("e", "ClickHouse", host="x", table="t", time="at"),
            "SLI/a": sli("a", "e", "p", "t"),
        }
        office = SimulatedOffice(clock, texts, has_rows_query=True)
        config = Config("", Login(), Path("s"), usual=IndicatorConfig(name="all", every=1), first=5)
        engine = cast(Engine, ClickHouse(Events(), Table("events", "at")))
        whole = cast(Office, office)
        feed = Feed(config, whole, lambda _: engine, State(), clock, Watch(), save=False)
        for _ in range(40):
            clock.seconds += 60
            self.assertEqual(feed.round(), End.DONE)
        rows = {minute - begin: row for (_, _, minute), (_, row) in office.kept.items()}
        self.assertEqual(sorted(rows), list(range(40)))
        self.assertEqual({m for m, row in rows.items() if row == "3,4"}, {0, 20})
        self.assertEqual({row for m, row in rows.items() if m % 20}, {"0,0"})


class QueriesTest(unittest.TestCase):
    def read(self, asked: dict[Indicator, tuple[int, int]], mark: Optional[float]) -> list[str]:
        client = Asked(late=5003)
        table = Table("events", "at", "came")
        self.answer = ClickHouse(client, table).read(asked, mark)
        return [query for query in client.queries if "now()" not in query]

    def test_one_query_counts_all_indicators_alike(self) -> None:
        asked = {indicator("a", 1): (10, 20), indicator("b", 1): (12, 20)}
        queries = self.read(asked, None)
        self.assertEqual(len(queries), 1)
        self.assertEqual(queries[0].count("countIf"), 4)
        self.assertIn("at >= toDateTime(600) AND at < toDateTime(1200)", queries[0])
        self.assertEqual(self.answer.mark, 10**6 * 60 - 120)

    def test_late_events_of_a_stretch_that_isnt_due(self) -> None:
        asked = {indicator("a", 1): (5996, 6006), indicator("b", 5): (6005, 6005)}
        late, minutes, fives = self.read(asked, 77.0)
        self.assertIn("came >= toDateTime(77)", late)
        self.assertIn(f"at < toDateTime({6006 * 60})", late)
        self.assertIn(f"at >= toDateTime({5003 * 60}) AND at < toDateTime({5004 * 60})", minutes)
        self.assertIn(f"at >= toDateTime({5000 * 60}) AND at < toDateTime({5005 * 60})", fives)

    def test_the_events_of_these_indicators_alone_are_read(self) -> None:
        asked = {made("a", "p1", "t1"): (5010, 5020), made("b", "p2", "t2"): (5010, 5020)}
        late, counts = self.read(asked, 600.0)
        for query in (late, counts):
            self.assertIn(" AND ((p1) OR (t1) OR (p2) OR (t2))", query)
        valued = replace(made("c", "max(x)", "w"), form=Form.VALUE)
        late, *counted = self.read({**asked, valued: (5010, 5020)}, 600.0)
        self.assertIn(" AND ((p1) OR (t1) OR (p2) OR (t2) OR (w))", late)
        self.assertEqual(len(counted), 2)
        self.assertIn(" AND ((w)) GROUP BY", counted[1])
        # A value of all events needs all events.
        late, *counted = self.read({**asked, replace(valued, total=None): (5010, 5020)}, 600.0)
        self.assertNotIn("(p1)", late)
        self.assertNotIn("(w)", counted[1])

    def test_a_condition_that_cant_be_run_hides_no_late_events_of_others(self) -> None:
        client = Asked(late=15, refused="broken")
        asked = {made(n, f"{n} > 0", "1"): (10, 20) for n in ("a", "b", "broken", "d", "e")}
        answer = ClickHouse(client, Table("events", "at", "came")).read(asked, 600.0)
        late = [q for q in client.queries if "DISTINCT" in q]
        self.assertGreater(len(late), 1)
        self.assertTrue(any("(a > 0)" in q and "broken" not in q for q in late))
        faults = {sli: r.faults for sli, r in answer.readings.items() if r.faults}
        self.assertEqual(faults, {"broken": {"query": "query: it can't be run"}})
        self.assertLess(len(client.queries), 20)

    def test_many_minutes_of_late_events_are_asked_for_in_parts(self) -> None:
        client = Asked(late=0, minutes=range(0, 1000, 2))
        ClickHouse(client, Table("events", "at", "came")).read(
            {made("a", "p", "t"): (998, 999)}, 9.0
        )
        counts = [q for q in client.queries if "countIf" in q]
        self.assertEqual(len(counts), 5)
        self.assertLess(max(map(len, counts)), 20_000)

    def test_an_answer_that_is_too_long_is_asked_for_in_parts(self) -> None:
        """Of at most 50 minutes; the same sums, each once."""

        class Short(Asked):
            def rows(self, query: str) -> Sequence[tuple[Any, ...]]:
                spans = re.findall(r"toDateTime\((\d+)\) AND at < toDateTime\((\d+)\)", query)
                minutes = [m for b, e in spans for m in range(int(b) // 60, int(e) // 60)]
                if len(minutes) > 50 or query.count("countIf") > 2:
                    raise TooLarge("an answer of many bytes")
                return [(minute, "", 1, 2) for minute in minutes]

        asked = {made("a", "p", "t"): (0, 700), made("b", "q", "t"): (0, 700)}
        answer = ClickHouse(Short(0), Table("events", "at")).read(asked)
        for sli, reading in answer.readings.items():
            self.assertEqual(reading.faults, {})
            self.assertEqual(sorted(c.minute for c in reading.amounts), list(range(700)))

    def test_two_values_that_get_one_name(self) -> None:
        labelled = replace(made("a", "p", "t"), label="host")
        client = Asked(
            0, found=[(10, "web:1", 1, 2), (10, "web/1", 3, 4), (10, "", 0, 1), (11, "none", 5, 6)]
        )
        reading = ClickHouse(client, Table("events", "at")).read({labelled: (10, 12)}).readings["a"]
        held = {(c.source, c.minute): (a.amount, a.total) for c, a in reading.amounts.items()}
        expected = {("web_1", 10): ("4", 6), ("none", 10): ("0", 1), ("none", 11): ("5", 6)}
        self.assertEqual(held, expected)
        told = "source web_1 stands for web/1, web:1: their events are summed (and 1 more)"
        self.assertEqual(reading.faults, {"source": told})

    def test_values_of_two_sources_that_get_one_name_are_none(self) -> None:
        labelled = replace(made("a", "max(x)", None), label="host", form=Form.VALUE)
        for found in ([("web:1", "0.9"), ("web/1", "0.1")], [("web/1", "0.1"), ("web:1", "0.9")]):
            client = Asked(0, found=[(10, host, text, 1) for host, text in found])
            answer = ClickHouse(client, Table("events", "at")).read({labelled: (10, 12)})
            reading = answer.readings["a"]
            self.assertEqual(reading.amounts, {})
            told = "source web_1 stands for web/1, web:1: no value is sent"
            self.assertEqual(reading.faults, {"source": told})

    def test_spans(self) -> None:
        self.assertEqual(merged([(5, 9), (1, 3), (3, 4), (8, 10), (7, 7)]), [(1, 4), (5, 10)])


if __name__ == "__main__":
    unittest.main()
