"""Numbers, and random answers of each engine: whatever comes is the fault of what was asked alone.

SLO_FEED_ANSWERS says how many answers of each engine are tried, 2,000 where it doesn't; SLO_FEED_SEED
which, else others each time.
"""

from __future__ import annotations

import json
import logging
import os
import random
import tempfile
import unittest
from pathlib import Path
from typing import Any, cast

from engines import data_source, sli, success
from simulated import HeldClock, SimulatedOffice

from slo_tools.feed.cells import Cell
from slo_tools.feed.clickhouse import ClickHouse, Table
from slo_tools.feed.config import Config, IndicatorConfig
from slo_tools.feed.engine import Engine, EngineError, OddAnswer, QueryFault
from slo_tools.feed.numbers import NoNumber, NotWhole, number_of, shown, whole
from slo_tools.feed.prometheus import Prometheus
from slo_tools.feed.prometheus_client import PrometheusClient, data_of, seconds_of, series_of
from slo_tools.feed.rounds import End, Feed
from slo_tools.feed.state import State
from slo_tools.feed.watch import Watch
from slo_tools.office import Office
from slo_tools.settings import Login
from slo_tools.wire import Peer, Reply, address_of

ANSWERS = int(os.environ.get("SLO_FEED_ANSWERS", "2000"))
SEED = int(os.environ.get("SLO_FEED_SEED") or random.randrange(2**32))
MANY_DIGITS = "9" * 5000
LABELS = {"__name__": "odd", "job": "web", "instance": "web:2"}


class NumbersTest(unittest.TestCase):
    def test_numbers(self) -> None:
        self.assertEqual([whole(t) for t in ("7", "7.0", "1e+21", 5)], [7, 7, 10**21, 5])
        self.assertEqual(str(number_of("-1.50")), "-1.50")
        self.assertIsNone(number_of("NaN"))
        self.assertIsNone(number_of(None))

    def test_what_is_none(self) -> None:
        odd: list[object] = ["", "abc", MANY_DIGITS, "1E+99999999", "Inf", "-inf", "1_000", "²"]
        odd += ["٣", " 7", True, [], {}, 10**5000, float("inf"), b"7", "0x10", "1e4000"]
        for value in odd:
            with self.subTest(shown(value)), self.assertRaises(NoNumber):
                number_of(value)
        for value in ("7.5", "-1", "1e-3"):
            with self.subTest(value), self.assertRaises(NotWhole):
                whole(value)
        with self.assertRaises(NoNumber):
            whole("NaN")

    def test_how_a_value_is_shown(self) -> None:
        self.assertEqual(shown("a" * 41), "a" * 40 + "..")
        self.assertEqual(shown("a\nb\x1b[31m"), repr("a\nb\x1b[31m"))
        self.assertEqual(shown([1]), "a list")
        self.assertEqual(shown(10**5000), "a number of many digits")

    def test_durations(self) -> None:
        told = {"10s": 10.0, "1m": 60.0, "1m30s": 90.0, "500ms": 0.5, "1h": 3600.0}
        self.assertEqual({text: seconds_of(text) for text in told}, told)
        for text in ("", "10", "s", "1d", "9999999s", "1s1m"):
            with self.subTest(text), self.assertRaises(ValueError):
                seconds_of(text)


# Random answers


class Stub(PrometheusClient):
    """A client whose answers are made here. Its clock is right, and `good` rises by 10."""

    def __init__(self, clock: HeldClock) -> None:
        super().__init__(Peer(address_of("http://127.0.0.1:1")))
        self.clock = clock
        self.odd: tuple[int, bytes] = (200, b"")

    def _reply(self, what: str, form: str, seconds: float) -> Reply:
        if "query=odd" in form:
            return Reply(self.odd[0], {}, self.odd[1])
        if "time%28%29" in form:
            now = self.clock.now()
            return Reply(200, {}, success("scalar", [now, str(now)]))
        first = int(self.clock.now() // 20) - 30
        values = [[n * 20, str(n * 10)] for n in range(first, first + 31)]
        metric = {"__name__": "good", "job": "web", "instance": "web:1"}
        return Reply(200, {}, success("matrix", [{"metric": metric, "values": values}]))


JUNK: list[Any] = [
    None,
    True,
    {},
    [],
    "",
    "abc",
    "NaN",
    "+Inf",
    "1E+99999999",
    MANY_DIGITS,
    -1,
    2**70,
]
JUNK += [1e300, "7", 7, [[1, "2"]], {"a": 1}, "\u0085\x1b[2J", 0.5, "matrix", [None] * 3]


def mutated(chance: random.Random, node: Any) -> Any:
    """A JSON value in which something is another thing."""
    if chance.random() < 0.15 or not isinstance(node, (dict, list)) or not node:
        return chance.choice(JUNK)
    if isinstance(node, dict):
        key = chance.choice(list(node))
        rest = {k: v for k, v in node.items() if k != key or chance.random() < 0.9}
        return {**rest, key: mutated(chance, node[key])} if key in rest else rest
    place = chance.randrange(len(node))
    return [*node[:place], mutated(chance, node[place]), *node[place + 1 :]]


def random_answer(chance: random.Random, now: float) -> tuple[int, bytes]:
    begin = int(now) - 600
    values: list[list[Any]] = [[begin + 20 * n, str(n)] for n in range(30)]
    told: Any = json.loads(success("matrix", [{"metric": LABELS, "values": values}]))
    for _ in range(chance.randrange(1, 4)):
        told = mutated(chance, told)
    content = bytearray(json.dumps(told).encode())
    if chance.random() < 0.4:
        for _ in range(chance.randrange(1, 4)):
            content[chance.randrange(len(content))] = chance.randrange(256)
    if chance.random() < 0.2:
        del content[chance.randrange(len(content)) :]
    return chance.choice([200, 200, 200, 200, 400, 500]), bytes(content)


class Fuzzed(unittest.TestCase):
    """A feed of two indicators over an office in memory; one of them is answered at random."""

    def setUp(self) -> None:
        logging.disable(logging.CRITICAL)
        self.addCleanup(logging.disable, logging.NOTSET)
        self.folder = Path(self.enterContext(tempfile.TemporaryDirectory()))
        self.chance = random.Random(SEED)
        self.clock = HeldClock(29_000_000 * 60.0 + 20)

    def made(self, engine: Engine, kind: str) -> tuple[Feed, SimulatedOffice]:
        texts = {
            "DataSource/e": data_source("e", kind, url="http://x"),
            "SLI/good": sli("good", "e", "good", "good"),
            "SLI/odd": sli("odd", "e", "odd", "odd"),
        }
        office = SimulatedOffice(self.clock, texts, has_rows_query=True)
        usual = IndicatorConfig(name="all", every=1, look_back=2)
        config = Config("", Login(), self.folder / "state", first=3, usual=usual)
        made = Feed(
            config, cast(Office, office), lambda _: engine, State(), self.clock, Watch(), save=False
        )
        return made, office

    def test_prometheus(self) -> None:
        stub = Stub(self.clock)
        ours, office = self.made(cast(Engine, Prometheus(stub, wait=15.0)), "Prometheus")
        ends: dict[End, int] = {}
        for _ in range(ANSWERS):
            self.clock.seconds += 60
            stub.odd = random_answer(self.chance, self.clock.seconds)
            end = ours.round()
            ends[end] = ends.get(end, 0) + 1
            minute = int(self.clock.seconds // 60) - 1
            self.assertEqual(office.kept.get(("good", "all", minute)), (1, "30,30"), f"seed {SEED}")
            self.assertIn(end, (End.DONE, End.LEFT_OUT), f"seed {SEED}: {stub.odd!r}")
        self.assertGreater(ends[End.LEFT_OUT], ANSWERS // 4)

    def test_clickhouse(self) -> None:
        chance = self.chance

        class Rows:
            def __init__(self, clock: HeldClock) -> None:
                self.clock = clock

            def rows(self, query: str) -> Any:
                if "now()" in query:
                    return [(int(self.clock.now()),)]
                minute = int(query.rpartition("at < toDateTime(")[2].partition(")")[0]) // 60 - 1
                odd, good = "countIf(odd)" in query, "countIf(good)" in query
                row: list[Any] = [minute, "", *([30, 30] if good else []), *([5, 9] if odd else [])]
                if not odd:
                    return [tuple(row)]
                event = chance.random()
                if event < 0.1:
                    raise chance.choice([QueryFault("x"), OddAnswer("y")])
                if event < 0.2:
                    return chance.choice([[], [()], [None], [(None,) * len(row)], ["abcdef"]])
                row[chance.randrange(len(row))] = chance.choice([*JUNK, minute + 5, 10**12])
                return [tuple(row)]

        engine = ClickHouse(Rows(self.clock), Table("events", "at"), wait=15.0)
        ours, office = self.made(cast(Engine, engine), "ClickHouse")
        ends: dict[End, int] = {}
        for _ in range(ANSWERS):
            self.clock.seconds += 60
            end = ours.round()
            ends[end] = ends.get(end, 0) + 1
            self.assertIn(end, (End.DONE, End.LEFT_OUT), f"seed {SEED}")
        self.assertGreater(ends[End.LEFT_OUT], ANSWERS // 4)
        good = sum(cell[0] == "good" for cell in office.kept)
        self.assertGreater(good, ANSWERS * 0.9)

    def test_what_the_readers_take_for_an_answer(self) -> None:
        """Whatever comes, they raise one of their own faults."""
        for _ in range(ANSWERS):
            status, content = random_answer(self.chance, self.clock.seconds)
            try:
                for series in series_of(data_of(status, content)):
                    self.assertIsInstance(
                        Cell("a", "b", int(sum(t for t, _ in series.values))), Cell
                    )
            except (QueryFault, EngineError):
                continue


if __name__ == "__main__":
    unittest.main()
