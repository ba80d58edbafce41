"""Random histories of counters, scrapes and stops against a plain computation.

SLO_FEED_HISTORIES says how many, 1,000 where it doesn't; SLO_FEED_SEED which, else others each time.
"""

from __future__ import annotations

import logging
import os
import random
import tempfile
import unittest
from collections import defaultdict
from pathlib import Path
from typing import Any, cast

from hypothesis import HealthCheck, Phase, given, seed, settings
from hypothesis import strategies as st

from engines import data_source, sli
from simulated import HeldClock, Sample, SimulatedOffice, SimulatedPrometheus

from slo_tools.feed.config import Config, IndicatorConfig
from slo_tools.feed.engine import Engine
from slo_tools.feed.prometheus import Prometheus
from slo_tools.feed.rounds import Feed
from slo_tools.feed.state import State
from slo_tools.feed.watch import Watch
from slo_tools.office import Office
from slo_tools.settings import Login

HISTORIES = int(os.environ.get("SLO_FEED_HISTORIES", "1000"))
# The least history that fails is for people, and looked for in minutes.
SHRINKS = os.environ.get("SLO_FEED_SHRINK", "1") != "0"
SEED = int(os.environ.get("SLO_FEED_SEED") or random.randrange(2**32))
BEGIN = 29_000_000
MINUTES = 16
LOOK_BACK = 5
GAP = 4
INTERVAL = 20


@st.composite
def histories(draw: st.DrawFn) -> list[Sample]:
    """Scrapes of two targets: events, resets, scrapes that are missed, late, or of a target that
    is away; a series of failures that begins with the first one."""
    samples = []
    for target in range(draw(st.integers(1, 2))):
        instance = f"web:{target}"
        offset = draw(st.sampled_from([0.0, 0.001, 7.5, 19.999]))
        values = {"200": 0}
        away = 0
        for number in range(MINUTES * 60 // INTERVAL):
            # One number a scrape keeps the drawing cheap: which event, how much, how late.
            event, amount, late = digits(draw(st.integers(0, 25 * 51 * 241 - 1)))
            if event == 0:
                values = {"200": amount}
            elif event == 1:
                away = amount % 8 + 1
            elif event == 2:
                values["500"] = values.get("500", 0) + amount
            else:
                values["200"] += amount
            if away:
                away -= 1
                continue
            moment = BEGIN * 60 + number * INTERVAL + offset
            late = late if event == 3 else late % 10
            for code, value in values.items():
                pairs = {"job": "web", "instance": instance, "code": code, "__name__": "m"}
                samples.append(Sample(frozenset(pairs.items()), moment, value, moment + late))
    return samples


def digits(number: int) -> tuple[int, int, int]:
    rest, event = divmod(number, 25)
    late, amount = divmod(rest, 51)
    return event, amount, late


def plainly(samples: list[Sample], first: int, last: int) -> dict[tuple[str, str, int], str]:
    """What the rows of [first, last] have to be: written apart from the feed's own code, scrape
    by scrape over each target's whole list."""
    scrapes: dict[str, dict[float, dict[str, int]]] = defaultdict(lambda: defaultdict(dict))
    for sample in samples:
        labels = dict(sample.labels)
        scrapes[labels["instance"]][sample.moment][labels["code"]] = sample.value
    sums: dict[tuple[str, int], list[int]] = {}
    for instance, by_time in scrapes.items():
        times = sorted(by_time)
        for code in ("200", "500"):
            shown = [t for t in times if code in by_time[t]]
            for place, t in enumerate(shown):
                earlier = [u for u in times if u < t and u >= t - GAP * 60]
                if not earlier:
                    continue
                value = by_time[t][code]
                if place and shown[place - 1] >= t - GAP * 60:
                    before = by_time[shown[place - 1]][code]
                    value = value - before if value >= before else value
                minute = int(-(-t // 60)) - 1
                pair = sums.setdefault((instance, minute), [0, 0])
                pair[0] += value if code == "500" else 0
                pair[1] += value
    return {
        ("shop", instance.replace(":", "_"), minute): f"{pair[0]},{pair[1]}"
        for (instance, minute), pair in sums.items()
        if first <= minute <= last
    }


def texts() -> dict[str, str]:
    return {
        "DataSource/prom": data_source("prom", "Prometheus", url="http://x"),
        "SLI/shop": sli("shop", "prom", 'm{code="500"}', "m", word="bad"),
    }


class World:
    """A feed over a simulated engine and office."""

    def __init__(self, folder: Path, samples: list[Sample]) -> None:
        self.clock = HeldClock(BEGIN * 60.0)
        self.prometheus = SimulatedPrometheus(self.clock, samples)
        self.office = SimulatedOffice(self.clock, texts(), BEGIN - 100)
        usual = IndicatorConfig(label="instance", look_back=LOOK_BACK, gap=GAP)
        file = folder / "state.json"
        file.unlink(missing_ok=True)
        self.config = Config("", Login(), file, first=MINUTES + LOOK_BACK, usual=usual)
        self.feed = self.made(State())

    def made(self, state: State) -> Feed:
        engine = cast(Engine, Prometheus(self.prometheus))
        office = cast(Office, self.office)
        return Feed(self.config, office, lambda _: engine, state, self.clock, Watch(), save=False)

    def round(self, minute: int) -> None:
        self.clock.seconds = minute * 60 + 12.0
        self.feed.round()

    def held(self) -> dict[tuple[str, str, int], str]:
        return {cell: amount for cell, (_, amount) in self.office.kept.items()}


FAULTS = st.sampled_from(["none"] * 6 + ["stop", "state", "before", "behind", "asleep"])
COMMON: dict[str, Any] = {
    "deadline": None,
    "suppress_health_check": list(HealthCheck),
    "max_examples": HISTORIES,
    "phases": (Phase.generate, Phase.shrink) if SHRINKS else (Phase.generate,),
    "database": None,
}


class HistoriesTest(unittest.TestCase):
    def setUp(self) -> None:
        logging.disable(logging.CRITICAL)
        self.addCleanup(logging.disable, logging.NOTSET)
        self.folder = Path(self.enterContext(tempfile.TemporaryDirectory()))

    @seed(SEED)
    @settings(**COMMON)
    @given(histories(), st.lists(FAULTS, min_size=MINUTES, max_size=MINUTES), st.booleans())
    def test_the_office_holds_what_the_engine_says(
        self, samples: list[Sample], faults: list[str], has_rows_query: bool
    ) -> None:
        world = World(self.folder, samples)
        world.office.has_rows_query = has_rows_query
        for minute, fault in enumerate(faults, BEGIN + 1):
            if fault == "asleep":
                continue
            if fault == "state":
                world.feed = world.made(State())
            elif fault == "stop":
                world.feed = world.made(world.feed.state)
            elif fault in ("before", "behind"):
                world.office.losses = [fault == "behind"]
            world.round(minute)
            world.office.losses = []
        for minute in range(BEGIN + MINUTES + 1, BEGIN + MINUTES + LOOK_BACK + 1):
            world.round(minute)
        wanted = plainly(samples, BEGIN, BEGIN + MINUTES + LOOK_BACK)
        self.assertEqual(world.held(), wanted, f"seed {SEED}")
        self.assertEqual(world.office.again, 0, f"accepted twice: an equal amount, seed {SEED}")


if __name__ == "__main__":
    unittest.main()
