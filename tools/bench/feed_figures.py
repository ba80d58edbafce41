"""Measure the feed against a real Prometheus, a real ClickHouse and a real office."""

from __future__ import annotations

import logging
import os
import random
import sys
import tempfile
import time
from collections.abc import Iterator
from pathlib import Path

sys.path.insert(0, str(Path(__file__).resolve().parent.parent / "tests"))

from engines import (  # noqa: E402
    ClickHouseServer,
    PrometheusServer,
    config_file,
    data_source,
    feed,
    sli,
)
from support import OfficeServer  # noqa: E402

from slo_tools.clock import SystemClock  # noqa: E402
from slo_tools.feed.command import engine_maker, office_of  # noqa: E402
from slo_tools.feed.config import read_config  # noqa: E402
from slo_tools.feed.rounds import Feed  # noqa: E402
from slo_tools.feed.state import State  # noqa: E402
from slo_tools.feed.watch import Watch  # noqa: E402

SCRAPE = 15


def history(metrics: int, minutes: int, now: int) -> Iterator[str]:
    """Counters of one target, scraped each 15 s up to now: all events, and failures."""
    chance = random.Random(11)
    for number in range(metrics):
        yield f"# TYPE m{number} counter"
        for code in ("200", "500"):
            value = chance.randrange(10**6)
            for moment in range((now - minutes) * 60, now * 60, SCRAPE):
                value += chance.randrange(200 if code == "200" else 2)
                labels = f'job="web",instance="web:80",code="{code}"'
                yield f"m{number}_total{{{labels}}} {value} {moment}"


def objects(url: str, metrics: int) -> bytes:
    slis = "".join(
        sli(f"m{n}", "prom", f'm{n}_total{{code="500"}}', f"m{n}_total", word="bad")
        for n in range(metrics)
    )
    return (data_source("prom", "Prometheus", url=url) + slis).encode()


class Scene:
    """A Prometheus with history, an office, and a feed in this process."""

    def __init__(self, folder: Path, metrics: int, minutes: int, settings: str) -> None:
        self.now = int(time.time()) // 60
        self.prometheus = PrometheusServer(folder / "prometheus")
        self.prometheus.history("\n".join(history(metrics, minutes, self.now)) + "\n")
        self.prometheus.start()
        self.office = OfficeServer(folder / "office", self.now - minutes - 10).start()
        self.office.client().define(objects(self.prometheus.url, metrics))
        self.config = config_file(folder / "feed", self.office.address, settings)
        config = read_config(self.config)
        maker = engine_maker(config)
        self.feed = Feed(config, office_of(config), maker, State(), SystemClock(), Watch())

    def end(self) -> None:
        self.prometheus.kill()
        self.office.kill()


def steady_round(folder: Path, metrics: int, every: int) -> None:
    """The processor's time of a round that reads the look-back and a new row of each indicator."""
    settings = f"[indicators]\nevery = {every}\n[engine.prom]\nwait = 0\n"
    scene = Scene(folder, metrics, 120, settings)
    try:
        newest = (int(time.time()) // 60) // every * every - 1
        begin = newest - every - 10 + 1
        scene.feed.round(begin)
        took = []
        for _ in range(5):
            state = scene.feed.state
            rows = [c for c in state.kept if c.minute == newest]
            for cell in rows:
                del state.kept[cell]
            scene.feed._catalog_at = 0.0
            before = time.process_time()
            scene.feed.round(begin)
            took.append(time.process_time() - before)
    finally:
        scene.end()
    least, median = min(took), sorted(took)[len(took) // 2]
    print(
        f"{metrics} indicators, a row each {every} min: a round of {len(rows)} new rows takes "
        f"{least:.2f} s of the processor, median {median:.2f}: "
        f"{100 * median / (60 * every):.2f} parts of a hundred of a processor"
    )


def catch_up(folder: Path) -> None:
    """How long `--from` takes for a day of 20 indicators, by the clock."""
    scene = Scene(folder, 20, 1450, "")
    try:
        begin = time.monotonic()
        feed(scene.config, "--from", str(scene.now - 1440))
        took = time.monotonic() - begin
        rows = len(scene.office.rows())
        begin = time.monotonic()
        (folder / "feed" / "state.json").unlink()
        feed(scene.config, "--from", str(scene.now - 1440))
        again = time.monotonic() - begin
    finally:
        scene.end()
    print(
        f"a day of 20 indicators: {rows} rows in {took:.1f} s, again without a state {again:.1f} s "
        f"(load {os.getloadavg()[0]:.0f})"
    )


TABLE = """
CREATE TABLE events (at DateTime, came DateTime, host String, service String, status UInt16)
ENGINE = MergeTree PARTITION BY toDate(at) ORDER BY (service, at)
"""
FILL = """
INSERT INTO events SELECT toDateTime({begin} + intDiv(number * {span}, {count})) AS at, at AS came,
  concat('web-', toString(number % 3)) AS host,
  concat('s', toString(number % 200)) AS service,
  toUInt16(if(cityHash64(number) % 1000 = 0, 500, 200)) AS status
FROM system.numbers LIMIT {count}
"""


def events(folder: Path) -> None:
    """A week of events of 200 services in ClickHouse, of which ten are fed: a round, a day anew."""
    count = int(os.environ.get("EVENTS", "100000000"))
    now = int(time.time()) // 60
    clickhouse = ClickHouseServer(folder / "clickhouse").start()
    office = OfficeServer(folder / "office", now - 7 * 1440 - 10).start()
    try:
        clickhouse.run(TABLE)
        span = 7 * 86400 - 60
        begin = time.monotonic()
        clickhouse.run(FILL.format(begin=now * 60 - span, span=span, count=count))
        print(f"{count} events of a week inserted in {time.monotonic() - begin:.0f} s")
        source = data_source(
            "events",
            "ClickHouse",
            host="127.0.0.1",
            port=clickhouse.port,
            table="events",
            time="at",
            inserted="came",
            source="host",
        )
        slis = "".join(
            sli(
                f"s{n}",
                "events",
                f"service = ''s{n}'' AND status < 500",
                f"service = ''s{n}''",
            )
            for n in range(10)
        )
        office.client().define((source + slis).encode())
        config = read_config(
            config_file(folder / "feed", office.address, "[engine.events]\nwait = 0\n")
        )
        maker = engine_maker(config)
        feed = Feed(config, office_of(config), maker, State(), SystemClock(), Watch())
        begin = time.monotonic()
        feed.round(now - 1440)
        print(
            f"a day of 10 indicators by 3 hosts: {feed.state.made} rows in "
            f"{time.monotonic() - begin:.1f} s"
        )
        took = []
        for _ in range(5):
            feed.state.through = {sli: m - 1 for sli, m in feed.state.through.items()}
            begin = time.monotonic()
            feed.round()
            took.append(time.monotonic() - begin)
        print(
            f"a round with late events looked for over the week: least {min(took):.2f} s, "
            f"greatest {max(took):.2f} s (load {os.getloadavg()[0]:.0f})"
        )
    finally:
        clickhouse.kill()
        office.kill()


def main(words: list[str]) -> int:
    logging.basicConfig(level=logging.WARNING)
    figures = {
        "minute": lambda folder: steady_round(folder, 40, 1),
        "five": lambda folder: steady_round(folder, 200, 5),
        "day": catch_up,
        "events": events,
    }
    for name in words or figures:
        with tempfile.TemporaryDirectory() as folder:
            figures[name](Path(folder))
    return 0


if __name__ == "__main__":
    sys.exit(main(sys.argv[1:]))
