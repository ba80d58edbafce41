"""A real ClickHouse and a real office: events, late ones, stops, and both feeds at once."""

from __future__ import annotations

import random
import tempfile
import threading
import time
import unittest
from collections import defaultdict
from dataclasses import dataclass
from datetime import datetime, timedelta
from decimal import Decimal
from pathlib import Path
from typing import Any, Optional

from engines import ClickHouseServer, PrometheusServer, config_file, data_source, feed, sli
from support import OfficeServer, differences, free_port

from slo_tools.feed.clickhouse import ClickHouse, Table
from slo_tools.feed.engine import Form, Indicator

TABLE = """
CREATE TABLE events (at DateTime, came DateTime DEFAULT now(), host String, service String,
  status UInt16, seconds Float64)
ENGINE = MergeTree PARTITION BY toDate(at) ORDER BY (service, at)
"""
SLOW = """---
apiVersion: openslo/v1
kind: SLI
metadata:
  name: slow
spec:
  thresholdMetric:
    metricSource:
      metricSourceRef: events
      spec:
        query: max(seconds)
        where: service = 'shop'
"""
Rows = dict[tuple[str, str, int], str]


@dataclass(frozen=True)
class Event:
    """An event as the table has it."""

    at: int
    host: str
    service: str
    status: int
    seconds: float


def events(begin: int, end: int, count: int, seed: int) -> list[Event]:
    chance = random.Random(seed)
    return [
        Event(
            chance.randrange(begin * 60, end * 60),
            chance.choice(["web:1", "web:2", "api"]),
            chance.choice(["shop", "shop", "desk"]),
            chance.choice([200] * 20 + [404, 500, 503]),
            chance.randrange(1, 4000) / 1000,
        )
        for _ in range(count)
    ]


def insert(server: ClickHouseServer, added: list[Event]) -> None:
    epoch = datetime(1970, 1, 1)
    rows = [
        (epoch + timedelta(seconds=e.at), e.host, e.service, e.status, e.seconds) for e in added
    ]
    server.run("INSERT INTO events (at, host, service, status, seconds) VALUES", rows)


def plainly(held: list[Event], closed: int) -> Rows:
    """The rows of all events of minutes before `closed`, by a count of each event by itself."""
    counts: dict[Any, list[int]] = defaultdict(lambda: [0, 0])
    waits: dict[Any, list[float]] = defaultdict(list)
    for event in held:
        minute = event.at // 60
        host = event.host.replace(":", "_")
        five = minute // 5 * 5 + 4
        if event.service == "shop":
            shop = counts["shop", host, minute]
            shop[0] += event.status < 500
            shop[1] += 1
            waits["slow", host, minute].append(event.seconds)
        fives = counts["fives", "everyone", five]
        fives[0] += event.status >= 500
        fives[1] += 1
    rows = {cell: f"{part},{total}" for cell, (part, total) in counts.items()}
    for cell, seconds in waits.items():
        rows[cell] = format(Decimal(str(max(seconds))).normalize(), "f")
    rows.update(quiet(rows, closed))
    return {cell: row for cell, row in rows.items() if cell[2] < closed}


def quiet(rows: Rows, closed: int) -> Rows:
    """Rows 0/0 of the minutes without an event: of each source with a row in the ten before."""
    found: Rows = {}
    busy = {minute for name, _, minute in rows if name == "shop"}
    for minute in range(min(busy) + 1, closed):
        if minute not in busy:
            hosts = {h for n, h, m in [*rows, *found] if n == "shop" and 0 < minute - m <= 10}
            found.update((("shop", host, minute), "0,0") for host in hosts)
    return found


def value(source: str, name: str, query: str) -> str:
    """An SLI of a value of all events."""
    return f"""---
apiVersion: openslo/v1
kind: SLI
metadata:
  name: {name}
spec:
  thresholdMetric:
    metricSource:
      metricSourceRef: {source}
      spec:
        query: '{query}'
"""


class Measuring:
    """A client that says how many rows of the table each query read."""

    def __init__(self, port: int) -> None:
        from clickhouse_driver import Client

        self.client = Client("127.0.0.1", port=port)
        self.read: dict[str, int] = {}

    def rows(self, query: str) -> list[tuple[Any, ...]]:
        answer: list[tuple[Any, ...]] = self.client.execute(query)
        if "now()" not in query:
            self.read[query] = self.client.last_query.progress.rows
        return answer


def objects(port: int) -> bytes:
    details = {"host": "127.0.0.1", "port": port, "table": "events", "time": "at"}
    source = data_source("events", "ClickHouse", **details, inserted="came", source="host")
    shop = sli("shop", "events", "service = ''shop'' AND status < 500", "service = ''shop''")
    fives = sli("fives", "events", "status >= 500", "1", word="bad")
    return (source + shop + fives + SLOW).encode()


SETTINGS = """first = 300
[engine.events]
host = "127.0.0.1"
port = {port}
user = "feed"
password_file = "password"
wait = 1
[indicator.fives]
sum = "everyone"
every = 5
"""


class ClickHouseTest(unittest.TestCase):
    def setUp(self) -> None:
        self.folder = Path(self.enterContext(tempfile.TemporaryDirectory()))
        self.clickhouse = ClickHouseServer(self.folder / "clickhouse")
        self.addCleanup(self.clickhouse.kill)
        self.clickhouse.start().run(TABLE)
        self.now = int(time.time()) // 60
        self.start = self.now - 240
        self.server = OfficeServer(self.folder / "office", self.start - 10)
        self.addCleanup(self.server.kill)
        self.server.start().client().define(objects(self.clickhouse.port))
        self.settings = SETTINGS.format(port=self.clickhouse.port)
        self.config = config_file(self.folder / "feed", self.server.address, self.settings)
        (self.folder / "feed" / "password").write_text("counts\n")
        self.held = events(self.start, self.now - 2, 20_000, 1)
        insert(self.clickhouse, self.held)

    def check_rows(self, office: OfficeServer) -> None:
        closed = self.now // 5 * 5
        held = {c: r for c, r in office.rows().items() if c[2] < closed and c[0] in NAMES}
        expected = plainly(self.held, closed)
        self.assertEqual(differences(held, expected), [])
        self.assertGreater(len(held), 1000)

    def add(self, added: list[Event]) -> None:
        insert(self.clickhouse, added)
        self.held += added

    def test_rows_are_those_of_the_events(self) -> None:
        told = feed(self.config, "--check").stdout
        self.assertIn("fives: counters of events, a row each 5 minutes, summed as everyone: ", told)
        feed(self.config, "--from", str(self.start))
        self.check_rows(self.server)

    def test_late_events_are_found_by_when_they_came(self) -> None:
        feed(self.config, "--once")
        self.add(events(self.start, self.start + 30, 40, 2))
        self.add(events(self.now - 100, self.now - 90, 10, 3))
        feed(self.config, "--once")
        self.check_rows(self.server)

    def test_state_lost_behind_late_events(self) -> None:
        feed(self.config, "--from", str(self.start))
        self.add(events(self.start, self.now - 5, 300, 4))
        feed(self.config, "--from", str(self.start))
        (self.folder / "feed" / "state.json").unlink()
        self.add(events(self.start, self.now - 5, 100, 5))
        feed(self.config, "--from", str(self.start))
        self.check_rows(self.server)

    def test_values_that_are_none_stop_no_other(self) -> None:
        """A column that may be null, an aggregate that is a text, or one without an end."""
        self.clickhouse.run(
            "CREATE VIEW sized AS SELECT *, nullIf(seconds, seconds) size FROM events"
        )
        values = "".join(
            value("sized", name, query)
            for name, query in (
                ("average", "avg(size)"),
                ("text", "any(service)"),
                ("list", "groupArray(status)"),
                ("endless", "max(seconds) / 0"),
                ("late", "max(at)"),
            )
        )
        source = data_source(
            "sized",
            "ClickHouse",
            host="127.0.0.1",
            port=self.clickhouse.port,
            table="sized",
            time="at",
        )
        self.server.client().define((source + values).encode())
        more = (
            '[engine.sized]\nhost = "127.0.0.1"\nport = %d\nuser = "feed"\n' % self.clickhouse.port
        )
        config = config_file(
            self.folder / "feed",
            self.server.address,
            self.settings + more + 'password_file = "password"\n',
        )
        ended = feed(config, "--from", str(self.start), check=1)
        self.assertNotIn("Traceback", ended.stderr)
        for name, text in (("text", "(shop|desk)"), ("list", r"\[.*"), ("endless", "inf")):
            line = rf"(?m)^slo-feed: {name}: all 20\S+Z: {text} is no number \(and \d+ more\)$"
            self.assertRegex(ended.stderr, line)
        self.assertLess(ended.stderr.count("\n"), 12)
        self.assertNotIn("average:", ended.stderr)
        odd = {cell[0] for cell in self.server.rows()} - set(NAMES)
        self.assertEqual(odd, set())
        self.check_rows(self.server)

    def test_a_back_fill_says_how_far_it_is(self) -> None:
        self.server.kill()
        earlier = OfficeServer(self.folder / "earlier", self.now - 4 * 1440)
        self.addCleanup(earlier.kill)
        earlier.start().client().define(objects(self.clickhouse.port))
        config = config_file(self.folder / "feed", earlier.address, self.settings)
        ended = feed(config, "--from", str(self.now - 3 * 1440 - 10))
        told = [line for line in ended.stderr.splitlines() if "sent up to" in line]
        self.assertEqual(len(told), 3, ended.stderr)
        self.assertRegex(told[0], r"events: sent up to 20\S+Z, 1 of 3\.0 days")

    def test_the_key_is_used(self) -> None:
        """Of a table of many services that stand apart by its key, those that are asked for alone
        are read: by the counts, and by the look for late events."""
        self.clickhouse.run(TABLE.replace("events", "large"))
        self.clickhouse.run(
            "INSERT INTO large (at, came, host, service, status, seconds) SELECT "
            f"toDateTime({self.start * 60} + number % {200 * 60}), "
            f"toDateTime({self.start * 60} + number % {200 * 60}), 'a', "
            "concat('s', toString(number % 200)), 200, 1 FROM numbers(1000000)"
        )
        asked = {
            Indicator(
                f"i{n}",
                "e",
                Form.COUNTS,
                f"service = 's{n}' AND status < 500",
                f"service = 's{n}'",
                None,
                "all",
                1,
                5,
                60,
            ): (self.start, self.start + 200)
            for n in (3, 120)
        }
        client = Measuring(self.clickhouse.port)
        answer = ClickHouse(client, Table("large", "at", "came")).read(asked, self.start * 60.0)
        totals = {
            sli: sum(amount.total or 0 for amount in r.amounts.values())
            for sli, r in answer.readings.items()
        }
        self.assertEqual(totals, {"i3": 5000, "i120": 5000})
        self.assertEqual(len(client.read), 2)
        for rows in client.read.values():
            self.assertLess(rows, 150_000)

    def test_several_hosts_in_turn(self) -> None:
        """The first one is away, and the one that answered goes away too."""
        second = ClickHouseServer(self.folder / "second")
        self.addCleanup(second.kill)
        second.start().run(TABLE)
        insert(second, self.held)
        hosts = (
            f"127.0.0.1:{free_port()}, 127.0.0.1:{self.clickhouse.port}, 127.0.0.1:{second.port}"
        )
        settings = self.settings.replace('host = "127.0.0.1"', f'host = "{hosts}"')
        config = config_file(self.folder / "feed", self.server.address, settings)
        feed(config, "--once")
        self.clickhouse.kill()
        feed(config, "--from", str(self.start))
        self.check_rows(self.server)
        second.kill()
        ended = feed(config, "--once", check=4)
        self.assertEqual(ended.stderr.count("Connection refused"), 3)

    def test_a_distributed_table(self) -> None:
        other = ClickHouseServer(self.folder / "other")
        self.addCleanup(other.kill)
        self.clickhouse.kill()
        self.clickhouse.others = (other.port,)
        other.start().run(TABLE)
        self.clickhouse.start()
        self.clickhouse.run(
            f"CREATE TABLE wide AS events ENGINE = Distributed(both, default, events)"
        )
        more = events(self.start, self.now - 2, 5_000, 11)
        insert(other, more)
        self.held += more
        settings = self.settings.replace("wait = 1", 'wait = 1\ntable = "wide"')
        config = config_file(self.folder / "feed", self.server.address, settings)
        feed(config, "--from", str(self.start))
        self.check_rows(self.server)
        late = events(self.start, self.start + 30, 40, 12)
        insert(other, late)
        self.held += late
        feed(config, "--once")
        self.check_rows(self.server)

    def test_a_condition_that_cant_be_run_stops_no_other(self) -> None:
        broken = sli("broken", "events", "nowhere < 500", "1")
        self.server.client().define(broken.encode())
        ended = feed(self.config, "--from", str(self.start), check=1)
        self.assertIn("broken: query: Unknown identifier: nowhere", ended.stderr)
        self.check_rows(self.server)

    def test_stops(self) -> None:
        feed(self.config, "--from", str(self.start))
        self.clickhouse.kill()
        ended = feed(self.config, "--from", str(self.start), check=4)
        self.assertIn("events gave no answer", ended.stderr)
        self.clickhouse.start()
        self.server.kill()
        ended = feed(self.config, "--from", str(self.start), check=3)
        self.assertIn("the office gave no answer", ended.stderr)
        self.server.start()
        self.add(events(self.start, self.now - 5, 100, 6))
        feed(self.config, "--from", str(self.start))
        self.check_rows(self.server)

    def test_both_feeds_at_once(self) -> None:
        """Each with its own state, while the office is killed and started."""
        import test_prometheus as other

        prometheus = PrometheusServer(self.folder / "prometheus")
        prometheus.history("\n".join(other.history(self.start, self.now - 2, 9)) + "\n")
        self.addCleanup(prometheus.kill)
        prometheus.start()
        counters = data_source("prom", "Prometheus", url=prometheus.url) + sli(
            "counted", "prom", 'requests_total{code="500"}', "requests_total", word="bad"
        )
        self.server.client().define(counters.encode())
        no_events = '[indicators]\nlabel = "instance"\n[indicator.shop]\nskip = true\n[indicator.slow]\nskip = true\n'
        second = config_file(
            self.folder / "second",
            self.server.address,
            no_events + "[indicator.fives]\nskip = true\n",
        )
        first = config_file(
            self.folder / "feed",
            self.server.address,
            self.settings + "[indicator.counted]\nskip = true\n",
        )
        feeds = [
            threading.Thread(target=feed, args=(file, "--from", str(self.start)))
            for file in (first, second)
        ]
        for each in feeds:
            each.start()
        for _ in range(3):
            time.sleep(0.6)
            self.server.kill()
            self.server.start()
        for each in feeds:
            each.join()
        feed(first, "--from", str(self.start))
        feed(second, "--from", str(self.start))
        self.check_rows(self.server)
        sums = other.plainly(prometheus.url, "requests_total", self.start - 60, self.now)
        held = {c: r for c, r in self.server.rows().items() if c[0] == "counted"}
        self.assertEqual(held, other.rows_of(sums, "counted"))


NAMES = ("shop", "fives", "slow")


if __name__ == "__main__":
    unittest.main()
