"""A real Prometheus and a real office: hours of history, then minutes of faults as they happen."""

from __future__ import annotations

import json
import os
import random
import subprocess
import tempfile
import threading
import time
import unittest
import urllib.parse
import urllib.request
from collections import defaultdict
from collections.abc import Iterator
from pathlib import Path
from typing import Any

from engines import Exporter, PrometheusServer, config_file, data_source, feed, sli
from support import TOOLS, Child, OfficeServer, differences, free_port, journal_rows, needed

from slo_tools.answers import SampleRow

LIVE = os.environ.get("SLO_FEED_LIVE", "1") != "0"

Rows = dict[tuple[str, str, int], str]


def raw(url: str, selector: str, begin: int, end: int) -> list[dict[str, Any]]:
    """The samples that Prometheus has, asked without the feed's code, an hour at a time."""
    series: dict[str, dict[str, Any]] = {}
    for stop in range(end, begin, -3600):
        keys = urllib.parse.urlencode({"query": f"{selector}[1h]", "time": stop})
        with urllib.request.urlopen(f"{url}/api/v1/query?{keys}", timeout=30) as answer:
            for one in json.load(answer)["data"]["result"]:
                key = json.dumps(one["metric"], sort_keys=True)
                values = series.setdefault(key, {"metric": one["metric"], "values": {}})["values"]
                values.update({t: int(v) for t, v in one["values"] if t > begin})
    return list(series.values())


def plainly(url: str, metric: str, begin: int, end: int, gap: int = 3600) -> dict[Any, list[int]]:
    """Failures and all events by instance and minute: each series by itself over all its samples,
    a fall counting from 0, and a series that comes later than its target from 0 too."""
    series = raw(url, metric, begin * 60, end * 60)
    times: dict[str, set[float]] = defaultdict(set)
    for one in series:
        times[one["metric"]["instance"]].update(one["values"])
    sums: dict[Any, list[int]] = defaultdict(lambda: [0, 0])
    for one in series:
        instance = one["metric"]["instance"]
        last: Any = None
        for t in sorted(one["values"]):
            value = one["values"][t]
            if last is not None and t - last[0] <= gap:
                rose = value - last[1] if value >= last[1] else value
            elif any(t - gap <= u < t for u in times[instance]):
                rose = value
            else:
                last = (t, value)
                continue
            last = (t, value)
            pair = sums[instance, int(-(-t // 60)) - 1]
            pair[0] += rose if one["metric"]["code"] == "500" else 0
            pair[1] += rose
    return sums


def rows_of(sums: dict[Any, list[int]], sli: str, every: int = 1, name: str = "") -> Rows:
    """The rows that these sums make."""
    cells: dict[tuple[str, str, int], list[int]] = defaultdict(lambda: [0, 0])
    for (instance, minute), (bad, total) in sums.items():
        source = name or instance.replace(":", "_")
        pair = cells[sli, source, minute // every * every + every - 1]
        pair[0] += bad
        pair[1] += total
    return {cell: f"{bad},{total}" for cell, (bad, total) in cells.items()}


def objects(url: str) -> bytes:
    failures, everything = 'requests_total{code="500"}', "requests_total"
    return (
        data_source("prom", "Prometheus", url=url)
        + sli("shop", "prom", f"sum({failures})", f"sum({everything})", word="bad")
        + sli("fives", "prom", failures, everything, word="bad")
        + sli("whole", "prom", failures, everything, word="bad")
    ).encode()


INDICATORS = """
[indicators]
label = "instance"
every = 1
[indicator.fives]
every = 5
[indicator.whole]
sum = "everything"
every = 15
"""


def history(start: int, end: int, seed: int) -> Iterator[str]:
    """Scrapes each 15 s of three targets, as OpenMetrics: with resets, missed scrapes, targets
    that are away, failures that begin at some time."""
    chance = random.Random(seed)
    by_series: dict[tuple[str, str], list[tuple[float, int]]] = defaultdict(list)
    for place, instance in enumerate(("web-1:80", "web-2:80", "10.0.0.7:9100")):
        values = {"200": chance.randrange(10**6)}
        moment = start * 60 + place * 4.2
        while moment < end * 60:
            event = chance.random()
            values["200"] += chance.randrange(500)
            if event < 0.004:
                values = {"200": chance.randrange(50)}
            elif event < 0.02:
                values["500"] = values.get("500", 0) + chance.randrange(1, 300)
            elif event < 0.03:
                moment += 15 * chance.randrange(1, 400 if event < 0.0205 else 10)
            if event > 0.06:
                for code, value in values.items():
                    by_series[instance, code].append((moment, value))
            moment += 15
    yield "# TYPE requests counter"
    for (instance, code), samples in by_series.items():
        for t, value in samples:
            yield (
                f'requests_total{{job="web",instance="{instance}",code="{code}"}} '
                f"{value} {t:.3f}"
            )


class Real(unittest.TestCase):
    def setUp(self) -> None:
        self.folder = Path(self.enterContext(tempfile.TemporaryDirectory()))
        self.prometheus = PrometheusServer(self.folder / "prometheus")
        self.now = int(time.time()) // 60

    def office(self, origin: int) -> OfficeServer:
        office = OfficeServer(self.folder / "office", origin)
        self.addCleanup(office.kill)
        return office.start()


class HistoryTest(Real):
    """Twelve hours that Prometheus has already."""

    def setUp(self) -> None:
        super().setUp()
        self.start = self.now - 720
        self.prometheus.history("\n".join(history(self.start, self.now - 2, 43)) + "\n")
        self.addCleanup(self.prometheus.kill)
        self.prometheus.start()
        self.server = self.office(self.start - 100)
        self.server.client().define(objects(self.prometheus.url))
        self.config = config_file(self.folder / "feed", self.server.address, INDICATORS)
        self.state = self.folder / "feed" / "state.json"

    def expected(self, begin: int, end: int) -> Rows:
        sums = plainly(self.prometheus.url, "requests_total", self.start - 60, self.now)
        rows = rows_of(sums, "shop")
        rows.update(rows_of(sums, "fives", 5))
        rows.update(rows_of(sums, "whole", 15, "everything"))
        return {cell: row for cell, row in rows.items() if begin <= cell[2] <= end}

    def newest(self) -> int:
        """The newest minute whose stretches of 15 minutes are all closed."""
        return self.now // 15 * 15 - 1

    def check_rows(self) -> None:
        held = {c: row for c, row in self.server.rows().items() if c[2] <= self.newest()}
        expected = self.expected(self.start, self.newest())
        self.assertEqual(differences(held, expected), [])
        self.assertGreater(len(held), 2000)

    def test_each_row_is_that_of_a_plain_computation(self) -> None:
        feed(self.config, "--from", str(self.start))
        self.check_rows()

    def test_state_lost_behind_corrections(self) -> None:
        client = self.server.client()
        self.plant_wrong_rows(client)
        feed(self.config, "--from", str(self.start))
        self.check_rows()
        accepted = len(journal_rows(self.server.folder / "office.journal"))
        self.state.unlink()
        feed(self.config, "--from", str(self.start))
        self.check_rows()
        after = len(journal_rows(self.server.folder / "office.journal"))
        self.assertEqual(after, accepted, "rows that stood were accepted again")

    def plant_wrong_rows(self, client: Any) -> None:
        """Rows of another feed's life: right ones with revisions above 1, wrong ones too."""
        chance = random.Random(7)
        expected = self.expected(self.start, self.newest())
        for cell in chance.sample(sorted(expected), 60):
            amount, total = expected[cell].split(",")
            wrong = str(int(amount) + 1), int(total) + 1
            for revision in range(1, chance.randrange(2, 6)):
                client.post_samples([SampleRow(*cell, revision, *wrong)])
                wrong = str(int(wrong[0]) + 1), wrong[1] + 1
            if chance.random() < 0.5:
                client.post_samples([SampleRow(*cell, 6, amount, int(total))])

    def test_office_killed_in_the_middle(self) -> None:
        """It is killed and started again and again while the history is sent."""
        ended = threading.Event()

        def kill_often() -> None:
            while not ended.wait(0.7):
                self.server.kill()
                self.server.start()

        killer = threading.Thread(target=kill_often)
        killer.start()
        try:
            for _ in range(10):
                status = feed(self.config, "--from", str(self.start), check=None).returncode
                self.assertIn(status, (0, 3))
                if status == 0:
                    break
        finally:
            ended.set()
            killer.join()
        feed(self.config, "--from", str(self.start))
        self.check_rows()
        rows = journal_rows(self.server.folder / "office.journal")
        self.assertEqual(len(rows), len(self.server.rows()), "a row was accepted twice")

    def test_an_office_that_begins_later(self) -> None:
        self.server.kill()
        later = OfficeServer(self.folder / "later", self.now - 300)
        self.addCleanup(later.kill)
        later.start().client().define(objects(self.prometheus.url))
        config = config_file(self.folder / "second", later.address, INDICATORS)
        ended = feed(config, "--from", str(self.start), check=1)
        self.assertIn("before the office's origin", ended.stderr)
        held = {c: row for c, row in later.rows().items() if c[2] <= self.newest()}
        self.assertEqual(held, self.expected(self.now - 300, self.newest()))

    def test_an_office_that_was_taken_back_and_has_as_many_entries_again(self) -> None:
        """It is restored from a copy of before the rows came, and ticks until the counts are
        even: what it has lost is sent again, in the same round."""
        self.server.kill()
        journal = self.server.folder / "office.journal"
        copy = journal.read_bytes()
        client = self.server.start().client()
        feed(self.config, "--from", str(self.start))
        self.check_rows()
        entries, _ = client.objects()
        self.server.kill()
        journal.write_bytes(copy)
        client = self.server.start().client()
        while client.objects()[0] < entries:
            client.tick()
        ended = feed(self.config, "--once")
        self.assertIn(
            "the office was taken back to an older journal: it doesn't have", ended.stderr
        )
        self.check_rows()

    def test_a_query_that_cant_be_run_stops_no_other(self) -> None:
        broken = """---
apiVersion: openslo/v1
kind: SLI
metadata:
  name: broken
spec:
  thresholdMetric:
    metricSource:
      metricSourceRef: prom
      spec:
        query: %s
"""
        client = self.server.client()
        client.define((broken % "quantile(0.9, requests_total").encode())
        ended = feed(self.config, "--from", str(self.start), check=1)
        self.assertIn("broken: query: bad_data:", ended.stderr)
        self.check_rows()
        # Once it is mended, the minutes that went by are asked for too.
        client.define((broken % "sum(requests_total) * 0 + 0.25").encode())
        feed(self.config, "--once")
        values = {row for c, row in self.server.rows().items() if c[0] == "broken"}
        self.assertEqual(values, {"0.25"})

    def test_a_wrong_clock(self) -> None:
        words = [needed("faketime"), "+2 years", str(TOOLS / "bin" / "slo-feed")]
        ended = subprocess.run(
            [*words, "--config", str(self.config), "--once"], capture_output=True, text=True
        )
        self.assertEqual(ended.returncode, 5, ended.stderr)
        self.assertIn("set the clocks; nothing is sent", ended.stderr)
        self.assertEqual(self.server.rows(), {})

    def test_check_sees_a_mistyped_metric(self) -> None:
        typed = sli("typed", "prom", "sum(reqests_total)", "reqests_total")
        self.server.client().define(typed.encode())
        told = feed(self.config, "--check", check=1).stdout
        self.assertIn("typed: no series in an hour: does its query name what is there?", told)
        self.assertEqual(told.count("no series"), 1)

    def test_a_folder_that_is_missing(self) -> None:
        config = self.folder / "other.toml"
        config.write_text(self.config.read_text().replace("feed/state", "nowhere/state"))
        modes: list[list[str]] = [["--from", str(self.start)], ["--once"], []]
        for words in modes:
            ended = feed(config, *words, check=2)
            self.assertIn(
                "its folder isn't there: make it, or start slo-feed.service", ended.stderr
            )
            self.assertNotIn("make room", ended.stderr)
        self.assertEqual(self.server.rows(), {})

    def test_a_hole_longer_than_the_gap_is_told(self) -> None:
        """In the history one target is away for up to 100 minutes."""
        config = self.folder / "feed" / "holes.toml"
        rest = self.config.read_text().replace('label = "instance"', 'label = "instance"\ngap = 2')
        config.write_text(rest)
        ended = feed(config, "--from", str(self.start))
        told = [line for line in ended.stderr.splitlines() if "wasn't scraped from" in line]
        self.assertGreater(len(told), 2)
        self.assertIn("longer than gap = 2 min: what it counted meanwhile isn't known", told[0])
        self.assertEqual(len(told), len(set(told)))

    def test_check_says_what_is_fed(self) -> None:
        rate = sli("guess", "prom", "rate(requests_total[1m])", "requests_total")
        away = sli("away", "nowhere", "a", "b").replace("        metricSourceRef: nowhere\n", "")
        self.server.client().define((rate + away).encode())
        told = feed(self.config, "--check", check=1).stdout
        self.assertIn("shop: counters of prom, a row a minute, by instance: ", told)
        self.assertIn(
            "whole: counters of prom, a row each 15 minutes, summed as everything: ", told
        )
        self.assertIn("guess: query: rate(..) is no counter", told)
        self.assertIn("away: not fed: its queries name no metricSourceRef", told)


class FeedLoop(Child):
    """slo-feed in its loop, as the unit runs it."""

    def __init__(self, config: Path) -> None:
        super().__init__()
        self.config = config

    def start(self) -> None:
        words = ["/usr/bin/python3", str(TOOLS / "bin" / "slo-feed")]
        folder = self.config.parent
        self._start([*words, "--config", str(self.config)], folder, folder / "log")


@unittest.skipUnless(LIVE, "SLO_FEED_LIVE is 0")
class LiveTest(Real):
    """Four minutes as they pass, with faults in each part."""

    def setUp(self) -> None:
        super().setUp()
        self.exporters = [Exporter().start(), Exporter().start()]
        for exporter in self.exporters:
            self.addCleanup(exporter.stop)
        self.prometheus.jobs = {"web": [e.target for e in self.exporters]}
        self.prometheus.interval = self.prometheus.timeout = 3
        self.addCleanup(self.prometheus.kill)
        self.prometheus.start()
        self.begin = self.now - 1
        self.server = self.office(self.now - 100)
        self.server.client().define(objects(self.prometheus.url))
        self.metrics = free_port()
        # Asking right at the minutes' ends, so that each late scrape changes what was sent.
        self.config = config_file(
            self.folder / "feed",
            self.server.address,
            f"metrics_port = {self.metrics}\nspread = 0\n{INDICATORS}[engine.prom]\nwait = 0\n",
        )
        self.loop = FeedLoop(self.config)
        self.addCleanup(self.loop.kill)
        self.over = threading.Event()

    def events(self) -> None:
        """Requests at both targets, more in some seconds than in others."""
        chance = random.Random(5)
        while not self.over.wait(0.1):
            for exporter in self.exporters:
                exporter.count('requests_total{code="200"}', chance.randrange(40))
                if chance.random() < 0.05:
                    exporter.count('requests_total{code="500"}', chance.randrange(300))

    def faults(self) -> Iterator[tuple[float, Any]]:
        """When something goes wrong, in seconds behind the first whole minute."""
        first, second = self.exporters
        yield 15, lambda: setattr(first, "broken", True)
        yield 18, lambda: setattr(first, "broken", False)
        yield 22, first.reset
        yield 30, second.stop
        yield 48, second.start
        yield 50, lambda: self.slow(2.2)
        yield 65, lambda: self.slow(0)
        yield 90, self.server.kill
        yield 145, self.server.start
        yield 150, self.prometheus.stop
        yield 155, second.reset
        yield 170, self.prometheus.start
        yield 175, lambda: self.slow(2.2)
        yield 184, lambda: self.slow(0)
        yield 185, self.loop.kill
        yield 186, (self.folder / "feed" / "state.json").unlink
        yield 187, self.loop.start
        yield 230, lambda: self.slow(2.2)
        yield 245, lambda: self.slow(0)
        yield 255, lambda: None

    def slow(self, seconds: float) -> None:
        """Have scrapes take so long, that one is under way at a minute's end."""
        for exporter in self.exporters:
            exporter.delay = seconds

    def test_four_minutes_of_faults(self) -> None:
        worker = threading.Thread(target=self.events, daemon=True)
        worker.start()
        self.addCleanup(worker.join)
        self.addCleanup(self.over.set)
        time.sleep(60 - time.time() % 60)
        base = time.time()
        self.loop.start()
        told = ""
        for moment, fault in self.faults():
            time.sleep(max(0.0, base + moment - time.time()))
            if moment == 185:
                told = self.read_metrics()
            fault()
        self.assertTrue(self.loop.is_up())
        self.loop.kill()
        feed(self.config, "--once")
        self.compare(int(time.time()) // 60)
        revisions = [row[3] for row in journal_rows(self.server.folder / "office.journal")]
        self.assertGreater(max(revisions), 1, "no late scrape was seen")
        self.assertIn('slo_feed_rounds_total{end="office"}', told)
        self.assertIn('slo_feed_newest_minute{sli="shop"}', told)

    def read_metrics(self) -> str:
        with urllib.request.urlopen(f"http://127.0.0.1:{self.metrics}/metrics") as answer:
            text: str = answer.read().decode()
            return text

    def compare(self, end: int) -> None:
        self.exporters_said_so(end)
        sums = plainly(self.prometheus.url, "requests_total", self.begin - 60, end)
        expected = {c: r for c, r in rows_of(sums, "shop").items() if c[2] < end}
        held = {c: r for c, r in self.server.rows().items() if c[0] == "shop"}
        self.assertEqual(differences(held, expected), [])
        self.assertGreater(len(held), 6)
        fives = {c: r for c, r in self.server.rows().items() if c[0] == "fives"}
        self.assertEqual(fives, {c: r for c, r in rows_of(sums, "fives", 5).items() if c in fives})

    def exporters_said_so(self, end: int) -> None:
        """Each sample is what its exporter remembers to have said at that moment."""
        seen = 0
        for one in raw(self.prometheus.url, "requests_total", (self.begin - 60) * 60, end * 60):
            labels = one["metric"]
            exporter = next(e for e in self.exporters if e.target == labels["instance"])
            name = f'requests_total{{code="{labels["code"]}"}}'
            for t, value in one["values"].items():
                said = [v.get(name) for at, v in exporter.served if 0 <= at - t < 3]
                self.assertIn(value, said)
                seen += 1
        self.assertGreater(seen, 150)


if __name__ == "__main__":
    unittest.main()
