"""Each tool before an office whose journal is full: every change is answered 507, by the office."""

from __future__ import annotations

import os
import shutil
import tempfile
import time
import unittest
from collections.abc import Callable
from pathlib import Path

from engines import PrometheusServer, config_file, data_source, feed, sli
from notify_support import DOCUMENTS, Desk, Hook, Manager, MovedClock
from support import OfficeServer, free_port, needed, run_tool

from slo_tools.answers import SampleRow
from slo_tools.journal.file import MAX_JOURNAL_BYTES
from slo_tools.office import ROWS_OF_A_BATCH
from slo_tools.refusals import Full

DAY = 1440
# A row of two such names takes 145 bytes of the journal.
LONG = "f" * 63
FILLER = f"""---
apiVersion: openslo/v1
kind: SLI
metadata:
  name: {LONG}
spec:
  ratioMetric:
    total:
      metricSource: {{}}
    good:
      metricSource: {{}}
"""
MEMORY = Path("/dev/shm")


def fill(office: OfficeServer, now: int) -> None:
    """Make an office's journal full: batches of one row a thousand times, smaller ones once these
    are refused, and ticks at the end."""
    client = office.client()
    with client.kept_link():
        minute, count = now - 10 * DAY, ROWS_OF_A_BATCH
        while count:
            try:
                client.post_samples([SampleRow(LONG, LONG, minute, 1, "1", 1)] * count)
                minute += 1
            except Full:
                count //= 2
        try:
            while True:
                client.tick()
        except Full:
            return


class FullOffice(Desk):
    """An alert burns and its notice waits when the journal becomes full. The office is filled
    once; each case has a copy of its folder."""

    place: Path
    prometheus: str
    port: int

    @classmethod
    def setUpClass(cls) -> None:
        parent = MEMORY if os.access(MEMORY, os.W_OK) else None
        room = tempfile.TemporaryDirectory(prefix="slo-full-", dir=parent)
        cls.place = Path(cls.enterClassContext(room))
        (cls.place / "full").mkdir()
        now = int(time.time()) // 60
        office = OfficeServer(cls.place / "full", now - 20 * DAY)
        office.start()
        try:
            cls.port = free_port()
            client = office.client()
            client.define((DOCUMENTS + FILLER + cls.fed()).encode())
            for begin, good in ((120, 1000), (60, 0)):
                minutes = range(now - begin, now - begin + 60)
                rows = [SampleRow("good", "web", m, 1, str(good), 1000) for m in minutes]
                client.post_samples(rows)
            client.tick()
            fill(office, now)
        finally:
            office.kill()

    @classmethod
    def fed(cls) -> str:
        """What slo-feed is to send, of a Prometheus that a case starts."""
        source = data_source("prom", "Prometheus", url=f"http://127.0.0.1:{cls.port}")
        return source + sli("fed", "prom", 'm{code="200"}', "m")

    def office(self) -> OfficeServer:
        """The full office, serving."""
        folder = self.place / self.id().rpartition(".")[2]
        shutil.copytree(self.place / "full", folder)
        self.addCleanup(shutil.rmtree, folder)
        office = OfficeServer(folder)
        office.start()
        self.addCleanup(office.kill)
        return office

    def test_every_change_is_refused_and_every_query_answered(self) -> None:
        office = self.office()
        self.assertLess(MAX_JOURNAL_BYTES - (office.folder / "office.journal").stat().st_size, 12)
        client = office.client()
        now = int(time.time()) // 60
        changes: list[Callable[[], object]] = [
            client.tick,
            lambda: client.take(1),
            lambda: client.define(DOCUMENTS.replace("0.99", "0.9").encode()),
            lambda: client.post_samples([SampleRow("good", "app", now - 1, 1, "1", 1)]),
            lambda: client.exclude("move", "answers", now - 9, now - 8),
        ]
        for change in changes:
            with self.assertRaisesRegex(Full, "^507 journal_full needed="):
                change()
        self.assertEqual([n.state for n in client.notices()], ["breaching"])
        self.assertEqual(client.budgets("answers").budgets[0].num, 60_000)

    def test_slo_notify_tells_it_once_and_loses_no_alert(self) -> None:
        office, hook = self.office(), Hook()
        self.addCleanup(hook.close)
        receiver = f'[webhook]\naddress = "{hook.address}"'
        rounds = self.rounds(MovedClock(), office.address, receiver)
        for _ in range(3):
            self.assertTrue(rounds.round(), self.said.getvalue())
        wanted = [
            ("workbook-page", "firing"),
            ("SloOfficeFull", "firing"),
            ("SloOfficeFilling", "firing"),
        ]
        self.assertEqual(hook.told(), wanted)
        self.assertIn("507 journal_full", hook.alerts[1]["annotations"]["summary"])
        self.assertEqual([n.number for n in office.client().notices()], [1])
        # In each round a tick and the taking of the notice.
        counted = rounds.metrics.answers.labels("shop", "507")._value.get()
        self.assertEqual(counted, 6)
        # Neither does one that is started anew tell it again.
        again = self.rounds(MovedClock(), office.address, receiver)
        self.assertTrue(again.round())
        self.assertEqual(hook.told(), wanted)
        # Another office takes its place: the notices are its own, and the alarm is over.
        office.kill()
        (office.folder / "office.journal").unlink()
        now = int(time.time()) // 60
        other = OfficeServer(office.folder, now - 2 * DAY)
        other.port = office.port
        other.start()
        self.addCleanup(other.kill)
        other.client().define(DOCUMENTS.encode())
        self.feed(other, range(now - 60, now), 0)
        self.assertTrue(again.round(), self.said.getvalue())
        self.assertEqual(
            sorted(hook.told()[3:]),
            [
                ("SloOfficeFilling", "resolved"),
                ("SloOfficeFull", "resolved"),
                ("workbook-page", "firing"),
            ],
        )
        self.assertEqual(other.client().notices(), [])

    def test_slo_notify_tells_an_alertmanager(self) -> None:
        office, manager = self.office(), Manager(self.folder)
        manager.start()
        self.addCleanup(manager.stop)
        receiver = f'[alertmanager]\naddress = "{manager.address}"'
        rounds = self.rounds(MovedClock(), office.address, receiver, rule="receiver")
        for _ in range(2):
            self.assertTrue(rounds.round(), self.said.getvalue())
        told = {"workbook-page", "SloOfficeFull", "SloOfficeFilling"}
        self.assertEqual(set(manager.alerts()), told)

    def test_slo_feed_raises_the_alarm(self) -> None:
        for name in ("prometheus", "promtool"):
            needed(name)
        office = self.office()
        prometheus = PrometheusServer(self.folder / "prometheus", port=self.port)
        now = int(time.time())
        lines = ["# TYPE m counter"] + [
            f'm{{code="{code}",instance="web:80",job="web"}} {moment // 15} {moment}'
            for code in ("200", "500")
            for moment in range(now // 60 * 60 - 3600, now, 15)
        ]
        prometheus.history("\n".join(lines) + "\n")
        prometheus.start()
        self.addCleanup(prometheus.kill)
        metrics = f'metrics_file = "{self.folder}/feed.prom"\n'
        ended = feed(config_file(self.folder, office.address, metrics), "--once", check=6)
        self.assertIn("the office is full (507 journal_full", ended.stderr)
        told = (self.folder / "feed.prom").read_text()
        self.assertIn('slo_feed_rounds_total{end="full"} 1.0', told)
        self.assertNotIn("slo_feed_newest_minute{", told)

    def test_slo_apply_says_what_is_refused(self) -> None:
        office = self.office()
        folder = self.folder / "slos"
        folder.mkdir()
        (folder / "shop.yaml").write_text(DOCUMENTS.replace("0.99", "0.9"))
        plan = run_tool("slo-apply", "--office", office.address, "--plan", str(folder))
        self.assertEqual((plan.returncode, plan.stderr), (1, ""))
        self.assertIn("~ SLO answers", plan.stdout)
        done = run_tool("slo-apply", "--office", office.address, str(folder))
        self.assertEqual(done.returncode, 2)
        self.assertRegex(done.stderr, "the office refuses to define: 507 journal_full needed=")
        self.assertIn("target: 0.99", office.client().object_text("SLO", "answers"))

    def test_slo_gate_judges_by_what_is_there(self) -> None:
        office = self.office()
        held = run_tool("slo-gate", "--office", office.address, "answers")
        self.assertEqual(held.returncode, 1, held.stderr)
        self.assertIn("workbook-page is breaching", held.stdout)

    def test_slo_journal_says_how_full_it_is(self) -> None:
        office = self.office()
        journal = str(office.folder / "office.journal")
        told = run_tool("slo-journal", "--summary", journal)
        self.assertEqual(told.returncode, 0, told.stderr)
        self.assertRegex(told.stdout, rf"(?m)^bytes 26843\d{{4}} of {MAX_JOURNAL_BYTES}, 100\.00%$")


if __name__ == "__main__":
    unittest.main()
