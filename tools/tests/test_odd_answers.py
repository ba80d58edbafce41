"""Answers that no engine should give: each is a fault of what was asked alone, and the rows of the
others are sent."""

from __future__ import annotations

import subprocess
import tempfile
import time
import unittest
from collections.abc import Iterator
from pathlib import Path
from typing import Any
from unittest import mock

from engines import Chunks, FakePrometheus, config_file, data_source, feed, sli, success
from support import OfficeServer

from slo_tools.feed.engine import EngineError
from slo_tools.feed.prometheus_client import PrometheusClient
from slo_tools.wire import Peer, address_of

MANY_DIGITS = "9" * 5000
LABELS = {"__name__": "odd", "job": "web", "instance": "web:2"}


def odd_series(**members: object) -> bytes:
    series: dict[str, object] = {"metric": LABELS}
    return success("matrix", [series | members])


def values(text: str) -> bytes:
    """Samples of one value, the newest half an hour."""
    now = int(time.time())
    return odd_series(values=[[now - 20 * n, text] for n in reversed(range(90))])


# Each with what the log says of it.
ODD: dict[str, tuple[int, bytes, str]] = {
    "native histograms": (200, odd_series(histograms=[[1, {}]]), "odd is a native histogram"),
    "no values": (200, odd_series(), "a series without values"),
    "a word": (200, values("abc"), "value abc is no number"),
    "many digits": (200, values(MANY_DIGITS), "999.. is no number"),
    "a great exponent": (200, values("1E+99999999"), "value 1E+99999999 is no number"),
    "NaN": (200, values("NaN"), "value NaN is no number"),
    "Inf": (200, values("+Inf"), "value +Inf is no number"),
    "a fraction": (200, values("0.5"), "value 0.5 counts no events"),
    "a null result": (200, success("matrix", None), "the answer has no series"),
    "null": (200, b"null", "no answer of Prometheus"),
    "another service": (200, b'{"entries":7,"objects":[]}', "no answer of Prometheus"),
    "a page": (200, b"<html>Sign in</html>", "no JSON"),
    "a redirect": (302, b"", "status 302"),
    "brackets": (200, b"[" * 100_000, "no JSON"),
    "a number of digits": (200, b'{"status":' + b"9" * 5000 + b"}", "no JSON"),
    "a text for labels": (200, success("matrix", [{"metric": "x", "values": []}]), "labels"),
    "a moment of text": (200, odd_series(values=[["soon", "1"]]), "soon is no moment"),
    "its own fault": (503, b'{"status":"error","errorType":"timeout","error":"slow"}', "timeout"),
    "the query's": (422, b'{"status":"error","errorType":"execution","error":"x"}', "query: ex"),
}


class Scene(unittest.TestCase):
    """A real office, a Prometheus that answers oddly, and slo-feed."""

    def setUp(self) -> None:
        self.folder = Path(self.enterContext(tempfile.TemporaryDirectory()))
        self.now = int(time.time()) // 60
        self.office = OfficeServer(self.folder / "office", self.now - 100)
        self.addCleanup(self.office.kill)
        self.office.start()
        self.fake = FakePrometheus().start()
        self.addCleanup(self.fake.stop)
        documents = (
            data_source("prom", "Prometheus", url=self.fake.url)
            + sli("good", "prom", "good", "good")
            + sli("odd", "prom", "odd", "odd")
        )
        self.office.client().define(documents.encode())
        self.metrics = self.folder / "feed.prom"
        rest = f'metrics_file = "{self.metrics}"\n[indicators]\nsum = "all"\nevery = 1\n'
        self.config = config_file(self.folder / "feed", self.office.address, rest)

    def rows_of(self, name: str) -> int:
        return sum(cell[0] == name for cell in self.office.rows())

    def ended(self, *words: str) -> subprocess.CompletedProcess[str]:
        ended = feed(self.config, *words, check=None)
        self.assertNotIn("Traceback", ended.stderr)
        return ended


class PrometheusAnswersTest(Scene):
    def test_each_is_the_fault_of_its_indicator_alone(self) -> None:
        for name, (status, content, told) in ODD.items():
            with self.subTest(name):
                (self.folder / "feed" / "state.json").unlink(missing_ok=True)
                self.fake.odd = {"odd": (status, content)}
                ended = self.ended("--once")
                self.assertEqual(ended.returncode, 1, ended.stderr)
                self.assertIn("odd: ", ended.stderr)
                self.assertIn(told, ended.stderr)
                self.assertLess(len(ended.stderr), 1000)
                self.assertEqual(self.rows_of("odd"), 0)
                metrics = self.metrics.read_text()
                self.assertIn('slo_feed_faults{sli="odd"} 1.0', metrics)
                self.assertIn('slo_feed_faults{sli="good"} 0.0', metrics)
        self.assertGreater(self.rows_of("good"), 50)

    def test_a_scrape_that_shows_no_number_is_as_a_missed_one(self) -> None:
        end = (self.now - 2) * 60
        samples: list[list[Any]] = [[end - 20 * n, str(9000 - n)] for n in reversed(range(90))]
        samples[40][1] = "NaN"
        self.fake.odd = {"odd": (200, odd_series(values=samples))}
        self.assertIn("odd: value NaN is no number", self.ended("--once").stderr)
        held = {c[2]: row for c, row in self.office.rows().items() if c[0] == "odd"}
        self.assertEqual(sum(int(row.split(",")[1]) for row in held.values()), 89)

    def test_an_endless_answer(self) -> None:
        piece = b" " * 1_048_576
        contents: dict[str, Chunks] = {"long": piece * 600, "endless": endless(piece)}
        for name, content in contents.items():
            with self.subTest(name):
                self.fake.odd = {"odd": (200, content)}
                ended = self.ended("--once")
                self.assertEqual(ended.returncode, 1, ended.stderr)
                self.assertIn("the answer is longer than 16777216 bytes", ended.stderr)
        self.assertGreater(self.rows_of("good"), 50)

    def test_a_long_answer_is_asked_for_in_parts(self) -> None:
        whole_answer, parts = self.fake.answer, []

        def answer(keys: dict[str, str]) -> Any:
            text = keys.get("query", "")
            minutes = int(text[text.index("[") + 1 : -2]) // 60 if text.endswith("s]") else 0
            parts.append(minutes)
            return whole_answer(keys) if minutes < 40 else (200, b" " * 16_777_217)

        with mock.patch.object(self.fake, "answer", answer):
            self.assertEqual(self.ended("--once").returncode, 0)
        self.assertGreater(max(parts), 40)
        self.assertGreater(self.rows_of("good"), 50)
        self.assertEqual(self.rows_of("odd"), self.rows_of("good"))

    def test_an_engine_that_stops_in_the_middle(self) -> None:
        stop = self.fake.stop

        def answer(keys: dict[str, str]) -> Any:
            if "odd" in keys.get("query", ""):
                stop()
            return FakePrometheus.answer(self.fake, keys)

        broken = FakePrometheus(port=self.fake.port)
        with mock.patch.object(self.fake, "answer", answer):
            ended = self.ended("--once")
        self.assertEqual(ended.returncode, 4, ended.stderr)
        self.assertIn("prom gave no answer", ended.stderr)
        self.assertGreater(self.rows_of("good"), 0)
        self.assertIn('slo_feed_engine_up{engine="prom"} 0.0', self.metrics.read_text())
        broken.start()
        self.addCleanup(broken.stop)
        self.assertEqual(self.ended("--once").returncode, 0)
        self.assertEqual(self.rows_of("odd"), self.rows_of("good"))

    def test_another_server_at_its_address(self) -> None:
        self.fake.odd = {"": (200, b'{"status":"ok"}')}
        ended = self.ended("--once")
        self.assertEqual(ended.returncode, 4, ended.stderr)
        self.assertIn("prom gave no answer (no answer of Prometheus", ended.stderr)


def endless(piece: bytes) -> Iterator[bytes]:
    while True:
        yield piece


class ASlowAnswer(Scene):
    def test_a_byte_a_second(self) -> None:
        """The time of an answer is counted from the asking to its last byte."""

        def trickle() -> Iterator[bytes]:
            for _ in range(60):
                time.sleep(0.3)
                yield b" "

        self.fake.odd = {"odd": (200, trickle())}
        peer = Peer(address_of(self.fake.url), timeout=1.0)
        client = PrometheusClient(peer)
        begin = time.monotonic()
        with self.assertRaisesRegex(EngineError, "no answer in time"):
            client.samples("odd", 0, 60)
        self.assertLess(time.monotonic() - begin, 3)
        self.assertGreater(client.now(), 0)


if __name__ == "__main__":
    unittest.main()
