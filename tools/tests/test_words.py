"""Queries, names, configuration and dates: what is read, and what is refused with which words."""

from __future__ import annotations

import subprocess
import tempfile
import unittest
from decimal import Decimal
from pathlib import Path

from engines import data_source, sli
from simulated import as_an_office_writes
from support import TOOLS

from slo_tools.clock import date_of, minute_of_date
from slo_tools.feed.cells import Amount, Cell, amounts_of, source_name, stretch_minute
from slo_tools.feed.config import Config, read_config
from slo_tools.feed.engine import QueryFault
from slo_tools.feed.numbers import NoNumber, number_of, shown, whole
from slo_tools.feed.objects import data_source as source_of
from slo_tools.feed.objects import query_faults
from slo_tools.feed.prometheus import minute_of_sample
from slo_tools.feed.promql import fault_of, selectors
from slo_tools.objects import Document, read_document
from slo_tools.office import is_label
from slo_tools.settings import ConfigFault


def document_of(text: str) -> Document:
    return read_document(as_an_office_writes(text))


class QueryTest(unittest.TestCase):
    def test_taken(self) -> None:
        table = {
            "requests_total": ["requests_total"],
            'sum(requests{code!~"5.."})': ['requests{code!~"5.."}'],
            "sum by (instance) (a)": ["a"],
            "sum(a) without (pod, job)": ["a"],
            'a{b="c",} + sum(d)': ['a{b="c"}', "d"],
            '{__name__=~"a|b"}': ['{__name__=~"a|b"}'],
            'job:errors:total{path="/a,b}\\"x"}\n': ['job:errors:total{path="/a,b}\\"x"}'],
            "(sum(a))": ["a"],
            "sum(a{b='#'})": ["a{b='#'}"],
            "sum(a) # all": ["a"],
            'sum(a{b="x"}) # the good ones': ['a{b="x"}'],
        }
        for query, found in table.items():
            with self.subTest(query):
                self.assertEqual(selectors(query), found)

    def test_refused(self) -> None:
        for query in (
            "rate(a[5m])",
            "sum(increase(a[1m]))",
            "a - b",
            "a[5m]",
            "a offset 5m",
            "a{b}",
            "a{b=c}",
            "{}",
            "",
            "avg(a)",
            "sum(a",
            "a b",
            'a{b="c"',
            "a * 2",
            "histogram_quantile(0.9, a)",
        ):
            with self.subTest(query), self.assertRaises(QueryFault):
                selectors(query)

    def test_why_a_query_is_refused(self) -> None:
        self.assertIsNone(fault_of('sum(requests{code!~"5.."})'))
        table = {
            "rate(a[5m])": "rate(..) is no counter; name the counter's own series",
            "a - b": "'-' has no place in a query of counters",
            "a or vector(0)": "'or' has no place in a query of counters",
            "sum(a": "'the end' stands where ')' is wanted",
            "(" * 100_000: "more than 50 brackets stand inside one another",
            "sum(" * 100_000: "more than 50 brackets stand inside one another",
        }
        for query, why in table.items():
            with self.subTest(query[:20]):
                self.assertEqual(fault_of(query), why)

    def test_the_queries_of_an_sli(self) -> None:
        for kind, refused in (("Prometheus", ["rate(..) is no counter; name"]), ("ClickHouse", [])):
            source = source_of(document_of(data_source("here", kind, url="http://a")))
            document = document_of(sli("shop", "here", "rate(a[1m])", "a"))
            with self.subTest(kind):
                told = query_faults(document, {"here": source})
                self.assertEqual([why[:28] for why in told], refused)
        self.assertEqual(query_faults(document, {}), [])


class NamesTest(unittest.TestCase):
    def test_sources(self) -> None:
        self.assertEqual(source_name("web-1.example.org:8080"), "web-1.example.org_8080")
        self.assertEqual(source_name("[::1]:80"), "___1__80")
        self.assertEqual(source_name(""), "none")
        self.assertEqual(source_name("é"), "_")
        self.assertEqual(source_name("a" * 63), "a" * 63)
        long = source_name("a" * 64)
        self.assertEqual(long, "a" * 54 + "-ffe054fe")
        self.assertTrue(is_label(long))
        self.assertNotEqual(long, source_name("a" * 65))

    def test_stretches(self) -> None:
        self.assertEqual([stretch_minute(m, 5) for m in (0, 4, 5, 9)], [4, 4, 9, 9])
        self.assertEqual(stretch_minute(7, 1), 7)

    def test_a_sample_at_a_minutes_end_counts_in_it(self) -> None:
        self.assertEqual([minute_of_sample(t) for t in (60_000, 60_001, 120_000)], [0, 1, 1])

    def test_amounts(self) -> None:
        self.assertEqual(Amount.counts(9, 8), Amount("8", 8))
        self.assertEqual(Amount.value(Decimal("0.5000")), Amount("0.5"))
        self.assertEqual(Amount.value(Decimal("20")), Amount("20"))
        self.assertEqual(Amount.value(Decimal("0.12345678951")), Amount("0.12345679"))
        self.assertEqual(Amount.value(Decimal("1e-12")), Amount("0"))
        self.assertEqual(Amount.told("9990,10000"), Amount("9990", 10000))
        self.assertEqual(Amount.told("0.25"), Amount("0.25"))
        cell = Cell("s", "a", 1)
        self.assertEqual(amounts_of({cell: (1, 10**9)}), ({cell: Amount("1", 10**9)}, []))
        self.assertEqual(amounts_of({cell: (1, 10**9 + 1)}), ({}, [cell]))

    def test_whole_numbers(self) -> None:
        self.assertEqual([whole(t) for t in ("7", "7.0", "1e+21")], [7, 7, 10**21])
        for text in ("7.5", "-1", "NaN", "+Inf", "x"):
            with self.subTest(text), self.assertRaises(NoNumber):
                whole(text)


class CommandTest(unittest.TestCase):
    def run_with(self, *words: str) -> tuple[int, str, str]:
        command = ["/usr/bin/python3", str(TOOLS / "bin" / "slo-feed"), *words]
        ended = subprocess.run(command, capture_output=True, text=True)
        return ended.returncode, ended.stdout, ended.stderr

    def test_words_of_no_form(self) -> None:
        table = {
            ("--minute", "yesterday"): "slo-feed: yesterday: no date as 2026-11-29",
            ("--config", "/nowhere"): "slo-feed: /nowhere: No such file or directory",
            ("--once", "--check"): "not allowed with argument",
            ("now",): "unrecognized arguments: now",
        }
        for words, line in table.items():
            with self.subTest(words):
                status, output, told = self.run_with(*words)
                self.assertEqual((status, output), (2, ""))
                self.assertIn(line, told)

    def test_a_minute(self) -> None:
        self.assertEqual(self.run_with("--minute", "1970-01-02"), (0, "1440\n", ""))


class DatesTest(unittest.TestCase):
    def test_both_ways(self) -> None:
        self.assertEqual(minute_of_date("1970-01-02"), 1440)
        self.assertEqual(minute_of_date("2026-11-29T13:05Z"), minute_of_date("2026-11-29T13:05"))
        self.assertEqual(date_of(minute_of_date("2026-11-29T13:05Z")), "2026-11-29T13:05Z")
        self.assertEqual(minute_of_date("29000000"), 29000000)

    def test_refused(self) -> None:
        for text in ("", "yesterday", "2026-13-01", "67108864", "1969-12-31", "-5"):
            with self.subTest(text), self.assertRaises(ValueError):
                minute_of_date(text)


WHOLE = """
[office]
address = "http://127.0.0.1:8080"
user = "feed"
password_file = "password"
[feed]
state = "state.json"
first = 1440
metrics_port = 9469
[engine.prom]
wait = 12.5
token_file = "token"
url = "http://127.0.0.1:9090"
[indicators]
every = 5
look_back = 15
[indicator.shop]
label = "pod"
[indicator.desk]
sum = "desk"
every = 1
[indicator.old]
skip = true
"""


class ConfigTest(unittest.TestCase):
    def setUp(self) -> None:
        self.folder = Path(self.enterContext(tempfile.TemporaryDirectory()))
        (self.folder / "password").write_text("secret\n")
        (self.folder / "token").write_text("abc")

    def read(self, text: str) -> Config:
        file = self.folder / "feed.toml"
        file.write_text(text)
        return read_config(file)

    def test_whole(self) -> None:
        config = self.read(WHOLE)
        self.assertEqual(config.office_login.credentials, ("feed", "secret"))
        self.assertEqual(config.state, self.folder / "state.json")
        self.assertEqual(config.engine("prom").login.token, "abc")
        self.assertEqual(config.engine("prom").details, {"url": "http://127.0.0.1:9090"})
        self.assertEqual(config.engine("prom").wait, 12.5)
        shop, desk, other = map(config.indicator, ("shop", "desk", "other"))
        self.assertEqual((shop.label, shop.name, shop.every), ("pod", None, 5))
        self.assertEqual((desk.label, desk.name, desk.every), (None, "desk", 1))
        self.assertEqual((other.label, other.look_back, other.skip), (None, 15, False))
        self.assertTrue(config.indicator("old").skip)

    def test_refused(self) -> None:
        table = {
            '[office]\naddress = "http://a"': "feed.state is missing",
            '[feed]\nstate = "s"': "office.address is missing",
            WHOLE + "x = 1": "indicator.old.x is no key of this file",
            WHOLE.replace("every = 5", "every = 7"): "every is 1, 5, 10 or 15 minutes",
            WHOLE.replace("first = 1440", 'first = "x"'): "feed.first is no number from 1 to",
            WHOLE.replace('user = "feed"\n', ""): "user and password_file go together",
            WHOLE.replace('sum = "desk"', 'sum = "a b"'): "sum 'a b' is no name of a source",
            WHOLE.replace('sum = "desk"', 'sum = "a"\nlabel = "b"'): "label and sum: one of them",
            WHOLE.replace("wait = 12.5", "wait = -1"): "engine.prom.wait is no number of seconds",
            WHOLE.replace('"password"', '"nowhere"'): "nowhere can't be read",
            "[office": "Expected",
        }
        for text, words in table.items():
            with self.subTest(words):
                with self.assertRaises(ConfigFault) as caught:
                    self.read(text)
                self.assertIn(words, str(caught.exception))


if __name__ == "__main__":
    unittest.main()
