"""The metrics of budgets that slo-notify offers: exact, gone with an office that is away, and answered
by a real Prometheus in each query of the dashboard."""

from __future__ import annotations

import json
import subprocess
import time
import unittest
import urllib.parse
import urllib.request
from collections.abc import Iterator
from fractions import Fraction
from pathlib import Path
from typing import Any, Optional
from unittest import mock

from prometheus_client.exposition import generate_latest

from engines import PrometheusServer
from notify_support import Desk, MovedClock
from support import SHOP, TOP, OfficeServer, free_port, needed, run_tool, until

from slo_tools.notify.budget_metrics import nearest, target_of, window_name
from slo_tools.notify.rounds import Rounds

DASHBOARD = TOP / "examples" / "grafana" / "slo_office.json"
SLOS = """---
apiVersion: openslo/v1
kind: SLO
metadata:
  name: answers
spec:
  service: shop
  indicatorRef: good
  timeWindow:
  - duration: 28d
    isRolling: true
  budgetingMethod: Occurrences
  objectives:
  - displayName: Answers
    target: 0.99
  alertPolicies:
  - workbook-page
---
apiVersion: openslo/v1
kind: SLO
metadata:
  name: two
spec:
  service: shop
  indicatorRef: good
  timeWindow:
  - duration: 1d
    isRolling: true
  budgetingMethod: Occurrences
  objectives:
  - displayName: First
    targetPercent: 99.5
  - displayName: Second
    target: 0.9
"""
OWN = {"office": "shop", "service": "shop", "slo": "answers", "objective": "0"}
ANSWERS = {"sloth_id": "shop-answers", "sloth_service": "shop", "sloth_slo": "answers"}


class Numbers(Desk):
    def setUp(self) -> None:
        super().setUp()
        self.now = int(time.time()) // 60
        self.office = OfficeServer(self.folder / "office", self.now - 5000).start()
        self.addCleanup(self.office.kill)
        self.office.client().define((SHOP + SLOS).encode())

    def offered(self, more: str = "") -> Rounds:
        text = f'metrics = "127.0.0.1:{free_port()}"\nstale = 600\n{more}'
        return self.rounds(MovedClock(), self.office.address, "", text)

    def value(self, rounds: Rounds, name: str, **labels: str) -> Optional[float]:
        found: Optional[float] = rounds.metrics.registry.get_sample_value(name, labels)
        return found

    def names(self, rounds: Rounds) -> set[str]:
        text = generate_latest(rounds.metrics.registry).decode()
        lines = [line for line in text.splitlines() if not line.startswith("#")]
        return {line.split("{")[0].split(" ")[0] for line in lines}

    def test_each_value_is_the_nearest_number_of_the_exact_fraction(self) -> None:
        self.feed(self.office, range(self.now - 280, self.now - 30), 997)
        rounds = self.offered()
        self.assertTrue(rounds.round(), self.said.getvalue())

        def ratio(name: str, **more: str) -> Optional[float]:
            return self.value(rounds, f"slo_office_{name}", **OWN, **more)

        # In numbers of 64 bits 1 - 0.003 / (1 - 0.99) is 0.6999999999999997.
        self.assertEqual(ratio("budget_remaining_ratio"), 0.7)
        self.assertEqual(ratio("objective_target_ratio"), 0.99)
        self.assertEqual(ratio("error_ratio", lookback="window"), 0.003)
        self.assertEqual(ratio("burn_rate", lookback="window"), 0.3)
        self.assertEqual(ratio("error_ratio", lookback="6h"), 0.003)
        self.assertEqual(ratio("burn_rate", lookback="6h"), 0.3)
        # In the last five minutes nothing was counted.
        self.assertEqual(ratio("burn_rate", lookback="5m"), None)
        self.assertEqual(ratio("error_ratio", lookback="5m"), None)
        self.assertEqual(ratio("window_events", events="good"), 249_250)
        self.assertEqual(ratio("window_events", events="all"), 250_000)
        states = [
            ratio("alert_state", policy="workbook-page", severity="page", state=state)
            for state in ("breaching", "no_data", "quiet")
        ]
        self.assertEqual(states, [0, 0, 1])
        of_two = {**OWN, "slo": "two", "objective": "0"}
        self.assertEqual(self.value(rounds, "slo_office_objective_target_ratio", **of_two), 0.995)
        moment = self.value(rounds, "slo_office_moment_timestamp_seconds", office="shop")
        assert moment is not None
        self.assertIn(moment // 60 - self.now, (0, 1, 2))
        self.assertFalse([name for name in self.names(rounds) if "slo:" in name or "sloth" in name])

    def test_nothing_counted_is_no_sample(self) -> None:
        rounds = self.offered("sloth_names = true")
        rounds.round()
        names = self.names(rounds)
        self.assertIn("slo_office_objective_target_ratio", names)
        self.assertIn("slo:error_budget:ratio", names)
        for name in ("budget_remaining_ratio", "error_ratio", "burn_rate"):
            self.assertNotIn(f"slo_office_{name}", names)
        for name in ("slo:period_error_budget_remaining:ratio", "slo:sli_error:ratio_rate5m"):
            self.assertNotIn(name, names)

    def test_an_office_that_is_away_leaves_no_old_numbers(self) -> None:
        self.feed(self.office, range(self.now - 250, self.now - 30), 997)
        rounds = self.offered("sloth_names = true")
        rounds.round()
        before = self.names(rounds)
        self.assertIn("slo_office_budget_remaining_ratio", before)
        self.office.kill()
        self.assertFalse(rounds.round())
        self.assertEqual(self.value(rounds, "slo_office_up", office="shop"), 0)
        gone = before - self.names(rounds)
        self.assertIn("slo_office_moment_timestamp_seconds", gone)
        left = [name for name in self.names(rounds) if "budget" in name or "slo:" in name]
        self.assertEqual(left, [])
        self.office.start()
        self.assertTrue(rounds.round())
        self.assertLessEqual(before, self.names(rounds))

    def test_an_office_that_takes_too_long_leaves_none_either(self) -> None:
        self.feed(self.office, range(self.now - 250, self.now - 30), 997)
        rounds = self.offered("every = 1")
        rounds.round()
        begin = rounds.offices[0].watch.begin

        def slow() -> None:
            time.sleep(2)
            begin()

        with mock.patch.object(rounds.offices[0].watch, "begin", slow):
            self.assertFalse(rounds.round(0.1))
        self.assertEqual(self.value(rounds, "slo_office_up", office="shop"), 0)
        self.assertNotIn("slo_office_budget_remaining_ratio", self.names(rounds))

    def test_the_names_of_sloth_come_by_a_key(self) -> None:
        self.feed(self.office, range(self.now - 280, self.now - 30), 997)
        rounds = self.offered("sloth_names = true")
        rounds.round()

        def found(name: str, **labels: str) -> Optional[float]:
            return self.value(rounds, name, office="shop", **labels)

        for name, value in (
            ("slo:objective:ratio", 0.99),
            ("slo:error_budget:ratio", 0.01),
            ("slo:time_period:days", 28),
            ("slo:period_burn_rate:ratio", 0.3),
            ("slo:period_error_budget_remaining:ratio", 0.7),
            ("slo:current_burn_rate:ratio", None),
        ):
            self.assertEqual(found(name, **ANSWERS), value, name)
        for window in ("1h", "2h", "6h", "1d", "3d", "4w"):
            name = f"slo:sli_error:ratio_rate{window}"
            self.assertEqual(found(name, **ANSWERS, sloth_window=window), 0.003, name)
        # An SLO of several objectives is several of sloth's; a day is its window and a lookback.
        second = {"sloth_id": "shop-two/1", "sloth_service": "shop", "sloth_slo": "two/1"}
        self.assertEqual(found("slo:error_budget:ratio", **second), 0.1)
        self.assertEqual(found("slo:sli_error:ratio_rate1d", **second, sloth_window="1d"), 0.003)
        more = {
            "sloth_version": "slo_office",
            "sloth_mode": "slo-notify",
            "sloth_spec": "openslo/v1",
        }
        first = {name: text.replace("/1", "/0") for name, text in second.items()}
        info = found("sloth_slo_info", **first, **more, sloth_objective="99.5")
        self.assertEqual(info, 1)
        # The overview has the Workbook's windows as before.
        burns = self.overview()["offices"][0]["slos"][0]["objectives"][0]["burns"]
        self.assertEqual(sorted(burns), ["1h", "30m", "3d", "5m", "6h"])

    def test_a_number_beyond_all_others_is_infinite(self) -> None:
        self.assertEqual(nearest(Fraction(10**400)), float("inf"))
        self.assertEqual(nearest(Fraction(-(10**400))), float("-inf"))
        self.assertEqual(nearest(Fraction(1, 3)), 1 / 3)

    def test_a_window_is_named_as_prometheus_writes_it(self) -> None:
        names = {40_320: "4w", 43_200: "30d", 1_440: "1d", 600: "10h", 90: "90m", 525_600: "1y"}
        self.assertEqual({minutes: window_name(minutes) for minutes in names}, names)

    def test_a_target_is_read_as_it_was_written(self) -> None:
        for text, part in (("0.995", "0.995"), ("99.5%", "0.995"), ("1", "1"), ("0", "0")):
            self.assertEqual(target_of(text), Fraction(part))
        for text in ("", "x", "1e9", "1/2", "-1", "0.99 ", "٣"):
            self.assertEqual(target_of(text), None)

    def test_names_of_metrics_that_nobody_offers_are_refused(self) -> None:
        file = self.folder / "names.toml"
        office = f'[[office]]\nname = "shop"\naddress = "{self.office.address}"\n'
        file.write_text(f'state = "s"\nsloth_names = true\n{office}')
        run = run_tool("slo-notify", "--check", str(file))
        self.assertEqual(run.returncode, 2, run.stderr)
        self.assertIn("sloth_names names metrics, and none are offered", run.stderr)


class Scraped(unittest.TestCase):
    """slo-notify as a process, scraped by a Prometheus."""

    def setUp(self) -> None:
        needed("prometheus")
        desk = Numbers("setUp")
        desk.setUp()
        self.addCleanup(desk.doCleanups)
        now = desk.now
        desk.feed(desk.office, range(now - 280, now - 5), 997)
        desk.feed(desk.office, range(now - 5, now), 997)
        self.port = free_port()
        config = desk.folder / "notify.toml"
        config.write_text(
            f'state = "{desk.folder}/state.json"\nclock = "trusted"\nsloth_names = true\n'
            f'metrics = "127.0.0.1:{self.port}"\n'
            f'[[office]]\nname = \'the "shop"\'\naddress = "{desk.office.address}"\n'
        )
        log = self.enterContext((desk.folder / "notify.log").open("wb"))
        words = ["/usr/bin/python3", str(TOP / "tools" / "bin" / "slo-notify"), str(config)]
        self.notify = subprocess.Popen(words, stderr=log)
        self.addCleanup(self.ended)
        self.prometheus = PrometheusServer(
            desk.folder / "prometheus", {"slo": [f"127.0.0.1:{self.port}"]}, interval=2
        ).start()
        self.addCleanup(self.prometheus.kill)
        until(lambda: bool(self.asked("slo_office_budget_remaining_ratio")), 60, "nothing scraped")

    def ended(self) -> None:
        self.notify.kill()
        self.notify.wait()

    def asked(self, query: str) -> list[Any]:
        told = self.api("query", query=query)
        result: list[Any] = told["result"]
        return result

    def api(self, path: str, **keys: str) -> Any:
        url = f"{self.prometheus.url}/api/v1/{path}?{urllib.parse.urlencode(keys)}"
        with urllib.request.urlopen(url, timeout=10) as answer:
            told = json.load(answer)
        self.assertEqual(told["status"], "success", path)
        return told["data"]

    def test_a_prometheus_answers_each_query_of_the_dashboard_and_of_sloth(self) -> None:
        for title, query in queries():
            for name in ("office", "service", "slo"):
                query = query.replace(f"${name}", ".*")
            with self.subTest(panel=title):
                self.assertTrue(self.asked(query), query)
        for query, label in variables():
            for name in ("office", "service"):
                query = query.replace(f"${name}", ".*")
            values = {series.get(label) for series in self.api("series", **{"match[]": query})}
            self.assertIn(values, ({'the "shop"'}, {"shop"}, {"answers", "two"}), query)
        left = 'slo_office_budget_remaining_ratio{office="the \\"shop\\"",slo="answers"}'
        self.assertEqual([each["value"][1] for each in self.asked(left)], ["0.7"])
        for query, value in (
            (
                'slo:period_error_budget_remaining:ratio{sloth_service="shop",sloth_slo="answers"}',
                "0.7",
            ),
            ('max(slo:sli_error:ratio_rate1h{sloth_id="shop-answers"}) by (sloth_window)', "0.003"),
            (
                "slo:sli_error:ratio_rate5m / on(sloth_id, sloth_slo, sloth_service) group_left "
                'slo:error_budget:ratio{sloth_slo="answers"}',
                "0.3",
            ),
        ):
            self.assertEqual([each["value"][1] for each in self.asked(query)], [value], query)

    def test_promtool_finds_nothing_wrong_with_the_offices_own_names(self) -> None:
        with urllib.request.urlopen(f"http://127.0.0.1:{self.port}/metrics", timeout=5) as answer:
            lines = answer.read().decode().splitlines(keepends=True)
        # Ages in minutes, as the office counts time, are what it would have in seconds.
        own = "".join(line for line in lines if "slo:" not in line and "_minutes" not in line)
        self.assertIn("slo_office_budget_remaining_ratio{", own)
        words = [needed("promtool"), "check", "metrics"]
        run = subprocess.run(words, input=own, capture_output=True, text=True, check=False)
        said = [line for line in (run.stdout + run.stderr).splitlines() if "slo_office_" in line]
        self.assertEqual(said, [])


class Dashboard(unittest.TestCase):
    def test_its_panels_lie_beside_each_other_with_ids_of_their_own(self) -> None:
        panels = board()["panels"]
        self.assertEqual(len(panels), 10)
        self.assertEqual(len({panel["id"] for panel in panels}), len(panels))
        places = [(x, y) for panel in panels for x, y in squares(panel["gridPos"])]
        self.assertEqual(len(set(places)), len(places))
        self.assertLess(max(x for x, _ in places), 24)
        self.assertIn("wasn't opened in one", board()["description"])


def squares(place: dict[str, int]) -> Iterator[tuple[int, int]]:
    for x in range(place["x"], place["x"] + place["w"]):
        for y in range(place["y"], place["y"] + place["h"]):
            yield x, y


def board() -> dict[str, Any]:
    found: dict[str, Any] = json.loads(Path(DASHBOARD).read_text())
    return found


def queries() -> list[tuple[str, str]]:
    panels = board()["panels"]
    return [(panel["title"], each["expr"]) for panel in panels for each in panel["targets"]]


def variables() -> Iterator[tuple[str, str]]:
    """The series that a variable looks at, and the label that it takes."""
    for variable in board()["templating"]["list"]:
        if variable["type"] == "query":
            inside = variable["definition"].removeprefix("label_values(").removesuffix(")")
            series, _, label = inside.rpartition(", ")
            yield series, label


if __name__ == "__main__":
    unittest.main()
