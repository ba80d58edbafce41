"""Policies on slices: what slo-apply says of them, against what the office does in outages."""

from __future__ import annotations

import json
import re
import subprocess
import tempfile
import unittest
from collections.abc import Callable, Iterable, Iterator
from pathlib import Path
from typing import NamedTuple

from support import TOP, message, program, run_tool

from slo_tools.apply.slices import WIDTHS, Sight

ORIGIN = 29_000_040  # the begin of an hour
A_SESSION = 900
Interval = tuple[int, int]

SHOP = """apiVersion: openslo/v1
kind: Service
metadata:
  name: shop
spec: {}
"""


def indicator(name: str) -> str:
    metric = "\n      metricSource: {}\n"
    return f"""---
apiVersion: openslo/v1
kind: SLI
metadata:
  name: {name}
spec:
  ratioMetric:
    total:{metric}    good:{metric}"""


class Own(NamedTuple):
    """An own policy: its window, its threshold, its alertAfter."""

    window: int
    threshold: str = "6"
    after: int = 0

    @property
    def name(self) -> str:
        return f"own-{self.window}-{self.after}"

    def text(self) -> str:
        return f"""---
apiVersion: openslo/v1
kind: AlertPolicy
metadata:
  name: {self.name}
spec:
  conditions:
  - kind: AlertCondition
    metadata:
      name: {self.name}
    spec:
      severity: page
      condition:
        op: gt
        threshold: {self.threshold}
        lookbackWindow: {self.window}m
        alertAfter: {self.after}m
"""


def slo(
    name: str, width: int, policies: Iterable[str], method: str = "Timeslices", sli: str = "dark"
) -> str:
    named = "".join(f"  - {policy}\n" for policy in policies)
    return f"""---
apiVersion: openslo/v1
kind: SLO
metadata:
  name: {name}
spec:
  service: shop
  indicatorRef: {sli}
  timeWindow:
  - duration: 28d
    isRolling: true
  budgetingMethod: {method}
  objectives:
  - target: 0.99
    timeSliceTarget: 0.95
    timeSliceWindow: {width}m
  alertPolicies:
{named}"""


class PastOffice(unittest.TestCase):
    """An office over a past that a test makes."""

    def setUp(self) -> None:
        self.folder = Path(self.enterContext(tempfile.TemporaryDirectory(prefix="slo-tools-")))
        words = [program(), "init", str(ORIGIN)]
        subprocess.run(words, cwd=self.folder, check=True, stdout=subprocess.DEVNULL)

    def ask(self, requests: list[bytes]) -> list[dict[str, object]]:
        """The answers, in as many sessions as they need."""
        told: list[dict[str, object]] = []
        for at in range(0, len(requests), A_SESSION):
            text = b"".join(requests[at : at + A_SESSION])
            words = [program(), "pipe"]
            run = subprocess.run(
                words, cwd=self.folder, input=text, capture_output=True, check=True
            )
            told += [json.loads(line) for line in re.findall(rb"^\{.*\}", run.stdout, re.M)]
        self.assertEqual(len(told), len(requests))
        self.assertEqual([answer for answer in told if "error" in answer], [])
        return told

    def define(self, text: str) -> None:
        self.ask([message("POST", "/objects", text.encode())])

    def send(self, sli: str, end: int, good: Callable[[int], int]) -> None:
        """A row of a thousand events for each minute."""
        minutes = range(ORIGIN, end)
        self.ask(
            [
                message(
                    "POST",
                    "/samples",
                    "".join(
                        f"{sli},web,{m},1,{good(m)},1000\n" for m in minutes[at : at + 1000]
                    ).encode(),
                )
                for at in range(0, len(minutes), 1000)
            ]
        )

    def active(self, asked: list[tuple[str, str]], begin: int, end: int) -> list[list[Interval]]:
        """When policies of SLOs were active."""
        answers = self.ask(
            [
                message("GET", f"/alerts/{slo}/0/{policy}?from={begin}&to={end}")
                for slo, policy in asked
            ]
        )
        found = []
        for answer in answers:
            intervals = answer["intervals"]
            assert isinstance(intervals, list)
            found.append([(first, last) for first, last in intervals])
        return found


def groups_of_ten(policies: list[Own]) -> Iterator[list[Own]]:
    for at in range(0, len(policies), 10):
        yield policies[at : at + 10]


def seen_minutes(width: int, window: int, begin: int, end: int) -> list[bool]:
    """At which minutes some whole slice lies in the window that ends there, slice by slice."""
    return [
        any(
            minute - window <= slice_ and slice_ + width <= minute
            for slice_ in range((minute - window) // width * width, minute, width)
        )
        for minute in range(begin, end)
    ]


class Windows(PastOffice):
    def test_a_policy_is_active_as_often_as_its_window_holds_a_slice(self) -> None:
        """Each width and each window up to two slices, in an hour of a total outage."""
        begin, end = ORIGIN + 240, ORIGIN + 300
        cases = {width: [Own(window) for window in range(1, 2 * width + 2)] for width in WIDTHS}
        policies = {own.name: own for each in cases.values() for own in each}
        slos = [
            (f"slo-{width}-{group[0].window}", width, group)
            for width, each in cases.items()
            for group in groups_of_ten(each)
        ]
        self.define(
            SHOP
            + indicator("dark")
            + "".join(own.text() for own in policies.values())
            + "".join(slo(name, width, [own.name for own in of]) for name, width, of in slos)
        )
        self.send("dark", end, lambda minute: 0)
        asked = [(name, width, own) for name, width, of in slos for own in of]
        self.assertEqual(len(asked), 348)
        told = self.active([(name, own.name) for name, _, own in asked], begin, end)
        for (_, width, own), intervals in zip(asked, told):
            with self.subTest(width=width, window=own.window):
                seen = seen_minutes(width, own.window, begin, end)
                is_active = [any(a <= m < b for a, b in intervals) for m in range(begin, end)]
                self.assertEqual(is_active, seen)
                self.assertEqual(Sight("own", own.window).active(width) * 60, sum(seen) * width)

    def test_alert_after_is_counted_by_minutes_in_a_row(self) -> None:
        begin, end = ORIGIN + 360, ORIGIN + 480
        policies = [
            Own(width + held, after=after)
            for width in (5, 20, 60)
            for held in (0, 2, width - 2, width - 1)
            for after in (1, 2, 3, width - 1, width, 2 * width)
        ]
        asked = [(5, own) for own in policies[:24]] + [(20, own) for own in policies[24:48]]
        asked += [(60, own) for own in policies[48:]]
        texts = {own.name: own.text() for own in policies}
        slos = {
            f"slo-{number}": slo(f"slo-{number}", width, [own.name])
            for number, (width, own) in enumerate(asked)
        }
        self.define(SHOP + indicator("dark") + "".join([*texts.values(), *slos.values()]))
        self.send("dark", end, lambda minute: 0)
        pairs = [(name, own.name) for name, (_, own) in zip(slos, asked)]
        told = self.active(pairs, begin, end)
        never = 0
        for (width, own), intervals in zip(asked, told):
            with self.subTest(width=width, own=own):
                minutes = sum(last - first for first, last in intervals)
                never += not minutes
                sight = Sight("own", own.window, own.after)
                self.assertEqual(sight.active(width) * 120, minutes * width)
        self.assertGreater(never, 10)
        self.assertLess(never, len(asked) - 10)


class Checking(unittest.TestCase):
    def setUp(self) -> None:
        self.folder = Path(self.enterContext(tempfile.TemporaryDirectory(prefix="slo-tools-")))

    def check(self, text: str, *words: str) -> tuple[int, str, list[str]]:
        (self.folder / "a.yaml").write_text(SHOP + indicator("dark") + text)
        run = run_tool("slo-apply", "--check", "--program", program(), *words, str(self.folder))
        lines = run.stderr.replace(f"{self.folder}/", "").splitlines()
        return run.returncode, run.stdout, lines

    def test_a_policy_that_sees_no_slice_is_a_fault(self) -> None:
        policies = [Own(9), Own(10), Own(19)]
        text = "".join(own.text() for own in policies)
        for policy, width, widest, least in (
            ("workbook-page", 6, 3, 11),
            ("workbook-page", 10, 3, 19),
            ("workbook-page", 60, 3, 119),
            ("own-9-0", 10, 5, 19),
            ("own-10-0", 12, 5, 23),
            ("own-19-0", 60, 10, 119),
        ):
            with self.subTest(policy=policy, width=width):
                status, _, lines = self.check(text + slo("a", width, [policy]))
                self.assertEqual((status, lines[-1], len(lines)), (2, "slo-apply: 1 fault", 2))
                place = r"a\.yaml:\d+:5: spec\.alertPolicies\[0\]: no_slice: "
                self.assertRegex(lines[0], f"^{place}{policy} on objective 0: ")
                self.assertIn(f"no whole slice of {width}m lies in its window", lines[0])
                self.assertIn(f"slices of at most {widest}m, or", lines[0])
                self.assertTrue(lines[0].endswith(f"a window of {least}m"), lines[0])
                status, said, lines = self.check(
                    text + slo("a", width, [policy]), "--allow-silent-policies"
                )
                self.assertEqual((status, said), (0, "9 objects, no fault\n"))
                self.assertIn(": warning: ", lines[0])

    def test_a_policy_that_sees_a_slice_not_at_each_minute_is_a_warning(self) -> None:
        policies = [Own(10), Own(30), Own(45, after=3)]
        text = "".join(own.text() for own in policies)
        for policy, width, said in (
            ("workbook-page", 5, "so the pair of that window is active in at most 1 of 5"),
            ("workbook-page", 4, "so the pair of that window is active in at most 2 of 4"),
            ("own-10-0", 10, "in 1 of 10 min, so it is active in at most 1 of 10"),
            ("own-30-0", 20, "in 11 of 20 min, so it is active in at most 11 of 20"),
            ("own-45-3", 30, "in 16 of 30 min, so it is active in at most 13 of 30"),
        ):
            with self.subTest(policy=policy, width=width):
                status, counted, lines = self.check(text + slo("a", width, [policy]))
                self.assertEqual((status, counted, len(lines)), (0, "9 objects, no fault\n", 1))
                self.assertIn(": warning: spec.alertPolicies[0]: few_slices: ", lines[0])
                self.assertIn(said, lines[0])

    def test_an_alert_after_that_no_slice_outlasts_is_a_fault(self) -> None:
        own = Own(14, after=5)
        status, _, lines = self.check(own.text() + slo("a", 10, [own.name]))
        self.assertEqual(status, 2)
        self.assertIn("in 5 of 10 min, and alertAfter lets it fire in none of them", lines[0])

    def test_what_fits_is_taken_without_a_word(self) -> None:
        policies = [Own(19), Own(119), Own(5, after=5)]
        text = "".join(own.text() for own in policies)
        for policy, width in (
            *(("workbook-page", 3), ("workbook-ticket", 60), ("own-19-0", 10)),
            *(("own-119-0", 60), ("own-5-5", 1)),
        ):
            with self.subTest(policy=policy, width=width):
                checked = self.check(text + slo("a", width, [policy]))
                self.assertEqual(checked, (0, "9 objects, no fault\n", []))
        of_events = slo("a", 60, ["workbook-page"], "Occurrences")
        self.assertEqual(self.check(text + of_events), (0, "9 objects, no fault\n", []))

    def test_what_is_named_alone_is_judged_too(self) -> None:
        """A condition and a policy that stand elsewhere, by their names."""
        text = """---
apiVersion: openslo/v1
kind: AlertPolicy
metadata: {name: named}
spec: {conditions: [{conditionRef: burns}]}
---
apiVersion: openslo/v1
kind: AlertCondition
metadata: {name: burns}
spec: {severity: page, condition: {threshold: 6, lookbackWindow: 9m}}
"""
        status, _, lines = self.check(slo("a", 10, []) + "  - alertPolicyRef: named\n" + text)
        self.assertEqual((status, len(lines)), (2, 2))
        self.assertIn("no_slice: named on objective 0: ", lines[0])

    def test_what_stands_inline_is_judged_too(self) -> None:
        inline = """  - kind: AlertPolicy
    metadata: {name: inner}
    spec:
      conditions:
      - kind: AlertCondition
        metadata: {name: burns}
        spec: {severity: page, condition: {threshold: 6, lookbackWindow: 9m}}
"""
        status, _, lines = self.check(slo("a", 10, []) + inline)
        self.assertEqual((status, len(lines)), (2, 2))
        self.assertIn("no_slice: inner on objective 0: ", lines[0])


class Row(NamedTuple):
    """A row of the page's table: a condition, and what it does in three kinds of outages."""

    width: int
    own: Own
    told: list[list[int]]
    over: list[list[int]]


def rows_of_the_page() -> list[Row]:
    page = (TOP / "docs" / "guide.md").read_text()
    section = page.split("### Pages for slices\n")[1].split("\n## ")[0]
    threshold = re.findall(r"`threshold: (\d+)`", section)
    assert len(set(threshold)) == 1, threshold
    rows = []
    for line in section.splitlines():
        cells = [cell.strip() for cell in line.strip("|").split("|")]
        if re.fullmatch(r"\d+m", cells[0]):
            width, window, after = (int(cell.strip("`m")) for cell in cells[:3])
            times = [[[int(n) for n in t.split(" to ")] for t in c.split("; ")] for c in cells[3:]]
            told, over = [t[0] for t in times], [t[1] for t in times]
            rows.append(Row(width, Own(window, threshold[0], after), told, over))
    return rows


class Page(PastOffice):
    """The conditions that the guide gives, over outages that begin at each minute of the hour."""

    apart, lasts = 720, 120

    def test_the_guide_says_when_each_condition_tells(self) -> None:
        rows = rows_of_the_page()
        self.assertEqual([row.width for row in rows], [1, 5, 10, 15, 20, 30, 60])
        begins = [ORIGIN + self.apart * n + 240 + n for n in range(60)]
        dark = {minute for begin in begins for minute in range(begin, begin + self.lasts)}
        end = ORIGIN + self.apart * 60
        kinds = (("dark", "Timeslices"), ("tenth", "Timeslices"), ("tenth", "RatioTimeslices"))
        text = SHOP + indicator("dark") + indicator("tenth")
        text += "".join(row.own.text() for row in rows)
        for row in rows:
            for number, (sli, method) in enumerate(kinds):
                name = f"slo-{row.width}-{number}"
                text += slo(name, row.width, [row.own.name], method, sli)
        self.define(text)
        self.send("dark", end, lambda minute: 0 if minute in dark else 1000)
        self.send("tenth", end, lambda minute: 900 if minute in dark else 1000)
        for row in rows:
            pairs = [(f"slo-{row.width}-{number}", row.own.name) for number in range(3)]
            told = self.active(pairs, ORIGIN, end)
            for number, intervals in enumerate(told):
                with self.subTest(width=row.width, kind=kinds[number]):
                    # One piece for each outage.
                    self.assertEqual(len(intervals), 60)
                    after = [first - begin for (first, _), begin in zip(intervals, begins)]
                    over = [
                        last - begin - self.lasts for (_, last), begin in zip(intervals, begins)
                    ]
                    self.assertEqual(sorted({min(after), max(after)}), row.told[number])
                    self.assertEqual(sorted({min(over), max(over)}), row.over[number])

    def test_a_single_bad_slice_is_told_from_ten_minutes_on(self) -> None:
        """And with `alertAfter` at the slice's width it isn't."""
        rows = rows_of_the_page()
        patient = {row.width: Own(row.own.window, "6", row.width) for row in rows}
        text = SHOP + indicator("dark")
        text += "".join(
            {own.name: own.text() for row in rows for own in (row.own, patient[row.width])}.values()
        )
        for row in rows:
            names = sorted({row.own.name, patient[row.width].name})
            text += slo(f"slo-{row.width}", row.width, names)
        self.define(text)
        begins = {row.width: ORIGIN + 600 * n for n, row in enumerate(rows, 1)}
        bad = {minute for width, begin in begins.items() for minute in range(begin, begin + width)}
        end = ORIGIN + 600 * (len(rows) + 1)
        self.send("dark", end, lambda minute: 0 if minute in bad else 1000)
        for row in rows:
            begin = begins[row.width]
            pairs = [(f"slo-{row.width}", own.name) for own in (row.own, patient[row.width])]
            own, waits = self.active(pairs, begin, begin + 300)
            with self.subTest(width=row.width):
                self.assertEqual(len(own), 1 if row.width >= 10 else 0)
                if row.width > 1:
                    self.assertEqual(waits, [])

    def test_slo_apply_takes_them_without_a_word(self) -> None:
        with tempfile.TemporaryDirectory(prefix="slo-tools-") as folder:
            rows = rows_of_the_page()
            text = SHOP + indicator("dark") + "".join(row.own.text() for row in rows)
            text += "".join(slo(f"slo-{row.width}", row.width, [row.own.name]) for row in rows)
            Path(folder, "a.yaml").write_text(text)
            run = run_tool("slo-apply", "--check", "--program", program(), folder)
            self.assertEqual((run.returncode, run.stderr), (0, ""))


if __name__ == "__main__":
    unittest.main()
