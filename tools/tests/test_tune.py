"""slo-tune over a past in which one candidate alone is right, by plain rules (docs/rules.md)."""

from __future__ import annotations

import subprocess
import tempfile
import unittest
from fractions import Fraction
from itertools import product
from pathlib import Path
from typing import Optional

from support import SHOP, message, pipe, run_tool

from past_support import define, followed, samples

ORIGIN = 29_000_040
MINUTES = 1500
TARGET = Fraction("0.99")
THRESHOLDS = ("1", "2", "3", "4.5", "6", "10", "14.4")
LOOKBACKS = {"5m": 5, "15m": 15, "30m": 30, "1h": 60, "2h": 120, "6h": 360}
AFTERS = {"0m": 0, "5m": 5, "15m": 15}
SLO = """---
apiVersion: openslo/v1
kind: SLO
metadata:
  name: answers
spec:
  service: shop
  indicatorRef: good
  timeWindow:
  - duration: 1d
    isRolling: true
  budgetingMethod: Occurrences
  objectives:
  - target: 0.99
  alertPolicies:
  - workbook-page
"""
# Bad events of 1,000 in a minute: two incidents, a weak one and a short one, and hiccups for which
# nobody is to be woken.
BAD = {
    **{minute: 35 for minute in range(400, 440)},
    **{minute: 200 for minute in range(900, 912)},
    **{minute: 120 for start in (100, 250, 650) for minute in range(start, start + 12)},
}
INCIDENTS = {"leak": (400, 440), "deploy": (900, 912)}
Told = tuple[int, int, int, int]


def bad(minute: int) -> int:
    return BAD.get(minute, 1 if minute < 60 else 2)


def sums() -> list[int]:
    """The bad events before each minute."""
    found = [0]
    for minute in range(MINUTES):
        found.append(found[-1] + bad(minute))
    return found


def intervals(threshold: str, lookback: int, after: int) -> list[tuple[int, int]]:
    """When a condition is active."""
    before, limit = sums(), Fraction(threshold) * (1 - TARGET)
    part, whole = limit.numerator, limit.denominator
    made: list[tuple[int, int]] = []
    held = 0
    for at in range(MINUTES):
        first = max(0, at - lookback)
        counted = 1000 * (at - first)
        holds = (before[at] - before[first]) * whole > part * counted
        held = held + 1 if holds else 0
        if held > after:
            if made and made[-1][1] == at:
                made[-1] = (made[-1][0], at + 1)
            else:
                made.append((at, at + 1))
    return made


def told(spans: list[tuple[int, int]], slack: int) -> tuple[Told, list[Optional[int]]]:
    """The order of a candidate, and when it told of each incident."""
    missed, late, longer, true = 0, 0, 0, set()
    detected: list[Optional[int]] = []
    for begin, end in INCIDENTS.values():
        own = [span for span in spans if span[0] < end + slack and span[1] > begin]
        true |= set(own)
        if own:
            detected.append(max(0, min(own)[0] - begin))
            late += detected[-1] or 0
            longer += max(0, max(span[1] for span in own) - end)
        else:
            detected.append(None)
            missed += 1
    return (missed, len(spans) - len(true), late, longer), detected


def candidates(slack: int) -> dict[str, tuple[Told, list[Optional[int]]]]:
    found = {}
    for threshold, lookback, after in product(THRESHOLDS, LOOKBACKS, AFTERS):
        held = "" if after == "0m" else f" for {after}"
        spans = intervals(threshold, LOOKBACKS[lookback], AFTERS[after])
        found[f"above {threshold} over {lookback}{held}"] = told(spans, slack)
    return found


class Tuning(unittest.TestCase):
    folder: Path

    @classmethod
    def setUpClass(cls) -> None:
        cls.folder = Path(cls.enterClassContext(tempfile.TemporaryDirectory(prefix="slo-tools-")))
        records = [define(ORIGIN, SHOP + SLO)]
        for minute in range(MINUTES):
            row = ("good", ORIGIN + minute, 1, 1000 - bad(minute), 1000)
            records.append(samples(ORIGIN + minute + 1, [row]))
        followed(cls.folder, ORIGIN, records)
        lines = [f"{n},shop,{ORIGIN + b},{ORIGIN + e}" for n, (b, e) in INCIDENTS.items()]
        (cls.folder / "incidents.csv").write_text("\n".join(lines))

    def tune(self, *words: str, slo: str = "answers") -> subprocess.CompletedProcess[str]:
        journal, incidents = self.folder / "office.journal", self.folder / "incidents.csv"
        front = [slo, "--journal", str(journal), "--incidents", str(incidents)]
        return run_tool("slo-tune", *front, *words)

    def test_the_one_candidate_that_is_right_comes_first(self) -> None:
        expected = candidates(slack=10)
        right = [name for name, (order, _) in expected.items() if order[:2] == (0, 0)]
        self.assertEqual(len(right), 1, right)
        run = self.tune("--slack", "10", "--top", "200")
        self.assertEqual((run.returncode, run.stderr), (0, ""))
        lines = [line for line in run.stdout.splitlines() if line.startswith("above ")]
        self.assertEqual(len(lines), len(expected))
        found = []
        for line in lines:
            cells = [cell.strip() for cell in line.split("  ") if cell.strip()]
            order, detected = expected[cells[0]]
            minutes = ["-" if each is None else f"{each}m" for each in detected]
            self.assertEqual(cells, [cells[0], str(order[1]), *minutes])
            found.append(order)
        self.assertEqual(found, sorted(found))
        self.assertTrue(lines[0].startswith(right[0] + " "))

    def test_the_best_one_is_a_policy_that_the_office_takes(self) -> None:
        run = self.tune("--slack", "10", "--policy")
        self.assertEqual((run.returncode, run.stderr), (0, ""))
        best = min(candidates(slack=10).items(), key=lambda it: it[1][0])[0].split()
        self.assertIn(f"threshold: {best[1]}\n", run.stdout)
        self.assertIn(f"lookbackWindow: {best[3]}\n", run.stdout)
        with tempfile.TemporaryDirectory(prefix="slo-tools-") as place:
            followed(Path(place), ORIGIN, [define(ORIGIN, SHOP)])
            told = pipe(Path(place), message("POST", "/objects", run.stdout.encode()))
        self.assertIn(b'{"applied":2,', told)

    def test_days_that_were_chosen_on_are_parted_from_those_that_judge(self) -> None:
        run = self.tune("--slack", "10", "--until", str(ORIGIN + 600), "--top", "1")
        self.assertEqual(run.returncode, 0)
        first, _, second = run.stdout.partition("The same on the days behind")
        self.assertIn("leak", first)
        self.assertNotIn("deploy", first)
        self.assertIn("deploy", second)
        self.assertNotIn("leak", second)

    def test_the_target_that_the_window_would_have_kept(self) -> None:
        before = sums()
        ends = range(1440, MINUTES + 1, 60)
        errors = [Fraction(before[end] - before[end - 1440], 1_440_000) for end in ends]
        self.assertEqual(len(set(errors)), 2)
        run = self.tune()
        for part, error in (("100%", max(errors)), ("50%", min(errors))):
            target = f"{int((1 - error) * 1_000_000) / 1_000_000:.6f}"
            line = f"a target of {target} would have been met over 1d at {part} of the hours"
            self.assertIn(line, run.stdout.splitlines())

    def test_what_cant_be_told_is_2(self) -> None:
        cases: list[tuple[list[str], str, str]] = [
            ([], "other", "there is no SLO other"),
            (["--objective", "1"], "answers", "answers has 1 objectives, counted from 0"),
            (["--until", str(ORIGIN)], "answers", "in the days that are chosen on"),
            (["--until", str(ORIGIN + 1400)], "answers", "in the days that are judged on"),
            (["--until", "yesterday"], "answers", "yesterday: no date"),
        ]
        for words, slo, why in cases:
            with self.subTest(words=words):
                run = self.tune(*words, slo=slo)
                self.assertEqual((run.returncode, run.stdout), (2, ""))
                self.assertIn(why, run.stderr)


if __name__ == "__main__":
    unittest.main()
