"""slo-apply and the past: what a plan says of windows that are over, exclusions and rows, against
what the office says once it is done."""

from __future__ import annotations

import tempfile
import time
import unittest
from datetime import datetime, timedelta, timezone
from fractions import Fraction
from pathlib import Path

from support import OfficeServer, program, run_tool, running_office

NOW = int(time.time()) // 60
BERLIN = "CET-1CEST,M3.5.0,M10.5.0/3"


def month_before(number: int) -> datetime:
    """The first day of a month that is over, the last one first."""
    today = datetime.fromtimestamp(NOW * 60, timezone.utc)
    months = today.year * 12 + today.month - 1 - number
    return datetime(months // 12, months % 12 + 1, 1, tzinfo=timezone.utc)


def minute(moment: datetime) -> int:
    return int(moment.timestamp()) // 60


def spelled(moment: datetime) -> str:
    return moment.strftime("%Y-%m-%dT%H:%MZ")


ORIGIN = minute(month_before(4)) - 1440
RATIO = "  ratioMetric:\n    total:\n      metricSource: {}\n    good:\n      metricSource: {}\n"
MONTHS = "  - {duration: 1M, calendar: {startTime: 2024-01-01 00:00:00, timeZone: UTC}}\n"
ROLLING = "  - {duration: 28d, isRolling: true}\n"
WEEKS = "  - {duration: 1w, calendar: {startTime: 2024-01-01 00:00:00, timeZone: Europe/Berlin}}\n"


def sli(name: str) -> str:
    return (
        f"---\napiVersion: openslo/v1\nkind: SLI\nmetadata:\n  name: {name}\nspec:\n"
        f"  description: Answers\n{RATIO}"
    )


def slo(name: str, *, indicator: str = "web", window: str = MONTHS, target: str = "0.995") -> str:
    return f"""---
apiVersion: openslo/v1
kind: SLO
metadata:
  name: {name}
spec:
  service: shop
  indicatorRef: {indicator}
  timeWindow:
{window}  budgetingMethod: Occurrences
  objectives:
  - target: {target}
    timeSliceTarget: 0.9
    timeSliceWindow: 5m
  - target: 0.9
    timeSliceWindow: 5m
"""


SERVICE = "apiVersion: openslo/v1\nkind: Service\nmetadata:\n  name: shop\nspec: {}\n"


class Past(unittest.TestCase):
    def setUp(self) -> None:
        self.folder = Path(self.enterContext(tempfile.TemporaryDirectory(prefix="slo-tools-")))
        self.server: OfficeServer = self.enterContext(running_office(ORIGIN))
        self.office = self.server.client()

    def write(self, *texts: str) -> None:
        (self.folder / "a.yaml").write_text("".join([SERVICE, *texts]))

    def apply(self, *words: str) -> tuple[int, list[str], list[str]]:
        run = run_tool(
            "slo-apply",
            *("--program", program(), "--office", self.server.address, *words),
            str(self.folder),
        )
        return run.returncode, run.stdout.splitlines(), run.stderr.splitlines()

    def past(self, *words: str) -> list[str]:
        """What a plan says of the past; a run without the word says it too, and does nothing."""
        status, told, faults = self.apply("--plan", *words)
        self.assertEqual((status, faults), (1, []))
        lines = [line.strip() for line in told if line.startswith("  past: ")]
        entries = self.office.objects()[0]
        status, told, faults = self.apply(*words)
        if lines:
            self.assertEqual((status, told), (2, []))
            why = "slo-apply: this changes the past, so it wants --past-changes"
            self.assertEqual(faults, [*lines, why])
            self.assertEqual(self.office.objects()[0], entries)
            status, told, faults = self.apply(*words, "--past-changes")
        self.assertEqual((status, faults), (0, []))
        self.assertTrue(told[-1].startswith("done: "), told)
        return lines

    def rows(self) -> None:
        """A thousand events in the midst of each of three months, 1, 2 and 3 of them bad."""
        middles = [minute(month_before(number) + timedelta(days=14)) for number in (1, 2, 3)]
        rows = [f"web,a,{middle},1,{1000 - bad},1000\n" for bad, middle in enumerate(middles, 1)]
        self.office.ask("POST", ["samples"], body="".join(rows).encode())

    def left_by_window(self, slo: str, objective: int) -> dict[str, str]:
        """What is left of the windows that are over, as the office says it now."""
        keys = {"from": ORIGIN, "to": NOW}
        found = {}
        for window in self.office.ask("GET", ["windows", slo], keys).items("windows"):
            remaining = window["budgets"][objective]["remaining"]
            if remaining is not None and window["to"] <= NOW:
                begin, end = (
                    spelled(datetime.fromtimestamp(window[key] * 60, timezone.utc))
                    for key in ("from", "to")
                )
                hundredths = Fraction(remaining) * 10_000
                self.assertEqual(hundredths.denominator, 1)
                left = abs(hundredths.numerator)
                sign = "-" if hundredths < 0 else ""
                found[f"{begin} to {end}"] = f"{sign}{left // 100}.{left % 100:02}% left"
        return found

    def test_a_changed_target_judges_windows_that_are_over(self) -> None:
        self.write(sli("web"), slo("month"))
        self.apply()
        self.rows()
        # In the window in which the history begins: one of its first minutes and its last one.
        last = minute(month_before(4)) - 1
        body = f"web,a,{ORIGIN},1,1000,1000\nweb,a,{last},1,996,1000\n"
        self.office.ask("POST", ["samples"], body=body.encode())
        self.assertEqual(self.apply("--plan")[0], 0)
        self.write(sli("web"), slo("month", target="0.9995"))
        lines = self.past()
        front = "past: SLO month, objective 0,"
        begins = [spelled(month_before(number)) for number in (3, 2, 1, 0)]
        first = f"{spelled(month_before(5))} to {spelled(month_before(4))}"
        self.assertEqual(
            lines,
            [
                f"{front} {first}: 60.00% left becomes -300.00% left",
                f"{front} {begins[0]} to {begins[1]}: 40.00% left becomes -500.00% left",
                f"{front} {begins[1]} to {begins[2]}: 60.00% left becomes -300.00% left",
                f"{front} {begins[2]} to {begins[3]}: 80.00% left becomes -100.00% left",
            ],
        )
        after = self.left_by_window("month", 0)
        self.assertEqual(list(after.values()), ["-500.00% left", "-300.00% left", "-100.00% left"])
        self.assertEqual(self.apply("--plan")[0], 0)

    def test_slices_of_the_first_window_are_counted_to_its_end(self) -> None:
        """Of two slices with events the last one has 0.8."""
        last = minute(month_before(4)) - 1
        self.write(sli("web"))
        self.apply()
        body = f"web,a,{ORIGIN},1,1000,1000\nweb,a,{last},1,800,1000\n"
        self.office.ask("POST", ["samples"], body=body.encode())
        for method, width, wanted in (
            ("Timeslices", "5m", "-400.00% left becomes 0.00% left"),
            ("Timeslices", "60m", "-400.00% left becomes 0.00% left"),
            ("RatioTimeslices", "20m", "0.00% left becomes 80.00% left"),
        ):
            with self.subTest(method=method, width=width):
                text = slo("sliced", target="0.9").replace("Occurrences", method)
                text = text.replace(
                    "- target: 0.9\n    timeSliceW",
                    "- target: 0.9\n    timeSliceTarget: 1\n    timeSliceW",
                )
                text = text.replace("timeSliceWindow: 5m", f"timeSliceWindow: {width}")
                self.write(sli("web"), text)
                self.apply("--past-changes")
                self.write(
                    sli("web"),
                    text.replace(
                        "target: 0.9\n    timeSliceTarget: 0.9",
                        "target: 0.5\n    timeSliceTarget: 0.9",
                    ),
                )
                self.assertEqual([line.split("Z: ")[-1] for line in self.past()], [wanted])

    def test_a_changed_calendar_is_told_window_by_window(self) -> None:
        (self.folder / "zones" / "Europe").mkdir(parents=True)
        (self.folder / "zones" / "Europe" / "Berlin").write_text(BERLIN)
        self.write(sli("web"), slo("month"))
        self.apply()
        self.rows()
        before = self.left_by_window("month", 1)
        self.write(sli("web"), slo("month", window=WEEKS))
        lines = [line.split("objective 1, ")[1] for line in self.past() if "objective 1" in line]
        after = self.left_by_window("month", 1)
        self.assertEqual((len(before), len(after)), (3, 3))
        wanted = {
            *(f"{span}: {left} becomes none" for span, left in before.items()),
            *(f"{span}: none becomes {left}" for span, left in after.items()),
        }
        self.assertEqual(set(lines), wanted)

    def test_a_window_that_rolls_takes_those_of_the_calendar_away(self) -> None:
        self.write(sli("web"), slo("month"))
        self.apply()
        self.rows()
        self.write(sli("web"), slo("month", window=ROLLING))
        wanted = "past: SLO month gets other windows: its 3 that are over are no more"
        self.assertEqual(self.past(), [wanted])

    def test_another_way_to_count_is_named(self) -> None:
        self.write(sli("web"), sli("other"), slo("month"))
        self.apply()
        self.rows()
        front = "past: SLO month counts otherwise"
        end = "3 windows that are over will be judged anew"
        for old, new, reason in (
            ("Occurrences", "Timeslices", "budgetingMethod Occurrences becomes Timeslices"),
            ("0.9\n", "0.95\n", "timeSliceTarget of objective 0 0.9 becomes 0.95"),
            ("indicatorRef: web", "indicatorRef: other", "indicatorRef web becomes other"),
        ):
            with self.subTest(new=new):
                text = slo("month").replace(
                    "  - target: 0.9\n", "  - target: 0.9\n    timeSliceTarget: 1\n"
                )
                self.write(sli("web"), sli("other"), text)
                self.apply("--past-changes")
                self.write(sli("web"), sli("other"), text.replace(old, new, 1))
                self.assertEqual(self.past(), [f"{front} ({reason}): {end}"])
                self.write(sli("web"), sli("other"), text)
                self.apply("--past-changes")

    def test_exclusions_of_a_renamed_slo_go(self) -> None:
        self.write(sli("web"), slo("old"))
        self.apply()
        self.rows()
        for id_ in ("m1", "m2", "lifted"):
            body = f'{{"from":{ORIGIN},"slo":"old","to":{ORIGIN + 10}}}'.encode()
            self.office.ask("PUT", ["exclusions", id_], body=body)
        self.office.ask("DELETE", ["exclusions", "lifted"])
        self.write(sli("web"), slo("new"))
        self.assertEqual(
            self.past("--prune"),
            [
                "past: SLO old goes with its exclusions (m1, m2), and SLO new, which is the same"
                " but for its name, has none of them"
            ],
        )
        self.assertEqual(self.apply("--plan", "--prune")[0], 0)

    def test_rows_of_a_renamed_indicator_stay_behind(self) -> None:
        self.write(sli("web"), slo("roll", window=ROLLING))
        self.apply()
        row = f"web,a,{NOW - 5},1,1,10\n".encode()
        self.office.ask("POST", ["samples"], body=row)
        self.write(sli("renamed"), slo("roll", indicator="renamed", window=ROLLING))
        self.assertEqual(
            self.past("--prune"),
            [
                "past: SLI renamed is SLI web under another name, and has none of its rows: what"
                " counts by it begins anew"
            ],
        )

    def test_what_leaves_the_past_alone_wants_no_word(self) -> None:
        """Before any row, of a window that rolls, of texts and policies, of a new objective."""
        self.write(sli("web"), slo("month"), slo("roll", window=ROLLING))
        self.apply()
        self.write(sli("web"), slo("month", target="0.9"), slo("roll", window=ROLLING))
        self.assertEqual(self.past(), [])
        self.write(sli("web"), slo("month"), slo("roll", window=ROLLING))
        self.apply()
        self.rows()
        self.write(
            sli("web"),
            slo("month").replace("spec:\n", "spec:\n  description: The month\n")
            + "  - target: 0.5\n    timeSliceWindow: 5m\n  alertPolicies:\n  - workbook-ticket\n",
            slo("roll", window=ROLLING, target="0.5"),
        )
        self.assertEqual(self.past(), [])
        self.write(sli("web"), slo("roll", window=ROLLING, target="0.5"))
        self.assertEqual(self.past("--prune"), [])


if __name__ == "__main__":
    unittest.main()
