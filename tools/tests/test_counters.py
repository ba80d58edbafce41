"""The rule of counters: its table, lists of readings, and the command `counters` where it is."""

from __future__ import annotations

import subprocess
import unittest
from pathlib import Path

from support import built_program

from slo_tools.feed.counters import (
    Difference,
    Hole,
    Reading,
    Rise,
    Series,
    difference,
    holes,
    rises,
    rows_from_readings,
)

TABLE = Path(__file__).with_name("counter_rule.tsv")
SECOND = 1000


def table() -> list[tuple[str, list[int]]]:
    lines = [line for line in TABLE.read_text().splitlines() if not line.startswith("#")]
    return [(cells[0], [int(c) for c in cells[1:]]) for cells in (x.split("\t") for x in lines)]


def counters_are_built() -> bool:
    program = built_program()
    if program is None:
        return False
    words = [program, "counters", "x"]
    ended = subprocess.run(words, stdin=subprocess.DEVNULL, capture_output=True)
    return ended.returncode == 0


class HolesTest(unittest.TestCase):
    def series(self, instance: str, *moments: int, code: str = "200") -> Series:
        labels = frozenset({"job": "web", "instance": instance, "code": code}.items())
        return Series(labels, [(moment * SECOND, 1) for moment in moments])

    def test_a_target_that_wasnt_scraped(self) -> None:
        quiet = self.series("a", 0, 20, 40, 101)
        target = frozenset({"job": "web", "instance": "a"}.items())
        self.assertEqual(holes([quiet], 60 * SECOND), [Hole(target, 40 * SECOND, 101 * SECOND)])
        self.assertEqual(holes([quiet], 61 * SECOND), [])
        # Another target goes on.
        other = self.series("b", *range(0, 120, 20))
        self.assertEqual(len(holes([other, quiet], 60 * SECOND)), 1)

    def test_a_series_that_is_missing_alone_is_no_hole(self) -> None:
        failures = self.series("a", 0, 100, code="500")
        successes = self.series("a", *range(0, 120, 20))
        self.assertEqual(holes([failures, successes], 60 * SECOND), [])


class RuleTest(unittest.TestCase):
    def test_table(self) -> None:
        self.assertEqual(len(table()), 13)
        for case, (good, total, later_good, later_total, part, of) in table():
            with self.subTest(case):
                self.assertEqual(difference((good, total), (later_good, later_total)), (part, of))

    @unittest.skipUnless(counters_are_built(), "the program has no command `counters`")
    def test_command_has_the_same_table(self) -> None:
        program = built_program() or ""
        for case, (good, total, later_good, later_total, part, of) in table():
            with self.subTest(case):
                readings = f"a,1,1,{good},{total}\na,2,1,{later_good},{later_total}\n"
                ended = subprocess.run(
                    [program, "counters", "shop"], input=readings, capture_output=True, text=True
                )
                self.assertEqual(ended.stdout, f"shop,a,2,1,{part},{of}\n")

    def test_rows_of_a_list(self) -> None:
        readings = [
            Reading("a", 10, 100, 200),
            Reading("a", 20, 150, 270),
            Reading("a", 15, 120, 230),
            Reading("a", 30, 5, 8),
            Reading("b", 5, 5, 10),
            Reading("b", 6, 9, 11),
        ]
        rows = [
            Difference("a", 15, 20, 30),
            Difference("a", 20, 30, 40),
            Difference("a", 30, 5, 8),
            Difference("b", 6, 1, 1),
        ]
        self.assertEqual(rows_from_readings(readings), rows)


def series(name: str, samples: list[tuple[int, int]], **labels: str) -> Series:
    pairs = {"__name__": name, "job": "web", "instance": "web:80", **labels}
    return Series(frozenset(pairs.items()), [(s * SECOND, v) for s, v in samples])


def told(rises_found: list[Rise]) -> list[tuple[int, int, int]]:
    return [(r.moment // SECOND, r.part, r.total) for r in rises_found]


GAP = 600 * SECOND


class RisesTest(unittest.TestCase):
    def rises(self, parts: list[Series], totals: list[Series]) -> list[tuple[int, int, int]]:
        return sorted(told(list(rises(parts, totals, GAP))))

    def test_first_scrape_of_a_target_counts_nothing(self) -> None:
        total = series("all", [(10, 1000)])
        self.assertEqual(self.rises([total], [total]), [])

    def test_rises_between_scrapes(self) -> None:
        total = series("all", [(10, 1000), (25, 1007), (40, 1007)])
        self.assertEqual(self.rises([], [total]), [(25, 0, 7), (40, 0, 0)])

    def test_a_reset_within_a_minute(self) -> None:
        total = series("all", [(10, 100), (25, 110), (40, 5)])
        self.assertEqual(self.rises([], [total]), [(25, 0, 10), (40, 0, 5)])

    def test_a_fall_of_one_number_is_a_reset_of_both(self) -> None:
        part = series("good", [(10, 100), (25, 90)])
        total = series("all", [(10, 1000), (25, 1005)])
        self.assertEqual(self.rises([part], [total]), [(25, 90, 1005)])

    def test_a_counter_that_appears_in_a_target_began_at_nothing(self) -> None:
        bad = series("all", [(25, 300), (40, 301)], code="500")
        fine = series("all", [(10, 50), (25, 60), (40, 70)], code="200")
        found = self.rises([bad], [bad, fine])
        self.assertEqual(found, [(25, 0, 10), (25, 300, 300), (40, 0, 10), (40, 1, 1)])

    def test_another_target_is_no_witness(self) -> None:
        new = series("all", [(25, 300)], instance="web:81")
        old = series("all", [(10, 50), (25, 60)])
        self.assertEqual(self.rises([], [new, old]), [(25, 0, 10)])

    def test_missed_scrapes_are_made_up_for(self) -> None:
        total = series("all", [(10, 100), (600, 160)])
        self.assertEqual(self.rises([], [total]), [(600, 0, 60)])

    def test_beyond_the_gap_nothing_is_known(self) -> None:
        total = series("all", [(10, 100), (611, 160), (626, 161)])
        self.assertEqual(self.rises([], [total]), [(626, 0, 1)])

    def test_bounds_of_a_histogram_go_with_its_count(self) -> None:
        fast = series("seconds_bucket", [(10, 80), (25, 4)], le="0.3")
        count = series("seconds_count", [(10, 100), (25, 101)])
        self.assertEqual(self.rises([fast], [count]), [(25, 4, 101)])

    def test_a_series_that_is_missing_once_stands_still(self) -> None:
        part = series("good", [(10, 100), (40, 104)])
        total = series("all", [(10, 1000), (25, 1005), (40, 1007)])
        self.assertEqual(self.rises([part], [total]), [(25, 0, 5), (40, 4, 2)])


if __name__ == "__main__":
    unittest.main()
