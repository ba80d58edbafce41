"""slo-journal's fronts of a history and the changes that people made, against what the office's
program makes of the same entries."""

from __future__ import annotations

import json
import os
import subprocess
import tempfile
import time
import unittest
from pathlib import Path

from support import SHOP, TOOLS, TOP, program, run_tool, running_office

from past_support import (
    define,
    exclude,
    followed,
    lift,
    records_of,
    remove,
    samples,
    take,
    tick,
    upgrade,
    zone,
)

ORIGIN = 29_000_000


def slo(target: str) -> str:
    return f"""---
apiVersion: openslo/v1
kind: SLO
metadata:
  name: answers
spec:
  service: shop
  indicatorRef: good
  timeWindow:
  - duration: 1d
    isRolling: true
  budgetingMethod: Occurrences
  objectives:
  - target: {target}
  alertPolicies:
  - workbook-page
"""


# An entry of each kind; the moments differ, and some minutes have several entries.
HISTORY = [
    define(ORIGIN, SHOP + slo("0.99")),
    zone(ORIGIN, "A/B", b"EST5"),
    samples(ORIGIN + 1, [("good", ORIGIN, 1, 0, 1000)]),
    tick(ORIGIN + 1),
    take(ORIGIN + 1, 1),
    define(ORIGIN + 5, slo("0.9985")),
    exclude(ORIGIN + 7, "m1", "answers", ORIGIN, ORIGIN + 1),
    lift(ORIGIN + 7, "m1"),
    upgrade(ORIGIN + 8),
    samples(ORIGIN + 9, [("good", ORIGIN, 2, 999, 1000), ("good", ORIGIN + 3, 1, 5, 5)]),
    remove(ORIGIN + 9, 3, "answers"),
    tick(ORIGIN + 12),
]


class Past(unittest.TestCase):
    def setUp(self) -> None:
        self.folder = Path(self.enterContext(tempfile.TemporaryDirectory(prefix="slo-tools-")))
        self.data = followed(self.folder, ORIGIN, HISTORY)
        self.file = str(self.folder / "office.journal")
        self.out = self.folder / "out.journal"

    def journal(self, *words: str) -> subprocess.CompletedProcess[str]:
        return run_tool("slo-journal", self.file, *words)

    def written(self, *words: str) -> bytes:
        """What a front's command writes."""
        self.out.unlink(missing_ok=True)
        run = self.journal(*words, "--write", str(self.out))
        self.assertEqual((run.returncode, run.stderr), (0, ""))
        return self.out.read_bytes()


class Fronts(Past):
    def test_each_front_is_what_follow_makes_of_its_entries(self) -> None:
        for count in range(len(HISTORY) + 1):
            with self.subTest(count=count):
                made = followed(self.folder / str(count), ORIGIN, HISTORY[:count])
                self.assertEqual(self.written("--front", str(count)), made)
                self.assertEqual(len(records_of(made)), count)

    def test_a_front_opens_with_the_answers_of_then(self) -> None:
        told = {}
        for count in (5, 6):
            place = self.folder / f"front-{count}"
            place.mkdir()
            (place / "office.journal").write_bytes(self.written("--front", str(count)))
            words = [program(), "report", str(ORIGIN + 5)]
            run = subprocess.run(words, cwd=place, capture_output=True, text=True, check=True)
            told[count] = run.stdout
        self.assertNotEqual(told[5], told[6])

    def test_as_of_a_date_are_the_entries_before_it(self) -> None:
        ends = {ORIGIN: 0, ORIGIN + 1: 2, ORIGIN + 2: 5, ORIGIN + 7: 6, ORIGIN + 8: 8}
        for minute, count in {**ends, ORIGIN + 13: 12}.items():
            with self.subTest(minute=minute - ORIGIN):
                written = self.written("--as-of", str(minute))
                self.assertEqual(records_of(written), HISTORY[:count])
        # 29,000,007 minutes behind 1970.
        written = self.written("--as-of", "2025-02-19T21:27Z")
        self.assertEqual(records_of(written), HISTORY[:6])

    def test_what_was_written_is_told(self) -> None:
        run = self.journal("--front", "6", "--write", str(self.out))
        self.assertEqual(run.stdout, f"{self.out}: entries 6, the last one of 2025-02-19T21:25Z\n")
        self.out.unlink()
        run = self.journal("--front", "0", "--write", str(self.out))
        self.assertEqual(run.stdout, f"{self.out}: entries 0\n")

    def test_a_file_that_is_there_stays(self) -> None:
        self.out.write_text("mine")
        for out in (self.out, Path(self.file)):
            run = self.journal("--front", "1", "--write", str(out))
            self.assertEqual((run.returncode, run.stdout), (2, ""))
            self.assertIn("File exists", run.stderr)
        self.assertEqual(self.out.read_text(), "mine")
        self.assertEqual(Path(self.file).read_bytes(), self.data)

    def test_more_entries_than_there_are_is_2(self) -> None:
        run = self.journal("--front", "13", "--write", str(self.out))
        self.assertEqual((run.returncode, run.stderr), (2, "slo-journal: there are 12 entries\n"))
        self.assertFalse(self.out.exists())

    def test_words_of_another_form_are_2(self) -> None:
        out = ["--write", str(self.out)]
        for words in (
            ["--front", "3"],
            ["--as-of", "2026-11-29"],
            out,
            ["--front", "-1", *out],
            ["--front", "two", *out],
            ["--as-of", "yesterday", *out],
            ["--front", "1", "--as-of", "2026-11-29", *out],
        ):
            with self.subTest(words=words):
                self.assertEqual(self.journal(*words).returncode, 2)
                self.assertFalse(self.out.exists())

    def test_a_front_before_the_damage_is_whole_and_one_behind_it_is_none(self) -> None:
        sixth = 13 + sum(5 + len(record) for record in HISTORY[:6])
        damaged = self.data[:sixth] + b"\1\0\0\0\0"
        Path(self.file).write_bytes(damaged)
        made = followed(self.folder / "made", ORIGIN, HISTORY[:6])
        self.assertEqual(self.written("--front", "6"), made)
        self.assertEqual(records_of(self.written("--as-of", str(ORIGIN + 5))), HISTORY[:5])
        self.out.unlink()
        for words in (["--front", "7"], ["--as-of", str(ORIGIN + 6)]):
            run = self.journal(*words, "--write", str(self.out))
            told = f"not written: damaged at {sixth}: the record's length is 0\n"
            self.assertEqual((run.returncode, run.stdout), (1, told))
            self.assertFalse(self.out.exists())

    def test_a_gate_that_reads_as_closed_ends_no_front(self) -> None:
        sixth = 13 + sum(5 + len(record) for record in HISTORY[:6])
        Path(self.file).write_bytes(self.data[:sixth] + b"\0" + self.data[sixth + 1 :])
        run = self.journal("--as-of", str(ORIGIN + 12), "--write", str(self.out))
        self.assertEqual(run.returncode, 1)
        self.assertIn(f"damaged at {sixth}: the gate reads as closed", run.stdout)
        self.assertFalse(self.out.exists())

    def test_entries_that_no_office_takes_are_not_written(self) -> None:
        history = [*HISTORY[:3], samples(ORIGIN + 2, [("unknown", ORIGIN, 1, 0, 1)])]
        front = self.data[:13]
        for record in history:
            front += b"\1" + len(record).to_bytes(4, "big") + record
        Path(self.file).write_bytes(front + b"\0")
        run = self.journal("--front", "4", "--write", str(self.out))
        self.assertEqual(run.returncode, 1)
        self.assertIn("not written: the office says: slo_office: file damaged at", run.stdout)
        self.assertFalse(self.out.exists())
        self.assertEqual(records_of(self.written("--front", "3")), history[:3])

    def test_a_foreign_file_has_no_front(self) -> None:
        Path(self.file).write_bytes(b"\1OSLOJRN2" + self.data[9:])
        run = self.journal("--front", "0", "--write", str(self.out))
        self.assertEqual(run.returncode, 1)
        self.assertIn("not written: foreign: the letters", run.stdout)

    def test_the_commands_of_the_operators_page_do_as_it_says(self) -> None:
        page = (TOP / "docs" / "operating.md").read_text()
        section = page.partition("### Fronts\n")[2].partition("\n## ")[0]
        [command] = [line[2:] for line in section.splitlines() if line.startswith("$ ")]
        path = f"{TOOLS / 'bin'}:{os.environ['PATH']}"
        run = subprocess.run(
            ["bash", "-c", command],
            cwd=self.folder,
            capture_output=True,
            text=True,
            env={**os.environ, "PATH": path, "SLO_OFFICE_PROGRAM": program()},
        )
        # The last of these entries is of 2025.
        told = "october/office.journal: entries 12, the last one of 2025-02-19T21:32Z\n"
        self.assertEqual((run.stdout, run.stderr), (told, ""))
        self.assertEqual((self.folder / "october/office.journal").read_bytes(), self.data)

    def test_a_running_office_is_read_beside_it(self) -> None:
        with running_office(ORIGIN) as office:
            office.client().define(SHOP.encode())
            office.client().tick()
            file = str(office.folder / "office.journal")
            run = run_tool("slo-journal", file, "--front", "1", "--write", str(self.out))
            self.assertEqual((run.returncode, run.stderr), (0, ""))
            office.client().tick()
        [record] = records_of(self.out.read_bytes())
        self.assertEqual(record[4], 1)


class Changes(Past):
    def test_what_people_changed_is_told_with_the_differences(self) -> None:
        run = self.journal("--changes")
        self.assertEqual((run.returncode, run.stderr), (0, ""))
        self.assertEqual(
            run.stdout.splitlines(),
            [
                "0 2025-02-19T21:20Z define Service shop, SLI good, SLO answers",
                "    + SLI good",
                "    + SLO answers",
                "    + Service shop",
                "1 2025-02-19T21:20Z zone A/B, 4 bytes",
                "5 2025-02-19T21:25Z define again SLO answers",
                "    ~ SLO answers",
                "      @@ -12,3 +12,3 @@",
                "         objectives:",
                "      -    - target: 0.99",
                "      +    - target: 0.9985",
                "         alertPolicies:",
                "6 2025-02-19T21:27Z exclude m1: answers from 2025-02-19T21:20Z to"
                " 2025-02-19T21:21Z",
                "7 2025-02-19T21:27Z lift m1: answers from 2025-02-19T21:20Z to"
                " 2025-02-19T21:21Z",
                "8 2025-02-19T21:28Z upgrade",
                "10 2025-02-19T21:29Z remove SLO answers",
                "    - SLO answers",
            ],
        )

    def test_the_days_that_are_asked_for_are_told_over_all_before_them(self) -> None:
        run = self.journal("--changes", "--from", str(ORIGIN + 5), "--to", str(ORIGIN + 7))
        lines = run.stdout.splitlines()
        self.assertEqual(lines[0], "5 2025-02-19T21:25Z define again SLO answers")
        self.assertIn("      +    - target: 0.9985", lines)
        self.assertEqual([line for line in lines if line[0] != " "], lines[:1])

    def test_who_asked_is_told_by_the_access_log(self) -> None:
        log = self.folder / "access.log"
        at = time.strftime("%d/%b/%Y:%H:%M:20 +0000", time.gmtime((ORIGIN + 5) * 60))
        log.write_text(f'10.0.0.1 - anna [{at}] "POST /objects HTTP/1.1" 200 11 "-" "curl/7"\n')
        lines = self.journal("--changes", "--log", str(log)).stdout.splitlines()
        told = [line for line in lines if "[" in line]
        self.assertEqual(told, ["5 2025-02-19T21:25Z define again SLO answers [anna at 10.0.0.1]"])

    def test_json_says_the_same(self) -> None:
        told = json.loads(self.journal("--changes", "--json").stdout)
        self.assertEqual([each["entry"] for each in told["changes"]], [0, 1, 5, 6, 7, 8, 10])
        self.assertEqual(told["changes"][6]["differences"], ["- SLO answers"])
        self.assertEqual(told["changes"][6]["minute"], ORIGIN + 9)
        self.assertIsNone(told["damage"])

    def test_changes_up_to_the_damage_are_told_with_status_1(self) -> None:
        sixth = 13 + sum(5 + len(record) for record in HISTORY[:6])
        Path(self.file).write_bytes(self.data[:sixth] + b"\1\0\0\0\0")
        run = self.journal("--changes")
        self.assertEqual(run.returncode, 1)
        self.assertIn("      +    - target: 0.9985", run.stdout.splitlines())
        last = run.stdout.splitlines()[-1]
        self.assertEqual(last, f"damaged at {sixth}: the record's length is 0")

    def test_without_the_program_nothing_is_told(self) -> None:
        run = self.journal("--changes", "--alone")
        self.assertEqual((run.returncode, run.stdout), (2, ""))
        self.assertIn("--changes wants the office's program", run.stderr)


if __name__ == "__main__":
    unittest.main()
