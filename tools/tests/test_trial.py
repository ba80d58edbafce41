"""slo-try over histories whose budgets, alerts and notices are computed anew by plain rules
(docs/rules.md), and over random ones against the office's own notices."""

from __future__ import annotations

import json
import random
import struct
import subprocess
import tempfile
import unittest
from collections.abc import Sequence
from fractions import Fraction
from pathlib import Path
from typing import Any, NamedTuple, Optional

from support import SHOP, message, pipe, program, run_tool, running_office

from past_support import define, exclude, followed, lift, remove, samples, take, tick, upgrade, zone
from slo_tools.past.entries import Past, past_of_journal, past_of_office
from slo_tools.past.scratch import Scratch
from slo_tools.trial.as_it_came import notices_of, retold
from slo_tools.trial.catalogue import Catalogue, catalogue_of

ORIGIN = 29_000_000
SEEDS = range(12)


def slo(name: str, target: str, policies: Sequence[str] = ("workbook-page",)) -> str:
    named = "".join(f"  - {policy}\n" for policy in policies)
    return f"""---
apiVersion: openslo/v1
kind: SLO
metadata:
  name: {name}
spec:
  service: shop
  indicatorRef: good
  timeWindow:
  - duration: 1d
    isRolling: true
  budgetingMethod: Occurrences
  objectives:
  - displayName: Good answers
    target: {target}
  alertPolicies:
{named}"""


def policy(name: str, threshold: str, lookback: str, after: str, flags: str = "") -> str:
    return f"""---
apiVersion: openslo/v1
kind: AlertPolicy
metadata:
  name: {name}
spec:
{flags}  conditions:
  - kind: AlertCondition
    metadata:
      name: {name}
    spec:
      severity: page
      condition:
        op: gt
        threshold: {threshold}
        lookbackWindow: {lookback}
        alertAfter: {after}
"""


class Written(NamedTuple):
    """A row that came at a moment."""

    moment: int
    minute: int
    revision: int
    good: int
    total: int


class Plain:
    """One SLO over one source, by the rules alone: what is known at a moment decides."""

    def __init__(self, rows: Sequence[Written], excluded: Sequence[tuple[int, int, int]]) -> None:
        self.rows = rows
        # The moment of an exclusion, and its minutes.
        self.excluded = excluded

    def current(self, moment: int) -> dict[int, tuple[int, int]]:
        best: dict[int, tuple[int, int, int]] = {}
        for row in self.rows:
            if row.moment <= moment:
                kept = best.get(row.minute, (0, 0, 0))
                best[row.minute] = max(kept, (row.revision, row.good, row.total))
        out = [(begin, end) for at, begin, end in self.excluded if at <= moment]
        return {
            minute: (good, total)
            for minute, (_, good, total) in best.items()
            if not any(begin <= minute < end for begin, end in out)
        }

    def burn(
        self, known: dict[int, tuple[int, int]], at: int, lookback: int, target: Fraction
    ) -> Optional[Fraction]:
        chosen = [known[it] for it in range(at - lookback, at) if it in known]
        total = sum(each[1] for each in chosen)
        bad = total - sum(each[0] for each in chosen)
        return Fraction(bad, total) / (1 - target) if total else None

    def pages(self, known: dict[int, tuple[int, int]], at: int, target: Fraction) -> bool:
        """Whether workbook-page is active."""

        def above(lookback: int, threshold: str) -> bool:
            burn = self.burn(known, at, lookback, target)
            return burn is not None and burn > Fraction(threshold)

        return (above(60, "14.4") and above(5, "14.4")) or (above(360, "6") and above(30, "6"))

    def intervals(self, begin: int, end: int, moment: int, target: Fraction) -> list[list[int]]:
        known = self.current(moment)
        made: list[list[int]] = []
        for at in range(begin, end):
            if self.pages(known, at, target):
                if made and made[-1][1] == at:
                    made[-1][1] = at + 1
                else:
                    made.append([at, at + 1])
        return made

    def breaches(self, ticks: Sequence[int], target: Fraction) -> list[int]:
        """The ticks that make a notice that workbook-page breaches."""
        found, was = [], False
        for at in ticks:
            now = self.pages(self.current(at), at, target)
            if now and not was:
                found.append(at)
            was = now
        return found


def burst() -> tuple[list[bytes], Plain, list[int]]:
    """Six hours: a burst, an hour of rows that came late, a correction, and an exclusion declared
    afterwards."""
    rows: list[Written] = []
    records = [define(ORIGIN, SHOP + slo("answers", "0.99"))]
    ticks, held = [], list[Written]()
    excluded = [(ORIGIN + 330, ORIGIN + 300, ORIGIN + 310)]
    for minute in range(360):
        bad = 1
        if 60 <= minute < 68:
            bad = 900
        elif 180 <= minute < 190:
            bad = 400
        elif 300 <= minute < 310:
            bad = 1000
        row = Written(ORIGIN + minute + 1, ORIGIN + minute, 1, 1000 - bad, 1000)
        made = [row]
        if 170 <= minute < 230:
            held.append(row)
            made = []
        if minute == 230:
            made += [it._replace(moment=row.moment) for it in held]
        if minute == 250:
            for late in range(ORIGIN + 62, ORIGIN + 66):
                made.append(Written(row.moment, late, 2, 990, 1000))
        if made:
            records.append(samples(row.moment, [("good", *it[1:]) for it in made]))
        rows += made
        if minute == 329:
            records.append(exclude(row.moment, "m1", "answers", ORIGIN + 300, ORIGIN + 310))
        records.append(tick(row.moment))
        ticks.append(row.moment)
    return records, Plain(rows, excluded), ticks


class Trying(unittest.TestCase):
    def setUp(self) -> None:
        self.folder = Path(self.enterContext(tempfile.TemporaryDirectory(prefix="slo-tools-")))
        self.file = self.folder / "office" / "office.journal"
        self.slos = self.folder / "slos"
        self.slos.mkdir()

    def keep(self, records: Sequence[bytes]) -> None:
        followed(self.folder / "office", ORIGIN, records)

    def write(self, *texts: str) -> None:
        (self.slos / "a.yaml").write_text("".join(texts))

    def run_try(self, *words: str) -> subprocess.CompletedProcess[str]:
        return run_tool("slo-try", "--journal", str(self.file), *words, str(self.slos))

    def told(self, *words: str) -> tuple[int, Any]:
        run = self.run_try("--json", *words)
        self.assertEqual(run.stderr, "")
        return run.returncode, json.loads(run.stdout)


class Told(Trying):
    def test_both_answers_are_those_of_plain_rules(self) -> None:
        records, plain, ticks = burst()
        self.keep(records)
        self.write(SHOP, slo("answers", "0.995"))
        status, told = self.told("--as-it-came")
        self.assertEqual(status, 1)
        end = ORIGIN + 360
        self.assertEqual((told["begin"], told["end"]), (ORIGIN, end))
        counts = []
        for side, target in (("now", Fraction("0.99")), ("folder", Fraction("0.995"))):
            alerts = [[it["from"], it["to"]] for it in told[side]["hindsight"]]
            self.assertEqual(alerts, plain.intervals(ORIGIN, end, end, target), side)
            sent = [it["at"] for it in told[side]["as_it_came"]]
            self.assertEqual(sent, plain.breaches(ticks, target), side)
            known = plain.current(end)
            burn = plain.burn(known, end, 1440, target)
            assert burn is not None
            [budget] = told[side]["budgets"]
            self.assertEqual(Fraction(budget["remaining"]), 1 - burn, side)
            counts += [len(alerts), len(sent)]
        # The burst was corrected and the maintenance excluded: hindsight knows less of them.
        self.assertLess(counts[0], counts[1])
        self.assertNotEqual(counts[:2], counts[2:])

    def test_a_folder_that_changes_nothing_tells_the_same(self) -> None:
        records, _, _ = burst()
        self.keep(records)
        self.write(SHOP, slo("answers", "0.99"))
        run = self.run_try("--as-it-came")
        self.assertEqual((run.returncode, run.stderr), (0, ""))
        self.assertIn("nothing would be changed", run.stdout)
        self.assertIn("workbook-page", run.stdout)
        for mark in ("*", " -> ", "\n+", "\n- "):
            self.assertNotIn(mark, run.stdout)

    def test_the_four_measures_against_a_file_of_incidents(self) -> None:
        records, _, _ = burst()
        self.keep(records)
        incidents = self.folder / "incidents.csv"
        incidents.write_text(
            "# name,about,from,to\n"
            f"burst,shop,{ORIGIN + 60},{ORIGIN + 68}\n\n"
            f"slow,answers,{ORIGIN + 180},{ORIGIN + 190}\n"
            f"silent,*,{ORIGIN + 20},{ORIGIN + 30}\n"
            f"before,*,{ORIGIN - 20},{ORIGIN - 10}\n"
        )
        self.write(SHOP, slo("answers", "0.995"))
        words = ["--incidents", str(incidents), "--slack", "5"]
        status, told = self.told(*words)
        now, folder = (told[side]["quality"]["hindsight"]["page"] for side in ("now", "folder"))
        for side, quality in (("now", now), ("folder", folder)):
            alerts = [(it["from"], it["to"]) for it in told[side]["hindsight"]]
            expected = []
            true = set()
            for name, begin, end in (("burst", 60, 68), ("slow", 180, 190), ("silent", 20, 30)):
                begin, end = ORIGIN + begin, ORIGIN + end
                own = [it for it in alerts if it[0] < end + 5 and it[1] > begin]
                true |= set(own)
                detected = max(0, min(it[0] for it in own) - begin) if own else None
                reset = max(0, max(it[1] for it in own) - end) if own else None
                expected.append({"name": name, "detected": detected, "reset": reset})
            self.assertEqual(quality["incidents"], expected)
            self.assertEqual((quality["alerts"], quality["true_alerts"]), (len(alerts), len(true)))
        self.assertIsNone(folder["incidents"][2]["detected"])
        self.assertIsNotNone(folder["incidents"][1]["detected"])
        lines = self.run_try(*words).stdout.splitlines()
        self.assertIn("note: before didn't begin in these days, and isn't counted", lines)
        found = [
            sum(it["detected"] is not None for it in side["incidents"]) for side in (now, folder)
        ]
        ways = [f"{side['true_alerts']} of {side['alerts']}" for side in (now, folder)]
        recall = f"{found[0]} of 3 -> {found[1]} of 3"
        self.assertIn(
            f"pages in hindsight: precision {ways[0]} -> {ways[1]}, recall {recall}", lines
        )

    def test_a_name_for_people_tells_the_same(self) -> None:
        records, _, ticks = burst()
        self.keep(records)
        self.write(SHOP, slo("answers", "0.99").replace("Good answers", "Answers"))
        run = self.run_try("--as-it-came")
        self.assertEqual((run.returncode, run.stderr), (0, ""))
        self.assertIn("~ SLO answers", run.stdout)
        head = f"Notices as it came, at the ticks of {len(ticks)} of 360 minutes"
        self.assertIn(head, run.stdout.splitlines())

    def test_an_office_without_an_entry_is_tried(self) -> None:
        self.keep([])
        self.write(SHOP, slo("answers", "0.99"))
        status, told = self.told("--as-it-came")
        self.assertEqual((status, told["begin"], told["end"]), (1, ORIGIN, ORIGIN))
        self.assertEqual(told["folder"]["as_it_came"], [])

    def test_days_are_those_before_the_last_entry(self) -> None:
        last = ORIGIN + 5 * 1440
        self.keep([define(ORIGIN, SHOP + slo("answers", "0.99")), tick(last)])
        self.write(SHOP, slo("answers", "0.99"))
        _, told = self.told("--days", "2")
        self.assertEqual((told["begin"], told["end"]), (last - 2 * 1440, last))

    def test_prune_takes_away_what_the_folder_lacks_but_no_rows(self) -> None:
        row = samples(ORIGIN + 1, [("good", ORIGIN, 1, 9, 10)])
        unused = SHOP.partition("---\n")[2].replace("name: good", "name: unused")
        first = define(ORIGIN, SHOP + slo("answers", "0.99") + "---\n" + unused)
        self.keep([first, row, exclude(ORIGIN + 2, "m", "answers", ORIGIN, ORIGIN + 1)])
        self.write(SHOP.partition("---")[0])
        status, told = self.told("--prune", "--as-it-came")
        self.assertEqual((status, told["changes"]), (1, ["- SLI unused", "- SLO answers"]))
        self.assertEqual(told["folder"]["budgets"], [])
        status, told = self.told("--as-it-came")
        self.assertEqual((status, told["changes"]), (0, []))

    def test_a_zone_of_the_folder_is_there_from_the_first_minute_on(self) -> None:
        records, _, _ = burst()
        self.keep(records)
        calendar = slo("answers", "0.99").replace(
            "duration: 1d\n    isRolling: true",
            "duration: 1d\n    calendar:\n      startTime: 2025-01-01 00:00:00\n"
            "      timeZone: A/B",
        )
        self.write(SHOP, calendar)
        (self.slos / "zones" / "A").mkdir(parents=True)
        (self.slos / "zones" / "A" / "B").write_text("CET-1")
        status, told = self.told("--as-it-came")
        self.assertEqual(status, 1)
        self.assertEqual(told["folder"]["as_it_came"], told["now"]["as_it_came"])
        self.assertGreater(len(told["folder"]["as_it_came"]), 0)

    def test_an_office_that_runs_is_tried_and_stays_as_it_is(self) -> None:
        with running_office(ORIGIN) as office:
            client = office.client()
            client.define((SHOP + slo("answers", "0.99")).encode())
            client.tick()
            self.write(SHOP, slo("answers", "0.995"))
            before = client.objects()[0]
            run = run_tool("slo-try", "--office", office.address, str(self.slos))
            # Without rows nothing is left of either budget, nor spent.
            self.assertEqual((run.returncode, run.stderr), (0, ""))
            self.assertIn("0.99 -> 0.995", run.stdout)
            self.assertIn("note: answers has no rows in its window", run.stdout)
            self.assertEqual(client.objects()[0], before)
            past = past_of_office(client)
            self.assertEqual(past, past_of_journal(office.folder / "office.journal"))


class BadInput(Trying):
    def refused(self, *words: str) -> str:
        run = self.run_try(*words)
        self.assertEqual((run.returncode, run.stdout), (2, ""))
        return run.stderr

    def test_what_cant_be_tried_is_told_with_status_2(self) -> None:
        row = samples(ORIGIN + 1, [("good", ORIGIN, 1, 9, 10)])
        self.keep([define(ORIGIN, SHOP + slo("answers", "0.99")), row])
        self.assertIn("no documents", self.refused())
        self.write("kind: SLO\n")
        self.assertIn("a.yaml:1:1: ", self.refused())
        self.write(SHOP.replace("good:\n", "bad:\n"))
        told = "slo-try: SLI good has samples, and another reading of them is refused\n"
        self.assertEqual(self.refused(), told)
        many = "".join(slo(f"slo-{number}", "0.9", []) for number in range(200))
        self.write(SHOP, many.replace("  alertPolicies:\n", ""))
        self.assertIn("the office would refuse", self.refused())

    def test_a_file_of_incidents_that_is_none(self) -> None:
        self.keep([define(ORIGIN, SHOP + slo("answers", "0.99"))])
        self.write(SHOP, slo("answers", "0.99"))
        file = self.folder / "inc.csv"
        for line, why in (
            ("a,b,c", "isn't NAME,SLO,FROM,TO"),
            (f"a,shop,{ORIGIN},{ORIGIN}", "ends before it begins"),
            (f"a,shop,yesterday,{ORIGIN}", "yesterday: no date"),
            (f"a,shopp,{ORIGIN},{ORIGIN + 1}", "there is no SLO or service shopp"),
        ):
            with self.subTest(line=line):
                file.write_text(f"# incidents\n{line}\n")
                self.assertIn(f"slo-try: {file}:2: {why}", self.refused("--incidents", str(file)))
        file.write_bytes(b"a,\xff\n")
        self.assertIn(f"{file}: no lines", self.refused("--incidents", str(file)))
        missing = self.refused("--incidents", str(self.folder / "none"))
        self.assertIn("No such file", missing)

    def test_a_past_that_cant_be_read(self) -> None:
        self.keep([define(ORIGIN, SHOP + slo("answers", "0.99"))])
        self.write(SHOP, slo("answers", "0.99"))
        data = self.file.read_bytes()
        self.file.write_bytes(data[:-1] + b"\1\0\0\0\0")
        self.assertIn(f"damaged at {len(data) - 1}: the record's length is 0", self.refused())
        bad = samples(ORIGIN + 1, [("unknown", ORIGIN, 1, 0, 1)])
        entry = b"\1" + struct.pack(">I", len(bad)) + bad
        self.file.write_bytes(data[:-1] + entry + b"\0")
        told = "entry 1, samples of 2025-02-19T21:21Z, can't stand there"
        self.assertIn(told, self.refused())
        self.file.write_bytes(data[:-1] + b"\1\0\0\0\5" + struct.pack(">IB", ORIGIN, 3) + b"\0")
        self.assertIn("entry 1, zone of 2025-02-19T21:20Z, can't stand there", self.refused())
        self.file.write_bytes(data[:-1] + b"\1\0\0\0\5" + struct.pack(">IB", ORIGIN, 10) + b"\0")
        self.assertIn("entry 1 is of no kind that is known here", self.refused())
        self.file.write_bytes(b"\1OSLOJRN2" + data[9:])
        self.assertIn("the letters at 1", self.refused())
        run = run_tool("slo-try", "--office", "http://127.0.0.1:1", str(self.slos))
        self.assertEqual((run.returncode, run.stdout), (2, ""))

    def test_days_and_minutes_that_are_none_are_usage(self) -> None:
        for words in (["--days", "0"], ["--days", "x"], ["--slack", "-1"]):
            self.assertIn("usage: slo-try", self.refused(*words))


def random_history(chance: random.Random) -> list[bytes]:
    """Hours of an office that had one set of definitions from its first minute on: rows in time,
    late and corrected, withdrawn behind the upgrade, exclusions and liftings, ticks with gaps."""
    flags = "".join(
        f"  {flag}: {chance.choice(['true', 'false'])}\n"
        for flag in ("alertWhenBreaching", "alertWhenResolved", "alertWhenNoData")
    )
    own = policy(
        "own",
        chance.choice(["1", "3", "10"]),
        chance.choice(["3m", "15m", "1h"]),
        chance.choice(["0m", "2m"]),
        flags,
    )
    policies = ["workbook-page", "own", "workbook-ticket"]
    texts = SHOP + own + slo("answers", "0.99", policies) + slo("others", "0.9", ["own"])
    records = [zone(ORIGIN, "A/B", b"EST5"), define(ORIGIN, texts)]
    ids, revision, is_upgraded = 0, 1, False
    live: list[str] = []
    for minute in range(ORIGIN + 1, ORIGIN + 300):
        revision += 1
        if chance.random() < 0.9:
            bad = chance.choice([0, 0, 0, 2, 40, 500])
            records.append(samples(minute, [("good", minute - 1, 1, 1000 - bad, 1000)]))
        if chance.random() < 0.1:
            first = max(ORIGIN, minute - chance.randrange(1, 100))
            late = range(first, min(minute, first + chance.randrange(1, 20)))
            good = chance.choice([1000, 990, 300])
            records.append(samples(minute, [("good", it, revision, good, 1000) for it in late]))
        if chance.random() < 0.03:
            ids += 1
            begin = max(ORIGIN, minute - chance.randrange(1, 60))
            owner = chance.choice(["answers", "others"])
            records.append(exclude(minute, f"m{ids}", owner, begin, begin + 20))
            live.append(f"m{ids}")
        if live and chance.random() < 0.02:
            records.append(lift(minute, live.pop()))
        if not is_upgraded and chance.random() < 0.01:
            is_upgraded = True
            records.append(upgrade(minute))
        records += [tick(minute)] * chance.choice([0, 1, 1, 1, 2])
    return records


def own_notices(folder: Path) -> list[tuple[str, int, str, int, str]]:
    """The notices that an office itself has, asked of the program and taken by no tool."""
    head, _, body = pipe(folder, message("GET", "/notices")).partition(b"\r\n\r\n")
    told = json.loads(body)["notices"]
    return [(n["slo"], n["objective"], n["policy"], n["at"], n["state"]) for n in told]


class AsItCame(Trying):
    def catalogue(self, past: Past) -> Catalogue:
        with Scratch(program(), past=past) as scratch:
            return catalogue_of(scratch, {"A/B": b"EST5"})

    def test_the_definitions_that_stood_give_the_offices_own_notices(self) -> None:
        counts = []
        for seed in SEEDS:
            with self.subTest(seed=seed), tempfile.TemporaryDirectory() as place:
                folder = Path(place)
                followed(folder, ORIGIN, random_history(random.Random(seed)))
                past = past_of_journal(folder / "office.journal")
                catalogue = self.catalogue(past)
                with Scratch(program(), past=retold(past, catalogue)) as scratch:
                    sent = notices_of(scratch, catalogue)
                told = [
                    (it.watched.slo, it.watched.objective, it.watched.policy, it.at, it.state)
                    for it in sent
                ]
                own = own_notices(folder)
                self.assertEqual(told, own)
                counts.append(len(own))
        self.assertGreater(min(counts), 2)
        self.assertLess(max(counts), 1000)

    def test_notices_that_were_taken_are_told_too(self) -> None:
        records, plain, ticks = burst()
        place = next(n for n, it in enumerate(records) if it == tick(ORIGIN + 70))
        self.keep([*records[: place + 1], take(ORIGIN + 70, 1), *records[place + 1 :]])
        self.write(SHOP, slo("answers", "0.99"))
        _, told = self.told("--as-it-came")
        sent = [it["at"] for it in told["now"]["as_it_came"]]
        self.assertEqual(sent, plain.breaches(ticks, Fraction("0.99")))

    def test_changed_definitions_stand_from_the_first_minute_on(self) -> None:
        """What stands at the end is told of all days, whatever stood before and was removed."""
        records, plain, ticks = burst()
        later = [
            define(ORIGIN + 360, slo("answers", "0.995")),
            define(ORIGIN + 360, slo("passing", "0.5")),
            exclude(ORIGIN + 360, "gone", "passing", ORIGIN, ORIGIN + 1),
            remove(ORIGIN + 360, 3, "passing"),
            lift(ORIGIN + 360, "gone"),
        ]
        self.keep([*records, *later])
        self.write(SHOP, slo("answers", "0.995"))
        status, told = self.told("--as-it-came")
        self.assertEqual(status, 0)
        sent = [it["at"] for it in told["now"]["as_it_came"]]
        self.assertEqual(sent, plain.breaches(ticks, Fraction("0.995")))

    def test_more_notices_than_an_answer_has_are_all_told(self) -> None:
        flags = "  alertWhenResolved: true\n"
        text = SHOP + policy("own", "1", "1m", "0m", flags) + slo("answers", "0.99", ["own"])
        records = [define(ORIGIN, text)]
        for minute in range(1, 1102):
            bad = 100 * (minute % 2)
            row = ("good", ORIGIN + minute - 1, 1, 1000 - bad, 1000)
            records += [samples(ORIGIN + minute, [row]), tick(ORIGIN + minute)]
        self.keep(records)
        past = past_of_journal(self.file)
        catalogue = self.catalogue(past)
        with Scratch(program(), past=retold(past, catalogue)) as scratch:
            sent = notices_of(scratch, catalogue)
        self.assertEqual([it.at for it in sent], list(range(ORIGIN + 1, ORIGIN + 1102)))


if __name__ == "__main__":
    unittest.main()
