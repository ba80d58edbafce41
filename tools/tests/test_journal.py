"""slo-journal over journals that the office's program wrote, whole and damaged."""

from __future__ import annotations

import json
import subprocess
import tempfile
import time
import unittest
from pathlib import Path

from support import TOP, message, pipe, program, run_tool, running_office

from slo_tools.journal.file import Record, beyond_tail, read_journal
from slo_tools.journal.mending import mending_of
from slo_tools.journal.records import Entry, Row, Samples
from slo_tools.journal.sealing import read_seals, verdict_of

ORIGIN = 29_000_000


def small_journal(folder: Path) -> bytes:
    """A journal with an entry of each kind."""
    subprocess.run([program(), "init", str(ORIGIN)], cwd=folder, check=True, capture_output=True)
    target = b"apiVersion: openslo/v1\nkind: Service\nmetadata:\n  name: s\nspec: {}\n"
    sli = (
        b"---\napiVersion: openslo/v1\nkind: SLI\nmetadata:\n  name: g\nspec:\n  ratioMetric:\n"
        b"    total:\n      metricSource: {}\n    good:\n      metricSource: {}\n"
    )
    slo = (
        b"---\napiVersion: openslo/v1\nkind: SLO\nmetadata:\n  name: o\nspec:\n  service: s\n"
        b"  indicatorRef: g\n  timeWindow:\n  - duration: 1d\n    isRolling: true\n"
        b"  budgetingMethod: Occurrences\n  objectives:\n  - target: 0.9\n"
        b"  alertPolicies:\n  - workbook-page\n"
    )
    pipe(
        folder,
        message("POST", "/objects", target + sli + slo),
        message("PUT", "/zones/A/B", b"EST5"),
        message("POST", "/samples", f"g,web,{ORIGIN},1,0,1000\n".encode()),
        message("POST", "/tick"),
        message("POST", "/samples", f"g,web,{ORIGIN},2,1,10\ng,b,{ORIGIN + 1},1,5,5\n".encode()),
        message(
            "PUT", "/exclusions/m1", f'{{"from":{ORIGIN},"slo":"o","to":{ORIGIN + 1}}}'.encode()
        ),
        message("DELETE", "/exclusions/m1"),
        message("POST", "/upgrade"),
        message("POST", "/samples", f"g,web,{ORIGIN},3,,\ng,c,{ORIGIN},1,,\n".encode()),
        message("DELETE", "/objects/SLO/o"),
    )
    return (folder / "office.journal").read_bytes()


def opens(data: bytes) -> bool:
    """Whether the office's program reports over these bytes as its journal."""
    with tempfile.TemporaryDirectory(prefix="slo-tools-") as folder:
        (Path(folder) / "office.journal").write_bytes(data)
        run = subprocess.run([program(), "report"], cwd=folder, capture_output=True, check=False)
    return run.returncode == 0


class Reading(unittest.TestCase):
    def setUp(self) -> None:
        self.folder = Path(self.enterContext(tempfile.TemporaryDirectory(prefix="slo-tools-")))
        self.data = small_journal(self.folder)
        self.file = str(self.folder / "office.journal")

    def test_each_kind_of_entry_is_told(self) -> None:
        run = run_tool("slo-journal", self.file)
        self.assertEqual((run.returncode, run.stderr), (0, ""))
        words = [line.split()[2:] for line in run.stdout.splitlines()[:10]]
        self.assertEqual(
            [" ".join(line) for line in words],
            [
                "define Service s, SLI g, SLO o",
                "zone A/B, 4 bytes",
                "samples g: 1 new; 2025-02-19T21:20Z",
                "tick",
                "samples g: 1 new, 1 newer; 2025-02-19T21:20Z to 2025-02-19T21:21Z",
                "exclude m1: o from 2025-02-19T21:20Z to 2025-02-19T21:21Z",
                "lift m1: o from 2025-02-19T21:20Z to 2025-02-19T21:21Z",
                "upgrade",
                "samples g: 1 new, 1 newer; 2025-02-19T21:20Z",
                "remove SLO o",
            ],
        )
        for line in ("accepted 5 of 8000000, 0.00%", "cells 3 of 4000000, 0.00%", "days 0 of"):
            self.assertIn(line, run.stdout)

    def test_an_office_that_isnt_upgraded_has_other_limits(self) -> None:
        place = read_journal(self.data).records[7].place
        (self.folder / "before").write_bytes(self.data[:place] + b"\0")
        run = run_tool("slo-journal", str(self.folder / "before"))
        for line in ("accepted 3 of 4000000, 0.00%", "cells 2 of 2000000, 0.00%"):
            self.assertIn(line, run.stdout)

    def test_each_form_of_an_amount_is_read(self) -> None:
        rows: list[Row] = []

        def hear(_: Record, entry: Entry) -> None:
            if isinstance(entry.command, Samples):
                rows.extend(entry.command.rows)

        read_journal(self.data, hear)
        told = [(row.amount, row.total) for row in rows]
        self.assertEqual(told, [(0, 1000), (1, 10), (5, 5), (None, None), (None, None)])

    def test_the_stored_sessions_are_read_to_their_closed_gates(self) -> None:
        found = sorted(TOP.glob("tests/**/*.journal"))
        for path in found:
            journal = read_journal(path.read_bytes())
            with self.subTest(path=path):
                self.assertTrue(journal.is_whole)

    def test_who_asked_is_taken_from_the_log(self) -> None:
        moment = read_journal(self.data).records[0].moment
        at = time.strftime("%d/%b/%Y:%H:%M:20 +0000", time.gmtime(moment * 60))
        log = self.folder / "access.log"
        log.write_text(
            f'10.0.0.1 - anna [{at}] "PUT /zones/A/B HTTP/1.1" 200 11 "-" "curl/7"\n'
            f'10.0.0.2 - - [{at}] "POST /samples HTTP/1.1" 200 11 "-" "curl/7"\n'
            f'10.0.0.3 - ben [{at}] "POST /samples HTTP/1.1" 200 11 "-" "curl/7"\n'
            f'10.0.0.4 - eve [{at}] "POST /tick HTTP/1.1" 507 11 "-" "curl/7"\n'
            f'10.0.0.5 - joe [{at}] "POST /upgrade HTTP/1.1" 200 11 "-" "curl/7"\n'
            "no line of a log\n"
        )
        run = run_tool("slo-journal", "--log", str(log), self.file)
        lines = run.stdout.splitlines()
        self.assertTrue(lines[1].endswith("[anna at 10.0.0.1]"), lines[1])
        self.assertTrue(lines[2].endswith("[10.0.0.2 or ben at 10.0.0.3]"), lines[2])
        self.assertTrue(lines[7].endswith("[joe at 10.0.0.5]"), lines[7])
        self.assertNotIn("eve", run.stdout)

    def test_json_says_the_same(self) -> None:
        told = json.loads(run_tool("slo-journal", "--json", self.file).stdout)
        self.assertEqual(len(told["entries"]), 10)
        self.assertEqual(told["usage"]["exclusions"], [1, 2000])
        self.assertEqual((told["tail"], told["sound"]), (len(self.data) - 1, True))

    def test_a_closed_gate_before_records_is_damage(self) -> None:
        journal = read_journal(self.data)
        place = journal.records[4].place
        broken = self.data[:place] + b"\0" + self.data[place + 1 :]
        (self.folder / "broken").write_bytes(broken)
        run = run_tool("slo-journal", str(self.folder / "broken"))
        self.assertEqual(run.returncode, 1)
        self.assertIn(f"damaged at {place}: the gate reads as closed, and 6 records", run.stdout)
        self.assertIn("; or it was closed by hand: then cut the file behind it", run.stdout)
        self.assertIn("lift m1", run.stdout)

    def test_a_copy_that_is_cut_behind_a_gate_closed_by_hand_is_sound(self) -> None:
        place = read_journal(self.data).records[4].place
        folder = Path(self.enterContext(tempfile.TemporaryDirectory(prefix="slo-tools-")))
        file = folder / "office.journal"
        file.write_bytes(self.data)
        with file.open("r+b") as opened:
            opened.seek(place)
            opened.write(b"\0")
        subprocess.run(["truncate", "-s", str(place + 1), file], check=True)
        for entries in (4, 5, 6):
            told = json.loads(run_tool("slo-journal", "--json", str(file)).stdout)
            self.assertEqual((told["sound"], told["behind"]), (True, []))
            self.assertEqual(len(told["entries"]), entries)
            pipe(folder, message("POST", "/tick"))

    def test_one_record_behind_the_closed_gate_is_no_damage(self) -> None:
        place = read_journal(self.data).records[9].place
        stopped = self.data[:place] + b"\0" + self.data[place + 1 :]
        (self.folder / "stopped").write_bytes(stopped)
        run = run_tool("slo-journal", str(self.folder / "stopped"))
        self.assertEqual(run.returncode, 0)
        self.assertIn("a change that was never acknowledged", run.stdout)

    def test_a_foreign_header_is_told_with_what_stands_behind(self) -> None:
        (self.folder / "foreign").write_bytes(b"\x01OSLOJRN2" + self.data[9:])
        run = run_tool("slo-journal", str(self.folder / "foreign"))
        self.assertEqual(run.returncode, 1)
        self.assertIn("foreign: the letters at 1 are b'OSLOJRN2'", run.stdout)
        self.assertIn("entries 10", run.stdout)

    def test_an_entry_that_cant_follow_is_told_by_the_program(self) -> None:
        place = self.data.index(b"indicatorRef: g")
        broken = self.data[:place] + b"indicatorRef: h" + self.data[place + 15 :]
        file = self.folder / "broken"
        file.write_bytes(broken)
        run = run_tool("slo-journal", str(file))
        self.assertEqual(run.returncode, 1)
        self.assertIn("the office says: slo_office: file damaged at 13", run.stdout)
        alone = run_tool("slo-journal", "--alone", str(file))
        self.assertEqual(alone.returncode, 0)
        self.assertIn("judged by no program", alone.stdout)
        mend = run_tool("slo-journal", "--mend", str(self.folder / "out"), str(file))
        self.assertEqual(mend.returncode, 1)
        self.assertFalse((self.folder / "out").exists())

    def test_a_file_that_cant_be_read_is_2(self) -> None:
        run = run_tool("slo-journal", str(self.folder / "nothing"))
        self.assertEqual(run.returncode, 2)
        self.assertIn("nothing", run.stderr)

    def test_a_running_office_is_read_beside_it(self) -> None:
        with running_office(ORIGIN) as office:
            office.client().tick()
            file = str(office.folder / "office.journal")
            before = (office.folder / "office.journal").read_bytes()
            run = run_tool("slo-journal", file)
            self.assertEqual((run.returncode, run.stdout.split()[2]), (0, "tick"))
            office.client().tick()
            self.assertTrue((office.folder / "office.journal").read_bytes().startswith(before[:-1]))

    def test_usage_agrees_with_the_office(self) -> None:
        with running_office(ORIGIN) as office:
            client = office.client()
            for name in ("targets", "shop"):
                client.define((TOP / "examples" / f"{name}.yaml").read_bytes())
            body = "".join(f"shop-good,web,{ORIGIN + n * 700},1,1,1\n" for n in range(5))
            client.ask("POST", ["samples"], body=body.encode())
            file = office.folder / "office.journal"
            told = json.loads(run_tool("slo-journal", "--json", str(file)).stdout)["usage"]
            self.assertEqual(told["objects"][0], len(client.objects()[1]))
            self.assertEqual((told["bindings"][0], told["slos"][0], told["slis"][0]), (2, 1, 1))
            self.assertEqual((told["cells"][0], told["days"][0]), (5, 3))
            status = client.status()
            if status is not None:
                self.assertEqual(told.pop("entries")[0], status["entries"])
                for key in set(told) & set(status):
                    self.assertEqual(told[key], status[key], key)


class Mending(unittest.TestCase):
    def setUp(self) -> None:
        self.folder = Path(self.enterContext(tempfile.TemporaryDirectory(prefix="slo-tools-")))
        self.data = small_journal(self.folder)

    def test_each_torn_tail_opens_with_a_front_of_the_entries(self) -> None:
        places = {record.next_gate for record in read_journal(self.data).records} | {13}
        for size in range(len(self.data)):
            mending = mending_of(self.data[:size])
            with self.subTest(size=size):
                if size < 13:
                    self.assertIsNone(mending.repair)
                    continue
                assert mending.repair is not None
                repaired = mending.repair.content
                self.assertEqual(repaired[:-1], self.data[: len(repaired) - 1])
                self.assertEqual(repaired[-1:], b"\0")
                self.assertEqual(len(repaired) - 1, max(p for p in places if p <= size))
                self.assertTrue(size % 31 or opens(repaired))

    def test_each_flipped_bit_is_mended_or_left_alone(self) -> None:
        mended, wrong, unmended = 0, [], 0
        for place in range(len(self.data)):
            for bit in range(8):
                broken = bytearray(self.data)
                broken[place] ^= 1 << bit
                mending = mending_of(bytes(broken))
                if mending.repair is None:
                    unmended += 0 if mending.is_sound else 1
                elif mending.repair.content == self.data:
                    mended += 1
                else:
                    wrong.append((place, bit, mending.repair))
        print(f"flipped bits: {mended} mended, {unmended} told and not mended", end=" ")
        self.assertGreater(mended, 200)
        for place, bit, repair in wrong:
            with self.subTest(place=place, bit=bit, text=repair.text):
                self.assertTrue(opens(repair.content))

    def test_gates_lengths_and_letters_are_always_mended(self) -> None:
        journal = read_journal(self.data)
        places = [*range(1, 9)]
        for record in journal.records[:-1]:
            places += range(record.place + 1, record.place + 5)
        for place in places:
            for bit in range(8):
                broken = bytearray(self.data)
                broken[place] ^= 1 << bit
                mending = mending_of(bytes(broken))
                with self.subTest(place=place, bit=bit):
                    assert mending.repair is not None
                    self.assertEqual(mending.repair.content, self.data)
        # Of a gate that stands open only the bit that closes it breaks anything.
        for record in journal.records[:-1]:
            broken = bytearray(self.data)
            broken[record.place] = 0
            repair = mending_of(bytes(broken), record.place).repair
            assert repair is not None
            self.assertEqual(repair.content, self.data)

    def test_a_gate_that_somebody_may_have_closed_is_opened_only_by_its_place(self) -> None:
        place = read_journal(self.data).records[4].place
        closed = self.data[:place] + b"\0" + self.data[place + 1 :]
        file, out = self.folder / "closed", self.folder / "out"
        file.write_bytes(closed)
        unnamed: list[str] = []
        for words in (unnamed, ["--open-gate", str(place + 1)]):
            run = run_tool("slo-journal", "--mend", str(out), *words, str(file))
            self.assertEqual(run.returncode, 1)
            self.assertIn(f"`--open-gate {place}` opens it", run.stdout)
            self.assertIn(f"`truncate -s {place + 1}` of a copy", run.stdout)
            self.assertFalse(out.exists())
        run = run_tool("slo-journal", "--mend", str(out), "--open-gate", str(place), str(file))
        self.assertEqual((run.returncode, run.stderr), (0, ""))
        self.assertEqual((out.read_bytes(), file.read_bytes()), (self.data, closed))

    def test_the_command_writes_a_copy_that_opens_and_never_the_file(self) -> None:
        torn = self.folder / "torn"
        torn.write_bytes(self.data[:-40])
        out = self.folder / "out"
        run = run_tool("slo-journal", "--mend", str(out), str(torn))
        self.assertEqual((run.returncode, run.stderr), (0, ""))
        self.assertTrue(opens(out.read_bytes()))
        self.assertEqual(torn.read_bytes(), self.data[:-40])
        again = run_tool("slo-journal", "--mend", str(out), str(torn))
        self.assertEqual(again.returncode, 2)
        self.assertIn("File exists", again.stderr)
        itself = run_tool("slo-journal", "--mend", str(torn), str(torn))
        self.assertEqual(itself.returncode, 2)
        self.assertEqual(torn.read_bytes(), self.data[:-40])

    def test_two_broken_places_are_not_mended(self) -> None:
        journal = read_journal(self.data)
        broken = bytearray(self.data)
        broken[journal.records[2].place + 2] ^= 1
        broken[journal.records[4].place + 2] ^= 1
        mending = mending_of(bytes(broken))
        self.assertIsNone(mending.repair)
        self.assertFalse(mending.is_sound)

    def test_nothing_to_mend_writes_nothing(self) -> None:
        file = self.folder / "office.journal"
        run = run_tool("slo-journal", "--mend", str(self.folder / "out"), str(file))
        self.assertEqual((run.returncode, run.stdout), (0, "there is nothing to mend\n"))
        self.assertFalse((self.folder / "out").exists())

    def test_leftovers_of_an_aborted_write_are_no_record(self) -> None:
        # A long record that was never acknowledged, and a shorter one in its place.
        tail = read_journal(self.data).tail
        long = b"\0" + (500).to_bytes(4, "big") + bytes(range(1, 251)) * 2 + b"\0"
        short = b"\x01" + (5).to_bytes(4, "big") + b"\x01\xba\x81\x40\x07" + b"\0"
        data = self.data[:tail] + short + long[len(short) :]
        journal = read_journal(data)
        self.assertEqual(beyond_tail(data, journal).records, [])


class Sealing(unittest.TestCase):
    def setUp(self) -> None:
        self.folder = Path(self.enterContext(tempfile.TemporaryDirectory(prefix="slo-tools-")))
        self.data = small_journal(self.folder)
        self.file, self.seals = self.folder / "office.journal", self.folder / "seals"

    def run_seal(self, *words: str) -> tuple[int, str]:
        run = run_tool("slo-journal", str(self.file), *words, str(self.seals))
        self.assertEqual(run.stderr, "")
        return run.returncode, run.stdout

    def seal_fronts(self, *numbers: int) -> list[int]:
        """Seals of the journal as it was with so many entries; how many bytes each is of."""
        sizes = []
        records = read_journal(self.data).records
        for number in numbers:
            size = records[number - 1].next_gate
            self.file.write_bytes(self.data[:size] + b"\0")
            self.assertEqual(self.run_seal("--seal")[0], 0)
            sizes.append(size)
        self.file.write_bytes(self.data)
        return sizes

    def test_a_seal_is_the_sum_of_the_bytes_before_the_closed_gate(self) -> None:
        (size,) = self.seal_fronts(10)
        line = self.seals.read_text()
        words = line.split()
        self.assertEqual(words[1:5], ["entries", "10", "bytes", str(len(self.data) - 1)])
        self.assertEqual(size, len(self.data) - 1)
        by_hand = subprocess.run(
            f"head -c {words[4]} {self.file} | sha256sum",
            shell=True,
            capture_output=True,
            text=True,
            check=True,
        )
        self.assertEqual(by_hand.stdout.split()[0], words[6])
        self.assertEqual(line, " ".join(words) + "\n")

    def test_seals_hold_while_the_journal_grows(self) -> None:
        with running_office(ORIGIN) as office:
            self.file = office.folder / "office.journal"
            for number in range(3):
                office.client().tick()
                status, line = self.run_seal("--seal")
                self.assertEqual(status, 0)
                self.assertIn(f" entries {number + 1} bytes ", line)
            office.client().tick()
            status, told = self.run_seal("--verify")
            self.assertEqual(status, 0)
            self.assertTrue(told.startswith("3 of 3 seals hold, up to entry 3, byte 43, "), told)

    def test_a_flip_at_each_byte_below_the_last_seal_is_told(self) -> None:
        sizes = [0, *self.seal_fronts(2, 5, 9)]
        seals = read_seals(self.seals.read_bytes()).seals
        self.assertEqual([seal.entries for seal in seals], [2, 5, 9])
        self.assertIsNone(verdict_of(self.data, seals).broken)
        for place in range(sizes[-1]):
            number = next(n for n, size in enumerate(sizes) if place < size)
            for bit in range(8):
                broken = bytearray(self.data)
                broken[place] ^= 1 << bit
                verdict = verdict_of(bytes(broken), seals)
                with self.subTest(place=place, bit=bit):
                    assert verdict.broken is not None
                    self.assertEqual(verdict.broken.number, number)
                    self.assertEqual(len(verdict.holding), number - 1)
                    self.assertEqual(verdict.wrong, [])

    def test_the_command_says_where_the_damage_lies(self) -> None:
        sizes = self.seal_fronts(2, 5, 9)
        rows = read_journal(self.data).records[4].place + 30
        broken = bytearray(self.data)
        broken[rows] ^= 1
        self.file.write_bytes(broken)
        told = f"the damage lies among the entries 2 to 4, the bytes {sizes[0]} to {sizes[1] - 1}"
        status, text = self.run_seal("--verify")
        self.assertEqual(status, 1)
        self.assertIn("the seal of line 2, of ", text)
        self.assertIn(told, text)
        self.assertIn("1 of 3 seals hold, up to entry 2, ", text)
        before = self.seals.read_bytes()
        status, text = self.run_seal("--seal")
        self.assertEqual(status, 1)
        self.assertIn(told, text)
        self.assertEqual(self.seals.read_bytes(), before)

    def test_a_journal_that_lost_its_end_is_told(self) -> None:
        self.seal_fronts(5, 9)
        self.file.write_bytes(self.data[: read_journal(self.data).records[6].place] + b"\0")
        status, text = self.run_seal("--verify")
        self.assertEqual(status, 1)
        self.assertIn("the damage lies among the entries 5 to 8, ", text)

    def test_what_is_damaged_is_not_sealed(self) -> None:
        place = read_journal(self.data).records[4].place
        closed = bytearray(self.data)
        closed[place] = 0
        self.file.write_bytes(closed)
        status, text = self.run_seal("--seal")
        self.assertEqual(status, 1)
        self.assertIn(f"the gate at {place} reads as closed, and 6 records stand behind", text)
        for data in (self.data[:-1], b"\x01OSLOJRN2" + self.data[9:], b""):
            self.file.write_bytes(data)
            self.assertEqual(self.run_seal("--seal")[0], 1)
        self.assertFalse(self.seals.exists())

    def test_a_torn_last_line_is_told_and_goes_with_the_next_seal(self) -> None:
        self.seal_fronts(5)
        whole = self.seals.read_bytes()
        for size in range(1, len(whole)):
            self.seals.write_bytes(whole + whole[:size])
            self.assertEqual(read_seals(self.seals.read_bytes()).torn, size)
        status, text = self.run_seal("--verify")
        self.assertEqual(status, 0)
        self.assertIn("the last line of ", text)
        self.assertIn("is torn", text)
        self.assertEqual(self.run_seal("--seal")[0], 0)
        told = read_seals(self.seals.read_bytes())
        self.assertEqual(([it.entries for it in told.seals], told.torn), ([5, 10], 0))
        self.assertTrue(self.seals.read_bytes().startswith(whole))

    def test_a_wrong_line_is_told_as_such(self) -> None:
        self.seal_fronts(2, 5, 9)
        lines = self.seals.read_bytes().splitlines(keepends=True)
        for at in range(len(lines[1]) - 1):
            wrong = bytearray(lines[1])
            wrong[at] ^= 1
            self.seals.write_bytes(lines[0] + wrong + lines[2])
            told = read_seals(self.seals.read_bytes())
            verdict = verdict_of(self.data, told.seals)
            # Of the date a digit may change, which no sum is of.
            if at >= len(lines[1].split()[0]):
                with self.subTest(at=at):
                    self.assertTrue(told.foreign or verdict.wrong or verdict.broken)
        self.seals.write_bytes(lines[0] + lines[1][:-3] + b"0\n" + lines[2])
        status, text = self.run_seal("--verify")
        self.assertEqual(status, 1)
        self.assertIn("line 2 is no seal", text)
        self.assertEqual(self.run_seal("--seal")[0], 1)

    def test_without_a_seal_nothing_holds(self) -> None:
        self.seals.write_bytes(b"")
        status, text = self.run_seal("--verify")
        self.assertEqual(status, 1)
        self.assertIn("there is no seal", text)
        self.seals.unlink()
        run = run_tool("slo-journal", str(self.file), "--verify", str(self.seals))
        self.assertEqual(run.returncode, 2)
        self.assertIn("seals", run.stderr)

    def test_a_full_disk_leaves_the_seals_as_they_were(self) -> None:
        self.seal_fronts(5)
        whole = self.seals.read_bytes()
        words = ["prlimit", f"--fsize={len(whole) + 20}", "/usr/bin/python3"]
        tool = str(TOP / "tools" / "bin" / "slo-journal")
        run = subprocess.run(
            [*words, tool, str(self.file), "--seal", str(self.seals)],
            capture_output=True,
            text=True,
            check=False,
        )
        self.assertEqual((run.returncode, run.stdout), (2, ""))
        self.assertEqual(len(self.seals.read_bytes()), len(whole) + 20)
        self.assertEqual(self.run_seal("--seal")[0], 0)
        told = read_seals(self.seals.read_bytes())
        self.assertEqual([it.entries for it in told.seals], [5, 10])
        self.assertTrue(self.seals.read_bytes().startswith(whole))


if __name__ == "__main__":
    unittest.main()
