"""slo-notify beside offices, a disk and a clock that fail: what one does is no silence of others."""

from __future__ import annotations

import os
import subprocess
import tempfile
import time
import unittest
from functools import partial
from pathlib import Path
from unittest import mock

from notify_support import DOCUMENTS, Desk, HeldClock, Hook, Manager, MovedClock, timed_office
from support import TOP, OfficeServer, free_port, run_tool, until

from notify_offices import Dribbler, Mutator
from slo_tools.notify import command
from slo_tools.notify.clock_trust import ClockTrust
from slo_tools.notify.config import read_config
from slo_tools.notify.metrics import Metrics
from slo_tools.notify.receiver import receiver_of
from slo_tools.notify.rounds import Rounds
from slo_tools.notify.state import read_state
from slo_tools.notify.wording import rule_of, target_text

# How many answers of an office are spoilt or passed on; the long form has 100000.
ANSWERS = int(os.environ.get("SLO_NOTIFY_ANSWERS", "2000"))
SEED = int(os.environ.get("SLO_NOTIFY_SEED", str(int(time.time()))))


class Several(Desk):
    """A right office by the true time that burns, and others beside it."""

    def setUp(self) -> None:
        super().setUp()
        self.hook = Hook()
        self.addCleanup(self.hook.close)
        self.now = int(time.time()) // 60
        self.office = self.burning_office("right")

    def burning_office(self, name: str) -> OfficeServer:
        office = OfficeServer(self.folder / name, self.now - 5000).start()
        self.addCleanup(office.kill)
        office.client().define(DOCUMENTS.encode())
        self.feed(office, range(self.now - 90, self.now), 0)
        return office

    def several(self, *addresses: str, more: str = "timeout = 2") -> Rounds:
        """Rounds over the offices at these addresses, named by numbers from 1, and the right one
        as the last."""
        told = "".join(
            f'[[office]]\nname = "{name}"\naddress = "{address}"\n'
            for name, address in [*enumerate(addresses, 1), ("right", self.office.address)]
        )
        config = self.folder / "notify.toml"
        config.write_text(
            f'state = "{self.folder}/state.json"\noverview = "{self.folder}/overview.json"\n'
            f'clock = "trusted"\n{more}\n{told}[webhook]\naddress = "{self.hook.address}"\n'
        )
        read = read_config(config)
        receiver = receiver_of(read.receiver, read.timeout, read.lifetime)
        trust = ClockTrust(read.clock)
        return Rounds(read, MovedClock(), trust, receiver, read_state(read.state), Metrics())

    def of_the_right_one(self) -> list[tuple[str, str]]:
        return [
            (each["labels"]["alertname"], each["status"])
            for each in self.hook.alerts
            if each["labels"]["office"] == "right"
        ]


class Answers(Several):
    def test_whatever_one_office_answers_is_a_fault_of_that_one(self) -> None:
        spoilt = self.burning_office("spoilt")
        mutator = Mutator(spoilt.port, SEED)
        self.addCleanup(mutator.close)
        # No rows come while the long form runs.
        rounds = self.several(mutator.address, more="timeout = 2\nstale = 1000")
        faults, rounds_made = 0, 0
        rounds.offices[0].watch.office.sleep = lambda seconds: None
        with self.subTest(seed=SEED):
            while mutator.answers < ANSWERS:
                rounds.round()
                rounds_made += 1
                entries = {each["name"]: each for each in self.overview()["offices"]}
                self.assertEqual(
                    (entries["right"]["up"], entries["right"]["fault"]), (True, None), self.said
                )
                faults += entries["1"]["fault"] is not None
                for office in rounds.offices:
                    # The objects are read again, so that their texts are spoilt too.
                    office.watch.catalogue.names = []
            self.assertNotIn("Traceback", self.said.getvalue())
            self.assertEqual(self.of_the_right_one(), [("SloBurn", "firing")])
            self.assertGreater(faults, rounds_made // 10)
            self.assertLess(faults, rounds_made)

    def test_another_service_at_the_address_is_told_in_log_and_metrics(self) -> None:
        mutator = Mutator(self.office.port, SEED)
        self.addCleanup(mutator.close)
        mutator.always = b'{"entries":null,"objects":null,"status":"ok"}'
        rounds = self.several(mutator.address)
        self.assertFalse(rounds.round())
        self.assertEqual(self.of_the_right_one(), [("SloBurn", "firing")])
        self.assertIn("office 1: ", self.said.getvalue())
        up = rounds.metrics.registry.get_sample_value
        self.assertEqual(up("slo_office_up", {"office": "1"}), 0)
        self.assertEqual(up("slo_office_up", {"office": "right"}), 1)

    def test_a_fault_of_this_program_is_one_of_that_office(self) -> None:
        rounds = self.several(self.burning_office("other").address)
        with mock.patch.object(
            rounds.offices[0].watch, "ask_ages", side_effect=KeyError("entries")
        ):
            self.assertFalse(rounds.round())
        self.assertEqual(self.of_the_right_one(), [("SloBurn", "firing")])
        self.assertIn("office 1: its answer can't be read: KeyError", self.said.getvalue())
        count = rounds.metrics.registry.get_sample_value
        self.assertEqual(count("slo_notify_faults_total", {"office": "1"}), 1)
        self.assertTrue(rounds.round(), self.said.getvalue())

    def test_an_object_that_cannot_be_read_is_a_fault_of_that_one(self) -> None:
        office = self.burning_office("odd")
        office.client().define(DOCUMENTS.replace("name: answers", "name: other").encode())
        mutator = Mutator(office.port, SEED)
        self.addCleanup(mutator.close)
        mutator.one_of, mutator.spoils = 0, "/objects/SLO/other"
        self.assertTrue(self.several(mutator.address).round(), self.said.getvalue())
        told = {(each["labels"]["office"], each["labels"]["slo"]) for each in self.hook.alerts}
        self.assertEqual(told, {("1", "answers"), ("1", "other"), ("right", "answers")})
        self.assertIn("office 1, SLO other: can't be read", self.said.getvalue())
        self.assertEqual(
            [each["name"] for each in self.overview()["offices"][0]["slos"]], ["answers"]
        )

    def test_numbers_of_endless_digits_are_none(self) -> None:
        # Reading the first of these as a number would take hours, in which nothing else runs.
        for text in ("1E+99999999", "1e9999999", "9" * 5000, "-1", "1/0", "nan", ""):
            rule = {"condition": {"lookbackWindow": "1h", "threshold": text}}
            with self.subTest(text=text[:20]):
                self.assertIsNone(rule_of(rule))
                self.assertEqual(target_text(text), text)
        self.assertEqual(target_text("0.999"), "99.9%")

    def test_an_office_that_is_slow_at_each_answer_ends_with_its_time(self) -> None:
        mutator = Mutator(self.burning_office("slow").port, SEED)
        self.addCleanup(mutator.close)
        mutator.one_of, mutator.seconds = 0, 0.4
        rounds = self.several(mutator.address, more="timeout = 2\nevery = 2")
        begin = time.monotonic()
        self.assertFalse(rounds.round())
        self.assertLess(time.monotonic() - begin, 8)
        self.assertIn("a round's questions took more than 2 s", self.said.getvalue())
        self.assertEqual(self.of_the_right_one(), [("SloBurn", "firing")])

    def test_offices_that_hang_hold_nobody(self) -> None:
        dribblers = [Dribbler() for _ in range(6)]
        for each in dribblers:
            self.addCleanup(each.close)
        rounds = self.several(*(each.address for each in dribblers), more="timeout = 2\nevery = 4")
        taken = []
        for _ in range(2):
            begin = time.monotonic()
            self.assertFalse(rounds.round(most=1))
            taken.append(time.monotonic() - begin)
        # Half of the time between rounds they are waited for, and no more.
        self.assertLess(max(taken), 3.5)
        self.assertEqual(self.of_the_right_one(), [("SloBurn", "firing")])
        entries = {each["name"]: each for each in self.overview()["offices"]}
        self.assertTrue(entries["right"]["up"])
        self.assertEqual([entries[str(n)]["up"] for n in range(1, 7)], [False] * 6)
        self.assertIn("longer than half a round", self.said.getvalue())
        # They end by themselves, and are told.
        running = list(rounds._running.values())
        until(lambda: all(each.done() for each in running), 20, "an office is never let go")
        self.assertIn("office 6: http://127.0.0.1", self.said.getvalue())
        self.assertIn("in time", self.said.getvalue())


class Disks(Several):
    def test_what_a_full_disk_keeps_is_told_once_and_taken_when_there_is_room(self) -> None:
        # The state can't be written: a folder stands where its new text would.
        beside = self.folder / "state.json.new"
        beside.mkdir()
        rounds = self.several()
        for _ in range(3):
            self.assertFalse(rounds.round())
        self.assertEqual(self.of_the_right_one(), [("SloBurn", "firing")])
        self.assertEqual(len(self.office.client().notices()), 1)
        self.assertIn("state: ", self.said.getvalue())
        self.assertIn("make room", self.said.getvalue())
        written = rounds.metrics.registry.get_sample_value
        self.assertEqual(written("slo_notify_state_written"), 0)
        beside.rmdir()
        self.assertTrue(rounds.round(), self.said.getvalue())
        self.assertEqual(self.of_the_right_one(), [("SloBurn", "firing")])
        self.assertEqual(self.office.client().notices(), [])
        self.assertIn("state: well again", self.said.getvalue())
        # Nothing was lost: another run ends what this one began.
        self.feed(self.office, range(self.now - 90, self.now), 1000, 2)
        self.assertTrue(self.several().round(), self.said.getvalue())
        self.assertEqual(self.of_the_right_one(), [("SloBurn", "firing"), ("SloBurn", "resolved")])

    def test_the_program_goes_on_over_a_disk_without_room(self) -> None:
        if os.geteuid() != 0:
            self.skipTest("a disk of its own is mounted by root alone")
        place = self.folder / "disk"
        place.mkdir()
        made = subprocess.run(
            ["mount", "-t", "tmpfs", "-o", "size=4k", "tmpfs", str(place)], capture_output=True
        )
        if made.returncode != 0:
            self.skipTest("nothing can be mounted here")
        self.addCleanup(lambda: subprocess.run(["umount", str(place)], check=True))
        (place / "filler").write_bytes(b"x" * 4096)
        self.several(more="every = 1")
        config = self.folder / "notify.toml"
        text = config.read_text().replace(f"{self.folder}/state.json", f"{place}/state.json")
        config.write_text(text)
        serving = subprocess.Popen(
            ["/usr/bin/python3", str(TOP / "tools" / "bin" / "slo-notify"), str(config)],
            stderr=subprocess.PIPE,
            text=True,
        )
        self.addCleanup(serving.wait)
        self.addCleanup(serving.kill)
        overview = self.folder / "overview.json"
        until(overview.exists, 30, "no round was made")
        first = overview.stat().st_mtime
        until(lambda: overview.stat().st_mtime > first + 2, 30, "no more rounds are made")
        self.assertEqual(self.of_the_right_one(), [("SloBurn", "firing")])
        self.assertEqual(len(self.office.client().notices()), 1)
        (place / "filler").unlink()
        until(lambda: not self.office.client().notices(), 30, "the notice isn't taken")
        self.assertEqual(self.of_the_right_one(), [("SloBurn", "firing")])
        serving.kill()
        self.assertIn("No space left on device", serving.communicate()[1])

    def test_a_state_of_deep_brackets_is_refused_in_a_line(self) -> None:
        self.several()
        for text in ("[" * 100_000, '{"version": 1, "offices": []}', "{", '{"version": 2}'):
            (self.folder / "state.json").write_text(text)
            run = run_tool("slo-notify", "--once", str(self.folder / "notify.toml"))
            with self.subTest(text=text[:20]):
                self.assertEqual(run.returncode, 2, run.stderr)
                self.assertEqual(len(run.stderr.splitlines()), 1, run.stderr)
                self.assertIn("state.json", run.stderr)


class WrongMoments(Desk):
    def test_an_office_ahead_by_one_tick_pages_and_goes_on_by_itself(self) -> None:
        clock, office, hook, rounds = self.burning()
        self.assertEqual(hook.told(), [("workbook-page", "firing")])
        # For one change the office's clock is three hours ahead: its moment stays there.
        clock.show(clock.seconds + 3 * 3600)
        office.client().tick()
        clock.show(clock.seconds)
        for _ in range(3):
            clock.go_on()
            self.assertFalse(rounds.round())
        self.assertEqual(hook.told()[1:], [("SloOfficeClock", "firing")])
        told = hook.alerts[1]
        self.assertEqual((told["labels"]["severity"], told["labels"]["office"]), ("page", "shop"))
        self.assertIn("by 179 minutes", told["annotations"]["summary"])
        shop = self.overview()["offices"][0]
        self.assertTrue(shop["up"])
        self.assertIn("differs from this machine's clock", shop["fault"])
        # The hours pass.
        clock.go_on(177)
        self.feed(office, range(clock.minute() - 60, clock.minute()), 0)
        self.assertTrue(rounds.round(), self.said.getvalue())
        self.assertIn(("SloOfficeClock", "resolved"), hook.told())
        self.assertNotIn(("workbook-page", "resolved"), hook.told())
        self.assertIsNone(self.overview()["offices"][0]["fault"])

    def test_single_rounds_know_how_long_an_office_is_away(self) -> None:
        clock, office, hook = self.timed()
        self.assertTrue(self.hooked(clock, office, hook).round(), self.said.getvalue())
        office.kill()
        for _ in range(5):
            clock.go_on()
            self.assertFalse(self.hooked(clock, office, hook).round())
            self.assertEqual(hook.told(), [])
        clock.go_on()
        self.assertFalse(self.hooked(clock, office, hook).round())
        self.assertEqual(hook.told(), [("SloOfficeAway", "firing")])
        office.start()
        clock.go_on()
        self.assertTrue(self.hooked(clock, office, hook).round(), self.said.getvalue())
        self.assertEqual(hook.told()[1:], [("SloOfficeAway", "resolved")])


class StoppedClock:
    """The true time; a sleep is over at once, and is counted."""

    def __init__(self) -> None:
        self.sleeps: list[float] = []

    def now(self) -> float:
        return time.time()

    def sleep(self, seconds: float) -> None:
        self.sleeps.append(seconds)


class Untrusted(Several):
    """A machine whose clock nobody keeps, as many machines and containers have it."""

    def config(self, rule: str, more: str = "") -> Path:
        self.several(more=more)
        config = self.folder / "notify.toml"
        config.write_text(config.read_text().replace('"trusted"', f'"{rule}"'))
        return config

    def unkept(self, is_synchronised: bool = False) -> mock._patch[object]:
        made = partial(ClockTrust, is_synchronised=lambda: is_synchronised)
        return mock.patch.object(command, "ClockTrust", made)

    def test_the_check_says_that_nothing_would_be_paged_and_what_to_set(self) -> None:
        config = str(self.config("kernel"))
        with self.unkept():
            self.assertEqual(command.main(["--check", config]), 1)
        for word in ("isn't synchronised", "nothing is ticked or paged", 'clock = "receiver"'):
            self.assertIn(word, self.said.getvalue())
        with self.unkept(True):
            self.assertEqual(command.main(["--check", config]), 0)
        self.assertEqual(
            run_tool("slo-notify", "--check", str(self.config("receiver"))).returncode, 0
        )
        self.hook.close()
        run = run_tool("slo-notify", "--check", str(self.config("receiver")))
        self.assertEqual(run.returncode, 1)
        self.assertIn("the receiver's clock isn't known", run.stderr)
        self.assertEqual(self.office.client().notices(), [])

    def test_ten_rounds_without_a_clock_end_with_a_status(self) -> None:
        clock = StoppedClock()
        with self.unkept():
            self.assertEqual(command.main([str(self.config("kernel"))], clock), 3)
        self.assertEqual(len(clock.sleeps), 9)
        self.assertEqual(self.hook.alerts, [])
        self.assertIn("nothing could be ticked or paged for 10 rounds", self.said.getvalue())

    def test_a_clock_that_is_kept_again_goes_on(self) -> None:
        words = iter([*[False] * 9, True, *[False] * 10])
        made = partial(ClockTrust, is_synchronised=lambda: next(words))
        clock = StoppedClock()
        with mock.patch.object(command, "ClockTrust", made):
            self.assertEqual(command.main([str(self.config("kernel"))], clock), 3)
        self.assertEqual(len(clock.sleeps), 19)
        self.assertEqual(self.of_the_right_one(), [("SloBurn", "firing")])

    def test_the_kernel_that_may_not_be_asked_is_told(self) -> None:
        def refuse() -> bool:
            raise PermissionError(1, "Operation not permitted")

        fault = ClockTrust("kernel", is_synchronised=refuse).fault() or ""
        self.assertIn("may not be asked about this machine's clock (Operation not", fault)
        self.assertIn('clock = "receiver"', fault)

    def test_the_shipped_example_names_the_clock(self) -> None:
        example = TOP / "tools" / "examples" / "slo-notify.toml"
        lines = example.read_text().splitlines()
        self.assertIn('clock = "kernel"', lines)
        self.assertEqual(read_config(example).second, 30)


class Watchdogs(Desk):
    def test_an_alertmanager_hears_it_each_round_and_misses_it_soon(self) -> None:
        manager = Manager(self.folder)
        manager.start()
        self.addCleanup(manager.stop)
        place = self.folder / "office"
        office = OfficeServer(place, int(time.time()) // 60 - 100).start()
        self.addCleanup(office.kill)
        receiver = f'[alertmanager]\naddress = "{manager.address}"'
        rounds = self.rounds(MovedClock(), office.address, receiver, "watchdog = true")
        self.assertTrue(rounds.round(), self.said.getvalue())
        told = manager.alerts()["Watchdog"]
        self.assertEqual(told["labels"]["notifier"], "slo-notify")
        ends = time.strptime(told["endsAt"][:19], "%Y-%m-%dT%H:%M:%S")
        self.assertLess(int(time.mktime(ends) - time.mktime(time.gmtime())), 241)
        time.sleep(1.1)
        self.assertTrue(rounds.round())
        self.assertGreater(manager.alerts()["Watchdog"]["updatedAt"], told["updatedAt"])
        # Without a clock to be trusted nothing is sent, and that is what is missed.
        before = manager.alerts()["Watchdog"]["updatedAt"]
        untrusted = self.rounds(MovedClock(), office.address, receiver, "watchdog = true")
        untrusted.trust.rule = "kernel"
        untrusted.trust.is_synchronised = lambda: False
        self.assertFalse(untrusted.round())
        self.assertEqual(manager.alerts()["Watchdog"]["updatedAt"], before)

    def test_a_webhook_is_told_each_round_where_it_is_wanted(self) -> None:
        clock, office, hook = self.timed()
        for more, told in (("", []), ("watchdog = true", [("Watchdog", "firing")] * 2)):
            rounds = self.hooked(clock, office, hook, more)
            for _ in range(2):
                self.assertTrue(rounds.round(), self.said.getvalue())
                clock.go_on()
            self.assertEqual(hook.told(), told)


if __name__ == "__main__":
    unittest.main()
