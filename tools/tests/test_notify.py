"""slo-notify between a running office and its receiver, with faults in between."""

from __future__ import annotations

import json
import os
import subprocess
import tempfile
import time
import unittest
import urllib.request
from collections.abc import Callable, Sequence
from fractions import Fraction
from pathlib import Path
from typing import Optional

from notify_support import DOCUMENTS, Desk, Manager, MovedClock, timed_office
from support import TOP, OfficeServer, free_port, run_tool, until

from slo_tools.answers import Notice
from slo_tools.notify.clock_trust import ClockTrust
from slo_tools.notify.command import pause
from slo_tools.notify.config import read_config
from slo_tools.notify.deciding import Binding, Decisions, Present, decide
from slo_tools.notify.receiver import Receiver, Sending
from slo_tools.notify.rounds import Rounds
from slo_tools.settings import ConfigFault


class Webhooks(Desk):
    def test_a_fresh_slo_resolves_nothing(self) -> None:
        clock, office, hook = self.timed()
        rounds = self.hooked(clock, office, hook)
        for _ in range(3):
            self.assertTrue(rounds.round(), self.said.getvalue())
            clock.go_on()
        self.feed(office, [clock.minute() - 1], 1000)
        for _ in range(3):
            self.assertTrue(rounds.round())
            clock.go_on()
        self.assertEqual(hook.alerts, [])
        self.assertEqual(self.overview()["offices"][0]["slos"][0]["objectives"][0]["age"], 3)

    def test_an_alert_is_told_once_when_it_begins_and_once_when_it_ends(self) -> None:
        clock, office, hook, rounds = self.burning()
        self.assertEqual(hook.told(), [("workbook-page", "firing")])
        told = hook.alerts[0]
        self.assertEqual(told["labels"]["slo"], "answers")
        self.assertEqual(told["labels"]["severity"], "page")
        self.assertEqual(told["annotations"]["target"], "0.99")
        self.assertEqual(told["annotations"]["burn_1h"], "10")
        self.assertRegex(
            told["annotations"]["summary"],
            # The long windows tell: in the hour ten times is less than the page's 14.4.
            r"^answers \(99% in 30d\): burns 6\.25 times too fast over 6h \(page above 6\)\. "
            r"The budget is spent 6\.2 times over\.$",
        )
        self.assertEqual(told["generatorURL"], "http://desk/#/shop/answers")
        clock.go_on()
        self.feed(office, [clock.minute() - 1], 0)
        rounds.round()
        # What goes on is told by the numbers of its minute.
        left = [
            Fraction(each.annotations["remaining"])
            for each in rounds.offices[0].state.opened.values()
        ]
        self.assertEqual(left, [round(1 - 100 * Fraction(7, 97), 4)])
        self.assertGreater(Fraction(told["annotations"]["remaining"]), left[0])
        for _ in range(8):
            clock.go_on()
            self.feed(office, [clock.minute() - 1], 1000)
            rounds.round()
        begun = clock.minute() - 15
        self.feed(office, range(begun - 1, begun + 8), 1000, 2)
        clock.go_on()
        rounds.round()
        self.assertEqual(hook.told(), [("workbook-page", "firing"), ("workbook-page", "resolved")])
        self.assertRegex(
            hook.alerts[1]["annotations"]["summary"],
            r"^answers \(99% in 30d\): back to normal, a burn rate of 0\S* over 1h \(page above 14.4\)",
        )
        self.assertEqual(hook.alerts[1]["annotations"]["state"], "quiet")
        self.assertNotIn("breaching", json.dumps(hook.alerts[1]))
        self.assertEqual(office.client().notices(), [])

    def test_the_overview_tells_where_the_history_begins(self) -> None:
        clock, office, hook = self.timed()
        rounds = self.hooked(clock, office, hook)
        for _ in range(2):
            self.assertTrue(rounds.round(), self.said.getvalue())
            clock.go_on()
        begun = clock.minute() - 2 - 5000
        self.assertEqual(self.overview()["offices"][0]["origin"], begun)
        # Another office stands in its place.
        office.kill()
        (office.folder / "office.journal").unlink()
        other = timed_office(office.folder, clock, 7)
        other.port = office.port
        other.start()
        self.addCleanup(other.kill)
        other.client().define(DOCUMENTS.encode())
        self.assertTrue(rounds.round(), self.said.getvalue())
        self.assertEqual(self.overview()["offices"][0]["origin"], clock.minute() - 7)

    def test_a_feed_that_dies_in_an_outage_resolves_nothing(self) -> None:
        clock, office, hook, rounds = self.burning()
        self.assertEqual(hook.told(), [("workbook-page", "firing")])
        # The feed is dead for two hours, in which the alert's state becomes quiet and no_data.
        for _ in range(24):
            clock.go_on(5)
            rounds.round()
        states = [told for told in hook.told() if told[0] == "workbook-page"]
        self.assertEqual(states, [("workbook-page", "firing")])
        self.assertIn(("SloDataStale", "firing"), hook.told())
        self.assertEqual([notice.state for notice in office.client().notices()], ["quiet"])
        self.assertEqual(rounds.offices[0].watch.ages["good"], 121)
        # It comes back, and all is well: now the end is believed.
        self.feed(office, range(clock.minute() - 119, clock.minute()), 1000)
        clock.go_on()
        self.feed(office, [clock.minute() - 1], 1000)
        rounds.round()
        self.assertEqual(
            sorted(hook.told()[-2:]), [("SloDataStale", "resolved"), ("workbook-page", "resolved")]
        )
        # Two ends were noticed in these hours: one from quiet to no_data and back.
        clock.go_on()
        rounds.round()
        self.assertEqual(len(hook.told()), 4)
        self.assertEqual(office.client().notices(), [])

    def test_a_feed_that_comes_back_while_it_burns_resolves_nothing(self) -> None:
        clock, office, hook, rounds = self.burning()
        for _ in range(8):
            clock.go_on(5)
            rounds.round()
        self.assertEqual([notice.state for notice in office.client().notices()], ["quiet"])
        self.feed(office, range(clock.minute() - 15, clock.minute()), 0)
        for _ in range(3):
            clock.go_on()
            self.feed(office, [clock.minute() - 1], 0)
            rounds.round()
        self.assertEqual(
            [told for told in hook.told() if told[0] == "workbook-page"],
            [("workbook-page", "firing")],
        )
        self.assertEqual(office.client().notices(), [])

    def test_a_receiver_that_refuses_gets_everything_later_in_order(self) -> None:
        clock, office, hook = self.timed()
        now = clock.minute()
        self.feed(office, range(now - 90, now), 1000)
        rounds = self.hooked(clock, office, hook)
        hook.status = 503
        for _ in range(6):
            clock.go_on()
            self.feed(office, [clock.minute() - 1], 0)
            self.assertFalse(rounds.round() and hook.status == 503 and office.client().notices())
        self.feed(office, range(now, now + 6), 1000, 2)
        for _ in range(2):
            clock.go_on()
            self.feed(office, [clock.minute() - 1], 1000)
            rounds.round()
        self.assertEqual([n.state for n in office.client().notices()], ["breaching", "quiet"])
        self.assertEqual(hook.alerts, [])
        hook.status = 200
        for _ in range(2):
            clock.go_on()
            self.feed(office, [clock.minute() - 1], 1000)
            self.assertTrue(rounds.round(), self.said.getvalue())
        self.assertEqual(hook.told(), [("workbook-page", "firing"), ("workbook-page", "resolved")])

    def test_an_office_that_is_away_is_told_and_ends_nothing(self) -> None:
        clock, office, hook, rounds = self.burning()
        office.kill()
        for _ in range(7):
            clock.go_on()
            self.assertFalse(rounds.round())
        self.assertEqual(hook.told(), [("workbook-page", "firing"), ("SloOfficeAway", "firing")])
        self.assertEqual(self.overview()["offices"][0]["up"], False)
        self.assertEqual(self.overview()["offices"][0]["slos"][0]["name"], "answers")
        office.start()
        clock.go_on()
        self.feed(office, range(clock.minute() - 8, clock.minute()), 0)
        self.assertTrue(rounds.round(), self.said.getvalue())
        self.assertEqual(hook.told()[2:], [("SloOfficeAway", "resolved")])

    def test_an_office_two_years_ahead_is_not_ticked(self) -> None:
        clock, office, hook = self.timed()
        self.feed(office, range(clock.minute() - 30, clock.minute()), 0)
        entries = office.client().objects()[0]
        rounds = self.hooked(clock, office, hook)
        clock.show(clock.seconds + 2 * 365 * 86_400)
        rounds.round()
        self.assertEqual(office.client().objects()[0], entries)
        self.assertEqual(hook.told(), [("SloOfficeClock", "firing")])
        self.assertIn("the office's moment differs", self.said.getvalue())

    def test_a_clock_two_years_ahead_sends_nothing(self) -> None:
        clock, office, hook = self.timed()
        self.feed(office, range(clock.minute() - 30, clock.minute()), 0)
        entries = office.client().objects()[0]
        # The office's clock and this one are wrong together: the receiver's isn't.
        clock.go_on(2 * 365 * 1440)
        rounds = self.rounds(
            clock, office.address, f'[webhook]\naddress = "{hook.address}"', rule="receiver"
        )
        self.assertFalse(rounds.round())
        self.assertEqual(office.client().objects()[0], entries)
        self.assertEqual(hook.alerts, [])
        self.assertIn("differs from the receiver's", self.overview()["notify"]["clock"])

    def test_a_stop_of_itself_forgets_nothing(self) -> None:
        clock, office, hook = self.timed()
        now = clock.minute()
        self.feed(office, range(now - 90, now), 1000)
        for _ in range(6):
            clock.go_on()
            self.feed(office, [clock.minute() - 1], 0)
            self.hooked(clock, office, hook).round()
        self.assertEqual(hook.told(), [("workbook-page", "firing")])
        self.feed(office, range(now, now + 6), 1000, 2)
        clock.go_on()
        self.feed(office, [clock.minute() - 1], 1000)
        self.hooked(clock, office, hook).round()
        self.assertEqual(hook.told()[1:], [("workbook-page", "resolved")])


class Killer:
    """A receiver that kills the office once it has taken what was sent."""

    def __init__(self, inner: Receiver, office: OfficeServer) -> None:
        self.inner = inner
        self.office = office
        self.kind = inner.kind
        self.kills = 1

    def date(self) -> Optional[str]:
        return self.inner.date()

    def send(self, sendings: Sequence[Sending], now: int) -> Optional[str]:
        date = self.inner.send(sendings, now)
        if self.kills:
            self.kills -= 1
            self.office.kill()
        return date

    def opened(self, office: str) -> list[dict[str, str]]:
        return self.inner.opened(office)


class Alertmanagers(Desk):
    """Over a real Alertmanager and the true time: corrections make alerts begin and end."""

    def setUp(self) -> None:
        super().setUp()
        self.manager = Manager(self.folder)
        self.manager.start()
        self.addCleanup(self.manager.stop)
        place = self.folder / "office"
        place.mkdir()
        self.now = int(time.time()) // 60
        self.office = OfficeServer(place, self.now - 5000)
        self.office.start()
        self.addCleanup(self.office.kill)
        self.office.client().define(DOCUMENTS.encode())
        self.feed(self.office, range(self.now - 90, self.now), 1000)
        self.clock = MovedClock()

    def made(self, more: str = "", rule: str = "receiver") -> Rounds:
        receiver = f'[alertmanager]\naddress = "{self.manager.address}"'
        return self.rounds(self.clock, self.office.address, receiver, more, rule)

    def burn(self, revision: int, good: int) -> None:
        self.feed(self.office, range(self.now - 30, self.now), good, revision)

    def test_an_alert_begins_goes_on_and_ends(self) -> None:
        rounds = self.made()
        self.assertTrue(rounds.round(), self.said.getvalue())
        self.assertEqual(self.manager.alerts(), {})
        self.burn(2, 0)
        self.assertTrue(rounds.round())
        alert = self.manager.alerts()["workbook-page"]
        self.assertEqual(alert["labels"]["slo"], "answers")
        self.assertEqual(alert["generatorURL"], "http://desk/#/shop/answers")
        self.assertEqual(self.office.client().notices(), [])
        before = alert["updatedAt"]
        time.sleep(1.1)
        self.assertTrue(rounds.round())
        self.assertGreater(self.manager.alerts()["workbook-page"]["updatedAt"], before)
        self.burn(3, 1000)
        self.assertTrue(rounds.round())
        self.assertEqual(self.manager.alerts(), {})
        self.assertEqual(self.office.client().notices(), [])

    def test_an_alertmanager_that_is_away_loses_nothing(self) -> None:
        rounds = self.made()
        self.assertTrue(rounds.round())
        self.manager.stop()
        self.burn(2, 0)
        rest = float(os.environ.get("SLO_TOOLS_AWAY_SECONDS", "5"))
        for _ in range(5):
            time.sleep(rest / 5)
            self.assertFalse(rounds.round())
        waiting = self.office.client().notices()
        self.assertEqual([notice.state for notice in waiting], ["breaching"])
        self.assertIn("no connection", self.overview()["notify"]["receiver_fault"])
        self.manager.start()
        self.assertTrue(rounds.round(), self.said.getvalue())
        self.assertEqual(list(self.manager.alerts()), ["workbook-page"])
        self.assertEqual(self.office.client().notices(), [])

    def test_an_office_killed_between_post_and_take_takes_later(self) -> None:
        rounds = self.made()
        self.assertTrue(rounds.round())
        self.burn(2, 0)
        rounds.around.receiver = Killer(rounds.receiver, self.office)
        self.assertFalse(rounds.round())
        self.assertEqual(list(self.manager.alerts()), ["workbook-page"])
        self.office.start()
        self.assertEqual([n.number for n in self.office.client().notices()], [1])
        self.assertTrue(rounds.round(), self.said.getvalue())
        self.assertEqual(list(self.manager.alerts()), ["workbook-page"])
        self.assertEqual(self.office.client().notices(), [])
        self.burn(3, 1000)
        self.assertTrue(rounds.round())
        self.assertEqual(self.manager.alerts(), {})

    def test_what_it_opened_is_known_again_without_its_file(self) -> None:
        rounds = self.made()
        self.burn(2, 0)
        self.assertTrue(rounds.round())
        (self.folder / "state.json").unlink()
        again = self.made()
        self.assertTrue(again.round())
        self.assertEqual(
            list(again.offices[0].state.opened), [Binding("answers", 0, "workbook-page")]
        )
        self.burn(3, 1000)
        self.assertTrue(again.round())
        self.assertEqual(self.manager.alerts(), {})

    def test_a_clock_two_years_ahead_sends_nothing(self) -> None:
        self.burn(2, 0)
        entries = self.office.client().objects()[0]
        self.clock.offset = 2 * 365 * 86_400
        self.assertFalse(self.made().round())
        self.assertEqual(self.office.client().objects()[0], entries)
        self.assertEqual(self.manager.alerts(), {})
        self.assertIn("differs from the receiver's", self.overview()["notify"]["clock"])

    def test_the_command_makes_a_round_and_offers_metrics(self) -> None:
        self.burn(2, 0)
        port = free_port()
        self.made(f'metrics = "127.0.0.1:{port}"')
        config = str(self.folder / "notify.toml")
        run = run_tool("slo-notify", "--once", config)
        self.assertEqual(run.returncode, 0, run.stderr)
        self.assertEqual(list(self.manager.alerts()), ["workbook-page"])
        self.assertEqual(run_tool("slo-notify", "--check", config).returncode, 0)
        serving = subprocess.Popen(
            ["/usr/bin/python3", str(TOP / "tools" / "bin" / "slo-notify"), config],
            stderr=subprocess.DEVNULL,
        )
        try:
            up = 'slo_office_up{office="shop"} 1.0'
            until(lambda: up in scraped(port), 30, "no round was made")
            told = scraped(port)
        finally:
            serving.kill()
            serving.wait()
        for line in (
            'slo_office_newest_minute_age_minutes{indicator="good",office="shop"}',
            'slo_notify_open_alerts{office="shop"} 1.0',
            "slo_notify_clock_trusted 1.0",
            'slo_office_answers_total{office="shop",status="200"}',
        ):
            self.assertIn(line, told)


def scraped(port: int) -> str:
    try:
        with urllib.request.urlopen(f"http://127.0.0.1:{port}/metrics", timeout=2) as answer:
            text: str = answer.read().decode()
            return text
    except OSError:
        return ""


class Deciding(unittest.TestCase):
    def test_each_case(self) -> None:
        one = Binding("a", 0, "p")
        notice: Callable[[int, str], Notice] = lambda n, state: Notice(n, 5, "a", 0, "p", state)
        quiet, burning = notice(2, "quiet"), notice(1, "breaching")
        well, old = Present("quiet", False), Present("quiet", True)
        again = Present("breaching", False)
        cases: list[tuple[list[Binding], list[Notice], Present, Decisions]] = [
            ([], [burning], well, Decisions(fire={one: burning})),
            ([], [quiet], well, Decisions(unsent=[quiet])),
            ([], [quiet, burning], well, Decisions(fire={one: burning})),
            ([one], [quiet], well, Decisions(end={one: quiet})),
            ([one], [quiet], old, Decisions(again=[one], held=[quiet])),
            ([one], [quiet], Present(None, True), Decisions(again=[one], held=[quiet])),
            ([one], [quiet], Present("no_data", False), Decisions(again=[one], held=[quiet])),
            ([one], [quiet], again, Decisions(again=[one], unsent=[quiet])),
            ([one], [quiet], Present("gone", False), Decisions(end={one: quiet})),
            ([one], [], well, Decisions(end={one: None})),
            ([one], [], old, Decisions(again=[one])),
            ([one], [], again, Decisions(again=[one])),
            ([one], [burning], well, Decisions(fire={one: burning})),
            ([], [notice(1, "no_data")], old, Decisions(fire={one: notice(1, "no_data")})),
        ]
        for opened, notices, present, decisions in cases:
            with self.subTest(opened=opened, notices=notices, present=present):
                self.assertEqual(decide(opened, notices, {one: present}), decisions)


class Clocks(unittest.TestCase):
    def test_the_receivers_clock_goes_on_while_it_is_away(self) -> None:
        times = {"now": 1_000_000.0, "steady": 50.0}
        trust = ClockTrust("receiver", lambda: times["now"], lambda: times["steady"])
        self.assertEqual(trust.fault(), "the receiver's clock isn't known yet")
        trust.heard("Mon, 12 Jan 1970 13:46:40 GMT")
        self.assertIsNone(trust.fault())
        times["now"] += 300
        times["steady"] += 300
        self.assertIsNone(trust.fault())
        times["now"] += 61
        self.assertIn("by 61 seconds", trust.fault() or "")

    def test_the_kernel_is_asked(self) -> None:
        trust = ClockTrust("kernel", is_synchronised=lambda: False)
        self.assertIn("this machine's clock isn't synchronised", trust.fault() or "")
        self.assertIsNone(ClockTrust("kernel", is_synchronised=lambda: True).fault())

    def test_rounds_begin_at_their_second_of_the_minute(self) -> None:
        self.assertEqual(pause(120.0, 60, 30), 30)
        self.assertEqual(pause(150.0, 60, 30), 60)
        self.assertEqual(pause(175.0, 60, 30), 35)
        self.assertEqual(pause(175.0, 60, 2), 7)
        self.assertEqual(pause(125.0, 10, 30), 5)


class Configs(unittest.TestCase):
    def test_what_is_left_out_fits_the_feed(self) -> None:
        with tempfile.TemporaryDirectory() as folder:
            path = Path(folder) / "c.toml"
            path.write_text('state = "s"\n[[office]]\nname = "a"\naddress = "http://x"\n')
            config = read_config(path)
        # slo-feed asks between these seconds of a minute, and then sends.
        self.assertTrue(15 + 10 < config.second < 60 - config.timeout)
        self.assertFalse(config.watchdog)

    def test_other_forms_are_told(self) -> None:
        office = '[[office]]\nname = "a"\naddress = "http://x"\n'
        with tempfile.TemporaryDirectory() as folder:
            path = Path(folder) / "c.toml"
            for text, why in (
                ("x", "c.toml"),
                ('state = "s"\n', r"there is no \[\[office]]"),
                (office, "state is missing"),
                ('state = "s"\nevry = 5\n' + office, "evry is no key of this file"),
                ('state = "s"\nevery = "5"\n' + office, "every is no number from 1 to 3600"),
                ('state = "s"\nevery = 0\n' + office, "every is no number from 1 to 3600"),
                ('state = "s"\nclock = "sun"\n' + office, "clock is none of kernel, receiver"),
                ('state = "s"\nclock = "receiver"\n' + office, "of a receiver: there is none"),
                ('state = "s"\n' + office + office, "office 2.name 'a' stands twice"),
                ('state = "s"\n' + office + 'adress = "x"', "office 1.adress is no key"),
                ('state = "s"\nmetrics = "x"\n' + office, "metrics 'x' is no address"),
                ('state = "s"\n' + office + "[webhook]\n[alertmanager]\n", "one of them"),
            ):
                path.write_text(text)
                with self.subTest(text=text), self.assertRaisesRegex(ConfigFault, why):
                    read_config(path)


if __name__ == "__main__":
    unittest.main()
