"""slo-status over a running office: how all objectives stand, on a terminal and without one."""

from __future__ import annotations

import fcntl
import os
import pty
import select
import signal
import struct
import subprocess
import termios
import time
import unittest
from collections.abc import Callable, Mapping

from support import SHOP, TOOLS, OfficeServer, free_port, run_tool, running_office

from hostile import Cutting
from notify_offices import Mutator
from test_gate import slo
from test_gate_answers import HOT

COMMAND = ["/usr/bin/python3", str(TOOLS / "bin" / "slo-status")]
LONG = "checkout-answers-of-all-customers-in-europe"
# An SLO over an indicator of its own, that no row is sent to.
EMPTY = """---
apiVersion: openslo/v1
kind: Service
metadata:
  name: other
spec: {}
---
apiVersion: openslo/v1
kind: SLI
metadata:
  name: bad
spec:
  ratioMetric:
    total:
      metricSource: {}
    good:
      metricSource: {}
"""


def of_other(name: str) -> str:
    return slo(name).replace("service: shop", "service: other").replace(": good", ": bad")


class Standings(unittest.TestCase):
    def setUp(self) -> None:
        self.now = int(time.time()) // 60

    def office(self, *texts: str, clock: str = "") -> OfficeServer:
        office = self.enterContext(running_office(self.now - 3000, clock))
        office.client().define((SHOP + EMPTY + "".join(texts)).encode())
        return office

    def rows(
        self, office: OfficeServer, first: int, last: int, good: int, total: int = 1000
    ) -> None:
        lines = [f"good,web,{self.now - n},1,{good},{total}\n" for n in range(first, last)]
        office.client().ask("POST", ["samples"], body="".join(lines).encode())

    def status(self, address: str, *words: str, **more: str) -> tuple[int, list[str], str]:
        run = run_tool("slo-status", "--office", address, *words, **more)
        self.assertNotIn("Traceback", run.stderr)
        return run.returncode, run.stdout.splitlines(), run.stderr

    def burning(self) -> OfficeServer:
        """An office with an SLO that burns by its page, one that is spent and has no page, one that
        is well, and one without a row."""
        well = slo("well").replace("target: 0.99", "target: 0.05")
        spent = slo("spent").replace("  alertPolicies:\n  - workbook-page\n", "")
        office = self.office(well, slo("burns"), spent, of_other("empty"))
        self.rows(office, 1, 120, 750)
        return office


class Status(Standings):
    def test_quiet_is_told_by_status_0(self) -> None:
        office = self.office(slo("a"))
        self.rows(office, 1, 120, 999)
        status, lines, said = self.status(office.address)
        self.assertEqual((status, said), (0, ""))
        self.assertRegex(lines[0], r"^20\d\d-\d\d-\d\dT\d\d:\d\dZ  1 quiet$")
        self.assertEqual(lines[1].split(), "SLO STATE BUDGET LEFT 5m 1h 6h 3d".split())
        self.assertEqual(
            lines[2].split(), "a/0 quiet ██████████████████░░ 90.00%".split() + ["0.1"] * 4
        )

    def test_the_worst_stands_first_and_what_burns_is_status_1(self) -> None:
        status, lines, _ = self.status(self.burning().address)
        self.assertEqual(status, 1)
        self.assertIn("1 breaching, 1 spent, 1 no data, 1 quiet", lines[0])
        self.assertEqual(lines[1].split()[-1], "BREACHING")
        states = [(line.split("/")[0], line[9:18].strip()) for line in lines[2:]]
        self.assertEqual(
            states,
            [("burns", "breaching"), ("spent", "spent"), ("empty", "no data"), ("well", "quiet")],
        )
        # A quarter of all events is bad, of which a hundredth may be.
        self.assertEqual(
            lines[2].split()[2:], ["░" * 20, "-2400.00%"] + ["25"] * 4 + ["workbook-page"]
        )
        self.assertEqual(lines[4].split()[3:], ["-"] * 5)

    def test_what_pages_stands_before_what_does_not(self) -> None:
        ticket = HOT.replace("hot", "warm").replace("severity: page", "severity: ticket")
        pages = slo("pages", "hot-policy").replace("target: 0.99", "target: 0.9")
        both = slo("both", "warm-policy\n  - hot-policy").replace("target: 0.99", "target: 0.8")
        office = self.office(HOT, ticket, slo("tickets", "warm-policy"), pages, both)
        self.rows(office, 1, 120, 750)
        status, lines, _ = self.status(office.address)
        told = [(line.split("/")[0], line.split()[-1]) for line in lines[2:]]
        expected = [("pages", "hot-policy"), ("both", "warm-policy"), ("tickets", "warm-policy")]
        self.assertEqual((status, told), (1, expected))
        self.assertEqual(lines[3].split()[-2], "hot-policy")

    def test_a_spent_budget_alone_is_status_1(self) -> None:
        office = self.office(slo("a", "workbook-ticket"))
        self.rows(office, 1, 120, 990)
        status, lines, _ = self.status(office.address)
        self.assertEqual((status, lines[0].split("  ")[1]), (1, "1 spent"))

    def test_a_service_of_its_own(self) -> None:
        office = self.burning()
        status, lines, _ = self.status(office.address, "--service", "other")
        self.assertEqual((status, len(lines)), (2, 3))
        self.assertTrue(lines[2].startswith("empty/0"))
        status, lines, said = self.status(office.address, "--service", "others")
        self.assertEqual((status, lines), (2, []))
        self.assertEqual(said, "slo-status: the service others has no SLO\n")

    def test_old_data_is_never_called_quiet(self) -> None:
        annotated = slo("night", annotation="slo-office/stale: 8h")
        office = self.office(slo("day"), annotated)
        self.rows(office, 30, 120, 999)
        status, lines, _ = self.status(office.address)
        self.assertEqual(status, 2)
        self.assertIn("1 old data", lines[0])
        self.assertRegex(lines[2], "^day/0 +old data ")
        self.assertNotIn("old data", lines[3])
        status, lines, _ = self.status(office.address, "--stale", "60")
        self.assertEqual((status, lines[0].split("  ")[1]), (0, "2 quiet"))

    def test_an_alert_whose_state_is_not_known_is_not_called_quiet(self) -> None:
        # A policy of one hour, in which no row was sent.
        office = self.office(HOT, slo("a", "hot-policy", "slo-office/stale: 8h"))
        self.rows(office, 70, 120, 999)
        status, lines, _ = self.status(office.address)
        self.assertEqual((status, lines[0].split("  ")[1]), (2, "1 no data"))

    def test_rows_of_no_events_are_no_old_data(self) -> None:
        office = self.office(slo("a", "workbook-ticket"))
        self.rows(office, 30, 120, 999)
        self.rows(office, 1, 30, 0, 0)
        status, lines, _ = self.status(office.address)
        self.assertEqual((status, lines[0].split("  ")[1]), (0, "1 quiet"))

    def test_data_of_yesterday_is_old_and_no_data_is_none(self) -> None:
        office = self.office(slo("a"), of_other("empty"))
        self.rows(office, 1400, 1435, 999)
        for number in range(300):
            # Entries enough that the rows lie before those which are looked at first.
            office.client().exclude(f"x{number}", "empty", self.now - 10, self.now - 9)
        status, lines, _ = self.status(office.address)
        self.assertEqual((status, lines[0].split("  ")[1]), (2, "1 old data, 1 no data"))

    def test_what_keeps_it_from_being_told_is_a_line_and_status_2(self) -> None:
        status, lines, said = self.status(f"http://127.0.0.1:{free_port()}")
        self.assertEqual((status, lines), (2, []))
        self.assertRegex(said, r"^slo-status: http://127\.0\.0\.1:\d+: no connection\n$")
        status, lines, said = self.status(self.office().address)
        self.assertEqual((status, lines, said), (2, [], "slo-status: the office has no SLO\n"))

    def test_words_of_another_form_are_status_2(self) -> None:
        for words in (["--watch", "0"], ["--stale", "x"], ["--stale", "99999"], ["slo"]):
            status, lines, said = self.status("http://127.0.0.1:1", *words)
            self.assertEqual((status, lines), (2, []), words)
            self.assertIn("slo-status: error: ", said)

    def test_an_office_with_another_clock_is_not_called_quiet(self) -> None:
        office = self.office(slo("a"), clock="+2h")
        self.now += 120
        self.rows(office, 1, 120, 999)
        status, lines, said = self.status(office.address)
        self.assertEqual((status, lines[0].split("  ")[1]), (2, "1 quiet"))
        self.assertRegex(said, "^slo-status: the office's moment is 20.*Z, and it is 20.*Z here\n$")

    def test_an_slo_that_cannot_be_read_is_told(self) -> None:
        office = self.office(slo("a"), slo("b"))
        self.rows(office, 1, 120, 999)
        mutator = Mutator(office.port, 1)
        self.addCleanup(mutator.close)
        mutator.one_of, mutator.spoils = 0, "/objects/SLO/b"
        status, lines, said = self.status(mutator.address)
        self.assertEqual((status, len(lines)), (2, 3))
        self.assertIn("1 quiet, 1 can't be read", lines[0])
        self.assertRegex(said, r"^slo-status: SLO b: can't be read: .+\n$")

    def test_whatever_is_answered_is_a_line_and_never_quiet(self) -> None:
        office = self.burning()
        mutator = Mutator(office.port, seed=7)
        self.addCleanup(mutator.close)
        mutator.one_of = 8
        said = []
        for _ in range(12):
            status, lines, why = self.status(mutator.address)
            said.append(status)
            self.assertNotEqual(status, 0, lines)
            self.assertTrue(lines or why)
        self.assertIn(2, said)

    def test_all_is_asked_on_one_link(self) -> None:
        office = self.office(*(slo(f"s{number}") for number in range(60)))
        self.rows(office, 1, 120, 999)
        proxy = Cutting(office.port)
        self.addCleanup(proxy.close)
        status, lines, _ = self.status(proxy.address)
        self.assertEqual((status, len(lines)), (0, 62))
        self.assertEqual((proxy.links, len(proxy.questions)), (1, 2 + 2 + 60 + 60 * 6))
        # Cut in the middle, the rest is asked again.
        proxy.cuts = [200_000]
        self.assertEqual(self.status(proxy.address)[0], 0)


class Screen:
    """The command on a terminal of its own, of some columns and lines."""

    def __init__(
        self, words: list[str], columns: int, more: Mapping[str, str] = {}, lines: int = 24
    ) -> None:
        self.top, inner = pty.openpty()
        fcntl.ioctl(inner, termios.TIOCSWINSZ, struct.pack("HHHH", lines, columns, 0, 0))
        front = {**os.environ, "TERM": "xterm", "LANG": "C.UTF-8"}
        for name in ("NO_COLOR", "COLUMNS", "LINES"):
            front.pop(name, None)
        self.process = subprocess.Popen(
            [*COMMAND, *words], stdin=inner, stdout=inner, stderr=inner, env={**front, **more}
        )
        os.close(inner)
        self.text = ""

    def until(self, what: Callable[[str], bool]) -> str:
        """What was written up to where something holds, or to the end."""
        end = time.monotonic() + 60
        while not what(self.text):
            ready = select.select([self.top], [], [], 1)[0]
            try:
                more = os.read(self.top, 65_536) if ready else None
            except OSError:
                more = b""
            if more == b"" or time.monotonic() > end:
                break
            self.text += (more or b"").decode("utf-8", "replace").replace("\r\n", "\n")
        return self.text

    def ended(self) -> tuple[int, str]:
        text = self.until(lambda text: False)
        status = self.process.wait(30)
        os.close(self.top)
        return status, text


class Terminal(Standings):
    def screen(self, office: OfficeServer, columns: int, **more: str) -> list[str]:
        status, text = Screen(["--office", office.address], columns, more).ended()
        self.assertEqual(status, 1, text)
        return text.splitlines()

    def test_colours_are_a_terminals_alone(self) -> None:
        office = self.burning()
        lines = self.screen(office, 100)
        self.assertIn("\033[31;1mbreaching\033[0m", lines[2])
        self.assertIn("\033[32mquiet    \033[0m", lines[-1])
        self.assertNotIn("\033", "".join(self.screen(office, 100, NO_COLOR="1")))
        self.assertNotIn("\033", "".join(self.screen(office, 100, TERM="dumb")))
        self.assertNotIn("\033", "".join(self.status(office.address)[1]))

    def test_names_are_cut_to_the_width_and_keep_their_number(self) -> None:
        office = self.office(slo(LONG))
        self.rows(office, 1, 120, 750)
        for columns in (60, 80, 100, 200):
            lines = self.screen(office, columns, NO_COLOR="1")
            self.assertLessEqual(max(map(len, lines)), columns)
            self.assertRegex(lines[2], r"^check\S*/0 +breaching ")
            self.assertEqual(LONG in lines[2], columns >= 100)
            self.assertEqual(lines[2].endswith("workbook-page"), columns > 60, lines[2])
            self.assertIn("-2400.00%", lines[2])
        self.assertIn(f"{LONG}/0 ", self.status(office.address, COLUMNS="60")[1][2])

    def test_letters_that_a_terminal_lacks_are_not_written(self) -> None:
        office = self.burning()
        text = "\n".join(self.screen(office, 80, NO_COLOR="1", PYTHONIOENCODING="latin-1"))
        self.assertIn(" .......... -2400.00%", text)
        self.assertNotIn("Traceback", text)

    def test_it_is_watched_until_it_is_ended(self) -> None:
        office = self.burning()
        screen = Screen(["--office", office.address, "--watch", "1"], 100)
        told = screen.until(lambda text: text.count("\033[H\033[2J") >= 3)
        self.assertGreaterEqual(told.count("1 breaching, 1 spent"), 2)
        office.kill()
        told = screen.until(lambda text: "no connection" in text)
        # No number of before is left on the screen.
        self.assertNotIn("breaching", told.rsplit("\033[H\033[2J", 1)[1])
        office.start()
        told = screen.until(
            lambda text: text.rsplit("no connection", 1)[1].count("breaching, ") > 1
        )
        screen.process.send_signal(signal.SIGINT)
        status, told = screen.ended()
        self.assertEqual(status, 1, told)
        self.assertNotIn("Traceback", told)

    def test_what_is_worst_stays_on_a_low_screen(self) -> None:
        office = self.office(*(slo(f"s{number}") for number in range(20)))
        self.rows(office, 1, 120, 750)
        screen = Screen(["--office", office.address, "--watch"], 100, lines=10)
        told = screen.until(lambda text: " more" in text)
        screen.process.send_signal(signal.SIGINT)
        screen.ended()
        lines = told.rsplit("\033[H\033[2J", 1)[1].splitlines()
        self.assertLess(len(lines), 10)
        self.assertIn("s0/0", lines[2])
        self.assertEqual(lines[-1], f"and {22 - (len(lines) - 1)} more")


if __name__ == "__main__":
    unittest.main()
