"""slo-gate over a running office: 0 only where everything was asked and nothing stands against."""

from __future__ import annotations

import http.server
import json
import threading
import time
import unittest
from fractions import Fraction

from support import SHOP, OfficeServer, free_port, run_tool, running_office

from slo_tools.freshness import excluded_age
from slo_tools.gate.judging import BadFreeze, Freeze, Verdict, read_freeze, worst
from slo_tools.spelling import budget_text, percent

SLO = """---
apiVersion: openslo/v1
kind: SLO
metadata:
  name: NAME
  annotations:
    note: none
spec:
  service: shop
  indicatorRef: good
  timeWindow:
  - duration: 1d
    isRolling: true
  budgetingMethod: Occurrences
  objectives:
  - displayName: Answers
    target: 0.99
  alertPolicies:
  - POLICY
"""


def slo(name: str, policy: str = "workbook-page", annotation: str = "note: none") -> str:
    text = SLO.replace("NAME", name).replace("POLICY", policy)
    return text.replace("note: none", annotation)


class Gate(unittest.TestCase):
    def setUp(self) -> None:
        self.now = int(time.time()) // 60

    def rows(self, first: int, last: int, good: int, total: int = 1000) -> bytes:
        lines = [f"good,web,{self.now - n},1,{good},{total}\n" for n in range(first, last)]
        return "".join(lines).encode()

    def office(self, *texts: str) -> OfficeServer:
        office = self.enterContext(running_office(self.now - 3000))
        office.client().define((SHOP + "".join(texts)).encode())
        return office

    def gate(self, office: OfficeServer, *words: str) -> tuple[int, str]:
        run = run_tool("slo-gate", "--office", office.address, *words)
        self.assertNotIn("Traceback", run.stderr)
        return run.returncode, run.stdout + run.stderr

    def test_a_release_is_let_through(self) -> None:
        office = self.office(slo("a"))
        office.client().ask("POST", ["samples"], body=self.rows(1, 120, 999))
        status, told = self.gate(office, "a")
        self.assertEqual((status, told.splitlines()[-1]), (0, "release"))
        self.assertIn("90.00%", told)

    def test_a_budget_below_the_asked_remainder_holds(self) -> None:
        office = self.office(slo("a"))
        office.client().ask("POST", ["samples"], body=self.rows(1, 120, 999))
        self.assertEqual(self.gate(office, "--remaining", "90%", "a")[0], 0)
        status, told = self.gate(office, "--remaining", "0.91", "a")
        self.assertEqual(status, 1)
        self.assertIn("less than 91.00% of the budget is left", told)

    def test_a_budget_that_is_used_up_holds(self) -> None:
        office = self.office(slo("a", "workbook-ticket"))
        office.client().ask("POST", ["samples"], body=self.rows(1, 120, 990))
        for words in (["a"], ["--remaining", "10%", "a"]):
            status, told = self.gate(office, *words)
            self.assertEqual((status, told.count("the budget is spent\n")), (1, 1), told)

    def test_a_page_that_burns_holds_and_a_ticket_does_not(self) -> None:
        office = self.office(slo("page"), slo("ticket", "workbook-ticket"))
        good = self.rows(60, 1400, 1000)
        office.client().ask("POST", ["samples"], body=b"\n".join(good.split(b"\n")[:1000]))
        office.client().ask("POST", ["samples"], body=self.rows(1, 20, 500, 1000))
        office.client().ask("POST", ["samples"], body=self.rows(20, 60, 1000, 1000))
        # A flood of good events long ago leaves budget while the last hour burns.
        office.client().ask(
            "POST", ["samples"], body=f"good,old,{self.now - 1300},1,100000000,100000000\n".encode()
        )
        status, told = self.gate(office, "page")
        self.assertEqual(status, 1)
        self.assertIn("workbook-page is breaching", told)
        self.assertEqual(self.gate(office, "ticket")[0], 0)

    def test_wide_slices_have_data_of_late(self) -> None:
        """No whole slice of an hour lies in the last half of one."""
        wide = "budgetingMethod: Timeslices"
        hours = "target: 0.99\n    timeSliceTarget: 0.9\n    timeSliceWindow: 60m"
        text = slo("a", "workbook-ticket").replace("budgetingMethod: Occurrences", wide)
        office = self.office(text.replace("target: 0.99", hours))
        office.client().ask("POST", ["samples"], body=self.rows(150, 400, 1000))
        status, told = self.gate(office, "a")
        self.assertEqual((status, told.count("no data in the last 30 minutes")), (2, 1))
        office.client().ask("POST", ["samples"], body=self.rows(1, 150, 1000))
        self.assertEqual(self.gate(office, "a")[0], 0)

    def test_names_write_nothing_but_their_place_in_the_table(self) -> None:
        named = slo("a").replace("displayName: Answers", 'displayName: "x\u009b2J\u0085release"')
        office = self.office(named)
        office.client().ask("POST", ["samples"], body=self.rows(1, 120, 990))
        status, told = self.gate(office, "a")
        self.assertEqual((status, told.splitlines()[-1]), (1, "hold"))
        self.assertIn("0 x?2J?release  0.99", told)

    def test_a_declared_freeze_holds(self) -> None:
        at = time.strftime("%Y-%m-%d", time.gmtime(time.time() - 86_400))
        until = time.strftime("%Y-%m-%d", time.gmtime(time.time() + 2 * 86_400))
        office = self.office(
            slo("now", annotation=f'slo-office/freeze: "{at}/{until} stock taking"'),
            slo("past", annotation='slo-office/freeze: "2020-01-01/2020-01-02"'),
            slo("always", annotation="slo-office/freeze: always"),
            slo("bad", annotation="slo-office/freeze: tomorrow"),
        )
        office.client().ask("POST", ["samples"], body=self.rows(1, 120, 999))
        self.assertEqual(self.gate(office, "past")[0], 0)
        status, told = self.gate(office, "now")
        self.assertEqual(status, 1)
        self.assertIn("stock taking", told)
        self.assertEqual(self.gate(office, "always")[0], 1)
        status, told = self.gate(office, "bad")
        self.assertEqual(status, 2)
        self.assertIn("SLO bad: slo-office/freeze", told)

    def test_a_freeze_of_the_service_holds_all_its_slos(self) -> None:
        office = self.office(slo("a"), slo("b"))
        client = office.client()
        client.ask("POST", ["samples"], body=self.rows(1, 120, 999))
        self.assertEqual(self.gate(office, "--service", "shop")[0], 0)
        frozen = SHOP.split("---")[0].replace(
            "name: shop", "name: shop\n  annotations:\n    slo-office/freeze: always moving"
        )
        client.define(frozen.encode())
        status, told = self.gate(office, "--service", "shop")
        self.assertEqual((status, told.count("a freeze is declared: moving")), (1, 2))

    def test_what_could_not_be_told_is_2(self) -> None:
        office = self.office(slo("a"), slo("fresh").replace("indicatorRef: good", SECOND))
        client = office.client()
        client.ask("POST", ["samples"], body=self.rows(70, 130, 999))
        cases: tuple[tuple[list[str], str], ...] = (
            (["nobody"], "there is no such SLO"),
            (["a"], "no data in the last 30 minutes"),
            (["fresh"], "no data in its window"),
            (["--service", "nobody"], "the service nobody has no SLO"),
            ([], "name an SLO"),
            (["a", "--remaining", "much"], "is no part"),
            (["a", "--remaining=-1"], "-1 is less than nothing"),
            (["a b"], "can't stand in a request"),
        )
        for words, why in cases:
            with self.subTest(words=words):
                status, told = self.gate(office, *words)
                self.assertEqual(status, 2, told)
                self.assertIn(why, told)
        self.assertEqual(self.gate(office, "--stale", "90", "a")[0], 2)  # the page has no data
        client.ask("POST", ["samples"], body=self.rows(1, 70, 999))
        self.assertEqual(self.gate(office, "a")[0], 0)
        self.assertEqual(self.gate(office, "a", "fresh")[0], 2)

    def test_an_office_that_is_away_is_2(self) -> None:
        office = self.office(slo("a"))
        office.kill()
        status, told = self.gate(office, "a")
        self.assertEqual(status, 2)
        self.assertIn("no connection", told)

    def test_another_server_is_2(self) -> None:
        class Page(http.server.BaseHTTPRequestHandler):
            def do_GET(self) -> None:
                self.send_response(200)
                self.end_headers()
                self.wfile.write(b"<html>welcome</html>")

            def log_message(self, *words: object) -> None:
                pass

        server = http.server.HTTPServer(("127.0.0.1", free_port()), Page)
        threading.Thread(target=server.serve_forever, daemon=True).start()
        run = run_tool("slo-gate", "--office", f"http://127.0.0.1:{server.server_port}", "a")
        server.shutdown()
        server.server_close()
        self.assertEqual(run.returncode, 2, run.stdout)

    def test_a_clock_that_is_wrong_is_2(self) -> None:
        with running_office(self.now - 3000, clock="+2y") as office:
            client = office.client()
            client.define((SHOP + slo("a")).encode())
            later = self.now + 2 * 365 * 1440
            lines = [f"good,web,{later - n},1,999,1000\n" for n in range(3, 100)]
            client.ask("POST", ["samples"], body="".join(lines).encode())
            status, told = self.gate(office, "a")
        self.assertEqual(status, 2)
        self.assertIn("the office's moment is", told)

    def test_json_has_exact_fractions(self) -> None:
        office = self.office(slo("a"))
        office.client().ask("POST", ["samples"], body=self.rows(1, 120, 999))
        status, told = self.gate(office, "--json", "a")
        read = json.loads(told)
        self.assertEqual((status, read["status"], read["verdict"]), (0, 0, "release"))
        line = read["lines"][0]
        self.assertEqual((line["remaining"], line["pages"]), ("9/10", {"workbook-page": "quiet"}))


SECOND = """indicator:
    metadata:
      name: second
    spec:
      ratioMetric:
        total:
          metricSource: {}
        good:
          metricSource: {}"""


class Judging(unittest.TestCase):
    def test_excluded_minutes_lack_nothing(self) -> None:
        told = [
            {"from": 100, "id": "a", "live": True, "slo": "a", "to": 110},
            {"from": 50, "id": "b", "live": False, "slo": "a", "to": 200},
            {"from": 50, "id": "c", "live": True, "slo": "b", "to": 200},
            {"from": 130, "id": "d", "live": True, "slo": "a", "to": 140},
        ]
        self.assertEqual(
            [excluded_age(told, "a", at) for at in (100, 101, 110, 115)], [None, 1, 1, 6]
        )
        self.assertEqual(excluded_age(told, "b", 120), 1)
        self.assertIsNone(excluded_age(told, "c", 120))

    def test_a_sure_hold_counts_before_what_is_unknown(self) -> None:
        self.assertEqual(worst([Verdict.RELEASE, Verdict.UNKNOWN, Verdict.HOLD]), Verdict.HOLD)
        self.assertEqual(worst([Verdict.RELEASE, Verdict.UNKNOWN]), Verdict.UNKNOWN)
        self.assertEqual(worst([]), Verdict.RELEASE)

    def test_freezes_are_read(self) -> None:
        self.assertEqual(read_freeze("1970-01-02/1970-01-03 why"), Freeze(1440, 2880, "why"))
        self.assertTrue(read_freeze("always").holds_at(5))
        self.assertFalse(Freeze(1440, 2880, "").holds_at(2880))
        for text in ("", "soon", "2020-01-02/2020-01-01", "2020-01-01/", "2020-13-01/2021-01-01"):
            with self.subTest(text=text), self.assertRaises(BadFreeze):
                read_freeze(text)

    def test_budgets_in_words(self) -> None:
        for remaining, text in (
            (Fraction(1), "100.00% of the budget is left"),
            (Fraction(39, 100), "39.00% of the budget is left"),
            (Fraction(1, 10**6), "less than 0.01% of the budget is left"),
            (Fraction(0), "the budget is spent"),
            (Fraction(-1, 1000), "the budget is spent"),
            (Fraction(-1, 5), "the budget is spent 1.2 times over"),
            (Fraction(-46, 10), "the budget is spent 5.6 times over"),
            (Fraction(-499), "the budget is spent 500 times over"),
            (Fraction(-1999, 2), "the budget is spent 1000 times over"),
        ):
            self.assertEqual(budget_text(remaining), text)

    def test_percents_are_rounded_down(self) -> None:
        for part, text in (
            (Fraction(1, 3), "33.33%"),
            (Fraction(-1, 3), "-33.34%"),
            (Fraction(1, 1), "100.00%"),
        ):
            self.assertEqual(percent(part), text)


if __name__ == "__main__":
    unittest.main()
