"""The page in an incident, in Chromium: what burns and what to do, zoom, filters, a phone, many SLOs."""

from __future__ import annotations

import json
import os
import re
import subprocess
import tempfile
import time
import unittest
from datetime import datetime, timezone
from fractions import Fraction
from pathlib import Path
from typing import Any
from urllib.parse import parse_qs, urlsplit

from notify_support import Hook
from page_support import DAY, OWNER, RUNBOOK, Browser, Front, all_needed, pictures, write_overview
from support import TOOLS, OfficeServer, free_port

from page_incident import LINK, OUTAGE, WINDOW, checkout_counts, documents, fill, fresh, many
from test_page import LAID_OUT

DRAWN_WITHIN = 1.5
FILTERED_WITHIN = 0.1
TRIES = 4
MAIN = "return document.querySelector('main').innerText"
ROWS = "return [...document.querySelectorAll('.overview tbody tr:not(.group)')]"
SHOWN = f"{ROWS}.filter(r => !r.hidden).map(r => r.querySelector('a').textContent)"
DATASETS = """
return [...document.querySelectorAll('canvas')].map(c => Chart.getChart(c).data.datasets.map(d =>
  [d.label, d.data[0]?.y ?? null, d.borderDash]))
"""


class Incident(unittest.TestCase):
    folder: Path
    now: int
    office: OfficeServer
    overview: str
    front: Front
    browser: Browser
    pictures: Path

    @classmethod
    def setUpClass(cls) -> None:
        all_needed()
        place = cls.enterClassContext(tempfile.TemporaryDirectory(prefix="slo-incident-"))
        cls.folder = Path(place)
        for name in ("office", "front", "browser", "dead"):
            (cls.folder / name).mkdir()
        cls.now = int(time.time()) // 60
        cls.office = OfficeServer(cls.folder / "office", cls.now - 70 * DAY)
        cls.office.start()
        cls.addClassCleanup(cls.office.kill)
        fill(cls.office, cls.now)
        hook = Hook()
        cls.addClassCleanup(hook.close)
        receiver = f'[webhook]\naddress = "{hook.address}"\n'
        cls.overview = write_overview(cls.folder / "front", cls.office.port, receiver).read_text()
        cls.front = Front(cls.folder / "front", cls.office.port)
        cls.addClassCleanup(cls.front.stop)
        cls.browser = Browser(cls.folder / "browser")
        cls.addClassCleanup(cls.browser.close)
        cls.browser.log_in(cls.front)
        cls.pictures = pictures()

    def setUp(self) -> None:
        self.told = fresh(self.overview)
        # What was told to a webhook, as if Alertmanager had heard of it.
        self.told["notify"].update({"receiver": "alertmanager", "link": LINK})
        self.write()
        self.browser.media()
        self.browser.size(1400, 900)

    def write(self) -> None:
        self.front.overview.write_text(json.dumps(self.told))

    def slo(self, name: str) -> dict[str, Any]:
        slos = self.told["offices"][0]["slos"]
        found: dict[str, Any] = next(each for each in slos if each["name"] == name)
        return found

    def see(self, place: str, says: str) -> str:
        """Opens a place, and waits until it is drawn; gives its text."""
        self.browser.open(self.front, place)
        self.assertRegex(self.browser.settled(), says)
        return str(self.browser.run(MAIN))

    def is_well(self) -> None:
        self.assertEqual(self.browser.logs(), ([], []))
        self.assertEqual(self.browser.run(LAID_OUT), [])

    def choose(self, control: str, value: str) -> None:
        self.browser.run(
            "const c = document.getElementById(arguments[0]); c.value = arguments[1];"
            "c.dispatchEvent(new Event(c.tagName === 'SELECT' ? 'change' : 'input'))",
            control,
            value,
        )

    # What is open.

    def test_one_reads_without_scrolling_what_burns_and_what_to_do(self) -> None:
        begun = self.office.client().alerts(
            "checkout", 0, "workbook-page", self.now - DAY, self.now
        )
        since = datetime.fromtimestamp(begun.intervals[-1][0] * 60, timezone.utc)
        later = int(self.told["offices"][0]["at"]) - self.now
        bad, total, lately_bad, lately = checkout_counts(later)
        remaining = 1 - Fraction(bad, total) * 100
        burn = Fraction(lately_bad, lately) * 100
        hours = int(remaining * WINDOW / burn / 60)
        for scheme in ("light", "dark"):
            with self.subTest(scheme=scheme):
                self.browser.media(scheme=scheme)
                self.see("", "As of")
                self.browser.wait(
                    "document.querySelector('.burning .since').textContent"
                    f".includes('since {since:%H:%M}')"
                )
                box = self.browser.run(
                    "const e = document.querySelector('.burning');"
                    "return [e.innerText, e.getBoundingClientRect().bottom, scrollY]"
                )
                text, bottom, scrolled = box
                self.assertLess(bottom, 900)
                self.assertEqual(scrolled, 0)
                self.assertRegex(text, r"^\W*Page\s+Checkout")
                self.assertIn(f"burns {float(burn):.1f} over 1h (page above 14.4)", text)
                self.assertRegex(
                    text, rf"since {since:%H:%M} UTC, \d+ min, told to Alertmanager at \d+:\d+ UTC"
                )
                self.assertIn(f"gone in {hours} h at the pace of the last hour", text)
                self.assertIn(f"Owner: {OWNER}", text)
                self.assertIn("slo-gate checkout", text)
                self.is_well()
                self.browser.keep(self.pictures / f"incident-{scheme}.png", whole=False)

    def test_its_links_lead_to_the_runbook_and_a_silence(self) -> None:
        self.see("", "As of")
        links = dict(
            self.browser.run(
                "return [...document.querySelectorAll('.burning:first-child a')]"
                ".map(a => [a.textContent, a.getAttribute('href')])"
            )
        )
        self.assertEqual(links["Runbook"], RUNBOOK)
        self.assertEqual(links["Checkout"], "#/shop/checkout")
        silence = urlsplit(links["Silence in Alertmanager"])
        self.assertEqual(f"{silence.scheme}://{silence.netloc}", LINK)
        query = parse_qs(urlsplit(silence.fragment).query)["filter"][0]
        self.assertEqual(
            sorted(query.strip("{}").split(",")),
            ['objective="0"', 'office="shop"', 'slo="checkout"'],
        )

    def test_no_link_leads_where_nobody_said_so(self) -> None:
        slo = self.slo("checkout")
        slo["runbook"] = "javascript:alert(document.domain)"
        self.told["notify"]["link"] = None
        self.write()
        text = self.see("", "As of")
        self.assertIn("Runbook: javascript:alert(document.domain)", text)
        self.assertNotIn("Silence", text)
        links = self.browser.run("return [...document.querySelectorAll('a')].map(a => a.protocol)")
        self.assertEqual(set(links), {"https:"})

    def test_each_alert_says_whom_it_was_told_to(self) -> None:
        text = self.see("#/notices", "All offices answered")
        self.assertIn("Open now (3)", text)
        self.assertRegex(text, r"trial: burns .*, told to nobody: its policy doesn't tell")
        self.assertRegex(
            text, r"workbook-ticket: burns 3\.00 over 3d \(ticket above 1\), .*told to"
        )
        self.is_well()
        for alert in self.slo("checkout")["objectives"][0]["alerts"]:
            alert["since"] = None
        self.write()
        self.assertIn("not told to Alertmanager yet", self.see("", "As of"))
        self.told["notify"]["receiver"] = "none"
        self.write()
        self.assertIn("told to nobody: slo-notify has no receiver", self.see("", "As of"))

    def test_where_nothing_is_open_it_says_so(self) -> None:
        for slo in self.told["offices"][0]["slos"]:
            for alert in slo["objectives"][0]["alerts"]:
                alert.update({"since": None, "state": "quiet"})
            slo["objectives"][0]["state"] = "quiet"
        self.write()
        self.assertIn("Nothing burns, and nothing is open", self.see("", "As of"))
        self.assertIn("Alerts (0 open)", self.browser.run("return document.body.innerText"))
        self.told["offices"][0].update({"up": False, "fault": "no answer"})
        self.write()
        text = self.see("", "As of")
        self.assertNotIn("Nothing burns", text)
        self.assertIn("No alert is known to be open", text)

    # The order of rows, and what they say.

    def test_first_stands_what_wakes_somebody_first(self) -> None:
        self.see("", "As of")
        rows = self.browser.run(
            f"{ROWS}.map(r => [r.querySelector('a').textContent, r.querySelector('.state').innerText,"
            "r.querySelector('td small')?.textContent ?? ''])"
        )
        self.assertEqual(
            rows,
            [
                ["Checkout", "Page", "workbook-page, workbook-ticket"],
                ["Search", "Ticket", "workbook-ticket"],
                ["Exhausted", "Budget spent", "no alerts defined"],
                ["Tried", "Burns, tells nobody", "trial"],
                ["Unwatched", "No alerts defined", ""],
                ["Calm", "Quiet", ""],
            ],
        )

    def test_a_spent_budget_is_a_full_red_bar(self) -> None:
        for scheme in ("light", "dark"):
            self.browser.media(scheme=scheme)
            self.see("", "As of")
            bars = self.browser.run(
                f"{ROWS}.map(r => {{ const f = r.querySelector('.fill'); return [f.offsetWidth /"
                " f.parentElement.offsetWidth, getComputedStyle(f).backgroundColor,"
                "r.querySelector('.remaining').innerText] })"
            )
            red = self.browser.run(
                "const p = document.createElement('p'); p.style.color = 'var(--bad)';"
                "document.body.append(p); return getComputedStyle(p).color"
            )
            self.assertEqual(bars[2], [1, red, "spent 100×"])
            self.assertNotEqual(bars[0][1], red)
            self.assertLess(bars[0][0], 0.4)

    def test_each_row_has_the_trend_of_a_week(self) -> None:
        for width in (1400, 2500):
            self.browser.size(width, 900)
            self.see("", "As of")
            found = self.browser.run(
                f"{ROWS}.map(r => {{ const s = r.querySelector('svg'), b = s.getBoundingClientRect();"
                "return [b.width, b.height, s.parentElement.getAttribute('aria-label'),"
                "s.querySelector('.line').getBBox().height] })"
            )
            self.assertEqual({(each[0], each[1]) for each in found}, {(60, 16)})
            labels = [each[2] for each in found]
            self.assertEqual(labels[1], "burn of the last 7 days by 6 h: at most 3, lately 3")
            self.assertEqual(found[5][3], 0)
            tip = self.browser.run(
                "document.querySelectorAll('.trend .line')[1].dispatchEvent(new PointerEvent("
                "'pointerover', {bubbles: true}));"
                "const e = document.getElementById('exact'); return e.hidden ? '' : e.textContent"
            )
            self.assertEqual(tip, labels[1])
            self.is_well()

    def test_filters_stand_in_the_address(self) -> None:
        self.see("#/?service=search", "As of")
        self.assertEqual(self.browser.run(SHOWN), ["Search"])
        self.choose("filter-service", "shop")
        self.choose("filter-state", "spent")
        self.assertEqual(self.browser.run(SHOWN), ["Exhausted"])
        address = self.browser.run("return location.hash")
        self.assertEqual(
            parse_qs(address.partition("?")[2]), {"service": ["shop"], "state": ["spent"]}
        )
        self.choose("filter-state", "")
        self.choose("filter", "checkout front")
        self.assertEqual(self.browser.run(SHOWN), ["Checkout"])
        self.browser.run("document.querySelector('.overview tbody a').click()")
        self.browser.wait("document.querySelector('.facts')")
        self.browser.settled()
        self.browser.key("Escape")
        self.browser.wait("document.querySelector('.overview')")
        self.assertEqual(self.browser.run(SHOWN), ["Checkout"])

    def test_rows_are_in_groups(self) -> None:
        self.see("#/?group=service", "As of")
        heads = "return [...document.querySelectorAll('.group')].filter(e => e.checkVisibility())"
        found = self.browser.run(
            f"{heads}.map(e => [e.innerText, e.firstChild.getAttribute('role')])"
        )
        self.assertEqual(found, [["Shop front (5)", "rowheader"], ["Search (1)", "rowheader"]])
        self.choose("filter-state", "quiet")
        self.assertEqual(self.browser.run(f"{heads}.map(e => e.innerText)"), ["Shop front (1)"])
        self.choose("group", "")
        self.assertEqual(self.browser.run(f"{heads}.length"), 0)
        self.is_well()

    # Zoom.

    def test_ranges_stand_in_the_address_and_say_their_step(self) -> None:
        zone = timezone.utc
        begin, end = (datetime.fromtimestamp((self.now - ago) * 60, zone) for ago in (90, 30))
        month = datetime.fromtimestamp(self.now * 60, zone).strftime("%Y-%m")
        dates = f"from={begin:%Y-%m-%dT%H:%M}&to={end:%Y-%m-%dT%H:%M}"
        for query, heading, step in (
            ("range=6h", "The last 6 h", "5 min"),
            ("range=3d", "The last 3 d", "60 min"),
            ("", "The window", "12 h"),
            (f"range={month}", f"The month {month}", None),
            (dates, f"{begin.day} {begin:%b %Y, %H:%M} UTC to", "1 min"),
        ):
            with self.subTest(query=query):
                text = self.see(f"#/shop/checkout?{query}", "Checkout, as of")
                self.assertIn(heading, text)
                captions = self.browser.run(
                    "return [...document.querySelectorAll('figcaption')].map(e => e.textContent)"
                )
                if step:
                    self.assertEqual(captions[1], f"Burn rate of each step of {step}")
                shown = self.browser.run(
                    "return document.querySelectorAll('.ranges [aria-current]').length"
                )
                self.assertEqual(shown, 0 if query == dates else 1)
        ends = self.browser.run(
            "const s = Chart.getChart(document.querySelector('canvas')).scales.x; return [s.min, s.max]"
        )
        self.assertEqual(ends, [self.now - 90, self.now - 30])

    def test_a_range_is_set_by_hand(self) -> None:
        self.see("#/shop/checkout", "Checkout, as of")
        begin = datetime.fromtimestamp((self.now - 120) * 60, timezone.utc)
        self.choose("range-from", f"{begin:%Y-%m-%dT%H:%M}")
        self.browser.run("document.querySelector('.dates button').click()")
        self.browser.wait(
            f"document.querySelector('main').innerText.includes('{begin:%H:%M} UTC to')"
        )
        self.assertIn(f"from={begin:%Y-%m-%d}", self.browser.run("return location.hash"))
        self.assertRegex(self.browser.settled(), "as of|Loading")

    def test_a_range_that_is_none_is_told(self) -> None:
        for query, says in (
            ("range=9h", "none of 6h, 3d and a month"),
            ("from=yesterday", "dates as"),
            ("from=2020-01-01T00:00&to=2020-01-02T00:00", "no minute of this range"),
            ("from=2026-01-02T00:00&to=2026-01-01T00:00", "is empty"),
        ):
            self.see(f"#/shop/checkout?{query}", f"Failed: .*{says}")

    def test_policies_stand_as_lines_and_words(self) -> None:
        text = self.see("#/shop/checkout?range=6h", "Checkout, as of")
        burn = self.browser.run(DATASETS)[1]
        lines = {label: value for label, value, dash in burn if dash}
        self.assertEqual(
            lines,
            {
                "page above 14.4 over 1h": 14.4,
                "page above 6 over 6h": 6,
                "ticket above 1 over 3d": 1,
            },
        )
        self.assertRegex(text, r"1h\s+[\d.]+\s+page above 14\.4 \(with 5m\)")
        self.assertRegex(text, r"3d\s+[\d.]+\s+ticket above 1 \(with 6h\)")
        self.is_well()

    # Times, names and numbers.

    def test_each_page_has_a_title_of_its_own(self) -> None:
        for place, says, title in (
            ("", "As of", r"Error budgets"),
            ("#/shop/checkout", "as of", r"Checkout · Error budgets"),
            ("#/shop/checkout/0/month", "counted", r"Checkout, \w+ \d{4} · Error budgets"),
            ("#/notices", "answered", r"Alerts · Error budgets"),
        ):
            self.see(place, says)
            self.assertRegex(self.browser.run("return document.title"), rf"^{title}$")

    def test_the_slo_has_its_name_as_the_gate_wants_it(self) -> None:
        text = self.see("#/shop/checkout", "as of")
        self.assertRegex(text, r"Name\s+checkout")
        self.assertIn("slo-gate checkout", text)
        text = self.see("#/shop/unwatched", "as of")
        self.assertIn("No alerts are defined", text)
        self.assertNotIn("Quiet", text)

    def test_a_day_says_how_much_of_the_month_it_took(self) -> None:
        self.see("#/shop/exhausted/0/month", "counted up to")
        cells = self.browser.run(
            "return [...document.querySelectorAll('.day small')].map(e => e.innerText)"
            ".filter(t => t !== 'no data')"
        )
        # All failed on each day, and a hundredth may: together they took the budget 100 times.
        took = [
            float(cell.removeprefix("took ").removesuffix(" %").replace(",", "")) for cell in cells
        ]
        self.assertAlmostEqual(sum(took), 10_000, delta=len(took) / 10 + 0.1)

    # Only what matters.

    def test_an_office_without_an_answer_is_grey_and_says_its_age(self) -> None:
        self.told["offices"][0].update({"up": False, "fault": "no answer", "at": self.now - 25})
        self.write()
        text = self.see("", "As of")
        self.assertNotRegex(text, r"(?m)^Quiet")
        self.assertRegex(text, r"Not known\s+was quiet 2\d min ago")
        self.assertRegex(text, r"Page\s+workbook-page, workbook-ticket, as of 2\d min ago")
        self.assertIn("what burns since isn't known", text)
        colours = self.browser.run(
            "const c = (q) => getComputedStyle(document.querySelector(q)).color;"
            "return [c('.overview .aged .number'), c('caption')]"
        )
        self.assertEqual(colours[0], colours[1])
        self.is_well()
        text = self.see("#/shop/calm", "as of|Failed")
        self.assertIn("shop doesn't answer (no answer)", text)
        self.assertNotRegex(text, r"(?m)^Quiet")
        self.assertRegex(text, r"Not known was quiet 2\d min ago")

    def test_a_fresh_notifier_says_that_it_does_not_know_yet(self) -> None:
        folder = self.folder / "dead"
        config = folder / "notify.toml"
        config.write_text(
            f'state = "{folder}/state.json"\noverview = "{folder}/overview.json"\nclock = "trusted"\n'
            f'[[office]]\nname = "shop"\naddress = "http://127.0.0.1:{free_port()}"\n'
        )
        words = ["/usr/bin/python3", str(TOOLS / "bin" / "slo-notify"), "--once", str(config)]
        subprocess.run(words, capture_output=True, check=False, timeout=60)
        self.told = fresh((folder / "overview.json").read_text())
        self.write()
        text = self.see("", "As of")
        self.assertIn("Nothing is known yet of shop", text)
        self.assertNotIn("No office has an SLO", text)
        self.assertNotIn("Nothing burns", text)
        self.see("#/shop/checkout", "Failed: nothing is known yet of shop")

    def test_only_what_is_nearly_full_is_told_in_days(self) -> None:
        office = self.told["offices"][0]
        office["usage"] = {
            "bindings": [10, 400],
            "cells": [1_500_000, 2_000_000],
            "slos": [190, 200],
        }
        office["origin"] = office["at"] - 60 * DAY
        self.write()
        text = self.see("", "As of")
        self.assertRegex(text, r"shop: cells 75 % full, full in 20 d at the pace .*1,500,000 of")
        self.assertIn("shop: slos 95 % full (190 of 200)", text)
        self.assertNotIn("bindings", text)
        office["usage"]["cells"][0] = 1_400_000
        self.write()
        self.assertNotIn("cells", self.see("", "As of"))

    # A phone, and many SLOs.

    def test_on_a_phone_an_objective_is_a_line(self) -> None:
        self.told = many(self.told, 1, 250)
        self.write()
        for scheme in ("light", "dark"):
            self.browser.media(scheme=scheme)
            self.browser.size(390, 844)
            text = self.see("", "As of")
            self.assertNotIn("Arrow keys", text)
            height = self.browser.run("return document.documentElement.scrollHeight")
            self.assertLess(height, 15_000)
            rows = self.browser.run(
                f"{ROWS}.map(r => [r.getBoundingClientRect().height,"
                "[...r.children].filter(c => c.checkVisibility()).map(c => c.dataset.head ?? 'SLO'),"
                "r.innerText.includes('\\n\\n')])"
            )
            self.assertEqual(len(rows), 250)
            self.assertEqual(
                {tuple(each[1]) for each in rows}, {("SLO", "State", "Budget left", "Burn 1h")}
            )
            self.assertLess(max(each[0] for each in rows), 48)
            self.assertEqual(self.browser.run(LAID_OUT), [])
            self.browser.keep(self.pictures / f"phone-{scheme}.png", whole=False)

    def test_2000_objectives_are_drawn_in_time_and_filtered_at_once(self) -> None:
        self.told = many(self.told, 50, 40)
        self.write()
        walls, threads, answers, works = [], [], [], []
        for _ in range(TRIES):
            self.told["second"] = int(time.time())
            self.write()
            self.browser.open(self.front)
            self.browser.settled()
            self.browser.wait("window.drawnAt < Infinity")
            wall, thread = self.browser.drawing()
            walls.append(wall)
            threads.append(thread)
            self.assertEqual(self.browser.run(f"{ROWS}.length"), 2000)
            answer, work = self.filter_seconds()
            answers.append(answer)
            works.append(work)
        told = f"2000 objectives drawn in {min(walls):.2f} s, {min(threads):.2f} s of work"
        told += f", filtered in {min(answers):.3f} s, {min(works):.3f} s of work"
        told += f"; load {os.getloadavg()[0]:.0f}\n"
        (self.pictures / "many.txt").write_text(told)
        print(told, end="")
        is_busy = os.getloadavg()[0] > (os.cpu_count() or 1)
        self.assertLess(min(threads if is_busy else walls), DRAWN_WITHIN, told)
        self.assertLess(min(works if is_busy else answers), FILTERED_WITHIN, told)

    def filter_seconds(self) -> tuple[float, float]:
        """How long it takes until the rows of one office stand alone, and until all stand there
        again, the longer one; and how long the page's thread works for it."""
        found, works = [], []
        for words, told in (("office-07", "40 of 2000"), ("", "2000 of 2000")):
            before = self.browser.work()
            found.append(
                self.browser.run(
                    "const f = document.getElementById('filter'), t = performance.now();"
                    "f.value = arguments[0]; f.dispatchEvent(new Event('input'));"
                    "document.body.offsetHeight; return performance.now() - t",
                    words,
                )
            )
            works.append(self.browser.work() - before)
            after = self.browser.run("return document.querySelector('output').textContent")
            self.assertEqual(after, told)
        return float(max(found)) / 1000, max(works)


if __name__ == "__main__":
    unittest.main()
