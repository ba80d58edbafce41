"""The page in Chromium: behind nginx by the shipped text, over a running office with 200 SLOs."""

from __future__ import annotations

import json
import os
import tempfile
import time
import unittest
from collections.abc import Iterator
from contextlib import contextmanager
from pathlib import Path
from typing import Any

from page_support import (
    DAY,
    EXCLUSION,
    SLOS,
    Browser,
    Front,
    LaterOffice,
    all_needed,
    fill,
    pictures,
    write_overview,
    young_office,
)
from support import OfficeServer

WIDTHS = (390, 700, 1400, 2500)
DRAWN_WITHIN = 1.0
TRIES = 5

# What the tabulator has to reach: all that somebody with a mouse can use.
REACHABLE = """
return [...document.querySelectorAll('a[href], button, input, select, summary, [tabindex="0"]')]
  .filter(e => e.checkVisibility()).map((e, i) => { e.dataset.place = i; return `${i}`; });
"""
FROM_THE_TOP = """
document.body.tabIndex = -1;
document.body.focus();
document.body.removeAttribute('tabindex');
"""
EXACT = "const e = document.getElementById('exact'); return e.hidden ? '' : e.textContent"
ACTIVE = "return document.activeElement.dataset.place"

# Texts that lie over another or leave their box: leaves of the page, by their rectangles.
LAID_OUT = """
// What isn't in sight is laid out only when it comes there.
const pieces = document.querySelectorAll('.piece');
for (const piece of pieces) piece.style.contentVisibility = 'visible';
const leaves = [...document.querySelectorAll('body *')].filter(e =>
  e.checkVisibility() && !e.closest('#exact, .skip, thead, canvas, .bar') &&
  e.getClientRects().length &&
  [...e.childNodes].some(n => n.nodeType === 3 && n.data.trim()));
const boxes = leaves.map(e => {
  // Of a text that is cut on purpose, by an ellipsis, its box is what one sees.
  if (getComputedStyle(e).textOverflow === 'ellipsis') return {e, r: [e.getBoundingClientRect()]};
  const range = document.createRange();
  range.selectNodeContents(e);
  return {e, r: [...range.getClientRects()].filter(r => r.width > 0)};
});
const found = [];
const width = document.documentElement.clientWidth;
if (document.documentElement.scrollWidth > width) found.push('the page is wider than its window');
boxes.forEach(({e, r}, i) => {
  if (e.tagName !== 'PRE' && r.some(b => b.right > width + 1 || b.left < -1)) {
    found.push(`cut: ${e.textContent}`);
  }
  for (const other of boxes.slice(i + 1, i + 40)) {
    if (e.contains(other.e) || other.e.contains(e)) continue;
    const over = r.some(a => other.r.some(b =>
      a.left < b.right - 2 && b.left < a.right - 2 &&
      a.top < b.bottom - 3 && b.top < a.bottom - 3));
    if (over) found.push(`over one another: ${e.textContent} | ${other.e.textContent}`);
  }
});
for (const piece of pieces) piece.style.contentVisibility = '';
return found.slice(0, 5);
"""

# Cases of the page's arithmetic: an expression over the modules, and its value.
MODULES = ("budget", "fractions", "minutes", "month", "panels", "routes", "series", "terms")
EXPRESSIONS: list[tuple[str, Any]] = [
    ("fractions.spell(fractions.readFraction('-499/1'))", "-499/1"),
    ("fractions.spell(fractions.fraction(6, 4))", "3/2"),
    ("fractions.spell(fractions.readTarget('0.999'))", "999/1000"),
    ("fractions.spell(fractions.readTarget('99.95%'))", "1999/2000"),
    ("fractions.spell(fractions.readTarget('0'))", "0/1"),
    ("fractions.percent(fractions.readFraction('9999/10000'))", "99.9 %"),
    ("fractions.percent(fractions.readFraction('99999/100000'), 3)", "99.999 %"),
    ("fractions.percent(fractions.readFraction('1/1'))", "100 %"),
    ("fractions.percent(fractions.readFraction('-1/3'))", "−33.4 %"),
    ("fractions.percent(fractions.readFraction('-1/100000'))", "−0.1 %"),
    ("fractions.rounded(fractions.readFraction('123456789/1'), 0)", "123,456,789"),
    ("fractions.rounded(fractions.readFraction('1999/1000'), 2)", "2.00"),
    ("fractions.burnText(fractions.readFraction('72/5'))", "14.4"),
    ("fractions.burnText(fractions.readFraction('1/1000'))", "< 0.01"),
    ("fractions.burnText(fractions.readFraction('0/1'))", "0"),
    ("fractions.toNumber(fractions.readFraction('90071992547409930/9007199254740993'))", 10),
    ("fractions.spell(budget.burnOf({num: 9990, den: 10000}, '0.999'))", "1/1"),
    ("budget.burnOf({num: 0, den: 0}, '0.999')", None),
    (
        "budget.lastsText(budget.minutesLeft({remaining: fractions.fraction(1, 2),"
        " burn: fractions.fraction(2, 1), isRolling: true, elapsed: 43200}))",
        "7.5 d",
    ),
    (
        "budget.lastsText(budget.minutesLeft({remaining: fractions.fraction(1, 2),"
        " burn: fractions.fraction(2, 1), isRolling: false, elapsed: 14400}))",
        "5 d",
    ),
    (
        "budget.lastsText(budget.minutesLeft({remaining: fractions.fraction(1, 2),"
        " burn: fractions.fraction(1, 1), isRolling: false, elapsed: 14400}))",
        "doesn't end",
    ),
    (
        "[119, 120, 2879, 2880, 14400].map(m => budget.lastsText(fractions.fraction(m, 1)))",
        ["119 min", "2 h", "47 h", "2 d", "10 d"],
    ),
    ("fractions.leftText(fractions.readFraction('-1/2'))", "−50 %"),
    ("fractions.leftText(fractions.readFraction('-499/1'))", "spent 500×"),
    ("fractions.leftText(fractions.readFraction('-2001/1000'))", "spent 3.1×"),
    # Half of a thousandth of 1,000 may fail: 2 that did took it four times.
    (
        "fractions.spell(month.tookOf({num: 98, den: 100}, {num: 998, den: 1000}, '0.9995'))",
        "4/1",
    ),
    # 2026-10-25 02:30 stands twice in Berlin, the first time in summer time.
    ("minutes.zoneOf('Europe/Berlin').read('2026-10-25T02:30')", 29881470),
    ("minutes.zoneOf('Europe/Berlin').spelled(29932700)", "2026-11-29T15:20"),
    ("minutes.zoneOf('Europe/Berlin').read('2026-13-01T00:00')", None),
    ("terms.thresholdOf('14.4').num.toString()", "72"),
    ("minutes.zoneOf('Europe/Berlin').full(29932700)", "29 Nov 2026, 15:20 CET"),
    ("minutes.zoneOf('Nowhere/At/All').isKnown", False),
    # 2026-03-29 has 23 hours in Berlin, 2026-10-25 has 25.
    (
        "(z => z.startOf({year: 2026, month: 3, day: 30}) - z.startOf({year: 2026, month: 3,"
        " day: 29}))(minutes.zoneOf('Europe/Berlin'))",
        1380,
    ),
    (
        "(z => z.startOf({year: 2026, month: 10, day: 26}) - z.startOf({year: 2026, month: 10,"
        " day: 25}))(minutes.zoneOf('Europe/Berlin'))",
        1500,
    ),
    # Midnight was passed over in Sao Paulo on 2018-11-04: the day began at 03:00 UTC.
    ("minutes.zoneOf('America/Sao_Paulo').startOf({year: 2018, month: 11, day: 4})", 25688340),
    ("month.daysOf({year: 2026, month: 2}, minutes.zoneOf('UTC'), 40000000).length", 28),
    ("month.daysOf({year: 2028, month: 2}, minutes.zoneOf('UTC'), 40000000).length", 29),
    ("series.edgesOf(0, 43200).edges.length", 61),
    ("series.edgesOf(100, 105).edges", [100, 101, 102, 103, 104, 105]),
    ("series.edgesOf(100, 250, 60).edges", [100, 120, 180, 240, 250]),
    ("[1, 4, 12, 20].map(slice => series.edgesOf(0, 90, slice).step)", [1, 60, 60, 60]),
    ("[-50000, 9999, 0.5, 1500000].map(panels.tick)", ["−50K", "9,999", "0.5", "1.5M"]),
    ("routes.readRoute('').view", "overview"),
    ("routes.readRoute('#/?state=page&words=a%20b').filter.words", "a b"),
    ("routes.overviewPlace({state: 'page', words: ''})", "#/?state=page"),
    ("routes.sloPlace('shop', 'a', 1, {range: '6h'})", "#/shop/a/1?range=6h"),
    ("routes.readRoute('#/shop/a/1?range=6h').span.range", "6h"),
    ("routes.readRoute('#/shop/a%2Fb').slo", "a/b"),
    ("routes.readRoute('#/shop/answers/1/month/2026-02').month", {"month": 2, "year": 2026}),
    ("routes.readRoute('#/shop/answers/x').view", "unknown"),
    ("routes.readRoute('#/%').view", "unknown"),
]


class Page(unittest.TestCase):
    """Cases that look at the page; what they share is made once."""

    folder: Path
    now: int
    office: OfficeServer
    overview: str
    front: Front
    browser: Browser
    pictures: Path

    @classmethod
    def setUpClass(cls) -> None:
        all_needed()
        place = cls.enterClassContext(tempfile.TemporaryDirectory(prefix="slo-page-"))
        cls.folder = Path(place)
        for name in ("office", "front", "later", "browser"):
            (cls.folder / name).mkdir()
        cls.now = int(time.time()) // 60
        cls.office = OfficeServer(cls.folder / "office", cls.now - 70 * DAY)
        cls.office.start()
        cls.addClassCleanup(cls.office.kill)
        fill(cls.office, cls.now)
        cls.overview = write_overview(cls.folder / "front", cls.office.port).read_text()
        cls.front = Front(cls.folder / "front", cls.office.port)
        cls.addClassCleanup(cls.front.stop)
        cls.browser = Browser(cls.folder / "browser")
        cls.addClassCleanup(cls.browser.close)
        cls.browser.log_in(cls.front)
        cls.pictures = pictures()
        print(f"pictures of the page: {cls.pictures}")

    def setUp(self) -> None:
        # The file is as fresh as at first, however long the cases before took.
        self.write({**json.loads(self.overview), "second": int(time.time())})
        self.browser.media()
        self.browser.size(1280, 900)

    def write(self, told: dict[str, Any]) -> None:
        self.front.overview.write_text(json.dumps(told))

    def see(self, place: str, says: str) -> None:
        """Opens a place, and waits until it is drawn."""
        self.browser.open(self.front, place)
        self.assertRegex(self.browser.settled(), says)

    def is_well(self) -> None:
        """Nothing failed, nothing came from elsewhere, nothing lies over another."""
        self.assertEqual(self.browser.logs(), ([], []))
        self.assertEqual(self.browser.hosts(), {self.front.address.removeprefix("https://")})
        self.assertEqual(self.browser.run(LAID_OUT), [])

    @contextmanager
    def later_front(self) -> Iterator[Front]:
        """nginx in front of an office that answers also for status, sums, windows, exclusions."""
        begin, end = (self.now - each for each in EXCLUSION)
        exclusion = {"from": begin, "id": "data-centre-move", "live": True, "to": end}
        exclusion["slo"] = "checkout"
        later = LaterOffice(self.office, self.now - 70 * DAY, exclusion)
        folder = self.folder / "later"
        told: dict[str, Any] = {**json.loads(self.overview), "second": int(time.time())}
        told["offices"][0]["usage"] = {"cells": [9000, 2000000]}
        (folder / "overview.json").write_text(json.dumps(told))
        front = Front(folder, later.port)
        try:
            self.browser.log_in(front)
            yield front
        finally:
            front.stop()
            later.close()

    @contextmanager
    def young_front(self, name: str, minutes: int, rows: int) -> Iterator[Front]:
        """nginx in front of an office of its own that is some minutes old."""
        folder = self.folder / name
        (folder / "office").mkdir(parents=True)
        office = young_office(folder / "office", minutes, rows)
        try:
            write_overview(folder, office.port)
            front = Front(folder, office.port)
            try:
                self.browser.log_in(front)
                yield front
            finally:
                front.stop()
        finally:
            office.kill()

    def test_a_young_office_is_asked_for_nothing_before_its_history(self) -> None:
        places = [("", "As of"), ("#/notices", "All offices answered")]
        for name in ("rolling", "monthly", "slices"):
            places += [(f"#/shop/{name}", "as of"), (f"#/shop/{name}/0/month", "counted up to")]
            places += [(f"#/shop/{name}/0/month/2026-01", "counted up to")]
        for minutes, rows in ((0, 0), (1, 1), (9, 0), (9, 5), (200, 150), (2 * DAY, 900)):
            with self.young_front(f"young-{minutes}-{rows}", minutes, rows) as front:
                for place, says in places:
                    with self.subTest(minutes=minutes, rows=rows, place=place):
                        self.browser.open(front, place)
                        self.assertRegex(self.browser.settled(), says)
                        self.assertEqual(self.browser.logs(), ([], []))
                        self.assertEqual(self.browser.run(LAID_OUT), [])
                self.browser.open(front, "#/shop/rolling")
                self.browser.settled()
                self.browser.keep(self.pictures / f"slo-young-{minutes}.png")
                self.add_up(json.loads(front.overview.read_text()), "rolling")

    def test_overview_of_200_is_drawn_within_a_second_of_the_first_byte(self) -> None:
        walls, threads = [], []
        for _ in range(TRIES):
            self.see("", "As of")
            self.browser.wait("window.drawnAt < Infinity")
            wall, thread = self.browser.drawing()
            walls.append(wall)
            threads.append(thread)
        told = f"{SLOS} SLOs drawn {min(walls):.2f} s after the first byte"
        told += f", {min(threads):.2f} s of work"
        (self.pictures / "times.txt").write_text(f"{told}; load {os.getloadavg()[0]:.0f}\n")
        # On a machine that others keep busy the page's own work is what can be judged.
        is_busy = os.getloadavg()[0] > (os.cpu_count() or 1)
        self.assertLess(min(threads if is_busy else walls), DRAWN_WITHIN, told)
        self.is_well()

    def test_overview_has_the_worst_first(self) -> None:
        self.see("", "As of")
        states = self.browser.run(
            "return [...document.querySelectorAll('.overview .state')]"
            ".map(e => (e.querySelector('.long') ?? e).textContent)"
        )
        self.assertEqual(len(states), SLOS)
        order = ["Page", "Ticket", "Budget spent", "Data is old", "No data", "Quiet"]
        order.insert(-1, "No alerts defined")
        self.assertEqual(states, sorted(states, key=order.index))
        self.assertLessEqual(
            {"Page", "Ticket", "Budget spent", "Data is old", "Quiet"}, set(states)
        )
        self.browser.keep(self.pictures / "overview.png", whole=False)

    def test_each_width_shows_everything(self) -> None:
        for place, says in (
            ("", "As of"),
            ("#/shop/checkout", "Checkout answers, as of"),
            ("#/shop/checkout/0/month", "counted up to"),
            ("#/notices", "All offices answered"),
        ):
            for width in WIDTHS:
                with self.subTest(place=place, width=width):
                    self.browser.size(width, 900)
                    self.see(place, says)
                    self.is_well()
                    if width in (390, 2500):
                        name = place.strip("#/").replace("/", "-") or "overview"
                        self.browser.keep(self.pictures / f"{name}-{width}.png", whole=bool(place))

    def test_an_slo_shows_outage_and_what_it_leaves_out(self) -> None:
        self.see("#/shop/checkout", "Checkout answers, as of")
        text = self.browser.run("return document.querySelector('main').innerText")
        self.assertIn("data-centre-move: ", text)
        self.assertIn("workbook-page", text)
        self.assertEqual(self.browser.run("return document.querySelectorAll('canvas').length"), 4)
        self.is_well()
        self.browser.keep(self.pictures / "slo.png")

    def test_a_calendar_slo_has_its_zone(self) -> None:
        self.see("#/shop/checkout-month", "by the month, as of .* CET|CEST")
        self.is_well()

    def test_the_charts_numbers_add_up(self) -> None:
        self.see("#/shop/checkout", "as of")
        self.add_up(json.loads(self.overview), "checkout")
        self.assertEqual(self.browser.run(LAID_OUT), [])

    def add_up(self, overview: dict[str, Any], name: str) -> None:
        """The numbers of the charts' steps are those of the overview together."""
        self.browser.run("for (const d of document.querySelectorAll('details')) d.open = true")
        rows = self.browser.run(
            "return [...document.querySelectorAll('details tbody tr')]"
            ".map(r => [...r.querySelectorAll('td')].map(c => c.textContent.replaceAll(',', '')))"
        )
        asked = [row for row in rows if row[0] != "not asked"]
        told = overview["offices"][0]["slos"]
        wanted = next(slo for slo in told if slo["name"] == name)["objectives"][0]
        self.assertEqual(sum(int(row[0]) for row in asked), wanted["num"])
        self.assertEqual(sum(int(row[1]) for row in asked), wanted["den"])

    def test_a_later_office_shows_exclusions_and_windows(self) -> None:
        with self.later_front() as front:
            self.browser.open(front, "#/shop/checkout")
            self.browser.settled()
            text = self.browser.run("return document.querySelector('main').innerText")
            self.assertRegex(text, r"data-centre-move: .* to .*, shaded in the charts")
            self.assertNotIn("doesn't list", text)
            self.assertEqual(self.browser.run(LAID_OUT), [])
            self.browser.keep(self.pictures / "slo-outage-exclusion.png")
            self.browser.media(scheme="dark")
            self.browser.settled()
            self.browser.keep(self.pictures / "slo-dark.png")
            self.browser.media()
            self.browser.open(front, "#/shop/checkout-month")
            self.browser.settled()
            self.assertIn("present one first", self.browser.run("return document.body.innerText"))
            self.browser.open(front, "#/")
            self.browser.settled()
            text = self.browser.run("return document.body.innerText")
            self.assertNotIn("9,000", text)
            self.assertEqual(self.browser.logs(), ([], []))

    def test_dark(self) -> None:
        self.browser.media(scheme="dark")
        self.see("", "As of")
        self.browser.keep(self.pictures / "overview-dark.png", whole=False)
        self.is_well()

    def test_a_month_is_printed(self) -> None:
        self.see("#/shop/checkout/0/month", "counted up to")
        self.is_well()
        self.browser.keep(self.pictures / "month.png")
        self.browser.size(794, 1123)
        self.browser.media("print")
        self.assertEqual(self.browser.run(LAID_OUT), [])
        self.browser.keep(self.pictures / "month-print.png")

    def test_keys_alone_reach_everything(self) -> None:
        for place, says in (
            ("#/shop/checkout", "as of"),
            ("#/shop/checkout/0/month", "counted up to"),
            ("#/notices", "offices answered"),
            ("#/", "As of"),
        ):
            with self.subTest(place=place):
                self.see(place, says)
                wanted = self.browser.run(REACHABLE)
                self.browser.run(FROM_THE_TOP)
                reached = []
                for _ in wanted:
                    self.browser.key("Tab")
                    reached.append(self.browser.run(ACTIVE))
                    self.assertTrue(
                        self.browser.run("return document.activeElement.matches(':focus-visible')")
                    )
                self.assertEqual(reached, wanted)

    def test_keys_open_go_back_and_show_fractions(self) -> None:
        self.see("", "As of")
        self.browser.run("document.querySelector('.overview a').focus()")
        address = self.browser.run("return document.activeElement.getAttribute('href')")
        self.browser.key("ArrowRight")
        self.assertRegex(self.browser.run(EXACT), r"^budget left: -?\d+/\d+$")
        self.browser.key("ArrowRight")
        self.assertRegex(self.browser.run(EXACT), r"^burn of the last 7 days")
        self.browser.key("ArrowRight")
        self.assertRegex(self.browser.run(EXACT), r"^burn over 5m: \d+/\d+$")
        self.browser.key("ArrowDown")
        self.assertRegex(self.browser.run(EXACT), r"^burn over 5m: \d+/\d+$")
        self.browser.run("document.querySelector('.overview a').focus()")
        self.browser.key("Enter")
        self.browser.wait("document.querySelector('.facts')")
        self.assertRegex(self.browser.settled(), "as of")
        self.assertEqual(self.browser.run("return document.activeElement.tagName"), "H1")
        self.browser.key("Escape")
        self.browser.wait("document.querySelector('.overview')")
        back = self.browser.run("return document.activeElement.getAttribute('href')")
        self.assertEqual(back, address)
        self.is_well()

    def test_the_skip_link_leads_to_the_content(self) -> None:
        self.see("", "As of")
        self.browser.key("Tab")
        self.assertEqual(self.browser.run("return document.activeElement.id"), "skip")
        self.browser.key("Enter")
        self.assertEqual(self.browser.run("return document.activeElement.id"), "main")

    def test_the_root_leads_to_the_page_with_its_place(self) -> None:
        self.browser.driver.get("about:blank")
        self.browser.driver.get(f"{self.front.address}/#/shop/checkout")
        self.assertRegex(self.browser.settled(), "Checkout answers, as of")
        self.assertIn("/page/#/shop/checkout", self.browser.driver.current_url)

    def test_an_old_file_a_missing_one_and_an_office_away_are_told(self) -> None:
        told = json.loads(self.overview)
        now = int(time.time())
        self.write({**told, "second": now - 600, "written": now // 60 - 10})
        self.see("", r"^Old: the overview was written at .*, 10 min ago$")
        self.assertEqual(self.browser.status()[1], "bad")
        told["offices"][0].update({"up": False, "fault": "no answer"})
        told["notify"]["clock"] = "this machine's clock isn't synchronised, by the kernel's word"
        self.write({**told, "second": int(time.time())})
        self.see("", "As of")
        text = self.browser.run("return document.querySelector('main').innerText")
        self.assertIn("shop doesn't answer (no answer): its numbers are those of", text)
        self.assertIn("Nothing is judged or sent", text)
        self.front.overview.unlink()
        self.see("", "The overview can't be read: the web server answers 404")
        self.see("#/shop/nope", "can't be read")
        self.write({**told, "second": int(time.time())})
        self.see("#/shop/nope", "Failed: the overview has no shop/nope/0")

    def test_several_offices_and_an_slo_without_a_window(self) -> None:
        told = json.loads(self.overview)
        first = told["offices"][0]
        waiting = json.loads(json.dumps(first["slos"][0]))
        waiting.update({"name": "next-year", "display": "Next year", "fault": "no_window"})
        waiting["objectives"][0].update(
            dict.fromkeys(("from", "num", "den", "error", "burn", "remaining", "age"))
        )
        waiting["objectives"][0].update({"alerts": [], "burns": {}, "state": "no_data"})
        second = {**first, "name": "second", "slos": [waiting]}
        self.write({**told, "offices": [first, second], "second": int(time.time())})
        self.see("", "As of")
        rows = self.browser.run("return document.querySelectorAll('.overview tbody tr').length")
        self.assertEqual(rows, SLOS + 1)
        self.browser.run(
            "const f = document.getElementById('filter'); f.value = 'SECOND window';"
            "f.dispatchEvent(new Event('input'))"
        )
        shown = self.browser.run("return document.querySelector('main').innerText")
        self.assertRegex(shown, r"1 of 201[\s\S]*Next year[\s\S]*second[\s\S]*No window")
        self.is_well()
        self.see("#/second/next-year", "The office has no numbers for this SLO")
        self.is_well()

    def test_a_failing_office_is_told(self) -> None:
        self.office.kill()
        try:
            self.see("#/shop/checkout", "Failed: the office answers 502")
            self.see("#/notices", "1 of 1 offices didn't answer")
        finally:
            self.office.start()

    def test_headers_are_strict(self) -> None:
        told = self.browser.run(
            "const f = async (p) => Object.fromEntries((await fetch(`/page/${p}`)).headers);"
            "return Promise.all(['', 'main.js', 'chart.min.js', 'overview.json'].map(f))"
        )
        for each in told:
            self.assertEqual(each["x-content-type-options"], "nosniff")
        for each in told[:3]:
            self.assertIn("default-src 'none'; script-src 'self'", each["content-security-policy"])
            self.assertNotIn("unsafe", each["content-security-policy"])
        self.assertEqual(told[3]["cache-control"], "no-store")

    def test_the_page_cannot_change_an_office(self) -> None:
        self.see("", "As of")
        ask = "return fetch('/office/tick', {method: 'POST'}).then(a => a.status)"
        status = self.browser.run(ask)
        self.assertEqual(status, 403)

    def test_arithmetic(self) -> None:
        self.see("", "As of")
        names = ", ".join(MODULES)
        files = ", ".join(f"import('/page/{name}.js')" for name in MODULES)
        for expression, wanted in EXPRESSIONS:
            with self.subTest(expression=expression):
                script = f"return Promise.all([{files}]).then(([{names}]) => ({expression}))"
                self.assertEqual(self.browser.run(script), wanted)


if __name__ == "__main__":
    unittest.main()
