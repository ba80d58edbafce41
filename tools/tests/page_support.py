"""What the test of the page stands on: an office with 200 SLOs, the shipped nginx, Chromium."""

from __future__ import annotations

import base64
import http.server
import importlib.util
import json
import os
import shutil
import subprocess
import threading
import time
import unittest
import urllib.error
import urllib.request
from pathlib import Path
from typing import Any, Optional

from support import TOOLS, TOP, OfficeServer, accepts, free_port, needed, until

HOST = "office.example.org"
LIBRARY = Path("/usr/share/javascript/chart.js/chart.min.js")
ZONE = "Europe/Berlin"
DAY = 1440
SLOS = 200
OUTAGE = 8 * DAY
OUTAGE_LASTS = 90
EXCLUSION = (15 * DAY, 14 * DAY)
ROWS = 1000


def all_needed() -> None:
    """Everything that has to be installed, or the test is skipped by name."""
    for name in ("chromium", "chromedriver", "nginx", "openssl"):
        needed(name)
    if not LIBRARY.exists():
        raise unittest.SkipTest("libjs-chart.js isn't installed")
    if importlib.util.find_spec("selenium") is None:
        raise unittest.SkipTest("python3-selenium isn't installed")


def documents() -> str:
    """200 SLOs: a shop with an outage, its calendar month, and others that do well or badly."""
    parts = [service("shop", "Shop front", GUIDANCE), service("search", "Search"), TRIAL]
    parts += [indicator(_sli(number)) for number in range(SLOS - 1)]
    shop = slo_text("checkout", "Checkout answers", "shop", _sli(0), "0.999", ROLLING)
    shop += "  alertPolicies:\n  - workbook-page\n  - workbook-ticket\n"
    month = slo_text("checkout-month", "Checkout, by the month", "shop", _sli(0), "0.995", MONTH)
    parts += [shop, month]
    for number in range(2, SLOS):
        name = f"search-{number:03}"
        text = slo_text(name, f"Search part {number}", "search", _sli(number - 1), "0.99", ROLLING)
        policy = POLICIES.get(number, "workbook-page")
        parts.append(text + (f"  alertPolicies:\n  - {policy}\n" if policy else ""))
    return "---\n".join(parts)


# Of those that burn one has a ticket, one a policy on trial, one none.
POLICIES = {44: "workbook-ticket", 84: "trial", 124: ""}
RUNBOOK = "https://wiki.example.org/shop"
OWNER = "shop-team"
GUIDANCE = f"  labels:\n    team: {OWNER}\n  annotations:\n    runbook: {RUNBOOK}\n"
TRIAL = """apiVersion: openslo/v1
kind: AlertCondition
metadata:
  name: fast
spec:
  severity: page
  condition:
    kind: burnrate
    op: gt
    threshold: 2.5
    lookbackWindow: 1h
    alertAfter: 0m
---
apiVersion: openslo/v1
kind: AlertPolicy
metadata:
  name: trial
spec:
  alertWhenBreaching: false
  conditions:
  - conditionRef: fast
"""
ROLLING = "  - duration: 30d\n    isRolling: true\n"
MONTH = (
    "  - duration: 1M\n    calendar:\n      startTime: 2020-01-01 00:00:00\n"
    f"      timeZone: {ZONE}\n"
)


def _sli(number: int) -> str:
    return f"good-{number:03}"


def service(name: str, display: str, guidance: str = "") -> str:
    head = f"apiVersion: openslo/v1\nkind: Service\nmetadata:\n  name: {name}\n"
    return head + f"  displayName: {display}\n{guidance}spec: {{}}\n"


def indicator(name: str) -> str:
    return (
        f"apiVersion: openslo/v1\nkind: SLI\nmetadata:\n  name: {name}\nspec:\n  ratioMetric:\n"
        "    total:\n      metricSource: {}\n    good:\n      metricSource: {}\n"
    )


def slo_text(name: str, display: str, service: str, sli: str, target: str, window: str) -> str:
    return (
        f"apiVersion: openslo/v1\nkind: SLO\nmetadata:\n  name: {name}\n"
        f"  displayName: {display}\nspec:\n  service: {service}\n  indicatorRef: {sli}\n"
        f"  timeWindow:\n{window}  budgetingMethod: Occurrences\n  objectives:\n"
        f"  - displayName: Availability\n    target: {target}\n"
    )


def rows(now: int) -> list[str]:
    """The rows of all indicators up to a minute."""
    found = []
    recent = set(range(1, 180))
    outage = range(OUTAGE - OUTAGE_LASTS, OUTAGE)
    for ago in sorted(recent | set(outage) | set(range(10, 45 * DAY, 10))):
        total = 900 + ago % 400
        failed = total // 33 if ago in outage else 1 if ago % 3 == 0 else 0
        found.append(f"{_sli(0)},web,{now - ago},1,{total - failed},{total}\n")
    for number in range(1, SLOS - 1):
        # One of twenty is old, one of twenty has none, one of forty burns.
        if number % 20 == 7:
            continue
        newest = 45 if number % 20 == 13 else 1
        bad = 400 if number % 40 == 3 else number % 9
        for ago in range(newest, 90, 3):
            found.append(f"{_sli(number)},web,{now - ago},1,{1000 - bad},1000\n")
    return found


def fill(office: OfficeServer, now: int) -> None:
    client = office.client()
    client.ask("PUT", ["zones", *ZONE.split("/")], body=zone_file())
    client.define(documents().encode())
    lines = rows(now)
    for begin in range(0, len(lines), ROWS):
        client.ask("POST", ["samples"], body="".join(lines[begin : begin + ROWS]).encode())
    begin, end = (now - each for each in EXCLUSION)
    body = json.dumps({"from": begin, "slo": "checkout", "to": end}, sort_keys=True)
    client.ask("PUT", ["exclusions", "data-centre-move"], body=body.encode())
    client.ask("POST", ["tick"])


def young_office(folder: Path, minutes: int, rows: int) -> OfficeServer:
    """An office whose history has begun some minutes ago, with rows of its newest minutes."""
    now = int(time.time()) // 60
    office = OfficeServer(folder, now - minutes)
    office.start()
    client = office.client()
    client.ask("PUT", ["zones", *ZONE.split("/")], body=zone_file())
    client.define(few_documents().encode())
    if rows:
        lines = [f"{_sli(0)},web,{now - ago},1,{ago % 2 * 9},9\n" for ago in range(1, rows + 1)]
        client.ask("POST", ["samples"], body="".join(lines).encode())
    return office


def few_documents() -> str:
    """An SLO of each kind: over a rolling window, over the calendar's month, in slices."""
    policies = "  alertPolicies:\n  - workbook-page\n  - workbook-ticket\n"
    rolling = slo_text("rolling", "Rolling", "shop", _sli(0), "0.999", ROLLING) + policies
    month = slo_text("monthly", "By the month", "shop", _sli(0), "0.99", MONTH) + policies
    slices = slo_text("slices", "In slices", "shop", _sli(0), "0.99", MONTH) + policies
    slices = slices.replace("Occurrences", "Timeslices").replace(
        "    target: 0.99\n",
        "    target: 0.99\n    timeSliceTarget: 0.9\n    timeSliceWindow: 1h\n",
    )
    return "---\n".join([service("shop", "Shop"), indicator(_sli(0)), rolling, month, slices])


def zone_file() -> bytes:
    return (Path("/usr/share/zoneinfo") / ZONE).read_bytes()


def write_overview(folder: Path, port: int, receiver: str = "") -> Path:
    """Has slo-notify make a round over an office; gives the file that it wrote."""
    overview = folder / "overview.json"
    config = folder / "notify.toml"
    config.write_text(
        f'state = "{folder}/state.json"\noverview = "{overview}"\nclock = "trusted"\n'
        f'[[office]]\nname = "shop"\naddress = "http://127.0.0.1:{port}"\npath = "/office/"\n{receiver}'
    )
    words = ["/usr/bin/python3", str(TOOLS / "bin" / "slo-notify"), "--once", str(config)]
    run = subprocess.run(words, capture_output=True, text=True, check=False, timeout=600)
    assert run.returncode == 0, run.stderr
    return overview


class LaterOffice:
    """An office of a later version: it answers also for status, sums, windows and exclusions, by
    what the present one tells, and hands everything else on."""

    def __init__(self, office: OfficeServer, origin: int, exclusion: dict[str, Any]) -> None:
        self.office = office
        self.origin = origin
        self.exclusion = exclusion
        later = self

        class Handler(http.server.BaseHTTPRequestHandler):
            def do_GET(self) -> None:
                status, body, kind = later.answer(self.path)
                self.send_response(status)
                self.send_header("Content-Type", kind)
                self.send_header("Content-Length", str(len(body)))
                self.end_headers()
                self.wfile.write(body)

            def do_POST(self) -> None:
                self.do_GET()

            def log_message(self, *words: object) -> None:
                pass

        self.server = http.server.ThreadingHTTPServer(("127.0.0.1", 0), Handler)
        self.port = self.server.server_port
        threading.Thread(target=self.server.serve_forever, daemon=True).start()

    def answer(self, path: str) -> tuple[int, bytes, str]:
        route, _, query = path.partition("?")
        keys = dict(part.split("=") for part in query.split("&") if part)
        parts = route.strip("/").split("/")
        made: Optional[dict[str, Any]] = None
        if parts == ["status"]:
            made = {"at": self.now(), "cells": [9000, 2000000], "origin": self.origin}
        elif parts == ["exclusions"]:
            made = {"exclusions": [self.exclusion]}
        elif parts[0] == "sums":
            made = {"sums": self.sums(parts[1], parts[2], keys)}
        elif parts[0] == "windows":
            made = {"windows": self.windows(parts[1])}
        if made is not None:
            return 200, json.dumps({"entries": 1, **made}).encode(), "application/json"
        try:
            with urllib.request.urlopen(self.office.address + path, timeout=10) as answer:
                return 200, answer.read(), answer.headers["Content-Type"]
        except urllib.error.HTTPError as refusal:
            return refusal.code, refusal.read(), "application/json"

    def told(self, path: str) -> dict[str, Any]:
        return dict(json.loads(self.answer(path)[1]))

    def now(self) -> int:
        return int(self.told("/budgets/checkout")["at"])

    def sums(self, slo: str, objective: str, keys: dict[str, str]) -> list[list[int]]:
        begin, end, step = (int(keys[key]) for key in ("from", "to", "step"))
        found = []
        for at in range(begin, end, step):
            until = min(at + step, end)
            told = self.told(f"/burns/{slo}/{objective}?lookback={until - at}m&at={until}")
            found.append([told["num"], told["den"]])
        return found

    def windows(self, slo: str) -> list[dict[str, Any]]:
        present = self.told(f"/budgets/{slo}")["budgets"]
        begin = present[0]["from"]
        before = self.told(f"/budgets/{slo}?at={begin - 1}")["budgets"]
        return [
            {"budgets": before, "from": before[0]["from"], "to": begin},
            {"budgets": present, "from": begin, "to": None},
        ]

    def close(self) -> None:
        self.server.shutdown()
        self.server.server_close()


class Front:
    """nginx with the shipped text, at a port of its own and with files of a folder."""

    def __init__(self, folder: Path, office: int) -> None:
        self.folder = folder
        self.port = free_port()
        self.overview = folder / "overview.json"
        for each in (folder, *folder.parents[:1]):
            each.chmod(0o755)
        self._make_secrets()
        (folder / "nginx.conf").write_text(self._text(office))
        self.run = subprocess.Popen(
            [needed("nginx"), "-c", folder / "nginx.conf", "-g", "daemon off;"],
            stderr=subprocess.DEVNULL,
        )
        until(lambda: accepts(self.port), 10, "nginx doesn't listen")

    @property
    def address(self) -> str:
        return f"https://{HOST}:{self.port}"

    def _make_secrets(self) -> None:
        words = ["req", "-x509", "-newkey", "rsa:2048", "-nodes", "-days", "2"]
        words += ["-subj", f"/CN={HOST}"]
        files = ["-keyout", f"{self.folder}/office.key", "-out", f"{self.folder}/office.crt"]
        subprocess.run(["openssl", *words, *files], check=True, capture_output=True)
        made = subprocess.run(
            ["openssl", "passwd", "-apr1", "secret"], check=True, capture_output=True, text=True
        )
        (self.folder / "office.passwords").write_text(f"team:{made.stdout}")

    def _text(self, office: int) -> str:
        text = (TOP / "examples" / "serve" / "nginx.conf").read_text(encoding="utf-8")
        for old, new in (
            ("listen 443 ssl", f"listen 127.0.0.1:{self.port} ssl"),
            (f"https://{HOST}", f"https://{HOST}:{self.port}"),
            ("/etc/nginx/", f"{self.folder}/"),
            ("127.0.0.1:8080", f"127.0.0.1:{office}"),
            ("/usr/share/slo-office-tools/page/", f"{self._served()}/"),
            ("/run/slo-notify/overview.json", str(self.overview)),
        ):
            assert old in text, old
            text = text.replace(old, new)
        parts = ("client_body", "proxy", "fastcgi", "uwsgi", "scgi")
        paths = "".join(f"{one}_temp_path {self.folder}/{one};\n" for one in parts)
        # As Debian's own nginx.conf has it.
        types = "include /etc/nginx/mime.types;\ndefault_type application/octet-stream;\n"
        head = f"pid {self.folder}/pid;\nerror_log {self.folder}/errors;\nevents {{}}\n"
        return f"{head}http {{\naccess_log {self.folder}/log;\n{types}{paths}{text}\n}}\n"

    def _served(self) -> Path:
        """The page's files, where nginx's workers may read them."""
        served = self.folder / "page"
        shutil.copytree(TOOLS / "page", served)
        return served

    def stop(self) -> None:
        self.run.terminate()
        self.run.wait(timeout=20)


WATCH = """
new MutationObserver(() => {
  if (window.drawnAt || document.querySelectorAll('.overview tbody tr').length < %d) return;
  requestAnimationFrame(() => requestAnimationFrame(() => { window.drawnAt = performance.now(); }));
  window.drawnAt = Infinity;
}).observe(document, {childList: true, subtree: true});
"""

# Each chart is as wide as its place, and something stands in it.
CHARTS_ARE_DRAWN = """[...document.querySelectorAll('canvas')].every(c =>
  Math.abs(c.clientWidth - c.parentElement.clientWidth) < 2 &&
  c.getContext('2d').getImageData(0, 0, c.width, c.height).data.some(v => v))"""


class Browser:
    """A headless Chromium that knows the password."""

    def __init__(self, folder: Path) -> None:
        from selenium import webdriver
        from selenium.webdriver.chrome.service import Service

        options: Any = webdriver.ChromeOptions()
        options.binary_location = needed("chromium")
        for word in (
            "--headless=new",
            "--no-sandbox",
            "--disable-gpu",
            "--disable-dev-shm-usage",
            "--window-size=1280,900",
            f"--user-data-dir={folder}/profile",
            f"--host-resolver-rules=MAP {HOST} 127.0.0.1",
        ):
            options.add_argument(word)
        options.set_capability("acceptInsecureCerts", True)
        options.set_capability("goog:loggingPrefs", {"browser": "ALL", "performance": "ALL"})
        service = Service(executable_path=needed("chromedriver"))
        self.driver: Any = webdriver.Chrome(service=service, options=options)
        self.driver.set_page_load_timeout(60)
        self.driver.set_script_timeout(30)
        self.cdp("Page.addScriptToEvaluateOnNewDocument", source=WATCH % SLOS)
        self.cdp("Performance.enable")

    def cdp(self, method: str, **values: Any) -> Any:
        return self.driver.execute_cdp_cmd(method, values)

    def run(self, script: str, *words: Any) -> Any:
        return self.driver.execute_script(script, *words)

    def wait(self, script: str, seconds: float = 30) -> None:
        until(lambda: bool(self.run(f"return Boolean({script})")), seconds, script)

    def log_in(self, front: Front) -> None:
        """The password once in the address, which the browser then keeps for this host."""
        self.driver.get(front.address.replace("https://", "https://team:secret@") + "/notices")
        self.logs()

    def open(self, front: Front, place: str = "") -> None:
        self.driver.get("about:blank")
        self.logs()
        self.driver.get(f"{front.address}/page/{place}")

    def drawing(self) -> tuple[float, float]:
        """Seconds from the page's first byte until it was drawn, and those that its thread worked
        since it began: at least those of the drawing."""
        begin, end = self.run(
            "return [performance.getEntriesByType('navigation')[0].responseStart, window.drawnAt]"
        )
        return (end - begin) / 1000, self.work()

    def work(self) -> float:
        """The seconds that the page's thread worked since it began."""
        metrics = self.cdp("Performance.getMetrics")["metrics"]
        found: float = next(each["value"] for each in metrics if each["name"] == "ThreadTime")
        return found

    def status(self) -> tuple[str, str]:
        text, mood = self.run(
            "const s = document.getElementById('status'); return [s.textContent, s.dataset.mood]"
        )
        return text, mood

    def settled(self) -> str:
        """Waits until nothing is loading; gives what the page says then."""
        self.wait("document.getElementById('status')?.dataset.mood")
        self.wait("document.getElementById('status').dataset.mood !== 'busy'")
        return self.status()[0]

    def logs(self) -> tuple[list[str], list[str]]:
        """Console lines, and requests that failed, since the last call."""
        console = [f"{each['level']} {each['message']}" for each in self.driver.get_log("browser")]
        failed = []
        for each in self.driver.get_log("performance"):
            told = json.loads(each["message"])["message"]
            if told["method"] == "Network.loadingFailed" and not told["params"].get("canceled"):
                failed.append(told["params"]["errorText"])
            if told["method"] == "Network.responseReceived":
                answer = told["params"]["response"]
                if answer["status"] >= 400:
                    failed.append(f"{answer['status']} {answer['url']}")
        return console, failed

    def hosts(self) -> set[str]:
        """Where the page's files came from."""
        script = "return performance.getEntriesByType('resource').map(e => new URL(e.name).host)"
        return set(self.run(script))

    def size(self, width: int, height: int) -> None:
        self.cdp(
            "Emulation.setDeviceMetricsOverride",
            width=width,
            height=height,
            deviceScaleFactor=1,
            mobile=False,
        )

    def media(self, media: str = "", scheme: str = "light") -> None:
        features = [{"name": "prefers-color-scheme", "value": scheme}]
        self.cdp("Emulation.setEmulatedMedia", media=media, features=features)

    def keep(self, path: Path, whole: bool = True) -> None:
        """Keeps a picture of the page, in a window that is as high, or of what its window shows."""
        if whole:
            height = self.cdp("Page.getLayoutMetrics")["cssContentSize"]["height"]
            self.size(self.run("return window.innerWidth"), height)
        time.sleep(0.5)
        self.wait(CHARTS_ARE_DRAWN)
        told = self.cdp("Page.captureScreenshot", format="png")
        path.write_bytes(base64.b64decode(told["data"]))

    def key(self, name: str, **more: Any) -> None:
        """A key of the keyboard, down and up."""
        code = {"Tab": 9, "Enter": 13, "Escape": 27, "ArrowRight": 39, "ArrowDown": 40}[name]
        text = {"text": "\r"} if name == "Enter" else {}
        values = {"key": name, "code": name, "windowsVirtualKeyCode": code, **more}
        self.cdp("Input.dispatchKeyEvent", type="keyDown", **values, **text)
        self.cdp("Input.dispatchKeyEvent", type="keyUp", **values)

    def close(self) -> None:
        self.driver.quit()


def pictures() -> Path:
    """Where the pictures are kept: $SLO_PAGE_PICTURES, or `out/page` of this folder."""
    folder = Path(os.environ.get("SLO_PAGE_PICTURES") or Path(__file__).parent / "out" / "page")
    folder.mkdir(parents=True, exist_ok=True)
    return folder
