"""What the tests of slo-notify stand on: clocks that a test moves, a webhook, rounds over an office."""

from __future__ import annotations

import http.server
import json
import os
import tempfile
import threading
import time
import unittest
import urllib.request
from collections.abc import Sequence
from contextlib import redirect_stderr
from dataclasses import dataclass, field
from io import StringIO
from pathlib import Path
from typing import Any

from support import SHOP, Child, OfficeServer, answers, free_port, needed, until

from slo_tools.notify.clock_trust import ClockTrust
from slo_tools.notify.config import read_config
from slo_tools.notify.metrics import Metrics
from slo_tools.notify.receiver import Receiver, receiver_of
from slo_tools.notify.rounds import Rounds
from slo_tools.notify.state import read_state

MINUTE = 60
LIBRARY = "/usr/lib/x86_64-linux-gnu/faketime/libfaketime.so.1"
# Tests that hold the clock begin so far back that they never pass the true time.
BACK = 6 * 3600

DOCUMENTS = (
    SHOP
    + """---
apiVersion: openslo/v1
kind: SLO
metadata:
  name: answers
spec:
  service: shop
  indicatorRef: good
  timeWindow:
  - duration: 30d
    isRolling: true
  budgetingMethod: Occurrences
  objectives:
  - displayName: Answers
    target: 0.99
  alertPolicies:
  - workbook-page
"""
)


class MovedClock:
    """The true time, and an offset."""

    def __init__(self, offset: int = 0) -> None:
        self.offset = offset

    def now(self) -> float:
        return time.time() + self.offset

    def sleep(self, seconds: float) -> None:
        raise AssertionError("nothing sleeps here")


class HeldClock:
    """A clock that stands still until a test moves it. An office under the library `faketime`
    reads it from a file."""

    def __init__(self, file: Path) -> None:
        self.file = file
        # Some seconds into a minute, some hours ago.
        self.seconds = (int(time.time()) - BACK) // MINUTE * MINUTE + 20
        self.show(self.seconds)

    def now(self) -> float:
        return self.seconds

    def sleep(self, seconds: float) -> None:
        raise AssertionError("nothing sleeps here")

    def minute(self) -> int:
        return self.seconds // MINUTE

    def go_on(self, minutes: int = 1) -> None:
        self.seconds += minutes * MINUTE
        self.show(self.seconds)

    def show(self, seconds: int) -> None:
        """What the office reads."""
        beside = self.file.with_suffix(".new")
        beside.write_text(time.strftime("%Y-%m-%d %H:%M:%S\n", time.gmtime(seconds)))
        beside.replace(self.file)


def timed_office(folder: Path, clock: HeldClock, minutes: int = 5000) -> OfficeServer:
    """An office whose clock is held, and whose history begins before it."""
    if not os.path.exists(LIBRARY):
        raise unittest.SkipTest("libfaketime isn't installed")
    environment = {
        **os.environ,
        "LD_PRELOAD": LIBRARY,
        "FAKETIME_TIMESTAMP_FILE": str(clock.file),
        "FAKETIME_NO_CACHE": "1",
        "FAKETIME_DONT_FAKE_MONOTONIC": "1",
        "TZ": "UTC",
    }
    return OfficeServer(folder, clock.minute() - minutes, environment=environment)


class Hook:
    """A webhook that keeps what it was told, and refuses where a test says so."""

    def __init__(self) -> None:
        self.alerts: list[dict[str, Any]] = []
        self.status = 200
        hook = self

        class Handler(http.server.BaseHTTPRequestHandler):
            def do_HEAD(self) -> None:
                self.answer(200)

            def do_POST(self) -> None:
                told = json.loads(self.rfile.read(int(self.headers["Content-Length"])))
                if hook.status == 200:
                    hook.alerts += told["alerts"]
                self.answer(hook.status)

            def answer(self, status: int) -> None:
                self.send_response(status)
                self.send_header("Content-Length", "0")
                self.end_headers()

            def log_message(self, *words: object) -> None:
                pass

        self.server = http.server.ThreadingHTTPServer(("127.0.0.1", 0), Handler)
        threading.Thread(target=self.server.serve_forever, daemon=True).start()

    @property
    def address(self) -> str:
        return f"http://127.0.0.1:{self.server.server_port}/hook"

    def told(self) -> list[tuple[str, str]]:
        """Names and statuses, in the order in which they came."""
        return [
            (each["labels"].get("policy", each["labels"]["alertname"]), each["status"])
            for each in self.alerts
        ]

    def close(self) -> None:
        self.server.shutdown()
        self.server.server_close()


@dataclass
class Manager(Child):
    """An Alertmanager of one's own."""

    folder: Path
    port: int = field(default_factory=free_port)

    def __post_init__(self) -> None:
        self.program = needed("prometheus-alertmanager")
        text = "route: {receiver: none}\nreceivers: [{name: none}]\n"
        (self.folder / "am.yml").write_text(text)

    @property
    def address(self) -> str:
        return f"http://127.0.0.1:{self.port}"

    def start(self) -> None:
        words = [
            self.program,
            f"--config.file={self.folder}/am.yml",
            f"--storage.path={self.folder}/am",
            f"--web.listen-address=127.0.0.1:{self.port}",
            "--cluster.listen-address=",
        ]
        self._start(words, self.folder, self.folder / "am.log")
        until(lambda: answers(f"{self.address}/-/ready"), 30, "the Alertmanager isn't ready")

    def alerts(self) -> dict[str, dict[str, Any]]:
        """The alerts that are active, by their policies or names."""
        with urllib.request.urlopen(f"{self.address}/api/v2/alerts", timeout=5) as answer:
            told = json.load(answer)
        return {each["labels"].get("policy", each["labels"]["alertname"]): each for each in told}


class Desk(unittest.TestCase):
    """What the tests over servers share."""

    def setUp(self) -> None:
        self.folder = Path(self.enterContext(tempfile.TemporaryDirectory(prefix="slo-tools-")))
        self.said = StringIO()
        self.enterContext(redirect_stderr(self.said))

    def rounds(
        self, clock: Any, office: str, receiver: str, more: str = "", rule: str = "trusted"
    ) -> Rounds:
        config = self.folder / "notify.toml"
        config.write_text(
            f'state = "{self.folder}/state.json"\noverview = "{self.folder}/overview.json"\n'
            f'clock = "{rule}"\nlink = "http://desk/#/{{office}}/{{slo}}"\ntimeout = 5\n{more}\n'
            f'[[office]]\nname = "shop"\naddress = "{office}"\n{receiver}\n'
        )
        read = read_config(config)
        made: Receiver = receiver_of(read.receiver, read.timeout, read.lifetime)
        trust = ClockTrust(read.clock, now=clock.now)
        return Rounds(read, clock, trust, made, read_state(read.state), Metrics())

    def overview(self) -> dict[str, Any]:
        told: dict[str, Any] = json.loads((self.folder / "overview.json").read_text())
        return told

    def timed(self) -> tuple[HeldClock, OfficeServer, Hook]:
        """A clock that a test moves, an office under it, and a webhook."""
        clock = HeldClock(self.folder / "clock")
        place = self.folder / "office"
        place.mkdir()
        office = timed_office(place, clock)
        office.start()
        self.addCleanup(office.kill)
        office.client().define(DOCUMENTS.encode())
        hook = Hook()
        self.addCleanup(hook.close)
        return clock, office, hook

    def feed(
        self, office: OfficeServer, minutes: Sequence[int], good: int, revision: int = 1
    ) -> None:
        lines = [f"good,web,{minute},{revision},{good},1000\n" for minute in minutes]
        office.client().ask("POST", ["samples"], body="".join(lines).encode())

    def hooked(self, clock: HeldClock, office: OfficeServer, hook: Hook, more: str = "") -> Rounds:
        return self.rounds(clock, office.address, f'[webhook]\naddress = "{hook.address}"', more)

    def burning(self) -> tuple[HeldClock, OfficeServer, Hook, Rounds]:
        """The same after an hour and a half that went well and six rounds in which all failed."""
        clock, office, hook = self.timed()
        now = clock.minute()
        self.feed(office, range(now - 90, now), 1000)
        rounds = self.hooked(clock, office, hook)
        for _ in range(6):
            clock.go_on()
            self.feed(office, [clock.minute() - 1], 0)
            rounds.round()
        return clock, office, hook, rounds
