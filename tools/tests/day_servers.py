"""The servers of a day: offices that are fed and watched, engines with traffic, a pager that keeps account."""

from __future__ import annotations

import http.server
import json
import os
import subprocess
import threading
import time
from collections.abc import Callable, Mapping
from contextlib import suppress
from dataclasses import dataclass, field
from datetime import datetime, timedelta
from pathlib import Path
from typing import Any, Optional

from engines import ClickHouseServer, Exporter, PrometheusServer
from notify_support import LIBRARY
from support import TOOLS, Child, OfficeServer, answers, current_rows, free_port, needed, until

from slo_tools.office import Office
from slo_tools.refusals import OfficeError

# Events of a service in a second, and those of a burst: a burst is a fifth of an hour's events.
RATE = 10
BURST = 13 * 60 * RATE
EPOCH = datetime(1970, 1, 1)
TABLE = """
CREATE TABLE events (at DateTime, came DateTime DEFAULT now(), host String, service String,
  status UInt16, seconds Float64)
ENGINE = MergeTree PARTITION BY toDate(at) ORDER BY (service, at)
"""


@dataclass(frozen=True)
class Told:
    """What the pager was told: an alert of an office, that it fires or is resolved, and when."""

    alert: str
    status: str
    moment: float
    text: str


class Pager:
    """The webhook behind Alertmanager, which gets each alert by itself."""

    def __init__(self) -> None:
        self.told: list[Told] = []
        pager = self

        class Handler(http.server.BaseHTTPRequestHandler):
            def do_POST(self) -> None:
                told = json.loads(self.rfile.read(int(self.headers["Content-Length"])))
                pager.told += [told_of(alert, time.time()) for alert in told["alerts"]]
                self.send_response(200)
                self.send_header("Content-Length", "0")
                self.end_headers()

            def log_message(self, *words: object) -> None:
                pass

        self.server = http.server.ThreadingHTTPServer(("127.0.0.1", 0), Handler)
        threading.Thread(target=self.server.serve_forever, daemon=True).start()

    @property
    def address(self) -> str:
        return f"http://127.0.0.1:{self.server.server_port}/"

    def close(self) -> None:
        self.server.shutdown()
        self.server.server_close()


def told_of(alert: Mapping[str, Any], moment: float) -> Told:
    """An alert by its names: of a burn the SLO and the policy, else its own."""
    labels = alert["labels"]
    names = [labels["slo"], labels["policy"]] if "policy" in labels else [labels["alertname"]]
    name = " ".join([labels.get("office", ""), *names]).strip()
    return Told(name, alert["status"], moment, alert["annotations"].get("summary", ""))


MANAGER_FILE = """
route:
  receiver: pager
  group_by: ['...']
  group_wait: 0s
  group_interval: 1s
  repeat_interval: 4h
receivers:
  - name: pager
    webhook_configs:
      - url: {address}
        send_resolved: true
"""


@dataclass
class PagingManager(Child):
    """An Alertmanager that passes each alert on at once."""

    folder: Path
    pager: str
    port: int = field(default_factory=free_port)

    @property
    def address(self) -> str:
        return f"http://127.0.0.1:{self.port}"

    def start(self) -> None:
        server = needed("prometheus-alertmanager")
        self.folder.mkdir(parents=True, exist_ok=True)
        file = self.folder / "alertmanager.yml"
        file.write_text(MANAGER_FILE.format(address=self.pager))
        words = [
            server,
            f"--config.file={file}",
            f"--storage.path={self.folder}/data",
            f"--web.listen-address=127.0.0.1:{self.port}",
            "--cluster.listen-address=",
        ]
        self._start(words, self.folder, self.folder / "log")
        until(lambda: answers(f"{self.address}/-/ready"), 30, "the Alertmanager isn't ready")


@dataclass
class Tool(Child):
    """A tool of the checkout that runs until it is ended."""

    name: str
    folder: Path
    words: tuple[str, ...]

    def start(self) -> None:
        program = str(TOOLS / "bin" / self.name)
        self._start(["/usr/bin/python3", program, *self.words], self.folder, self.log)

    @property
    def log(self) -> Path:
        return self.folder / f"{self.name}.log"


def moved_clock(file: Path, seconds: int) -> dict[str, str]:
    """The environment of a program whose clock is ahead by what a file says."""
    show_clock(file, seconds)
    return {
        **os.environ,
        "LD_PRELOAD": LIBRARY,
        "FAKETIME_TIMESTAMP_FILE": str(file),
        "FAKETIME_NO_CACHE": "1",
        "FAKETIME_DONT_FAKE_MONOTONIC": "1",
    }


def show_clock(file: Path, seconds: int) -> None:
    beside = file.with_suffix(".new")
    beside.write_text(f"+{seconds}\n")
    beside.replace(file)


@dataclass
class FedOffice:
    """An office with the feed that fills it."""

    name: str
    server: OfficeServer
    feed: Tool

    def stop(self) -> None:
        self.feed.kill()
        self.server.kill()


class Watching(threading.Thread):
    """Looks at journals, and notes when a row of an indicator's minute was first there."""

    def __init__(self, journals: Mapping[str, Path]) -> None:
        super().__init__(daemon=True)
        self.journals = journals
        self.seen: dict[tuple[str, str, int], float] = {}
        self.over = threading.Event()

    def run(self) -> None:
        sizes: dict[str, int] = {}
        while not self.over.wait(0.2):
            for office, journal in self.journals.items():
                size = journal.stat().st_size
                # A record may be half written.
                with suppress(IndexError, UnicodeDecodeError):
                    if sizes.get(office) != size:
                        self.look(office, journal)
                        sizes[office] = size

    def look(self, office: str, journal: Path) -> None:
        now = time.time()
        for indicator, _, minute in current_rows(journal):
            self.seen.setdefault((office, indicator, minute), now)


class Traffic(threading.Thread):
    """Events of the web at its exporter, and of the bank in ClickHouse, each second."""

    def __init__(self, exporter: Exporter, bank: Optional[ClickHouseServer]) -> None:
        super().__init__(daemon=True)
        self.exporter, self.bank = exporter, bank
        self.over = threading.Event()
        self.seconds = 0
        self.faults: list[str] = []

    def run(self) -> None:
        """What a second misses the next one has: a loaded machine may hold an insertion up."""
        begun = time.monotonic()
        while not self.over.wait(1):
            missed = int(time.monotonic() - begun) - self.seconds
            self.seconds += missed
            self.exporter.count('requests_total{code="200"}', RATE * missed)
            self.exporter.count('requests_total{code="500"}', 0)
            try:
                self.pay(RATE * missed, 200)
            except Exception as fault:
                self.faults.append(f"{time.time():.0f}: {fault!r}")

    def burst(self) -> None:
        self.exporter.count('requests_total{code="500"}', BURST)

    def pay(self, events: int, status: int) -> None:
        if self.bank is not None:
            now = EPOCH + timedelta(seconds=int(time.time()))
            rows = [(now, "bank", "payments", status, 0.1)] * events
            self.bank.run("INSERT INTO events (at, host, service, status, seconds) VALUES", rows)


@dataclass
class SmallDisk:
    """A file system of a few megabytes, which can be filled."""

    folder: Path

    def mount(self) -> None:
        self.folder.mkdir()
        words = ["mount", "-t", "tmpfs", "-o", "size=4m", "tmpfs", str(self.folder)]
        subprocess.run(words, check=True)

    def fill(self, office: Office) -> None:
        """Nothing is left for an office, not even in the block in which its journal ends."""
        with suppress(OSError), (self.folder / "filler").open("wb", buffering=0) as filler:
            while filler.write(bytes(65536)):
                pass
        for _ in range(1000):
            try:
                office.tick()
            except OfficeError:
                return
        raise AssertionError("a full disk has room")

    def free(self) -> None:
        (self.folder / "filler").unlink()

    def unmount(self) -> None:
        subprocess.run(["umount", "--lazy", str(self.folder)], check=True)


@dataclass
class PageServer(Child):
    """nginx with the page, and the questions of each office."""

    folder: Path
    offices: Mapping[str, str]
    port: int = field(default_factory=free_port)

    def start(self) -> None:
        server = needed("nginx")
        (self.folder / "page").mkdir(parents=True)
        self.folder.chmod(0o755)
        text = (TOOLS.parent / "examples" / "desk" / "nginx.conf").read_text()
        begin = text.index("        location /office/")
        end = text.index("    }\n}", begin)
        places = "".join(PLACE.format(name=name, url=url) for name, url in self.offices.items())
        text = text[:begin] + places + text[end:]
        text = text.replace("8081", str(self.port))
        text = text.replace("/usr/share/slo-office-tools/page/", f"{TOOLS}/page/")
        # Root runs the day, and its page may lie where nobody else may look.
        (self.folder / "nginx.conf").write_text("user root;\n" + text)
        self._start(
            [server, "-p", str(self.folder), "-c", "nginx.conf"], self.folder, self.folder / "log"
        )
        until(lambda: answers(f"{self.address}/page/"), 30, "nginx doesn't answer")

    @property
    def address(self) -> str:
        return f"http://127.0.0.1:{self.port}"


PLACE = """        location /office/{name}/ {{
            limit_except GET {{ deny all; }}
            proxy_http_version 1.0;
            proxy_set_header Connection close;
            proxy_pass {url}/;
        }}
"""


@dataclass(frozen=True)
class Act:
    """What happens at a second of the day."""

    second: int
    what: str
    deed: Callable[[], object]


def play(acts: list[Act], begin: float) -> dict[str, float]:
    """Does each thing at its second; when each was done."""
    done: dict[str, float] = {}
    for act in sorted(acts, key=lambda each: each.second):
        time.sleep(max(0.0, begin + act.second - time.time()))
        act.deed()
        done[act.what] = time.time()
    return done
