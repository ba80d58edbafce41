"""Servers of the tests: started as children on loopback ports, in folders of their own."""

from __future__ import annotations

import os
import shutil
import signal
import socket
import struct
import subprocess
import sys
import tempfile
import time
import unittest
import urllib.request
from collections.abc import Callable, Iterator, Mapping
from contextlib import contextmanager
from dataclasses import dataclass, field
from pathlib import Path
from typing import Any, Optional

TOOLS = Path(__file__).resolve().parent.parent
TOP = TOOLS.parent
sys.path.insert(0, str(TOOLS))

from slo_tools.office import Office, Pauses  # noqa: E402


def built_program() -> Optional[str]:
    """The office's program: $SLO_OFFICE_PROGRAM, the checkout's, or the installed one."""
    built = TOP / "out" / "slo_office"
    named = os.environ.get("SLO_OFFICE_PROGRAM") or (str(built) if built.exists() else None)
    return os.path.abspath(named) if named else shutil.which("slo_office")


def program() -> str:
    """The office's program, or the test is skipped by name."""
    found = built_program()
    if found is None:
        raise unittest.SkipTest("no slo_office: set SLO_OFFICE_PROGRAM")
    return found


def installed(name: str) -> Optional[str]:
    """A server's path; Debian keeps some where only root looks for them."""
    return shutil.which(name, path=os.environ.get("PATH", "") + ":/usr/sbin:/sbin")


def needed(name: str) -> str:
    """The path of a server that a test needs, or the test is skipped by name."""
    found = installed(name)
    if found is None:
        raise unittest.SkipTest(f"{name} isn't installed")
    return found


def free_port() -> int:
    with socket.socket() as door:
        door.bind(("127.0.0.1", 0))
        port: int = door.getsockname()[1]
        return port


def until(what: Callable[[], bool], seconds: float, why: str) -> None:
    """Wait until something holds. Raises TimeoutError."""
    end = time.monotonic() + seconds
    while not what():
        if time.monotonic() > end:
            raise TimeoutError(why)
        time.sleep(0.05)


def accepts(port: int) -> bool:
    """Whether something listens at a port."""
    with socket.socket() as door:
        door.settimeout(1)
        return door.connect_ex(("127.0.0.1", port)) == 0


def answers(url: str) -> bool:
    try:
        with urllib.request.urlopen(url, timeout=2) as answer:
            return bool(answer.status == 200)
    except OSError:
        return False


@dataclass
class Child:
    """A server that is ended with the test."""

    process: Optional[subprocess.Popen[bytes]] = field(default=None, init=False)

    def _start(
        self,
        words: list[str],
        folder: Path,
        output: Path,
        environment: Optional[Mapping[str, str]] = None,
    ) -> None:
        with output.open("ab") as file:
            self.process = subprocess.Popen(
                words,
                cwd=folder,
                stdout=file,
                stderr=file,
                stdin=subprocess.DEVNULL,
                env=environment,
            )

    def is_up(self) -> bool:
        return self.process is not None and self.process.poll() is None

    def kill(self) -> None:
        """End it as a crash does."""
        self._signal(signal.SIGKILL)

    def stop(self) -> None:
        self._signal(signal.SIGTERM)

    def _signal(self, number: int) -> None:
        if self.process is not None:
            self.process.send_signal(number)
            self.process.wait(30)
            self.process = None


@dataclass
class OfficeServer(Child):
    """`slo_office serve` over a folder of its own, at this machine's clock or at another one, as
    `faketime` takes it or the environment has it."""

    folder: Path
    origin: Optional[int] = None
    port: int = field(default_factory=free_port)
    clock: str = ""
    environment: Optional[Mapping[str, str]] = None

    def __post_init__(self) -> None:
        self.words = [*([needed("faketime"), "-f", self.clock] if self.clock else []), program()]
        self.folder.mkdir(parents=True, exist_ok=True)
        if not (self.folder / "office.journal").exists():
            origin = [] if self.origin is None else [str(self.origin)]
            subprocess.run(
                [*self.words, "init", *origin],
                cwd=self.folder,
                check=True,
                stdout=subprocess.DEVNULL,
                env=self.environment,
            )

    @property
    def address(self) -> str:
        return f"http://127.0.0.1:{self.port}"

    def start(self) -> OfficeServer:
        words = [*self.words, "serve", str(self.port)]
        self._start(words, self.folder, self.folder / "log", self.environment)
        until(lambda: answers(f"{self.address}/notices"), 60, "the office doesn't answer")
        return self

    def client(self, tries: int = 2) -> Office:
        return Office(self.address, pauses=Pauses(tries=tries, first=0.1))

    def rows(self) -> dict[tuple[str, str, int], str]:
        """What the office holds, read off the journal: amount by SLI, source and minute."""
        return current_rows(self.folder / "office.journal")


@contextmanager
def running_office(origin: int, clock: str = "") -> Iterator[OfficeServer]:
    """An office that is gone with the block."""
    with tempfile.TemporaryDirectory(prefix="slo-tools-") as folder:
        office = OfficeServer(Path(folder), origin, clock=clock).start()
        try:
            yield office
        finally:
            office.kill()


def current_rows(journal: Path) -> dict[tuple[str, str, int], str]:
    """The rows that count in a journal, by a reader of its own: each batch was kept as it was
    sent, and of each cell the greatest revision counts (docs/journal.md, docs/rules.md)."""
    best: dict[tuple[str, str, int], tuple[int, str]] = {}
    for sli, source, minute, revision, amount in journal_rows(journal):
        cell = (sli, source, minute)
        if cell not in best or best[cell][0] < revision:
            best[cell] = (revision, amount)
    return {cell: amount for cell, (_, amount) in best.items()}


def differences(held: Mapping[Any, str], expected: Mapping[Any, str]) -> list[str]:
    """The first cells that aren't as they have to be."""
    cells = sorted(c for c in {*held, *expected} if held.get(c) != expected.get(c))
    return [f"{c}: {held.get(c)} held, {expected.get(c)} expected" for c in cells[:10]]


def journal_rows(journal: Path) -> list[tuple[str, str, int, int, str]]:
    """All rows of a journal's batches, in the order in which they were accepted."""
    content = journal.read_bytes()
    rows: list[tuple[str, str, int, int, str]] = []
    place = 13
    while content[place] != 0:
        length = int.from_bytes(content[place + 1 : place + 5], "big")
        record = content[place + 5 : place + 5 + length]
        if record[4] == 4:
            rows.extend(_batch_rows(record[5:]))
        place += 5 + length
    return rows


def _batch_rows(fields: bytes) -> Iterator[tuple[str, str, int, int, str]]:
    place = 2
    while place < len(fields):
        names = []
        for _ in range(2):
            length = fields[place]
            names.append(fields[place + 1 : place + 1 + length].decode("ascii"))
            place += 1 + length
        minute, revision = struct.unpack_from(">II", fields, place)
        if fields[place + 8] == 0:
            amount = "{},{}".format(*struct.unpack_from(">II", fields, place + 9))
        else:
            billionths = struct.unpack_from(">Q", fields, place + 9)[0]
            amount = f"{billionths / 10**9:.9f}".rstrip("0").rstrip(".")
        place += 17
        yield names[0], names[1], minute, revision, amount


def run_tool(name: str, *words: str, **more: str) -> subprocess.CompletedProcess[str]:
    """Runs a tool of the checkout to its end."""
    return subprocess.run(
        ["/usr/bin/python3", str(TOOLS / "bin" / name), *words],
        capture_output=True,
        text=True,
        check=False,
        timeout=120,
        env={**os.environ, "SLO_OFFICE_PROGRAM": program(), **more},
    )


def message(method: str, path: str, body: bytes = b"") -> bytes:
    """A request as `pipe` reads it."""
    head = f"{method} {path} HTTP/1.1\r\nContent-Length: {len(body)}\r\n\r\n"
    return head.encode("ascii") + body


def pipe(folder: Path, *messages: bytes) -> bytes:
    """The answers of one session over the journal of a folder."""
    run = subprocess.run(
        [program(), "pipe"], cwd=folder, input=b"".join(messages), capture_output=True, check=True
    )
    return run.stdout


# A service, and an indicator of counted events.
SHOP = """
apiVersion: openslo/v1
kind: Service
metadata:
  name: shop
spec: {}
---
apiVersion: openslo/v1
kind: SLI
metadata:
  name: good
spec:
  ratioMetric:
    total:
      metricSource: {}
    good:
      metricSource: {}
"""
