"""What an export takes beside an opening, and the renewal of a journal from end to end.

    ./bench renewal [--cells N] [--runs N]

An office of 2,000,000 cells of ten sources: one ratio indicator, an SLO over 30 days with one objective and one binding.
Processor time, time of the clock and the greatest memory (Linux tells them of a run that has ended), the least of three
runs: of an opening (`pipe` without requests), of a part of 1,000 batches, whose aim is the opening and 0.5 s, and its
memory and 3 MB; of all parts through `pipe` into a fresh journal, the whole of it beside the ingest that made the office;
and of `examples/serve/renew`, with all rows, and with those of the last 50,000 minutes. The journals lie in a temporary
folder: with `TMPDIR=/dev/shm` a sync is free. Prints a line a figure, with the load beside it.
"""
from __future__ import annotations

import argparse
import os
import subprocess
import sys
import tempfile
import time
from collections.abc import Iterator
from dataclasses import dataclass
from pathlib import Path
from typing import IO

import objects
from office import TOP, define, message, minute_now

SOURCES = 10
KEPT_MINUTES = 50_000
RENEW = TOP / "examples" / "serve" / "renew"


@dataclass(frozen=True)
class Cost:
    """Seconds of the processor and of the clock, and megabytes."""

    spent: float
    clock: float
    memory: float

    def __str__(self) -> str:
        return f"{self.spent:.2f} s of the processor, {self.clock:.2f} s of the clock, {self.memory:.1f} MB"


def cost(words: list[str | Path], folder: Path, data: IO[bytes] | None = None, output: IO[bytes] | None = None) -> Cost:
    """What a run takes, with those that it starts itself."""
    begun = time.monotonic()
    child = subprocess.Popen(words, cwd=folder, stdin=data or subprocess.DEVNULL, stdout=output or subprocess.DEVNULL)
    _, status, used = os.wait4(child.pid, 0)
    child.returncode = os.waitstatus_to_exitcode(status)
    assert child.returncode == 0, (words, child.returncode)
    return Cost(used.ru_utime + used.ru_stime, time.monotonic() - begun, used.ru_maxrss / 1000)


def least(costs: list[Cost]) -> Cost:
    return Cost(min(it.spent for it in costs), min(it.clock for it in costs), min(it.memory for it in costs))


def total(costs: list[Cost]) -> Cost:
    return Cost(sum(it.spent for it in costs), sum(it.clock for it in costs), max(it.memory for it in costs))


def tell(what: str, found: object) -> None:
    print(f"{what}: {found} [load {os.getloadavg()[0]:.1f}]", flush=True)


def sessions(origin: int, cells: int) -> Iterator[bytes]:
    """The objects and the rows, source after source and minute after minute, in sessions of 500 batches."""
    yield define(objects.service("shop"), objects.ratio("busy"), objects.slo("o0", "busy", "  - target: 0.99\n", ["workbook-page"]))
    for first in range(0, cells, 500_000):
        batches = (b"".join(b"busy,s%d,%d,1,%d,1000\n" % (n % SOURCES, origin + n // SOURCES, 1000 - n % 7) for n in range(at, min(at + 1000, cells)))
                   for at in range(first, min(first + 500_000, cells), 1000))
        yield b"".join(message("POST", "/samples", it) for it in batches)


def sent(program: str, folder: Path, texts: Iterator[bytes]) -> Cost:
    """What these sessions take, one behind another."""
    found = []
    for text in texts:
        path = folder / "requests"
        path.write_bytes(text)
        with open(path, "rb") as data, open(folder / "answers", "wb") as output:
            found.append(cost([program, "pipe"], folder, data, output))
        assert (folder / "answers").read_bytes().count(b"HTTP/1.1 200") == text.count(b" HTTP/1.1\r\n"), "a change that was refused"
    for name in ("requests", "answers"):
        (folder / name).unlink()
    return total(found)


def made(program: str, folder: Path, origin: int) -> Path:
    folder.mkdir()
    subprocess.run([program, "init", str(origin)], cwd=folder, check=True, stdout=subprocess.DEVNULL)
    return folder


def parts(program: str, folder: Path) -> Iterator[bytes]:
    for number in range(1, 1 << 16):
        text = subprocess.run([program, "export", str(number)], cwd=folder, check=True, stdout=subprocess.PIPE).stdout
        if not text:
            return
        yield text


def exports(program: str, old: Path, room: Path, origin: int, runs: int) -> None:
    opening = least([cost([program, "pipe"], old) for _ in range(runs)])
    tell("an opening", opening)
    part = least([cost([program, "export", "2"], old) for _ in range(runs)])
    tell("a part of 1,000 batches", part)
    tell("beside the opening", f"{part.spent - opening.spent:+.2f} s of the processor (aim 0.5), {part.memory - opening.memory:+.1f} MB (aim 3)")
    tell("a part behind the last", least([cost([program, "export", "100000"], old) for _ in range(runs)]))
    tell("all parts into a fresh journal", sent(program, made(program, room / "copy", origin), parts(program, old)))


def renewals(program: str, old: Path, origin: int, now: int) -> None:
    """The office is renewed as it is, and then cut."""
    for what, cut in (("a renewal with all rows", origin), (f"a renewal with the rows of {KEPT_MINUTES:,} minutes", now - KEPT_MINUTES)):
        before = (old / "office.journal").stat().st_size
        words: list[str | Path] = [RENEW, old, str(cut), "--program", program]
        found = cost(words, old, output=sys.stdout.buffer)
        tell(what, f"{found}; the journal had {before:,} bytes, and has {(old / 'office.journal').stat().st_size:,}")


def main(program: str, words: list[str]) -> None:
    given = argparse.ArgumentParser(prog="./bench renewal")
    given.add_argument("--cells", type=int, default=2_000_000)
    given.add_argument("--runs", type=int, default=3)
    asked = given.parse_args(words)
    now = minute_now()
    origin = now - asked.cells // SOURCES - 10
    with tempfile.TemporaryDirectory(prefix="renewal-") as room:
        old = made(program, Path(room) / "old", origin)
        tell(f"{asked.cells:,} rows in batches of a thousand", sent(program, old, sessions(origin, asked.cells)))
        exports(program, old, Path(room), origin, asked.runs)
        renewals(program, old, origin, now)
