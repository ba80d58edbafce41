"""Seals of a journal: a line for each, with the SHA-256 of the file's front at a moment.

Nothing in a journal is ever changed, so the bytes up to its closed gate stay as they are while it
grows. A seal names how many entries these bytes hold, how many bytes they are, and their sum:

    2026-12-01T12:00Z entries 3 bytes 118 sha256 9f86d081884c7d65..

`head -c 118 office.journal | sha256sum` prints the same sum. The file of the seals lies beside the
journal, or better on another disk.
"""

from __future__ import annotations

import hashlib
import os
import re
import time
from collections.abc import Sequence
from dataclasses import dataclass
from pathlib import Path
from typing import Optional

from slo_tools.clock import date_of, minute_of
from slo_tools.journal.file import (
    FIRST_GATE,
    Broken,
    Journal,
    Record,
    beyond_tail,
    framed,
    header_faults,
    read_bytes,
)

_LINE = re.compile(
    r"(?P<date>[0-9TZ:-]+) entries (?P<entries>[0-9]{1,9}) bytes (?P<bytes>[0-9]{1,9})"
    r" sha256 (?P<sum>[0-9a-f]{64})"
)


# Some 600,000 seals.
_MOST_SEALS_BYTES = 67_108_864


class SealFault(Exception):
    """The journal isn't sealed; the text says why."""


@dataclass(frozen=True)
class Seal:
    """A line of the file of seals: so many entries are these bytes."""

    number: int
    date: str
    entries: int
    size: int
    sum: str

    @property
    def text(self) -> str:
        return f"{self.date} entries {self.entries} bytes {self.size} sha256 {self.sum}"


@dataclass(frozen=True)
class Seals:
    """The seals of a file, the numbers of lines that are none, and how many bytes a torn last
    line has, which a stop left."""

    seals: list[Seal]
    foreign: list[int]
    torn: int


def read_seals(content: bytes) -> Seals:
    """What stands in a file of seals."""
    *lines, rest = content.split(b"\n")
    seals, foreign = [], []
    for number, line in enumerate(lines, 1):
        found = _LINE.fullmatch(line.decode("ascii", "replace"))
        if found is None:
            foreign.append(number)
            continue
        entries, size = int(found["entries"]), int(found["bytes"])
        seals.append(Seal(number, found["date"], entries, size, found["sum"]))
    return Seals(seals, foreign, len(rest))


def _seals_of(path: Path) -> Seals:
    with path.open("rb") as file:
        content = file.read(_MOST_SEALS_BYTES)
    if len(content) == _MOST_SEALS_BYTES:
        raise OSError(f"{path}: too long for a file of seals")
    return read_seals(content)


@dataclass(frozen=True)
class Front:
    """The records of a journal up to its closed gate, by where their gates stand."""

    gates: list[int]
    tail: int


def front_of(data: bytes) -> Front:
    """The front of a journal. Raises SealFault where there is none."""
    for fault in header_faults(data):
        raise SealFault(fault)
    gates: list[int] = []
    place = FIRST_GATE
    try:
        while True:
            record = framed(data, place)
            if record is None:
                return Front(gates, place)
            gates.append(place)
            place += 5 + len(record)
    except Broken as end:
        raise SealFault(f"damaged at {end.damage.place}: {end.damage.why}") from end


@dataclass(frozen=True)
class Verdict:
    """Which seals hold, the first of those that don't with what lies before it, and the seals
    whose own lines are wrong."""

    holding: list[Seal]
    broken: Optional[Seal]
    wrong: list[Seal]

    @property
    def last(self) -> Optional[Seal]:
        return self.holding[-1] if self.holding else None


def verdict_of(data: bytes, seals: Sequence[Seal]) -> Verdict:
    """Hold a journal's bytes against seals. Where one holds, all bytes before it are as they were
    when it was made: a seal of fewer bytes that doesn't hold is wrong itself."""
    held = _holding(data, seals)
    most = max((seal.size for seal in held), default=0)
    numbers = {seal.number for seal in held}
    others = [seal for seal in seals if seal.number not in numbers]
    beyond = sorted((seal for seal in others if seal.size > most), key=lambda seal: seal.size)
    return Verdict(
        held,
        beyond[0] if beyond else None,
        [seal for seal in others if seal.size <= most],
    )


def _holding(data: bytes, seals: Sequence[Seal]) -> list[Seal]:
    """The seals whose bytes and entries are those of the journal, by their sizes. All are summed up
    in one pass."""
    held: list[Seal] = []
    gates = _gates(data)
    digest, place = hashlib.sha256(), 0
    for seal in sorted(seals, key=lambda it: it.size):
        if seal.size > len(data):
            break
        digest.update(memoryview(data)[place : seal.size])
        place = seal.size
        if digest.hexdigest() == seal.sum and gates.get(place) == seal.entries:
            held.append(seal)
    return held


def _gates(data: bytes) -> dict[int, int]:
    """How many entries stand before each gate, as far as the journal can be read."""
    found = {FIRST_GATE: 0}
    place = FIRST_GATE
    try:
        while (record := framed(data, place)) is not None:
            place += 5 + len(record)
            found[place] = len(found)
    except Broken:
        pass
    return found


def verify(journal: Path, path: Path) -> tuple[list[str], bool]:
    """What is told of a journal by its seals, and whether all is well. Raises OSError."""
    data, told = read_bytes(journal), _seals_of(path)
    verdict = verdict_of(data, told.seals)
    lines = [f"{path}: line {number} is no seal" for number in told.foreign]
    lines += [f"{path}: the seal of line {it.number} is wrong itself" for it in verdict.wrong]
    if told.torn:
        lines.append(f"note: the last line of {path} is torn, as a stop leaves it: no seal")
    if verdict.broken is not None:
        lines.append(broken_text(verdict))
    if verdict.last is None:
        lines.append(f"{path}: no seal holds" if told.seals else f"{path}: there is no seal")
    else:
        last = verdict.last
        lines.append(
            f"{len(verdict.holding)} of {len(told.seals)} seals hold, up to entry {last.entries}, "
            f"byte {last.size}, {last.date}"
        )
    is_well = verdict.last is not None and verdict.broken is None
    return lines, is_well and not told.foreign and not verdict.wrong


def seal(journal: Path, path: Path) -> str:
    """Append a seal of the journal's front to a file, where all seals that are there hold; the
    line that was appended. Raises SealFault, and OSError."""
    data = _synced_bytes(journal)
    told = _seals_of(path) if path.exists() else Seals([], [], 0)
    if told.foreign:
        raise SealFault(f"{path}: line {told.foreign[0]} is no seal")
    verdict = verdict_of(data, told.seals)
    if verdict.broken is not None:
        raise SealFault(broken_text(verdict))
    if verdict.wrong:
        raise SealFault(f"{path}: the seal of line {verdict.wrong[0].number} is wrong itself")
    front = front_of(data)
    _look_behind(data, front)
    date = date_of(minute_of(time.time()))
    text = hashlib.sha256(data[: front.tail]).hexdigest()
    made = Seal(len(told.seals) + 1, date, len(front.gates), front.tail, text)
    _append(path, made.text, told.torn)
    return made.text


def _synced_bytes(journal: Path) -> bytes:
    """The journal's bytes. A gate that was read is on the disk: else a loss of power might take
    an entry back that was sealed."""
    data = read_bytes(journal)
    descriptor = os.open(journal, os.O_RDONLY | os.O_CLOEXEC)
    try:
        os.fdatasync(descriptor)
    finally:
        os.close(descriptor)
    return data


def _look_behind(data: bytes, front: Front) -> None:
    """Raises SealFault where a closed gate has records behind it that were part of the journal."""
    records: list[Record] = []
    if front.gates:
        place = front.gates[-1]
        moment = int.from_bytes(data[place + 5 : place + 9], "big")
        records.append(Record(len(front.gates) - 1, place, front.tail - place - 5, moment))
    origin = int.from_bytes(data[9:13], "big")
    beyond = beyond_tail(data, Journal(origin, [], records, front.tail))
    if beyond.was_acknowledged:
        raise SealFault(
            f"the gate at {front.tail} reads as closed, and {len(beyond.records)} records stand "
            "behind it (slo-journal FILE says more)"
        )


def _append(path: Path, line: str, torn: int) -> None:
    """Append a line and see that it is on the disk. A torn line, which was never one, goes."""
    is_new = not path.exists()
    descriptor = os.open(path, os.O_RDWR | os.O_CREAT | os.O_CLOEXEC, 0o644)
    try:
        end = os.lseek(descriptor, 0, os.SEEK_END) - torn
        os.ftruncate(descriptor, end)
        content = f"{line}\n".encode("ascii")
        while content:
            written = os.pwrite(descriptor, content, end)
            content, end = content[written:], end + written
        os.fsync(descriptor)
    finally:
        os.close(descriptor)
    if is_new:
        folder = os.open(path.parent, os.O_RDONLY | os.O_DIRECTORY)
        try:
            os.fsync(folder)
        finally:
            os.close(folder)


def broken_text(verdict: Verdict) -> str:
    """Where the damage lies that the first seal that doesn't hold tells of."""
    broken, last = verdict.broken, verdict.last
    assert broken is not None
    first, begin = (0, 0) if last is None else (last.entries, last.size)
    among = f"among the entries {first} to {broken.entries - 1}" if broken.entries > first else ""
    where = f"{among}, " if among else ""
    where += f"the bytes {begin} to {broken.size - 1}"
    return (
        f"the seal of line {broken.number}, of {broken.date}, doesn't hold: the damage lies {where}"
    )
