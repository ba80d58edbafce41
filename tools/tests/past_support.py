"""Histories at moments of their own, written by a plain writer (docs/records.md), and the journal
that the office's program makes of them."""

from __future__ import annotations

import struct
import subprocess
from collections.abc import Sequence
from pathlib import Path

from support import program


def named(text: str) -> bytes:
    return bytes([len(text)]) + text.encode("ascii")


def define(moment: int, text: str) -> bytes:
    return struct.pack(">IBI", moment, 1, len(text.encode())) + text.encode()


def remove(moment: int, kind: int, name: str) -> bytes:
    """The number of an SLO's kind is 3."""
    return struct.pack(">IBB", moment, 2, kind) + named(name)


def zone(moment: int, name: str, content: bytes) -> bytes:
    return struct.pack(">IB", moment, 3) + named(name) + struct.pack(">I", len(content)) + content


def samples(moment: int, rows: Sequence[tuple[str, int, int, int, int]]) -> bytes:
    """Rows of indicator, minute, revision, good and total."""
    fields = [struct.pack(">IBH", moment, 4, len(rows))]
    for sli, minute, revision, good, total in rows:
        fields.append(named(sli) + named("web"))
        fields.append(struct.pack(">IIBII", minute, revision, 0, good, total))
    return b"".join(fields)


def exclude(moment: int, name: str, slo: str, begin: int, end: int) -> bytes:
    front = struct.pack(">IB", moment, 5) + named(name) + named(slo)
    return front + struct.pack(">II", begin, end)


def lift(moment: int, name: str) -> bytes:
    return struct.pack(">IB", moment, 6) + named(name)


def tick(moment: int) -> bytes:
    return struct.pack(">IB", moment, 7)


def take(moment: int, number: int) -> bytes:
    return struct.pack(">IBI", moment, 8, number)


def upgrade(moment: int) -> bytes:
    return struct.pack(">IB", moment, 9)


def feed(origin: int, records: Sequence[bytes]) -> bytes:
    head = b"OSLOFEED" + struct.pack(">III", origin, 0, len(records))
    return head + b"".join(struct.pack(">I", len(record)) + record for record in records)


def followed(folder: Path, origin: int, records: Sequence[bytes]) -> bytes:
    """The journal that `follow` makes of a history in a folder: the program judges each entry."""
    folder.mkdir(parents=True, exist_ok=True)
    for words, content in (["init", str(origin)], b""), (["follow"], feed(origin, records)):
        subprocess.run([program(), *words], cwd=folder, input=content, check=True, stdout=-1)
    return (folder / "office.journal").read_bytes()


def records_of(journal: bytes) -> list[bytes]:
    """The records of a journal's file, by docs/journal.md."""
    records, place = [], 13
    while journal[place] == 1:
        length = int.from_bytes(journal[place + 1 : place + 5], "big")
        records.append(journal[place + 5 : place + 5 + length])
        place += 5 + length
    return records
