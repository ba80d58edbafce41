"""Stored sessions: text files that say a session of `pipe` to the byte, and can be read.

A file has the clock's minute, the session's status, and then under `==` the journal before, the requests, the answers, the
entries that the journal gained, and the report afterwards. Bytes are lines with a mark in front: `~` where the line ends
with CR LF, `|` where it ends with LF, `'` where it has no end; a backslash, and what isn't printable, is written `\\xNN`.
An entry is its moment and its command, `samples` with a line for each row as it would be sent.
"""
from __future__ import annotations

import re
import struct
from collections.abc import Iterator
from dataclasses import dataclass
from pathlib import Path

KINDS = ["DataSource", "Service", "SLI", "SLO", "AlertPolicy", "AlertCondition", "AlertNotificationTarget"]
ENDS = {"~": b"\r\n", "|": b"\n", "'": b""}
PARTS = ["journal", "requests", "answers", "entries", "report"]
BILLION = 1_000_000_000


def unescaped(text: str) -> bytes:
    parts = re.split(r"\\x([0-9a-f]{2})", text)
    return b"".join(bytes([int(it, 16)]) if n % 2 else it.encode() for n, it in enumerate(parts))


def read(lines: list[str]) -> bytes:
    """The bytes of such lines."""
    return b"".join(unescaped(line[1:]) + ENDS[line[0]] for line in lines)


def short(name: str) -> bytes:
    return bytes([len(name)]) + name.encode()


def row(line: str) -> bytes:
    """A row of samples, as a record has it."""
    indicator, source, minute, revision, amount, total = line.split(",")
    head = short(indicator) + short(source) + struct.pack(">II", int(minute), int(revision))
    if total:
        return head + struct.pack(">BII", 0, int(amount), int(total))
    whole, _, part = amount.partition(".")
    return head + struct.pack(">BQ", 1, int(whole) * BILLION + int(part.ljust(9, "0") or 0))


def command(words: list[str], lines: list[str]) -> bytes:
    """A command, as a record has it."""
    match words:
        case ["define"]:
            text = read(lines)
            return struct.pack(">BI", 1, len(text)) + text
        case ["remove", kind, name]:
            return bytes([2, KINDS.index(kind)]) + short(name)
        case ["zone", name]:
            text = read(lines)
            return b"\x03" + short(name) + struct.pack(">I", len(text)) + text
        case ["samples"]:
            return struct.pack(">BH", 4, len(lines)) + b"".join(row(line[1:]) for line in lines)
        case ["exclude", name, slo, begin, end]:
            return b"\x05" + short(name) + short(slo) + struct.pack(">II", int(begin), int(end))
        case ["lift", name]:
            return b"\x06" + short(name)
        case ["tick"]:
            return b"\x07"
        case ["take", number]:
            return struct.pack(">BI", 8, int(number))
    raise AssertionError(f"no command: {words}")


def entries(lines: list[str]) -> Iterator[bytes]:
    """The records of entries, each with its gate before it and its length."""
    heads = [n for n, line in enumerate(lines) if line[0].isdigit()] + [len(lines)]
    for first, end in zip(heads, heads[1:]):
        moment, *words = lines[first].split(" ")
        record = struct.pack(">I", int(moment)) + command(words, lines[first + 1 : end])
        yield b"\x01" + struct.pack(">I", len(record)) + record


def journal(origin: int, lines: list[str]) -> bytes:
    """The file of a journal with these entries."""
    return b"\x01OSLOJRN1" + struct.pack(">I", origin) + b"".join(entries(lines)) + b"\x00"


@dataclass
class Stored:
    """A session: what it meets, and what has to come."""

    clock: int
    status: int
    before: bytes
    requests: bytes
    answers: bytes
    after: bytes
    report: bytes


def load(path: Path) -> Stored:
    head, *parts = re.split(r"(?m)^== (\w+)\n", path.read_bytes().decode())
    fields = dict(line.split(" ") for line in head.splitlines() if re.match(r"(clock|status|origin) \d+$", line))
    assert parts[::2] == PARTS, f"{path}: {parts[::2]}"
    before, requests, answers, gained, report = ([line for line in re.split("\n", it) if line] for it in parts[1::2])
    origin = int(fields["origin"])
    return Stored(int(fields["clock"]), int(fields["status"]), journal(origin, before), read(requests), read(answers),
                  journal(origin, before + gained), read(report))
