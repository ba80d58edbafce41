"""Feeds of records by docs/records.md, and what following them comes to, in plain Python."""
from __future__ import annotations

import struct
from collections.abc import Callable, Sequence
from dataclasses import dataclass

MARK = b"OSLOFEED"
HEAD = 20
MOST_FEED_BYTES = 1_048_576
MOST_FEEDS_BYTES = 536_870_912
MOST_RECORD_BYTES = 1_100_000
MOST_MOMENT = 67_108_863
RANGE = 2_097_152


def tick(moment: int) -> bytes:
    return struct.pack(">IB", moment, 7)


def upgrade(moment: int) -> bytes:
    return struct.pack(">IB", moment, 9)


def definition(moment: int, text: bytes) -> bytes:
    return struct.pack(">IBI", moment, 1, len(text)) + text


def feed(origin: int, first: int, records: Sequence[bytes]) -> bytes:
    """A feed of these records, whatever they are and however many."""
    return MARK + struct.pack(">III", origin, first, len(records)) + b"".join(struct.pack(">I", len(it)) + it for it in records)


def feed_of(origin: int, first: int, history: Sequence[bytes]) -> bytes:
    """The feed of a history from a position on: of its records as many as fit, and one at least."""
    taken: list[bytes] = []
    size = HEAD
    for record in history[first:]:
        size += 4 + len(record)
        if taken and size > MOST_FEED_BYTES:
            break
        taken.append(record)
    return feed(origin, first, taken)


def journal(origin: int, records: Sequence[bytes]) -> bytes:
    """The file of an office of these records."""
    return b"\x01OSLOJRN1" + struct.pack(">I", origin) + b"".join(b"\x01" + struct.pack(">I", len(it)) + it for it in records) + b"\x00"


class Ended(Exception):
    """Following ends here, by this line."""


@dataclass(frozen=True)
class Rules:
    """What is a record, and which may follow others."""

    is_record: Callable[[bytes], bool]
    may_follow: Callable[[Sequence[bytes], bytes], bool]


def of_moments(origin: int) -> Rules:
    """The rules of ticks and of the one upgrade, where no longer records come."""

    def is_record(record: bytes) -> bool:
        return len(record) == 5 and record[4] in (7, 9) and moment(record) <= MOST_MOMENT

    def may_follow(records: Sequence[bytes], record: bytes) -> bool:
        present = moment(records[-1]) if records else origin
        return present <= moment(record) < origin + RANGE and not (record[4] == 9 and any(it[4] == 9 for it in records))

    return Rules(is_record, may_follow)


def of_history(history: Sequence[bytes]) -> Rules:
    """The rules where the feeds of this history alone come."""
    return Rules(lambda record: record in history, lambda records, record: history[len(records)] == record)


def moment(record: bytes) -> int:
    return int.from_bytes(record[:4], "big")


def followed(origin: int, held: Sequence[bytes], data: bytes, rules: Rules) -> tuple[str, list[bytes]]:
    """The line by which following ends over an office of these records, and the records that it leaves."""
    records, at = list(held), 0

    def piece(size: int) -> bytes:
        nonlocal at
        found = data[at : at + size]
        if at + len(found) > MOST_FEEDS_BYTES:
            raise Ended("input too large")
        if len(found) < size:
            raise Ended("cut")
        at += size
        return found

    def entry(position: int) -> None:
        place = at
        size = int.from_bytes(piece(4), "big")
        if not 1 <= size <= MOST_RECORD_BYTES:
            raise Ended(f"feed broken at {place}")
        record = piece(size)
        if not rules.is_record(record):
            raise Ended(f"feed broken at {place}")
        if position < len(records):
            if records[position] != record:
                raise Ended(f"diverges at {position}")
        elif rules.may_follow(records, record):
            records.append(record)
        else:
            raise Ended(f"illegal at {position}")

    try:
        while at < len(data):
            place, head = at, piece(HEAD)
            whose, first, count = struct.unpack(">III", head[8:])
            if head[:8] != MARK:
                raise Ended(f"feed broken at {place}")
            if whose != origin:
                raise Ended(f"other origin {whose}")
            if first > len(records):
                raise Ended(f"gap at {first}")
            for position in range(first, first + count):
                entry(position)
    except Ended as why:
        return str(why), records
    return f"entries {len(records)}", records
