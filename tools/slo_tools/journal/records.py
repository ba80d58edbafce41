"""The records of an office's entries, read from bytes.

Numbers have their greatest byte first, nothing stands between fields, and nothing behind a record.
A reader of records is as strict as the office: bytes that it doesn't take are no entry there.
"""

from __future__ import annotations

from collections.abc import Callable
from dataclasses import dataclass
from enum import IntEnum
from struct import Struct
from typing import NamedTuple, Optional, Union

MAX_MINUTE = 67_108_863
MAX_REVISION = 1_000_000_000
MAX_DECIMAL = 10**18
MAX_EXCLUDED_MINUTE = 134_217_727
MAX_TEXT_BYTES = 1_048_576
MAX_ZONE_BYTES = 65_536
MAX_BATCH_ROWS = 1_000
MAX_NAME_BYTES = 63

KINDS = (
    "DataSource",
    "Service",
    "SLI",
    "SLO",
    "AlertPolicy",
    "AlertCondition",
    "AlertNotificationTarget",
)

LABEL_BYTES = frozenset(b"abcdefghijklmnopqrstuvwxyzABCDEFGHIJKLMNOPQRSTUVWXYZ0123456789._-")
ZONE_BYTES = LABEL_BYTES | frozenset(b"/+")

# A record begins with its moment and its kind.
HEAD = Struct(">IB")
NUMBER16 = Struct(">H")
NUMBER32 = Struct(">I")
NUMBER64 = Struct(">Q")
COUNTS = Struct(">II")
# Minute, revision, and the form of the amount that follows.
ROW = Struct(">IIB")


class Kind(IntEnum):
    """What an entry changes, by the number in its record."""

    DEFINITION = 1
    REMOVAL = 2
    ZONE = 3
    SAMPLES = 4
    EXCLUSION = 5
    LIFTING = 6
    TICK = 7
    TAKING = 8
    UPGRADE = 9


class NotAnEntry(Exception):
    """The bytes are no record of an entry; `at` is the place of the first that has no meaning.

    One that is short has none, and ends too early.
    """

    def __init__(self, at: int, why: str, is_short: bool = False) -> None:
        super().__init__(why)
        self.at = at
        self.why = why
        self.is_short = is_short


class Row(NamedTuple):
    """A sample: part and total of counted events, or a value in billionths without a total.

    A withdrawn one has neither.
    """

    sli: str
    source: str
    minute: int
    revision: int
    amount: Optional[int]
    total: Optional[int]


@dataclass(frozen=True)
class Define:
    text: bytes


@dataclass(frozen=True)
class Remove:
    kind: str
    name: str


@dataclass(frozen=True)
class PutZone:
    name: str
    content: bytes


@dataclass(frozen=True)
class Samples:
    rows: list[Row]


@dataclass(frozen=True)
class Exclude:
    id: str
    slo: str
    start: int
    end: int


@dataclass(frozen=True)
class Lift:
    id: str


@dataclass(frozen=True)
class Tick:
    pass


@dataclass(frozen=True)
class Take:
    number: int


@dataclass(frozen=True)
class Upgrade:
    pass


Command = Union[Define, Remove, PutZone, Samples, Exclude, Lift, Tick, Take, Upgrade]


@dataclass(frozen=True)
class Entry:
    moment: int
    command: Command


class Cursor:
    """Reads fields from the front of bytes on."""

    def __init__(self, data: bytes) -> None:
        self.data = data
        self.at = 0
        self.names: dict[bytes, str] = {}

    def take(self, count: int) -> bytes:
        piece = self.data[self.at : self.at + count]
        if len(piece) < count:
            raise NotAnEntry(self.at, "the record ends inside a field", is_short=True)
        self.at += count
        return piece

    def number(self, form: Struct, most: int, least: int = 0) -> int:
        place = self.at
        value: int = form.unpack(self.take(form.size))[0]
        if not least <= value <= most:
            raise NotAnEntry(place, f"{value} isn't from {least} to {most}")
        return value

    def byte(self, most: int) -> int:
        place = self.at
        value = self.take(1)[0]
        if value > most:
            raise NotAnEntry(place, f"{value} is above {most}")
        return value

    def name(self) -> str:
        text = self.short_text()
        known = self.names.get(text)
        if known is None:
            known = self.names[text] = self.checked(text, LABEL_BYTES)
        return known

    def zone_name(self) -> str:
        return self.checked(self.short_text(), ZONE_BYTES)

    def short_text(self) -> bytes:
        return self.take(self.byte(MAX_NAME_BYTES))

    def checked(self, text: bytes, allowed: frozenset[int]) -> str:
        """The name that was just read, once each byte of it may stand there."""
        place = self.at - len(text)
        if not text:
            raise NotAnEntry(place - 1, "a name has no byte")
        for offset, byte in enumerate(text):
            if byte not in allowed:
                raise NotAnEntry(place + offset, f"the byte {byte} stands in no name")
        return text.decode("ascii")

    def text(self, most: int) -> bytes:
        return self.take(self.number(NUMBER32, most))

    def row(self) -> Row:
        sli = self.name()
        source = self.name()
        place = self.at
        minute, revision, form = ROW.unpack(self.take(ROW.size))
        if minute > MAX_MINUTE:
            raise NotAnEntry(place, f"{minute} is above {MAX_MINUTE}")
        if not 1 <= revision <= MAX_REVISION:
            raise NotAnEntry(place + 4, f"{revision} isn't from 1 to {MAX_REVISION}")
        if form > 2:
            raise NotAnEntry(place + 8, f"{form} is no form of an amount")
        if form == 2:
            return Row(sli, source, minute, revision, None, None)
        if form == 1:
            value = self.number(NUMBER64, MAX_DECIMAL)
            return Row(sli, source, minute, revision, value, None)
        part, total = COUNTS.unpack(self.take(COUNTS.size))
        return Row(sli, source, minute, revision, part, total)


def read_kind(cursor: Cursor) -> str:
    return KINDS[cursor.byte(len(KINDS) - 1)]


def read_samples(cursor: Cursor) -> Samples:
    count = cursor.number(NUMBER16, MAX_BATCH_ROWS)
    return Samples([cursor.row() for _ in range(count)])


def read_exclude(cursor: Cursor) -> Exclude:
    return Exclude(
        cursor.name(),
        cursor.name(),
        cursor.number(NUMBER32, MAX_EXCLUDED_MINUTE),
        cursor.number(NUMBER32, MAX_EXCLUDED_MINUTE),
    )


READERS: dict[int, Callable[[Cursor], Command]] = {
    Kind.DEFINITION: lambda cursor: Define(cursor.text(MAX_TEXT_BYTES)),
    Kind.REMOVAL: lambda cursor: Remove(read_kind(cursor), cursor.name()),
    Kind.ZONE: lambda cursor: PutZone(cursor.zone_name(), cursor.text(MAX_ZONE_BYTES)),
    Kind.SAMPLES: read_samples,
    Kind.EXCLUSION: read_exclude,
    Kind.LIFTING: lambda cursor: Lift(cursor.name()),
    Kind.TICK: lambda cursor: Tick(),
    Kind.TAKING: lambda cursor: Take(cursor.number(NUMBER32, 2**32 - 1)),
    Kind.UPGRADE: lambda cursor: Upgrade(),
}


def read_entry(record: bytes) -> Entry:
    """The entry whose record the bytes are, or `NotAnEntry`."""
    cursor = Cursor(record)
    moment = cursor.number(NUMBER32, MAX_MINUTE)
    place = cursor.at
    kind = cursor.take(1)[0]
    reader = READERS.get(kind)
    if reader is None:
        raise NotAnEntry(place, f"{kind} is no kind of change")
    command = reader(cursor)
    if cursor.at < len(record):
        raise NotAnEntry(cursor.at, "bytes stand behind the entry")
    return Entry(moment, command)


def definition_record(moment: int, text: bytes) -> bytes:
    """The record of a definition."""
    return HEAD.pack(moment, Kind.DEFINITION) + NUMBER32.pack(len(text)) + text


def zone_record(moment: int, name: str, content: bytes) -> bytes:
    """The record of a zone that is kept."""
    label = name.encode("ascii")
    front = HEAD.pack(moment, Kind.ZONE) + bytes([len(label)]) + label
    return front + NUMBER32.pack(len(content)) + content
