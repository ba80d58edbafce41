"""Exports in plain Python: which requests the records of a journal have to give, and offices that are made from them."""
from __future__ import annotations

import struct
from collections.abc import Iterable, Iterator
from dataclasses import dataclass, field
from pathlib import Path

from office import Answer, Office, message

KINDS = ["DataSource", "Service", "SLI", "AlertNotificationTarget", "AlertCondition", "AlertPolicy", "SLO"]
AT_ONCE = 1000
BILLION = 1_000_000_000


def request(line: str, body: bytes = b"") -> bytes:
    """A request as an export has it."""
    return f"{line} HTTP/1.1\r\nHost: office\r\nContent-Length: {len(body)}\r\n\r\n".encode() + body


def requests(text: bytes) -> list[bytes]:
    """The requests of an export's text, which has to be whole."""
    found, at = [], 0
    while at < len(text):
        end = text.index(b"\r\n\r\n", at) + 4
        end += int(text[at:end].rpartition(b": ")[2])
        assert end <= len(text), "a request that is cut"
        found.append(text[at:end])
        at = end
    return found


class Reader:
    """The fields of a record, one behind another."""

    def __init__(self, data: bytes) -> None:
        self.data, self.at = data, 0

    def number(self, form: str) -> int:
        (found,) = struct.unpack_from(f">{form}", self.data, self.at)
        self.at += struct.calcsize(f">{form}")
        return int(found)

    def bytes(self, count: int) -> bytes:
        self.at += count
        return self.data[self.at - count : self.at]

    def name(self) -> str:
        return self.bytes(self.number("B")).decode()

    def amount(self) -> str:
        """The last two fields of a row."""
        form = self.number("B")
        if form == 0:
            return f"{self.number('I')},{self.number('I')}"
        if form == 2:
            return ","
        whole, part = divmod(self.number("Q"), BILLION)
        return f"{whole}" + f".{part:09}".rstrip("0").rstrip(".") + ","


@dataclass
class Kept:
    """What the records of a history leave, but for objects: the upgrade, zones, rows and exclusions."""

    is_upgraded: bool = False
    zones: dict[str, bytes] = field(default_factory=dict)
    rows: dict[tuple[str, str, int], tuple[int, str]] = field(default_factory=dict)
    exclusions: dict[str, tuple[str, int, int]] = field(default_factory=dict)
    lifted: set[str] = field(default_factory=set)

    def take(self, record: bytes) -> None:
        it = Reader(record[4:])
        match it.number("B"):
            case 3:
                name = it.name()
                self.zones[name] = it.bytes(it.number("I"))
            case 4:
                for _ in range(it.number("H")):
                    self.row(it)
            case 5:
                name = it.name()
                self.exclusions[name] = it.name(), it.number("I"), it.number("I")
            case 6:
                self.lifted.add(it.name())
            case 9:
                self.is_upgraded = True

    def row(self, it: Reader) -> None:
        """A row takes the place of one of its cell with a lesser revision."""
        cell, revision, amount = (it.name(), it.name(), it.number("I")), it.number("I"), it.amount()
        if cell not in self.rows or revision > self.rows[cell][0]:
            self.rows[cell] = revision, amount

    def lines(self) -> list[bytes]:
        return [f"{sli},{source},{minute},{revision},{amount}\n".encode() for (sli, source, minute), (revision, amount) in self.rows.items()]


def kept(records: Iterable[bytes]) -> Kept:
    found = Kept()
    for record in records:
        found.take(record)
    return found


def members(office: Office) -> list[tuple[str, str]]:
    """The kinds and names of an office's objects, in the order of an export."""
    (answer,) = office.ask([message("GET", "/objects")])
    named = [(it["kind"], it["name"]) for it in answer.told["objects"]]
    return sorted(named, key=lambda it: (KINDS.index(it[0]), it[1].encode()))


def wanted(office: Office) -> list[bytes]:
    """The requests that an export of an office has to give, by its records and the texts of its objects."""
    return list(wanted_of(kept(office.records()), objects_of(office)))


def objects_of(office: Office) -> dict[tuple[str, str], bytes]:
    named = members(office)
    return dict(zip(named, (it.body for it in office.ask(message("GET", f"/objects/{kind}/{name}") for kind, name in named))))


def wanted_of(it: Kept, objects: dict[tuple[str, str], bytes]) -> Iterator[bytes]:
    if it.is_upgraded:
        yield request("POST /upgrade")
    for name in sorted(it.zones, key=str.encode):
        yield request(f"PUT /zones/{name}", it.zones[name])
    for text in objects.values():
        yield request("POST /objects", text)
    lines = it.lines()
    for first in range(0, len(lines), AT_ONCE):
        yield request("POST /samples", b"".join(lines[first : first + AT_ONCE]))
    for name, (slo, begin, end) in it.exclusions.items():
        if ("SLO", slo) in objects:
            yield request(f"PUT /exclusions/{name}", f'{{"from":{begin},"slo":"{slo}","to":{end}}}'.encode())
            if name in it.lifted:
                yield request(f"DELETE /exclusions/{name}")


def part(office: Office, number: int) -> bytes:
    done = office.run("export", str(number))
    assert (done.returncode, done.stderr) == (0, b""), done.stderr
    return done.stdout


def parts(office: Office) -> list[bytes]:
    """The parts of an export, up to the first that is empty."""
    found: list[bytes] = []
    while text := part(office, len(found) + 1):
        found.append(text)
    return found


def made(program: Path, folder: Path, origin: int, texts: Iterable[bytes]) -> Office:
    """A fresh office of these parts, each of whose requests has to become an entry."""
    office = Office(program, folder, origin)
    entries = 0
    for text in texts:
        found = office.ask(requests(text), AT_ONCE)
        assert [entry_of(it) for it in found] == [*range(entries, entries + len(found))], "a request that isn't an entry"
        entries += len(found)
    return office


def entry_of(answer: Answer) -> int | None:
    assert answer.status == 200, answer
    entry: int | None = answer.told["entry"]
    return entry


def same_report(one: Office, other: Office, at: int) -> bool:
    """Reports differ in the counts of entries and notices alone."""
    left, right = (it.report(at).splitlines() for it in (one, other))
    return left[0].split(",")[0] == right[0].split(",")[0] and left[1:-1] == right[1:-1] and left[-1].split(",")[0] == right[-1].split(",")[0]
