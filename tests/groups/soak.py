"""64 links change and ask one office at random, while links are cut at random places.

Each of 64 clients has a source of its own. It posts batches of new rows and corrections, excludes minutes and lifts
that, and asks for budgets, burns and timelines, some requests a link. Some links are cut: inside a request, behind it,
inside its answer; some clients send a part of a request and wait. Where an answer was lost the change is sent again, or
not. When the time is over the program is killed, and then:

- each record of the journal is a change that was sent, and each change stands there at most once;
- each acknowledged change is the very record at the position that its answer named;
- a change that was acknowledged before another request was sent stands before what that request made or saw, on the
  same link and on any two links;
- each copy of the file that `cp` made while it was written opens, to the journal's first records;
- the same changes, sent in the journal's order to a new office over one link after another, leave the same records
  (but for their moments), and `report` at the same minute prints the same text;
- its export is what the journal says, and the office that it makes exports the same bytes and reports the same.
"""
from __future__ import annotations

import hashlib
import os
import random
import shutil
import struct
import tempfile
import threading
import time
from dataclasses import dataclass, field
from pathlib import Path

import exported
import objects
from office import Link, Lost, Office, Server, define, message, minute_now
from report import Report

CLIENTS = 64
# New rows and corrections together: fewer than an office takes.
MAX_ROWS = 3_500_000
MAX_CELLS = 1_900_000
SEED = 1
# As many changes as the short form makes: its export is 25 parts, and each part opens the journal.
ENOUGH = 25_000
QUERIES = ("/budgets/shop-slo", "/burns/shop-slo/0?lookback=1h", "/burns/shop-slo/1?lookback=3d", "/notices")


@dataclass(frozen=True)
class Span:
    """The minutes of the rows, how long the clients ask at most, and after how many changes they end."""

    origin: int
    now: int
    seconds: float
    changes: int


@dataclass
class Course:
    """How far the clients are: they end with the time, or with enough answered changes."""

    span: Span
    begun: float = field(default_factory=time.monotonic)
    changes: int = 0

    def share(self) -> float:
        return min(1.0, max((time.monotonic() - self.begun) / self.span.seconds, self.changes / self.span.changes))

    def is_over(self) -> bool:
        return self.share() >= 1


def named(data: bytes) -> bytes:
    """A name for a request: the same for the same bytes alone."""
    return hashlib.sha256(data).digest()


@dataclass
class Asked:
    """A request that was sent, between two moments, and what its answer said."""

    link: tuple[int, int]
    change: bytes | None
    begun: float
    ended: float = 0.0
    entry: int | None = None
    seen: int | None = None

    @property
    def made(self) -> int | None:
        """The entry that it made, or how many it saw."""
        return self.entry if self.entry is not None else self.seen


class Sender:
    """The changes and questions of one client, at random."""

    def __init__(self, number: int, span: Span) -> None:
        self.chance = random.Random(SEED * 1000 + number)
        self.name, self.span = f"client{number}", span
        self.next_minute = self.rows_sent = self.ids = 0
        self.revisions: dict[int, int] = {}
        self.live: list[str] = []

    def batch(self) -> bytes:
        """New rows, or corrections of some that were sent, each with a revision that wasn't used; one in ten is withdrawn."""
        chance, span = self.chance, self.span
        size = chance.choice((1, 3, 10, 10, 30, 30, 100))
        room = min(span.now - span.origin - 1, MAX_CELLS // CLIENTS) - self.next_minute
        if self.revisions and (room <= 0 or chance.random() < 0.4):
            chosen = [span.origin + it for it in chance.sample(range(self.next_minute), min(size, self.next_minute))]
        else:
            chosen = [span.origin + self.next_minute + n for n in range(min(size, room))]
            self.next_minute += len(chosen)
        rows = ""
        for minute in chosen:
            self.revisions[minute] = self.revisions.get(minute, 0) + chance.choice((1, 1, 2))
            total = chance.randrange(1, 10_000)
            amount = "," if chance.random() < 0.1 else f"{chance.randrange(total + 1)},{total}"
            rows += f"good,{self.name},{minute},{self.revisions[minute]},{amount}\n"
        self.rows_sent += len(chosen)
        return message("POST", "/samples", rows)

    def change(self, over: float) -> bytes | None:
        """A batch, as long as the share of the time that is over has rows left; or an exclusion."""
        chance = self.chance.random()
        if chance < 0.93 and self.rows_sent < over * MAX_ROWS / CLIENTS + 100:
            return self.batch()
        if self.live and (self.ids >= 25 or chance < 0.97):
            return message("DELETE", f"/exclusions/{self.live.pop(self.chance.randrange(len(self.live)))}")
        if self.ids >= 25:
            return None
        self.live.append(f"{self.name}.{self.ids}")
        self.ids += 1
        begin = self.span.origin + self.chance.randrange(30_000)
        return message("PUT", f"/exclusions/{self.live[-1]}", f'{{"from":{begin},"slo":"shop-slo","to":{begin + self.chance.randrange(1, 50)}}}')

    def query(self) -> bytes:
        timeline = f"/alerts/shop-slo/0/workbook-page?from={self.span.now - 2000}&to={self.span.now}"
        return message("GET", self.chance.choice((*QUERIES, timeline)))


class Client(threading.Thread):
    """A client that asks until the time is over, and cuts some of its links."""

    def __init__(self, number: int, server: Server, course: Course) -> None:
        super().__init__(daemon=True)
        self.number, self.server, self.course = number, server, course
        self.sender = Sender(number, course.span)
        self.links = 0
        self.asked: list[Asked] = []
        self.sent: set[bytes] = set()
        self.again: bytes | None = None
        self.refused: list[str] = []
        self.fault: str | None = None

    def cut(self, link: Link) -> None:
        link.cut(self.sender.chance.random() < 0.5)
        raise Lost

    def ask(self, link: Link, data: bytes, is_change: bool) -> None:
        """Asks, or cuts the link in the middle of it. An answer is noted; a lost one leaves the change open."""
        asked = Asked((self.number, self.links), named(data) if is_change else None, time.monotonic())
        if asked.change:
            self.sent.add(asked.change)
        chance = self.sender.chance.random()
        if chance < 0.0203:
            link.send(data[: self.sender.chance.randrange(1, len(data))])
            if chance >= 0.02:
                self.wait(link)
            self.cut(link)
        link.send(data)
        if chance < 0.04:
            self.cut(link)
        if chance < 0.06:
            link.socket.recv(self.sender.chance.randrange(1, 60))
            self.cut(link)
        answer = link.answer()
        asked.ended = time.monotonic()
        if answer.status != 200:
            self.refused.append(f"{answer.status} {answer.body[:80]!r}")
            return
        if is_change:
            self.course.changes += 1
        asked.entry = answer.told.get("entry") if is_change else None
        asked.seen = answer.told.get("entries")
        self.asked.append(asked)

    def wait(self, link: Link) -> None:
        """Waits inside a request until the office ends the link."""
        link.socket.settimeout(30)
        try:
            while link.socket.recv(65536):
                pass
        except OSError:
            pass

    def turn(self) -> None:
        """A link with some requests, and maybe the change before it whose answer was lost."""
        link, self.links = self.server.link(), self.links + 1
        chance = self.sender.chance
        try:
            for _ in range(chance.randrange(1, 8)):
                change = None
                if self.again and chance.random() < 0.7:
                    change = self.again
                elif chance.random() < 0.6:
                    change = self.sender.change(self.course.share())
                self.again = change
                self.ask(link, change or self.sender.query(), change is not None)
                self.again = None
        except Lost:
            pass
        finally:
            link.cut()

    def run(self) -> None:
        try:
            while not self.course.is_over():
                try:
                    self.turn()
                except OSError as why:
                    if not self.course.is_over():
                        self.refused.append(str(why))
        except Exception as why:
            self.fault = repr(why)


class Copier(threading.Thread):
    """Copies the journal while it is written, and opens each copy in a folder of its own."""

    def __init__(self, office: Office, course: Course) -> None:
        super().__init__(daemon=True)
        self.office, self.course = office, course
        self.copies: list[list[bytes]] = []
        self.fault: str | None = None

    def run(self) -> None:
        while not self.course.is_over() and not self.fault:
            with tempfile.TemporaryDirectory() as aside:
                copy = Office(self.office.program, Path(aside))
                shutil.copyfile(self.office.journal, copy.journal)
                try:
                    told, kept = copy.report(self.course.span.now), copy.records()
                    assert f"entries {len(kept)}\n" in told, f"a copy of {len(kept)} records: {told[:100]}"
                    self.copies.append([named(it) for it in kept])
                except AssertionError as why:
                    self.fault = f"a copy doesn't open: {why}"
            time.sleep(0.5)


def request(record: bytes) -> bytes:
    """The request for the change that a record stands for, as it was sent."""
    kind, at = record[4], 5

    def short() -> str:
        nonlocal at
        length = record[at]
        at += 1 + length
        return record[at - length : at].decode()

    if kind == 1:
        return message("POST", "/objects", record[9:])
    if kind == 4:
        (count,) = struct.unpack_from(">H", record, at)
        at, rows = at + 2, ""
        for _ in range(count):
            indicator, source = short(), short()
            minute, revision, form = struct.unpack_from(">IIB", record, at)
            assert form in (0, 2), form
            amount = "," if form == 2 else "{},{}".format(*struct.unpack_from(">II", record, at + 9))
            rows += f"{indicator},{source},{minute},{revision},{amount}\n"
            at += 9 if form == 2 else 17
        return message("POST", "/samples", rows)
    if kind == 9:
        return message("POST", "/upgrade")
    name = short()
    if kind == 5:
        slo = short()
        begin, end = struct.unpack_from(">II", record, at)
        return message("PUT", f"/exclusions/{name}", f'{{"from":{begin},"slo":"{slo}","to":{end}}}')
    assert kind == 6, f"a record of kind {kind}"
    return message("DELETE", f"/exclusions/{name}")


@dataclass
class Soaked:
    """What clients and copier found, and the journal's records."""

    clients: list[Client]
    copies: list[list[bytes]]
    history: list[bytes]
    kept: list[bytes] = field(default_factory=list)

    def __post_init__(self) -> None:
        self.kept = [named(request(it)) for it in self.history]

    @property
    def asked(self) -> list[Asked]:
        return [it for client in self.clients for it in client.asked]


def soak(office: Office, span: Span) -> Soaked:
    one, other = ("  - target: 0.999\n", "  - target: 0.99\n")
    office.ask([define(objects.ratio("good"), objects.service("shop"), objects.slo("shop-slo", "good", one + other, ["workbook-page"])), message("POST", "/upgrade")])
    with office.serving() as server:
        course = Course(span)
        clients = [Client(number, server, course) for number in range(CLIENTS)]
        copier = Copier(office, course)
        for thread in [*clients, copier]:
            thread.start()
        while not course.is_over():
            time.sleep(0.05)
        assert server.child.poll() is None, f"the program ended with {server.child.poll()}"
    threads: list[Client | Copier] = [*clients, copier]
    for it in threads:
        it.join(90)
        assert it.fault is None, it.fault
    return Soaked(clients, copier.copies, office.records())


def each_once(found: Soaked) -> None:
    """Each record was sent, none stands twice, and each acknowledged one stands where its answer says."""
    sent = set().union(*(client.sent for client in found.clients))
    assert all(it in sent for it in found.kept[2:]), "a record that was never sent"
    assert len(set(found.kept)) == len(found.kept), "two records are one change"
    places = set(found.kept)
    told: set[int] = set()
    for asked in found.asked:
        assert asked.change is None or asked.change in places, "an acknowledged change isn't in the journal"
        if asked.entry is not None:
            assert found.kept[asked.entry] == asked.change, f"entry {asked.entry} is another change"
            assert asked.entry not in told, f"entry {asked.entry} was told twice"
            told.add(asked.entry)


def in_order(found: Soaked) -> None:
    """What was acknowledged before a request was sent stands before what that request made or saw."""
    every = [(it, it.made) for it in found.asked if it.made is not None]
    ends = sorted((it.ended, it.entry) for it, _ in every if it.entry is not None)
    at, greatest = 0, -1
    for asked, made in sorted(every, key=lambda it: it[0].begun):
        while at < len(ends) and ends[at][0] < asked.begun:
            greatest = max(greatest, ends[at][1])
            at += 1
        assert greatest < made <= len(found.kept), f"entry {greatest} was acknowledged before a request that saw {made}"
    links: dict[tuple[int, int], int] = {}
    for asked, made in every:
        place = made if asked.entry is not None else made - 1
        assert place >= links.get(asked.link, -1), f"the answers of a link go back, to {place}"
        links[asked.link] = place


def copies_open(found: Soaked) -> None:
    whole = [named(it) for it in found.history]
    assert found.copies, "no copy was made"
    for copy in found.copies:
        assert copy == whole[: len(copy)], f"a copy of {len(copy)} records isn't the journal's front"


def played_again(office: Office, other: Office, found: Soaked, span: Span) -> None:
    """The changes once more, in their order, over one link after another; 1,000 requests are a session."""
    with other.serving() as server:
        for first in range(0, len(found.history), 1000):
            part = found.history[first : first + 1000]
            link = server.link()
            link.send(b"".join(map(request, part)))
            for number in range(len(part)):
                answer = link.answer()
                assert answer.status == 200 and answer.told["entry"] == first + number, (first + number, answer)
            link.cut()
    assert [it[4:] for it in found.history] == [it[4:] for it in other.records()], "another history when played again"
    assert office.report(span.now) == other.report(span.now), "another report"


def made_anew(office: Office, room: Path, span: Span) -> None:
    parts = exported.parts(office)
    assert exported.requests(b"".join(parts)) == exported.wanted(office), "an export that isn't what the journal says"
    copy = exported.made(office.program, room, span.origin, parts)
    assert exported.parts(copy) == parts, "the copy's export is another one"
    assert exported.same_report(office, copy, span.now), "another report"


def run(report: Report) -> None:
    now = minute_now()
    span = Span(now - 40_000, now, 600.0, 10_000_000) if report.whole else Span(now - 40_000, now, 30.0, ENOUGH)
    office = Office(report.program, report.folder("office"), span.origin)
    with report.case(f"{CLIENTS} clients at random"):
        found = soak(office, span)
        refused = [it for client in found.clients for it in client.refused if "not_found" not in it]
        assert not refused, f"{len(refused)} answers that nobody asked for, as {refused[0]}"
    if not report.passed:
        return
    answered = len(found.asked)
    with report.case(f"{len(found.history)} changes, each once in the journal at its place"):
        each_once(found)
    with report.case(f"{answered} answers in an order that all links agree with"):
        in_order(found)
    with report.case(f"{len(found.copies)} copies of the journal while it was written"):
        copies_open(found)
    quick = Path("/dev/shm") if os.access("/dev/shm", os.W_OK) else report.room
    with report.case("the same changes over one link after another"), tempfile.TemporaryDirectory(dir=quick) as room:
        played_again(office, Office(report.program, Path(room), span.origin), found, span)
    with report.case("its export, and the office that it makes"), tempfile.TemporaryDirectory(dir=quick) as room:
        made_anew(office, Path(room), span)
