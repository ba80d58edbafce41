"""`report` and `export` in a loop beside a running office that takes changes: what they read is a front of its history.

Four links send changes as they are answered: batches of one to a thousand rows, of which the first counts the link's
changes, and now and then a definition of some 200 kB. Meanwhile `report` and `export` read the same file, one run after
another. Each has to end well; the entries of which it tells are at least those that were acknowledged when it began, and
at most those that were sent when it ended; and its text is, byte for byte, what the program says over the front of the
journal that has just so many records. The fronts are cut from the journal when the office has ended.
"""
from __future__ import annotations

import random
import re
import threading
import time
from dataclasses import dataclass

import exported
import objects
from office import Office, Server, define, message, minute_now
from report import Report

LINKS = 4
SECONDS = {False: 6.0, True: 60.0}
# So many minutes of each link have rows, of which a change takes some: the office stays small, and is read fast.
MINUTES = 5000
PAUSE = 0.03
LARGE = 200_000


@dataclass
class Counts:
    """Changes of all links, that were sent and that were acknowledged."""

    sent: int = 0
    acknowledged: int = 0


class Sender(threading.Thread):
    """Sends one change after another over a link of its own, until it is told to stop."""

    def __init__(self, number: int, server: Server, origin: int, counts: Counts, lock: threading.Lock) -> None:
        super().__init__(daemon=True)
        self.number, self.server, self.origin, self.counts, self.lock = number, server, origin, counts, lock
        self.chance = random.Random(number)
        self.stopped, self.fault = threading.Event(), ""
        self.revision = 0

    def change(self) -> bytes:
        """Each has a revision of its own, so that each row of it is new or newer."""
        self.revision += 1
        if self.chance.random() < 0.02:
            return define(objects.service(f"large-{self.number}", f'  labels:\n    t: "{self.revision}-{"x" * LARGE}"\n'))
        minutes = self.chance.sample(range(1, MINUTES), self.chance.choice((0, 0, 2, 9, 99, 999)))
        rows = "".join(f"good,link{self.number},{self.origin + it},{self.revision},{it % 7},9\n" for it in [0, *minutes])
        return message("POST", "/samples", rows)

    def run(self) -> None:
        try:
            link = self.server.link()
            while not self.stopped.is_set():
                with self.lock:
                    self.counts.sent += 1
                answer = link.ask(self.change())
                assert answer.status == 200 and answer.told["entry"] is not None, answer
                with self.lock:
                    self.counts.acknowledged += 1
                time.sleep(self.chance.random() * PAUSE)
        except Exception as why:
            self.fault = f"{type(why).__name__}: {why}"


@dataclass(frozen=True)
class Reading:
    """What a run beside the office said, and how many changes were acknowledged before it and sent behind it."""

    words: tuple[str, ...]
    text: bytes
    least: int
    most: int


def cut_at(data: bytes, gates: list[int], count: int) -> bytes:
    """The front of a journal with so many records, behind which the gate is closed."""
    return data[: gates[count]] + b"\x00"


def gates_of(data: bytes) -> list[int]:
    found, at = [13], 13
    while data[at]:
        at += 5 + int.from_bytes(data[at + 1 : at + 5], "big")
        found.append(at)
    return found


def counted(it: Reading, fronts: dict[tuple[int, ...], int]) -> int:
    """How many records a reading tells of: a report says it, an export by the changes of each link that are in it."""
    if it.words[0] == "report":
        told = re.match(rb"report at \d+, entries (\d+)\n", it.text)
        assert told, it.text[:100]
        return int(told[1])
    return fronts[seen_in(it.text)]


def seen_in(text: bytes) -> tuple[int, ...]:
    """The last change of each link that an export's rows and large objects show."""
    found = [0] * LINKS
    for number, revision in re.findall(rb"good,link(\d),\d+,(\d+),", text) + re.findall(rb'name: "large-(\d)"\n  labels:\n    "t": "(\d+)-', text):
        found[int(number)] = max(found[int(number)], int(revision))
    return tuple(found)


def fronts_of(records: list[bytes]) -> dict[tuple[int, ...], int]:
    """By the last change of each link: how many records there are then."""
    found, seen = {(0,) * LINKS: 0}, [0] * LINKS
    for count, record in enumerate(records, 1):
        if record[4] == 4:
            (sli, source, _), (revision, _) = next(iter(exported.kept([record]).rows.items()))
            assert sli == "good" and source.startswith("link"), source
            seen[int(source[4:])] = revision
        elif told := re.search(rb'name: large-(\d)\n  labels:\n    t: "(\d+)-', record):
            seen[int(told[1])] = int(told[2])
        found[tuple(seen)] = count
    return found


def readings(office: Office, server: Server, at: int, origin: int, seconds: float) -> list[Reading]:
    """The runs of some seconds beside the office, while all links send."""
    counts, lock = Counts(), threading.Lock()
    senders = [Sender(number, server, origin, counts, lock) for number in range(LINKS)]
    for it in senders:
        it.start()
    found, end = [], time.monotonic() + seconds
    while time.monotonic() < end:
        words = ("report", str(at)) if len(found) % 2 else ("export", "1")
        with lock:
            least = counts.acknowledged
        done = office.run(*words)
        with lock:
            most = counts.sent
        assert (done.returncode, done.stderr) == (0, b""), (words, done.returncode, done.stderr)
        found.append(Reading(words, done.stdout, least, most))
    for it in senders:
        it.stopped.set()
    for it in senders:
        it.join(60)
        assert not it.fault and not it.is_alive(), it.fault or "a link that waits"
    assert counts.acknowledged == counts.sent > len(found), "too few changes to say much"
    return found


def run(report: Report) -> None:
    now = minute_now()
    origin = now - MINUTES - 10
    office = Office(report.program, report.folder("office"), origin)
    texts = [objects.service("shop"), objects.ratio("good"), objects.slo("o", "good", "  - target: 0.9\n", ["workbook-page"])]
    assert office.ask([define(*texts), message("POST", "/upgrade")])[1].status == 200
    before = len(office.records())
    found: list[Reading] = []
    with report.case("report and export end well beside an office that takes changes"), office.serving() as server:
        found = readings(office, server, now - 1, origin, SECONDS[report.whole])
    if report.failed:
        return
    data = office.journal.read_bytes()
    gates, fronts = gates_of(data), fronts_of(office.records())
    front = Office(report.program, report.folder("front"))
    for name in ("report", "export"):
        those = [it for it in found if it.words[0] == name]
        with report.case(f"{name}: {len(those)} runs, each over all that was acknowledged when it began, or more"):
            assert len({it.text for it in those}) > 3, "too few histories to say much"
            for it in those:
                count = counted(it, fronts)
                assert before + it.least <= count <= before + it.most, (count - before, it.least, it.most)
                front.journal.write_bytes(cut_at(data, gates, count))
                done = front.run(*it.words)
                assert done.returncode == 0 and done.stdout == it.text, f"another text over the first {count} records"
