"""Feeds of entries, and the command `follow`, held against their rules in plain Python (`tests/feeds.py`).

Every end with its status, its line and the file behind it; feeds cut behind each byte and changed at each; records that
fill a feed to the byte; stops, faults and refused memory; and random histories, of which copies take feeds in random
order and then answer and go on as the office does.
"""
from __future__ import annotations

import errno
import os
import random
import signal
import subprocess
from collections.abc import Callable, Iterator, Sequence

import held
import objects
from feeds import MOST_FEED_BYTES, MOST_FEEDS_BYTES, Rules, definition, feed, feed_of, followed, journal, moment, of_history, of_moments, tick, upgrade
from groups import kept, memory
from office import Answer, Office, answers, message, minute_now
from report import Report, Skipped

MINUTE = 1_000_000


def made(report: Report, name: str, origin: int, records: Sequence[bytes] = ()) -> Office:
    """An office in a folder of its own, with a journal of these records."""
    office = Office(report.program, report.folder(name))
    office.journal.write_bytes(journal(origin, records))
    return office


def asked(office: Office, *targets: str, minute: int = MINUTE) -> list[Answer]:
    """The answers to these questions, at a minute that lies in the office's range."""
    return kept.asked_at(office, minute, [message("GET", it) for it in targets], len(targets))


def ended(office: Office, data: bytes, line: str, records: Sequence[bytes]) -> None:
    """One run of `follow`: where all is followed the line goes to the output, else behind the program's name to the errors."""
    done = office.run("follow", data=data)
    wanted = (0, f"{line}\n".encode(), b"") if line.startswith("entries ") else (9, b"", f"slo_office: {line}\n".encode())
    got = (done.returncode, done.stdout, done.stderr)
    assert got == wanted, f"{got}, wanted {wanted}"
    assert office.records() == list(records), f"{len(office.records())} records, wanted {len(records)}"


def by_rules(office: Office, origin: int, data: bytes, rules: Rules) -> str:
    """One run of `follow`, which has to end as the rules say."""
    line, records = followed(origin, office.records(), data, rules)
    ended(office, data, line, records)
    return line


def ends(report: Report) -> None:
    """Every end that the bytes and the office decide, worked out by hand and by the rules."""
    one, later = tick(500), tick(600)
    data = feed(0, 0, [one])
    cases = [
        ("a feed", [], data, "entries 1"),
        ("a feed that is held", [one], data, "entries 1"),
        ("nothing", [one], b"", "entries 1"),
        ("feeds that overlap", [one], feed(0, 0, [one, later]) + feed(0, 1, [later, later]), "entries 3"),
        ("a feed of nothing behind the end", [one], feed(0, 1, []), "entries 1"),
        ("a gap", [], feed(0, 3, [one]), "gap at 3"),
        ("a gap of no entries", [one], feed(0, 3, []), "gap at 3"),
        ("cut in a record", [], data[:-1], "cut"),
        ("cut behind a head", [], data[:20], "cut"),
        ("cut in a head", [], b"OSLO", "cut"),
        ("no feed", [], b"x" * 20, "feed broken at 0"),
        ("no feed behind one", [], data + b"!" * 20, "feed broken at 29"),
        ("a length of 0", [], feed(0, 0, [b""]) + b"more", "feed broken at 20"),
        ("a length of one more than a record has", [], feed(0, 0, [])[:16] + b"\0\0\0\1\0\x10\xc8\xe1", "feed broken at 20"),
        ("bytes that are no record", [], feed(0, 0, [b"\0\0\1\xf4\x0a"]), "feed broken at 20"),
        ("another origin", [], feed(5, 3, [one]), "other origin 5"),
        ("another entry at a position that is held", [tick(400)], data, "diverges at 0"),
        ("another one behind one that is held", [one, later], feed(0, 0, [one, one]), "diverges at 1"),
        ("an entry past the range", [], feed(0, 0, [tick(2_097_152)]), "illegal at 0"),
        ("an entry of an earlier moment", [later], feed(0, 1, [one]), "illegal at 1"),
        ("a second upgrade", [], feed(0, 0, [upgrade(5), upgrade(6)]), "illegal at 1"),
    ]
    for number, (name, records, data, line) in enumerate(cases):
        office = made(report, f"end-{number}", 0, records)
        with report.case(f"ends: {name}"):
            assert by_rules(office, 0, data, of_moments(0)) == line, f"by the rules not {line}"


def changed(data: bytes, whole: bool) -> Iterator[bytes]:
    """The bytes cut behind each of them; with each bit changed of the head and the first length; or of all bytes."""
    yield from (data[:size] for size in range(len(data)))
    for at in range(len(data) if whole else 24):
        yield from (data[:at] + bytes([data[at] ^ 1 << bit]) + data[at + 1 :] for bit in range(8))


def bytes_of_feeds(report: Report) -> None:
    """Two feeds that overlap, cut and changed, over copies that have none, one and three of their records."""
    records = [tick(500), upgrade(600), tick(600)]
    data = feed(0, 0, records[:2]) + feed(0, 1, records[1:])
    office = made(report, "bytes", 0)
    for count in (0, 1, 3):
        with report.case(f"feeds cut and changed at each byte, over {count} records"):
            for other in changed(data, report.whole):
                office.journal.write_bytes(journal(0, records[:count]))
                by_rules(office, 0, other, of_moments(0))


def service(minute: int, size: int, number: int = 0) -> bytes:
    """A record of so many bytes, that defines a service with a name to be shown of its own."""
    text = objects.service("shop", f'  displayName: "{number}"\n').encode() + b"#"
    return definition(minute, text + b"x" * (size - 9 - len(text) - 1) + b"\n")


def sizes(report: Report) -> None:
    """Feeds as long as may be, and records that make them longer."""
    room = MOST_FEED_BYTES - 20
    half = service(500, 500_000)
    rest = room - 4 - len(half) - 4
    ticks = [tick(500)] * ((room - 8 - len(half)) // 9)
    last = room - 4 - len(half) - 9 * len(ticks) - 4
    histories = [
        ("two records fill a feed to the byte", [half, service(500, rest, 1)], 2),
        ("the second record is one byte longer", [half, service(500, rest + 1, 1)], 1),
        ("one record more behind a full feed", [half, service(500, rest, 1), tick(500)], 2),
        ("ticks, and a record, fill a feed to the byte", [half, *ticks[:-20], service(500, last + 180, 1)], len(ticks) - 18),
        ("ticks, and a record that is one byte longer", [half, *ticks[:-20], service(500, last + 181, 1)], len(ticks) - 19),
        ("a record that is longer than a feed stands alone", [tick(500), service(500, 1_048_585), tick(500)], 1),
    ]
    for number, (name, records, count) in enumerate(histories):
        office, copy = made(report, f"sizes-{number}", 0, records), made(report, f"sizes-{number}-copy", 0)
        with report.case(f"sizes: {name}"):
            data, at = b"", 0
            while at < len(records):
                (answer,) = asked(office, f"/entries?from={at}")
                assert answer == Answer(200, feed_of(0, at, records)), f"another feed from {at}: {answer.status}, {len(answer.body)} bytes"
                assert at or int.from_bytes(answer.body[16:20], "big") == count, f"not {count} records"
                data, at = data + answer.body, at + int.from_bytes(answer.body[16:20], "big")
            ended(copy, data, f"entries {len(records)}", records)


def most_bytes(report: Report) -> None:
    """536,870,912 bytes of feeds that are held already, one byte more, and an input that ends just there."""
    big, small = service(500, 1_048_585), tick(600)
    long, short, bare = feed(0, 0, [big]), feed(0, 1, [small]), feed(0, 2, [])
    count = MOST_FEEDS_BYTES // len(long) - 1
    left = MOST_FEEDS_BYTES - count * len(long)
    # 29 bytes and 20 bytes come to each number that is large enough
    few = next(n for n in range(20) if (left - n * len(short)) % len(bare) == 0)
    whole = long * count + short * few + bare * ((left - few * len(short)) // len(bare))
    assert len(whole) == MOST_FEEDS_BYTES
    copy = made(report, "most", 0, [big, small])
    # each is made when it is sent: seven of them at once would take 4 GB
    cases: list[tuple[str, Callable[[], bytes], str]] = [
        ("as many as may be", lambda: whole, "entries 2"),
        ("and one more", lambda: whole + b"O", "input too large"),
        ("and a feed more", lambda: whole + short, "input too large"),
        ("ends inside the last feed", lambda: whole[:-10], "cut"),
        ("ends there inside a feed", lambda: whole[:-20] + long[:20], "cut"),
        ("goes on there inside a feed", lambda: whole[:-20] + long[:21], "input too large"),
        ("broken in its last feed", lambda: whole[:-20] + b"x" * 20, f"feed broken at {MOST_FEEDS_BYTES - 20}"),
    ]
    for name, data_of, line in cases:
        with report.case(f"536,870,912 bytes of feeds: {name}"):
            ended(copy, data_of(), line, [big, small])


def faults(report: Report) -> None:
    """An input that fails, an output that is full, no journal, a cut one, one that is held, words of no form."""
    one, copy = tick(500), made(report, "faults", 0)
    data = feed(0, 0, [one])

    def end(done: subprocess.CompletedProcess[bytes], status: int, line: str) -> None:
        assert (done.returncode, done.stdout, done.stderr) == (status, b"", f"slo_office: {line}\n".encode()), str(done)

    with report.case("an input that can't be read"):
        place = os.open(copy.folder, os.O_RDONLY)
        done = subprocess.run([copy.program, "follow"], cwd=copy.folder, stdin=place, capture_output=True, timeout=60)
        os.close(place)
        end(done, 5, "read fault")
    with report.case("an output that is full: what was taken stays"), open("/dev/full", "wb") as full:
        done = subprocess.run([copy.program, "follow"], cwd=copy.folder, input=data, stdout=full, stderr=subprocess.PIPE, timeout=60)
        assert (done.returncode, done.stderr) == (6, b"slo_office: write fault\n"), str(done)
        assert copy.records() == [one]
    with report.case("no journal, an empty one is left"):
        empty = Office(report.program, report.folder("none"))
        end(empty.run("follow", data=data), 3, "file not a journal")
        assert empty.journal.read_bytes() == b""
    with report.case("a journal that was cut"):
        whole = copy.journal.read_bytes()
        copy.journal.write_bytes(whole[:20])
        end(copy.run("follow", data=data), 3, "file damaged at 13")
        assert copy.journal.read_bytes() == whole[:20]
        copy.journal.write_bytes(whole)
    with report.case("words of no form"):
        end(copy.run("follow", "0", data=data), 2, "usage")
    with report.case("a journal that another program has"), copy.serving():
        end(copy.run("follow", data=data), 4, "disk fault")


def stops(report: Report) -> None:
    """Following is killed at each write and sync of the journal, and lets each of them fail once: a front is left, and
    followed again it is whole."""
    records = [tick(500), service(500, 200), tick(600)]
    data = feed(0, 0, records[:2]) + feed(0, 1, records[1:])
    whole = made(report, "whole", 0)
    with report.case("following without a fault"):
        try:
            ran = held.run(report.program, ["follow"], whole.folder, data)
        except held.Absent as why:
            raise Skipped(str(why)) from None
        assert (ran.status, whole.records()) == (0, records), ran
    if len(whole.records()) != len(records):
        return
    fates: tuple[tuple[str, int | str], ...] = (("killed", held.KILL), ("failed", errno.EIO))
    for call in ("pwrite64", "fdatasync", "fsync", "pread64", "input"):
        for name, fate in fates:
            with report.case(f"following {name} at each of {ran.calls[call]} calls of {call}"):
                for number in range(ran.calls[call]):
                    copy = made(report, f"{call}-{number}-{fate}", 0)
                    again = held.run(report.program, ["follow"], copy.folder, data, held.Outside(faults={(call, number): fate}))
                    left = copy.records()
                    assert left == records[: len(left)], "no front"
                    assert again.status == (5 if call == "input" else 4) or fate == held.KILL and again.status == -signal.SIGKILL, again
                    ended(copy, data, "entries 3", records)


def questions(count: int, origin: int, now: int) -> list[str]:
    """All that an office of a random history of so many entries can be asked."""
    found = ["/notices", "/objects", "/objects/Service/shop", *(f"/entries?from={at}" for at in range(0, count + 2, 7))]
    for kind, names in (("SLI", ("good", "waits")), ("AlertCondition", ("c1", "c2")), ("AlertPolicy", ("p1", "p2"))):
        found += [f"/objects/{kind}/{name}" for name in names]
    for name in (f"s{n}" for n in range(5)):
        found.append(f"/objects/SLO/{name}")
        found += [f"/budgets/{name}?at={at}" for at in range(origin, now + 1, 997)]
        for number in range(3):
            found += [f"/burns/{name}/{number}?lookback={it}" for it in ("5m", "1h", "1d")]
            found += [f"/alerts/{name}/{number}/{it}?from={origin}&to={now}" for it in kept.POLICIES]
    return found


def random_history(report: Report, seed: int) -> None:
    """An office of random changes; its feeds, and copies from random fronts that take some of them in random order; and
    one that takes all, answers alike, and goes on as the office does."""
    chance = random.Random(f"feeds {seed}")
    now = minute_now()
    origin = now - chance.choice((7_000, 20_000))
    office = Office(report.program, report.folder(f"random-{seed}"), origin)
    changes = list(kept.requests(seed, origin, now))
    end = chance.randrange(40, len(changes))
    cuts = [0, *sorted(chance.sample(range(1, end), 3)), end]
    for part, (first, last) in enumerate(zip(cuts, cuts[1:])):
        kept.asked_at(office, now + part, changes[first:last], last - first)
    now += len(cuts)
    history = office.records()
    assert len(history) > 12, "too few entries to say much"
    fronts = [len(history), *chance.sample(range(len(history)), 5)]
    for reached in fronts:
        front = made(report, f"front-{seed}-{reached}", origin, history[:reached])
        for at, answer in enumerate(asked(front, *(f"/entries?from={it}" for it in range(reached + 2)), minute=now)):
            wanted = Answer(200, feed_of(origin, at, history[:reached])) if at <= reached else Answer(422, b'{"error":"range"}')
            assert answer == wanted, f"the feed from {at} of {reached} entries"
    copy = made(report, f"copy-{seed}", origin)
    gaps = 0
    for _ in range(60 if report.whole else 20):
        copy.journal.write_bytes(journal(origin, history[: chance.choice(fronts)]))
        pairs = ((chance.choice(fronts), chance.random()) for _ in range(chance.choice((1, 2, 5, 9))))
        data = b"".join(feed_of(origin, round(share * reached), history[:reached]) for reached, share in pairs)
        gaps += by_rules(copy, origin, data, of_history(history)).startswith("gap ")
    assert gaps, "no feed behind a gap"
    by_rules(copy, origin, feed_of(origin, 0, history) + feed_of(origin, len(history), history), of_history(history))
    assert copy.journal.read_bytes() == office.journal.read_bytes(), "another file"
    compare(office, copy, questions(len(history), origin, now), now)
    # the office is lost: its copy goes on from there as the office would have
    left, right = (kept.asked_at(it, now, changes[end:], len(changes) - end) for it in (office, copy))
    assert left == right and office.records() == copy.records(), "they don't go on alike"
    compare(office, copy, questions(len(office.records()), origin, now), now)


def compare(office: Office, copy: Office, targets: list[str], minute: int) -> None:
    """Both give the same answers, byte for byte, and the same report."""
    left, right = (asked(it, *targets, minute=minute) for it in (office, copy))
    assert sum(it.status == 200 for it in left) > len(targets) // 8, "too few answers to say much"
    for target, one, other in zip(targets, left, right, strict=True):
        assert one == other, f"{target}: {one} of the office, {other} of its copy"
    present = moment(office.records()[-1])
    assert office.report(present) == copy.report(present), "another report"


def refused_memory(report: Report) -> None:
    """A growth of memory is refused, to `follow` and to an office that answers a feed, each in turn; in short some of them."""
    office, copy = (Office(report.program, report.folder(f"refused-{name}"), memory.ORIGIN) for name in ("office", "copy"))
    stride = 1 if report.whole else memory.STRIDE
    bare, counted, counts = copy.journal.read_bytes(), report.room / "counted", [0]
    with report.case(f"one of each {stride} growths refused"):
        words = dict(os.environ, LD_PRELOAD=str(memory.compiled(report.room)), COUNTED=str(counted))
        assert all(it.status == 200 for it in office.ask(memory.REQUESTS))
        history = office.records()
        data = feed_of(memory.ORIGIN, 0, history)
        question = message("GET", "/entries?from=0")

        def tried(number: int) -> tuple[str, str]:
            """How both end with this growth refused."""
            env = dict(words, REFUSED=str(number))
            copy.journal.write_bytes(bare)
            return told(office.run("pipe", data=question, env=env)), told(copy.run("follow", data=data, env=env))

        def told(done: subprocess.CompletedProcess[bytes]) -> str:
            counts.append(int(counted.read_text()))
            if done.returncode == 7:
                assert (done.stdout, done.stderr) == (b"", b"slo_office: no memory\n"), done
                return "no memory"
            assert (done.returncode, done.stderr) == (0, b""), done
            (it,) = answers(done.stdout) or [Answer(200, done.stdout)]
            assert it in (memory.NO_MEMORY, Answer(200, data), Answer(200, b"entries %d\n" % len(history))), it
            return "all" if it.status == 200 else "refused"

        assert tried(-1) == ("all", "all")
        # a feed takes its memory by one growth, which is among the office's last
        last = counts[1]
        seen: set[tuple[str, str]] = set()
        for number in sorted({*range(1, max(counts) + 1, stride), *range(max(1, last - stride), last + 1)}):
            ways = tried(number)
            seen |= {*zip(("office", "copy"), ways)}
            left = copy.records()
            assert left == history[: len(left)] and (ways[1] != "all" or left == history), f"growth {number}: no front"
            ended(copy, data, f"entries {len(history)}", history)
        assert {("copy", "no memory"), ("office", "no memory"), ("office", "refused")} <= seen, seen


def random_histories(report: Report) -> None:
    for seed in range(25 if report.whole else 1):
        with report.case(f"a random history, its feeds and copies, seed {seed}"):
            random_history(report, seed)


def run(report: Report) -> None:
    ends(report)
    bytes_of_feeds(report)
    sizes(report)
    if report.whole:
        most_bytes(report)
    faults(report)
    stops(report)
    refused_memory(report)
    random_histories(report)
