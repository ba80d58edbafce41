"""The limits that take longer than the gate has: each is reached at its number, and passed in several ways.

The expected answers are worked out here, not taken from the program. The greatest two, of cells and of the journal's bytes,
take four minutes and are tried with --whole alone.
"""
from __future__ import annotations

import subprocess

import objects
from feeds import feed, moment, tick
from office import Answer, Office, define, message, minute_now
from report import Report

MOST_BYTES = 67_108_864
MOST_CELLS = 2_000_000
ROW = b"web,100,1,9990,10000\n"


def budget(report: Report, data: bytes) -> str:
    """The first two lines of `budget`, or the line that says why there are none."""
    done = subprocess.run([report.program, "budget", "0.999", "0", "67000000"], input=data, capture_output=True)
    assert done.returncode in (0, 9), done
    return b" ".join(done.stdout.split(b"\n")[:2]).decode() if done.returncode == 0 else done.stderr.decode().strip()


def padded(head: bytes, size: int) -> bytes:
    """A text of so many bytes: empty lines are no records."""
    return head + b"\n" * (size - len(head))


def budgets(report: Report) -> None:
    """67,108,864 bytes and one more, 2,000,000 cells and one more."""
    last, cells = b"w,1,1,1,1", "".join(f"w,{minute},1,1,1\n" for minute in range(MOST_CELLS)).encode()
    tried = [
        ("as many bytes as may be", padded(ROW, MOST_BYTES), "cells 1 corrected 0"),
        ("one byte more", padded(ROW, MOST_BYTES + 1), "slo_office: input too large"),
        ("a broken record among as many bytes as may be", padded(b"web\n", MOST_BYTES), "slo_office: record 1: fields"),
        ("a broken record among one byte more", padded(b"web\n", MOST_BYTES + 1), "slo_office: input too large"),
        ("a last record without a line feed", padded(ROW, MOST_BYTES - len(last)) + last, "cells 2 corrected 0"),
        ("a quote that is never closed", padded(b'web,"', MOST_BYTES), "slo_office: record 1: fields"),
        ("as many cells as may be", cells, "cells 2000000 corrected 0"),
        ("and a correction", cells + b"w,0,2,1,1\n", "cells 2000000 corrected 1"),
        ("and a conflict", cells + b"w,0,1,1,2\n", "slo_office: record 2000001: conflict 1,1"),
        ("one cell more", cells + b"w,2000000,1,1,1\n", "slo_office: record 2000001: limit"),
        ("one cell more, and a broken record", cells + b"v,1,1,1,1\nweb\n", "slo_office: record 2000001: limit"),
    ]
    for name, data, wanted in tried:
        with report.case(f"budget: {name}"):
            said = budget(report, data)
            assert said == wanted, f"{said}, wanted {wanted}"


class Wanted:
    """Requests with the answers that they have to get, sent in as few sessions as may be."""

    def __init__(self, office: Office) -> None:
        self.office = office
        self.asked: list[tuple[bytes, int, str]] = []

    def want(self, sent: bytes, status: int, body: str) -> None:
        self.asked.append((sent, status, body))

    def refused(self, sent: bytes, which: str) -> None:
        self.want(sent, 507, f'{{"error":"limit","which":"{which}"}}')

    def settle(self) -> None:
        asked, self.asked = self.asked, []
        for number, ((sent, status, body), got) in enumerate(zip(asked, self.office.ask(it for it, _, _ in asked))):
            assert got == Answer(status, body.encode()), f"request {number}, {sent[:80]!r}: wanted {status} {body}, got {str(got)[:300]}"


def sampled(entry: int | str, **counts: int) -> str:
    told = {"new": 0, "newer": 0, "repeated": 0, "superseded": 0, **counts}
    return f'{{"entry":{entry},' + ",".join(f'"{name}":{count}' for name, count in told.items()) + "}"


def hourly(name: str, indicator: str, count: int) -> str:
    """An SLO of some objectives in slices of an hour."""
    return objects.slo(name, indicator, "  - target: 0.9\n    timeSliceTarget: 0.5\n    timeSliceWindow: 1h\n" * count, method="Timeslices")


def days(office: Office, origin: int) -> None:
    """80,000 pairs of an objective and a day: 1,000 objectives, and 80 days that have rows."""
    it = Wanted(office)
    first = -(-origin // 1440) + 3  # the first of the days, so that there are whole days before it

    def on_days(indicator: bytes, *which: int) -> bytes:
        return message("POST", "/samples", b"".join(b"%s,web,%d,1,1,1\n" % (indicator, 1440 * day + 7) for day in which))

    it.want(define(objects.service("shop"), *map(objects.ratio, ("good", "other", "free"))), 200, '{"applied":4,"entry":0}')
    for part in range(4):
        it.want(define(*(hourly(f"o{n}", "good", 5) for n in range(50 * part, 50 * part + 50))), 200, f'{{"applied":50,"entry":{1 + part}}}')
    it.want(on_days(b"good", *range(first, first + 79)), 200, sampled(5, new=79))
    # a batch of two days more is refused whole, one of one day is taken: 80,000 pairs
    it.refused(on_days(b"good", first + 79, first + 80), "days")
    it.want(on_days(b"good", first + 79), 200, sampled(6, new=1))
    # one day more: behind them, before them, and beside a row of a day that is there
    it.refused(on_days(b"good", first + 80), "days")
    it.refused(on_days(b"good", first - 1), "days")
    it.refused(message("POST", "/samples", f"good,app,{1440 * first},1,1,1\ngood,app,{1440 * first - 1},1,1,1\n"), "days")
    # other sources and minutes of these days make no pair, nor do rows that no SLO counts
    it.want(message("POST", "/samples", f"good,app,{1440 * first},1,1,1\ngood,app,{1440 * (first + 80) - 1},1,1,1\n"), 200, sampled(7, new=2))
    it.want(on_days(b"other", *range(first - 1, first + 80)), 200, sampled(8, new=81))
    it.want(on_days(b"free", *range(first, first + 80)), 200, sampled(9, new=80))
    # an SLO of five objectives moves to an indicator of 81 days, and to one of 80
    it.refused(define(hourly("o7", "other", 5)), "days")
    it.want(define(hourly("o7", "free", 5)), 200, '{"applied":1,"entry":10}')
    # one objective fewer makes room for 80 pairs: not enough for five of 81 days in their place, nor for a day of 995
    it.want(define(hourly("o7", "free", 4)), 200, '{"applied":1,"entry":11}')
    it.refused(define(hourly("o7", "other", 5)), "days")
    it.refused(on_days(b"good", first + 80), "days")
    # three SLOs are removed: 980 objectives are left over `good` and four over `free`, and there is room for a day of 980
    for n in range(3):
        it.want(message("DELETE", f"/objects/SLO/o{10 + n}"), 200, f'{{"entry":{12 + n}}}')
    it.want(on_days(b"good", first + 80), 200, sampled(15, new=1))
    it.refused(on_days(b"good", first + 81), "days")
    # 300 pairs of room: three objectives of 81 days are let in, four aren't
    it.refused(define(hourly("new", "good", 4)), "days")
    it.want(define(hourly("new", "good", 3)), 200, '{"applied":1,"entry":16}')
    it.settle()


def catalog(office: Office, _: int) -> None:
    """16,777,216 bytes of canonical writing: 17 services, each with one long label."""
    it = Wanted(office)
    whole, most = 16_777_216, 1_000_000

    def length(name: str, text: str) -> int:
        """The bytes of a service's canonical writing."""
        lines = ["apiVersion: openslo/v1", "kind: Service", "metadata:", f'  name: "{name}"', "  labels:", f'    "t": "{text}"', "spec: {}"]
        return sum(len(line) + 1 for line in lines)

    def labelled(name: str, size: int) -> str:
        return objects.service(name, f'  labels:\n    t: "{"x" * size}"\n')

    bare = length("s00", "")
    left = whole - 16 * (bare + most)
    for n in range(16):
        it.want(define(labelled(f"s{n:02}", most)), 200, f'{{"applied":1,"entry":{n}}}')
    it.refused(define(labelled("s16", left - bare + 1)), "catalog")
    it.want(define(labelled("s16", left - bare)), 200, '{"applied":1,"entry":16}')
    it.refused(define(objects.service("a")), "catalog")
    it.refused(define(labelled("s03", most + 1)), "catalog")
    it.want(define(labelled("s03", most - 1)), 200, '{"applied":1,"entry":17}')
    it.want(define(labelled("s04", most + 1)), 200, '{"applied":1,"entry":18}')
    # as it stands already nothing is added; an object of another kind is refused too
    it.want(define(labelled("s04", most + 1)), 200, '{"applied":1,"entry":null}')
    it.refused(define(objects.ratio("a")), "catalog")
    # a removal makes room for just as many bytes, in one object or in two of one text
    it.want(message("DELETE", "/objects/Service/s05"), 200, '{"entry":19}')
    it.refused(define(labelled("s17", most + 1)), "catalog")
    it.refused(define(labelled("t00", 1), labelled("t01", most - bare)), "catalog")
    it.want(define(labelled("t00", 1), labelled("t01", most - bare - 1)), 200, '{"applied":2,"entry":20}')
    it.refused(define(objects.service("a")), "catalog")
    it.settle()


def notices(office: Office, _: int) -> None:
    """100,000 notices that wait: 400 bindings that change their state at 250 ticks."""
    it = Wanted(office)
    one = "  - target: 0.9\n"
    texts = [objects.service("shop"), objects.ratio("good"), *(objects.slo(f"o{n}", "good", one, ["workbook-page", "alerts"]) for n in range(200))]
    texts += [objects.condition("burn", "0.5", "30d"), objects.policy("alerts", "burn")]
    it.want(define(*texts), 200, '{"applied":204,"entry":0}')
    minute = minute_now() - 1

    def row(revision: int, good: int) -> bytes:
        return message("POST", "/samples", f"good,web,{minute},{revision},{good},1\n")

    # the row lies in both windows of each policy: good and bad in turn, and all bindings follow
    for tick in range(250):
        it.want(row(tick + 1, tick % 2), 200, sampled(1 + 2 * tick, **{"newer" if tick else "new": 1}))
        it.want(message("POST", "/tick"), 200, f'{{"entry":{2 + 2 * tick},"notices":400}}')
    it.want(row(251, 0), 200, sampled(501, newer=1))
    it.refused(message("POST", "/tick"), "notices")
    # after one was taken there is room for one more, and a tick that makes no notice is let through
    it.want(message("POST", "/notices/1/take"), 200, '{"entry":502}')
    it.refused(message("POST", "/tick"), "notices")
    it.want(row(252, 1), 200, sampled(503, newer=1))
    it.want(message("POST", "/tick"), 200, '{"entry":504,"notices":0}')
    it.settle()


def samples(first: int, origin: int, revision: int = 1, count: int = 1000) -> bytes:
    """Rows of four sources, minute after minute."""
    return message("POST", "/samples", b"".join(b"good,s%d,%d,%d,1,1\n" % (n % 4, origin + n // 4, revision) for n in range(first, first + count)))


def rows(*lines: str) -> bytes:
    return message("POST", "/samples", "".join(f"{it}\n" for it in lines))


def fill(it: Wanted, origin: int, revision: int, entry: int, last: int, first: int = 0) -> None:
    """2,000,000 rows from a row on in 2,000 batches, the last of so many."""
    for n in range(2000):
        count = 1000 if n < 1999 else last
        it.want(samples(first + 1000 * n, origin, revision, count), 200, sampled(entry + n, **{"new" if revision == 1 else "newer": count}))
    it.settle()


def cells(office: Office, origin: int) -> None:
    """2,000,000 cells; by corrections of all of them but two, 4,000,000 accepted rows; and twice of both behind the upgrade."""
    it = Wanted(office)
    texts = [objects.service("shop"), objects.ratio("good"), objects.ratio("other"), objects.slo("shop-slo", "good", "  - target: 0.9\n")]
    it.want(define(*texts), 200, '{"applied":4,"entry":0}')
    fill(it, origin, 1, 1, 999)
    # one cell of room: two cells are refused, one that comes twice is let in
    minute = origin + 1_999_999 // 4
    it.refused(rows(f"good,s3,{minute},1,1,1", f"good,s4,{minute},1,1,1"), "cells")
    it.want(rows(f"good,s3,{minute},1,0,1", f"good,s3,{minute},2,1,1"), 200, sampled(2001, new=1, newer=1))
    # one more: at another minute, of another source, of another SLI, beside a correction, behind rows that stand
    for more in (f"good,s0,{minute + 1},1,1,1", f"good,app,{origin},1,1,1", f"other,s0,{origin},1,1,1"):
        it.refused(rows(more), "cells")
    it.refused(rows(f"good,s2,{minute},2,1,1", f"good,s0,{minute + 1},1,1,1"), "cells")
    it.refused(rows(*(f"good,s{n % 4},{origin + n // 4},1,1,1" for n in range(999)), f"good,app,{origin},1,1,1"), "cells")
    # a fault of a row is told before any of these limits
    it.want(rows(f"good,app,{origin},1,1,1", f"good,app,{origin - 1},1,1,1"), 422, f'{{"error":"early","minute":{origin - 1},"origin":{origin},"row":2}}')
    # what stands or is superseded takes no room
    it.want(rows(f"good,s3,{minute},2,1,1", f"good,s3,{minute},1,0,1"), 200, sampled("null", repeated=1, superseded=1))
    # 2,000,001 rows were accepted; with 1,999,998 corrections one more is let in, two aren't
    fill(it, origin, 2, 2002, 998)
    it.refused(rows(f"good,s0,{origin},3,1,1", f"good,s1,{origin},3,1,1"), "accepted")
    it.refused(rows(f"good,s0,{origin},3,1,1", f"good,s0,{origin},4,1,1"), "accepted")
    it.want(rows(f"good,s0,{origin},3,1,1", f"good,s0,{origin},2,1,1"), 200, sampled(4002, newer=1, superseded=1))
    # one more: a correction of that cell, of another one, or behind rows that stand; a new cell passes the other limit first
    for more in (f"good,s0,{origin},4,1,1", f"good,s1,{minute},3,1,1"):
        it.refused(rows(more), "accepted")
    it.refused(rows(*(f"good,s{n % 4},{origin + n // 4},2,1,1" for n in range(1, 1000)), f"good,s1,{minute},3,0,1"), "accepted")
    it.refused(rows(f"other,s0,{origin},1,1,1"), "cells")
    it.want(samples(1000, origin, 2), 200, sampled("null", repeated=1000))
    it.want(samples(1000, origin), 200, sampled("null", superseded=1000))
    it.want(rows(f"good,s0,{origin},4,,"), 422, '{"error":"version","row":1}')
    # the upgrade makes room for 2,000,000 cells and 4,000,000 rows more; a withdrawn row has its cell, and takes its room
    it.want(message("POST", "/upgrade"), 200, '{"entry":4003}')
    it.want(rows(f"other,s0,{origin},1,,"), 200, sampled(4004, new=1))
    fill(it, origin, 1, 4005, 998, 2_000_000)
    it.refused(rows(f"good,app,{origin},1,,", f"other,s1,{origin},1,1,1"), "cells")
    it.want(rows(f"good,app,{origin},1,,"), 200, sampled(6005, new=1))
    for more in (f"good,app,{origin + 1},1,,", f"other,s1,{origin},1,1,1"):
        it.refused(rows(more, f"other,s0,{origin},2,1,1"), "cells")
    it.want(rows(f"good,s0,{origin},4,,", f"other,s0,{origin},2,1,1"), 200, sampled(6006, newer=2))
    # 6,000,002 rows were accepted; with 1,999,998 corrections none is let in
    fill(it, origin, 2, 6007, 998, 2_000_000)
    for more in (f"good,s0,{origin},5,1,1", f"other,s0,{origin},3,,"):
        it.refused(rows(more), "accepted")
    it.refused(rows(f"other,s1,{origin},1,1,1"), "cells")
    it.want(rows(f"good,s0,{origin},4,,", f"good,s0,{origin},3,1,1", f"good,app,{origin},1,,"), 200, sampled("null", repeated=2, superseded=1))
    it.settle()


def journal(office: Office, origin: int) -> None:
    """A journal of 268,435,456 bytes."""
    it = Wanted(office)
    most, room = 268_435_456, 1_048_576

    def sent(number: int, size: int) -> bytes:
        """A text of so many bytes that defines a service anew: it ends in a comment."""
        text = objects.service("shop", f'  displayName: "{number}"\n')
        return define(text + "#" + "x" * (size - len(text) - 2) + "\n")

    def full(asked: bytes, record: int) -> None:
        """The place of the closed gate, its opening and 4 bytes of length, the record, and the next gate."""
        it.want(asked, 507, f'{{"error":"journal_full","needed":{tail + 1 + 4 + record + 1},"tail":{tail}}}')

    # a record of a definition: gate, length, moment, kind, length of the text, text
    tail, entry = 13, 0
    while most - tail > 2 * room:
        for _ in range(min(64, (most - tail) // (14 + room) - 1) or 1):
            it.want(sent(entry, room), 200, f'{{"applied":1,"entry":{entry}}}')
            tail, entry = tail + 14 + room, entry + 1
        it.settle()
    half = (most - tail - 15) // 2
    it.want(sent(entry, half), 200, f'{{"applied":1,"entry":{entry}}}')
    tail, entry = tail + 14 + half, entry + 1
    last = most - tail - 15
    full(sent(entry, last + 1), 9 + last + 1)
    it.want(sent(entry, last), 200, f'{{"applied":1,"entry":{entry}}}')
    tail, entry = tail + 14 + last, entry + 1
    it.settle()
    assert office.journal.stat().st_size == most, office.journal.stat().st_size
    zone, good = "EST5EDT,M3.2.0,M11.1.0", objects.ratio("good")
    full(message("POST", "/tick"), 4 + 1)
    full(message("DELETE", "/objects/Service/shop"), 4 + 1 + 1 + 1 + len("shop"))
    full(message("PUT", "/zones/America/New_York", zone), 4 + 1 + 1 + len("America/New_York") + 4 + len(zone))
    full(define(good), 4 + 1 + 4 + len(good))
    # a refusal by the rules comes before, and a query is answered
    it.want(message("DELETE", "/objects/Service/nope"), 404, '{"error":"not_found"}')
    it.want(message("POST", "/notices/1/take"), 422, '{"error":"unknown_notice","made":0,"number":1}')
    it.want(sent(entry - 1, last), 200, '{"applied":1,"entry":null}')
    it.want(message("GET", "/objects"), 200, f'{{"entries":{entry},"objects":[{{"kind":"Service","name":"shop"}}]}}')
    it.settle()
    full(message("POST", "/upgrade"), 4 + 1)
    it.settle()
    one_more = feed(origin, entry, [tick(moment(office.records()[-1]))])
    for words, data in (("migrate", b""), ("follow", one_more)):
        done = office.run(words, data=data)
        assert (done.returncode, done.stderr) == (9, b"slo_office: journal full\n"), done
        assert office.journal.stat().st_size == most


def questions(office: Office, origin: int) -> None:
    """576,000 minutes and 2,000 stretches of sums, 400 windows of a calendar."""
    window = "  - duration: 1d\n    isRolling: false\n    calendar:\n      startTime: 1971-01-01 00:00:00\n      timeZone: UTC\n"
    midnight = -(-origin // 1440) * 1440
    asked = [
        (f"/sums/days/0?from={origin}&to={origin + 576_000}&step=288", 2_000),
        (f"/sums/days/0?from={origin}&to={origin + 576_001}&step=289", None),
        (f"/sums/days/0?from={origin}&to={origin + 2_000}&step=1", 2_000),
        (f"/sums/days/0?from={origin}&to={origin + 2_001}&step=1", None),
        (f"/sums/days/0?from={origin}&to={origin + 4_001}&step=2", None),
        (f"/windows/days?from={midnight}&to={midnight + 400 * 1440}", 400),
        (f"/windows/days?from={midnight}&to={midnight + 400 * 1440 + 1}", None),
    ]
    defined = define(objects.service("shop"), objects.ratio("good"), objects.slo("days", "good", "  - target: 0.9\n", window=window))
    done, *got = office.ask([defined, *(message("GET", target) for target, _ in asked)])
    assert done.status == 200, done
    for (target, count), answer in zip(asked, got, strict=True):
        if count is None:
            assert answer == Answer(422, b'{"error":"range"}'), f"{target}: {str(answer)[:300]}"
        else:
            assert answer.status == 200 and len(answer.told[target.split("/")[1]]) == count, f"{target}: {str(answer)[:300]}"


def run(report: Report) -> None:
    budgets(report)
    # so many minutes that there are days enough
    origin = minute_now() - 1_500_000
    for limit in (days, catalog, notices, questions, *((cells, journal) if report.whole else ())):
        with report.case((limit.__doc__ or "").splitlines()[0].rstrip(".")):
            limit(Office(report.program, report.folder(limit.__name__), origin), origin)
