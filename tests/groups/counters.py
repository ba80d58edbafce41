"""The command `counters`: its rows, its refusals and limits, and its output at an office, sent once and again.

The expected rows and lines are worked out by hand. `tests/counter_lists` holds random lists against a computation of its own.
"""
from __future__ import annotations

import os
import subprocess
from collections.abc import Iterable
from pathlib import Path

import objects
from office import Office, define, message, minute_now
from report import Report

SLI = "shop-good"
MOST_BYTES = 67_108_864
MOST_READINGS = 2_000_000
MOST_COUNTER = 10**18
MOST_TOTAL = 10**9

READINGS = [
    "a,10,1,100,200",
    "a,20,1,150,260",
    "a,15,1,120,230",
    "a,30,1,5,8",
    "a,20,2,150,270",
    "a,20,1,150,260",
    "b,5,1,5,10",
    "b,6,1,9,11",
]
ROWS = ["a,20,1,50,60", "a,15,1,20,30", "a,20,2,30,30", "a,30,1,5,8", "a,20,3,30,40", "b,6,1,1,1"]
BROKEN = [
    ("no field", "x", "fields"),
    ("six fields", "a,1,1,1,1,1", "fields"),
    ("a line of one space", " ", "fields"),
    ("a source that is no label", "a/b,1,1,1,1", "source"),
    ("a source of 64 bytes", "s" * 64 + ",1,1,1,1", "source"),
    ("a source without a byte, and no minute", ",x,1,1,1", "source"),
    ("a minute that isn't the clock's", "a,67108864,1,1,1", "minute"),
    ("a minute with a sign", "a,-1,0,2,1", "minute"),
    ("a revision of 0", "a,1,0,2,1", "revision"),
    ("a revision above 1,000,000,000", "a,1,1000000001,1,1", "revision"),
    ("more good events than all", "a,1,1,2,1", "counts"),
    ("a counter above 10^18", f"a,1,1,0,{MOST_COUNTER + 1}", "counts"),
    ("a good counter above 10^18", f"a,1,1,{MOST_COUNTER + 1},{MOST_COUNTER + 1}", "counts"),
    ("a counter of 30 digits", "a,1,1,0," + "9" * 30, "counts"),
]


def lines(of: Iterable[str]) -> bytes:
    return "".join(line + "\n" for line in of).encode()


def rows(of: Iterable[str]) -> bytes:
    return lines(f"{SLI},{row}" for row in of)


def counted(program: Path, data: bytes, *words: str) -> subprocess.CompletedProcess[bytes]:
    return subprocess.run([program, "counters", *words], input=data, capture_output=True, timeout=120)


def wanted(program: Path, data: bytes, out: bytes, why: str = "") -> None:
    """One run, which has to write these rows, and where there is a reason to end with 9 and that line."""
    done = counted(program, data, SLI)
    said = f"slo_office: {why}\n".encode() if why else b""
    got = (done.returncode, done.stdout, done.stderr)
    assert got == (9 if why else 0, out, said), f"{str(got)[:600]}, wanted {out[:300]!r} {said!r}"


def worked(report: Report) -> None:
    """The rows of eight readings, late and corrected ones and a reset among them."""
    program, data = report.program, lines(READINGS)
    with report.case("the rows of eight readings"):
        wanted(program, data, rows(ROWS))
    with report.case("each front of the list gives a front of the rows"):
        for count, given in enumerate((0, 0, 1, 3, 4, 5, 5, 5, 6)):
            wanted(program, lines(READINGS[:count]), rows(ROWS[:given]))
    with report.case("a ninth reading that jumps"):
        wanted(program, data + b"b,7,1,9,2000000011\n", rows(ROWS), "record 9: jump 7")
    with report.case("a ninth reading in conflict"):
        wanted(program, data + b"a,15,1,1,1\n", rows(ROWS), "record 9: conflict 120,230")
    with report.case("the last line without its end, lines that end in CR LF, empty lines, quotes"):
        wanted(program, data[:-1], rows(ROWS))
        wanted(program, data.replace(b"\n", b"\r\n\r\n"), rows(ROWS))
        wanted(program, b"\xef\xbb\xbf" + b'"' + data[:1] + b'"' + data[1:], rows(ROWS))
    with report.case("an input that ends in quotes"):
        wanted(program, data + b'"a,40,1,9,9\n', rows(ROWS), "record 9: fields")
        wanted(program, data + b'a,40,1,9,"9\n', rows(ROWS), "record 9: counts")
        wanted(program, data + b'a,40,1,9,"9"', rows([*ROWS, "a,40,1,1,1"]))
    with report.case("a counter that stood still is a difference of 0 of 0"):
        wanted(program, lines(["a,1,1,5,9", "a,2,1,5,9"]), rows(["a,2,1,0,0"]))
    with report.case("the part is at most the total, and a change of good that this hides gives no row"):
        wanted(program, lines(["a,1,1,0,9", "a,2,1,8,12", "a,2,2,9,12", "a,2,3,2,12"]), rows(["a,2,1,3,3", "a,2,2,2,3"]))
    with report.case("a good number that fell is a reset, and so is a total"):
        wanted(program, lines(["a,1,1,5,9", "a,2,1,4,10", "a,3,1,4,8"]), rows(["a,2,1,4,10", "a,3,1,4,8"]))
    with report.case("a reading before the first of its source"):
        wanted(program, lines(["a,9,1,5,9", "a,4,1,2,3", "a,9,2,6,9"]), rows(["a,9,1,3,6", "a,9,2,4,6"]))


def refusals(report: Report) -> None:
    """Each rule that a record breaks by itself, in their order; the rows before it stand."""
    for name, line, word in BROKEN:
        with report.case(f"refused: {name}"):
            wanted(report.program, lines([*READINGS[:2], line, "a,25,1,200,300"]), rows(ROWS[:1]), f"record 3: {word}")
    with report.case("a jump of the next difference alone, and of the own one before it"):
        first = ["a,10,1,0,0", f"a,30,1,0,{MOST_TOTAL}"]
        row = f"a,30,1,0,{MOST_TOTAL}"
        late = [f"a,20,1,0,{MOST_TOTAL + 1}", "a,40,1,0,5"]
        wanted(report.program, lines([*first, *late]), rows([row]), "record 3: jump 20")
        # one that is late and low: what rose behind it passes the limit
        low = ["a,10,1,0,5", f"a,30,1,0,{MOST_TOTAL + 5}", "a,20,1,0,4"]
        wanted(report.program, lines(low), rows([row]), "record 3: jump 30")
    with report.case("the words"):
        for words in ([], [SLI, "b"], ["-x"], ["a/b"], ["s" * 64], [""]):
            done = counted(report.program, lines(READINGS), *words)
            assert (done.returncode, done.stdout, done.stderr) == (2, b"", b"slo_office: usage\n"), f"{words}: {done}"
        done = counted(report.program, b"a,1,1,1,1\na,2,1,1,1\n", "s" * 63)
        assert (done.returncode, done.stdout) == (0, b"s" * 63 + b",a,2,1,0,0\n"), str(done)


def limits(report: Report) -> None:
    """The greatest counter, the greatest difference, the most readings, and the most bytes; and one more."""
    program = report.program
    with report.case("a counter of 10^18"):
        wanted(program, lines([f"a,1,1,0,{MOST_COUNTER - 5}", f"a,2,1,1,{MOST_COUNTER}"]), rows(["a,2,1,1,5"]))
    with report.case("a difference of 10^9, and one more"):
        wanted(program, lines(["a,1,1,0,7", f"a,2,1,3,{MOST_TOTAL + 7}"]), rows([f"a,2,1,3,{MOST_TOTAL}"]))
        wanted(program, lines(["a,1,1,0,7", f"a,2,1,3,{MOST_TOTAL + 8}"]), b"", "record 2: jump 2")
    with report.case("as many bytes as may be, and one more"):
        data = lines(READINGS)
        wanted(program, data + b"\n" * (MOST_BYTES - len(data)), rows(ROWS))
        wanted(program, data + b"\n" * (MOST_BYTES + 1 - len(data)), b"", "input too large")
        wanted(program, b"x\n" + data + b"\n" * (MOST_BYTES - len(data)), b"", "input too large")
    with report.case("2,000,000 minutes with a reading, a correction there, and one minute more"):
        many = b"".join(b"w,%d,1,1,1\n" % minute for minute in range(MOST_READINGS))
        out = b"".join(b"shop-good,w,%d,1,0,0\n" % minute for minute in range(1, MOST_READINGS))
        wanted(program, many + b"w,0,2,0,0\nv,1,1,1,1\n", out + b"shop-good,w,1,2,1,1\n", f"record {MOST_READINGS + 2}: limit")


def faults(report: Report) -> None:
    """An input that fails, an output that is full; no journal is made or needed."""
    program, folder = report.program, report.folder("faults")
    with report.case("an input that fails"):
        place = os.open(folder, os.O_RDONLY)
        done = subprocess.run([program, "counters", SLI], stdin=place, capture_output=True, timeout=60)
        os.close(place)
        assert (done.returncode, done.stdout, done.stderr) == (5, b"", b"slo_office: read fault\n"), str(done)
    with report.case("an output that is full"), open("/dev/full", "wb") as full:
        done = subprocess.run([program, "counters", SLI], input=lines(READINGS), stdout=full, stderr=subprocess.PIPE, timeout=60)
        assert (done.returncode, done.stderr) == (6, b"slo_office: write fault\n"), str(done)
    with report.case("no journal is made or needed"):
        done = subprocess.run([program, "counters", SLI], input=lines(READINGS), cwd=folder, capture_output=True, timeout=60)
        assert (done.returncode, done.stdout) == (0, rows(ROWS)), str(done)
        assert not list(folder.iterdir())


def at_an_office(report: Report) -> None:
    """The rows sent to an office, once and again, and again with those of a longer list."""
    origin = minute_now() - 1000

    def later(reading: str) -> str:
        source, minute, rest = reading.split(",", 2)
        return f"{source},{origin + int(minute)},{rest}"

    with report.case("rows that are sent again change nothing, and those of a longer list bring what is new"):
        office = Office(report.program, report.folder("office"), origin)
        sent = counted(report.program, lines(map(later, READINGS)), SLI).stdout
        longer = counted(report.program, lines(map(later, [*READINGS, "b,7,1,10,13", "a,25,1,0,1"])), SLI).stdout
        assert sent == rows(map(later, ROWS)) and longer.startswith(sent), longer
        batches = [message("POST", "/samples", data) for data in (sent, sent, longer, longer)]
        got = [it.told for it in office.ask([define(objects.ratio(SLI)), *batches])[1:]]
        counts = [(it["new"], it["newer"], it["repeated"], it["superseded"]) for it in got]
        assert counts == [(4, 2, 0, 0), (0, 0, 4, 2), (2, 1, 4, 2), (0, 0, 6, 3)], str(counts)


def run(report: Report) -> None:
    worked(report)
    refusals(report)
    limits(report)
    faults(report)
    at_an_office(report)
