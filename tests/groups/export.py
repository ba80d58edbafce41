"""Exports of files: parts, the largest object, faults at each call, and the renewal of a journal by `examples/serve/renew`.

The requests that have to come are worked out from the records of the journal (`tests/exported.py`), or by hand. Random
offices: `tests/exports`.
"""
from __future__ import annotations

import errno
import fcntl
import gzip
import os
import re
import shutil
import signal
import subprocess
import time
from collections.abc import Callable
from contextlib import suppress

import exported
import held
import objects
from office import TOP, Office, define, message, minute_now
from report import Report

MOST_BYTES = 1_048_576
MONTH = 43_200
RENEW = TOP / "examples" / "serve" / "renew"


def service_text(name: str) -> bytes:
    return f'apiVersion: openslo/v1\nkind: Service\nmetadata:\n  name: "{name}"\nspec: {{}}\n'.encode()


SLI_TEXT = (b'apiVersion: openslo/v1\nkind: SLI\nmetadata:\n  name: "good"\nspec:\n  ratioMetric:\n'
            b'    total:\n      metricSource:\n        type: "t"\n    good:\n      metricSource:\n        type: "t"\n')


def parts(report: Report) -> None:
    """1,200 objects and 2,005 rows: 1,203 requests in two parts, of which the last is a batch of five rows."""
    origin = minute_now() - 3000
    office = Office(report.program, report.folder("parts"), origin)
    names = [f"s{n:04}" for n in range(1199)]
    rows = [f"good,web,{origin + n},1,{n % 7},9\n".encode() for n in range(2005)]
    asked = [define(*map(objects.service, names[n : n + 300])) for n in range(0, 1199, 300)] + [define(objects.ratio("good"))]
    # in batches of seven hundred, which aren't those of the export
    asked += [message("POST", "/samples", b"".join(rows[n : n + 700])) for n in range(0, 2005, 700)]
    assert all(it.status == 200 for it in office.ask(asked)), "an office that can't be made"
    wanted = [exported.request("POST /objects", it) for it in [*map(service_text, names), SLI_TEXT]]
    wanted += [exported.request("POST /samples", b"".join(rows[n : n + 1000])) for n in (0, 1000, 2000)]
    with report.case("1,203 requests: a thousand in the first part, the others in the second, none in a third"):
        assert len(wanted) == 1203 and wanted[-1].endswith(b"Content-Length: %d\r\n\r\n" % sum(map(len, rows[2000:])) + b"".join(rows[2000:]))
        assert exported.part(office, 1) == b"".join(wanted[:1000]), "another first part"
        assert exported.part(office, 2) == b"".join(wanted[1000:]), "another second part"
        assert exported.part(office, 3) == exported.part(office, 100_000) == b"", "a third part"
    with report.case("the office that they make exports the same bytes, and reports the same"):
        copy = exported.made(report.program, report.folder("copy"), origin, exported.parts(office))
        assert exported.parts(copy) == exported.parts(office), "another export"
        assert exported.same_report(office, copy, minute_now() - 1), "another report"
        assert len(copy.records()) == 1203, len(copy.records())


def largest(report: Report) -> None:
    """An object whose canonical writing has as many bytes as a request may have, and one byte more."""
    origin = minute_now() - 10
    office = Office(report.program, report.folder("largest"), origin)
    bare = len(service_text("big")) + len(b'  labels:\n    "t": ""\n')

    def sized(size: int) -> bytes:
        return define(objects.service("big", f'  labels:\n    t: "{"x" * (size - bare)}"\n'))

    with report.case("1,048,576 bytes are exported, and make the office anew"):
        assert office.ask([sized(MOST_BYTES)])[0].status == 200
        (text,) = exported.parts(office)
        assert b"Content-Length: %d\r\n" % MOST_BYTES in text[:200], text[:200]
        copy = exported.made(report.program, report.folder("largest-copy"), origin, [text])
        assert exported.parts(copy) == [text], "another export"
    with report.case("one byte more is too large for each part, whatever is in it, and nothing is written"):
        assert office.ask([sized(MOST_BYTES + 1)])[0].status == 200
        for number in ("1", "2", "100000"):
            done = office.run("export", number)
            assert (done.returncode, done.stdout, done.stderr) == (9, b"", b"slo_office: object too large Service big\n"), done.stderr


def small_office(report: Report, name: str) -> Office:
    """An office whose export has a few requests, with bodies and without."""
    origin = minute_now() - 1000
    office = Office(report.program, report.folder(name), origin)
    asked = [message("POST", "/upgrade"), define(objects.service("shop"), objects.ratio("good"), objects.slo("o", "good", "  - target: 0.9\n")),
             message("POST", "/samples", f"good,web,{origin},1,1,2\ngood,web,{origin + 1},1,,\n"),
             message("PUT", "/exclusions/x", f'{{"from":{origin},"slo":"o","to":{origin + 1}}}'), message("DELETE", "/exclusions/x")]
    assert all(it.status == 200 for it in office.ask(asked))
    return office


def faults(report: Report) -> None:
    """Each call on the journal and each write of the output fails once, or the run is killed there."""
    office = small_office(report, "faults")
    before, whole = office.journal.read_bytes(), exported.part(office, 1)
    with report.case("the export is what the journal says"):
        assert exported.requests(whole) == exported.wanted(office)
    try:
        ran = held.run(report.program, ["export", "1"], office.folder)
    except held.Absent as why:
        report.skipped.append(("faults of an export", str(why)))
        return
    with report.case(f"each of {ran.calls['disk']} calls on the journal fails: a disk fault, and nothing is written"):
        assert ran.status == 0 and ran.output == whole and ran.calls["disk"] > 3 and ran.calls["pwrite64"] == 0, ran.calls
        for number in range(ran.calls["disk"]):
            got = held.run(report.program, ["export", "1"], office.folder, outside=held.Outside(faults={("disk", number): errno.EIO}))
            assert (got.status, got.output, got.errors) == (4, b"", b"slo_office: disk fault\n"), (number, got)
    with report.case(f"each of {ran.calls['output']} writes of the output fails: a write fault, behind a prefix"):
        lengths = []
        for number in range(ran.calls["output"]):
            got = held.run(report.program, ["export", "1"], office.folder, outside=held.Outside(faults={("output", number): errno.EIO}))
            assert (got.status, got.errors) == (6, b"slo_office: write fault\n") and whole.startswith(got.output), (number, got)
            lengths.append(len(got.output))
        assert lengths == sorted(set(lengths)) and lengths[0] == 0, lengths
    with report.case("a full output"), open("/dev/full", "wb") as sink:
        done = subprocess.run([office.program, "export", "1"], cwd=office.folder, stdout=sink, stderr=subprocess.PIPE)
        assert (done.returncode, done.stderr) == (6, b"slo_office: write fault\n"), done
    with report.case("whatever fails, the journal is as it was"):
        assert office.journal.read_bytes() == before


# The renewal


def renewed(office: Office, *words: str) -> subprocess.CompletedProcess[str]:
    return subprocess.run([RENEW, office.folder, *words, "--program", office.program], capture_output=True, text=True)


def old_office(report: Report, name: str, origin: int, minutes: int) -> Office:
    """An office with rows of a minute in three from its origin on, some of them corrected or withdrawn, exclusions, a zone."""
    office = Office(report.program, report.folder(name), origin)
    calendar = "  - duration: 1d\n    calendar:\n      startTime: 2024-01-01 00:00:00\n      timeZone: Europe/Berlin\n"
    texts = [objects.service("shop"), objects.ratio("good"), objects.threshold("waits"), objects.condition("burn", "1", "2h", more="    alertAfter: 5m\n"),
             objects.policy("alerts", "burn"), objects.slo("month", "good", "  - target: 0.9\n  - target: 0.99\n", ["alerts", "workbook-page"]),
             objects.slo("day", "waits", "  - target: 0.9\n    op: lte\n    value: 20\n", ["workbook-ticket"], window=calendar)]
    asked = [message("POST", "/upgrade"), message("PUT", "/zones/Europe/Berlin", "CET-1CEST,M3.5.0,M10.5.0/3\n"), define(*texts)]
    rows = [f"good,web,{origin + n},1,{900 + n % 100},1000\nwaits,web,{origin + n},1,{n % 40}.5,\n" for n in range(0, minutes, 3)]
    asked += [message("POST", "/samples", "".join(rows[n : n + 500])) for n in range(0, len(rows), 500)]
    again = [f"good,web,{origin + n},2,,\nwaits,web,{origin + n},2,7,\n" for n in range(0, minutes, 300)]
    asked += [message("POST", "/samples", "".join(again[n : n + 500])) for n in range(0, len(again), 500)]
    for n, (begin, end) in enumerate(((10, 500), (minutes - 900, minutes - 800), (minutes - 700, minutes - 600))):
        asked.append(message("PUT", f"/exclusions/x{n}", f'{{"from":{origin + begin},"slo":"{("month", "day", "month")[n]}","to":{origin + end}}}'))
    asked += [message("DELETE", "/exclusions/x2"), message("POST", "/tick")]
    assert all(it.status == 200 for it in office.ask(asked)), "an office that can't be made"
    return office


def cut_of(wanted: list[bytes], cut: int) -> tuple[list[bytes], list[bytes]]:
    """The requests that a renewal has to send, and the rows that it has to leave out."""
    rows = [line for it in wanted if it.startswith(b"POST /samples") for line in it.partition(b"\r\n\r\n")[2].splitlines(keepends=True)]
    stay, go = ([it for it in rows if (int(it.split(b",")[2]) >= cut) == flag] for flag in (True, False))
    first = next(n for n, it in enumerate(wanted) if it.startswith(b"POST /samples"))
    last = sum(not it.startswith((b"PUT /exclusions", b"DELETE /exclusions")) for it in wanted)
    batches = [exported.request("POST /samples", b"".join(stay[n : n + 1000])) for n in range(0, len(stay), 1000)]
    return wanted[:first] + batches + wanted[last:], go


def renewals(report: Report) -> None:
    """A journal is renewed with a cut: the same answers behind it, a shorter file, and what was left out beside it."""
    minutes = 100_000
    origin = minute_now() - minutes - 5
    cut = origin + minutes - MONTH - 2000
    office = old_office(report, "renewed", origin, minutes)
    office.journal.chmod(0o640)
    before, wanted = office.journal.read_bytes(), exported.wanted(office)
    stay, go = cut_of(wanted, cut)
    with report.case("a renewal says what it kept and left out, and what answered alike"):
        done = renewed(office, str(cut))
        assert done.returncode == 0 and done.stderr == "", done.stderr
        told = re.fullmatch(r"rows (\d+), left out (\d+), entries (\d+), bytes (\d+)\nalike (\d+) budgets, (\d+) burn rates, (\d+) timelines\nkept (.*), (.*)\n", done.stdout)
        assert told, done.stdout
        assert [int(it) for it in told.groups()[:4]] == [66_668 - len(go), len(go), len(stay), office.journal.stat().st_size], done.stdout
        assert all(int(it) > 0 for it in told.groups()[4:7]), done.stdout
        assert (told[8], told[9]) == (f"before-{cut}.journal", f"before-{cut}.requests.gz")
    if report.failed:
        return
    with report.case("the new journal is of the rows behind the cut, and half as long; the old one is kept"):
        assert exported.wanted(office) == stay, "other requests"
        assert (office.folder / f"before-{cut}.journal").read_bytes() == before and 2 * office.journal.stat().st_size < len(before)
        assert office.journal.stat().st_mode & 0o777 == 0o640
        assert sorted(it.name for it in office.folder.iterdir()) == sorted([f"before-{cut}.journal", f"before-{cut}.requests.gz", "office.journal"])
    with report.case("what was left out can be sent, and makes the old office's rows again"):
        apart = exported.requests(gzip.decompress((office.folder / f"before-{cut}.requests.gz").read_bytes()))
        assert b"".join(it.partition(b"\r\n\r\n")[2] for it in apart) == b"".join(go)
        assert all(it.status == 200 for it in office.ask(apart))
        rows = sorted(exported.kept(office.records()).lines())
        assert rows == sorted(line for it in wanted if it.startswith(b"POST /samples") for line in it.partition(b"\r\n\r\n")[2].splitlines(keepends=True))


def later_origin(report: Report) -> None:
    """A new journal that begins at the cut: exclusions from before it are left out, or begin there."""
    minutes = 100_000
    origin = minute_now() - minutes - 5
    cut = origin + minutes - MONTH - 2000
    office = old_office(report, "later", origin, minutes)
    cuts = [message("PUT", "/exclusions/across", f'{{"from":{cut - 50},"slo":"month","to":{cut + 50}}}'), message("PUT", "/exclusions/gone", f'{{"from":{cut - 50},"slo":"month","to":{cut}}}')]
    assert all(it.status == 200 for it in office.ask([*cuts, message("DELETE", "/exclusions/gone")]))
    with report.case("a renewal from a later origin"):
        done = renewed(office, str(cut), "--origin", str(cut))
        assert done.returncode == 0, done.stderr
        assert office.journal.read_bytes()[9:13] == cut.to_bytes(4, "big")
        found = exported.kept(office.records())
        assert found.exclusions["across"] == ("month", cut, cut + 50) and not {"gone", "x0"} & set(found.exclusions), found.exclusions
        assert {"x1", "x2"} <= set(found.exclusions) and found.lifted == {"x2"}
        apart = gzip.decompress((office.folder / f"before-{cut}.requests.gz").read_bytes())
        assert all(b"/exclusions/%s " % it in apart for it in (b"across", b"gone", b"x0")) and b"DELETE /exclusions/gone" in apart


def refusals(report: Report) -> None:
    """What can't be renewed is said, and left as it was."""
    minutes = 50_000
    origin = minute_now() - minutes - 5
    office = old_office(report, "refused", origin, minutes)
    before = office.journal.read_bytes()
    now = minute_now()

    def refused(case: str, pattern: str, *words: str, deed: Callable[[], object] | None = None, undo: Callable[[], object] | None = None) -> None:
        with report.case(f"a renewal is refused: {case}"):
            if deed:
                deed()
            try:
                done = renewed(office, *words)
            finally:
                if undo:
                    undo()
            assert done.returncode == 1 and re.fullmatch(f"renew: {pattern}\n", done.stderr) and done.stdout == "", done
            assert office.journal.read_bytes() == before and [it.name for it in office.folder.iterdir()] == ["office.journal"], "it was changed"

    refused("a cut within a window", r"the window of month begins at minute \d+: cut there or before, or say --within-windows", str(now - 30_000))
    refused("a cut within what alerts look at", r"alerts look back to minute \d+: cut there or before, or say --within-windows", str(now - 100))
    refused("a cut after the present", r"the cut is after the present, minute \d+", str(now + 100), "--within-windows")
    refused("an origin behind the cut", rf"the new origin is to be from {origin}, the old one, to the cut", str(origin + 5), "--origin", str(origin + 6))
    beside = office.folder / "renewal"
    refused("a renewal that was stopped", rf"{beside} is there, of a renewal that was stopped: remove it first", str(origin), deed=beside.mkdir, undo=beside.rmdir)
    kept = office.folder / f"before-{origin}.journal"
    refused("an earlier renewal's file", rf"{kept} is there, of an earlier renewal: move it away first", str(origin), deed=kept.touch, undo=kept.unlink)
    with report.case("a renewal is refused: another lock"), open(office.journal, "rb") as it:
        fcntl.flock(it, fcntl.LOCK_EX)
        done = renewed(office, str(origin))
        assert (done.returncode, done.stderr) == (1, f"renew: an office runs over {office.journal}: stop it first\n"), done
    with report.case("a renewal is refused: a running office"), office.serving():
        done = renewed(office, str(origin))
        assert (done.returncode, done.stderr) == (1, f"renew: an office runs over {office.journal}: stop it first\n"), done
    with report.case("a renewal is refused: no journal, a damaged one, no program"):
        empty = Office(report.program, report.folder("empty"))
        assert renewed(empty, "0").stderr == f"renew: {empty.journal}: No such file or directory\n"
        empty.journal.write_bytes(before[:-1])
        done = renewed(empty, "0")
        assert (done.returncode, done.stderr) == (1, f"renew: slo_office: file damaged at {len(before) - 1}\n"), done
        done = subprocess.run([RENEW, office.folder, str(origin), "--program", office.folder / "none"], capture_output=True, text=True)
        assert done.returncode == 1 and "No such file" in done.stderr, done
    with report.case("a renewal is refused: an object too large for a request"):
        large = Office(report.program, report.folder("large"), now - 5)
        # a line feed of a block scalar is two bytes in its canonical writing
        assert large.ask([define(objects.service("big", "  displayName: |\n    x\n" + "\n" * 600_000 + "    y\n"))])[0].status == 200
        done = renewed(large, str(now - 5))
        assert (done.returncode, done.stderr) == (1, "renew: slo_office: object too large Service big\n"), done
        assert [it.name for it in large.folder.iterdir()] == ["office.journal"]
    with report.case("a cut at the origin leaves nothing out"):
        whole = Office(report.program, report.folder("whole"))
        whole.journal.write_bytes(before)
        wanted = exported.wanted(whole)
        done = renewed(whole, str(origin))
        assert done.returncode == 0 and f"left out 0, entries {len(wanted)}," in done.stdout, done
        assert exported.wanted(whole) == wanted, "another office"
    with report.case("within windows where that is asked for: budgets of the present lose rows"):
        done = renewed(office, str(now - 30_000), "--within-windows")
        assert done.returncode == 0, done.stderr
        kept_office = Office(report.program, report.folder("as-before"))
        kept_office.journal.write_bytes(before)
        one, other = (it.ask([message("GET", f"/budgets/month?at={now}")])[0].told["budgets"][0]["den"] for it in (kept_office, office))
        assert one > other > 0, (one, other)


def stops(report: Report) -> None:
    """A renewal that is killed at some moment leaves the old journal, or the new one with the old one beside it."""
    minutes = 50_000
    office = old_office(report, "stopped", minute_now() - minutes - 5, minutes)
    before, cut = office.journal.read_bytes(), minute_now() - 45_000
    kept = office.folder / f"before-{cut}.journal"
    with report.case("a renewal that is killed at some moment, and one behind it"):
        for tenths in (1, 3, 6, 10, 20, 40) if report.whole else (2, 8):
            child = subprocess.Popen([RENEW, office.folder, str(cut), "--program", office.program], stdout=subprocess.DEVNULL, stderr=subprocess.DEVNULL, start_new_session=True)
            time.sleep(tenths / 10)
            with suppress(ProcessLookupError):
                os.killpg(child.pid, signal.SIGKILL)
            child.wait()
            if office.journal.read_bytes() != before:
                assert kept.read_bytes() == before, "neither journal is the old one"
                office.journal.unlink()
                kept.rename(office.journal)
            for it in office.folder.iterdir():
                if it.is_dir():
                    shutil.rmtree(it)
                elif it != office.journal:
                    it.unlink()
        done = renewed(office, str(cut))
        assert done.returncode == 0 and kept.read_bytes() == before, done


# Runs the script with one call of its own that fails, by name, from the time at which the old journal has its second name.
FAILING = """
import os, runpy, shutil, sys
where, name, kept = sys.argv[1:4]
module = {"os": os, "shutil": shutil}[where]
usual = getattr(module, name)
def failing(*words, **more):
    if os.path.exists(kept) and os.stat(kept).st_nlink == 1:
        raise OSError(5, "Input/output error")
    return usual(*words, **more)
setattr(module, name, failing)
sys.argv = sys.argv[4:]
runpy.run_path(sys.argv[0], run_name="__main__")
"""


def behind_the_swap(report: Report) -> None:
    """What fails once the new file has the journal's name is told, and is no failure."""
    minutes = 50_000
    cut = minute_now() - 45_000
    cases = {
        "the folder of a renewal can't be removed": (["shutil", "rmtree"], r"renew: \S+/renewal is left, remove it: .*Input/output error\n"),
        "the folder of the journal can't be synced": (["os", "fsync"], r"renew: the journal is renewed; a loss of power may bring the old one back: .*\n"),
        "the account can't be printed": ([], r"renew: the journal is renewed; its account can't be printed: .*\n"),
    }
    for number, (case, (failing, pattern)) in enumerate(cases.items()):
        with report.case(f"a journal is renewed though {case}"):
            office = old_office(report, f"behind{number}", minute_now() - minutes - 5, minutes)
            before, kept = office.journal.read_bytes(), office.folder / f"before-{cut}.journal"
            words = [RENEW, office.folder, str(cut), "--program", office.program]
            front = ["/usr/bin/python3", "-c", FAILING, *failing, kept] if failing else []
            with open("/dev/full", "wb") as full:
                done = subprocess.run([*front, *words], stdout=subprocess.PIPE if failing else full, stderr=subprocess.PIPE, text=True)
            assert done.returncode == 0 and re.fullmatch(pattern, done.stderr), done
            assert kept.read_bytes() == before and len(office.journal.read_bytes()) < len(before), "it isn't renewed"
            assert not failing or "\nalike " in done.stdout, done.stdout


def run(report: Report) -> None:
    for part in (parts, largest, faults, renewals, later_origin, refusals, stops, behind_the_swap):
        part(report)
