"""The sessions of tests/sessions, to the byte: the answers with their heads, the journal afterwards, and the report.

Each is a file that can be read (`tests/stored.py` says how), of random requests, some of them wrong in each of the ways
that an office refuses.
"""
from __future__ import annotations

import re
from pathlib import Path

import held
import stored
from office import TOP
from report import Report, Skipped

SESSIONS = TOP / "tests" / "sessions"


def messages(data: bytes) -> list[bytes]:
    return re.split(rb"(?=HTTP/1\.1 \d\d\d )", data)[1:]


def first_difference(wanted: bytes, got: bytes) -> str:
    want, have = messages(wanted), messages(got)
    for number, (one, other) in enumerate(zip(want, have)):
        if one != other:
            return f"answer {number}: wanted {one[:300]!r}, got {other[:300]!r}"
    return f"{len(have)} answers, wanted {len(want)}"


def try_session(report: Report, path: Path) -> None:
    want, folder = stored.load(path), report.folder(path.stem)
    journal, outside = folder / "office.journal", held.Outside([want.clock])
    journal.write_bytes(want.before)
    try:
        ran = held.run(report.program, ["pipe"], folder, want.requests, outside)
    except held.Absent as why:
        raise Skipped(str(why)) from None
    assert ran.output == want.answers, first_difference(want.answers, ran.output)
    assert ran.status == want.status, f"status {ran.status}, wanted {want.status}: {ran.errors!r}"
    assert journal.read_bytes() == want.after, "another journal"
    told = held.run(report.program, ["report"], folder, b"", outside)
    assert told.output == want.report and told.status == 0, f"another report: {told}"


def run(report: Report) -> None:
    for path in sorted(SESSIONS.glob("*.session")):
        with report.case(path.stem.replace("-", " ")):
            try_session(report, path)
