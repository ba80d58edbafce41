"""Stops and faults of a real run: it is killed at each write and sync of its journal, and lets each of them fail once.

What was answered before has to be in the file, once and in order, with at most one change more; and the session sent
again over what is left has to end in the very file that a session without a fault leaves, but for the moments. The
session has changes of several kinds, and behind them the upgrade, a batch of withdrawn rows and one that brings some back.
"""
from __future__ import annotations

import errno

import held
import objects
from office import Office, answers, define, message, minute_now
from report import Report, Skipped

CALLS = ("pwrite64", "fdatasync", "fsync")
FATES: tuple[tuple[str, int | str], ...] = (("killed", held.KILL), ("failed", errno.EIO))
# The record of the upgrade without its moment: its kind alone.
UPGRADE = b"\x09"


def session(origin: int) -> bytes:
    batches = [b"".join(b"good,web,%d,1,%d,1000\n" % (origin + 1000 * k + i, i % 1000) for i in range(1000)) for k in range(3)]
    changes = [define(objects.service(f"service-{n}")) for n in range(4)] + [define(objects.ratio("good"))]
    changes += [message("POST", "/samples", batch) for batch in batches]
    changes += [message("POST", "/samples", f"good,web,{origin + 1},2,5,10\n"), message("PUT", "/zones/A/B", "EST5")]
    changes += [message("POST", "/upgrade")]
    # each batch keeps rows of its own, so that it is an entry also where it comes last
    changes += [message("POST", "/samples", b"".join(b"good,web,%d,3,,\n" % (origin + i) for i in range(0, 2000, 2)))]
    changes += [message("POST", "/samples", b"".join(b"good,web,%d,4,%d,1000\n" % (origin + i, i % 1000) for i in range(0, 2000, 14)))]
    return b"".join(changes)


def commands(office: Office) -> list[bytes]:
    """The records without their moments."""
    return [it[4:] for it in office.records()]


def try_fault(report: Report, origin: int, data: bytes, wanted: list[bytes], call: str, number: int, fate: int | str) -> None:
    office = Office(report.program, report.folder(f"{call}-{number}-{fate}"), origin)
    ran = held.run(report.program, ["pipe"], office.folder, data, held.Outside(faults={(call, number): fate}))
    acknowledged = [it for it in answers(ran.output) if it.status == 200 and b'"entry":null' not in it.body]
    left = commands(office)
    assert fate != held.KILL or left == wanted[: len(left)], "other records"
    assert len(acknowledged) <= len(left) <= len(acknowledged) + 1, f"{len(left)} records of {len(acknowledged)} acknowledged changes"
    again = office.run("pipe", data=data)
    assert again.returncode == 0, again.stderr
    assert sorted(commands(office)) == sorted(wanted), "another history after the session was sent again"


def try_upgrade(report: Report, origin: int, call: str, number: int, fate: int | str) -> None:
    """`migrate` at a fault: the file has one entry, or it and the upgrade, and a second run ends in both."""
    office = Office(report.program, report.folder(f"migrate-{call}-{number}-{fate}"), origin)
    office.ask([message("POST", "/tick")])
    before = commands(office)
    held.run(report.program, ["migrate"], office.folder, outside=held.Outside(faults={(call, number): fate}))
    left = commands(office)
    assert left in (before, before + [UPGRADE]), left
    again = office.run("migrate")
    assert (again.returncode, again.stdout) == (0, b"already upgraded\n" if UPGRADE in left else b"upgraded 1\n"), again
    assert commands(office) == before + [UPGRADE], "another history behind the second run"


def upgrades(report: Report, origin: int) -> None:
    """Stops and faults of `migrate`."""
    whole = Office(report.program, report.folder("migrate"), origin)
    whole.ask([message("POST", "/tick")])
    ran = held.run(report.program, ["migrate"], whole.folder)
    assert (ran.status, ran.output) == (0, b"upgraded 1\n"), ran
    for call in CALLS:
        for name, fate in FATES:
            with report.case(f"migrate {name} at each of {ran.calls[call]} calls of {call}"):
                for number in range(ran.calls[call]):
                    try_upgrade(report, origin, call, number, fate)


def try_cut(report: Report, origin: int, call: str, number: int, fate: int | str, cut: bool) -> None:
    """A change over a file with bytes behind its closed gate, which are there or cut off behind the fault."""
    office = Office(report.program, report.folder(f"cut-{call}-{number}-{fate}"), origin)
    office.ask([message("POST", "/tick")])
    before, whole = commands(office), office.journal.read_bytes()
    office.journal.write_bytes(whole + b"left" * 1000)
    data = define(objects.service("shop"))
    ran = held.run(report.program, ["pipe"], office.folder, data, held.Outside(faults={(call, number): fate}))
    assert b"HTTP/1.1 200" not in ran.output and ran.calls["ftruncate"] == 1, ran
    assert office.journal.read_bytes() == whole + (b"" if cut else b"left" * 1000)
    again = office.run("pipe", data=data)
    assert again.returncode == 0 and again.stdout.startswith(b"HTTP/1.1 200"), again
    assert commands(office)[:-1] == before, "another history behind the second run"
    assert office.journal.stat().st_size == len(whole) + 5 + len(office.records()[-1]), "what was left is there"


def cuts(report: Report, origin: int) -> None:
    """Stops and faults at the cut behind the closed gate, and at the write behind the cut: the opening makes one."""
    for name, fate in FATES:
        with report.case(f"{name} at the cut behind the closed gate, and at the write behind it"):
            try_cut(report, origin, "ftruncate", 0, fate, False)
            try_cut(report, origin, "pwrite64", 1, fate, True)


def run(report: Report) -> None:
    origin = minute_now() - 100_000
    data = session(origin)
    whole = Office(report.program, report.folder("whole"), origin)
    with report.case("the session without a fault"):
        try:
            ran = held.run(report.program, ["pipe"], whole.folder, data)
        except held.Absent as why:
            raise Skipped(str(why)) from None
        assert ran.status == 0 and len(whole.records()) == 13, ran
    if not report.passed:
        return
    wanted = commands(whole)
    for call in CALLS:
        for name, fate in FATES:
            with report.case(f"{name} at each of {ran.calls[call]} calls of {call}"):
                for number in range(ran.calls[call]):
                    try_fault(report, origin, data, wanted, call, number, fate)
    upgrades(report, origin)
    cuts(report, origin)
