"""Faults of files, of the output and of the port: the status and the line of each, and what is left."""
from __future__ import annotations

import os
import socket
import subprocess
from collections.abc import Iterator
from contextlib import contextmanager
from pathlib import Path
from typing import Any

from office import Office, message, records
from report import Report, Skipped

ORIGIN = 29_000_000
TICK = message("POST", "/tick")


def ended(done: subprocess.CompletedProcess[bytes], status: int, line: str) -> None:
    told = f"slo_office: {line}\n".encode() if line else b""
    assert (done.returncode, done.stderr) == (status, told), f"{done}, wanted {status} {told!r}"


def run_with(office: Office, words: list[str], stdin: Any = subprocess.DEVNULL, stdout: Any = subprocess.PIPE) -> subprocess.CompletedProcess[bytes]:
    return subprocess.run([office.program, *words], cwd=office.folder, stdin=stdin, stdout=stdout, stderr=subprocess.PIPE, timeout=60)


def journals(report: Report) -> None:
    """Files that are no journal, that were cut, and that are there already."""
    office = Office(report.program, report.folder("journals"))
    for words in (["pipe"], ["report"], ["export", "1"]):
        with report.case(f"{words[0]}: no journal"):
            ended(office.run(*words), 3, "file not a journal")
    with report.case("init: above the clock"):
        ended(office.run("init", "67108863"), 9, "origin above clock")
        assert not office.journal.exists() or not office.journal.read_bytes(), "a journal was begun"
    office = Office(report.program, report.folder("made"), ORIGIN)
    with report.case("init: a journal is there"):
        ended(office.run("init"), 3, "file already there")
    office.ask([TICK])
    whole = office.journal.read_bytes()
    for size, line in ((0, "file not a journal"), (12, "file not a journal"), (13, "file damaged at 13"), (20, "file damaged at 13"), (23, "file damaged at 23")):
        with report.case(f"report and export: a journal cut after {size} bytes"):
            office.journal.write_bytes(whole[:size])
            ended(office.run("report"), 3, line)
            ended(office.run("export", "2"), 3, line)
            assert office.journal.read_bytes() == whole[:size], "it was changed"
    with report.case("report: bytes behind the last gate mean nothing"):
        office.journal.write_bytes(whole + b"\x01garbage")
        assert office.run("report").returncode == 0
    with report.case("report AT: out of range"):
        ended(office.run("report", str(ORIGIN - 1)), 9, "AT out of range")


def disks(report: Report) -> None:
    """A folder in place of the journal, a folder that can't be written to, a journal that another program has."""
    office = Office(report.program, report.folder("folder"))
    office.journal.mkdir()
    for words in (["init"], ["pipe"], ["report"], ["export", "1"]):
        with report.case(f"{words[0]}: a folder in the journal's place"):
            ended(office.run(*words), 4, "disk fault")
    with report.case("init: a folder that can't be written to"):
        if os.geteuid() == 0:
            raise Skipped("root writes into every folder")
        sealed = Office(report.program, report.folder("sealed"))
        sealed.folder.chmod(0o500)
        ended(sealed.run("init"), 4, "disk fault")
    office = Office(report.program, report.folder("shared"), ORIGIN)
    with report.case("a second program on one journal"), office.serving():
        for word in ("pipe", "init", "migrate"):
            ended(office.run(word), 4, "disk fault")
        assert office.run("report").returncode == office.run("export", "1").returncode == 0


def inputs_and_outputs(report: Report) -> None:
    """An input that can't be read, outputs that can't be written, a session that is cut."""
    office = Office(report.program, report.folder("streams"), ORIGIN)
    for words in (["pipe"], ["budget", "0.9", "0", "1"], ["check"]):
        with report.case(f"{words[0]}: a folder as the input"), opened(office.folder) as source:
            ended(run_with(office, words, stdin=source), 5, "read fault")
    for words in (["report"], ["generate", "1"], ["budget", "0.9", "0", "1"]):
        with report.case(f"{words[0]}: a full output"), open("/dev/full", "wb") as sink:
            ended(run_with(office, words, stdout=sink), 6, "write fault")
    with report.case("migrate: a full output, and the upgrade is kept once"):
        upgraded = Office(report.program, report.folder("upgraded"), ORIGIN)
        with open("/dev/full", "wb") as sink:
            ended(run_with(upgraded, ["migrate"], stdout=sink), 6, "write fault")
        done = upgraded.run("migrate")
        assert (done.returncode, done.stdout, len(records(upgraded.journal))) == (0, b"already upgraded\n", 1), done
    with report.case("pipe: a full output, and the change is kept once"):
        path = office.folder / "requests"
        path.write_bytes(TICK)
        with open("/dev/full", "wb") as sink, open(path, "rb") as source:
            ended(run_with(office, ["pipe"], stdin=source, stdout=sink), 6, "write fault")
        assert len(records(office.journal)) == 1
    with report.case("pipe: an input that ends inside a request"):
        done = office.run("pipe", data=TICK + TICK[:20])
        ended(done, 9, "cut")
        assert done.stdout.count(b"HTTP/1.1 200") == 1


@contextmanager
def opened(folder: Path) -> Iterator[int]:
    """A folder, opened as a file, which no read is given from."""
    number = os.open(folder, os.O_RDONLY)
    try:
        yield number
    finally:
        os.close(number)


def ports(report: Report) -> None:
    """A port that is taken, one that isn't listened at on another address."""
    office = Office(report.program, report.folder("ports"), ORIGIN)
    with report.case("serve: a port that is taken"), socket.socket() as taken:
        taken.bind(("127.0.0.1", 0))
        taken.listen()
        ended(office.run("serve", str(taken.getsockname()[1])), 8, "doors fault")
    with report.case("serve: at 127.0.0.1 alone"), office.serving() as server, socket.socket() as it:
        assert it.connect_ex(("127.0.0.2", server.port)) != 0, "it answers at another address"
    with report.case("serve: a full output takes no link"), open("/dev/full", "wb") as sink:
        ended(run_with(office, ["serve", "65535"], stdout=sink), 6, "write fault")


def words(report: Report) -> None:
    """Words of no form."""
    office = Office(report.program, report.folder("words"), ORIGIN)
    forms: list[list[str]] = [[], ["--help"], ["help"], ["-h"], ["Budget"], ["budget"], ["budget", "1", "0", "5"], ["budget", "0.9", "5", "4"], ["report", "007"],
                  ["serve", "0"], ["serve", "65536"], ["serve", "08080"], ["generate", "0"], ["generate", "996"], ["init", "67108864"], ["pipe", "now"], ["migrate", "now"],
                  ["export"], ["export", "0"], ["export", "01"], ["export", "100001"], ["export", "1", "2"], ["export", "-1"]]
    for given in forms:
        with report.case(f"words of no form: {' '.join(given) or 'none'}"):
            ended(office.run(*given), 2, "usage")


def run(report: Report) -> None:
    for part in (words, journals, disks, inputs_and_outputs, ports):
        part(report)
