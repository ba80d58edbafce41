"""The command `slo-journal`: what stands in a journal, and what is wrong with it."""

from __future__ import annotations

import argparse
import json
import os
import shutil
import subprocess
import sys
import tempfile
from collections.abc import Iterator
from dataclasses import dataclass
from pathlib import Path
from typing import Any, Optional

from slo_tools.clock import RANGE_MINUTES, date_of, minute_of_date
from slo_tools.journal.access_log import Log, read_log
from slo_tools.journal.file import (
    MAX_JOURNAL_BYTES,
    Beyond,
    Journal,
    Record,
    beyond_tail,
    read_bytes,
    read_journal,
)
from slo_tools.journal.history import Change, History
from slo_tools.journal.mending import mending_of
from slo_tools.journal.records import Entry
from slo_tools.journal.sealing import SealFault, seal, verify
from slo_tools.past.changes import told_changes
from slo_tools.past.fronts import Damaged, NoFront, front_before, front_of
from slo_tools.past.scratch import ScratchFault
from slo_tools.whole_file import write_new

SOUND, DAMAGED, FAILED = 0, 1, 2


def parser() -> argparse.ArgumentParser:
    made = argparse.ArgumentParser(
        prog="slo-journal",
        description="Read an office's journal, or a copy of it, without locking or changing it.",
        epilog="Exit status: 0 sound, mended or sealed, 1 damaged, 2 it couldn't be read or written.",
    )
    made.add_argument("file", metavar="FILE", help="the journal, also that of a running office")
    made.add_argument("--log", metavar="LOG", help="the proxy's access log, to say who asked")
    made.add_argument("--from", metavar="DATE", dest="begin", type=_minute, default=0)
    made.add_argument("--to", metavar="DATE", dest="end", type=_minute, default=2**32)
    made.add_argument("--summary", action="store_true", help="leave the entries out")
    made.add_argument("--json", action="store_true", help="print JSON")
    task = made.add_mutually_exclusive_group()
    task.add_argument(
        "--mend",
        metavar="OUT",
        help="write a repaired copy where one bit or a torn tail is what is wrong",
    )
    task.add_argument(
        "--seal", metavar="SEALS", help="append the sum of all entries to a file of seals"
    )
    task.add_argument(
        "--verify", metavar="SEALS", help="say whether the journal is as it was sealed"
    )
    task.add_argument(
        "--as-of",
        metavar="DATE",
        type=_minute,
        help="with --write: the entries that were made before a date",
    )
    task.add_argument("--front", metavar="N", type=_count, help="with --write: the first N entries")
    task.add_argument(
        "--changes",
        action="store_true",
        help="print what people changed, with the differences of the objects' texts",
    )
    made.add_argument(
        "--write", metavar="OUT", help="the file that these entries are written to as a journal"
    )
    made.add_argument(
        "--open-gate",
        metavar="N",
        type=int,
        help="with --mend: the closed gate to be opened, where nobody closed it by hand",
    )
    made.add_argument(
        "--program",
        metavar="SLO_OFFICE",
        default=os.environ.get("SLO_OFFICE_PROGRAM") or shutil.which("slo_office"),
        help="the office's program, which judges whether each entry may follow (default:"
        " slo_office, where it is installed)",
    )
    made.add_argument(
        "--alone", action="store_true", help="read the file without the office's program"
    )
    return made


def _minute(text: str) -> int:
    try:
        return minute_of_date(text)
    except ValueError as fault:
        raise argparse.ArgumentTypeError(str(fault)) from fault


def _count(text: str) -> int:
    if not (text.isascii() and text.isdigit() and len(text) <= 10):
        raise argparse.ArgumentTypeError(f"{text} is no number of entries")
    return int(text)


@dataclass(frozen=True)
class Line:
    """An entry with what it changed and who may have asked for it."""

    record: Record
    change: Change
    who: list[str]


@dataclass(frozen=True)
class Report:
    """All that is told of a file."""

    path: str
    size: int
    journal: Journal
    beyond: Beyond
    lines: list[Line]
    behind: list[Line]
    limits: dict[str, int]
    usage: dict[str, int]
    unread: list[int]
    judged: Optional[str]

    @property
    def is_sound(self) -> bool:
        return (
            self.journal.is_whole and not self.beyond.was_acknowledged and self.judged in (None, "")
        )


def main(words: Optional[list[str]] = None) -> int:
    """Reads, tells, and returns the exit status."""
    made = parser()
    options = made.parse_args(words)
    wants_front = options.as_of is not None or options.front is not None
    if wants_front != (options.write is not None):
        made.error("--as-of and --front want --write OUT, and --write wants one of them")
    if options.alone:
        options.program = None
    try:
        if options.seal is not None:
            return _seal(options)
        if options.verify is not None:
            return _verify(options)
        data = read_bytes(Path(options.file))
        if options.mend is not None:
            return _mend(data, options)
        if wants_front:
            return _write_front(data, options)
        if options.changes:
            return _tell_changes(data, options)
        report = report_of(data, options)
        lines = _json_of(report) if options.json else _lines_of(report, options)
        for line in lines:
            print(line)
        sys.stdout.flush()
        return SOUND if report.is_sound else DAMAGED
    except BrokenPipeError:
        os.dup2(os.open(os.devnull, os.O_WRONLY), sys.stdout.fileno())
        return FAILED
    except (OSError, NoFront, ScratchFault) as fault:
        print(f"slo-journal: {fault}", file=sys.stderr)
        return FAILED


def _log(options: argparse.Namespace) -> Log:
    if options.log is None:
        return Log(())
    with open(options.log, encoding="utf-8", errors="replace") as file:
        return Log(read_log(file))


def report_of(data: bytes, options: argparse.Namespace) -> Report:
    log = _log(options)
    history = History()
    lines: list[Line] = []

    def hear(record: Record, entry: Entry) -> None:
        change = history.take(entry)
        if not options.summary and options.begin <= record.moment < options.end:
            lines.append(Line(record, change, log.who(entry)))

    journal = read_journal(data, hear)
    beyond = beyond_tail(data, journal) if journal.damage is None else Beyond([], 0, False)
    judged = None if options.program is None else judged_by(options.program, data)
    limits, usage = history.limits(), history.usage(journal.tail)
    behind = [Line(record, history.take(entry), []) for record, entry in beyond.records]
    return Report(
        options.file,
        len(data),
        journal,
        beyond,
        lines,
        behind,
        limits,
        usage,
        history.unread,
        judged,
    )


def judged_by(program: str, data: bytes) -> str:
    """What the office's program says of a journal: nothing where it opens."""
    with tempfile.TemporaryDirectory(prefix="slo-journal-") as folder:
        (Path(folder) / "office.journal").write_bytes(data)
        run = subprocess.run(
            [os.path.abspath(program) if os.sep in program else program, "report"],
            cwd=folder,
            capture_output=True,
            text=True,
            check=False,
        )
    return "" if run.returncode == 0 else run.stderr.strip() or f"status {run.returncode}"


def _lines_of(report: Report, options: argparse.Namespace) -> Iterator[str]:
    journal = report.journal
    for line in report.lines:
        yield _entry_line(line)
    if report.lines:
        yield ""
    yield f"file {report.path}, {report.size} bytes"
    yield f"origin {journal.origin}, {date_of(journal.origin)}"
    if journal.origin + RANGE_MINUTES < 2**27:
        yield f"range to {date_of(journal.origin + RANGE_MINUTES)}"
    yield f"entries {len(journal.records)}{_span(journal)}"
    if journal.damage is None:
        yield f"closed gate at {journal.tail}"
    yield from _fault_lines(report)
    yield ""
    yield from _usage_lines(report)


def _entry_line(line: Line) -> str:
    record, change = line.record, line.change
    text = f"{record.number} {date_of(record.moment)} {change.word} {change.text}".rstrip()
    return f"{text} [{' or '.join(line.who)}]" if line.who else text


def _span(journal: Journal) -> str:
    if not journal.records:
        return ""
    first, last = journal.records[0].moment, journal.records[-1].moment
    return f", {date_of(first)} to {date_of(last)}"


def _fault_lines(report: Report) -> Iterator[str]:
    journal, beyond = report.journal, report.beyond
    for fault in journal.foreign:
        yield f"foreign: {fault}"
    if journal.damage is not None:
        yield f"damaged at {journal.damage.place}: {journal.damage.why}"
    if beyond.was_acknowledged:
        yield (
            f"damaged at {journal.tail}: the gate reads as closed, and {len(beyond.records)}"
            f" records stand behind it, up to {beyond.ends_at}; or it was closed by hand: then cut"
            f" the file behind it, by truncate -s {journal.tail + 1}"
        )
    elif beyond.records:
        yield (
            f"behind the closed gate stands one record of {beyond.records[0][0].length} bytes:"
            " a change that was never acknowledged, or whose gate was closed by damage or by hand"
        )
    for line in report.behind:
        yield f"  {_entry_line(line)}"
    if report.judged is None:
        yield "note: whether each entry may follow those before it was judged by no program"
    elif report.judged:
        yield f"the office says: {report.judged}"
    else:
        yield "the office's program opens it"
    for number in report.unread:
        yield f"note: the text of entry {number} couldn't be read whole here"


def _usage_lines(report: Report) -> Iterator[str]:
    for name, used in sorted(report.usage.items()):
        limit = report.limits[name]
        yield f"{name} {used} of {limit}, {used * 100 / limit:.2f}%"


def _json_of(report: Report) -> list[str]:
    journal = report.journal
    told: dict[str, Any] = {
        "behind": [_entry_json(line) for line in report.behind],
        "damage": None
        if journal.damage is None
        else {"place": journal.damage.place, "why": journal.damage.why},
        "entries": [_entry_json(line) for line in report.lines],
        "file": report.path,
        "foreign": journal.foreign,
        "office": report.judged,
        "origin": journal.origin,
        "size": report.size,
        "sound": report.is_sound,
        "tail": journal.tail,
        "usage": {name: [used, report.limits[name]] for name, used in report.usage.items()},
    }
    return [json.dumps(told, indent=1, sort_keys=True)]


def _entry_json(line: Line) -> dict[str, Any]:
    record = line.record
    return {
        "change": line.change.word,
        "entry": record.number,
        "minute": record.moment,
        "place": record.place,
        "text": line.change.text,
        "who": line.who,
    }


def _seal(options: argparse.Namespace) -> int:
    try:
        print(seal(Path(options.file), Path(options.seal)))
    except SealFault as fault:
        print(f"not sealed: {fault}")
        return DAMAGED
    return SOUND


def _verify(options: argparse.Namespace) -> int:
    lines, is_well = verify(Path(options.file), Path(options.verify))
    for line in lines:
        print(line)
    return SOUND if is_well else DAMAGED


def _mend(data: bytes, options: argparse.Namespace) -> int:
    if len(data) == MAX_JOURNAL_BYTES:
        raise OSError("the file is as long as a journal can be, and isn't mended")
    mending = mending_of(data, options.open_gate)
    if mending.repair is None:
        judged = judged_by(options.program, data) if mending.is_sound and options.program else ""
        told = f"the office says: {judged}" if judged else mending.text
        is_sound = mending.is_sound and not judged
        print(told if is_sound else f"not mended: {told}")
        return SOUND if is_sound else DAMAGED
    if options.program is not None:
        judged = judged_by(options.program, mending.repair.content)
        if judged:
            print(f"not mended: {mending.repair.text}; the office says: {judged}")
            return DAMAGED
    # A file that is there is never written over, the journal itself least of all.
    write_new(Path(options.mend), mending.repair.content)
    print(f"{options.mend}: {mending.repair.text}")
    print(f"entries {mending.repair.entries}")
    return SOUND


def _write_front(data: bytes, options: argparse.Namespace) -> int:
    try:
        wants_count = options.front is not None
        front = front_of(data, options.front) if wants_count else front_before(data, options.as_of)
    except Damaged as fault:
        print(f"not written: {fault}")
        return DAMAGED
    judged = judged_by(options.program, front.content) if options.program is not None else ""
    if judged:
        print(f"not written: the office says: {judged}")
        return DAMAGED
    write_new(Path(options.write), front.content)
    last = "" if front.last is None else f", the last one of {date_of(front.last)}"
    print(f"{options.write}: entries {front.entries}{last}")
    return SOUND


def _tell_changes(data: bytes, options: argparse.Namespace) -> int:
    if options.program is None:
        raise OSError("--changes wants the office's program, which tells the objects' texts")
    try:
        told = told_changes(data, options.program, _log(options), options.begin, options.end)
    except Damaged as fault:
        print(fault)
        return DAMAGED
    for line in told.as_json() if options.json else told.lines():
        print(line)
    sys.stdout.flush()
    return SOUND if told.damage is None else DAMAGED
