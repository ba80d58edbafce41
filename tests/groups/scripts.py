"""The scripts of tests/ that try one matter each, as they stand: `tests/NAME PROGRAM` ends with 0 where all held.

A script says by a line `..: skipped` that it lacks something.
"""
from __future__ import annotations

import re
import subprocess
from functools import partial

from office import TOP
from report import Report, Skipped

SCRIPTS = {
    "foreign_pages": "pages of other sites change nothing behind the fence",
    "wrong_clock": "an office at a wrong clock, and the ways back",
    "backups": "copies of the journal by what copies files",
    "edges": "closed descriptors, journals that are replaced or written by others, failed syncs, a report that reads alone",
    "lost_gate": "a disk that fails the write of a gate or of a new block, and a loss of the cache after a restart",
    "random_sessions": "random sessions against the rules",
    "counter_lists": "lists of running counters",
    "exports": "random offices, exported and made anew",
    "calendar_months": "the windows of calendars against Python's zones",
}
MOST_SECONDS = 180
# Half of their time they wait: for minutes of held clocks, links, copies.
AT_ONCE = 2


def tried(report: Report, name: str, what: str) -> None:
    with report.case(f"{name}: {what}"):
        done = subprocess.run([TOP / "tests" / name, report.program], capture_output=True, text=True, timeout=MOST_SECONDS)
        assert done.returncode == 0, (done.stdout + done.stderr)[-1500:]
        lacking = re.search(r"(?m)^(.*): skipped$", done.stdout)
        if lacking:
            raise Skipped(lacking[1])


def run(report: Report) -> None:
    present = {name: what for name, what in SCRIPTS.items() if (TOP / "tests" / name).exists()}
    report.side_by_side([partial(tried, report, name, what) for name, what in present.items()], AT_ONCE)
