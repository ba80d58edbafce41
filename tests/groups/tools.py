"""The programs of tools/, by their own tests: `tools/tests/run` with a line a group."""
from __future__ import annotations

import os
import re
import subprocess

from office import TOP
from report import Report

RUN = TOP / "tools" / "tests" / "run"
# The others wait for rounds and minutes of the clock.
QUICK = {"counters", "edits", "follow", "journal", "office", "words"}
HISTORIES = {True: "10000", False: "100"}
# What the tools stand on, by module and Debian's package.
NEEDS = {"yaml": "python3-yaml", "prometheus_client": "python3-prometheus-client"}


def lacking() -> list[str]:
    """The packages that aren't installed for the interpreter that the tools take."""
    return [name for module, name in NEEDS.items() if subprocess.run(["/usr/bin/python3", "-c", f"import {module}"], capture_output=True).returncode]


def run(report: Report) -> None:
    if missing := lacking():
        report.skipped.append(("all of them", f"{', '.join(missing)} isn't installed"))
        return
    names = sorted(it.stem.removeprefix("test_") for it in RUN.parent.glob("test_*.py"))
    words = dict(os.environ, SLO_OFFICE_PROGRAM=str(report.program), SLO_FEED_HISTORIES=HISTORIES[report.whole], SLO_FEED_LIVE=str(int(report.whole)))
    if not report.whole:
        report.skipped.append((", ".join(it for it in names if it not in QUICK), "tried with --whole, by tools/tests/run"))
    for name in names:
        if name not in QUICK and not report.whole:
            continue
        with report.case(name):
            done = subprocess.run([RUN, name], capture_output=True, text=True, env=words, timeout=1800)
            assert done.returncode == 0, (done.stdout + done.stderr)[-1500:]
        for case, why in re.findall(r"(?m)^\s+skipped ([^:]+): (.*)$", done.stdout):
            report.skipped.append((f"{name}: {case}", why))
