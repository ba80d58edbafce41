"""Counts the steps of answers: reads of a slice's leaf, an hour's total and a day's, in a program that calls them.

    ./bench --program PROGRAM steps [CELLS] [SLOS]

Kernel probes (uprobes, by tracefs; as root) count the calls of `SumPages::read_leaf`, `read_hour` and `read_day`, which
alone hand out leaves; each of them is one step. In the program that is built the compiler puts them into their callers,
so PROGRAM has to be one in which it doesn't (docs/measured.md says how it was made). The count of a request is that of a
session with it less that of a session without it. The rows and SLOs are those of `latency.py`.
"""
import os
import re
import subprocess
import sys
import tempfile

import latency
from office import message

TRACE = "/sys/kernel/tracing"
READS = ("SumPages::read_leaf", "SumPages::read_hour", "SumPages::read_day", "WindowSums::sum")


def write(name, text, more=0):
    file = os.open(os.path.join(TRACE, name), os.O_WRONLY | (more or os.O_TRUNC))
    try:
        os.write(file, text.encode())
    finally:
        os.close(file)


def places(program):
    """Where in the program's file the counted calls begin: a list for each name, since a generic one may stand twice."""
    headers = subprocess.run(["readelf", "-lW", program], capture_output=True, text=True, check=True).stdout
    parts = [[int(it, 16) for it in line.split()[1:6]] for line in headers.splitlines() if line.strip().startswith("LOAD")]
    symbols = subprocess.run(["nm", program], capture_output=True, text=True, check=True).stdout
    found = {name: [] for name in READS}
    for line in symbols.splitlines():
        at, kind, name = (line.split(maxsplit=2) + ["", ""])[:3]
        for read in READS:
            if kind in "tT" and re.search(rf"::{re.escape(read)}(::<.*>)?$", name):
                address = int(at, 16)
                found[read] += [address - start + offset for offset, start, _, size, _ in parts if start <= address < start + size]
    return found


def counts(program, folder, data, at, library=None):
    """How often each call was made in one session over a copy of the journal, with a clock that runs ahead or the usual."""
    with tempfile.TemporaryDirectory(prefix="steps-") as other:
        subprocess.run(["cp", os.path.join(folder, "office.journal"), other], check=True)
        write("uprobe_events", "\n")
        names = [(name, place) for name in READS for place in at[name]]
        for number, (_, place) in enumerate(names):
            write("uprobe_events", f"p:office/call{number} {program}:0x{place:x}\n", os.O_APPEND)
        try:
            write("events/office/enable", "1")
            words = dict(os.environ, LD_PRELOAD=library) if library else None
            done = subprocess.run([program, "pipe"], cwd=other, input=data, capture_output=True, check=True, env=words)
            write("events/office/enable", "0")
            with open(os.path.join(TRACE, "uprobe_profile")) as file:
                hits = {line.split()[1]: int(line.split()[2]) for line in file}
        finally:
            write("events/office/enable", "0")
            write("uprobe_events", "\n")
    assert b"HTTP/1.1 4" not in done.stdout and b"HTTP/1.1 5" not in done.stdout, done.stdout[-300:]
    found = dict.fromkeys(READS, 0)
    for number, (name, _) in enumerate(names):
        found[name] += hits[f"call{number}"]
    return found


def main(program, words):
    if not os.access(os.path.join(TRACE, "uprobe_events"), os.W_OK):
        sys.exit("no kernel's probes here: nothing measured")
    cells, slos = (int(words[0]) if words else 100_000), (int(words[1]) if len(words) > 1 else 200)
    latency.PROGRAM, origin = program, latency.ORIGIN
    at = places(program)
    assert all(at.values()), f"not in this program: {[name for name in READS if not at[name]]}"
    with tempfile.TemporaryDirectory(prefix="steps-") as folder:
        subprocess.run([program, "init", str(origin)], cwd=folder, check=True, stdout=subprocess.DEVNULL)
        subprocess.run([program, "pipe"], cwd=folder, input=latency.documents([0]), check=True, stdout=subprocess.DEVNULL)
        latency.fill(folder, cells)
        moment = origin + cells // 4
        first = max(origin, moment - 43200)
        library = latency.quick_clock(folder)
        page = message("GET", f"/alerts/o0/0/workbook-page?from={first}&to={moment}")
        ticket = message("GET", f"/alerts/o0/0/workbook-ticket?from={first}&to={moment}")
        tick = message("POST", "/tick")
        asked = [("a budget", message("GET", f"/budgets/o0?at={moment}")), ("a burn rate over an hour", message("GET", f"/burns/o0/0?lookback=1h&at={moment}")),
                 ("a burn rate over 30 days", message("GET", f"/burns/o0/0?lookback=30d&at={moment}")),
                 (f"a timeline of {moment - first} minutes, workbook-page", page), (f"a timeline of {moment - first} minutes, workbook-ticket", ticket), ("a tick of 2 bindings", tick)]
        before = counts(program, folder, b"", at)
        for name, data in asked:
            one, two = (counts(program, folder, data * times, at) for times in (1, 2))
            tell(cells, 1, name, less(one, before))
            tell(cells, 1, f"{name}, asked again", less(two, one))
        subprocess.run([program, "pipe"], cwd=folder, input=latency.documents(range(1, slos)), check=True, stdout=subprocess.DEVNULL)
        before = counts(program, folder, b"", at)
        one, two = (counts(program, folder, tick * times, at) for times in (1, 2))
        tell(cells, slos, f"a tick of {2 * slos} bindings", less(one, before))
        tell(cells, slos, f"a tick of {2 * slos} bindings, again in the same minute", less(two, one))
        if library:
            one, two = (counts(program, folder, tick * times, at, library) for times in (1, 2))
            tell(cells, slos, f"a tick of {2 * slos} bindings, again a minute later", less(two, one))


def less(found, before):
    return {it: found[it] - before[it] for it in READS}


def tell(cells, slos, name, found):
    leaves, hours, days, sums = (found[it] for it in READS)
    print(f"{cells} cells, {slos} SLOs: {name}: {leaves + hours + days} steps ({leaves} leaves, {hours} hours, {days} days) in {sums} sums and single reads", flush=True)

