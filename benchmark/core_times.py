"""Times the machine's own calls in the built program: `prepare`, `commit` and `answer`, and counts reads of sums.

    ./bench core_times

The kernel's probes at user code (uprobes, by tracefs) note each entry of a function and each return from it, so the
program is the very one that is built. It has to run as root. A probe itself costs some microseconds, which aren't taken
off. A function that the compiler has put into its caller has no entry of its own, and is told as absent. The journals
lie in a temporary folder; `TMPDIR=/dev/shm` makes a sync free.
"""
import os
import re
import shutil
import subprocess
import sys
import tempfile
import time

from office import message

PROGRAM = ""
TRACE = "/sys/kernel/tracing"
NOW = int(time.time()) // 60
ORIGIN = NOW - 600_000
CALLS = ["Core::prepare", "Core::commit", "Core::answer", "SumPages::read_leaf", "SumPages::read_hour", "SumPages::read_day", "WindowSums::sum"]
SOURCE = "      metricSource:\n        type: t\n"
DOCUMENTS = ("apiVersion: openslo/v1\nkind: Service\nmetadata:\n  name: shop\nspec: {}\n---\n"
             f"apiVersion: openslo/v1\nkind: SLI\nmetadata:\n  name: busy\nspec:\n  ratioMetric:\n    total:\n{SOURCE}    good:\n{SOURCE}---\n"
             "apiVersion: openslo/v1\nkind: SLO\nmetadata:\n  name: o0\nspec:\n  service: shop\n  indicatorRef: busy\n  timeWindow:\n  - duration: 30d\n    isRolling: true\n"
             "  budgetingMethod: Occurrences\n  objectives:\n  - target: 0.999\n  alertPolicies:\n  - workbook-page\n  - workbook-ticket\n")


def batch(first, revision=1):
    rows = (b"busy,s%d,%d,%d,%d,1000\n" % (n % 4, ORIGIN + n // 4, revision, 1000 - n % 7) for n in range(first, first + 1000))
    return message("POST", "/samples", b"".join(rows))


def write(name, text, more=0):
    """Writes to a file of tracefs, which has no end to seek."""
    file = os.open(os.path.join(TRACE, name), os.O_WRONLY | (more or os.O_TRUNC))
    try:
        os.write(file, text.encode())
    finally:
        os.close(file)


def places():
    """Where in the program's file each of the calls begins, by its name."""
    headers = subprocess.run(["readelf", "-lW", PROGRAM], capture_output=True, text=True, check=True).stdout
    loads = [[int(it, 16) for it in re.findall(r"0x[0-9a-f]+", line)[:4]] for line in headers.split("\n") if " LOAD " in line]
    found = {}
    for line in subprocess.run(["nm", PROGRAM], capture_output=True, text=True, check=True).stdout.split("\n"):
        at, _, rest = line.partition(" ")
        name = re.sub(r"::<[^<>]*>$", "", rest[2:])
        if rest[:1] in ("t", "T") and any(name.endswith(it) for it in CALLS):
            address = int(at, 16)
            for offset, start, _, size in loads:
                if start <= address < start + size:
                    found[name] = address - start + offset
    return found


def session(folder, data, at):
    """One session of `pipe` under the probes: of each call the seconds that it took, in order."""
    write("tracing_on", "0")
    write("trace", "\n")
    names = list(at)
    for number, name in enumerate(names):
        for kind, what in (("p", "in"), ("r", "out")):
            write("uprobe_events", f"{kind}:office/{what}{number} {PROGRAM}:0x{at[name]:x}\n", os.O_APPEND)
    try:
        write("buffer_size_kb", "65536")
        write("trace_clock", "mono")
        write("events/office/enable", "1")
        write("tracing_on", "1")
        done = subprocess.run([PROGRAM, "pipe"], cwd=folder, input=data, capture_output=True)
        write("tracing_on", "0")
        with open(os.path.join(TRACE, "trace")) as file:
            lines = file.readlines()
    finally:
        write("tracing_on", "0")
        write("events/office/enable", "0")
        write("uprobe_events", "\n")
        write("trace", "\n")
    begun, spent = {}, {name: [] for name in names}
    for line in lines:
        seen = re.search(r"(\d+\.\d+): (in|out)(\d+):", line)
        if not seen:
            continue
        when, name = float(seen[1]), names[int(seen[3])]
        if seen[2] == "in":
            begun.setdefault(name, []).append(when)
        elif begun.get(name):
            spent[name].append(when - begun[name].pop())
    return done, spent


def told(what, spent, count, names):
    for name in names:
        took = sorted(spent.get(name, [])[-count:])
        if took:
            print(f"{what}: {name}: {len(took)} calls, least {took[0] * 1e3:.3f} ms, median {took[len(took) // 2] * 1e3:.3f} ms, most {took[-1] * 1e3:.3f} ms", flush=True)


def plain(folder, data):
    done = subprocess.run([PROGRAM, "pipe"], cwd=folder, input=data, capture_output=True)
    assert done.returncode == 0, done.stderr
    return done.stdout


def main(program, _):
    global PROGRAM
    PROGRAM = program
    if not os.access(os.path.join(TRACE, "uprobe_events"), os.W_OK):
        sys.exit("no kernel's probes here: nothing measured")
    at = places()
    for name in CALLS:
        if not any(it.endswith(name) for it in at):
            print(f"{name} is part of its caller here")
    changes = {name: it for name, it in at.items() if "::prepare" in name or "::commit" in name}
    reads = {name: it for name, it in at.items() if name not in changes}
    with tempfile.TemporaryDirectory(prefix="core-times-") as folder:
        # a copy of its own, since a probe is in every process that runs the file
        PROGRAM = shutil.copy2(PROGRAM, os.path.join(folder, "program"))
        subprocess.run([PROGRAM, "init", str(ORIGIN)], cwd=folder, check=True, stdout=subprocess.DEVNULL)
        plain(folder, message("POST", "/objects", DOCUMENTS.encode()))
        rows = 0
        for target in (100_000, 1_000_000):
            while rows < target:
                part = min(500, (target - rows) // 1000)
                plain(folder, b"".join(batch(rows + 1000 * n) for n in range(part)))
                rows += 1000 * part
            moment = ORIGIN + rows // 4
            for what, path in (("a budget", f"/budgets/o0?at={moment}"), ("a burn rate over an hour", f"/burns/o0/0?lookback=1h&at={moment}"),
                               ("a burn rate over 30 days", f"/burns/o0/0?lookback=30d&at={moment}"), ("a timeline of 30 days", f"/alerts/o0/0/workbook-page?from={max(ORIGIN, moment - 43200)}&to={moment}")):
                answers = {name: it for name, it in reads.items() if "::answer" in name}
                done, spent = session(folder, message("GET", path) * 20, answers)
                assert done.stdout.count(b"HTTP/1.1 200") == 20, done.stdout[:200]
                told(f"{rows} cells, {what}", spent, 20, answers)
                done, spent = session(folder, message("GET", path), reads)
                steps = {name.rsplit("::", 1)[1]: len(spent[name]) for name in reads if "::answer" not in name}
                print(f"{rows} cells, {what}: calls {steps}", flush=True)
            for what, data in (("new rows", [batch(rows + 1000 * n) for n in range(50)]), ("newer rows", [batch(1000 * n, 2 if target < 1_000_000 else 3) for n in range(50)]),
                               ("rows that stand", [batch(rows - 1000)] * 50)):
                done, spent = session(folder, b"".join(data), changes)
                assert done.stdout.count(b"HTTP/1.1 200") == 50, done.stdout[:200]
                told(f"{rows} cells, a batch of 1,000 {what}", spent, 50, [it for it in changes if "::prepare" in it or what != "rows that stand"])
                if what == "new rows":
                    rows += 50_000

