"""The table of what changes, answers, ticks, definitions and openings take, at several sizes of an office.

    ./bench figures [--runs N] [CELLS:SOURCES ..]

Without sizes: 43,200 cells of one source, 432,000 of ten sources (30 days of each) and 2,000,000 of ten. Each office has
one ratio indicator; its SLO has one objective and one binding, or five objectives and ten bindings, over 30 days. Beside
these an office of 200 SLOs, of one objective and two bindings each, with an opening of 2,000 minutes of a row and a
tick, and one of five objectives beside 900 exclusions of two days. A figure is processor time of the program itself
(Linux tells it, in nanoseconds), read while it waits for the next request: the least and the median of so many. A budget
and a burn rate are a hundred requests in one write, by a hundred; where the kernel's probes can be used (as root, with
tracefs) the call `Core::answer` alone is timed too, by the clock. Memory is the greatest so far. The journals lie in a
temporary folder: with `TMPDIR=/dev/shm` a sync is free. Prints a line a figure with the load beside it, and at the end
the table, in Markdown. Where Linux's figures aren't there it says so and ends well.
"""
import os
import shutil
import subprocess
import tempfile
import time

import core_times
import latency
from office import message

TRACE = "/sys/kernel/tracing/uprobe_events"
SIZES = [(43_200, 1), (432_000, 10), (2_000_000, 10)]
MINUTES = 44_640
MONTH = 43_200
POLICIES = ["workbook-page", "workbook-ticket"]
# What is measured, in the order of the table, and its aim in milliseconds at most.
AIMS = {
    "a batch of 1,000 new rows": "1.5",
    "a batch of 1,000 corrections of the last rows": "2",
    "a batch of 1,000 corrections of the first rows": "2",
    "a batch of 1,000 rows that stand": "1",
    "an exclusion of 30 days": "30",
    "its lifting": "30",
    "a budget over 30 days": "0.01",
    "a burn rate over an hour": "0.003",
    "a budget of one of 20,000 calendar days": "0.01",
    "sums over 30 days in 720 stretches": "0.5",
    "sums over 400 days in 2,000 stretches": "4",
    "twelve windows of months": "0.2",
    "the row of a cell": "0.01",
    "the status": "0.02",
    "a budget, the call alone": "0.01",
    "a burn rate over an hour, the call alone": "0.003",
    "a timeline of 44,640 minutes, first": "8",
    "a timeline of 44,640 minutes, again": "0.5",
    "a tick with nothing new": "0.2",
    "a definition of 199 SLOs more": "",
    "a definition that changes the target of one SLO": "",
    "a definition that changes the description of one SLO": "",
    "an opening": "3,300",
    "an opening with 2,000 minutes of a row and a tick more": "",
    "memory after the opening, MB": "",
    "memory at the end, MB": "",
}


ROLLING = "  - duration: 30d\n    isRolling: true\n"
DAILY = "  - duration: 1d\n    calendar:\n      startTime: 1971-01-01 00:00:00\n      timeZone: UTC\n"
MONTHLY = DAILY.replace("1d", "1M")


def slo(number, objectives, policies, target=0.99, description="As agreed.", window=ROLLING):
    """An SLO over 30 days, or another window, whose objectives have targets of their own."""
    goals = "".join(f"  - target: {target - 0.01 * n:.4f}\n" for n in range(objectives))
    names = "  alertPolicies:\n" + "".join(f"  - {it}\n" for it in policies) if policies else ""
    return (f"apiVersion: openslo/v1\nkind: SLO\nmetadata:\n  name: o{number}\nspec:\n  description: {description}\n  service: shop\n  indicatorRef: busy\n"
            f"  timeWindow:\n{window}  budgetingMethod: Occurrences\n  objectives:\n{goals}{names}")


def service():
    source = "      metricSource:\n        type: t\n"
    return ["apiVersion: openslo/v1\nkind: Service\nmetadata:\n  name: shop\nspec: {}\n",
            f"apiVersion: openslo/v1\nkind: SLI\nmetadata:\n  name: busy\nspec:\n  ratioMetric:\n    total:\n{source}    good:\n{source}"]


class Office:
    """An office with a size, and the requests that are sent to it."""

    def __init__(self, program, cells, sources, runs):
        self.program, self.cells, self.sources, self.runs = program, cells, sources, runs
        latency.PROGRAM = program
        self.origin = latency.ORIGIN
        # all windows and timelines lie in the office's range
        self.first = self.origin + 50_000
        self.last = self.first + cells // sources
        self.found = {}

    def define(self, documents):
        return message("POST", "/objects", "---\n".join(documents).encode())

    def batch(self, place, revision=1):
        """A thousand rows from a place on, source after source and minute after minute."""
        rows = (b"busy,s%d,%d,%d,%d,1000\n" % (n % self.sources, self.first + n // self.sources, revision, 1000 - n % 7) for n in range(place, place + 1000))
        return message("POST", "/samples", b"".join(rows))

    def pipe(self, folder, data):
        done = subprocess.run([self.program, "pipe"], cwd=folder, input=data, capture_output=True, check=True)
        assert done.stdout.count(b"HTTP/1.1 200") == data.count(b" HTTP/1.1\r\n"), done.stdout[:300]

    def make(self, folder, documents, left=0):
        """The office of these documents, and then its rows, but for the last so many."""
        subprocess.run([self.program, "init", str(self.origin)], cwd=folder, check=True, stdout=subprocess.DEVNULL)
        self.pipe(folder, self.define(documents))
        rows = self.cells - left
        for place in range(0, rows, 500_000):
            self.pipe(folder, b"".join(self.batch(min(n, rows - 1000)) for n in range(place, min(rows, place + 500_000), 1000)))

    def note(self, what, times):
        """Keeps the least, in milliseconds, and prints it with the median."""
        least, median = min(times), sorted(times)[len(times) // 2]
        self.found[what] = least
        print(f"{self.cells:,} cells, {self.head}: {what}: least {least:.4f} ms, median {median:.4f}, of {len(times)} [load {os.getloadavg()[0]:.1f}]", flush=True)

    def note_memory(self, what, most):
        self.found[what] = most
        print(f"{self.cells:,} cells, {self.head}: {what}: {most:.0f} [load {os.getloadavg()[0]:.1f}]", flush=True)


def spent(session):
    """The milliseconds of the processor so far, of a program that waits for its next request."""
    while True:
        with open(f"/proc/{session.child.pid}/stat") as file:
            state = file.read().rpartition(")")[2].split()[0]
        assert state != "Z", "the program has ended"
        if state == "S":
            return 1e3 * session.spent()
        time.sleep(0.0002)


def took(session, data):
    """The milliseconds of the processor until the answer was there and the program waits again."""
    before = spent(session)
    session.ask(data)
    return spent(session) - before


def took_each(session, data, count):
    """The same of so many requests in one write, by their number."""
    before = spent(session)
    session.child.stdin.write(data * count)
    text = b""
    while text.count(b"HTTP/1.1 ") < count:
        text += session.child.stdout.read(1 << 16)
    found = (spent(session) - before) / count
    assert text.count(b"HTTP/1.1 200") == count, text[:300]
    return found


def openings(office, folder, watched=True):
    """Some openings, each with a timeline that nobody asked for before, and the same again; the last session stays."""
    at = office.last
    alert = message("GET", f"/alerts/o0/0/workbook-page?from={at - MINUTES}&to={at}")
    times, memory, first, again = [], [], [], []
    for n in range(office.runs):
        session = latency.Session(folder)
        times.append(spent(session))
        memory.append(session.memory())
        if watched:
            first.append(took(session, alert))
            again += [took(session, alert) for _ in range(10)]
        if n + 1 < office.runs:
            session.end()
    office.note("an opening", times)
    office.note_memory("memory after the opening, MB", min(memory))
    if watched:
        office.note("a timeline of 44,640 minutes, first", first)
        office.note("a timeline of 44,640 minutes, again", again)
    return session


def answers(office, session):
    at = office.last
    for what, target in (("a budget over 30 days", f"/budgets/o0?at={at}"), ("a burn rate over an hour", f"/burns/o0/0?lookback=1h&at={at}")):
        office.note(what, [took_each(session, message("GET", target), 100) for _ in range(3)])
    for what, target in asked(office):
        office.note(what, [took_each(session, message("GET", target), 20) for _ in range(3)])


def asked(office):
    """Sums over stretches, a row, and how full the office is."""
    begin = office.origin
    return [("sums over 30 days in 720 stretches", f"/sums/o0/0?from={office.first}&to={office.first + MONTH}&step=60"),
            ("sums over 400 days in 2,000 stretches", f"/sums/o0/0?from={begin}&to={begin + 576_000}&step=288"),
            ("the row of a cell", f"/samples/busy/s0/{office.last - 1}"), ("the status", "/status")]


def new_rows(office, session, count):
    """The last batches of the office's rows: with them its cells may be as many as an office takes."""
    office.note("a batch of 1,000 new rows", [took(session, office.batch(office.cells - 1000 * n)) for n in range(count, 0, -1)])


def corrections(office, session, count):
    office.note("a batch of 1,000 corrections of the last rows", [took(session, office.batch(office.cells - 1000 * n, 2)) for n in range(1, count + 1)])
    office.note("a batch of 1,000 corrections of the first rows", [took(session, office.batch(1000 * n, 2)) for n in range(count)])


def calendar(office, session):
    """The window has to be found among days from 1971 on."""
    session.ask(office.define([slo(9, 1, [], window=DAILY)]))
    day = message("GET", f"/budgets/o9?at={office.last}")
    office.note("a budget of one of 20,000 calendar days", [took_each(session, day, 20) for _ in range(3)])
    session.ask(office.define([slo(8, 1, [], window=MONTHLY)]))
    months = message("GET", f"/windows/o8?from={office.origin}&to={office.origin + 12 * 43_800}")
    office.note("twelve windows of months", [took_each(session, months, 20) for _ in range(3)])


def exclusions(office, session):
    made, lifted = [], []
    for n in range(5):
        body = b'{"from":%d,"slo":"o0","to":%d}' % (office.last - MONTH, office.last)
        made.append(took(session, message("PUT", f"/exclusions/x{n}", body)))
        lifted.append(took(session, message("DELETE", f"/exclusions/x{n}")))
    office.note("an exclusion of 30 days", made)
    office.note("its lifting", lifted)


def standing(office, session, count):
    """Batches that came before change nothing."""
    office.note("a batch of 1,000 rows that stand", [took(session, office.batch(1000 * n)) for n in range(count)])


def ticks(office, session):
    """What a tick takes once all bindings have their state, in the same minute."""
    took(session, message("POST", "/tick"))
    office.note("a tick with nothing new", [took(session, message("POST", "/tick")) for _ in range(20)])


def calls(office, folder):
    """The call `answer` alone, by the kernel's probes, where they can be used."""
    if not os.access(TRACE, os.W_OK):
        print("no kernel's probes here: the calls alone are left out")
        return
    core_times.PROGRAM = shutil.copy2(office.program, os.path.join(folder, "program"))
    at = {name: place for name, place in core_times.places().items() if name.endswith("Core::answer")}
    if not at:
        print("`Core::answer` is part of its caller here: the calls alone are left out")
        return
    for what, target in (("a budget, the call alone", f"/budgets/o0?at={office.last}"), ("a burn rate over an hour, the call alone", f"/burns/o0/0?lookback=1h&at={office.last}")):
        _, seen = core_times.session(folder, message("GET", target) * 50, at)
        office.note(what, [1e3 * it for name in at for it in seen[name]])


def single(office, objectives, policies):
    """An office of one SLO."""
    bindings = objectives * len(policies)
    office.head = f"{objectives} objective{'s'[:objectives - 1]}, {bindings} binding{'s'[:bindings - 1]}"
    with tempfile.TemporaryDirectory(prefix="figures-") as folder:
        office.make(folder, service() + [slo(0, objectives, policies)], left=20_000)
        session = latency.Session(folder)
        new_rows(office, session, 20)
        session.end()
        calls(office, folder)
        session = openings(office, folder)
        answers(office, session)
        ticks(office, session)
        corrections(office, session, 20)
        standing(office, session, 20)
        exclusions(office, session)
        office.note_memory("memory at the end, MB", session.memory())
        session.end()
        # a session ends behind 1,000 answers
        session = latency.Session(folder)
        calendar(office, session)
        session.end()


def excluded(office):
    """An office of five objectives beside 900 exclusions of two days, which lie before its rows."""
    office.head = "5 objectives, 900 exclusions"
    with tempfile.TemporaryDirectory(prefix="figures-") as folder:
        office.make(folder, service() + [slo(0, 5, POLICIES)], left=5000)
        before = (b'{"from":%d,"slo":"o0","to":%d}' % (office.origin + 50 * n, office.origin + 50 * n + 2880) for n in range(900))
        office.pipe(folder, b"".join(message("PUT", f"/exclusions/y{n}", body) for n, body in enumerate(before)))
        session = latency.Session(folder)
        new_rows(office, session, 5)
        corrections(office, session, 5)
        standing(office, session, 5)
        exclusions(office, session)
        session.end()


def rows_alone(office):
    """An office with no SLO: what its rows take."""
    office.head = "no SLO"
    with tempfile.TemporaryDirectory(prefix="figures-") as folder:
        office.make(folder, service(), left=20_000)
        session = latency.Session(folder)
        new_rows(office, session, 20)
        session.end()
        session = openings(office, folder, watched=False)
        corrections(office, session, 20)
        session.end()


def minutes(office, folder):
    """What 2,000 minutes of a row and a tick add to an opening."""
    for first in range(office.last, office.last + 2000, 500):
        office.pipe(folder, b"".join(message("POST", "/samples", b"busy,s0,%d,1,999,1000\n" % (first + n)) + message("POST", "/tick") for n in range(500)))
    session = latency.Session(folder)
    office.note("an opening with 2,000 minutes of a row and a tick more", [spent(session)])
    session.end()


def many(office):
    """An office of 200 SLOs, each with one objective and two bindings."""
    office.head = "200 SLOs, 400 bindings"
    with tempfile.TemporaryDirectory(prefix="figures-") as folder:
        office.make(folder, service() + [slo(0, 1, POLICIES)], left=5000)
        session = latency.Session(folder)
        office.note("a definition of 199 SLOs more", [took(session, office.define([slo(n, 1, POLICIES) for n in range(1, 200)]))])
        ticks(office, session)
        office.note("a definition that changes the target of one SLO", [took(session, office.define([slo(7, 1, POLICIES, 0.98 - 0.01 * n)])) for n in range(5)])
        office.note("a definition that changes the description of one SLO", [took(session, office.define([slo(8, 1, POLICIES, description=f"As agreed, {n}.")])) for n in range(5)])
        new_rows(office, session, 5)
        corrections(office, session, 5)
        standing(office, session, 5)
        office.note_memory("memory at the end, MB", session.memory())
        session.end()
        minutes(office, folder)


def table(size, columns):
    """The figures of the offices of one size beside one another."""
    print(f"\n| {size}: milliseconds of the processor, least | aim | " + " | ".join(head for head, _ in columns) + " |")
    print("|---" * (2 + len(columns)) + "|")
    for what, aim in AIMS.items():
        cells = [it.get(what) for _, it in columns]
        if any(it is not None for it in cells):
            print(f"| {what} | {aim} | " + " | ".join("" if it is None else f"{it:,.0f}" if it >= 100 else f"{it:.3g}" for it in cells) + " |")


def main(program, words):
    runs = int(words[words.index("--runs") + 1]) if "--runs" in words else 3
    sizes = [tuple(map(int, it.split(":"))) for it in words if ":" in it] or SIZES
    if not os.path.exists("/proc/self/schedstat"):
        print("this system doesn't tell processor times in nanoseconds: nothing is measured")
        return
    tables = []
    for cells, sources in sizes:
        columns = []
        for part in (rows_alone, lambda it: single(it, 1, POLICIES[:1]), lambda it: single(it, 5, POLICIES), excluded, many):
            office = Office(program, cells, sources, runs)
            part(office)
            columns.append((office.head, office.found))
        tables.append((f"{cells:,} cells, {sources} source{'s'[:sources - 1]}", columns))
    for it in tables:
        table(*it)

