"""Times single requests at 10^5 and at 10^6 cells, with one SLO and with 200, and `report` over these.

    ./bench latency [CELLS ..]

Each request is sent in one session of `pipe` when the one before it is answered, and timed from its first byte to its
answer's last one, by the clock and by the processor time that the program took (Linux tells it): the first, the least
and the median of so many. What is kept of alerts is new at the first and known at the others. Beside other work the processor's time says more. The rows are those of one ratio indicator, of four sources, minute
after minute; each SLO has one objective over 30 days and both built-in policies, so that 200 of them are 400 bindings.
The journal lies in a temporary folder; with `TMPDIR=/dev/shm` a sync is free. Prints the load beside the figures.
"""
import os
import resource
import shutil
import subprocess
import tempfile
import time

from office import message

PROGRAM = ""
NOW = int(time.time()) // 60
ORIGIN = NOW - 600_000


def documents(slos):
    """A service, an indicator and these SLOs."""
    source = "      metricSource:\n        type: t\n"
    head = ["apiVersion: openslo/v1\nkind: Service\nmetadata:\n  name: shop\nspec: {}\n",
            f"apiVersion: openslo/v1\nkind: SLI\nmetadata:\n  name: busy\nspec:\n  ratioMetric:\n    total:\n{source}    good:\n{source}"]
    docs = [f"apiVersion: openslo/v1\nkind: SLO\nmetadata:\n  name: o{n}\nspec:\n  service: shop\n  indicatorRef: busy\n  timeWindow:\n  - duration: 30d\n    isRolling: true\n"
            "  budgetingMethod: Occurrences\n  objectives:\n  - target: 0.99\n  alertPolicies:\n  - workbook-page\n  - workbook-ticket\n" for n in slos]
    return message("POST", "/objects", "---\n".join(head + docs).encode())


def batch(first, revision=1):
    rows = (b"busy,s%d,%d,%d,%d,1000\n" % (n % 4, ORIGIN + n // 4, revision, 1000 - n % 7) for n in range(first, first + 1000))
    return message("POST", "/samples", b"".join(rows))


# Stands before the C library's: each reading of the clock is a minute behind the one before it.
CLOCK = r"""
#define _GNU_SOURCE
#include <dlfcn.h>
#include <time.h>
int clock_gettime(clockid_t clock, struct timespec *at) {
    static int (*next)(clockid_t, struct timespec *); static long calls;
    if (!next) next = (int (*)(clockid_t, struct timespec *))dlsym(RTLD_NEXT, "clock_gettime");
    int found = next(clock, at);
    if (!found && clock == CLOCK_REALTIME) at->tv_sec += 60 * calls++;
    return found;
}
"""


def quick_clock(room):
    """The library of the clock that runs ahead, or None where there is no C compiler."""
    if not shutil.which("cc"):
        return None
    source, library = os.path.join(room, "clock.c"), os.path.join(room, "clock.so")
    with open(source, "w") as file:
        file.write(CLOCK)
    subprocess.run(["cc", "-shared", "-fPIC", "-O2", "-o", library, source, "-ldl"], check=True)
    return library


class Session:
    """One run of `pipe`, asked one request after another."""

    def __init__(self, folder, library=None):
        begun = time.perf_counter()
        words = dict(os.environ, LD_PRELOAD=library) if library else None
        self.child = subprocess.Popen([PROGRAM, "pipe"], cwd=folder, stdin=subprocess.PIPE, stdout=subprocess.PIPE, bufsize=0, env=words)
        self.waiting = b""
        self.ask(message("GET", "/notices"))
        self.opening = f"opening {time.perf_counter() - begun:.2f} s, {self.spent():.2f} s of the processor"

    def spent(self):
        """The seconds of the processor so far."""
        with open(f"/proc/{self.child.pid}/schedstat") as file:
            return int(file.read().split()[0]) / 1e9

    def ask(self, data):
        """The milliseconds until the answer was there, which has to be 200, and those of the processor."""
        spent, begun = self.spent(), time.perf_counter()
        self.child.stdin.write(data)
        while b"\r\n\r\n" not in self.waiting:
            self.waiting += self.child.stdout.read(1 << 16)
        head, _, rest = self.waiting.partition(b"\r\n\r\n")
        length = int(head.split(b"Content-Length: ")[1].split(b"\r\n")[0])
        while len(rest) < length:
            rest += self.child.stdout.read(1 << 16)
        took = time.perf_counter() - begun
        self.waiting = rest[length:]
        assert head.startswith(b"HTTP/1.1 200"), (head, rest[:200])
        return 1e3 * took, 1e3 * (self.spent() - spent)

    def memory(self):
        with open(f"/proc/{self.child.pid}/status") as status:
            return next(int(line.split()[1]) for line in status if line.startswith("VmHWM")) / 1024

    def end(self):
        self.child.stdin.close()
        assert self.child.wait() == 0


def told(text):
    print(f"{text} [load {os.getloadavg()[0]:.1f}]", flush=True)


def tell(what, times):
    """The first, the least and the median, by the clock and by the processor."""
    found = []
    for n in range(2):
        these = [it[n] for it in times]
        found.append(f"first {these[0]:.3f} ms, least {min(these):.3f}, median {sorted(these)[len(these) // 2]:.3f}")
    told(f"{what}: {found[0]}; processor {found[1]}; of {len(times)}")


def run(words, folder):
    """The least clock and processor time of three runs of the program, and the bytes that it printed."""
    found = []
    for _ in range(3):
        before, begun = resource.getrusage(resource.RUSAGE_CHILDREN), time.perf_counter()
        done = subprocess.run([PROGRAM, *words], cwd=folder, capture_output=True, check=True)
        took, after = time.perf_counter() - begun, resource.getrusage(resource.RUSAGE_CHILDREN)
        found.append((took, after.ru_utime + after.ru_stime - before.ru_utime - before.ru_stime))
    return min(it[0] for it in found), min(it[1] for it in found), len(done.stdout)


def reports(what, folder):
    whole, spent, size = run(["report"], folder)
    told(f"{what}: report, opening included: {whole:.2f} s, {spent:.2f} s of the processor, {size:,} bytes printed")


def fill(folder, rows):
    """Batches up to so many rows, in sessions of 500."""
    for first in range(0, rows, 500_000):
        sent = [batch(n) for n in range(first, min(rows, first + 500_000), 1000)]
        done = subprocess.run([PROGRAM, "pipe"], cwd=folder, input=b"".join(sent), capture_output=True, check=True)
        assert done.stdout.count(b"HTTP/1.1 200") == len(sent), done.stdout[:300]


def queries(session, cells):
    at = ORIGIN + cells // 4
    first = max(ORIGIN, at - 43200)
    for name, target, count in (("a budget", f"/budgets/o0?at={at}", 200), ("a burn rate over an hour", f"/burns/o0/0?lookback=1h&at={at}", 200), ("a burn rate over 30 days", f"/burns/o0/0?lookback=30d&at={at}", 200),
                                (f"a timeline of {at - first} minutes, workbook-page", f"/alerts/o0/0/workbook-page?from={first}&to={at}", 15),
                                (f"a timeline of {at - first} minutes, workbook-ticket", f"/alerts/o0/0/workbook-ticket?from={first}&to={at}", 15), ("the list of notices, which reads no sums", "/notices", 100)):
        tell(f"{cells} cells, 1 SLO: {name}", [session.ask(message("GET", target)) for _ in range(count)])


def exclusions(session, what, cells):
    """An exclusion of the 30 days before the last row, and its lifting, some times; and what is asked behind one."""
    at = ORIGIN + cells // 4
    first = max(ORIGIN, at - 43200)
    made, lifted = [], []
    for n in range(3):
        made.append(session.ask(message("PUT", f"/exclusions/x{n}", b'{"from":%d,"slo":"o0","to":%d}' % (first, at))))
        lifted.append(session.ask(message("DELETE", f"/exclusions/x{n}")))
    tell(f"{what}: an exclusion of {at - first} minutes", made)
    tell(f"{what}: its lifting", lifted)
    tell(f"{what}: a timeline of {at - first} minutes behind it, workbook-page", [session.ask(message("GET", f"/alerts/o0/0/workbook-page?from={first}&to={at}")) for _ in range(5)])


def batches(session, what, cells, counts):
    new, newer, same = counts
    tell(f"{what}: a batch of 1,000 new rows", [session.ask(batch(cells + 1000 * n)) for n in range(new)])
    tell(f"{what}: a batch of 1,000 newer rows", [session.ask(batch(1000 * n, 2)) for n in range(newer)])
    tell(f"{what}: a batch that stands", [session.ask(batch(cells - 1000)) for _ in range(same)])


def one_slo(folder, cells):
    session = Session(folder)
    told(f"{cells} cells, 1 SLO: {session.opening}")
    queries(session, cells)
    tell(f"{cells} cells, 1 SLO: a tick of 2 bindings", [session.ask(message("POST", "/tick")) for _ in range(20)])
    batches(session, f"{cells} cells, 1 SLO", cells, (40, 40, 40))
    exclusions(session, f"{cells} cells, 1 SLO", cells)
    told(f"{cells} cells, 1 SLO: memory {session.memory():.0f} MB")
    session.end()


def many_slos(folder, cells):
    session = Session(folder)
    told(f"{cells} cells: the definition of 199 SLOs more: {session.ask(documents(range(1, 200)))[1]:.0f} ms of the processor")
    tell(f"{cells} cells, 200 SLOs: a tick of 400 bindings", [session.ask(message("POST", "/tick")) for _ in range(20)])
    session.end()
    reports(f"{cells} cells, 200 SLOs", folder)
    session = Session(folder)
    told(f"{cells} cells, 200 SLOs: {session.opening}")
    tell(f"{cells} cells, 200 SLOs: a tick of 400 bindings, after an opening", [session.ask(message("POST", "/tick")) for _ in range(20)])
    batches(session, f"{cells} cells, 200 SLOs", cells, (10, 10, 10))
    exclusions(session, f"{cells} cells, 200 SLOs", cells)
    told(f"{cells} cells, 200 SLOs: memory {session.memory():.0f} MB")
    session.end()
    library = quick_clock(folder)
    if library:
        session = Session(folder, library)
        tell(f"{cells} cells, 200 SLOs: a tick of 400 bindings, a minute behind the one before", [session.ask(message("POST", "/tick")) for _ in range(20)])
        session.end()


def measure(cells):
    with tempfile.TemporaryDirectory(prefix="latency-") as folder:
        subprocess.run([PROGRAM, "init", str(ORIGIN)], cwd=folder, check=True, stdout=subprocess.DEVNULL)
        subprocess.run([PROGRAM, "pipe"], cwd=folder, input=documents([0]), check=True, stdout=subprocess.DEVNULL)
        fill(folder, cells)
        for part in (one_slo, many_slos):
            with tempfile.TemporaryDirectory(prefix="latency-") as other:
                shutil.copy(os.path.join(folder, "office.journal"), other)
                part(other, cells)


def main(program, words):
    global PROGRAM
    PROGRAM = program
    for cells in [int(it) for it in words] or (1000, 100_000, 1_000_000):
        measure(cells)

