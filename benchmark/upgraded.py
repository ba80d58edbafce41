"""What an upgraded office takes: withdrawals at 2,000,000 cells; opening, memory and corrections at 4,000,000.

    ./bench upgraded [--runs N] [CELLS ..]

The offices are those of `figures`, of ten sources, with one objective and one binding. A figure is processor time of the
program, read while it waits for the next request: the least and the median of so many. Of 4,000,000 cells one more is
refused. With `TMPDIR=/dev/shm` a sync is free. Prints a line a figure with the load beside it.
"""
import os
import subprocess
import tempfile

import figures
from figures import POLICIES, corrections, new_rows, openings, service, slo, took
from office import message

SIZES = [2_000_000, 4_000_000]
SOURCES = 10
BATCHES = 20


class Upgraded(figures.Office):
    """An office that is upgraded before its rows come."""

    def make(self, folder, documents, left=0):
        subprocess.run([self.program, "init", str(self.origin)], cwd=folder, check=True, stdout=subprocess.DEVNULL)
        self.pipe(folder, self.define(documents) + message("POST", "/upgrade"))
        rows = self.cells - left
        for place in range(0, rows, 500_000):
            self.pipe(folder, b"".join(self.batch(n) for n in range(place, min(rows, place + 500_000), 1000)))

    def withdrawals(self, place, revision):
        """A thousand rows from a place on, withdrawn."""
        rows = (b"busy,s%d,%d,%d,,\n" % (n % self.sources, self.first + n // self.sources, revision) for n in range(place, place + 1000))
        return message("POST", "/samples", b"".join(rows))


def withdrawn(office, session):
    last, first = [office.cells - 1000 * n for n in range(1, BATCHES + 1)], [1000 * n for n in range(BATCHES)]
    for what, places in (("last", last), ("first", first)):
        office.note(f"a batch of 1,000 withdrawals of the {what} rows", [took(session, office.withdrawals(it, 3)) for it in places])
        office.note("a batch of 1,000 rows that are brought back", [took(session, office.batch(it, 4)) for it in places])


def one_more(office, folder):
    """At 4,000,000 cells a new one is refused."""
    row = message("POST", "/samples", b"busy,other,%d,1,1,1\n" % office.first)
    told = subprocess.run([office.program, "pipe"], cwd=folder, input=row, capture_output=True, check=True).stdout
    assert told.endswith(b'{"error":"limit","which":"cells"}'), told
    print(f"{office.cells:,} cells: one more is refused as `cells`")


def main(program, words):
    runs = int(words[words.index("--runs") + 1]) if "--runs" in words else 3
    sizes = [int(it) for it in words if it.isdigit() and int(it) >= 100_000] or SIZES
    if not os.path.exists("/proc/self/schedstat"):
        print("this system doesn't tell processor times in nanoseconds: nothing is measured")
        return
    for cells in sizes:
        office = Upgraded(program, cells, SOURCES, runs)
        office.head = "upgraded, 1 objective, 1 binding"
        with tempfile.TemporaryDirectory(prefix="upgraded-") as folder:
            office.make(folder, service() + [slo(0, 1, POLICIES[:1])], left=1000 * BATCHES)
            session = figures.latency.Session(folder)
            new_rows(office, session, BATCHES)
            session.end()
            session = openings(office, folder)
            corrections(office, session, BATCHES)
            withdrawn(office, session)
            office.note_memory("memory at the end, MB", session.memory())
            session.end()
            if cells == SIZES[-1]:
                one_more(office, folder)
