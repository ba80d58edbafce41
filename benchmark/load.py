"""Measures the built program over `pipe`: requests a second, opening, time and memory.

    ./bench load

Prints one line a figure. The journals lie in a temporary folder, on whatever disk that is; `TMPDIR` chooses another.
"""
import os
import resource
import subprocess
import sys
import tempfile
import time

from office import message

PROGRAM = ""

SLI = """apiVersion: openslo/v1
kind: SLI
metadata:
  name: good
spec:
  ratioMetric:
    counter: true
    good:
      metricSource:
        type: t
        spec:
          q: a
    total:
      metricSource:
        type: t
        spec:
          q: b
---
apiVersion: openslo/v1
kind: Service
metadata:
  name: shop
spec:
  description: A shop.
---
apiVersion: openslo/v1
kind: SLO
metadata:
  name: shop-slo
spec:
  service: shop
  indicatorRef: good
  timeWindow:
  - duration: 30d
    isRolling: true
  budgetingMethod: Occurrences
  objectives:
  - target: 0.999
  alertPolicies:
  - workbook-page
"""


def batch(first, revision=1, count=1000):
    """A thousand rows from four sources, minute after minute."""
    return "".join(f"good,s{(first + i) % 4},{(first + i) // 4 + BASE},{revision},{1000 - (first + i) % 7},1000\n" for i in range(count))


BASE = 0


def pipe(folder, data):
    """Runs one session, and gives its time, its memory and its output."""
    begun = time.monotonic()
    child = subprocess.Popen([PROGRAM, "pipe"], cwd=folder, stdin=subprocess.PIPE, stdout=subprocess.PIPE)
    output, _ = child.communicate(data)
    spent = time.monotonic() - begun
    assert child.returncode == 0, child.returncode
    return spent, output


def main(program, _):
    global BASE, PROGRAM
    PROGRAM = program
    now = int(time.time()) // 60
    origin = now - 1_000_000
    BASE = origin
    with tempfile.TemporaryDirectory() as folder:
        subprocess.run([PROGRAM, "init", str(origin)], cwd=folder, check=True, stdout=subprocess.DEVNULL)
        pipe(folder, message("POST", "/objects", SLI))
        rows = 0
        for target in (100_000, 1_000_000, 2_000_000):
            spent = 0.0
            while rows < target:
                part = min(500, (target - rows) // 1000)
                data = b"".join(message("POST", "/samples", batch(rows + 1000 * k)) for k in range(part))
                opened, _ = pipe(folder, b"")
                took, output = pipe(folder, data)
                assert output.count(b"HTTP/1.1 200") == part, output[:300]
                spent += took - opened
                rows += 1000 * part
            opened = min(pipe(folder, b"")[0] for _ in range(3))
            print(f"{rows} rows: opening {opened:.2f} s, the batches before it {spent:.2f} s, journal {os.path.getsize(os.path.join(folder, 'office.journal'))} bytes")
            query = message("GET", "/budgets/shop-slo")
            took = pipe(folder, query * 900)[0] - opened
            print(f"{rows} rows: a budget {took / 900 * 1e6:.0f} us")
            took = pipe(folder, message("POST", "/samples", batch(rows - 1000, 1)) * 200)[0] - opened
            print(f"{rows} rows: a batch that says what stands {took / 200 * 1e3:.2f} ms")
            took = pipe(folder, message("POST", "/samples", batch(rows - 1000, 2)))[0] - opened
            print(f"{rows} rows: a batch of 1,000 corrections {took * 1e3:.1f} ms")
            took = pipe(folder, message("GET", f"/alerts/shop-slo/0/workbook-page?from={now - 44640}&to={now}"))[0] - opened
            print(f"{rows} rows: a timeline of 44,640 minutes {took * 1e3:.1f} ms")
            took = pipe(folder, message("POST", "/tick"))[0] - opened
            print(f"{rows} rows: a tick {took * 1e3:.1f} ms")
    print(f"the greatest memory of a run: {resource.getrusage(resource.RUSAGE_CHILDREN).ru_maxrss // 1024} MB")

