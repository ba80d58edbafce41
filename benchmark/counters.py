"""Measures `counters` over 64 MiB of readings of 40 sources, beside a plain program that does the same job.

    ./bench counters

In order source after source, in order minute after minute, and shuffled. Prints one line a figure: the least processor
time of five runs and the peak memory, of the office and of the plain program, which `rustc` builds. Both have to write
the same rows.
"""
import hashlib
import os
import random
import subprocess
import tempfile
import time

from budget import high_water

HERE = os.path.dirname(os.path.abspath(__file__))
SLI = "shop-good"
SOURCES = 40
READINGS = 40_750
RUNS = 5


def readings():
    """The lines of each source: counters that rise, with nine tenths of the events good."""
    chance = random.Random(7)
    for source in range(SOURCES):
        good = total = 10**8 + source
        for minute in range(READINGS):
            total += chance.randrange(1000)
            good = min(total, good + chance.randrange(990))
            yield f"source-{source:02d},{29_000_000 + minute},1,{good},{total}\n"


def orders():
    lines = list(readings())
    yield "source after source", lines
    yield "minute after minute", [lines[s * READINGS + m] for m in range(READINGS) for s in range(SOURCES)]
    yield "shuffled", random.Random(8).sample(lines, len(lines))


def build(folder):
    plain = os.path.join(folder, "plain_counters")
    source = os.path.join(HERE, "plain_counters.rs")
    subprocess.run(["rustc", "-O", "-C", "target-cpu=native", "-C", "panic=abort", "-o", plain, source], check=True)
    return plain


def run(command, path, rows):
    """One run over a file: its processor seconds, and its peak memory in MB."""
    with open(path, "rb") as text, open(rows, "wb") as output:
        child = subprocess.Popen(command, stdin=text, stdout=output)
        peak, ended = 0, 0
        while ended == 0:
            peak = max(peak, high_water(child.pid))
            ended, status, used = os.wait4(child.pid, os.WNOHANG)
            time.sleep(0.001)
    child.returncode = os.waitstatus_to_exitcode(status)
    assert child.returncode == 0, (command, child.returncode)
    return used.ru_utime + used.ru_stime, peak / 1e6


def measure(command, path, rows):
    """The least processor time and the greatest peak of some runs, and a hash of the rows."""
    runs = [run(command, path, rows) for _ in range(RUNS)]
    with open(rows, "rb") as text:
        return min(runs)[0], max(memory for _, memory in runs), hashlib.file_digest(text, "sha256").hexdigest()


def main(program, words):
    if subprocess.run([program, "counters", SLI], stdin=subprocess.DEVNULL, capture_output=True).returncode == 2:
        print("this program hasn't the command counters")
        return
    with tempfile.TemporaryDirectory() as folder:
        plain, path, rows = build(folder), os.path.join(folder, "readings.csv"), os.path.join(folder, "rows.csv")
        for name, lines in orders():
            with open(path, "w", encoding="ascii") as text:
                text.writelines(lines)
            ours, our_peak, our_rows = measure([program, "counters", SLI], path, rows)
            theirs, their_peak, their_rows = measure([plain, SLI], path, rows)
            assert our_rows == their_rows, name
            print(
                f"{name}: {os.path.getsize(path) / 2**20:.0f} MiB, {ours:.2f} s and {our_peak:.0f} MB;"
                f" plain {theirs:.2f} s and {their_peak:.0f} MB; {ours / theirs:.2f} times, {our_peak / their_peak:.2f} times",
                flush=True,
            )
