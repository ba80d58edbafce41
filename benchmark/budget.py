"""Measures `budget` at 1, 16 and 64 MiB, beside a plain program that does the same job.

    ./bench budget

Prints one line a figure: the least processor time of five runs, its wall time, and the peak memory (Linux tells it).
`rustc` builds the plain program; where it isn't there the office is measured alone.
"""
import os
import shutil
import subprocess
import tempfile
import time

from make_samples import samples

HERE = os.path.dirname(os.path.abspath(__file__))
WORDS = ["0.999", "0", "67000000"]
RUNS = 5


def build(folder):
    """The plain program, or None where it can't be built here."""
    if shutil.which("rustc") is None:
        return None
    plain = os.path.join(folder, "plain_budget")
    source = os.path.join(HERE, "plain_budget.rs")
    subprocess.run(["rustc", "-O", "-C", "target-cpu=native", "-C", "panic=abort", "-o", plain, source], check=True)
    return plain


def high_water(pid):
    """The peak memory of a process so far in bytes, 0 where it has ended: what `getrusage` says counts this script's own before the child's program was loaded."""
    try:
        with open(f"/proc/{pid}/status") as status:
            return sum(int(line.split()[1]) * 1024 for line in status if line.startswith("VmHWM"))
    except OSError:
        return 0


def run(command, path):
    """One run over a file: processor seconds, wall seconds, peak memory in bytes, the printed text."""
    with open(path, "rb") as text:
        begun = time.monotonic()
        child = subprocess.Popen(command, stdin=text, stdout=subprocess.PIPE)
        peak, ended = 0, 0
        while ended == 0:
            peak = max(peak, high_water(child.pid))
            ended, status, used = os.wait4(child.pid, os.WNOHANG)
            time.sleep(0.0005)
        spent = time.monotonic() - begun
        child.returncode = os.waitstatus_to_exitcode(status)
        printed = child.stdout.read()
    assert child.returncode == 0, (command, child.returncode)
    return used.ru_utime + used.ru_stime, spent, peak, printed


def measure(name, command, path, size):
    """The best of some runs, printed; gives its processor time, memory and text."""
    runs = [run(command, path) for _ in range(RUNS)]
    best, peak = min(runs), max(it[2] for it in runs)
    print(f"{size:2} MiB, {name}: {best[0]:.3f} s of processor, {best[1]:.3f} s of wall, {peak / 1e6:.1f} MB")
    return best[0], peak, best[3]


def main(program, _):
    with tempfile.TemporaryDirectory() as folder:
        plain = build(folder)
        for size in (1, 16, 64):
            path = os.path.join(folder, "samples.csv")
            with open(path, "wb") as file:
                file.write(samples(size * 1_048_576))
            office = measure("office", [program, "budget", *WORDS], path, size)
            if plain is None:
                continue
            bare = measure("plain ", [plain, *WORDS], path, size)
            assert office[2] == bare[2], (office[2], bare[2])
            print(f"{size:2} MiB, office by plain: {office[0] / bare[0]:.2f} of the time, {office[1] / bare[1]:.2f} of the memory")

