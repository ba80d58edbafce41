"""What feeds and their following take: a feed of 1 MiB, `follow` beside `pipe`, and openings and memory by the entry.

    ./bench following [--beside PROGRAM] [--runs N]

An office of one SLO takes 1,000 batches of 1,000 rows from ten sources: by `pipe`, and a copy of it by `follow` over the
feeds of these entries, both from a file. Feeds are asked for over one session of `pipe`: of batches, and of ticks. The
openings are those of that office and of a journal of 1,000,000 ticks, whose memory is told by the entry; with another
program beside, both are opened in turn. A figure is processor time of the program: the least and the median of so many.
With `TMPDIR=/dev/shm` a sync is free. Prints a line a figure with the load beside it.
"""
import os
import subprocess
import tempfile
import time
from pathlib import Path

import feeds
import figures
import latency
from office import message, records

BATCHES, SOURCES, TICKS = 1000, 10, 1_000_000
# The least processor time of the answer to a feed of 1 MiB is to be below so many milliseconds.
AIM = 1.5


def told(what, times, more=""):
    print(f"{what}: least {min(times):.3f} ms, median {sorted(times)[len(times) // 2]:.3f}, of {len(times)}{more} [load {os.getloadavg()[0]:.1f}]", flush=True)


def ran(words, folder, path):
    """The milliseconds of the processor that a run over a file takes, and its output."""
    with open(path, "rb") as source, open(folder / "output", "wb+") as sink:
        child = subprocess.Popen(words, cwd=folder, stdin=source, stdout=sink)
        _, status, used = os.wait4(child.pid, 0)
        child.returncode = os.waitstatus_to_exitcode(status)
        sink.seek(0)
        output = sink.read()
    assert child.returncode == 0, (words, child.returncode)
    return 1e3 * (used.ru_utime + used.ru_stime), output


def begun(room, name, origin, entries):
    """A folder with a journal of these entries."""
    folder = room / name
    folder.mkdir(exist_ok=True)
    (folder / "office.journal").write_bytes(feeds.journal(origin, entries))
    return folder


def taken(program, room, runs):
    """The batches by `pipe`, and by `follow`; gives the origin and the entries."""
    office = figures.Office(program, BATCHES * 1000, SOURCES, runs)
    folder = room / "office"
    folder.mkdir()
    subprocess.run([program, "init", str(office.origin)], cwd=folder, check=True, stdout=subprocess.DEVNULL)
    office.pipe(folder, office.define(figures.service() + [figures.slo(0, 1, figures.POLICIES[:1])]))
    defined = records(folder / "office.journal")
    requests, fed = room / "requests", room / "feeds"
    requests.write_bytes(b"".join(office.batch(1000 * n) for n in range(BATCHES)))
    by_pipe, by_follow = [], []
    for n in range(runs):
        folder = begun(room, f"pipe-{n}", office.origin, defined)
        spent, output = ran([program, "pipe"], folder, requests)
        assert output.count(b"HTTP/1.1 200") == BATCHES, output[:300]
        by_pipe.append(spent)
    entries = records(folder / "office.journal")
    data, at = b"", 1
    while at < len(entries):
        one = feeds.feed_of(office.origin, at, entries)
        data, at = data + one, at + int.from_bytes(one[16:20], "big")
    fed.write_bytes(data)
    for n in range(runs):
        folder = begun(room, f"follow-{n}", office.origin, defined)
        spent, output = ran([program, "follow"], folder, fed)
        assert output == f"entries {BATCHES + 1}\n".encode() and records(folder / "office.journal") == entries, output
        by_follow.append(spent)
    told(f"{BATCHES:,} batches of 1,000 rows by pipe", by_pipe)
    told(f"the same by follow, {len(data):,} bytes of feeds", by_follow, f", {min(by_follow) / min(by_pipe):.2f} times")
    return office.origin, entries


def answered(folder, what, runs):
    """Feeds from the first entry on."""
    session = latency.Session(folder)
    asked = message("GET", "/entries?from=0")
    times, clock = [], []
    for _ in range(10 * runs):
        begin = time.perf_counter()
        times.append(figures.took(session, asked))
        clock.append(1e3 * (time.perf_counter() - begin))
    session.end()
    told(f"a feed of {what}", times, f", by the clock {min(clock):.3f}, aim {AIM}")


def opened(programs, folder, what, entries, runs):
    """Openings by each program in turn, and the greatest memory, by the entry too."""
    times = {it: [] for it in programs}
    memory = {it: [] for it in programs}
    for _ in range(runs):
        for program in programs:
            latency.PROGRAM = program
            session = latency.Session(folder)
            times[program].append(figures.spent(session))
            memory[program].append(session.memory())
            session.end()
    for program in programs:
        by_entry = 1e6 * min(memory[program]) / entries
        told(f"an opening of {what} by {program}", times[program], f", {min(memory[program]):.1f} MB, {by_entry:.1f} bytes an entry")
    latency.PROGRAM = programs[0]


def main(program, words):
    runs = int(words[words.index("--runs") + 1]) if "--runs" in words else 5
    beside = [os.path.realpath(words[words.index("--beside") + 1])] if "--beside" in words else []
    if not os.path.exists("/proc/self/schedstat"):
        print("this system doesn't tell processor times in nanoseconds: nothing is measured")
        return
    with tempfile.TemporaryDirectory(prefix="following-") as name:
        room = Path(name)
        latency.PROGRAM = program
        origin, entries = taken(program, room, runs)
        answered(room / "pipe-0", f"batches, {len(feeds.feed_of(origin, 0, entries)):,} bytes", runs)
        ticks = [feeds.tick(origin)] * TICKS
        ticked = begun(room, "ticks", origin, ticks)
        answered(ticked, f"ticks, {len(feeds.feed_of(origin, 0, ticks)):,} bytes", runs)
        opened([program, *beside], room / "pipe-0", f"{BATCHES + 1:,} entries", len(entries), runs)
        opened([program, *beside], ticked, f"{TICKS:,} ticks", TICKS, runs)
