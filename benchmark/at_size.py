"""What an office takes at the size that its limits allow: each figure beside its aim.

    ./bench at_size [--runs N] [--cells N] [--before PROGRAM] [PART ..]

The parts, by default all: `slos`, 200 SLOs over one indicator; `exclusions`, none, 900 and 1,900 of two days; `longest`,
what holds the turn for longest, over so many cells, by default 2,000,000; `alerts`, timelines and ticks; `batch`, a batch
over five objectives and ten bindings; `budget`, beside a plain program; `links`, idle, asking, slow and busy ones, and
how many burns a second beside another version of the program. Times of requests are processor time of the program, read
while it waits for the next request; of links they are the clock's. Prints a line a figure, with the least and the median
of so many (of links the most too) and the load, and at the end the table, in Markdown. With `TMPDIR=/dev/shm` a sync is
free. What few descriptors do is a case of `./test links`.
"""
import argparse
import os
import re
import resource
import shutil
import subprocess
import tempfile
import threading
import time
from contextlib import contextmanager

import budget
import documents
import figures
import latency
import links
from figures import MINUTES, MONTH, POLICIES, service, slo, spent, took
from make_samples import samples
from office import Link, Lost, message

GIVEN = argparse.Namespace()
TOLD = []


def tell(what, found, aim, unit="ms", most=False):
    """Keeps and prints a figure: the least and the median, and the most where it matters."""
    parts = [min(found), sorted(found)[len(found) // 2]] + [max(found)] * most
    TOLD.append((what, aim, unit, parts))
    named = ", ".join(f"{name} {rounded(it)}" for name, it in zip(("least", "median", "most"), parts))
    print(f"{what}: {named} {unit}, of {len(found)}; aim {aim or 'none'} [load {os.getloadavg()[0]:.1f}]", flush=True)


def rounded(it):
    return f"{it:,.0f}" if it >= 100 else f"{it:.3g}"


def office_of(folder, cells, sources, objects, left=0):
    """An office with a size, in a folder."""
    office = figures.Office(GIVEN.program, cells, sources, GIVEN.runs)
    office.make(folder, service() + objects, left)
    return office


@contextmanager
def room():
    with tempfile.TemporaryDirectory(prefix="at-size-") as folder:
        yield folder


@contextmanager
def copied(folder, library=None):
    """A session over a copy of a folder's journal."""
    with room() as other:
        shutil.copy(os.path.join(folder, "office.journal"), other)
        session = latency.Session(other, library)
        yield session
        session.end()


def many(first, last, policies, objectives=1):
    return [slo(n, objectives, policies) for n in range(first, last)]


def slos():
    cells = 1_000_000
    for policies, most in ((POLICIES, 420), ([], 200)):
        what = f"200 SLOs, {200 * len(policies)} bindings, {cells:,} cells"
        defined, new, same, memory = [], [], [], []
        with room() as folder:
            office = office_of(folder, cells, 10, many(0, 1, policies), left=5000)
            for _ in range(GIVEN.runs):
                with copied(folder) as session:
                    defined.append(took(session, office.define(many(1, 200, policies))))
                    new += [took(session, office.batch(cells - 1000 * n)) for n in range(5, 0, -1)]
                    same += [took(session, office.batch(1000 * n)) for n in range(5)]
                    memory.append(session.memory())
            known = corrected(office, folder, policies) if policies else []
        tell(f"{what}: a definition of 199 SLOs more", defined, "20")
        tell(f"{what}: a batch of 1,000 new rows", new, "2")
        tell(f"{what}: a batch of 1,000 rows that stand", same, "1")
        tell(f"{what}: memory", memory, str(most), "MB")
        if known:
            tell(f"{what}: a batch of 1,000 corrections of the last rows, once each alert's last 31 days were asked for", known, "")
    opened()


def corrected(office, folder, policies):
    """Batches of corrections where the alerts' conditions are known near them, so that each has to forget some."""
    with copied(folder) as session:
        session.ask(office.define(many(1, 200, policies)))
        for n in range(200):
            for policy in policies:
                session.ask(message("GET", f"/alerts/o{n}/0/{policy}?from={office.last - MINUTES}&to={office.last}"))
        return [took(session, office.batch(office.cells - 5000 - 1000 * n, 2)) for n in range(1, 6)]


def opened():
    """What 2,000 minutes of a row and a tick add to an opening."""
    with room() as folder:
        office = office_of(folder, 20_000, 1, many(0, 200, POLICIES))
        before = [opening(folder) for _ in range(GIVEN.runs)]
        for first in range(office.last, office.last + 2000, 500):
            rows = (message("POST", "/samples", b"busy,s0,%d,1,999,1000\n" % (first + n)) + message("POST", "/tick") for n in range(500))
            office.pipe(folder, b"".join(rows))
        behind = [opening(folder) for _ in range(GIVEN.runs)]
    tell("200 SLOs, 400 bindings: an opening without these minutes", before, "")
    tell("200 SLOs, 400 bindings: what 2,000 minutes of a row and a tick add", [it - min(before) for it in behind], "500")


def opening(folder):
    with copied(folder) as session:
        return spent(session)


def excluded(office, folder, what, count, aims):
    """Batches and liftings beside so many exclusions of two days, which lie before the rows."""
    before = [message("PUT", f"/exclusions/y{n}", b'{"from":%d,"slo":"o0","to":%d}' % (office.origin + 25 * n, office.origin + 25 * n + 2880)) for n in range(count)]
    made, lifted = [], []
    with room() as other:
        shutil.copy(os.path.join(folder, "office.journal"), other)
        for first in range(0, count, 950):
            office.pipe(other, b"".join(before[first : first + 950]))
        with copied(other) as session:
            new = [took(session, office.batch(office.cells - 1000 * n)) for n in range(5, 0, -1)]
            newer = [took(session, office.batch(1000 * n, 2)) for n in range(5)]
            for n in range(5):
                body = b'{"from":%d,"slo":"o0","to":%d}' % (office.last - MONTH, office.last)
                made.append(took(session, message("PUT", f"/exclusions/x{n}", body)))
                lifted.append(took(session, message("DELETE", f"/exclusions/x{n}")))
    for name, found, aim in zip(("a batch of 1,000 new rows", "a batch of 1,000 corrections", "one of 30 days more", "its lifting"), (new, newer, made, lifted), aims):
        tell(f"{what} beside {count:,} exclusions: {name}", found, aim)


def exclusions():
    cells = 100_000
    with room() as folder:
        office = office_of(folder, cells, 1, many(0, 1, POLICIES, 5), left=5000)
        for count, aims in ((0, ("", "", "", "")), (900, ("2", "2", "", "40")), (1900, ("2", "2", "", "40"))):
            excluded(office, folder, f"5 objectives, {cells:,} cells", count, aims)


def longest():
    cells = GIVEN.cells
    with room() as folder:
        office = office_of(folder, cells, 10, many(0, 1, POLICIES, 5))
        whole = b'{"from":%d,"slo":"o%d","to":%d}'
        for first, policies, objectives, aim in ((0, POLICIES, 5, ""), (1, [], 1, "100")):
            what, parted, made, lifted = f"an exclusion of all minutes, {cells:,} cells, {objectives} objective{'s'[:objectives - 1]}", [], [], []
            for _ in range(GIVEN.runs):
                with copied(folder) as session:
                    session.ask(office.define(many(first, first + 1, policies, objectives)))
                    for n in range(3):
                        (made if n else parted).append(took(session, message("PUT", f"/exclusions/w{n}", whole % (office.first, first, office.last))))
                        lifted.append(took(session, message("DELETE", f"/exclusions/w{n}")))
            tell(f"{what}: the first of its SLO, whose sums are copied", parted, "100")
            tell(f"{what}: another one, behind its lifting", made, "100")
            tell(f"{what}: its lifting", lifted, aim)
    # of more cells the days of so many objectives would pass their limit
    few = min(cells, 100_000)
    with room() as folder:
        office = office_of(folder, few, 10, many(0, 1, POLICIES, 5))
        with copied(folder) as session:
            tell(f"a definition of 199 SLOs of five objectives more, {few:,} cells", [took(session, office.define(many(1, 200, [], 5)))], "100")
    new_days()
    texts()


def new_days():
    """A batch with rows of 400 days that had none."""
    for slos_of_five in (8, 20):
        found = []
        for _ in range(GIVEN.runs):
            with room() as folder:
                office = office_of(folder, 0, 1, many(0, slos_of_five, [], 5))
                rows = b"".join(b"busy,s0,%d,1,999,1000\n" % (office.origin + 1440 * n + 7) for n in range(400))
                session = latency.Session(folder)
                found.append(took(session, message("POST", "/samples", rows)))
                session.end()
        tell(f"{5 * slos_of_five} objectives: a batch that brings 400 days", found, "100")


def texts():
    """A definition of one object of many annotations, and the same again, which changes nothing."""
    for size, aim in ((400_000, "100"), (1_048_576, "")):
        head = "apiVersion: openslo/v1\nkind: Service\nmetadata:\n  name: a\n  annotations:\n"
        end, width = "spec: {}\n", len("    aaaa: 1\n")
        lines = [f"    {documents.word(n)}: 1\n" for n in range((size - len(head) - len(end)) // width)]
        data, found, again = message("POST", "/objects", head + "".join(lines) + end), [], []
        for _ in range(GIVEN.runs):
            with room() as folder:
                office_of(folder, 0, 1, [])
                session = latency.Session(folder)
                found.append(took(session, data))
                again.append(took(session, data))
                session.end()
        tell(f"a definition of {size:,} bytes, {len(lines):,} annotations", found, aim)
        tell(f"a definition of {size:,} bytes, the same again", again, aim)


def waiting(number):
    """A policy whose alert begins once its condition has held for 30 days."""
    return (f"apiVersion: openslo/v1\nkind: AlertCondition\nmetadata:\n  name: held{number}\nspec:\n  severity: page\n  condition:\n    kind: burnrate\n    op: gte\n    threshold: {number}\n"
            f"    lookbackWindow: 1h\n    alertAfter: 30d\n---\napiVersion: openslo/v1\nkind: AlertPolicy\nmetadata:\n  name: waits{number}\nspec:\n  alertWhenBreaching: true\n"
            f"  conditions:\n  - conditionRef: held{number}\n")


def alerts():
    first, again = [], []
    with room() as folder:
        office = office_of(folder, MONTH, 1, many(0, 1, POLICIES[:1]))
        asked = message("GET", f"/alerts/o0/0/workbook-page?from={office.last - MINUTES}&to={office.last}")
        for _ in range(GIVEN.runs):
            with copied(folder) as session:
                first.append(took(session, asked))
                again += [took(session, asked) for _ in range(10)]
    tell("a timeline of 44,640 minutes, first", first, "4")
    tell("a timeline of 44,640 minutes, again", again, "0.1")
    ticks()


def ticks():
    """Ticks of 400 bindings that wait for 30 days, in one minute and each a minute later, over rows up to the clock."""
    first, same, later, tick = [], [], [], message("POST", "/tick")
    with room() as folder:
        office = figures.Office(GIVEN.program, MONTH, 1, GIVEN.runs)
        # the rows end at the clock
        office.first, office.last = office.origin + 600_000 - MONTH, office.origin + 600_000
        office.make(folder, service() + [waiting(1), waiting(2)] + many(0, 200, ["waits1", "waits2"]))
        library = latency.quick_clock(folder)
        for _ in range(GIVEN.runs):
            with copied(folder) as session:
                first.append(took(session, tick))
                same += [took(session, tick) for _ in range(10)]
            if library:
                with copied(folder, library) as session:
                    took(session, tick)
                    later += [took(session, tick) for _ in range(10)]
    tell("400 bindings that wait for 30 days: the first tick", first, "")
    tell("400 bindings that wait for 30 days: a tick in the same minute", same, "5")
    if later:
        tell("400 bindings that wait for 30 days: a tick a minute later", later, "5")


def batch():
    cells = 100_000
    with room() as folder:
        office = office_of(folder, cells, 1, many(0, 1, POLICIES, 5), left=20_000)
        session = latency.Session(folder)
        tell(f"5 objectives, 10 bindings, {cells:,} cells: a batch of 1,000 new rows", [took(session, office.batch(cells - 1000 * n)) for n in range(20, 0, -1)], "0.9")
        session.end()


def plain():
    """`budget` beside the plain program, over 64 MiB."""
    with room() as folder:
        bare = budget.build(folder)
        if not bare:
            print("rustc isn't installed: `budget` isn't measured beside the plain program")
            return
        path = os.path.join(folder, "samples.csv")
        with open(path, "wb") as file:
            file.write(samples(64 * 1_048_576))
        # in turns, so that both have the same company
        pairs = [(budget.run([GIVEN.program, "budget", *budget.WORDS], path), budget.run([bare, *budget.WORDS], path)) for _ in range(budget.RUNS)]
    for place, name in enumerate(("office", "plain program")):
        tell(f"`budget`, 64 MiB: the {name}", [it[place][0] for it in pairs], "", "s")
    least = [min(it[place][0] for it in pairs) for place in (0, 1)]
    tell("`budget`, 64 MiB: the office by the plain program, least by least", [least[0] / least[1]], "1.5", "times its time")
    most = [max(it[place][2] for it in pairs) for place in (0, 1)]
    tell("`budget`, 64 MiB: the office by the plain program, most by most", [most[0] / most[1]], "1.0", "times its memory")


def seconds(link, data=message("GET", links.BURN)):
    """The milliseconds of the clock that an answer takes."""
    begun = time.perf_counter()
    assert link.ask(data).status == 200
    return 1e3 * (time.perf_counter() - begun)


def answered(port, count, pause=0.0):
    """How long clients that come one after another wait for their first answer, their link included."""
    found = []
    for _ in range(count):
        begun = time.perf_counter()
        link = Link(port)
        seconds(link)
        found.append(1e3 * (time.perf_counter() - begun))
        link.cut()
        time.sleep(pause)
    return found


def asking(port, stop):
    """One that asks some twenty times a second over one link."""
    link = Link(port)
    while not stop.wait(0.05):
        seconds(link)


def slow(port, stop):
    """One that sends a byte a second, and comes again when its link is closed."""
    while not stop.is_set():
        try:
            link = Link(port)
            for byte in message("GET", links.BURN):
                link.send(bytes([byte]))
                if stop.wait(1):
                    break
            link.cut()
        except (Lost, OSError):
            pass


@contextmanager
def beside(port, count, kind):
    stop = threading.Event()
    others = [threading.Thread(target=kind, args=(port, stop)) for _ in range(count)]
    for it in others:
        it.start()
    time.sleep(1.5)
    yield
    stop.set()
    for it in others:
        it.join()


@contextmanager
def serving(program):
    """An office with a thousand rows that serves: its port."""
    links.PROGRAM, links.SECONDS = program, 2
    with room() as folder:
        child, port = links.office(folder, b"".join(b"good,thread0,%d,1,9990,10000\n" % (links.ORIGIN + n) for n in range(1000)))
        try:
            yield child, port
        finally:
            links.stop(child)


def by_links():
    most = resource.getrlimit(resource.RLIMIT_NOFILE)[1]
    resource.setrlimit(resource.RLIMIT_NOFILE, (min(4000, most), most))
    with serving(GIVEN.program) as (_, port):
        for count in (0, 4, 200, 1000):
            idle = [Link(port) for _ in range(count)]
            tell(f"a first answer behind {count:,} idle links", answered(port, 50), "20" if count else "", most=True)
            for link in idle:
                link.cut()
        with beside(port, 4, asking):
            tell("a first answer beside four that ask on", answered(port, 50, 0.02), "20", most=True)
        with beside(port, 8, slow):
            tell("a first answer beside eight that send a byte a second and come again", answered(port, 5, 0.3), "5,000", most=True)
    if not shutil.which("wrk"):
        print("wrk isn't installed: busy links aren't measured")
        return
    with serving(GIVEN.program) as (_, port):
        # an error of a link, or another status than 200, ends the script
        tell("64 busy links: 99 answers in a hundred within", [busy(port) for _ in range(GIVEN.runs)], "100")
    rates()


def busy(port):
    words = ["wrk", "-t4", "-c64", "-d2s", "--timeout", "60s", "--latency", f"http://127.0.0.1:{port}{links.BURN}"]
    told = subprocess.run(words, capture_output=True, text=True, check=True).stdout
    assert "Non-2xx" not in told and "Socket errors" not in told, told
    number, unit = re.search(r"(?m)^\s+99%\s+([\d.]+)(us|ms|s)$", told).groups()
    return float(number) * {"us": 0.001, "ms": 1, "s": 1000}[unit]


def rates():
    """Burns a second, in turns with the other version where one is given."""
    programs = [GIVEN.program] + ([GIVEN.before] if GIVEN.before else [])
    for count, aim in ((1, "0.9"), (4, "0.9"), (16, "1.3"), (64, "1.3")):
        found = [[], []]
        for _ in range(max(3, GIVEN.runs)):
            for place, program in enumerate(programs):
                with serving(program) as (child, port):
                    found[place].append(links.measure(child, port, links.BURN, count)[0])
        what = f"burns a second by {count} link{'s'[:count - 1]}"
        tell(what, found[0], "", "requests")
        if found[1]:
            tell(f"{what}, the program before", found[1], "", "requests")
            middle = [sorted(it)[len(it) // 2] for it in found]
            tell(f"{what}, median by median", [middle[0] / middle[1]], f"{aim} at least", "times those before")


PARTS = {"slos": slos, "exclusions": exclusions, "longest": longest, "alerts": alerts, "batch": batch, "budget": plain, "links": by_links}


def main(program, words):
    read = argparse.ArgumentParser(prog="./bench at_size")
    read.add_argument("--runs", type=int, default=3)
    read.add_argument("--cells", type=int, default=2_000_000)
    read.add_argument("--before", metavar="PROGRAM")
    read.add_argument("parts", nargs="*", choices=[[], *PARTS], metavar="PART")
    read.parse_args(words, GIVEN)
    GIVEN.program = program
    if not os.path.exists("/proc/self/schedstat"):
        print("this system doesn't tell processor times in nanoseconds: nothing is measured")
        return
    for name in GIVEN.parts or PARTS:
        PARTS[name]()
    print("\n| | Aim | Least | Median | Most |\n|---|---|---|---|---|")
    for what, aim, unit, parts in TOLD:
        cells = [rounded(it) for it in parts] + [""] * (3 - len(parts))
        print(f"| {what}, {unit} | {aim} | " + " | ".join(cells) + " |")
