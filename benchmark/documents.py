"""Measures documents on the built program: the worst texts of 1 MiB, definitions over 2,000 objects, and calendars.

    ./bench documents

Prints one line a figure. Of each text the time and the greatest memory of `check` and of `POST /objects` over an empty
office, the least of some runs; of definitions and removals the difference of two sessions over one journal, and the
opening of a journal that has as many of them. The journals lie in a temporary folder; `TMPDIR` chooses the disk (on
/dev/shm a sync is free).
"""
import os
import subprocess
import sys
import tempfile
import time

from office import message

PROGRAM = ""
MOST = 1_048_576
RUNS = 5
ORIGIN = int(time.time()) // 60 - 100_000


# A process of its own, since the greatest memory of a child is at least that of the one that began it.
HELPER = """
import os, subprocess, sys
child = subprocess.Popen(sys.argv[2:], stdout=subprocess.PIPE, stderr=subprocess.STDOUT)
output = child.stdout.read()
_, status, used = os.wait4(child.pid, 0)
with open(sys.argv[1], "w") as file:
    file.write(f"{used.ru_utime + used.ru_stime} {used.ru_maxrss / 1024} {os.waitstatus_to_exitcode(status)}")
sys.stdout.buffer.write(output)
"""


def run(words, folder, data):
    """The seconds of the processor, the most memory in MB, the status and the output of one run."""
    with tempfile.TemporaryDirectory(prefix="run-") as room:
        told, given = os.path.join(room, "told"), os.path.join(room, "given")
        with open(given, "wb") as file:
            file.write(data)
        with open(given, "rb") as file:
            done = subprocess.run([sys.executable, "-S", "-c", HELPER, told, PROGRAM, *words], cwd=folder, stdin=file, stdout=subprocess.PIPE)
        with open(told) as file:
            took, most, status = file.read().split()
    return float(took), float(most), int(status), done.stdout


def least(words, folder, data):
    found = [run(words, folder, data) for _ in range(RUNS)]
    return min(it[0] for it in found), max(it[1] for it in found), found[0][2], found[0][3]


def word(number):
    """Different words of four letters and digits, that begin with a letter."""
    text = "abcdefghijklmnopqrstuvwxyz"[number % 26]
    number //= 26
    for _ in range(3):
        text += "abcdefghijklmnopqrstuvwxyz0123456789"[number % 36]
        number //= 36
    return text


def filled(head, line):
    """A text of at most 1 MiB: a head, and as many lines as it takes."""
    parts, size, number = [head], len(head), 0
    while True:
        more = line(number)
        if size + len(more) > MOST:
            return "".join(parts).encode(), number
        parts.append(more)
        size, number = size + len(more), number + 1


def service(number, text="x"):
    return f"apiVersion: openslo/v1\nkind: Service\nmetadata:\n  name: s{number}\nspec:\n  description: {text}\n"


SLI = "apiVersion: openslo/v1\nkind: SLI\nmetadata:\n  name: good\nspec:\n  ratioMetric:\n    total:\n      metricSource:\n        type: t\n    good:\n      metricSource:\n        type: t\n"


def slo(number, window):
    return (f"apiVersion: openslo/v1\nkind: SLO\nmetadata:\n  name: o{number}\nspec:\n  service: s0\n  indicatorRef: good\n  timeWindow:\n{window}"
            "  budgetingMethod: Occurrences\n  objectives:\n  - target: 0.9\n")


ROLLING = "  - duration: 30d\n    isRolling: true\n"
CALENDAR = "  - duration: 1d\n    calendar:\n      startTime: 2024-01-01 00:00:00\n      timeZone: UTC\n"


def texts():
    """The worst texts that we know: names, bytes, and how many nodes they have."""
    dashes = "- " * 31 + "a\n"
    chain = "".join("\n" + " " * depth + "a:" for depth in range(1, 32)) + " b\n"
    head = "apiVersion: openslo/v1\nkind: Service\nspec: {}\nmetadata:\n  name: s0\n  annotations:\n"
    yield "one map of many keys, short ones", filled("", lambda n: word(n) + ":\n")
    yield "one map of many keys of ten bytes with a value", filled("", lambda n: f"k{n:06}: 1\n")
    yield "deep: lists 32 deep, one a line", filled("", lambda n: dashes)
    yield "deep: maps 32 deep, one after another", filled("", lambda n: word(n) + ":" + chain)
    yield "one list of one line", (b"a: [" + b",".join([b"b"] * 524_000) + b"]\n", 524_000)
    items = ",".join(["b"] * 524_212)
    yield "an annotation of one line, 28 lists deep", (f"{head}    a:\n    {'- ' * 28}[{items}]\n".encode(), 524_212)
    half = f"{head}    a:\n    {'- ' * 28}[{','.join(['b'] * 262_000)}]\n"
    yield "two copies of an object, 28 lists deep", (f"{half}---\n{half}".encode(), 2 * 262_000)
    yield "an object with many annotations", filled(head, lambda n: f"    {word(n)}: 1\n")
    yield "objects, as many as may be", ("---\n".join(service(n, "d" * 430) for n in range(2000)).encode(), 2000)


def worst(room):
    for name, (text, count) in texts():
        took, most, status, said = least(["check"], room, text)
        told = said.decode(errors="replace").replace("\n", " ").strip()[:60]
        line = f"{name}: {len(text)} bytes, {count} lines or objects: check {took:.3f} s, {most:.0f} MB, status {status} ({told})"
        folder = fresh(room, "text")
        took, most, status, said = least(["pipe"], folder, message("POST", "/objects", text))
        print(f"{line}; POST /objects {took:.3f} s, {most:.0f} MB, {said[9:12].decode()} {said.split(bytes([13, 10]) * 2)[-1][:60].decode()}", flush=True)


def fresh(room, name):
    folder = tempfile.mkdtemp(prefix=name + "-", dir=room)
    subprocess.run([PROGRAM, "init", str(ORIGIN)], cwd=folder, check=True, stdout=subprocess.DEVNULL)
    return folder


def sent(folder, messages):
    """Sends messages, 500 a session; the seconds of all sessions less those of an opening before each."""
    spent = 0.0
    for at in range(0, len(messages), 500):
        opened = run(["pipe"], folder, b"")[0]
        part = messages[at : at + 500]
        took, _, status, said = run(["pipe"], folder, b"".join(part))
        assert status == 0 and said.count(b"HTTP/1.1 200") == len(part), said[:300]
        spent += took - opened
    return spent


def definitions(room):
    """Definitions and removals of one object over 2,000."""
    folder = fresh(room, "many")
    for at in range(0, 2000, 500):
        sent(folder, [message("POST", "/objects", "---\n".join(service(n) for n in range(at, at + 500)).encode())])
    count = 500
    took = sent(folder, [message("POST", "/objects", service(n, f"y{n}").encode()) for n in range(count)])
    print(f"over 2,000 objects: a definition of one {took / count * 1e3:.3f} ms (read, judged, written, answered)")
    took = sent(folder, [message("POST", "/objects", service(n, f"y{n}").encode()) for n in range(count)])
    print(f"over 2,000 objects: a definition that changes nothing {took / count * 1e3:.3f} ms")
    both = [it for n in range(count) for it in (message("DELETE", f"/objects/Service/s{n}"), message("POST", "/objects", service(n).encode()))]
    took = sent(folder, both)
    print(f"over 2,000 objects: a removal and a definition {took / count * 1e3:.3f} ms")
    before = min(run(["pipe"], folder, b"")[0] for _ in range(RUNS))
    took = sent(folder, [message("POST", "/objects", service(n % 2000, f"z{n}").encode()) for n in range(10_000)])
    after = min(run(["pipe"], folder, b"")[0] for _ in range(RUNS))
    print(f"over 2,000 objects: 10,000 definitions of one object each {took:.2f} s; the opening of a journal that has them {after - before:.2f} s more than before", flush=True)


def calendars(room):
    """200 SLOs with calendars, and with rolling windows."""
    found = {}
    for name, window in (("calendars", CALENDAR), ("rolling windows", ROLLING)):
        text = "---\n".join([service(0), SLI, *(slo(n, window) for n in range(200))]).encode()
        took = min(run(["check"], room, text)[0] for _ in range(15))
        found[name] = took
        folder = fresh(room, "slos")
        sent(folder, [message("POST", "/objects", text)])
        count = 20
        took = sent(folder, [message("POST", "/objects", text.replace(b"  description: x\n", b"  description: y%d\n" % n)) for n in range(count)])
        print(f"200 SLOs with {name}, {len(text)} bytes: check {found[name] * 1e3:.1f} ms, the whole program; a definition of all of them {took / count * 1e3:.2f} ms")


def main(program, _):
    global PROGRAM
    PROGRAM = program
    with tempfile.TemporaryDirectory(prefix="documents-") as room:
        worst(room)
        definitions(room)
        calendars(room)

