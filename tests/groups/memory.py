"""Refused memory: growths are refused one at a time, in a session of every kind of request, and in one of shared sums.

A small library before the C library's (it is compiled by `cc`) answers the call of a number with no memory. Each answer
of such a session has to be the one of the session that nothing was refused to, or one of them `no_memory`, and all others,
the journal's records and all that the same session sent again is answered then those of an office that was never sent
that request. Where the run ends with 7 and `no memory`, that is before its first answer, and the office is as before.
In short one growth of each few is refused, and with --whole each of them. Of an export over such a journal each growth is
refused: it ends with 7 behind a prefix of the part, or as it does.
"""
from __future__ import annotations

import os
import re
import shutil
import subprocess
from dataclasses import dataclass
from pathlib import Path

import objects
from office import EXAMPLES, Answer, Office, answers, define, message
from report import Report, Skipped

ORIGIN = 29_000_000
STRIDE, SHARED_STRIDE = 7, 41

LIBRARY = r"""
#define _GNU_SOURCE
#include <dlfcn.h>
#include <errno.h>
#include <stddef.h>
#include <stdio.h>
#include <stdlib.h>
#include <unistd.h>
static long calls, wanted = -2;
static int refused(void) {
    if (wanted == -2) { const char *it = getenv("REFUSED"); wanted = it ? atol(it) : -1; }
    return ++calls == wanted;
}
#define NEXT(name, type, given) static type (*next) given; if (!next) next = (type (*) given)dlsym(RTLD_NEXT, name)
void *malloc(size_t n) { NEXT("malloc", void *, (size_t)); if (refused()) { errno = ENOMEM; return 0; } return next(n); }
void *realloc(void *p, size_t n) { NEXT("realloc", void *, (void *, size_t)); if (refused()) { errno = ENOMEM; return 0; } return next(p, n); }
void *aligned_alloc(size_t a, size_t n) { NEXT("aligned_alloc", void *, (size_t, size_t)); if (refused()) { errno = ENOMEM; return 0; } return next(a, n); }
int posix_memalign(void **p, size_t a, size_t n) { NEXT("posix_memalign", int, (void **, size_t, size_t)); if (refused()) return ENOMEM; return next(p, a, n); }
static void told(void) { const char *it = getenv("COUNTED"); if (it) { FILE *f = fopen(it, "w"); if (f) { fprintf(f, "%ld", calls); fclose(f); } } }
/* the program ends by this call, which runs no destructors */
void _exit(int status) { NEXT("_exit", void, (int)); told(); next(status); __builtin_unreachable(); }
__attribute__((destructor)) static void ended(void) { told(); }
"""

ROWS = "".join(f"shop-good,web,{ORIGIN + n},1,9990,10000\n" for n in range(40))
REQUESTS = [
    message("POST", "/objects", (EXAMPLES / "targets.yaml").read_bytes()),
    message("POST", "/objects", (EXAMPLES / "shop.yaml").read_bytes()),
    message("POST", "/samples", ROWS),
    message("PUT", "/exclusions/night", f'{{"from":{ORIGIN + 5},"slo":"shop-slo","to":{ORIGIN + 7}}}'),
    message("POST", "/tick"),
    message("POST", "/upgrade"),
    message("POST", "/samples", "".join(f"shop-good,web,{ORIGIN + n},2,,\n" for n in range(0, 40, 2))),
    message("GET", f"/alerts/shop-slo/0/shop-alerts?from={ORIGIN}&to={ORIGIN + 60}"),
    message("GET", f"/burns/shop-slo/0?lookback=1h&at={ORIGIN + 60}"),
    message("GET", "/notices"),
    message("GET", f"/budgets/shop-slo?at={ORIGIN + 60}"),
]


def twin(name: str, target: str, sli: str = "shop-good") -> str:
    """An SLO that counts what the shop's counts."""
    return objects.slo(name, sli, f"  - target: {target}\n", ["shop-alerts"])


def excluded(name: str, slo: str, begin: int) -> bytes:
    return message("PUT", f"/exclusions/{name}", f'{{"from":{ORIGIN + begin},"slo":"{slo}","to":{ORIGIN + begin + 4}}}')


# SLOs that share their sums, part them as minutes are excluded, share them again, go and come back.
SHARED = [
    *REQUESTS[:3],
    define(twin("twin", "0.99"), twin("third", "0.5")),
    excluded("one", "twin", 3),
    excluded("two", "third", 5),
    message("POST", "/samples", "".join(f"shop-good,desk,{ORIGIN + n},1,9990,10000\n" for n in range(0, 4000, 100))),
    message("DELETE", "/exclusions/one"),
    define(twin("twin", "0.9"), twin("fourth", "0.9")),
    message("DELETE", "/objects/SLO/third"),
    define(twin("third", "0.6")),
    message("POST", "/tick"),
    *(message("GET", f"/budgets/{it}?at={ORIGIN + 4001}") for it in ("shop-slo", "twin", "third", "fourth")),
]
NO_MEMORY = Answer(503, b'{"error":"no_memory"}')


@dataclass
class Came:
    """How a session ended and was answered, and what an office holds and answers from there on."""

    status: int
    answers: list[Answer]
    errors: bytes
    records: list[bytes]
    again: list[Answer]
    records_then: list[bytes]

    def behind(self) -> tuple[list[bytes], list[Answer], list[bytes]]:
        return self.records, self.again, self.records_then


def compiled(room: Path) -> Path:
    if not shutil.which("cc"):
        raise Skipped("cc isn't installed")
    source, library = room / "refuse.c", room / "refuse.so"
    source.write_text(LIBRARY)
    subprocess.run(["cc", "-shared", "-fPIC", "-O2", "-o", library, source, "-ldl"], check=True)
    return library


class Trials:
    """Sessions over new journals, with growths refused. Behind each these requests are sent."""

    def __init__(self, report: Report, library: Path, again: list[bytes]) -> None:
        self.again = again
        self.office = Office(report.program, report.folder(f"office-{len(again)}"))
        self.counted = report.room / "counted"
        self.words = dict(os.environ, LD_PRELOAD=str(library), COUNTED=str(self.counted))

    def session(self, requests: list[bytes], refused: int | None = None) -> Came:
        self.office.journal.unlink(missing_ok=True)
        assert self.office.run("init", str(ORIGIN)).returncode == 0
        words = dict(self.words, REFUSED=str(-1 if refused is None else refused))
        first = self.office.run("pipe", data=b"".join(requests), env=words)
        left = [it[4:] for it in self.office.records()]
        again = self.office.run("pipe", data=b"".join(self.again))
        return Came(first.returncode, answers(first.stdout), first.stderr, left, answers(again.stdout), [it[4:] for it in self.office.records()])


def judge(came: Came, plain: Came, without: list[Came], nothing: Came) -> int | str | None:
    """Which request was refused, or `the run`, or nothing; raises where the session is none of what it may be."""
    if came.status == 7:
        assert not came.answers and came.errors == b"slo_office: no memory\n" and came.behind() == nothing.behind(), "another office behind a run without memory"
        return "the run"
    refused = [n for n, it in enumerate(came.answers) if it == NO_MEMORY]
    if not refused:
        assert came == plain, "another session, and no answer says why"
        return None
    other = without[refused[0]]
    others = came.answers[: refused[0]] + came.answers[refused[0] + 1 :]
    assert came.status == 0 and len(refused) == 1 and others == other.answers, "other answers beside the refused one"
    assert came.behind() == other.behind(), "another office behind a request without memory"
    return refused[0]


def try_exports(report: Report, trials: Trials) -> None:
    """The journal is that of the last session."""
    whole = trials.office.run("export", "1", env=dict(trials.words, REFUSED="-1"))
    before, count, ended = trials.office.journal.read_bytes(), int(trials.counted.read_text()), 0
    with report.case(f"export: each of {count} growths refused"):
        assert whole.returncode == 0 and whole.stdout.startswith(b"POST /upgrade HTTP/1.1\r\n"), whole
        for refused in range(1, count + 1):
            done = trials.office.run("export", "1", env=dict(trials.words, REFUSED=str(refused)))
            if done.returncode == 7:
                ended += 1
                assert whole.stdout.startswith(done.stdout) and done.stderr == b"slo_office: no memory\n", (refused, done)
            else:
                assert (done.returncode, done.stdout, done.stderr) == (0, whole.stdout, b""), (refused, done)
        assert ended > 0 and trials.office.journal.read_bytes() == before


def try_growths(report: Report, library: Path, requests: list[bytes], stride: int) -> Trials:
    """Sessions of these requests, to each of which another growth is refused."""
    trials = Trials(report, library, requests)
    nothing, plain = trials.session([]), trials.session(requests)
    count = int(trials.counted.read_text())
    without = [trials.session(requests[:n] + requests[n + 1 :]) for n in range(len(requests))]
    assert [it.status for it in plain.answers] == [200] * len(requests), plain
    assert not any(re.search(rb'"error":"[a-z]', it.body) for it in plain.answers), plain
    found: dict[int | str | None, int] = {}
    with report.case(f"one of each {stride} of {count} growths refused"):
        for refused in range(1, count + 1, stride):
            which = judge(trials.session(requests, refused), plain, without, nothing)
            found[which] = found.get(which, 0) + 1
    with report.case("some end the run, and some a request of each kind that takes memory"):
        assert found.get("the run", 0) > 0 and sum(isinstance(it, int) for it in found) >= len(requests) // 2, found
    return trials


def run(report: Report) -> None:
    with report.case("a library that refuses growths"):
        library = compiled(report.room)
    if not report.passed:
        return
    trials = try_growths(report, library, REQUESTS, 1 if report.whole else STRIDE)
    try_exports(report, trials)
    try_growths(report, library, SHARED, 1 if report.whole else SHARED_STRIDE)
