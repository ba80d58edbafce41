"""What an office keeps from request to request, held against one that is opened anew for each.

Sessions of 250 random requests: definitions, removals and conditions that change, samples that come late, again and
corrected, exclusions and liftings, ticks, takings, timelines, budgets, burn rates. Each is answered twice: by one run of
`pipe`, which keeps its sums and lines from request to request, and by a run of `pipe` for each request, which opens the
journal anew and so has kept nothing. The answers, and the reports afterwards, must be the same bytes.
"""
from __future__ import annotations

import random
from collections.abc import Callable, Iterator, Sequence

import held
import objects
from office import Answer, Office, answers, define, message, minute_now
from report import Report, Skipped

REQUESTS = 250
POLICIES = ["workbook-page", "workbook-ticket", "p1", "p2"]
Pick = Callable[[Sequence[str]], str]


def condition(pick: Pick, name: str) -> str:
    return objects.condition(name, pick(["1", "2", "14.4", "0.5"]), pick(["5m", "30m", "1h", "6h"]), pick(["gt", "gte", "lt"]),
                             f"    alertAfter: {pick(['0m', '5m', '2m'])}\n")


def policy(pick: Pick, name: str, over: str) -> str:
    lines = f"  alertWhenBreaching: true\n  alertWhenResolved: {pick(['true', 'false'])}\n  alertWhenNoData: {pick(['true', 'false'])}\n"
    return objects.policy(name, over, lines)


def objective(pick: Pick, method: str, indicator: str) -> str:
    text = f"  - target: {pick(['0.9', '0.99', '0.5'])}\n"
    if method == "Timeslices":
        text += f"    timeSliceTarget: {pick(['0.9', '0.5'])}\n    timeSliceWindow: {pick(['1m', '5m', '15m', '60m'])}\n"
    if method == "RatioTimeslices":
        text += f"    timeSliceWindow: {pick(['1m', '5m', '20m'])}\n"
    if indicator == "waits":
        text += f"    op: {pick(['lt', 'gte'])}\n    value: {pick(['10', '20.5'])}\n"
    return text


def slo(chance: random.Random, name: str) -> str:
    pick: Pick = chance.choice
    indicator = pick(["good", "waits"])
    method = pick(["Occurrences", "Timeslices", "RatioTimeslices"]) if indicator == "good" else "Timeslices"
    objectives = "".join(objective(pick, method, indicator) for _ in range(chance.randint(1, 2)))
    window = f"  - duration: {pick(['3h', '1d', '30d'])}\n    isRolling: true\n"
    return objects.slo(name, indicator, objectives, chance.sample(POLICIES, chance.randint(1, 3)), method, window)


def first_objects(chance: random.Random) -> list[str]:
    pick: Pick = chance.choice
    return [objects.service("shop"), objects.ratio("good"), objects.threshold("waits"), condition(pick, "c1"), condition(pick, "c2"),
            policy(pick, "p1", "c1"), policy(pick, "p2", "c2"), *(slo(chance, f"s{n}") for n in range(4))]


def batch(chance: random.Random, base: int, now: int, revisions: dict[tuple[str, str, int], int]) -> bytes:
    rows = ""
    for n in range(chance.choice([1, 3, 40])):
        minute = min(base + chance.choice([n, chance.randint(0, 70)]), now - 1)
        cell = chance.choice(["good", "waits"]), chance.choice(["web", "desk"]), minute
        revision = max(1, revisions.get(cell, 0) + chance.choice([0, 1, 1, 1, 2]))
        revisions[cell] = max(revision, revisions.get(cell, 0))
        total = chance.choice([0, 1, 10, 1000])
        amount = f"{chance.randint(0, total)},{total}" if cell[0] == "good" else chance.choice(["5", "15", "30.25"]) + ","
        rows += f"{cell[0]},{cell[1]},{minute},{revision},{amount}\n"
    return message("POST", "/samples", rows)


def requests(seed: int, origin: int, now: int) -> Iterator[bytes]:
    """The requests of a session, one after another."""
    chance = random.Random(seed)
    pick: Pick = chance.choice
    revisions: dict[tuple[str, str, int], int] = {}
    ids: list[str] = []
    yield define(*first_objects(chance))
    for _ in range(REQUESTS):
        name, number = f"s{chance.randint(0, 4)}", chance.randint(0, 2)
        base = origin + chance.choice([0, chance.randint(0, now - origin - 10)])
        what = chance.random()
        if what < 0.30:
            yield batch(chance, base, now, revisions)
        elif what < 0.36:
            ids.append(f"m{len(ids)}")
            yield message("PUT", f"/exclusions/{ids[-1]}", f'{{"from":{base},"slo":"{name}","to":{base + chance.choice([1, 30, 600, 3000])}}}')
        elif what < 0.41 and ids:
            yield message("DELETE", f"/exclusions/{pick(ids)}")
        elif what < 0.62:
            end = min(now, base + chance.choice([1, 60, 500, 3000]))
            yield message("GET", f"/alerts/{name}/{number}/{pick(POLICIES)}?from={base}&to={end}")
        elif what < 0.70:
            yield message("POST", "/tick")
        elif what < 0.76:
            yield define(slo(chance, name))
        elif what < 0.79:
            yield define(condition(pick, pick(["c1", "c2"])))
        elif what < 0.81:
            yield define(policy(pick, pick(["p1", "p2"]), pick(["c1", "c2"])))
        elif what < 0.84:
            yield message("DELETE", f"/objects/SLO/{name}")
        elif what < 0.88:
            yield message("GET", f"/budgets/{name}?at={base}")
        elif what < 0.92:
            yield message("GET", f"/burns/{name}/{number}?lookback={pick(['5m', '1h', '1d'])}&at={base}")
        elif what < 0.96:
            yield message("GET", "/notices")
        else:
            yield message("POST", f"/notices/{chance.randint(1, 30)}/take")


def asked_at(office: Office, minute: int, messages: list[bytes], at_once: int) -> list[Answer]:
    """The answers to these messages, in sessions of so many, all of them at one minute."""
    found: list[Answer] = []
    for at in range(0, len(messages), at_once):
        try:
            ran = held.run(office.program, ["pipe"], office.folder, b"".join(messages[at : at + at_once]), held.Outside([minute]))
        except held.Absent as why:
            raise Skipped(str(why)) from None
        assert ran.status == 0, ran
        found += answers(ran.output)
    return found


def try_session(report: Report, seed: int) -> None:
    now = minute_now()
    origin = now - random.Random(seed).choice([7_000, 20_000])
    asked = list(requests(seed, origin, now))
    one, many = (Office(report.program, report.folder(f"{name}-{seed}"), origin) for name in ("one", "many"))
    kept, anew = asked_at(one, now, asked, len(asked)), asked_at(many, now, asked, 1)
    assert sum(it.status == 200 for it in kept) > REQUESTS // 3, "too few answers to say much"
    for number, (left, right) in enumerate(zip(kept, anew, strict=True)):
        assert left == right, f"request {number}, {asked[number][:80]!r}: {left} from what is kept, {right} anew"
    assert one.report(now) == many.report(now), "another report"


def run(report: Report) -> None:
    for seed in range(20 if report.whole else 1):
        with report.case(f"{REQUESTS} requests, seed {seed}"):
            try_session(report, seed)
