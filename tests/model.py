"""An office in plain Python, by the rules of docs/rules.md and the answers of docs/api.md alone.

It keeps what was accepted and nothing beside: each answer is computed from scratch over the current rows, by fractions.
Objects come as values and not as documents, windows are rolling, zones are bytes, and no limit but those of cells and
accepted rows is judged. It is told each request as a call with the clock's reading, and gives status and body of its answer.
"""
from __future__ import annotations

import json
from bisect import bisect_left
from collections.abc import Callable, Iterator, Sequence
from dataclasses import dataclass, field
from fractions import Fraction
from functools import lru_cache
from operator import ge, gt, le, lt
from typing import Any

from office import Answer

BILLION = 1_000_000_000
MINUTES = 2_097_152
OPS: dict[str, Callable[[Any, Any], bool]] = {"gt": gt, "gte": ge, "lt": lt, "lte": le}
# The long and the short window in minutes, and the burn rate above which both have to be.
BUILT_IN = {"workbook-page": [(60, 5, Fraction("14.4")), (360, 30, Fraction(6))], "workbook-ticket": [(4320, 360, Fraction(1))]}
# The most cells and accepted rows, and those of an upgraded office.
ROOM = {False: (2_000_000, 4_000_000), True: (4_000_000, 8_000_000)}
# What an office has at most of all else that its status counts.
MOST = {"bindings": 400, "bytes": 268_435_456, "days": 80_000, "exclusions": 2_000, "notices": 100_000, "objects": 2_000, "slis": 200, "slos": 200, "zones": 50}


@dataclass(frozen=True)
class Row:
    """A sample. The amount is a part and a total, a value, or None where the row is withdrawn."""

    sli: str
    source: str
    minute: int
    revision: int
    amount: tuple[int, int] | Fraction | None

    @property
    def cell(self) -> tuple[str, str, int]:
        return self.sli, self.source, self.minute


@dataclass(frozen=True)
class Objective:
    target: Fraction
    slice_target: Fraction | None = None
    width: int = 1
    op: str | None = None
    value: Fraction | None = None


@dataclass(frozen=True)
class Slo:
    sli: str
    method: str
    window: int
    objectives: tuple[Objective, ...]
    policies: tuple[str, ...]


@dataclass(frozen=True)
class Condition:
    threshold: Fraction
    lookback: int
    op: str
    after: int


@dataclass(frozen=True)
class Policy:
    condition: str
    breaching: bool
    resolved: bool
    no_data: bool


def text_of(amount: tuple[int, int] | Fraction | None) -> str:
    """An amount as a conflict tells it."""
    if amount is None:
        return "withdrawn"
    if isinstance(amount, tuple):
        return f"{amount[0]},{amount[1]}"
    whole, part = divmod(int(amount * BILLION), BILLION)
    return f"{whole}.{part:09}".rstrip("0").rstrip(".")


def fraction(value: Fraction | None) -> str | None:
    return None if value is None else f"{value.numerator}/{value.denominator}"


def answer(status: int, **members: Any) -> Answer:
    return Answer(status, json.dumps(members, sort_keys=True, separators=(",", ":")).encode())


class Refused(Exception):
    """What a request is answered that an office refuses."""

    def __init__(self, status: int, error: str, **members: Any) -> None:
        super().__init__(error)
        self.answer = answer(status, error=error, **members)


NOT_FOUND, RANGE = (404, "not_found"), (422, "range")


class Sums:
    """The leaves of an objective's slices that have data, in their order, added up from the first on."""

    def __init__(self, width: int, leaves: dict[int, tuple[int, int]]) -> None:
        self.width, self.slices = width, sorted(leaves)
        self.added = [(0, 0)]
        for it in self.slices:
            self.added.append((self.added[-1][0] + leaves[it][0], self.added[-1][1] + leaves[it][1]))

    def between(self, begin: int, end: int) -> tuple[int, int]:
        """Numerator and denominator of the slices that lie wholly in [begin, end)."""
        first = bisect_left(self.slices, -(-max(begin, 0) // self.width))
        last = max(first, bisect_left(self.slices, end // self.width))
        return self.added[last][0] - self.added[first][0], self.added[last][1] - self.added[first][1]


@lru_cache(1 << 16)
def burn_of(num: int, den: int, target: Fraction) -> Fraction | None:
    return Fraction(den - num, den) / (1 - target) if den else None


@dataclass
class Office:
    """What was accepted from the origin on. `elsewhere` is how many cells and accepted rows no request here speaks of."""

    origin: int
    elsewhere: tuple[int, int] = (0, 0)
    entries: int = 0
    present: int = 0
    is_upgraded: bool = False
    slis: dict[str, str] = field(default_factory=dict)
    slos: dict[str, Slo] = field(default_factory=dict)
    conditions: dict[str, Condition] = field(default_factory=dict)
    policies: dict[str, Policy] = field(default_factory=dict)
    rows: dict[tuple[str, str, int], Row] = field(default_factory=dict)
    accepted: int = 0
    exclusions: dict[str, tuple[str, int, int]] = field(default_factory=dict)
    lifted: set[str] = field(default_factory=set)
    states: dict[tuple[str, int, str], str] = field(default_factory=dict)
    notices: list[dict[str, Any]] = field(default_factory=list)
    taken: set[int] = field(default_factory=set)
    zones: dict[str, str] = field(default_factory=dict)
    # Objects of kinds of which no answer here speaks.
    others: int = 0

    def ask(self, reading: int, what: str, *words: Any) -> Answer:
        """The answer to a request, which is the name of a method here and what it is given behind the moment."""
        moment = max(reading, self.present)
        if moment >= self.origin + MINUTES:
            return answer(500, error="clock_range", end=self.origin + MINUTES, reading=moment)
        try:
            found: Answer = getattr(self, what)(moment, *words)
        except Refused as why:
            return why.answer
        return found

    def entry(self, moment: int) -> int:
        self.present, self.entries = moment, self.entries + 1
        return self.entries - 1

    def changed(self, moment: int, is_change: bool) -> Answer:
        return answer(200, entry=self.entry(moment) if is_change else None)

    # What changes

    def define(self, moment: int, kept: str, objects: dict[str, Any]) -> Answer:
        """Objects of one kind, by their names: `kept` is the name of the member that has them."""
        members: dict[str, Any] = getattr(self, kept)
        if kept == "slos":
            for name, it in objects.items():
                if it.sli not in self.slis:
                    raise Refused(422, "unresolved", from_kind="SLO", from_name=name, kind="SLI", name=it.sli)
        if kept == "slis":
            for name, it in objects.items():
                if it != self.slis.get(name):
                    self.must_have_no_row(name)
        is_change = any(members.get(name) != it for name, it in objects.items())
        members.update(objects)
        return answer(200, applied=len(objects), entry=self.entry(moment) if is_change else None)

    def remove_slo(self, moment: int, name: str) -> Answer:
        if name not in self.slos:
            raise Refused(*NOT_FOUND)
        del self.slos[name]
        return self.changed(moment, True)

    def remove_sli(self, moment: int, name: str) -> Answer:
        if name not in self.slis:
            raise Refused(*NOT_FOUND)
        for user, slo in sorted(self.slos.items()):
            if slo.sli == name:
                raise Refused(409, "in_use", by_kind="SLO", by_name=user)
        self.must_have_no_row(name)
        del self.slis[name]
        return self.changed(moment, True)

    def must_have_no_row(self, sli: str) -> None:
        for row in self.rows.values():
            if row.sli == sli:
                raise Refused(409, "has_samples", minute=row.minute, name=sli, source=row.source)

    def samples(self, moment: int, rows: Sequence[Row]) -> Answer:
        kept, tally = dict(self.rows), {"new": 0, "newer": 0, "repeated": 0, "superseded": 0}
        if len(rows) > 1000:
            raise Refused(507, "limit", which="rows")
        for number, row in enumerate(rows, 1):
            before = kept.get(row.cell)
            self.judge(moment, row, before, number)
            what = "new" if before is None else "newer" if row.revision > before.revision else "repeated" if row == before else "superseded"
            tally[what] += 1
            if what in ("new", "newer"):
                kept[row.cell] = row
        put = tally["new"] + tally["newer"]
        for which, count, most in zip(("cells", "accepted"), (len(kept), self.accepted + put), ROOM[self.is_upgraded]):
            if count + self.elsewhere[which == "accepted"] > most:
                raise Refused(507, "limit", which=which)
        self.rows, self.accepted = kept, self.accepted + put
        return answer(200, entry=self.entry(moment) if put else None, **tally)

    def judge(self, moment: int, row: Row, before: Row | None, number: int) -> None:
        """The first rule that a row breaks."""
        reading = self.slis.get(row.sli)
        if reading is None:
            raise Refused(422, "unknown_sli", name=row.sli, row=number)
        if row.amount is None and not self.is_upgraded:
            raise Refused(422, "version", row=number)
        if row.amount is not None and isinstance(row.amount, tuple) != (reading in ("good", "bad")):
            raise Refused(422, "wrong_kind", row=number)
        if isinstance(row.amount, tuple) and not row.amount[0] <= row.amount[1] <= BILLION:
            raise Refused(422, "counts", row=number)
        if isinstance(row.amount, Fraction) and reading != "threshold" and row.amount > 1:
            raise Refused(422, "counts", row=number)
        if row.minute < self.origin:
            raise Refused(422, "early", minute=row.minute, origin=self.origin, row=number)
        if row.minute >= moment:
            raise Refused(422, "open_minute", minute=row.minute, moment=moment, row=number)
        if before is not None and before.revision == row.revision and before.amount != row.amount:
            raise Refused(409, "conflict", amount=text_of(before.amount), revision=before.revision, row=number)

    def exclude(self, moment: int, name: str, slo: str, begin: int, end: int) -> Answer:
        if name in self.lifted:
            raise Refused(409, "withdrawn", id=name)
        if name in self.exclusions:
            kept = self.exclusions[name]
            if kept != (slo, begin, end):
                raise Refused(409, "conflict", **{"from": kept[1], "slo": kept[0], "to": kept[2]})
            return self.changed(moment, False)
        if slo not in self.slos:
            raise Refused(422, "unresolved", kind="SLO", name=slo)
        if not self.origin <= begin < end <= self.origin + MINUTES:
            raise Refused(*RANGE)
        self.exclusions[name] = slo, begin, end
        return self.changed(moment, True)

    def lift(self, moment: int, name: str) -> Answer:
        if name not in self.exclusions:
            raise Refused(*NOT_FOUND)
        is_change = name not in self.lifted
        self.lifted.add(name)
        return self.changed(moment, is_change)

    def tick(self, moment: int) -> Answer:
        told, before, self.states = 0, self.states, {}
        for binding, state in self.bindings(moment):
            self.states[binding] = state
            if state != before.get(binding, "quiet") and self.tells(binding[2], state):
                told += 1
                slo, objective, policy = binding
                self.notices.append({"at": moment, "number": len(self.notices) + 1, "objective": objective, "policy": policy, "slo": slo, "state": state})
        return answer(200, entry=self.entry(moment), notices=told)

    def take(self, moment: int, number: int) -> Answer:
        if not 1 <= number <= len(self.notices):
            raise Refused(422, "unknown_notice", made=len(self.notices), number=number)
        is_change = number not in self.taken
        self.taken.add(number)
        return self.changed(moment, is_change)

    def upgrade(self, moment: int) -> Answer:
        is_change, self.is_upgraded = not self.is_upgraded, True
        return self.changed(moment, is_change)

    def put_zone(self, moment: int, name: str, text: str) -> Answer:
        """A zone, by bytes that are one."""
        if name == "UTC":
            raise Refused(422, "reserved", name=name)
        if name in self.zones:
            if self.zones[name] != text:
                raise Refused(409, "zone_differs", name=name)
            return self.changed(moment, False)
        self.zones[name] = text
        return self.changed(moment, True)

    # What the rows count for

    def counts(self, row: Row, objective: Objective) -> tuple[int, int]:
        reading, amount = self.slis[row.sli], row.amount
        if amount is None:
            return 0, 0
        if isinstance(amount, tuple):
            return (amount[0] if reading == "good" else amount[1] - amount[0]), amount[1]
        if reading == "threshold":
            assert objective.op
            return int(OPS[objective.op](amount, objective.value)), 1
        return int(BILLION * (amount if reading == "success" else 1 - amount)), BILLION

    def sums(self, name: str, number: int) -> Sums:
        """The slices of an objective."""
        slo = self.slos[name]
        objective = slo.objectives[number]
        width = 1 if slo.method == "Occurrences" else objective.width
        out = [(begin, end) for id, (of, begin, end) in self.exclusions.items() if of == name and id not in self.lifted]
        slices: dict[int, tuple[int, int]] = {}
        for row in self.rows.values():
            if row.sli == slo.sli and not any(begin <= row.minute < end for begin, end in out):
                good, total = self.counts(row, objective)
                before = slices.get(row.minute // width, (0, 0))
                slices[row.minute // width] = before[0] + good, before[1] + total
        return Sums(width, {place: self.leaf(slo.method, objective, *it) for place, it in slices.items() if it[1]})

    def leaf(self, method: str, objective: Objective, good: int, total: int) -> tuple[int, int]:
        if method == "Occurrences":
            return good, total
        if method == "Timeslices":
            assert objective.slice_target is not None
            return int(Fraction(good, total) >= objective.slice_target), 1
        return good * BILLION // total, BILLION

    # Alerts

    def has_rule(self, policy: str) -> bool:
        return policy in BUILT_IN or policy in self.policies

    def tells(self, policy: str, state: str) -> bool:
        if policy in BUILT_IN:
            return state != "no_data"
        flags = self.policies[policy]
        return {"breaching": flags.breaching, "quiet": flags.resolved, "no_data": flags.no_data}[state]

    def rule(self, policy: str, sums: Sums, target: Fraction) -> tuple[Callable[[int], bool], int, int]:
        """Whether the condition holds at a minute, for how many minutes it has to before, and where data has to be."""

        def above(minute: int, length: int, op: str, threshold: Fraction) -> bool:
            burn = burn_of(*sums.between(minute - length, minute), target)
            return burn is not None and OPS[op](burn, threshold)

        if policy in BUILT_IN:
            pairs = BUILT_IN[policy]
            return lambda minute: minute >= self.origin and any(above(minute, long, "gt", most) and above(minute, short, "gt", most) for long, short, most in pairs), 0, pairs[0][0]
        it = self.conditions[self.policies[policy].condition]
        return lambda minute: minute >= self.origin and above(minute, it.lookback, it.op, it.threshold), it.after, it.lookback

    def active(self, holds: Callable[[int], bool], wait: int, begin: int, end: int) -> Iterator[int]:
        """The minutes of [begin, end) at which an alert is active."""
        run = 0
        for minute in range(max(begin - wait, 0), end):
            run = run + 1 if holds(minute) else 0
            if minute >= begin and run > wait:
                yield minute

    def state(self, binding: tuple[str, int, str], moment: int) -> str:
        slo, objective, policy = binding
        sums = self.sums(slo, objective)
        holds, wait, lookback = self.rule(policy, sums, self.slos[slo].objectives[objective].target)
        if any(self.active(holds, wait, moment, moment + 1)):
            return "breaching"
        return "quiet" if sums.between(moment - lookback, moment)[1] else "no_data"

    def bindings(self, moment: int) -> Iterator[tuple[tuple[str, int, str], str]]:
        for name, slo in sorted(self.slos.items()):
            for number in range(len(slo.objectives)):
                for policy in filter(self.has_rule, slo.policies):
                    yield (name, number, policy), self.state((name, number, policy), moment)

    # What is asked

    def objective(self, slo: str, number: int) -> Objective:
        if slo not in self.slos or number >= len(self.slos[slo].objectives):
            raise Refused(*NOT_FOUND)
        return self.slos[slo].objectives[number]

    def budgets(self, moment: int, slo: str, at: int) -> Answer:
        if slo not in self.slos:
            raise Refused(*NOT_FOUND)
        if not self.origin <= at <= moment:
            raise Refused(*RANGE)
        begin, budgets = max(0, at - self.slos[slo].window), []
        for number, it in enumerate(self.slos[slo].objectives):
            num, den = self.sums(slo, number).between(begin, at)
            burn, error = burn_of(num, den, it.target), Fraction(den - num, den) if den else None
            remaining = None if burn is None else 1 - burn
            budgets.append({"burn": fraction(burn), "den": den, "error": fraction(error), "from": begin, "num": num, "objective": number, "remaining": fraction(remaining)})
        return answer(200, at=at, budgets=budgets, entries=self.entries)

    def burn(self, moment: int, slo: str, number: int, lookback: int, at: int) -> Answer:
        objective = self.objective(slo, number)
        if not self.origin <= at <= moment or not 0 < lookback <= 43_200:
            raise Refused(*RANGE)
        num, den = self.sums(slo, number).between(at - lookback, at)
        return answer(200, at=at, burn=fraction(burn_of(num, den, objective.target)), den=den, entries=self.entries, num=num)

    def alerts(self, moment: int, slo: str, number: int, policy: str, begin: int, end: int) -> Answer:
        objective = self.objective(slo, number)
        if policy not in self.slos[slo].policies or not self.has_rule(policy):
            raise Refused(*NOT_FOUND)
        if not self.origin <= begin <= end <= moment or end - begin > 44_640:
            raise Refused(*RANGE)
        holds, wait, _ = self.rule(policy, self.sums(slo, number), objective.target)
        intervals: list[list[int]] = []
        for minute in self.active(holds, wait, begin, end):
            if intervals and intervals[-1][1] == minute:
                intervals[-1][1] += 1
            else:
                intervals.append([minute, minute + 1])
        return answer(200, entries=self.entries, intervals=intervals, state=self.state((slo, number, policy), moment))

    def waiting(self, moment: int) -> Answer:
        return answer(200, entries=self.entries, notices=[it for it in self.notices if it["number"] not in self.taken][:1000])

    def sums_over(self, moment: int, slo: str, number: int, begin: int, end: int, step: int) -> Answer:
        """The sums over stretches of `step` minutes from `begin` on, the last one cut at `end`."""
        self.objective(slo, number)
        if not self.origin <= begin <= end <= moment or step == 0 or end - begin > 576_000 or -(-(end - begin) // step) > 2_000:
            raise Refused(*RANGE)
        slices = self.sums(slo, number)
        return answer(200, at=moment, entries=self.entries, sums=[slices.between(it, min(it + step, end)) for it in range(begin, end, step)])

    def windows(self, moment: int, slo: str, begin: int, end: int) -> Answer:
        """A rolling window has no start."""
        if slo not in self.slos:
            raise Refused(*NOT_FOUND)
        if not self.origin <= begin <= end <= moment:
            raise Refused(*RANGE)
        return answer(200, at=moment, entries=self.entries, windows=[])

    def row(self, moment: int, sli: str, source: str, minute: int) -> Answer:
        """The current row of a cell."""
        if sli not in self.slis:
            raise Refused(*NOT_FOUND)
        found = self.rows.get((sli, source, minute))
        if found is None:
            return answer(200, entries=self.entries, row=None)
        amount: Any = found.amount
        total = None
        if isinstance(amount, tuple):
            amount, total = amount
        elif amount is not None:
            amount = text_of(amount)
        return answer(200, entries=self.entries, row={"amount": amount, "revision": found.revision, "total": total})

    def excluded(self, moment: int) -> Answer:
        """All exclusions, in the order in which they were made."""
        made = [{"from": begin, "id": name, "live": name not in self.lifted, "slo": slo, "to": end} for name, (slo, begin, end) in self.exclusions.items()]
        return answer(200, entries=self.entries, exclusions=made)

    def zone_names(self, moment: int) -> Answer:
        return answer(200, entries=self.entries, zones=sorted(self.zones, key=str.encode))

    def status(self, moment: int) -> Answer:
        """How full the office is. The bytes of its journal, which aren't known here, are null."""
        days = {sli: len({row.minute // 1440 for row in self.rows.values() if row.sli == sli}) for sli in self.slis}
        pairs = [(len(slo.objectives), slo) for slo in self.slos.values()]
        counts = {
            "bindings": sum(count * sum(map(self.has_rule, slo.policies)) for count, slo in pairs), "bytes": None,
            "days": sum(count * days[slo.sli] for count, slo in pairs), "exclusions": len(self.exclusions),
            "notices": len(self.notices) - len(self.taken), "objects": self.others + sum(map(len, (self.slis, self.slos, self.conditions, self.policies))),
            "slis": len(self.slis), "slos": len(self.slos), "zones": len(self.zones),
        }
        cells, accepted = ROOM[self.is_upgraded]
        used = {name: [count, MOST[name]] for name, count in counts.items()}
        return answer(200, **used, accepted=[self.accepted, accepted], at=moment, cells=[len(self.rows), cells], entries=self.entries,
                      last=self.present if self.entries else None, origin=self.origin, version=2 if self.is_upgraded else 1)

    def report(self, at: int) -> str:
        """The text of `report AT`."""
        lines, states = [f"report at {at}, entries {self.entries}"], dict(self.bindings(at))
        for name, slo in sorted(self.slos.items()):
            for number, it in enumerate(slo.objectives):
                num, den = self.sums(name, number).between(max(0, at - slo.window), at)
                burn = burn_of(num, den, it.target)
                lines.append(f"{name} {number} " + ("no data" if burn is None else f"{num} {den} {percent(1 - burn)}"))
                lines += [f"  {policy} {state}" for (of, objective, policy), state in states.items() if (of, objective) == (name, number)]
        waits = sum(it["number"] not in self.taken for it in self.notices)
        return "\n".join([*lines, f"slos {len(self.slos)}, notices {waits}"]) + "\n"


def percent(value: Fraction) -> str:
    """Four places, rounded down."""
    parts = value * 1_000_000 // 1
    whole, part = divmod(abs(parts), 10_000)
    return f"{'-' * (parts < 0)}{whole}.{part:04}%"
