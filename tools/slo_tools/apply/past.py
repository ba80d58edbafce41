"""What a plan does to the past: windows that are over are judged by the definitions that stand, and
exclusions and rows belong to names."""

from __future__ import annotations

from collections.abc import Callable, Iterator, Mapping, Sequence
from dataclasses import dataclass
from fractions import Fraction
from typing import NamedTuple, Optional

from slo_tools.apply.folder import Zone
from slo_tools.apply.form import slice_minutes
from slo_tools.apply.judging import Name, calendar_zones, define, rank_of
from slo_tools.apply.planning import Definition, Plan, Running, node_of, spelled
from slo_tools.apply.slices import SLICED
from slo_tools.clock import date_of
from slo_tools.nodes import Fields, Items, Node, Scalar, items_at, node_at, text_at
from slo_tools.office import Office
from slo_tools.past.scratch import Message, Scratch
from slo_tools.questions import Question, path_of
from slo_tools.questions import sums as sums_of
from slo_tools.refusals import BadRequest, NotFound, Refusal
from slo_tools.spelling import percent
from slo_tools.told import Told

A_YEAR = 527_040
# Of an objective: a daily window has a year of them.
MOST_WINDOWS = 12
COUNTING = ("op", "value", "timeSliceTarget", "timeSliceWindow")

Span = tuple[int, int]
Sum = tuple[int, int]


@dataclass(frozen=True)
class Past:
    """Where effects are looked for: the running office, what it holds and is to hold."""

    program: str
    office: Office
    running: Running
    wanted: Mapping[Name, str]
    zones: Sequence[Zone]
    has_samples: Callable[[str], bool]


class _Window(NamedTuple):
    """A window that is over: its minutes, and each objective's sum in it."""

    span: Span
    sums: list[Sum]


class _Change(NamedTuple):
    """An SLO that changes: as it stands, and as it is to stand."""

    name: str
    before: Fields
    after: Fields

    def spec(self, *path: str) -> tuple[Optional[Node], Optional[Node]]:
        return node_at(self.before, "spec", *path), node_at(self.after, "spec", *path)


def effects_of(past: Past, plan: Plan) -> list[str]:
    """A line for each effect of a plan on the past, none where there is none."""
    return [
        *(line for change in _changes(plan) for line in _of_change(past, change)),
        *_of_removals(past.office, plan),
        *_of_new_names(past, plan),
    ]


def _changes(plan: Plan) -> Iterator[_Change]:
    for definition in plan.definitions:
        if definition.name[0] == "SLO" and definition.before is not None:
            before = node_of(definition.name, definition.before)
            yield _Change(definition.name[1], before, node_of(definition.name, definition.text))


def _of_change(past: Past, change: _Change) -> Iterator[str]:
    reasons = list(_otherwise_counted(change))
    windows_differ = not _same(*change.spec("timeWindow"))
    if not reasons and not windows_differ and _targets(change.before) == _targets(change.after):
        return
    over = _windows_over(past.office, change)
    counted = [window for window in over if any(den for _, den in window.sums)]
    if not counted:
        return
    front = f"SLO {change.name}"
    if reasons:
        count = (
            f"{len(counted)} windows that are over" if len(counted) > 1 else "a window that is over"
        )
        yield f"{front} counts otherwise ({', '.join(reasons)}): {count} will be judged anew"
        return
    after = counted
    if windows_differ:
        found = _windows_after(past, change, over)
        if found is None:
            yield f"{front} gets other windows: its {len(counted)} that are over are no more"
            return
        after = found
    for objective in range(len(_targets(change.before))):
        lines = list(_judged(change, objective, counted, after))
        for line in lines[-MOST_WINDOWS:]:
            yield f"{front}, objective {objective}, {line}"
        if len(lines) > MOST_WINDOWS:
            yield f"{front}, objective {objective}, and {len(lines) - MOST_WINDOWS} windows before"


def _judged(
    change: _Change, objective: int, before: Sequence[_Window], after: Sequence[_Window]
) -> Iterator[str]:
    """The windows of an objective whose remaining budget changes, the oldest first."""
    old = _left_by_window(change.before, objective, before)
    new = _left_by_window(change.after, objective, after)
    for span in sorted({*old, *new}):
        if old.get(span) != new.get(span):
            begin, end = map(date_of, span)
            yield f"{begin} to {end}: {_left(old.get(span))} becomes {_left(new.get(span))}"


def _left(remaining: Optional[Fraction]) -> str:
    return "none" if remaining is None else f"{percent(remaining)} left"


def _left_by_window(
    slo: Fields, objective: int, windows: Sequence[_Window]
) -> dict[Span, Optional[Fraction]]:
    targets = _targets(slo)
    if objective >= len(targets):
        return {}
    found: dict[Span, Optional[Fraction]] = {}
    for span, sums in windows:
        num, den = sums[objective]
        if den:
            found[span] = 1 - Fraction(den - num, den) / (1 - targets[objective])
    return found


def _otherwise_counted(change: _Change) -> Iterator[str]:
    """What makes an SLO count its past otherwise, so that its sums are no more."""
    for key in ("indicatorRef", "budgetingMethod"):
        before, after = (text_at(node, "spec", key) for node in (change.before, change.after))
        if before != after:
            yield f"{key} {before} becomes {after}"
    objectives = (list(items_at(node, "spec", "objectives")) for node in change[1:])
    for number, (old, new) in enumerate(zip(*objectives)):
        for key in COUNTING:
            before, after = text_at(old, key), text_at(new, key)
            if before != after:
                yield f"{key} of objective {number} {before or 'none'} becomes {after or 'none'}"


def _windows_over(office: Office, change: _Change) -> list[_Window]:
    """The calendar windows of an SLO that are over since a year, with its sums."""
    status = office.status()
    if status is None:
        return []
    at, origin = status["at"], status["origin"]
    since = max(origin, at - A_YEAR)
    try:
        found = office.one(_windows(change.name, since, at))
        begins_within = bool(found) and since == origin
        first = _first_window(office, change, origin, found[0][0]) if begins_within else None
    except Refusal:
        return []
    over = [
        _Window((begin, end), sums) for begin, end, sums in found if end is not None and end <= at
    ]
    return over if first is None else [first, *over]


def _first_window(office: Office, change: _Change, origin: int, end: int) -> Optional[_Window]:
    """The window in which the history begins, which no list of windows has: the budgets up to its
    last minute, and what that adds."""
    if end == origin:
        return None
    try:
        budgets = office.budgets(change.name, end - 1).budgets
    except NotFound:
        # The calendar's first window begins later.
        return None
    sums = []
    for budget, width in zip(budgets, _widths(change.before)):
        ((num, den),) = office.sums(
            change.name, budget.objective, max(origin, end - width), end, width
        )
        sums.append((budget.num + num, budget.den + den))
    begin = budgets[0].begin
    return None if begin is None else _Window((begin, end), sums)


def _widths(slo: Fields) -> list[int]:
    """The minutes of each objective's slices; events are counted by the minute."""
    is_sliced = text_at(slo, "spec", "budgetingMethod") in SLICED
    texts = [text_at(item, "timeSliceWindow") for item in items_at(slo, "spec", "objectives")]
    return [(slice_minutes(text or "") or 1) if is_sliced else 1 for text in texts]


def _windows(
    slo: str, begin: int, end: int
) -> Question[list[tuple[int, Optional[int], list[Sum]]]]:
    path = path_of(["windows", slo], {"from": begin, "to": end})
    return Question(path, lambda answer: answer.told().each("windows", _window))


def _window(told: Told) -> tuple[int, Optional[int], list[Sum]]:
    sums = told.each("budgets", lambda each: (each.number("num"), each.number("den")))
    return told.number("from"), told.number_or_none("to"), sums


def _windows_after(
    past: Past, change: _Change, before: Sequence[_Window]
) -> Optional[list[_Window]]:
    """The windows of a changed calendar over the same time, with the sums that they have; None
    where there are none, or where the folder doesn't have their time zone."""
    zones = calendar_zones([change.after]) - {"UTC"} - {zone.name for zone in past.zones}
    if zones or node_at(next(items_at(change.after, "spec", "timeWindow")), "calendar") is None:
        return None
    status = past.office.status()
    if status is None:
        return None
    first, last = max(before[0].span[0], status["origin"]), before[-1].span[1]
    spans = [span for span in _spans(past, change.name, first, last) if span[1] <= last]
    objectives = range(len(_targets(change.before)))
    asked = [
        sums_of(change.name, objective, begin, end, end - begin)
        for begin, end in spans
        for objective in objectives
    ]
    told = [outcome.get()[0] for outcome in past.office.asked(asked)]
    return [
        _Window(span, told[place * len(objectives) : (place + 1) * len(objectives)])
        for place, span in enumerate(spans)
    ]


def _spans(past: Past, slo: str, first: int, last: int) -> list[Span]:
    """The windows of an SLO as it is to stand, told by a scratch office."""
    with Scratch(past.program, first) as scratch:
        for zone in past.zones:
            scratch.one(Message("PUT", f"/zones/{zone.name}", zone.content))
        texts = {**past.running.texts, **past.wanted}
        define(scratch, (texts[name] for name in sorted(texts, key=rank_of)))
        answer = scratch.one(Message("GET", f"/windows/{slo}?from={first}&to={last}"))
        windows = answer.members.get("windows", [])
        return [(each["from"], each["to"]) for each in windows if each["to"] is not None]


def _of_removals(office: Office, plan: Plan) -> Iterator[str]:
    """Exclusions belong to an SLO's name."""
    gone = [name[1] for name in plan.removals if name[0] == "SLO"]
    if not gone:
        return
    try:
        exclusions = [each for each in office.exclusions() if each["live"]]
    except (BadRequest, NotFound):
        return
    for slo in gone:
        ids = [str(each["id"]) for each in exclusions if each["slo"] == slo]
        if ids:
            more = f" and {len(ids) - 5} more" if len(ids) > 5 else ""
            like = _alike(plan, slo)
            other = (
                f", and SLO {like}, which is the same but for its name, has none of them"
                if like
                else ""
            )
            yield f"SLO {slo} goes with its exclusions ({', '.join(ids[:5])}{more}){other}"


def _alike(plan: Plan, slo: str) -> Optional[str]:
    """A new SLO with the spec of one that goes."""
    before = plan.gone.get(("SLO", slo))
    spec = None if before is None else node_at(node_of(("SLO", slo), before), "spec")
    for definition in plan.definitions:
        if definition.name[0] == "SLO" and definition.before is None:
            if _same(spec, node_at(node_of(definition.name, definition.text), "spec")):
                return definition.name[1]
    return None


def _of_new_names(past: Past, plan: Plan) -> Iterator[str]:
    """Rows belong to an indicator's name."""
    beside = [name for name in past.running.texts if name[0] == "SLI" and name not in past.wanted]
    for definition in plan.definitions:
        if definition.name[0] == "SLI" and definition.before is None:
            for name in beside:
                if _is_renamed(past.running.texts[name], definition) and past.has_samples(name[1]):
                    yield (
                        f"{spelled(definition.name)} is {spelled(name)} under another name,"
                        " and has none of its rows: what counts by it begins anew"
                    )


def _is_renamed(before: str, definition: Definition) -> bool:
    old = node_at(node_of(definition.name, before), "spec")
    return _same(old, node_at(node_of(definition.name, definition.text), "spec"))


def _targets(slo: Fields) -> list[Fraction]:
    found = []
    for item in items_at(slo, "spec", "objectives"):
        target, in_percent = text_at(item, "target"), text_at(item, "targetPercent")
        found.append(Fraction(in_percent or 0) / 100 if target is None else Fraction(target))
    return found


def _same(one: Optional[Node], other: Optional[Node]) -> bool:
    return _content(one) == _content(other)


def _content(node: Optional[Node]) -> object:
    """A node without its places."""
    if isinstance(node, Fields):
        return {key.text: _content(value) for key, value in node.entries}
    if isinstance(node, Items):
        return [_content(item) for item in node.items]
    return None if not isinstance(node, Scalar) or node.is_null else node.text
